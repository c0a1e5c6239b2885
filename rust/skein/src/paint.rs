//! Colour, where it is wanted.

/// Whether text is coloured.
#[derive(Clone, Copy)]
pub struct Paint {
    pub on: bool,
}

impl Paint {
    pub fn granted(self, text: &str) -> String {
        self.with("32", text)
    }

    pub fn denied(self, text: &str) -> String {
        self.with("31", text)
    }

    pub fn differing(self, text: &str) -> String {
        self.with("1;31", text)
    }

    pub fn heading(self, text: &str) -> String {
        self.with("1", text)
    }

    fn with(self, code: &str, text: &str) -> String {
        if self.on {
            format!("\u{1b}[{code}m{text}\u{1b}[0m")
        } else {
            text.to_owned()
        }
    }
}
