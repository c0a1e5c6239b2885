//! Lines that are broken before they get too wide.
use std::io::IsTerminal;

/// The columns of a line where nothing says how many there are.
const COLUMNS: usize = 80;

/// The columns of a line of a stream: those of the terminal, where it is one and COLUMNS says how many they are.
pub fn width(stream: &impl IsTerminal) -> usize {
    let told = std::env::var("COLUMNS").ok();
    columns(stream.is_terminal(), told.as_deref())
}

fn columns(terminal: bool, told: Option<&str>) -> usize {
    let told = told.filter(|_| terminal).and_then(|told| told.parse().ok());
    told.map_or(COLUMNS, |told: usize| told.clamp(40, 200))
}

/// A line of text that is broken at blanks and behind `+`, with the lines after the first indented.
pub fn broken(text: &str, indent: usize, width: usize) -> String {
    let mut row = Row::new(indent, width);
    row.fill(0, text);
    row.end()
}

/// A line that is filled from left to right, and goes on in a new one where it would get too wide.
pub struct Row {
    text: String,
    /// The column that is written next.
    at: usize,
    /// Where new lines start.
    indent: usize,
    width: usize,
}

impl Row {
    pub fn new(indent: usize, width: usize) -> Row {
        let text = String::new();
        let at = 0;
        Row {
            text,
            at,
            indent,
            width,
        }
    }

    /// Puts a cell at a column, in a new line where this one is too far already, and at the indent where it has no room
    /// at its column.
    pub fn cell(&mut self, column: usize, cell: &str, paint: impl FnOnce(&str) -> String) {
        let wide = cell.chars().count();
        if wide == 0 {
            return;
        }
        let column = if column + wide <= self.width {
            column
        } else {
            self.indent
        };
        if self.at > 0 && self.at + 2 > column {
            self.new_line();
        }
        self.pad(column);
        self.text.push_str(&paint(cell));
        self.at += wide;
    }

    /// Puts text at a column, broken where it is too wide.
    pub fn fill(&mut self, column: usize, text: &str) {
        self.pad(column);
        for piece in text.split_inclusive([' ', '+']) {
            let word = piece.trim_end_matches(' ');
            let wide = word.chars().count();
            if self.at + wide > self.width && self.at > self.indent {
                self.new_line();
                self.pad(self.indent);
            }
            self.text.push_str(piece);
            self.at += piece.chars().count();
        }
    }

    fn pad(&mut self, column: usize) {
        while self.at < column {
            self.text.push(' ');
            self.at += 1;
        }
    }

    fn new_line(&mut self) {
        let filled = self.text.trim_end_matches(' ').len();
        self.text.truncate(filled);
        self.text.push('\n');
        self.at = 0;
    }

    pub fn end(mut self) -> String {
        self.new_line();
        self.text
    }
}

#[cfg(test)]
mod tests {
    use super::*;

    #[test]
    fn only_a_terminal_has_columns_of_its_own() {
        assert_eq!(columns(false, Some("120")), 80);
        assert_eq!(columns(true, Some("120")), 120);
        assert_eq!(columns(true, None), 80);
        assert_eq!(columns(true, Some("wide")), 80);
        assert_eq!(columns(true, Some("0")), 40);
        assert_eq!(columns(true, Some("99999999")), 200);
    }

    #[test]
    fn text_is_broken_at_blanks_and_behind_plus() {
        assert_eq!(broken("one two three", 2, 80), "one two three\n");
        assert_eq!(broken("one two three", 2, 8), "one two\n  three\n");
        assert_eq!(broken("one two three", 2, 7), "one two\n  three\n");
        assert_eq!(broken("one two three", 2, 6), "one\n  two\n  three\n");
        assert_eq!(broken("read+write+run x", 2, 12), "read+write+\n  run x\n");
        assert_eq!(
            broken("abc much_longer_word b", 2, 8),
            "abc\n  much_longer_word\n  b\n"
        );
        assert_eq!(broken("", 2, 8), "\n");
    }

    #[test]
    fn cells_stand_at_their_columns() {
        let row = |first: &str, second: &str| {
            let mut row = Row::new(3, 20);
            row.fill(1, first);
            row.cell(10, second, str::to_owned);
            row.end()
        };
        assert_eq!(row("abcdefg", "0"), " abcdefg  0\n");
        assert_eq!(row("abcdefgh", "0"), " abcdefgh\n          0\n");
        assert_eq!(row("abc", "0123456789"), " abc      0123456789\n");
        assert_eq!(row("abc", "0123456789x"), " abc\n   0123456789x\n");
        assert_eq!(row("abc", ""), " abc\n");
    }
}
