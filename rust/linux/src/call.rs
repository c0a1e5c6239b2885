//! Calls and their answers in words.

use crate::rights::answer_name;
use model::call::Call;
use model::scenario::argument_words;

/// The cells of every report: Linux names no layer, so numbers alone are compared.
pub const NO_REPORT: u64 = 0;

/// The call as a line of a scenario.
pub fn line(call: &Call) -> String {
    format!("{} {}", call.name(), argument_words(call).join(" "))
}

/// An answer as a scenario writes it.
pub fn answer_text(call: &Call, answer: i64) -> String {
    let makes_number = ["create_ruleset", "clone", "create", "link"].contains(&call.name());
    if answer >= 0 && makes_number {
        format!("new {answer}")
    } else {
        answer_name(answer)
    }
}

/// Whether a success may change something.
pub fn may_change(call: &Call) -> bool {
    !matches!(
        call,
        Call::Access { .. }
            | Call::Port { .. }
            | Call::Signal { .. }
            | Call::AbstractSocket { .. }
            | Call::Lookup { .. }
    )
}
