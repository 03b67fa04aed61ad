//! The character transput of ALGOL 68, a second time: written from the papers alone, in plain
//! functions, to be compared with the proved implementation.

pub mod book;
pub mod calls;
pub mod checks;
pub mod choice_checks;
pub mod differ;
pub mod episodes;
pub mod event_checks;
pub mod length_checks;
pub mod pairs;
pub mod random;
pub mod refusals;
pub mod replay;
pub mod scenes;
pub mod shrink;
pub mod side;
pub mod span_checks;
pub mod spans;
pub mod steps;

/// Writes a line on standard output; a reader that went away is no failure.
pub fn say(text: &str) {
    use std::io::Write;
    let _ = writeln!(std::io::stdout(), "{text}");
}
