//! The one place where the rules differ from the Rust: "Num: one or more decimal digits alone, at most
//! 2^63-1, give Int; all else Num with its text." The Rust makes an integer of `-5` and `+5`, too.
//!
//! Such a text is handed to the Rust behind a mark that no number has, and the mark is taken off the
//! table again.

use crate::Arena;

const MARK: char = '!';

pub fn hide<'s>(text: &'s str, arena: &'s Arena<String>) -> &'s str {
    match text.starts_with(['+', '-', MARK]) {
        true => arena.alloc(format!("{MARK}{text}")),
        false => text,
    }
}

/// The text that was hidden, or one that was not.
pub fn reveal(text: &str) -> &str {
    text.strip_prefix(MARK).unwrap_or(text)
}
