//! The lexer. The Rust's tokens and errors hold slices of the source; a slice's place in the source
//! and its length are what a listing keeps of them.

mod inputs;
#[cfg(test)]
mod tests;

pub use inputs::{inputs, sample};

use crate::bench;
use crate::fields::{number, put, LONGEST_INPUT, OPENING};
use crate::library;
use crate::load::lex::{Error, Expect, Lexer, StrPart, Tok, Token};
use crate::load::span;
use crate::room::{Due, Subject};
use std::hint::black_box;

pub const SUBJECT: Subject = Subject { name: "lex", code: 2, ours: library::LEX, rust: oracle };

/// "nesting over 128 in source"
const DEEPEST: usize = 128;

/// The text of a source that is not refused.
fn text(source: &[u8]) -> Result<&str, Due> {
    if source.len() > LONGEST_INPUT {
        return Err(Due::refusal(2, 0));
    }
    let text = str::from_utf8(source).map_err(|e| Due::refusal(3, e.valid_up_to() as u32))?;
    match first_too_deep(text) {
        Some(place) => Err(Due::refusal(4, place as u32)),
        None => Ok(text),
    }
}

fn oracle(source: &[u8], listing: &mut Vec<u8>) -> Due {
    listing.clear();
    let source = match text(source) {
        Ok(text) => text,
        Err(refusal) => return refusal,
    };
    listing.extend(OPENING);
    let mut listing = Listing { source, listing };
    match Lexer::new(source).lex() {
        Ok(tokens) => {
            listing.tokens(&tokens);
            Due::listing(0)
        }
        Err(errors) => {
            listing.errors(&errors);
            Due::listing(1)
        }
    }
}

struct Listing<'a> {
    source: &'a str,
    listing: &'a mut Vec<u8>,
}

impl Listing<'_> {
    fn tokens(&mut self, tokens: &[Token<&str>]) {
        tokens.iter().for_each(|token| self.token(token));
    }

    fn token(&mut self, Token(text, token): &Token<&str>) {
        match token {
            Tok::Word => self.part(0x01, text),
            Tok::Var => self.part(0x02, text),
            Tok::Fmt => self.part(0x03, text),
            Tok::Num => self.part(0x04, text),
            Tok::Sym => self.part(0x05, text),
            Tok::Str(parts) => {
                self.part(0x06, text);
                parts.iter().for_each(|part| self.string_part(part));
                self.put(0x09, &[]);
            }
            Tok::Block(tokens) => {
                self.part(0x07, text);
                self.tokens(tokens);
                self.put(0x09, &[]);
            }
        }
    }

    fn string_part(&mut self, part: &StrPart<&str, Token<&str>>) {
        match part {
            StrPart::Str(text) => self.part(0x08, text),
            StrPart::Char(c) => self.put(0x0a, &[&u32::from(*c).to_le_bytes()]),
            StrPart::Term(block) => self.token(block),
        }
    }

    fn errors(&mut self, errors: &[Error<&str>]) {
        for (expected, rest) in errors {
            let place = number(span(self.source, rest).start);
            match expected {
                Expect::Digit => self.put(0x20, &[&place]),
                Expect::Ident => self.put(0x21, &[&place]),
                Expect::Delim(opener) => self.put(0x22, &[&place, opener.as_bytes()]),
                Expect::Escape => self.put(0x23, &[&place]),
                Expect::Unicode => self.put(0x24, &[&place]),
                Expect::Token => self.put(0x25, &[&place]),
            }
        }
    }

    /// A field with start and length of a part of the source.
    fn part(&mut self, tag: u8, part: &str) {
        let start = span(self.source, part).start;
        self.put(tag, &[&number(start), &number(part.len())]);
    }

    fn put(&mut self, tag: u8, content: &[&[u8]]) {
        put(self.listing, tag, content);
    }
}

/// The place of the first opener that makes 129 open.
///
/// This follows the openers and closers alone, one character after the other and without a call for
/// each level, so it is no second lexer: the characters of words, numbers and symbols each start a
/// token or continue one, and need not be told apart.
fn first_too_deep(source: &str) -> Option<usize> {
    // what would close each open block and string
    let mut open = Vec::new();
    let mut rest = source;
    loop {
        let closer = open.last().copied();
        let step = match closer {
            Some('"') => step_in_string(rest),
            _ => {
                rest = skip_space(rest);
                step_in_block(rest, closer)
            }
        };
        rest = match step {
            Step::Past(length) => &rest[length..],
            Step::Open(opener, closer) => {
                if open.len() == DEEPEST {
                    return Some(source.len() - rest.len() + opener);
                }
                open.push(closer);
                &rest[opener + 1..]
            }
            Step::Close(length) => {
                open.pop()?;
                &rest[length..]
            }
        }
    }
}

enum Step {
    /// So many bytes that neither open nor close.
    Past(usize),
    /// An opener after so many bytes, and what would close it.
    Open(usize, char),
    /// The innermost is closed, by so many bytes: none where its closer is missing.
    Close(usize),
}

fn step_in_string(rest: &str) -> Step {
    let mut chars = rest.chars();
    match chars.next() {
        None => Step::Close(0),
        Some('"') => Step::Close(1),
        Some('\\') => match chars.next() {
            Some('(') => Step::Open(1, ')'),
            Some('\\' | '/' | '"' | 'b' | 'f' | 'n' | 'r' | 't' | 'u') => Step::Past(2),
            // "An unknown or missing escape is Escape after the backslash, consuming nothing more."
            _ => Step::Past(1),
        },
        Some(c) => Step::Past(c.len_utf8()),
    }
}

/// A step among tokens, after space.
fn step_in_block(rest: &str, closer: Option<char>) -> Step {
    match rest.chars().next() {
        Some('"') => Step::Open(0, '"'),
        Some('(') => Step::Open(0, ')'),
        Some('[') => Step::Open(0, ']'),
        Some('{') => Step::Open(0, '}'),
        Some(c) if Some(c) == closer => Step::Close(1),
        Some(c) if c.is_ascii_alphanumeric() || "_$@|=!<>+-*/%.:;,?".contains(c) => Step::Past(1),
        // "Otherwise Delim with the opener, consuming nothing"; nothing follows the top tokens.
        _ => Step::Close(0),
    }
}

fn skip_space(mut rest: &str) -> &str {
    loop {
        rest = rest.trim_start_matches(is_space);
        match rest.strip_prefix('#') {
            Some(comment) => rest = skip_comment(comment),
            None => return rest,
        }
    }
}

/// "Does the comment go on past its newline? Exactly if the line, less one trailing CR, ends in an
/// odd number of backslashes. End of input ends it."
fn skip_comment(mut rest: &str) -> &str {
    while let Some(newline) = rest.find('\n') {
        let line = &rest[..newline];
        let line = line.strip_suffix('\r').unwrap_or(line);
        let backslashes = line.len() - line.trim_end_matches('\\').len();
        rest = &rest[newline + 1..];
        if backslashes % 2 == 0 {
            return rest;
        }
    }
    ""
}

/// "Space: Unicode White_Space."
const SPACES: [(char, char); 10] = [
    ('\t', '\r'),
    (' ', ' '),
    ('\u{85}', '\u{85}'),
    ('\u{a0}', '\u{a0}'),
    ('\u{1680}', '\u{1680}'),
    ('\u{2000}', '\u{200a}'),
    ('\u{2028}', '\u{2029}'),
    ('\u{202f}', '\u{202f}'),
    ('\u{205f}', '\u{205f}'),
    ('\u{3000}', '\u{3000}'),
];

fn is_space(c: char) -> bool {
    SPACES.iter().any(|(first, last)| (*first..=*last).contains(&c))
}

pub fn bench() {
    for (name, source) in inputs::to_measure() {
        pair(&format!("lex, {name}"), &source);
    }
    for (name, piece) in inputs::TO_GROW {
        let of = |length| inputs::filled(piece, length);
        let small = pair(&format!("lex, 16 KB of {name}"), &of(LONGEST_INPUT / 2));
        let large = pair(&format!("lex, 32 KB of {name}"), &of(LONGEST_INPUT));
        bench::growth("  32 KB over 16 KB", small, large);
    }
}

/// The Rust's `lex` alone: it makes its vectors of tokens, and they are freed again.
fn pair(label: &str, source: &str) -> bench::Times {
    let mut rust = bench::timed(|| drop(black_box(Lexer::new(black_box(source)).lex())));
    bench::pair(label, &SUBJECT, source.as_bytes(), &mut rust)
}
