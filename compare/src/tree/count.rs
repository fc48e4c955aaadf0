//! How many terms a program inserts. The Rust says so only where there are no errors, and "error
//! paths" count: no lookup changes this number, so it can be told from the tree.

use super::program::Program;
use crate::load::lex::StrPart;
use crate::load::parse::{BinaryOp, Def, Pattern, Term};
use crate::path::Part;

pub fn inserted(program: &Program) -> usize {
    let modules = program.modules.iter().map(|module| definitions(&module.body));
    modules.sum::<usize>() + with_own(&program.main.body)
}

/// A term with a number of its own, and what it holds.
fn with_own(term: &Term<&str>) -> usize {
    1 + held(term)
}

fn with_own_each<'a, 's: 'a>(terms: impl IntoIterator<Item = &'a Term<&'s str>>) -> usize {
    terms.into_iter().map(with_own).sum()
}

/// A call of `!empty` that the compiler supplies.
const SUPPLIED_CALL: usize = 1;

/// What a term inserts beside itself.
fn held(term: &Term<&str>) -> usize {
    match term {
        Term::Id | Term::Recurse | Term::Break(_) | Term::Var(_) | Term::Num(_) => 0,
        Term::Arr(body) => body.as_deref().map_or(SUPPLIED_CALL, with_own),
        Term::Neg(body) | Term::Label(_, body) => with_own(body),
        Term::IfThenElse(pairs, last) => {
            // each pair's else has a number; the last else is one of them
            let pairs = pairs.iter().map(|(if_, then)| with_own(if_) + with_own(then) + 1);
            pairs.sum::<usize>() + last.as_deref().map_or(0, held)
        }
        Term::Call(_, arguments) => with_own_each(arguments),
        Term::Def(defs, body) => definitions(defs) + held(body),
        Term::TryCatch(body, catch) => {
            with_own(body) + catch.as_deref().map_or(SUPPLIED_CALL, with_own)
        }
        Term::Fold(name, source, pattern, arguments) => {
            let compiled = match (*name, arguments.len()) {
                (_, 0 | 1) => return 0,
                ("foreach", 3) => 3,
                _ => 2,
            };
            with_own(source) + held_in_pattern(pattern) + with_own_each(&arguments[..compiled])
        }
        Term::BinOp(left, operator, right) => {
            let pattern = match operator {
                BinaryOp::Pipe(Some(pattern)) => held_in_pattern(pattern),
                _ => 0,
            };
            with_own(left) + with_own(right) + pattern
        }
        Term::Path(head, path) => {
            let part = |part: &Part<_>| match part {
                Part::Index(index) => with_own(index),
                Part::Range(from, upto) => with_own_each(from) + with_own_each(upto),
            };
            with_own(head) + path.0.iter().map(|(of, _)| part(of)).sum::<usize>()
        }
        Term::Str(_, parts) => {
            let format = 1;
            let part = |part: &StrPart<&str, _>| match part {
                StrPart::Term(term) => with_own(term),
                StrPart::Str(_) | StrPart::Char(_) => 0,
            };
            format + parts.iter().map(part).sum::<usize>() + sums(parts.len())
        }
        Term::Obj(entries) => {
            let entry = |(key, value): &(_, Option<_>)| match (key, value) {
                (key, Some(value)) => with_own(key) + with_own(value),
                // the name as a text, and the variable
                (Term::Var(_), None) => 2,
                // the key, Id, and a path
                (key, None) => with_own(key) + 2,
            };
            entries.iter().map(entry).sum::<usize>() + sums(entries.len())
        }
    }
}

/// Two numbers for each sum of two.
fn sums(terms: usize) -> usize {
    2 * terms.saturating_sub(1)
}

fn definitions(definitions: &[Def<&str>]) -> usize {
    definitions.iter().map(|definition| with_own(&definition.body)).sum()
}

fn held_in_pattern(pattern: &Pattern<&str>) -> usize {
    match pattern {
        Pattern::Var(_) => 0,
        Pattern::Arr(patterns) => patterns.iter().map(|pattern| 1 + held_in_pattern(pattern)).sum(),
        Pattern::Obj(entries) => {
            let entry = |(key, pattern): &(_, _)| with_own(key) + held_in_pattern(pattern);
            entries.iter().map(entry).sum()
        }
    }
}
