//! The compiler. A tree's bytes are decoded to the Rust's own terms, its compiler makes a table of
//! them, and the table is what a listing holds.

mod check;
mod count;
mod damage;
mod decode;
mod encode;
mod inputs;
mod listing;
mod measure;
mod operators;
mod program;
mod programs;
mod random;
mod sample;
mod signed;
mod source;
#[cfg(test)]
mod tests;

pub use inputs::inputs;
pub use measure::bench;
pub use sample::sample;
pub use source::command;

use crate::compile::Compiler;
use crate::fields::LONGEST_INPUT;
use crate::library;
use crate::room::{Due, Subject};
use crate::{Arena, Bind};
use program::Program;

pub const SUBJECT: Subject =
    Subject { name: "tree", code: 3, ours: library::COMPILE, rust: oracle };

/// "nesting [..] over 512 in a tree"
const DEEPEST: usize = 512;
/// "definitions nested over 64"
const DEEPEST_DEFINITION: usize = 64;
/// "over 4,096 terms inserted"
const MOST_TERMS: usize = 4_096;

/// The program in a tree, if that is not refused for what it is.
fn program<'s>(tree: &'s [u8], arena: &'s Arena<String>) -> Result<Program<'s>, Due> {
    if tree.len() > LONGEST_INPUT {
        return Err(Due::refusal(2, 0));
    }
    let depth = check::check(tree).ok_or(Due::refusal(3, 0))?;
    if depth.fields > DEEPEST {
        Err(Due::refusal(4, 0))
    } else if depth.definitions > DEEPEST_DEFINITION {
        Err(Due::refusal(5, 0))
    } else {
        Ok(decode::decode(tree, &|number| signed::hide(number, arena)))
    }
}

fn oracle(tree: &[u8], listing: &mut Vec<u8>) -> Due {
    listing.clear();
    let arena = Arena::default();
    let program = match program(tree, &arena) {
        Ok(program) => program,
        Err(refusal) => return refusal,
    };
    let inserted = count::inserted(&program);
    if inserted > MOST_TERMS {
        return Due::refusal(6, 0);
    }
    match compiler(&program).compile(program.into_modules()) {
        Ok(filter) => {
            assert_eq!(filter.lut.terms.len(), inserted);
            listing::terms(&filter, listing);
            Due::listing(0)
        }
        Err(errors) => {
            listing::errors(&errors, tree, listing);
            Due::listing(1)
        }
    }
}

/// The Rust's compiler, with a program's natives and globals. A native has no body here.
fn compiler<'s>(program: &Program<'s>) -> Compiler<&'s str, ()> {
    let parameter = |name: &&str| match name.starts_with('$') {
        true => Bind::Var(()),
        false => Bind::Fun(()),
    };
    let natives = program
        .natives
        .iter()
        .map(|(name, parameters)| (*name, parameters.iter().map(parameter).collect(), ()));
    let compiler = Compiler::default().with_funs(natives);
    match &program.globals {
        Some(globals) => compiler.with_global_vars(globals.iter().copied()),
        None => compiler,
    }
}
