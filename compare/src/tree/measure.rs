//! Trees to measure, and the Rust's side for it.

use super::encode::encode;
use super::program::{Module, Program};
use super::{compiler, programs, source, SUBJECT};
use crate::bench::{growth, pair, Times};
use crate::compile::Filter;
use crate::load::parse::Term;
use crate::room::Due;
use std::hint::black_box;
use std::time::{Duration, Instant};

/// A definition of a library, whose holes take a number.
const DEFINITION: &str = "def bay{n}($floor; f): .bays[{n}] | f as $x | if $x < $floor then \
    [$x, $floor] else {level: $x, text: \"bay \\(.id)\"} end | bay{n}($floor; .[0]);\n";

/// A short one.
const SHORT: &str = "def number{n}(f): f | .threshold * number{n}(.);\n";

const PATH: &str = ".bays[0].level + 1";

const FILTER: &str = "[.bays[] | keep(.open and .level > 2.5) \
    | {id, level: (.level * 100), text: \"bay \\(.id)\"}] \
    | reduce .[] as $x (0; . + $x.level) | if . < 10 then \"low\" else .[1:] end";

pub fn bench() {
    measure("a path", &Program::of(source::term(PATH).unwrap()));
    let filter = source::term(FILTER).unwrap();
    let mut alone = Program::of(filter.clone());
    alone.natives = vec![("keep", vec!["f"])];
    measure("a filter", &alone);
    measure("with a prelude", &programs::with_prelude(filter));
    for (definition, count) in [(DEFINITION, 74), (SHORT, 380)] {
        let [half, whole] = [count / 2, count].map(|count| {
            let source = definitions(definition, count);
            measure(&format!("{count} definitions"), &of_definitions(&source))
        });
        growth("  the latter over the former", half, whole);
    }
}

fn definitions(definition: &str, count: usize) -> String {
    (100..100 + count).map(|n| definition.replace("{n}", &n.to_string())).collect()
}

/// Definitions in a module that main includes.
fn of_definitions(source: &str) -> Program<'_> {
    let body = source::definitions(source).unwrap();
    let mut program = Program::of(Term::Id);
    program.modules = vec![Module { body, ..Module::default() }];
    program.main.includes = vec![0];
    program
}

fn measure(label: &str, program: &Program) -> Times {
    let tree = encode(program);
    assert_eq!((SUBJECT.rust)(&tree, &mut Vec::new()), Due::listing(0));
    let label = format!("tree, {} bytes, {label}", tree.len());
    pair(&label, &SUBJECT, &tree, &mut |calls| compile(program, calls))
}

/// The Rust's compiler, from its tree in memory to its table. It takes the tree, so that many are made
/// before the clock starts; a table is freed.
fn compile(program: &Program, calls: u32) -> Duration {
    let prepared: Vec<_> =
        (0..calls).map(|_| (compiler(program), program.clone().into_modules())).collect();
    let start = Instant::now();
    for (compiler, modules) in prepared {
        drop::<Result<Filter<()>, _>>(black_box(compiler.compile(modules)));
    }
    start.elapsed()
}
