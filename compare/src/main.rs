//! Compares the filter compiler with the Rust that it was ported from. The Rust's own files are
//! compiled into this program as they are, and both sides answer the same inputs.

extern crate alloc;
// An arena of this name is all that the Rust takes from another crate.
extern crate self as typed_arena;

mod bench;
mod beside;
mod climb;
mod fields;
mod gen;
mod lex;
mod library;
mod room;
mod tree;

// The Rust's files, at the paths by which they name each other.
include!(concat!(env!("OUT_DIR"), "/rust.rs"));
use beside::{Arena, Bind, Error, Exn, RcList};

use std::io::{self, BufWriter, Write};
use std::process::ExitCode;
use std::thread;

const USAGE: &str = "\
usage: compare run [climb | lex | tree] [SEED] [COUNT]
       compare bench [climb | lex | tree]
       compare record climb | lex | tree > FILE
       compare tree [--native NAME/ARITY] .. [--global '$NAME'] .. [--prelude FILE] < SOURCE > TREE";

type Inputs<'a> = &'a mut dyn FnMut(&[u8]);
type Cases<'a> = &'a mut dyn FnMut(&[u8], room::Lent);

/// An entry of the library, and all that is done with it.
struct Side {
    subject: room::Subject,
    /// Inputs for `run`; their random part takes the generator and has the given size.
    inputs: fn(&mut gen::Rng, usize, Inputs),
    /// The size of the random part if none is given.
    count: usize,
    /// Inputs and rooms for `record`.
    sample: fn(Cases),
    bench: fn(),
}

const SIDES: &[Side] = &[
    Side {
        subject: climb::SUBJECT,
        inputs: climb::inputs,
        count: 100_000,
        sample: climb::sample,
        bench: climb::bench,
    },
    Side {
        subject: lex::SUBJECT,
        inputs: lex::inputs,
        count: 300_000,
        sample: lex::sample,
        bench: lex::bench,
    },
    Side {
        subject: tree::SUBJECT,
        inputs: tree::inputs,
        count: 300_000,
        sample: tree::sample,
        bench: tree::bench,
    },
];

fn main() -> ExitCode {
    let args: Vec<String> = std::env::args().skip(1).collect();
    let args: Vec<&str> = args.iter().map(String::as_str).collect();
    match on_large_stack(|| command(&args)) {
        Ok(Some(true)) => ExitCode::SUCCESS,
        Ok(Some(false)) | Err(_) => ExitCode::FAILURE,
        Ok(None) => {
            eprintln!("{USAGE}");
            ExitCode::from(2)
        }
    }
}

/// The Rust calls itself once for each level of nesting.
fn on_large_stack<T: Send>(work: impl FnOnce() -> T + Send) -> thread::Result<T> {
    const STACK: usize = 1 << 29;
    thread::scope(|scope| {
        thread::Builder::new().stack_size(STACK).spawn_scoped(scope, work).unwrap().join()
    })
}

/// Whether the command succeeded, or none where there is no such command.
fn command(args: &[&str]) -> Option<bool> {
    let (command, rest) = args.split_first()?;
    if *command == "tree" {
        return tree::command(rest);
    }
    let (sides, rest) = select(rest);
    match (*command, rest) {
        ("run", _) => run(sides, rest),
        ("bench", []) => {
            sides.iter().for_each(|side| (side.bench)());
            Some(true)
        }
        ("record", []) if sides.len() == 1 && args.len() == 2 => Some(record(&sides[0]).is_ok()),
        _ => None,
    }
}

/// The side that is named first, or all.
fn select<'a>(args: &'a [&'a str]) -> (&'static [Side], &'a [&'a str]) {
    let named = |name| SIDES.iter().position(|side| side.subject.name == name);
    match args.first().and_then(|name| named(*name)) {
        Some(at) => (&SIDES[at..=at], &args[1..]),
        None => (SIDES, args),
    }
}

/// Success needs a comparison: where no entry is linked, nothing was compared.
fn run(sides: &[Side], args: &[&str]) -> Option<bool> {
    let number = |at: usize| args.get(at).map(|arg| arg.parse::<u64>()).transpose().ok();
    let (seed, count) = (number(0)?, number(1)?);
    if args.len() > 2 {
        return None;
    }
    let (mut compared, mut mismatches) = (0, 0);
    for side in sides {
        let name = side.subject.name;
        let Some(mut comparison) = room::Comparison::new(&side.subject) else {
            println!("{name}: the library does not have this entry; left out");
            continue;
        };
        let mut rng = gen::Rng::new(seed.unwrap_or(1));
        let count = count.map_or(side.count, |count| count as usize);
        (side.inputs)(&mut rng, count, &mut |input| comparison.input(input));
        comparison.report();
        compared += 1;
        mismatches += comparison.mismatches;
    }
    Some(compared > 0 && mismatches == 0)
}

/// Writes the sample, then the zero byte that ends it.
fn record(side: &Side) -> io::Result<()> {
    let mut out = BufWriter::new(io::stdout().lock());
    let mut result = Ok(());
    (side.sample)(&mut |input, lent| {
        let case = room::recorded(&side.subject, input, lent);
        let before = std::mem::replace(&mut result, Ok(()));
        result = before.and_then(|()| out.write_all(&case));
    });
    result?;
    out.write_all(&[0])?;
    out.flush()
}
