//! Trees from jq sources, by the Rust's own lexer, parser and loader.

use super::encode::encode;
use super::program::{Module, Program};
use crate::load::parse::{Def, Term};
use crate::load::{self, Error, File, Import, Loader, Module as Loaded, Modules};
use crate::Arena;
use std::fs;
use std::io::{self, Read, Write};
use std::path::{Path, PathBuf};

pub fn term(source: &str) -> Option<Term<&str>> {
    load::parse(source, |parser| parser.term())
}

pub fn definitions(source: &str) -> Option<Vec<Def<&str>>> {
    load::parse(source, |parser| parser.defs())
}

/// Beside a source: what it is compiled with.
#[derive(Default)]
struct Options<'a> {
    natives: Vec<(&'a str, Vec<&'a str>)>,
    globals: Option<Vec<&'a str>>,
    prelude: Option<&'a str>,
}

impl<'a> Options<'a> {
    fn read(mut args: &[&'a str]) -> Option<Self> {
        let mut options = Self::default();
        while let [option, value, rest @ ..] = args {
            match *option {
                "--native" => {
                    let (name, arity) = value.rsplit_once('/')?;
                    options.natives.push((name, vec!["f"; arity.parse().ok()?]));
                }
                "--global" => options.globals.get_or_insert_default().push(value),
                "--prelude" => options.prelude = Some(value),
                _ => return None,
            }
            args = rest;
        }
        args.is_empty().then_some(options)
    }
}

/// Reads a source from the standard input and writes its tree. None where there is no such option.
pub fn command(args: &[&str]) -> Option<bool> {
    let options = Options::read(args)?;
    let written = tree(&options).and_then(|tree| {
        io::stdout().write_all(&tree).map_err(|error| format!("cannot write: {error}"))
    });
    if let Err(message) = &written {
        eprintln!("{message}");
    }
    Some(written.is_ok())
}

fn tree(options: &Options) -> Result<Vec<u8>, String> {
    let mut source = String::new();
    let read = io::stdin().read_to_string(&mut source);
    read.map_err(|error| format!("the source: {error}"))?;
    let prelude = options.prelude.map(|file| read_file(Path::new(file))).transpose()?;
    let definitions = match &prelude {
        Some(prelude) => definitions(prelude).ok_or("the prelude is not a row of definitions")?,
        None => Vec::new(),
    };

    let arena = Arena::default();
    let file = File { code: &*source, path: PathBuf::new() };
    let loader = Loader::new(definitions).with_read(imported);
    let mut program = loader.load(&arena, file).map(of_modules).map_err(message)?;
    if options.prelude.is_none() {
        without_prelude(&mut program);
    }
    program.natives.clone_from(&options.natives);
    program.globals.clone_from(&options.globals);
    Ok(encode(&program))
}

fn read_file(path: &Path) -> Result<String, String> {
    fs::read_to_string(path).map_err(|error| format!("{}: {error}", path.display()))
}

/// A module that a source names lies beside it.
fn imported(import: Import<&str, PathBuf>) -> Result<File<String, PathBuf>, String> {
    let path = import.parent.with_file_name(import.path).with_extension("jq");
    Ok(File { code: read_file(&path)?, path })
}

fn message(errors: load::Errors<&str, PathBuf>) -> String {
    let kind = |error: &Error<&str>| match error {
        Error::Io(errors) => errors.iter().map(|(_, error)| error.clone()).collect(),
        Error::Lex(errors) => vec![format!("{} errors of the lexer", errors.len())],
        Error::Parse(errors) => vec![format!("{} errors of the parser", errors.len())],
    };
    let lines = errors.iter().map(|(file, error)| {
        let name = match file.path.as_os_str().is_empty() {
            true => "the source".into(),
            false => file.path.display().to_string(),
        };
        format!("{name}: {}", kind(error).join(", "))
    });
    lines.collect::<Vec<_>>().join("\n")
}

fn of_modules<'s>(modules: Modules<&'s str, PathBuf>) -> Program<'s> {
    fn of<'s, B>(loaded: Loaded<&'s str, B>) -> Module<'s, B> {
        let named = |(number, name): &(usize, Option<&'s str>)| name.map(|name| (*number, name));
        let unnamed = |(number, name): &(usize, Option<&str>)| name.is_none().then_some(*number);
        Module {
            imports: loaded.mods.iter().filter_map(named).collect(),
            includes: loaded.mods.iter().filter_map(unnamed).collect(),
            variables: loaded.vars.iter().map(|(_, name, _)| *name).collect(),
            body: loaded.body,
        }
    }
    Program {
        natives: Vec::new(),
        globals: None,
        modules: modules.deps.into_iter().map(|(_, module)| of(module)).collect(),
        main: of(modules.main.1),
    }
}

/// The Rust's loader puts a prelude before all modules and includes it in them, and `!empty` in it.
fn without_prelude(program: &mut Program) {
    fn renumber<B>(module: &mut Module<B>) {
        module.includes.retain(|number| *number != 0);
        module.includes.iter_mut().for_each(|number| *number -= 1);
        module.imports.iter_mut().for_each(|(number, _)| *number -= 1);
    }
    program.modules.remove(0);
    program.modules.iter_mut().for_each(renumber);
    renumber(&mut program.main);
}
