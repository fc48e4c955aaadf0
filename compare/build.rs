//! Names the Rust's files, which stay where they are, and links the static library.
//!
//! `JAQ_SRC` is the folder `src` of jaq-core 3.1.2, `FILTER_LIB` the folder of `libexports.a`.
//! An entry that the library does not have is left out: its `cfg` is not set.

use std::path::{Path, PathBuf};
use std::{env, fs};

/// A module of this program for each of the Rust's files, at the path by which the others name it.
/// `load` brings its own `lex`, `parse` and `prec_climb`, the last one for itself alone.
const MODULES: &[(&str, &str)] = &[
    ("box_iter", "box_iter.rs"),
    ("compile", "compile.rs"),
    ("load", "load/mod.rs"),
    ("ops", "ops.rs"),
    ("path", "path.rs"),
    ("prec_climb", "load/prec_climb.rs"),
    ("val", "val.rs"),
];

/// The Rust's own warnings are not ours: most of it is never called here, and it has features.
const ALLOWED: &str = "clippy::all, dead_code, unexpected_cfgs, unused_imports";

const ENTRIES: &[&str] = &["filter_climb", "filter_lex", "filter_compile"];

fn main() {
    println!("cargo:rerun-if-changed=build.rs");
    write_modules(&folder("JAQ_SRC", "../../shared/docs/src/src"));
    link_library(&folder("FILTER_LIB", "../crates/exports/out"));
}

/// The folder that the variable names, else the default, which starts at this project.
fn folder(variable: &str, default: &str) -> PathBuf {
    println!("cargo:rerun-if-env-changed={variable}");
    let project = PathBuf::from(env::var_os("CARGO_MANIFEST_DIR").unwrap());
    project.join(env::var_os(variable).unwrap_or(default.into()))
}

fn write_modules(source: &Path) {
    let mut lines = String::new();
    for (name, file) in MODULES {
        let path = source.join(file);
        let Ok(path) = path.canonicalize() else {
            panic!("no {}: let JAQ_SRC name the folder src of jaq-core 3.1.2", path.display());
        };
        println!("cargo:rerun-if-changed={}", path.parent().unwrap().display());
        lines += &format!("#[allow({ALLOWED})]\n#[path = {path:?}]\nmod {name};\n");
    }
    let out = PathBuf::from(env::var_os("OUT_DIR").unwrap());
    fs::write(out.join("rust.rs"), lines).unwrap();
}

fn link_library(folder: &Path) {
    let archive = folder.join("libexports.a");
    println!("cargo:rerun-if-changed={}", archive.display());
    let defined = fs::read(&archive).map_or(Vec::new(), |bytes| symbols(&bytes));
    for entry in ENTRIES {
        println!("cargo:rustc-check-cfg=cfg({entry})");
        if defined.iter().any(|name| name == entry) {
            println!("cargo:rustc-cfg={entry}");
        }
    }
    if !defined.is_empty() {
        println!("cargo:rustc-link-search=native={}", folder.display());
        println!("cargo:rustc-link-lib=static=exports");
    }
}

/// The names in an archive's index, its first member: a count and as many offsets, each in four
/// bytes, big-endian, then the names, each ended by a zero byte.
fn symbols(archive: &[u8]) -> Vec<String> {
    const HEADER: usize = 8 + 60;
    if archive.len() < HEADER + 4 || !archive.starts_with(b"!<arch>\n/ ") {
        return Vec::new();
    }
    let size = String::from_utf8_lossy(&archive[8 + 48..8 + 58]);
    let index = &archive[HEADER..][..size.trim().parse().unwrap()];
    let count = u32::from_be_bytes(index[..4].try_into().unwrap()) as usize;
    let names = index[4 + 4 * count..].split(|byte| *byte == 0).take(count);
    names.map(|name| String::from_utf8_lossy(name).into_owned()).collect()
}
