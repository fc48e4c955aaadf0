//! What a tree holds, in the Rust's own types for terms, patterns and definitions.

use crate::load::parse::{Def, Term};
use crate::load::{File, Module as Loaded, Modules};

#[derive(Clone, Debug)]
pub struct Program<'s> {
    /// Names and parameters.
    pub natives: Vec<(&'s str, Vec<&'s str>)>,
    pub globals: Option<Vec<&'s str>>,
    pub modules: Vec<Module<'s, Vec<Def<&'s str>>>>,
    pub main: Module<'s, Term<&'s str>>,
}

#[derive(Clone, Debug, Default)]
pub struct Module<'s, B> {
    pub imports: Vec<(usize, &'s str)>,
    pub includes: Vec<usize>,
    pub variables: Vec<&'s str>,
    pub body: B,
}

impl<'s> Program<'s> {
    /// A main term and nothing else.
    pub fn of(term: Term<&'s str>) -> Self {
        let main = Module { body: term, ..Module::default() };
        Self { natives: Vec::new(), globals: None, modules: Vec::new(), main }
    }

    /// As the Rust's compiler takes it. A module's number stands in for the path of its file.
    pub fn into_modules(self) -> Modules<&'s str, usize> {
        let file = |path| File { code: "", path };
        let main = file(self.modules.len());
        let modules = self.modules.into_iter().enumerate();
        let deps = modules.map(|(number, module)| (file(number), module.loaded())).collect();
        Modules { deps, main: (main, self.main.loaded()) }
    }
}

impl<'s, B: Default> Module<'s, B> {
    fn loaded(self) -> Loaded<&'s str, B> {
        let mut loaded = Loaded::default();
        let imports = self.imports.into_iter().map(|(number, name)| (number, Some(name)));
        loaded.mods =
            imports.chain(self.includes.into_iter().map(|number| (number, None))).collect();
        // a variable's file is read before a tree is made
        loaded.vars = self.variables.into_iter().map(|name| ("", name, None)).collect();
        loaded.body = self.body;
        loaded
    }
}
