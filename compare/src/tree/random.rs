//! Random programs over few names, so that labels, variables, parameters and definitions hide each
//! other. A program is made honestly, of what is in view, or with names that may not be.

use super::operators::{CMP, MATH};
use super::program::{Module, Program};
use crate::gen::Rng;
use crate::load::lex::StrPart;
use crate::load::parse::{BinaryOp, Def, Pattern, Term};
use crate::path::{Opt, Part, Path};

type Text = &'static str;

const FILTERS: [Text; 5] = ["f", "g", "h", "a", "@x"];
const VARIABLES: [Text; 5] = ["$a", "$b", "$f", "$x", "$"];
const LABELS: [Text; 4] = ["$a", "$l", "f", "l"];
const MODULES: [Text; 3] = ["m", "n", ""];
/// A module's name and a filter's, for each two of them.
const QUALIFIED: [[Text; 5]; 3] = [
    ["m::f", "m::g", "m::h", "m::a", "m::@x"],
    ["n::f", "n::g", "n::h", "n::a", "n::@x"],
    ["::f", "::g", "::h", "::a", "::@x"],
];
const EMPTY: Text = "!empty";
/// Names that are seldom defined.
const STRANGE: [Text; 12] =
    ["", "::", "m::", "::m::f", "m::f::g", "n::m::f", ":", "m:f", "o::f", "é", "!empty", "reduce"];
pub const NUMBERS: [Text; 26] = [
    "0", "1", "42", "007", "9223372036854775807", "9223372036854775808", "99999999999999999999999",
    "000000000000000000000000000000000012", "00009223372036854775807", "00009223372036854775808",
    "-5", "+5", "-0", "-9223372036854775808", "-", "+", "!", "!-5", "", "1.5", "1e3", " 1", "1 ",
    "1_0", "٣", "0x10",
];
const TEXTS: [Text; 8] =
    ["", "a", "b", "a\"b\\", "é€", "\u{1f4a3}", "$a", "longer text, with blanks"];
const CHARACTERS: [char; 8] =
    ['a', '\n', '\0', 'é', '\u{7ff}', '\u{800}', '\u{ffff}', '\u{10ffff}'];

/// What a program is mostly made of.
#[derive(Clone, Copy)]
enum Style {
    Any,
    /// Definitions and calls in tail places.
    Calls,
    /// Patterns, folds, variables, labels.
    Bindings,
    /// Strings, objects, paths.
    Values,
}

/// What is in view.
#[derive(Clone, Default)]
struct View {
    variables: Vec<Text>,
    labels: Vec<Text>,
    /// Definitions and filter arguments, with their arity.
    filters: Vec<(Text, usize)>,
    /// The same of included modules and natives, which lie behind.
    behind: Vec<(Text, usize)>,
    /// Filters of imported modules, with their module's name before them.
    imported: Vec<(Text, usize)>,
}

impl View {
    fn has_empty(&self) -> bool {
        self.filters.contains(&(EMPTY, 0)) || self.behind.contains(&(EMPTY, 0))
    }
}

struct Maker<'r> {
    rng: &'r mut Rng,
    style: Style,
    /// Whether only what is in view is named.
    honest: bool,
    /// About as many fields are still to be made.
    budget: usize,
    view: View,
}

/// A program of about so many fields.
pub fn program(rng: &mut Rng, size: usize) -> Program<'static> {
    let styles = [Style::Any, Style::Any, Style::Calls, Style::Bindings, Style::Values];
    let (style, honest) = (rng.pick(&styles), !rng.one_in(3));
    Maker { rng, style, honest, budget: size, view: View::default() }.program()
}

/// A program in which nothing is undefined.
#[cfg(test)]
pub fn honest(rng: &mut Rng, size: usize) -> Program<'static> {
    let style = Style::Any;
    Maker { rng, style, honest: true, budget: size, view: View::default() }.program()
}

impl Maker<'_> {
    fn one_in(&mut self, n: usize) -> bool {
        self.rng.one_in(n)
    }

    /// A wrong name is due, in a program that may have some.
    fn strays(&mut self) -> bool {
        !self.honest && self.one_in(6)
    }

    fn some<T>(&mut self, most: usize, mut each: impl FnMut(&mut Self) -> T) -> Vec<T> {
        (0..self.rng.below(most + 1)).map(|_| each(self)).collect()
    }

    fn program(&mut self) -> Program<'static> {
        let mut natives = self.some(3, |m| (m.rng.pick(&FILTERS), m.some(2, |m| m.parameter())));
        let with_empty = self.rng.below(4);
        if with_empty == 0 {
            natives.insert(self.rng.below(natives.len() + 1), (EMPTY, Vec::new()));
        }
        let globals = match self.rng.below(3) {
            0 => None,
            _ => Some(self.some(3, |m| m.outer_variable())),
        };
        let most = self.rng.pick(&[0, 0, 1, 1, 2, 4]);
        let count = self.rng.below(most + 1) + usize::from(with_empty == 1);
        let mut exports: Vec<Vec<(Text, usize)>> = Vec::new();
        let mut modules = Vec::new();
        for number in 0..count {
            let (mut module, names) = self.module(number, &natives, &globals, &exports);
            let mut body = match number == 0 && with_empty == 1 {
                true => vec![self.definition_of(EMPTY, Vec::new())],
                false => Vec::new(),
            };
            body.extend((0..names).map(|_| self.definition()));
            module.body = body;
            exports.push(std::mem::take(&mut self.view.filters));
            modules.push(module);
        }
        let (mut main, _) = self.module(count, &natives, &globals, &exports);
        main.body = self.term();
        Program { natives, globals, modules, main }
    }

    /// A module without its body, and how many definitions it gets. Its view is set up.
    fn module<B: Default>(
        &mut self,
        number: usize,
        natives: &[(Text, Vec<Text>)],
        globals: &Option<Vec<Text>>,
        exports: &[Vec<(Text, usize)>],
    ) -> (Module<'static, B>, usize) {
        let mut module =
            Module { variables: self.some(2, |m| m.outer_variable()), ..Module::default() };
        if number > 0 {
            module.imports = self.some(2, |m| (m.rng.below(number), m.rng.pick(&MODULES)));
            module.includes = self.some(2, |m| m.rng.below(number));
            // where `!empty` is, if it is anywhere
            if !self.one_in(4) {
                module.includes.push(0);
            }
        }
        let mut view = View::default();
        let globals = globals.iter().flatten().chain(&module.variables);
        view.variables = globals.copied().filter(|name| name.starts_with('$')).collect();
        let natives = natives.iter().map(|(name, parameters)| (*name, parameters.len()));
        let included = module.includes.iter().flat_map(|number| exports[*number].iter().copied());
        view.behind = included.chain(natives).collect();
        for (at, name) in MODULES.iter().enumerate() {
            if let Some((number, _)) = module.imports.iter().rev().find(|(_, of)| of == name) {
                for (filter, arity) in &exports[*number] {
                    let filter = FILTERS.iter().position(|of| of == filter);
                    view.imported.extend(filter.map(|filter| (QUALIFIED[at][filter], *arity)));
                }
            }
        }
        self.view = view;
        let definitions = self.rng.below(4);
        (module, definitions)
    }

    /// A global's name or an imported variable's, which need not start with `$`.
    fn outer_variable(&mut self) -> Text {
        match self.one_in(12) {
            true => self.rng.pick(&STRANGE),
            false => self.rng.pick(&VARIABLES),
        }
    }

    fn parameter(&mut self) -> Text {
        match self.rng.below(9) {
            0 => self.rng.pick(&STRANGE),
            1..=4 => self.rng.pick(&VARIABLES),
            _ => self.rng.pick(&FILTERS),
        }
    }

    fn definition(&mut self) -> Def<Text> {
        let name = match self.one_in(12) {
            true => self.rng.pick(&STRANGE),
            false => self.rng.pick(&FILTERS),
        };
        let parameters = self.some(2, |m| m.parameter());
        self.definition_of(name, parameters)
    }

    /// A definition, which is in view from here on.
    fn definition_of(&mut self, name: Text, parameters: Vec<Text>) -> Def<Text> {
        let (variables, filters) = (self.view.variables.len(), self.view.filters.len());
        for parameter in &parameters {
            match parameter.starts_with('$') {
                true => self.view.variables.push(parameter),
                false => self.view.filters.push((parameter, 0)),
            }
        }
        self.view.filters.push((name, parameters.len()));
        let body = self.term();
        self.view.variables.truncate(variables);
        self.view.filters.truncate(filters);
        self.view.filters.push((name, parameters.len()));
        Def::new(name, parameters, body)
    }

    fn boxed(&mut self) -> Box<Term<Text>> {
        Box::new(self.term())
    }

    fn term(&mut self) -> Term<Text> {
        if self.budget == 0 || self.one_in(8) {
            return self.leaf();
        }
        self.budget -= 1;
        let kinds: &[u8] = match self.style {
            Style::Any => &[0, 1, 2, 3, 4, 5, 6, 7, 8, 9, 10, 11, 12, 13, 14],
            Style::Calls => &[0, 0, 0, 1, 1, 2, 3, 3, 4, 5, 5, 5, 6, 9],
            Style::Bindings => &[0, 1, 4, 5, 6, 6, 7, 7, 8, 8, 9, 14],
            Style::Values => &[3, 10, 10, 11, 11, 12, 12, 13, 14, 5, 6],
        };
        match self.rng.pick(kinds) {
            0 => self.with_definitions(),
            1 | 2 => self.call(),
            3 => self.conditional(),
            4 => self.operation(BinaryOp::Comma),
            5 => match self.rng.below(3) {
                0 => self.operation(BinaryOp::Pipe(None)),
                1 => self.operation(BinaryOp::Comma),
                _ => self.operation(BinaryOp::Alt),
            },
            6 => self.pipe(),
            7 => self.fold(),
            8 => self.label(),
            9 => self.any_operation(),
            10 => self.path(),
            11 => self.string(),
            12 => self.object(),
            13 => match self.rng.below(3) {
                0 => Term::Neg(self.boxed()),
                _ => Term::Arr(Some(self.boxed())),
            },
            _ => {
                let body = self.boxed();
                let supplied = !self.honest || self.view.has_empty();
                let catch = match supplied && self.one_in(2) {
                    true => None,
                    false => Some(self.boxed()),
                };
                Term::TryCatch(body, catch)
            }
        }
    }

    fn leaf(&mut self) -> Term<Text> {
        match self.rng.below(14) {
            0..=3 => self.call_of(0),
            4..=6 => self.variable(),
            7 => self.break_(),
            8 => Term::Num(self.rng.pick(&NUMBERS)),
            9 => Term::Recurse,
            10 if !self.honest || self.view.has_empty() => Term::Arr(None),
            11 => Term::Str(None, Vec::new()),
            12 => Term::Obj(Vec::new()),
            _ => Term::Id,
        }
    }

    fn variable(&mut self) -> Term<Text> {
        if self.strays() || self.view.variables.is_empty() {
            return match self.honest {
                true => Term::Id,
                false => Term::Var(self.rng.pick(&VARIABLES)),
            };
        }
        Term::Var(self.rng.pick(&self.view.variables))
    }

    fn break_(&mut self) -> Term<Text> {
        if self.strays() || self.view.labels.is_empty() {
            return match self.honest {
                true => Term::Recurse,
                false => Term::Break(self.rng.pick(&LABELS)),
            };
        }
        Term::Break(self.rng.pick(&self.view.labels))
    }

    fn label(&mut self) -> Term<Text> {
        let name = self.rng.pick(&LABELS);
        self.view.labels.push(name);
        let body = self.boxed();
        self.view.labels.pop();
        Term::Label(name, body)
    }

    fn call(&mut self) -> Term<Text> {
        let arity = self.rng.pick(&[0, 0, 1, 1, 2]);
        self.call_of(arity)
    }

    /// A call of a filter in view of that arity or, where there is none, of another.
    fn call_of(&mut self, arity: usize) -> Term<Text> {
        if self.strays() {
            let module = self.rng.below(MODULES.len());
            let name = match self.one_in(3) {
                true => self.rng.pick(&STRANGE),
                false => self.rng.pick(&QUALIFIED[module]),
            };
            return Term::Call(name, (0..arity).map(|_| self.term()).collect());
        }
        let (from, qualified) = match self.rng.below(6) {
            0 => (&self.view.behind, false),
            1 => (&self.view.imported, true),
            _ => (&self.view.filters, false),
        };
        // a filter whose own name has `::` in it is never called
        let callable = |(name, _): &&(Text, usize)| qualified || !name.contains("::");
        let all: Vec<_> = from.iter().filter(callable).copied().collect();
        let fitting: Vec<_> = all.iter().filter(|(_, of)| *of == arity).copied().collect();
        let (name, arity) = match (&fitting[..], &all[..]) {
            ([], []) if self.honest => return Term::Id,
            ([], []) => (self.rng.pick(&FILTERS), arity),
            ([], all) if self.budget > 0 => self.rng.pick(all),
            ([], _) => return Term::Recurse,
            (fitting, _) => self.rng.pick(fitting),
        };
        Term::Call(name, (0..arity).map(|_| self.term()).collect())
    }

    fn with_definitions(&mut self) -> Term<Text> {
        let filters = self.view.filters.len();
        let count = self.rng.pick(&[0, 1, 1, 1, 2, 3]);
        let definitions = (0..count).map(|_| self.definition()).collect();
        let body = self.boxed();
        self.view.filters.truncate(filters);
        Term::Def(definitions, body)
    }

    fn conditional(&mut self) -> Term<Text> {
        let count = self.rng.pick(&[1, 1, 1, 2, 3]);
        let pairs = (0..count).map(|_| (self.term(), self.term())).collect();
        let last = match self.one_in(3) {
            true => None,
            false => Some(self.boxed()),
        };
        Term::IfThenElse(pairs, last)
    }

    fn operation(&mut self, operator: BinaryOp<Text>) -> Term<Text> {
        let left = self.boxed();
        Term::BinOp(left, operator, self.boxed())
    }

    fn any_operation(&mut self) -> Term<Text> {
        use BinaryOp::*;
        let operator = match self.rng.below(10) {
            0 => Comma,
            1 => Alt,
            2 => Or,
            3 => And,
            4 => Assign,
            5 => Update,
            6 => UpdateAlt,
            7 => Math(self.rng.pick(&MATH)),
            8 => Cmp(self.rng.pick(&CMP)),
            _ => UpdateMath(self.rng.pick(&MATH)),
        };
        self.operation(operator)
    }

    fn pipe(&mut self) -> Term<Text> {
        let left = self.boxed();
        if self.one_in(4) {
            return Term::BinOp(left, BinaryOp::Pipe(None), self.boxed());
        }
        let pattern = self.pattern(2);
        let right = self.under(&pattern, |m| m.boxed());
        Term::BinOp(left, BinaryOp::Pipe(Some(pattern)), right)
    }

    fn under<T>(&mut self, pattern: &Pattern<Text>, f: impl FnOnce(&mut Self) -> T) -> T {
        let outside = self.view.variables.len();
        self.view.variables.extend(pattern.vars());
        let y = f(self);
        self.view.variables.truncate(outside);
        y
    }

    fn pattern(&mut self, depth: usize) -> Pattern<Text> {
        match self.rng.below(6) {
            0 if depth > 0 => Pattern::Arr(self.some(3, |m| m.pattern(depth - 1))),
            1 if depth > 0 => Pattern::Obj(self.some(3, |m| (m.term(), m.pattern(depth - 1)))),
            _ => Pattern::Var(self.rng.pick(&VARIABLES)),
        }
    }

    fn fold(&mut self) -> Term<Text> {
        let (name, count) = match self.strays() {
            true => {
                let names = ["reduce", "foreach", "fold", "", "f", "reduce::foreach"];
                (self.rng.pick(&names), self.rng.below(5))
            }
            false => self.rng.pick(&[("reduce", 2), ("foreach", 2), ("foreach", 3)]),
        };
        let source = self.boxed();
        let pattern = self.pattern(2);
        let arguments = (0..count).map(|at| match at {
            0 => self.term(),
            _ => self.under(&pattern, |m| m.term()),
        });
        let arguments = arguments.collect();
        Term::Fold(name, source, pattern, arguments)
    }

    fn path(&mut self) -> Term<Text> {
        let head = self.boxed();
        let parts = self.some(3, |m| {
            let part = match m.rng.below(5) {
                0..=2 => Part::Index(m.term()),
                3 => Part::Range(None, None),
                _ => {
                    let from = m.one_in(2).then(|| m.term());
                    Part::Range(from, m.one_in(2).then(|| m.term()))
                }
            };
            (part, if m.one_in(3) { Opt::Optional } else { Opt::Essential })
        });
        Term::Path(head, Path(parts))
    }

    fn string(&mut self) -> Term<Text> {
        let format = self.one_in(3).then(|| match self.call_of(0) {
            Term::Call(name, arguments) if arguments.is_empty() => Some(name),
            _ => None,
        });
        let parts = self.some(4, |m| match m.rng.below(4) {
            0 => StrPart::Char(m.rng.pick(&CHARACTERS)),
            1 => StrPart::Term(m.term()),
            _ => StrPart::Str(m.rng.pick(&TEXTS)),
        });
        Term::Str(format.flatten(), parts)
    }

    fn object(&mut self) -> Term<Text> {
        Term::Obj(self.some(3, |m| match m.rng.below(4) {
            0 => (m.variable(), None),
            1 => (m.term(), None),
            2 => (Term::Str(None, vec![StrPart::Str(m.rng.pick(&TEXTS))]), Some(m.term())),
            _ => (m.term(), Some(m.term())),
        }))
    }
}
