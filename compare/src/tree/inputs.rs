//! Trees for the compiler: every small one of a few forms, each limit from either side, programs as
//! they are written, random ones, and damaged ones.

use super::count::inserted;
use super::damage::{damaged, systematic};
use super::encode::encode;
use super::program::{Module, Program};
use super::random::NUMBERS;
use super::{programs, random, source};
use super::{DEEPEST, DEEPEST_DEFINITION, MOST_TERMS};
use crate::fields::LONGEST_INPUT;
use crate::gen::Rng;
use crate::load::lex::StrPart;
use crate::load::parse::{BinaryOp, Def, Pattern, Term};
use crate::path::{Opt, Part, Path};

type Text = &'static str;

pub fn inputs(rng: &mut Rng, count: usize, each: &mut dyn FnMut(&[u8])) {
    each(&[]);
    systematic(&encode(&every_field()), each);
    numbers(each);
    small_terms(each);
    tail_places(each);
    module_calls(each);
    outer_variables(each);
    depths(each);
    counts(each);
    wide(each);
    lengths(each);
    for term in programs::terms() {
        each(&encode(&Program::of(term.clone())));
        each(&encode(&programs::with_prelude(term)));
    }
    for at in 0..count {
        let tree = random_tree(rng, at);
        each(&tree);
        if rng.one_in(3) && tree.len() < 4_000 {
            each(&damaged(rng, &tree));
        }
    }
}

fn random_tree(rng: &mut Rng, at: usize) -> Vec<u8> {
    if at % 50 == 0 {
        let text = programs::joined(rng);
        let term = source::term(&text).expect("a term");
        let mut program = Program::of(term);
        if rng.one_in(2) {
            program.globals = Some(programs::GLOBALS.to_vec());
        }
        return encode(&program);
    }
    let size = match at % 1_000 {
        1 => 2_000,
        2..10 => 300,
        10..100 => 60,
        _ => rng.pick(&[3, 6, 10, 20, 30]),
    };
    encode(&random::program(rng, size))
}

/// A program that has a field of each tag, in each place that it may stand in.
pub fn every_field() -> Program<'static> {
    let main = source::term(
        "def f($x; g): $x; reduce 1 as [$a, {(.): $b}] (m::h; .) | label $l | break $l, \
         (if . then 1 else .. end | -[1] // try f(1; 2) catch {a: 1, $a}) as $c \
         | @x \"t\\n\\(.)\" | .a[1:2]?[3:][:4]?.b?",
    );
    let defined = source::definitions("def h: [] | $v; def h(f): if . then . end;").unwrap();
    let module = Module { body: defined, variables: vec!["$v"], ..Module::default() };
    let again = Module {
        imports: vec![(0, "m")],
        includes: vec![0],
        variables: vec!["$w"],
        body: source::definitions("def g: try m::h < $w;").unwrap(),
    };
    Program {
        natives: vec![("@x", vec![]), ("!empty", vec![]), ("n", vec!["$a", "f"])],
        globals: Some(vec!["$g"]),
        modules: vec![module, again],
        main: Module {
            imports: vec![(0, "m"), (1, "m"), (0, "m")],
            includes: vec![1],
            variables: vec!["$w", "$v"],
            body: main.unwrap(),
        },
    }
}

fn numbers(each: &mut dyn FnMut(&[u8])) {
    for number in NUMBERS {
        each(&encode(&Program::of(Term::Num(number))));
    }
    for value in [0_u128, 9, 1 << 31, 1 << 32, (1 << 63) - 1, 1 << 63, 1 << 64, 1 << 65] {
        for value in value.saturating_sub(2)..=value + 2 {
            for text in
                [format!("{value}"), format!("0{value}"), format!("+{value}"), format!("-{value}")]
            {
                each(&encode(&Program::of(Term::Num(&text))));
            }
        }
    }
}

fn operation(left: &Term<Text>, operator: BinaryOp<Text>, right: &Term<Text>) -> Term<Text> {
    Term::BinOp(Box::new(left.clone()), operator, Box::new(right.clone()))
}

fn with_definition(
    name: Text,
    parameters: &[Text],
    body: &Term<Text>,
    rest: Term<Text>,
) -> Term<Text> {
    Term::Def(vec![Def::new(name, parameters.to_vec(), body.clone())], Box::new(rest))
}

fn call(name: Text) -> Term<Text> {
    Term::Call(name, Vec::new())
}

/// Every term of at most five fields over a few names and forms.
fn small_terms(each: &mut dyn FnMut(&[u8])) {
    let one = |term: &Term<Text>| {
        [
            Term::Arr(Some(Box::new(term.clone()))),
            Term::Label("$a", Box::new(term.clone())),
            Term::Call("f", vec![term.clone()]),
            Term::Obj(vec![(term.clone(), None)]),
        ]
    };
    let variable = || Pattern::Var("$a");
    let two = |left: &Term<Text>, right: &Term<Text>| {
        [
            operation(left, BinaryOp::Pipe(None), right),
            operation(left, BinaryOp::Pipe(Some(variable())), right),
            operation(left, BinaryOp::Comma, right),
            with_definition("f", &[], left, right.clone()),
            with_definition("f", &["f"], left, right.clone()),
            with_definition("g", &["$a"], left, right.clone()),
            Term::Fold("reduce", Box::new(left.clone()), variable(), vec![right.clone(); 2]),
            Term::IfThenElse(vec![(left.clone(), right.clone())], None),
        ]
    };
    let leaves =
        vec![Term::Id, Term::Var("$a"), Term::Break("$a"), call("f"), call("g"), Term::Arr(None)];
    // terms of one field, of two, and so on
    let mut terms: Vec<Vec<Term<Text>>> = vec![leaves];
    for size in 1..5 {
        let mut next: Vec<_> = terms[size - 1].iter().flat_map(one).collect();
        for left in 0..size - 1 {
            let right = size - 2 - left;
            for left in &terms[left] {
                next.extend(terms[right].iter().flat_map(|right| two(left, right)));
            }
        }
        terms.push(next);
    }
    let mut program = Program::of(Term::Id);
    program.natives = vec![("!empty", vec![]), ("g", vec!["f"])];
    for term in terms.into_iter().flatten() {
        program.main.body = term;
        each(&encode(&program));
    }
}

/// `def f: def g: def h: A; B; C; f`, for all small A, B, C of calls; the inner ones in each place of a
/// term that is a tail place or not.
fn tail_places(each: &mut dyn FnMut(&[u8])) {
    let calls = [call("f"), call("g"), call("h")];
    let mut bodies = calls.to_vec();
    for left in &calls {
        for right in &calls {
            bodies.push(operation(left, BinaryOp::Pipe(None), right));
            bodies.push(operation(left, BinaryOp::Comma, right));
            bodies.push(operation(left, BinaryOp::Assign, right));
        }
    }
    let mut around = |h: &Term<Text>, g: &Term<Text>, f: &Term<Text>| {
        let f = with_definition("g", &[], &with_definition("h", &[], h, g.clone()), f.clone());
        each(&encode(&Program::of(with_definition("f", &[], &f, call("f")))));
    };
    for h in &bodies {
        for g in &bodies {
            for f in &bodies {
                around(h, g, f);
            }
        }
    }
    for h in &bodies {
        for g in &bodies {
            for f in &calls {
                each_place(h, &mut |h| around(&h, g, f));
                each_place(g, &mut |g| around(h, &g, f));
            }
        }
    }
}

/// A term in each place of another one.
fn each_place(term: &Term<Text>, each: &mut dyn FnMut(Term<Text>)) {
    let id = || Box::new(Term::Id);
    let t = || Box::new(term.clone());
    each(Term::Neg(t()));
    each(Term::Arr(Some(t())));
    each(Term::Label("$l", t()));
    each(Term::TryCatch(t(), Some(id())));
    each(Term::TryCatch(id(), Some(t())));
    for operator in [BinaryOp::Pipe(None), BinaryOp::Comma, BinaryOp::Alt, BinaryOp::And] {
        each(operation(term, operator.clone(), &Term::Id));
        each(operation(&Term::Id, operator, term));
    }
    let pattern = Pattern::Obj(vec![(term.clone(), Pattern::Var("$a"))]);
    each(operation(&Term::Id, BinaryOp::Pipe(Some(pattern.clone())), &Term::Id));
    each(operation(&Term::Id, BinaryOp::Pipe(Some(Pattern::Var("$a"))), term));
    let pairs = |at: usize| {
        let mut terms = vec![Term::Id; 4];
        terms[at] = term.clone();
        let [a, b, c, d] = terms.try_into().unwrap();
        vec![(a, b), (c, d)]
    };
    (0..4).for_each(|at| each(Term::IfThenElse(pairs(at), None)));
    each(Term::IfThenElse(pairs(1), Some(t())));
    each(Term::IfThenElse(vec![(Term::Id, Term::Id)], Some(t())));
    for (name, count) in [("reduce", 2), ("foreach", 2), ("foreach", 3)] {
        each(Term::Fold(name, t(), Pattern::Var("$a"), vec![Term::Id; count]));
        each(Term::Fold(name, id(), pattern.clone(), vec![Term::Id; count]));
        for at in 0..count {
            let mut arguments = vec![Term::Id; count];
            arguments[at] = term.clone();
            each(Term::Fold(name, id(), Pattern::Var("$a"), arguments));
        }
    }
    each(Term::Path(t(), Path(vec![(Part::Range(None, None), Opt::Essential)])));
    each(Term::Path(id(), Path(vec![(Part::Index(term.clone()), Opt::Optional)])));
    each(Term::Path(id(), Path(vec![(Part::Range(Some(term.clone()), None), Opt::Essential)])));
    each(Term::Str(None, vec![StrPart::Term(term.clone())]));
    each(Term::Obj(vec![(term.clone(), None)]));
    each(Term::Obj(vec![(Term::Id, Some(term.clone()))]));
    each(Term::Def(vec![Def::new("k", vec![], term.clone())], Box::new(call("k"))));
    each(Term::Def(vec![Def::new("k", vec!["$a"], Term::Id)], t()));
    each(Term::Def(
        vec![Def::new("k", vec!["a"], call("a"))],
        Box::new(Term::Call("k", vec![term.clone()])),
    ));
}

/// Main calls what two modules define, or natives, in each way that it can use them; so does the
/// second module.
fn module_calls(each: &mut dyn FnMut(&[u8])) {
    let bodies = [
        "", "def f: 1;", "def f: f; def g: 2;", "def f: 1; def f: f, f; def f(a): 3;",
        "def g($a): f; def f: g(.);",
    ];
    let bodies = bodies.map(|source| source::definitions(source).expect("definitions"));
    let first = bodies.map(|body| Module { body, ..Module::default() });
    let seconds = ["", "def f: 4;", "def f: f; def f(a): g;", "def g(a): m::f, f;"];
    let seconds = seconds.map(|source| source::definitions(source).expect("definitions"));
    let calls =
        ["f", "g", "f(.)", "g(1)", "m::f", "m::g(1)", "n::f", "def f: 5; . as $x | f, m::f"];
    let calls = calls.map(|source| source::term(source).expect("a term"));
    let includes = [&[][..], &[0], &[1], &[0, 1], &[1, 0]];
    let imports = [&[][..], &[(0, "m")], &[(0, "m"), (1, "m")], &[(1, "m"), (0, "m")], &[(1, "n")]];
    let natives = [&[][..], &[("g", &["a"][..]), ("f", &[]), ("f", &[]), ("g", &["$a"])]];
    for first in &first {
        for (at, second) in seconds.iter().enumerate() {
            let second = Module {
                imports: imports[at % 3]
                    .iter()
                    .filter(|(number, _)| *number == 0)
                    .copied()
                    .collect(),
                includes: vec![0; at % 2],
                body: second.clone(),
                ..Module::default()
            };
            for call in &calls {
                for includes in includes {
                    for imports in imports {
                        for natives in natives {
                            let mut program = Program::of(call.clone());
                            program.main.includes = includes.to_vec();
                            program.main.imports = imports.to_vec();
                            program.modules = vec![first.clone(), second.clone()];
                            let native = |(name, of): &(Text, &[Text])| (*name, of.to_vec());
                            program.natives = natives.iter().map(native).collect();
                            each(&encode(&program));
                        }
                    }
                }
            }
        }
    }
}

/// Variables of modules and globals, before and behind each other.
fn outer_variables(each: &mut dyn FnMut(&[u8])) {
    let lists = [&[][..], &["$v"], &["$w", "$v"], &["$v", "$w", "v"], &["$v", "$v", "$x"]];
    let definitions = source::definitions("def f: $v; def g($w): $w, $v;").expect("definitions");
    for body in ["$v", "$w, $v", ". as $v | $v, $w", "def f($x): $v, $x; f(.), $x", "{$v, w: $w}"] {
        let term = source::term(body).expect("a term");
        for first in lists {
            for second in lists {
                for main in lists {
                    for globals in [None].into_iter().chain(lists.map(Some)) {
                        let module = |variables: &[Text]| Module {
                            variables: variables.to_vec(),
                            body: definitions.clone(),
                            ..Module::default()
                        };
                        let mut program = Program::of(term.clone());
                        program.modules = vec![module(first), module(second)];
                        program.main.variables = main.to_vec();
                        program.globals = globals.map(<[_]>::to_vec);
                        each(&encode(&program));
                    }
                }
            }
        }
    }
}

/// A field around bytes.
fn field(tag: u8, content: &[u8]) -> Vec<u8> {
    let [low, high] = (content.len() as u16).to_le_bytes();
    [&[tag, low, high], content].concat()
}

/// A tree of a main term alone, given in bytes.
fn tree_of(term: &[u8]) -> Vec<u8> {
    let lists = [0x86, 0, 0, 0x87, 0, 0, 0x88, 0, 0];
    field(0x80, &[&[0x81, 0, 0][..], &field(0x84, &[&lists, term].concat())].concat())
}

const ID: &[u8] = &[0xa0, 0, 0];

/// Puts a field around another one.
type Around<'a> = &'a dyn Fn(&[u8]) -> Vec<u8>;

/// A term in which fields are nested: those of a list, again and again.
fn nested(around: &[Around], depth: usize, inner: &[u8]) -> Vec<u8> {
    (0..depth).fold(inner.to_vec(), |inner, at| around[at % around.len()](&inner))
}

/// A tree with so many fields open at once, at least 3.
pub fn nested_fields(depth: usize) -> Vec<u8> {
    tree_of(&nested(&[&|inner| field(0xa3, inner)], depth - 3, ID))
}

/// A tree with so many definitions open at once.
pub fn nested_definitions(depth: usize) -> Vec<u8> {
    let definition = |inner: &[u8]| field(0x8c, &[&[0x90, 0, 0], inner].concat());
    let def = |inner: &[u8]| field(0xa9, &[inner, ID].concat());
    tree_of(&nested(&[&definition, &def], 2 * depth, ID))
}

/// Nested to about each limit, well formed and not: by terms, patterns and definitions, compiled or
/// not.
pub fn depths(each: &mut dyn FnMut(&[u8])) {
    let neg = |inner: &[u8]| field(0xa3, inner);
    let arr = |inner: &[u8]| field(0xa2, inner);
    let def = |inner: &[u8]| field(0xa9, inner);
    let pattern = |inner: &[u8]| field(0x99, inner);
    let pair = |inner: &[u8]| field(0xb8, &[ID, inner].concat());
    let conditional = |inner: &[u8]| field(0xa6, inner);
    let index = |inner: &[u8]| field(0xbe, inner);
    let path = |inner: &[u8]| field(0xae, &[ID, inner].concat());
    let deep =
        |around: &[Around], depth: usize, inner: &[u8]| tree_of(&nested(around, depth, inner));
    // the tree and main are open around a term
    for depth in (DEEPEST - 6..DEEPEST + 4).chain([1_000, 5_000, 10_900]) {
        for inner in [
            ID,
            &[0xa7, 1, 0, b'$'],
            &[0xa7, 1, 0, b'a'],
            &[0xa2, 0, 0],
            &[0xa3, 0, 0],
            &[0xff, 0, 0],
        ] {
            each(&deep(&[&neg], depth, inner));
            each(&deep(&[&arr, &def], depth, inner));
            each(&deep(&[&pair, &conditional], depth & !1, inner));
            each(&deep(&[&index, &path], depth & !1, inner));
        }
        let fold = |inner: &[u8]| field(0xac, &[&[0x90, 0, 0], ID, inner].concat());
        for inner in [&[0x98, 1, 0, b'$'][..], &[0x99, 0, 0], &[0x98, 0, 0]] {
            each(&tree_of(&fold(&nested(&[&pattern], depth, inner))));
        }
    }

    let name = [0x90, 1, 0, b'f'];
    let definition = |inner: &[u8]| field(0x8c, &[&name[..], inner].concat());
    let in_def = |inner: &[u8]| field(0xa9, &[inner, ID].concat());
    let fold = |inner: &[u8]| field(0xac, &[&name[..], ID, &[0x99, 0, 0], inner].concat());
    let key = |inner: &[u8]| {
        let entry = field(0x9b, &[inner, &[0x98, 1, 0, b'$']].concat());
        field(0xad, &[ID, &field(0xb7, &field(0x9a, &entry)), ID].concat())
    };
    let calls = |inner: &[u8]| field(0xa8, &[&name[..], inner].concat());
    let rest = |inner: &[u8]| field(0xa9, &[&definition(ID), inner].concat());
    for depth in DEEPEST_DEFINITION - 2..=DEEPEST_DEFINITION + 2 {
        for inner in [ID, &[0xa8, 4, 0, 0x90, 1, 0, b'f'], &[0xa3, 0, 0]] {
            each(&deep(&[&definition, &in_def], 2 * depth, inner));
            each(&deep(&[&definition, &in_def, &fold], 3 * depth, inner));
            each(&deep(&[&definition, &in_def, &key], 3 * depth, inner));
            each(&deep(&[&definition, &in_def, &calls, &neg], 4 * depth, inner));
            each(&deep(&[&rest], depth, inner));
            each(&deep(&[&rest], 3 * depth, inner));
            // among a module's definitions, which are one level themselves
            let body = nested(&[&definition, &in_def], 2 * depth - 1, inner);
            let lists = [0x86, 0, 0, 0x87, 0, 0, 0x88, 0, 0];
            let module = field(0x83, &[&lists[..], &field(0x89, &body)].concat());
            let main = field(0x84, &[&lists, ID].concat());
            each(&field(0x80, &[&[0x81, 0, 0][..], &module, &main].concat()));
        }
    }
    // both limits at once
    for (definitions, more) in [(64, 381), (64, 382), (65, 379), (65, 380), (66, 1_000)] {
        let inner = nested(&[&neg], more, ID);
        each(&deep(&[&definition, &in_def], 2 * definitions, &inner));
    }
    enclosing_definitions(each);
}

/// Each of 64 nested definitions calls all that enclose it, or the outermost one, in a tail place.
fn enclosing_definitions(each: &mut dyn FnMut(&[u8])) {
    let names: Vec<String> = (0..DEEPEST_DEFINITION).map(|level| format!("f{level}")).collect();
    let call = |level: usize| Term::Call(&*names[level], Vec::new());
    let comma = |left, right| Term::BinOp(Box::new(left), BinaryOp::Comma, Box::new(right));
    for count in [1, 2, 3, 8, 31, 32, 33, 62, 63, 64] {
        for shape in 0..4 {
            let mut body: Option<Term<&str>> = None;
            for level in (0..count).rev() {
                let calls = match shape {
                    0 => call(level),
                    1 => call(0),
                    2 => comma(call(level), call(0)),
                    _ => (0..level).fold(call(level), |calls, of| comma(calls, call(of))),
                };
                body = Some(match body {
                    Some(body) => {
                        let definition = Def::new(&*names[level + 1], vec![], body);
                        let rest = comma(calls, call(level + 1));
                        Term::Def(vec![definition], Box::new(rest))
                    }
                    None => calls,
                });
            }
            let definition = Def::new(&*names[0], vec![], body.unwrap());
            let mut program = Program::of(Term::Def(vec![definition.clone()], Box::new(call(0))));
            each(&encode(&program));
            program.main = Module { includes: vec![0], body: call(0), ..Module::default() };
            program.modules = vec![Module { body: vec![definition], ..Module::default() }];
            each(&encode(&program));
        }
    }
}

/// Programs that insert about as many terms as are allowed, of each form, with errors and without.
pub fn counts(each: &mut dyn FnMut(&[u8])) {
    let ids = |count: usize| vec![Term::Id; count];
    let index = || (Part::Index(Term::Id), Opt::Essential);
    let path = |count: usize| Term::Path(Box::new(Term::Id), Path(vec![index(); count]));
    let forms: Vec<Term<Text>> = vec![
        Term::Id,
        Term::Call("f", ids(1_000)),
        Term::Call("undefined", ids(1_000)),
        Term::Call("undefined", vec![Term::Var("$undefined"); 1_000]),
        Term::Call("undefined", vec![Term::Break("$undefined"); 800]),
        Term::Call("undefined", vec![Term::Arr(None); 1_000]),
        Term::Obj(vec![(Term::Id, None); 500]),
        Term::Obj(vec![(Term::Var("$x"), None); 500]),
        Term::Obj(vec![(Term::Id, Some(Term::Id)); 500]),
        Term::Str(None, vec![StrPart::Char('a'); 1_000]),
        Term::Str(Some("undefined"), vec![StrPart::Term(Term::Id); 800]),
        Term::IfThenElse(vec![(Term::Id, Term::Id); 700], None),
        Term::IfThenElse(vec![(Term::Id, Term::Id); 700], Some(Box::new(Term::Recurse))),
        operation(
            &Term::Id,
            BinaryOp::Pipe(Some(Pattern::Arr(vec![Pattern::Var("$a"); 2_000]))),
            &Term::Id,
        ),
        Term::Fold(
            "reduce",
            Box::new(Term::Id),
            Pattern::Arr(vec![Pattern::Arr(vec![]); 999]),
            ids(2),
        ),
        // what is never compiled inserts nothing
        Term::Fold("reduce", Box::new(path(1_000)), Pattern::Var("$a"), ids(1)),
        Term::Fold("foreach", Box::new(Term::Id), Pattern::Var("$a"), ids(1_000)),
        Term::Fold("fold", Box::new(path(500)), Pattern::Var("$a"), ids(500)),
        Term::Def(vec![Def::new("f", vec![], Term::Arr(None)); 500], Box::new(Term::Id)),
        Term::TryCatch(Box::new(path(500)), None),
    ];
    for form in forms {
        let with = |more| {
            let mut program = Program::of(operation(&form, BinaryOp::Comma, &path(more)));
            program.natives = vec![("!empty", vec![])];
            if let Term::Call("f", arguments) = &form {
                program.natives.push(("f", vec!["$x"; arguments.len()]));
            }
            program
        };
        let least = inserted(&with(0));
        for terms in MOST_TERMS - 1..=MOST_TERMS + 2 {
            let mut program = with(terms - least);
            assert_eq!(inserted(&program), terms);
            each(&encode(&program));
            program.natives.clear();
            each(&encode(&program));
        }
    }
    // by definitions of modules
    for count in 2_092..=2_096 {
        let mut program = Program::of(Term::Id);
        let body = vec![Def::new("f", vec![], Term::Id); 1_000];
        program.modules = vec![Module { body, ..Module::default() }; 2];
        program.main.body = path(count);
        each(&encode(&program));
    }
}

/// Numbers that need a second byte: indices, skips, natives, modules, arguments, parts, errors.
fn wide(each: &mut dyn FnMut(&[u8])) {
    for count in [254, 255, 256, 257, 1_000] {
        let names: Vec<String> = (0..count).map(|at| format!("$v{at}")).collect();
        let pattern = Pattern::Arr(names.iter().map(|name| Pattern::Var(&**name)).collect());
        for body in [
            Term::Var(&*names[0]),
            Term::Var(&*names[count - 1]),
            Term::Call("f", vec![]),
            Term::Call("g", vec![]),
            Term::Call("@n", vec![Term::Id; 3]),
            Term::Break("$l"),
            Term::Var("$i"),
            Term::Var("$g"),
        ] {
            let pipe = BinaryOp::Pipe(Some(pattern.clone()));
            let inner = Term::BinOp(Box::new(Term::Id), pipe, Box::new(body));
            let labelled = Term::Label("$l", Box::new(inner));
            let definition = Def::new("f", vec![], Term::Id);
            let mut program = Program::of(Term::Def(vec![definition], Box::new(labelled)));
            program.globals = Some(vec!["$g"; count]);
            program.main.variables = vec!["$w", "$i", "$w"];
            program.natives = vec![("n", vec![]); count];
            program.natives.push(("@n", vec!["f", "$f", "f"]));
            program.modules = vec![Module { variables: vec!["$i"], ..Module::default() }; count];
            program.modules.push(Module {
                body: vec![Def::new("g", vec!["$a"], Term::Id)],
                ..Module::default()
            });
            program.modules.push(Module {
                includes: (0..=count).collect(),
                imports: vec![(count, "m")],
                body: vec![Def::new("g", vec![], Term::Call("m::g", vec![Term::Id]))],
                ..Module::default()
            });
            program.main.includes = vec![count + 1, 0];
            program.main.imports = vec![(count, "m"), (count + 1, "m")];
            let tree = encode(&program);
            each(&tree);
        }
        let mut program = Program::of(Term::Call("f", vec![Term::Call("a", vec![]); count]));
        program.modules = vec![Module::default(); count];
        each(&encode(&program));
        program.natives = vec![("f", vec!["$x"; count]), ("a", vec![])];
        each(&encode(&program));
        let range = (Part::Range(None, None), Opt::Optional);
        each(&encode(&Program::of(Term::Path(Box::new(Term::Id), Path(vec![range; 10 * count])))));
        let parameters = vec!["f"; count];
        let body = Term::Call("f", vec![Term::Call("f", vec![]); count]);
        let call = body.clone();
        each(&encode(&Program::of(Term::Def(
            vec![Def::new("f", parameters, body)],
            Box::new(call),
        ))));
    }
}

/// Trees on either side of the longest, by a long text in each place that has one.
fn lengths(each: &mut dyn FnMut(&[u8])) {
    for length in [250, 256, 300, LONGEST_INPUT - 1, LONGEST_INPUT, LONGEST_INPUT + 1, 65_000] {
        for fill in ["a", "0", "9", ":", "$", "é"] {
            for form in 0..9 {
                let of = |text: &str| encode(&long_text(form, text));
                let text = fill.repeat((length - of("$").len()) / fill.len());
                let text = format!("${text}");
                let missing = length - of(&text).len();
                each(&of(&text));
                each(&of(&(text + &"b".repeat(missing))));
            }
        }
        each(&vec![0; length]);
        let mut tree = tree_of(&field(0xaf, &field(0xbb, &vec![b'a'; length - 24])));
        each(&tree);
        *tree.last_mut().unwrap() = 0xff;
        each(&tree);
        tree.push(0);
        each(&tree);
    }
    each(&vec![0x80; 200_000]);
}

/// A long text in one of nine places.
fn long_text(form: usize, text: &str) -> Program<'_> {
    let mut program = Program::of(match form {
        0 => Term::Str(None, vec![StrPart::Str(text)]),
        1 => Term::Num(&text[1..]),
        2 => Term::Call(text, vec![]),
        3 => Term::Var(text),
        4 => Term::Break(text),
        5 => Term::Label(text, Box::new(Term::Break(text.get(..1).unwrap()))),
        6 => Term::Str(Some(text), vec![]),
        7 => Term::Obj(vec![(Term::Var(text), None)]),
        _ => Term::Def(vec![Def::new(text, vec![], Term::Id)], Box::new(Term::Id)),
    });
    if form == 7 {
        program.globals = Some(vec!["$"]);
    }
    program
}
