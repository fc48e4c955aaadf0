//! The recorded sample: a tree for each branch of the rules.

use super::damage::systematic;
use super::encode::encode;
use super::program::{Module, Program};
use super::random::NUMBERS;
use super::source;
use super::{inputs, DEEPEST, DEEPEST_DEFINITION, MOST_TERMS};
use crate::fields::LONGEST_INPUT;
use crate::load::lex::StrPart;
use crate::load::parse::{BinaryOp, Def, Pattern, Term};
use crate::room::Lent;

/// Main alone, without natives or globals.
const SOURCES: &[&str] = &[
    ".", "..", "[.]", "-.", "{}", "\"\"", "\"a\"", "\"\\u20ac\"", "\"a\\(.)b\"", "\"\\(.)\"",
    "\"\\(1)\\(2)\\n\"", "1, 1.5", "{a: 1}", "{a}", "{\"a\\(.)\"}", "{(.): 1, b: 2, \"c\": 3}",
    "{(1, 2): 3}", // bindings
    ". as $x | $x", ". as $x | . as $y | $x, $y", ". as $x | . as $x | $x",
    ". as [$a, $b] | $a, $b", ". as [$a, [$a]] | $a", ". as {a: $x} | $x", ". as {$x} | $x",
    ". as {(.): [$x, {b: $y}]} | $y", ". as $x | . as {($x): $x} | $x", ". as [[[$x]]] | .",
    "1 as $x | label $l | $x", "label $l | break $l", "label $l | label $l | break $l",
    "label $l | label $m | break $l", "label $x | . as $x | break $x, $x", "$x", "break $l",
    ". as $l | break $l", "label $x | $x", "(. as $x | .) | $x", // operators
    ". | .", ". , .", ". = .", ". |= .", ". += .", ". -= .", ". *= .", ". /= .", ". %= .",
    ". //= .", ". or .", ". and .", ". + .", ". - .", ". * .", ". / .", ". % .", ". < .", ". <= .",
    ". > .", ". >= .", ". == .", ". != .", ". // .", "1 - 2 - 3 * 4",
    // conditions, errors caught, paths
    "if . then .. end", "if . then 1 else 2 end", "if 1 then 2 elif 3 then 4 else [5] end",
    "if 1 then 2 elif 3 then 4 elif 5 then 6 end", "try . catch ..", ".[]", ".[1]", ".[1:]?",
    ".[:2]", ".[1:2]", ".a.b?[]", "..[.]?", ".\"a\\(1)\"", // folds
    "reduce . as $x (1; $x)", "reduce . as [$x] (.; $x)", "foreach . as $x (1; $x)",
    "foreach . as $x (1; $x; [$x])", "foreach . as [$x, $y] (.; $x; $y)", "reduce . as $x (.)",
    "foreach $u as $x (.; $v; $w; $z)", "reduce $u as {($v): $x} (.; $x; $x)",
    // definitions and calls
    "def f: .; f", "def f: .; .", "def f(g): g; f(.)", "def f($x): $x; f(1)",
    "def f(g; $x): g, $x; f(1; 2)", "def f($x; $x): $x; f(1; 2)", "def f: 1; def f: 2; f",
    "def f: 1; def f(g): 2; f, f(.)", "def f(f): f; f(1)", "def f: def g: 1; g; f",
    "def f: .; def g: f; g", "def f(g): def h: g; h; f(.)", "def f(g): def g: 1; g; f(.)",
    ". as $x | def f: $x; f", "def f: .; . as $x | f", "def f($x): . as $y | f($y); f(1)",
    "def f: g; f", "def f(g): g(1); f(.)", "f", "f(1; 2)", "f($x; break $l)", "m::f", "m::f(.)",
    "(def f: .; .) | f", // tail places
    "def f: f; f", "def f: f | f; f", "def f: f, f; f", "def f: f // f; f", "def f: f + f; f",
    "def f: [f]; f", "def f: if f then f else f end; f", "def f: . as $x | f; f",
    "def f: reduce f as $x (f; f); f", "def f: foreach f as $x (f; f; f); f",
    "def f: foreach f as $x (f; f); f", "def f: try f catch f; f", "def f: label $l | f; f",
    "def f: def g: f; g; f", "def f: def g: g; g; f", "def f: def g: f, g; g; f",
    "def f: def g: f, g; g | g; f", "def f: def g: f, g; [g], g; f", "def f: 1 + (def g: g; g); f",
    "def f: def g: def h: f, g, h; h; g; f", "def f: def g: def h: f, h; h | 1; g, h; f",
    "def f(g): g; def h: f(h); h", "def f: def g: f; g; def h: f; h", "def f: {a: f}; f",
    "def f: \"\\(f)\"; f", "def f: .[f]; f", "def f: -f; f",
    "def f: def g: f, g; . as $x | if $x then g else f end; f",
];

/// A source, natives by name with each parameter behind a `/`, and globals.
type Surrounded = (&'static str, &'static [&'static str], Option<&'static [&'static str]>);

const SURROUNDED: &[Surrounded] = &[
    ("[]", &["!empty"], None),
    ("try .", &["f", "!empty"], None),
    ("[], try .", &[], None),
    ("def f: []; f", &["!empty"], None),
    ("f", &["f", "f"], None),
    ("f(1; 2)", &["f", "f/a/$b"], None),
    ("def f: 1; f", &["f"], None),
    ("@x \"\\(1)\\(2)\"", &["@x"], None),
    ("@x \"a\"", &[], None),
    ("@x, @y \"\"", &["@x", "@y"], None),
    ("$a, $b, $c", &[], Some(&["$a", "$b", "$a"])),
    ("$a", &[], Some(&[])),
    (". as $x | $b, $x", &[], Some(&["$a", "b", "$b", ""])),
    ("{$a, b: $a}", &[], Some(&["$a"])),
    ("def f($a): $a, $b; f($b)", &[], Some(&["$a", "$b"])),
];

pub fn sample(each: &mut dyn FnMut(&[u8], Lent)) {
    let mut at = 0;
    let mut program = |program: &Program| {
        let tree = encode(program);
        at += 1;
        match at % 12 {
            3 => each(&tree, Lent::OneShort),
            7 => each(&tree, Lent::Nothing),
            11 => each(&tree, Lent::More(1 + at % 5)),
            _ => each(&tree, Lent::Exact),
        }
    };
    for source in SOURCES {
        program(&Program::of(source::term(source).expect("a term")));
    }
    surrounded(&mut program);
    modules(&mut program);
    strange(&mut program);
    for number in NUMBERS {
        program(&Program::of(Term::Num(number)));
    }
    no_trees(each);
    limits(each);
}

fn surrounded(each: &mut dyn FnMut(&Program)) {
    for (source, natives, globals) in SURROUNDED {
        let mut program = Program::of(source::term(source).expect("a term"));
        let native = |native: &&'static str| {
            let mut parts = native.split('/');
            (parts.next().unwrap(), parts.collect())
        };
        program.natives = natives.iter().map(native).collect();
        program.globals = globals.map(|globals| globals.to_vec());
        each(&program);
    }
}

/// Two modules, in each way that another one or main can use them.
fn modules(each: &mut dyn FnMut(&Program)) {
    let module = |source| Module {
        body: source::definitions(source).expect("definitions"),
        ..Module::default()
    };
    for (main, imports, includes) in [
        ("f", &[][..], &[][..]),
        ("f", &[], &[0]),
        ("f", &[], &[0, 1]),
        ("f", &[], &[1, 0]),
        ("m::f", &[(0, "m"), (1, "m")], &[]),
        ("m::f", &[(1, "m"), (0, "m")], &[1]),
        ("m::g, n::g", &[(0, "m"), (1, "n")], &[]),
        ("g", &[(0, "m")], &[]),
        (". as $x | g(1)", &[], &[1]),
    ] {
        let mut program = Program::of(source::term(main).expect("a term"));
        program.modules = vec![module("def f: 1; def f: f;"), module("def f: 2; def g(a): a;")];
        program.main.imports = imports.to_vec();
        program.main.includes = includes.to_vec();
        each(&program);
    }
    // imported variables of each module, behind the locals and before the globals
    let mut program = Program::of(source::term(". as $l | $v, $w, $g, $u").expect("a term"));
    program.globals = Some(vec!["$g", "$v"]);
    program.modules = vec![module("def f: $v;"), module("def f: $v; def g: $w;")];
    program.modules[0].variables = vec!["$v", "$u"];
    program.main.variables = vec!["$w", "$v", "w"];
    each(&program);
    program.globals = None;
    program.modules[1].includes = vec![0];
    program.modules[1].imports = vec![(0, "m")];
    program.modules[1].body = source::definitions("def f: m::f | g;").expect("definitions");
    each(&program);
}

/// What no source gives.
fn strange(each: &mut dyn FnMut(&Program)) {
    let call = |name| Term::Call(name, vec![]);
    let id = || Box::new(Term::Id);
    let pattern = || Pattern::Var("$x");
    for term in [
        call(""),
        call("::"),
        call("m::"),
        call("::f"),
        call("a::b::c"),
        call("!empty"),
        Term::Var("$"),
        Term::Break(""),
        Term::Label("", Box::new(Term::Break(""))),
        Term::Def(vec![], id()),
        Term::Def(vec![Def::new("!empty", vec![], Term::Arr(None))], Box::new(Term::Arr(None))),
        Term::Def(vec![Def::new("", vec![""], call(""))], Box::new(Term::Call("", vec![Term::Id]))),
        Term::Def(vec![Def::new("f", vec!["$"], Term::Var("$"))], id()),
        Term::Def(vec![Def::new("a::b", vec![], Term::Id)], Box::new(call("a::b"))),
        Term::BinOp(id(), BinaryOp::Pipe(Some(Pattern::Arr(vec![]))), id()),
        Term::BinOp(id(), BinaryOp::Pipe(Some(Pattern::Obj(vec![]))), id()),
        Term::Fold("", id(), pattern(), vec![]),
        Term::Fold("fold", id(), pattern(), vec![Term::Id; 2]),
        Term::Fold("reduce", id(), pattern(), vec![Term::Var("$x"); 2]),
        Term::Obj(vec![(Term::Var("$"), None), (Term::Recurse, None)]),
        Term::Str(
            Some("m::@x"),
            vec![StrPart::Str(""), StrPart::Char('\0'), StrPart::Char('\u{10ffff}')],
        ),
        Term::Path(id(), crate::path::Path(vec![])),
    ] {
        each(&Program::of(term));
    }
}

/// A few of all the changes of a small tree.
fn no_trees(each: &mut dyn FnMut(&[u8], Lent)) {
    each(&[], Lent::More(8));
    let tree = encode(&Program::of(source::term("1 as $x | f").expect("a term")));
    let mut at = 0;
    systematic(&tree, &mut |changed| {
        at += 1;
        if at % 290 == 0 {
            each(changed, Lent::More(8));
        }
    });
}

fn limits(each: &mut dyn FnMut(&[u8], Lent)) {
    for depth in [DEEPEST, DEEPEST + 1] {
        each(&inputs::nested_fields(depth), Lent::Nothing);
    }
    for depth in [DEEPEST_DEFINITION, DEEPEST_DEFINITION + 1] {
        each(&inputs::nested_definitions(depth), Lent::Nothing);
    }
    // each part of this string is four terms, and each error has 11 bytes
    let parts = vec![StrPart::Term(Term::Arr(None)); MOST_TERMS / 4];
    let most = Program::of(Term::Str(None, parts));
    assert_eq!(super::count::inserted(&most), MOST_TERMS);
    each(&encode(&most), Lent::Nothing);
    each(&encode(&Program::of(Term::Arr(Some(Box::new(most.main.body))))), Lent::More(8));
    each(&[0x80; LONGEST_INPUT + 1], Lent::More(8));
}
