//! Programs as they are written, which the Rust's parser reads.

use super::program::{Module, Program};
use super::source;
use crate::gen::Rng;
use crate::load::parse::{Def, Term};
use crate::path::{Opt, Part, Path};

/// Definitions that programs include.
pub const PRELUDE: &str = r#"
def none: {} | .[];
def true_: 1 == 1;
def false_: 1 == 0;
def keep(f): if f then . else none end;
def each(f): [.[] | f];
def down: def r: ., (.[]? | r); r;
def upto($n): def r: if . < $n then ., (. + 1 | r) else none end; 0 | r;
def total(xs): reduce xs as $x (0; . + $x);
def sums(xs): foreach xs as $x (0; . + $x; .);
def pairs: . as $o | names[] as $k | [$k, $o[$k]];
def first_of(f): label $found | f | ., break $found;
def at_least($n; f): [f] | if size < $n then none else .[] end;
def any_of(g; cond): (label $out | g | keep(cond) | true_, break $out) // false_;
def not_: if . then false_ else true_ end;
def times($n; f): if $n > 0 then f, times($n - 1; f) else none end;
def until_(cond; next): def r: if cond then . else next | r end; r;
def while_(cond; next): def r: keep(cond) | ., (next | r); r;
def twice(f): f | f;
def swap: [.[1], .[0]];
def with_pairs(f): [pairs | f] | reduce .[] as [$k, $v] ({}; .[$k] = $v);
def line: "\(.name // "bay"): \(.level * 100 / .volume)%\n";
def table: .[] | [.id, .name, (.level | @fixed "\(.)")];
def deepest: [down | size?] | total(.[]);
def guarded(f): try f catch {error: ., at: $__place};
def floor_of($bay): .bays[$bay].floor // .floor // 4.5;
def split_at($n): [.[:$n], .[$n:]];
def count(f): total(f | 1);
def rev: if size == 0 then [] else [.[-1]] + (.[:-1] | rev) end;
def zip($a; $b): [upto($a | size)] | each([$a[.], $b[.]]);
def flat: [.[] | if kind == "array" then flat[] else . end];
def group_on(f): reduce .[] as $x ({}; .["\($x | f)"] += [$x]);
def clamp($lo; $hi): if . < $lo then $lo elif . > $hi then $hi else . end;
def rename($from; $to): .[$to] = .[$from] | drop($from);
def report: each(line) | reduce .[] as $l (""; . + $l);
def levels: {low: 2.5, high: 97.5e0, $__place, "any": [1, 2, {a: "b"}]};
"#;

/// Natives that the prelude and the programs call, with their parameters.
pub const NATIVES: &[(&str, &[&str])] = &[
    ("size", &[]),
    ("names", &[]),
    ("kind", &[]),
    ("drop", &["$key"]),
    ("range", &["$from", "$upto"]),
    ("path", &["f"]),
    ("@fixed", &[]),
    ("limit", &["$n", "f"]),
];

pub const GLOBALS: &[&str] = &["$__place", "$ENV", "$bay"];

pub const PROGRAMS: &[&str] = &[
    ".",
    ".bays[0].level",
    ".[] | .a + 10",
    "[.bays[] | keep(.open and .level > 2.5) | {id, level: (.level * 100), text: \"bay \\(.id)\"}]",
    "1 as $x | label $l | $x",
    "\"a\\(.)b\"",
    "def f: def g: f, g; g; f",
    "def f: 1 + (def g: g; g); f",
    "def f(a; $b): a | f($b; a); f(.; 1)",
    "reduce .[] as [$a, {b: $c, $d, \"e\\(1)\": [$a]}] (0; . + $a * $c | $d)",
    "foreach .[] as $x (0; . + $x; [$x, .])",
    "foreach .[] as $x (0; . + $x)",
    "try error catch . , .a?, .[1:2]?, .[:-1], .[2:]?, ..",
    "if .a then .b elif .c then .d else .e end | if . then 1 end",
    ".a = 1 | .b |= . + 1 | .c += 2 | .d -= 2 | .e *= 2 | .f /= 2 | .g %= 2 | .h //= 2",
    ".a // .b // empty, .a and .b or .c, (.a < .b), .a <= .b, .a > .b, .a >= .b, .a == .b, .a != .b",
    "{a, $bay, \"b\", \"c\\(1)\": 2, (.d): 3, @fixed \"e\": 4, e: 5 | -1}",
    "@fixed \"\\(.a) and \\(.b)\\n\\u00e9\", @fixed, \"\"",
    "{}, [], {a: {b: [[], {}]}}",
    "label $out | .[] | if . > 3 then break $out else . end",
    ". as {a: $x, b: [$y, $z]} | [$x, $y, $z] | total(.[])",
    "def f($x): $x, f; f(1)",
    "$undefined, break $nowhere, missing, missing(1; 2), lost::f",
    "down | keep(kind == \"number\") | clamp(0; 100)",
    "floor_of($bay) as $floor | [.levels[] | until_(. > $floor; . + 1)] | with_pairs(swap)",
    "def a: def b: def c: a, b, c; c | b; b // a; a",
    "def fib: if . < 2 then . else (. - 1 | fib) + (. - 2 | fib) end; upto(10) | fib",
    "path(..), limit(3; .[]), range(0; 5)",
    "times(3; .a), first_of(.[]), guarded(drop(\"a\")), report, levels",
    "-1, - .a, -(1 - 2), 1.5e3, 00, 12345678901234567890",
];

/// A program that is given a source's term, the prelude, natives and globals.
pub fn with_prelude(main: Term<&'static str>) -> Program<'static> {
    let native =
        |(name, parameters): &(&'static str, &[&'static str])| (*name, parameters.to_vec());
    let body = prelude();
    let main = Module { includes: vec![0], body: main, ..Module::default() };
    Program {
        natives: NATIVES.iter().map(native).collect(),
        globals: Some(GLOBALS.to_vec()),
        modules: vec![Module { body, ..Module::default() }],
        main,
    }
}

/// The prelude's definitions behind one of `!empty`, which no source can define: `{}[]`.
fn prelude() -> Vec<Def<&'static str>> {
    let path = Path(vec![(Part::Range(None, None), Opt::Essential)]);
    let empty = Term::Path(Box::new(Term::Obj(Vec::new())), path);
    let definitions = source::definitions(PRELUDE).expect("definitions");
    [Def::new("!empty", Vec::new(), empty)].into_iter().chain(definitions).collect()
}

pub fn terms() -> Vec<Term<&'static str>> {
    PROGRAMS.iter().map(|program| source::term(program).expect("a term")).collect()
}

/// A source that joins several programs.
pub fn joined(rng: &mut Rng) -> String {
    let mut source = rng.pick(PROGRAMS).to_owned();
    for _ in 0..rng.below(4) {
        let other = rng.pick(PROGRAMS);
        source = match rng.below(8) {
            0 => format!("({source}) | ({other})"),
            1 => format!("({source}), ({other})"),
            2 => format!("({source}) as [$x, $bay] | ({other})"),
            3 => format!("def f: {source}; {other}"),
            4 => format!("def g(f; $x): {source}; g({other}; .)"),
            5 => format!("label $out | [{source}] // ({other})"),
            6 => format!("reduce ({source}) as $a (.; {other})"),
            _ => format!("if {source} then {other} else \"\\({source})\" end"),
        };
    }
    source
}
