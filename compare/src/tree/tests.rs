use super::*;
use crate::gen::Rng;
use crate::load::parse::Term;
use crate::on_large_stack;
use encode::encode;
use program::Module;

/// The answer to a program, and its listing.
fn answer(program: &Program) -> (u8, Vec<u8>) {
    let mut listing = vec![1];
    let due = oracle(&encode(program), &mut listing);
    assert_eq!(due.place, 0);
    (due.number, listing)
}

fn of(source: &str) -> Program<'_> {
    Program::of(source::term(source).expect("a term"))
}

/// The records of a program without errors, whose main number is given.
fn table(program: &Program, main: u8) -> Vec<u8> {
    let (number, listing) = answer(program);
    assert_eq!(number, 0, "{listing:x?}");
    assert_eq!(listing[..6], [0, 3, 0, 1, main, 0]);
    listing[6..].to_vec()
}

/// Records by hand: a tag and its content each.
fn records(records: &[(u8, &[u8])]) -> Vec<u8> {
    let record =
        |(tag, content): &(u8, &[u8])| [&[*tag, content.len() as u8, 0], *content].concat();
    records.iter().flat_map(record).collect()
}

fn assert_table(source: &str, expected: &[(u8, &[u8])]) {
    assert_eq!(table(&of(source), 0), records(expected), "{source}");
}

/// The fields of an error listing.
fn errors(program: &Program) -> Vec<u8> {
    let (number, listing) = answer(program);
    assert_eq!((number, &listing[..4]), (1, &[0, 1, 0, 1][..]));
    listing[4..].to_vec()
}

#[test]
fn strings() {
    // 0 Math(5, +, 6), 1 ToString, 2 Id, 3 Pipe(2, 1), 4 Str b, 5 Str a, 6 Math(3, +, 4)
    assert_table(
        "\"a\\(.)b\"",
        &[
            (0x65, &[5, 0, 0, 6, 0]),
            (0x52, &[]),
            (0x50, &[]),
            (0x5e, &[2, 0, 0, 1, 0]),
            (0x55, b"b"),
            (0x55, b"a"),
            (0x65, &[3, 0, 0, 4, 0]),
        ],
    );
    assert_table("\"\"", &[(0x55, b""), (0x52, &[])]);
    assert_table("\"\\u00e9\"", &[(0x55, "é".as_bytes()), (0x52, &[])]);
    let mut program = of("@x \"\\(.)\"");
    program.natives = vec![("y", vec![]), ("@x", vec![])];
    let expected = [(0x5e, &[2, 0, 0, 1, 0][..]), (0x5b, &[1, 0, 0, 0]), (0x50, &[])];
    assert_eq!(table(&program, 0), records(&expected));
}

#[test]
fn bindings() {
    // "the last term is a variable of index 1"
    assert_table(
        "1 as $x | label $l | $x",
        &[
            (0x5e, &[1, 0, 1, 2, 0]),
            (0x53, &[1, 0, 0, 0, 0, 0, 0, 0]),
            (0x5c, &[3, 0]),
            (0x59, &[1, 0]),
        ],
    );
    // `. as [$a, {(.): $b}] | $a`: left, right, then the pattern; Int 0, Int 1, key
    assert_table(
        ". as [$a, {(.): $b}] | $a",
        &[
            (0x5e, &[1, 0, 2, 2, 0, 3, 0, 1, 4, 0, 2, 1, 0, 5, 0, 1, 2, 0]),
            (0x50, &[]),
            (0x59, &[1, 0]),
            (0x53, &[0; 8]),
            (0x53, &[1, 0, 0, 0, 0, 0, 0, 0]),
            (0x50, &[]),
        ],
    );
    // a label and a variable of the same name
    assert_table(
        "label $x | . as $x | break $x, $x",
        &[
            (0x5c, &[1, 0]),
            (0x5e, &[2, 0, 1, 3, 0]),
            (0x50, &[]),
            (0x5f, &[4, 0, 5, 0]),
            (0x59, &[1, 0]),
            (0x59, &[0, 0]),
        ],
    );
    let mut program = of(". as $l | $v, $g");
    program.globals = Some(vec!["$g", "$h"]);
    program.modules = vec![Module { variables: vec!["$v"], ..Module::default() }];
    program.main.variables = vec!["$v", "$w"];
    let table = table(&program, 0);
    // local $l, then $w, $v, the other module's $v, then $h, $g
    let expected = [(0x59, &[2, 0][..]), (0x59, &[5, 0])];
    assert!(table.ends_with(&records(&expected)), "{table:x?}");
}

#[test]
fn folds() {
    assert_table(
        "reduce . as $x (.; $x)",
        &[(0x6a, &[1, 0, 1, 2, 0, 3, 0, 0]), (0x50, &[]), (0x50, &[]), (0x59, &[0, 0])],
    );
    assert_table(
        "foreach . as [$x] (.; $x; $x)",
        &[
            (0x6a, &[1, 0, 2, 1, 0, 2, 0, 1, 3, 0, 4, 0, 2, 5, 0]),
            (0x50, &[]),
            (0x53, &[0; 8]),
            (0x50, &[]),
            (0x59, &[0, 0]),
            (0x59, &[0, 0]),
        ],
    );
    let expected = [(0x6a, &[1, 0, 1, 2, 0, 3, 0, 1][..]), (0x50, &[]), (0x50, &[]), (0x50, &[])];
    assert_table("foreach . as $x (.; .)", &expected);
}

#[test]
fn calls_and_definitions() {
    // `def f($a; g): g | f($a; g); f(1; 2)`
    assert_table(
        "def f($a; g): g | f($a; g); f(1; 2)",
        &[
            // the body of Def has the number of Def: CallDef(1, [(variable, 6), (filter, 7)], 0, CatchOne)
            (0x5a, &[1, 0, 2, 0, 0, 6, 0, 1, 7, 0, 0, 0, 2]),
            (0x5e, &[2, 0, 0, 3, 0]),
            (0x59, &[0, 0]),
            // skips its own two parameters
            (0x5a, &[1, 0, 2, 0, 0, 4, 0, 1, 5, 0, 2, 0, 1]),
            (0x59, &[1, 0]),
            (0x59, &[0, 0]),
            (0x53, &[1, 0, 0, 0, 0, 0, 0, 0]),
            (0x53, &[2, 0, 0, 0, 0, 0, 0, 0]),
        ],
    );
    // a module call skips all locals
    let mut program = of(". as $x | m::f, g");
    let defined = |source| source::definitions(source).unwrap();
    program.modules = vec![Module { body: defined("def f: 1; def g: g;"), ..Module::default() }];
    program.main.includes = vec![0];
    program.main.imports = vec![(0, "m")];
    let expected = [
        (0x53, &[1, 0, 0, 0, 0, 0, 0, 0][..]),
        (0x5a, &[1, 0, 0, 0, 0, 0, 1]),
        (0x5e, &[3, 0, 1, 4, 0]),
        (0x50, &[]),
        (0x5f, &[5, 0, 6, 0]),
        (0x5a, &[0, 0, 0, 0, 1, 0, 0]),
        (0x5a, &[1, 0, 0, 0, 1, 0, 2]),
    ];
    assert_eq!(table(&program, 2), records(&expected));
}

#[test]
fn the_rest() {
    assert_table("..", &[(0x51, &[])]);
    assert_table("-.", &[(0x5d, &[1, 0]), (0x50, &[])]);
    assert_table("[.]", &[(0x56, &[1, 0]), (0x50, &[])]);
    let ids = [(0x50, &[][..]), (0x50, &[])];
    for (operator, tag, byte) in [
        ("=", 0x60, None),
        ("|=", 0x61, None),
        ("-=", 0x62, Some(1)),
        ("//=", 0x63, None),
        ("and", 0x64, Some(0)),
        ("or", 0x64, Some(1)),
        ("+", 0x65, Some(0)),
        ("*", 0x65, Some(2)),
        ("/", 0x65, Some(3)),
        ("%", 0x65, Some(4)),
        ("<", 0x66, Some(0)),
        ("<=", 0x66, Some(1)),
        (">", 0x66, Some(2)),
        (">=", 0x66, Some(3)),
        ("==", 0x66, Some(4)),
        ("!=", 0x66, Some(5)),
        ("//", 0x67, None),
    ] {
        let content = [&[1, 0][..], &Vec::from_iter(byte), &[2, 0]].concat();
        assert_table(&format!(". {operator} ."), &[(tag, &content), ids[0], ids[1]]);
    }
    assert_table("try . catch ..", &[(0x68, &[1, 0, 2, 0]), (0x50, &[]), (0x51, &[])]);
    // conditions and branches, what the last else holds, then the elses from the last pair back
    assert_table(
        "if . then .. elif . then .. else -1 end",
        &[
            (0x69, &[1, 0, 2, 0, 7, 0]),
            (0x50, &[]),
            (0x51, &[]),
            (0x50, &[]),
            (0x51, &[]),
            (0x53, &[1, 0, 0, 0, 0, 0, 0, 0]),
            (0x5d, &[5, 0]),
            (0x69, &[3, 0, 4, 0, 6, 0]),
        ],
    );
    let expected = [(0x69, &[1, 0, 2, 0, 3, 0][..]), (0x50, &[]), (0x51, &[]), (0x50, &[])];
    assert_table("if . then .. end", &expected);
}

#[test]
fn paths() {
    // the start of a range before its end; then whether the part is optional
    let path = [
        &[1, 0, 4, 0][..],
        &[0, 2, 0, 0],
        &[1, 1, 3, 0, 1, 4, 0, 1],
        &[1, 0, 1, 5, 0, 0],
        &[1, 0, 0, 0],
    ];
    let int = |value| [value, 0, 0, 0, 0, 0, 0, 0];
    let ints = [1, 2, 3].map(int);
    let [one, two, three] = [(0x53, &ints[0][..]), (0x53, &ints[1]), (0x53, &ints[2])];
    let expected = [(0x6b, &path.concat()[..]), (0x50, &[]), (0x51, &[]), one, two, three];
    assert_table(".[..][1:2]?[:3][]", &expected);
}

#[test]
fn objects() {
    assert_table("{}", &[(0x57, &[])]);
    // a key that is a text has its own ToString
    let expected = [(0x58, &[1, 0, 3, 0][..]), (0x55, b"a"), (0x52, &[]), (0x50, &[])];
    assert_table("{a: .}", &expected);
    // a lone key: the key, Id, a path
    assert_table(
        "{\"a\"}",
        &[
            (0x58, &[1, 0, 4, 0]),
            (0x55, b"a"),
            (0x52, &[]),
            (0x50, &[]),
            (0x6b, &[3, 0, 1, 0, 0, 1, 0, 0]),
        ],
    );
    let mut program = of("{(.): .., $xy}");
    program.globals = Some(vec!["$xy"]);
    let expected = [
        (0x65, &[5, 0, 0, 6, 0][..]),
        (0x50, &[]),
        (0x51, &[]),
        (0x55, b"xy"),
        (0x59, &[0, 0]),
        (0x58, &[1, 0, 2, 0]),
        (0x58, &[3, 0, 4, 0]),
    ];
    assert_eq!(table(&program, 0), records(&expected));
}

#[test]
fn numbers() {
    let int = |value: i64| [&[0x53, 8, 0][..], &value.to_le_bytes()].concat();
    assert_eq!(table(&Program::of(Term::Num("007")), 0), int(7));
    assert_eq!(table(&Program::of(Term::Num("9223372036854775807")), 0), int(i64::MAX));
    // the rules keep a sign as text
    for text in ["9223372036854775808", "-5", "+5", "-", "", "1.5", "!", "!-5", "!!", "1 "] {
        assert_eq!(table(&Program::of(Term::Num(text)), 0), records(&[(0x54, text.as_bytes())]));
    }
}

/// A call's kind is the last byte of its record.
fn kinds(program: &Program) -> Vec<u8> {
    let (number, listing) = answer(program);
    assert_eq!(number, 0);
    let mut rest = &listing[..];
    let mut kinds = Vec::new();
    while let [tag, low, high, content @ ..] = rest {
        let (content, next) = content.split_at(u16::from_le_bytes([*low, *high]).into());
        kinds.extend(content.last().filter(|_| *tag == 0x5a));
        rest = next;
    }
    kinds
}

#[test]
fn tail_calls() {
    const INLINE: u8 = 0;
    const THROW: u8 = 1;
    const CATCH_ONE: u8 = 2;
    const CATCH_ALL: u8 = 3;
    for (source, expected) in [
        ("1 + 1", &[][..]),
        ("def f: . + 1 | f; f", &[CATCH_ONE, THROW]),
        ("def f: f + 1; f", &[INLINE, CATCH_ALL]),
        ("def f: def g: f, g; g; f", &[CATCH_ONE, CATCH_ONE, THROW, THROW]),
        ("def f: def g: f; g; f", &[CATCH_ONE, INLINE, THROW]),
        ("def f: 1 + (def g: g; g); f", &[INLINE, CATCH_ONE, THROW]),
        ("def f: f | f; f", &[CATCH_ONE, CATCH_ALL, THROW]),
        // the remaining set of g is not allowed
        ("def f: def g: f, g; g | .; f", &[INLINE, THROW, THROW, CATCH_ALL]),
        ("def f: def g: f, g; [g]; f", &[INLINE, THROW, THROW, CATCH_ALL]),
        // a reduce holds no tail place, the projection of a foreach is one
        ("def f: reduce f as $x (f; f); f", &[INLINE, CATCH_ALL, CATCH_ALL, CATCH_ALL]),
        ("def f: foreach . as $x (.; .; f); f", &[CATCH_ONE, THROW]),
        ("def f: foreach . as $x (.; f); f", &[INLINE, CATCH_ALL]),
        ("def f: f // f; f", &[CATCH_ONE, CATCH_ALL, THROW]),
        ("def f: if f then f else f end; f", &[CATCH_ONE, CATCH_ALL, THROW, THROW]),
        ("def f: label $l | f; f", &[INLINE, CATCH_ALL]),
        ("def f: try f catch f; f", &[INLINE, CATCH_ALL, CATCH_ALL]),
        // a filter argument returns nothing
        ("def f(g): g; def h: f(h); h", &[INLINE, INLINE, CATCH_ALL]),
    ] {
        assert_eq!(kinds(&of(source)), expected, "{source}");
    }
}

#[test]
fn errors_by_hand() {
    // the name of a lone Call at 26: tree 3, natives 3, main 3, its lists 9, call 3, name 3
    let call = |name| Program::of(Term::Call(name, vec![Term::Var("$x")]));
    let var = |place| [0x29, 6, 0, 0, 0, place, 0, 2, 0];
    let expected = [&var(28)[..], &[0x2b, 8, 0, 0, 0, 24, 0, 1, 0, 1, 0]].concat();
    assert_eq!(errors(&call("f")), expected);
    // "Mod error names the module part, Filter error the rest"; an empty part has a place, too
    let module = |length| [0x28, 6, 0, 0, 0, 24, 0, length, 0];
    assert_eq!(errors(&call("m::f")), [&var(31)[..], &module(1)].concat());
    assert_eq!(errors(&call("::")), [&var(29)[..], &module(0)].concat());
    let mut program = call("m::f::g");
    program.modules = vec![Module::default()];
    program.main.imports = vec![(0, "m")];
    // a module of 15 bytes and an import of 12 more before it, and main is module 1
    let expected = [
        &[0x29, 6, 0, 1, 0, 34 + 27, 0, 2, 0][..],
        &[0x2b, 8, 0, 1, 0, 24 + 27 + 3, 0, 4, 0, 1, 0],
    ];
    assert_eq!(errors(&program), expected.concat());
    assert_eq!(errors(&Program::of(Term::Break("$l"))), [0x2a, 6, 0, 0, 0, 21, 0, 2, 0]);
    // supplied, and written
    let supplied = [0x2b, 8, 0, 0, 0, 0, 0, 6, 0, 0, 0];
    assert_eq!(errors(&Program::of(Term::Arr(None))), supplied);
    assert_eq!(errors(&Program::of(Term::TryCatch(Box::new(Term::Id), None))), supplied);
    let written = Term::Call("!empty", vec![]);
    assert_eq!(errors(&Program::of(written)), [0x2b, 8, 0, 0, 0, 24, 0, 6, 0, 0, 0]);
}

#[test]
fn folds_that_fail() {
    let fold = |name, arguments: usize| {
        let pattern = crate::load::parse::Pattern::Var("$x");
        let arguments = vec![Term::Var("$y"); arguments];
        Program::of(Term::Fold(name, Box::new(Term::Var("$y")), pattern, arguments))
    };
    let filter = |length, arity| vec![0x2b, 8, 0, 0, 0, 24, 0, length, 0, arity, 0];
    let var = |place| vec![0x29, 6, 0, 0, 0, place, 0, 2, 0];
    // fewer than two arguments: before anything is compiled
    assert_eq!(errors(&fold("reduce", 0)), filter(6, 0));
    assert_eq!(errors(&fold("foreach", 1)), filter(7, 1));
    // else after source, init and update, and no more
    let source = 24 + 6 + 3;
    let failed = [var(source), var(source + 2 + 5 + 3), var(source + 2 + 5 + 5 + 3), filter(6, 3)];
    assert_eq!(errors(&fold("reduce", 3)), failed.concat());
    let failed = [var(31), var(41), var(46), filter(4, 2)];
    assert_eq!(errors(&fold("fold", 2)), failed.concat());
    let failed = [var(34), var(44), var(49), filter(7, 4)];
    assert_eq!(errors(&fold("foreach", 4)), failed.concat());
}

#[test]
fn lookups() {
    let defined = |source| source::definitions(source).unwrap();
    let callee = |program: &Program| {
        let table = table(program, 5);
        table[table.len() - 7..].to_vec()
    };
    let module = |source| Module { body: defined(source), ..Module::default() };
    let mut program = of("f");
    program.natives = vec![("f", vec![]), ("f", vec![])];
    program.modules =
        vec![module("def f: 1; def f: 2; def f(a): 3;"), module("def f: 4; def g: 5;")];
    // natives, first one first
    assert_eq!(callee(&program)[..], [0x5b, 4, 0, 0, 0, 0, 0]);
    // included modules, last first, last definition first
    let call = |of| [of, 0, 0, 0, 0, 0, 0];
    program.main.includes = vec![0];
    assert_eq!(callee(&program)[..], call(1));
    program.main.includes = vec![0, 1];
    assert_eq!(callee(&program)[..], call(3));
    program.main.includes = vec![0, 1, 0];
    assert_eq!(callee(&program)[..], call(1));
    program.main.includes = vec![0, 1];
    // the last import of a name, and only it
    program.main.body = source::term("m::g").unwrap();
    program.main.imports = vec![(0, "m"), (1, "m")];
    assert_eq!(callee(&program)[..], call(4));
    program.main.imports = vec![(1, "m"), (0, "m")];
    assert_eq!(answer(&program).0, 1);
}

fn refusal(tree: &[u8]) -> u8 {
    let mut listing = vec![1];
    let due = oracle(tree, &mut listing);
    assert_eq!((due.place, listing.len()), (0, 0));
    due.number
}

#[test]
fn lowest_refusal() {
    assert_eq!(refusal(&[]), 3);
    assert_eq!(refusal(&vec![0; 32_768]), 3);
    assert_eq!(refusal(&vec![0; 32_769]), 2);
    let mut tree = encode(&of("."));
    assert_eq!(check::check(&tree), Some(check::Depth { fields: 3, definitions: 0 }));
    tree.push(0);
    assert_eq!(refusal(&tree), 3);
}

#[test]
fn limits_are_met() {
    let mut seen = [0; 7];
    let mut each = |tree: &[u8]| seen[usize::from(oracle(tree, &mut Vec::new()).number)] += 1;
    let done = on_large_stack(|| inputs::counts(&mut each));
    assert!(done.is_ok());
    // twenty forms with and without natives, half of them below, and definitions of modules
    assert_eq!((seen[0] + seen[1], seen[6]), (80 + 3, 80 + 2));

    let mut seen = [0; 7];
    let mut each = |tree: &[u8]| seen[usize::from(oracle(tree, &mut Vec::new()).number)] += 1;
    let done = on_large_stack(|| inputs::depths(&mut each));
    assert!(done.is_ok());
    assert!([0, 1, 3, 4, 5].iter().all(|number| seen[*number] > 10), "{seen:?}");
}

#[test]
fn what_is_read_is_what_was_written() {
    let done = on_large_stack(|| {
        for seed in 0..4_000 {
            let (mut rng, size) = (Rng::new(seed), [5, 20, 60, 300][seed as usize % 4]);
            let program = random::program(&mut rng, size);
            let tree = encode(&program);
            assert!(check::check(&tree).is_some());
            let read = decode::decode(&tree, &|number| number);
            assert!(format!("{read:?}") == format!("{program:?}"), "seed {seed}");
        }
    });
    assert!(done.is_ok());
}

#[test]
fn what_is_well_formed_is_what_would_be_written() {
    let mut seen = [0, 0];
    let mut each = |bytes: &[u8]| {
        let well_formed = bytes.len() <= LONGEST_INPUT && check::check(bytes).is_some();
        seen[usize::from(well_formed)] += 1;
        if well_formed {
            assert!(encode(&decode::decode(bytes, &|number| number)) == bytes);
        }
    };
    let done = on_large_stack(|| inputs(&mut Rng::new(8), 10_000, &mut each));
    assert!(done.is_ok() && seen.iter().all(|count| *count > 50_000), "{seen:?}");
}

#[test]
fn every_tag_is_damaged() {
    let seen = damage::tags(&encode(&inputs::every_field()));
    assert!(seen.into_iter().eq((0..=255).filter(|tag| check::is_tag(*tag))));
}

#[test]
fn honest_programs_have_no_errors() {
    let done = on_large_stack(|| {
        for seed in 0..4_000 {
            let (mut rng, size) = (Rng::new(seed), [5, 20, 60, 300][seed as usize % 4]);
            let program = random::honest(&mut rng, size);
            assert_eq!(answer(&program).0, 0, "seed {seed}");
        }
    });
    assert!(done.is_ok());
}

#[test]
fn the_prelude_has_no_errors() {
    assert_eq!(answer(&programs::with_prelude(Term::Id)).0, 0);
}

#[test]
fn sample_is_small() {
    let (mut cases, mut bytes, mut answers, mut tags) = (0, 1, [0; 9], [false; 0x6c]);
    let mut each = |tree: &[u8], lent| {
        let case = crate::room::recorded(&SUBJECT, tree, lent);
        let answer = 1 + 4 + tree.len() + 4;
        answers[case[answer] as usize] += 1;
        let mut fields = &case[answer + 9..];
        while let [tag, low, high, rest @ ..] = fields {
            tags[*tag as usize] = true;
            fields = &rest[u16::from_le_bytes([*low, *high]).into()..];
        }
        cases += 1;
        bytes += case.len();
    };
    assert!(on_large_stack(|| sample(&mut each)).is_ok());
    assert!(cases >= 250 && bytes <= 65_536, "{cases} cases, {bytes} bytes");
    assert!((0..=7).all(|number| answers[number] > 0));
    assert!((0x28..=0x2b).chain(0x50..=0x6b).all(|tag| tags[tag]));
}
