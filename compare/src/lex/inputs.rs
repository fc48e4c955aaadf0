//! Sources for the lexer: every short one over a few alphabets, each limit from either side, and
//! random ones.

use super::DEEPEST;
use crate::fields::LONGEST_INPUT;
use crate::gen::{all_rows, Rng};
use crate::room::Lent;

/// Letters that mean something in an escape or a number, one that does not, every opener and closer,
/// spaces of one, two and three bytes, and characters of as many bytes that are none.
const ALPHABET: &[&str] = &[
    "a", "e", "u", "D", "8", "0", "$", "@", ":", ".", "\"", "\\", "(", ")", "[", "]", "{", "}",
    "#", "\n", "\r", "-", "+", "|", " ", "&", "é", "\u{a0}", "\u{2003}", "\u{3000}", "€",
];

/// Smaller alphabets for longer sources, and how long they get.
const ALPHABETS: &[(usize, &[&str])] = &[
    (6, &["\"", "\\", "(", ")", "u", "D", "8", "a"]),
    (6, &["(", ")", "[", "]", "{", "}", "\"", "a"]),
    (6, &["#", "\\", "\n", "\r", "a", "("]),
    (6, &["1", ".", "e", "E", "-", "+"]),
    (6, &["a", "_", ":", "$", "@", "1"]),
    (5, &["|", "=", "!", "<", ">", "+", "-", "*", "/", "%"]),
    (4, &["\u{a0}", "\u{1680}", "\u{2028}", "\u{3000}", "é", "\u{200b}", "\u{1f4a3}", "a", "#"]),
];

/// What random sources are made of.
const PIECES: &[&str] = &[
    "def", "map", "f::g", "f::@g", "f::$g", "f::", "f::1", "f:::g", "_", "a1", "Z_9", "$x",
    "$__loc__", "$", "$1", "@csv", "@", "@@", "0", "42", "1.5", "1.", "1..2", "1e5", "1E+5", "1e-",
    "1.e", "1.5e+", "00", "|", "|=", "//", "//=", "-", "--", "-1", "+=", "==", "!=", "<=", "<-",
    ">>", "%", "..", "...", ".a", ".a.b", ".1", ".", ".[]", ":", ";", ",", "?", "\"", "\"a\"",
    "\"\\n\\t\"", "\"\\(", "\\(", "\"\\u00e9\"", "\"\\ud83d\\ude00\"", "\\uD800", "\\u12", "\\u",
    "\\x", "\\", "\\\\", "\\\"", "\"é\"", "(", ")", "[", "]", "{", "}", "()", "[]", "{}", "([{",
    "}])", "#", "# \\\n", "#\\\r\n", "#\\\\\n", "#a\n", "\n", "\r", "\r\n", "\t", " ", "  ",
    "\u{b}", "\u{85}", "\u{a0}", "\u{2003}", "\u{3000}", "\u{200b}", "é", "§", "€", "\u{1f4a3}",
    "&", "~", "'", "`", "^", "\0", "\u{7f}", "\u{feff}",
];

/// Pieces that open and close, for deep sources.
const BRACKETS: &[&str] = &["(", "[", "{", "\"\\(", "\"", ")", "]", "}", ")\"", "a", " ", "#\n"];

/// Programs as they are written.
const PROGRAMS: &[&str] = &[
    ".[] | .a",
    "def f($x; g): reduce .[] as [$a, {b: $c}] (0; . + $x * $c | g); f(1; .)",
    "map(select(.price > 1.5e2 and .name != \"\\u00e9\\t\\\"\")) | sort_by(.price)[:10]",
    "# sets each bay's floor \\\n  this goes on\n.bays[] |= (.floor // 4.0) # end",
    "import \"a\" as lib; lib::f($__prog__) as {a: [$x]} | label $out | try error catch break $out",
    "@base64 \"v: \\(.v | tojson) and \\(\"inner \\([1, 2, {a: \"x\"}][0])\") \\/\", ..?, -1, .\"k\"",
    "if . == null then {} elif .a then [.[] // empty] else limit(3; .[]) end | input_line_number",
];

/// A piece as often as it fits into a length, then letters.
pub fn filled(piece: &str, length: usize) -> String {
    piece.repeat(length / piece.len()) + &"a".repeat(length % piece.len())
}

fn bytes(pieces: &[&'static str]) -> Vec<&'static [u8]> {
    pieces.iter().map(|piece| piece.as_bytes()).collect()
}

pub fn inputs(rng: &mut Rng, count: usize, each: &mut dyn FnMut(&[u8])) {
    all_rows(&bytes(ALPHABET), 4, each);
    for (longest, alphabet) in ALPHABETS {
        all_rows(&bytes(alphabet), *longest, each);
    }
    characters(each);
    escapes(each);
    broken_text(each);
    depths(rng, each);
    lengths(each);
    for _ in 0..count {
        each(&random_source(rng));
    }
}

/// Every character of at most two bytes, of three bytes up to past the last space, and some of the
/// rest, where tokens, text and comments can stand.
fn characters(each: &mut dyn FnMut(&[u8])) {
    let all = 0..=u32::from(char::MAX);
    let wanted = |code: &u32| *code < 0x3100 || *code % 0x101 == 0 || *code >= 0x10_fff0;
    for c in all.filter(wanted).filter_map(char::from_u32) {
        for source in [
            format!("{c}"),
            format!("a{c}b"),
            format!("({c})"),
            format!("\"{c}\\{c}\""),
            format!("\"\\u00{c}1\""),
            format!("#{c}\n1.{c}"),
            format!("${c}"),
            format!(".{c}"),
        ] {
            each(source.as_bytes());
        }
    }
}

/// Every `\u` with four hex digits, in either case; fewer digits, and one that is none.
fn escapes(each: &mut dyn FnMut(&[u8])) {
    for code in 0..=0xffff {
        let source = match code % 2 {
            0 => format!("\"\\u{code:04x}\""),
            _ => format!("\"\\u{code:04X}\""),
        };
        each(source.as_bytes());
    }
    for digits in ["0041", "00e9", "D800", "dfFF", "d7ff", "E000", "FFFF"] {
        for end in 0..=4 {
            for rest in ["", "\"", "g", "\\", "é\"", "\\(", "\\n\"", "\\ud800\"", " 0\"", "(\""] {
                for before in ["", "a", "é", "\\n", "\\ud800"] {
                    each(format!("\"{before}\\u{}{rest}", &digits[..end]).as_bytes());
                }
            }
        }
    }
    for c in (0..0x180).filter_map(char::from_u32) {
        for source in [format!("\"\\{c}\""), format!("\"\\{c}"), format!("\"a\\{c}\\{c}(1)\" {c}")]
        {
            each(source.as_bytes());
        }
    }
}

/// Bytes that are no text: alone, behind text, and as all that is wrong with a longer source.
fn broken_text(each: &mut dyn FnMut(&[u8])) {
    let every: Vec<[u8; 1]> = (0..=255).map(|byte| [byte]).collect();
    let every: Vec<&[u8]> = every.iter().map(|byte| &byte[..]).collect();
    all_rows(&every, 2, each);
    // the least and the greatest byte of each kind, and their neighbours
    let edges = [
        0x41, 0x7f, 0x80, 0x8f, 0x90, 0x9f, 0xa0, 0xbf, 0xc0, 0xc1, 0xc2, 0xdf, 0xe0, 0xe1, 0xec,
        0xed, 0xee, 0xef, 0xf0, 0xf1, 0xf3, 0xf4, 0xf5, 0xff,
    ];
    let edges: Vec<[u8; 1]> = edges.into_iter().map(|byte| [byte]).collect();
    let edges: Vec<&[u8]> = edges.iter().map(|byte| &byte[..]).collect();
    all_rows(&edges, 3, each);
    for first in 0xf0..=0xf5 {
        all_rows(&edges, 3, &mut |row| each(&[&[first], row].concat()));
    }
    for length in [1, 2, 3, 7, 8, 9, 15, 16, 17, 31, 32, 33, 255, 256, 257, 32_765, 32_766, 32_767]
    {
        for (fill, bad) in [("a", 0xff), ("é", 0xc3), ("\u{3000}", 0xe3), ("(", 0x80), ("\"", 0xed)]
        {
            let mut source = fill.repeat(length / fill.len()).into_bytes();
            source.push(bad);
            each(&source);
            source.extend(b"a(");
            each(&source);
        }
    }
}

/// Sources nested to about the limit: with closers, without, with wrong ones, behind what closes
/// less than was opened, and where the openers are not lexed.
fn depths(rng: &mut Rng, each: &mut dyn FnMut(&[u8])) {
    let openers: &[&[(&str, &str)]] = &[
        &[("(", ")")],
        &[("[", "]")],
        &[("{", "}")],
        &[("(", ")"), ("[", "]"), ("{", "}")],
        &[("\"\\(", ")\"")],
        &[("\"a\\n\\(b", ")\\u0041\""), ("[", "]")],
        &[("{a:", "}"), ("\"\\(", ")\"")],
    ];
    for kinds in openers {
        for count in (DEEPEST / 2 - 3..=DEEPEST / 2 + 3).chain(DEEPEST - 3..=DEEPEST + 3) {
            let kind = |at: usize| kinds[at % kinds.len()];
            let opened: String = (0..count).map(|at| kind(at).0).collect();
            let closed: String = (0..count).rev().map(|at| kind(at).1).collect();
            for inner in ["", "\"", "(", "\"\\(", "1", "\"\\u", "#(\n", "&", ")"] {
                each(format!("{opened}{inner}").as_bytes());
                each(format!("{opened}{inner}{closed}").as_bytes());
                each(format!("{opened}{inner}{closed}{opened}{inner}{closed}").as_bytes());
                each(format!("){opened}{inner}").as_bytes());
                each(format!("#{opened}\n\"{opened}\\\"\"{opened}{inner}{closed}").as_bytes());
                each(format!("{opened}{inner}&{opened}{opened}").as_bytes());
                each(format!("é{opened}").as_bytes());
            }
            each(format!("{opened}{}", &closed[..count / 2]).as_bytes());
            each(format!("{opened}\u{3000}\"é\"{}({opened}", &closed[..count / 2]).as_bytes());
        }
    }
    each(&b"(".repeat(LONGEST_INPUT));
    each(&b"\"\\(".repeat(LONGEST_INPUT / 3));
    each(&b"()".repeat(LONGEST_INPUT / 2));
    // random walks that keep close to the limit
    for _ in 0..3_000 {
        let mut source = BRACKETS[rng.below(4)].repeat(DEEPEST / 2 - 8 + rng.below(DEEPEST / 2));
        for _ in 0..rng.below(80) {
            source += rng.pick(BRACKETS);
        }
        each(source.as_bytes());
    }
}

/// What a source of some length is filled with.
const FILLS: &[&str] = &[
    "a", "1", "(", ")", "()", "\"", "\"\"", ".", "..", ":", " ", "\n", "#", "#\n", "\\", "\"\\n\"",
    "&", "$", "a::", "1.", "é", "\u{a0}", "\u{3000}", "-", "|", "[{}]", "#\\\n", "\"\\u0041\"",
    "\"\\(1)\"",
];

/// Sources on either side of the longest, and at lengths that a byte of a number just holds or not.
fn lengths(each: &mut dyn FnMut(&[u8])) {
    for length in [255, 256, 257, LONGEST_INPUT - 1, LONGEST_INPUT, LONGEST_INPUT + 1, 65_537] {
        for fill in FILLS {
            each(filled(fill, length).as_bytes());
            each(format!("\"{}\"", filled(fill, length - 2)).as_bytes());
        }
        each(format!("#{}(", "a".repeat(length - 2)).as_bytes());
        each(&vec![0xff; length]);
    }
    each("(".repeat(500_000).as_bytes());
}

fn random_source(rng: &mut Rng) -> Vec<u8> {
    let mut source = match rng.below(8) {
        0 => rng.pick(PROGRAMS).to_string(),
        1 => soup(rng, BRACKETS, 60),
        2 => soup(rng, ALPHABET, 30),
        _ => {
            let most = rng.pick(&[4, 8, 8, 20, 20, 60, 300]);
            soup(rng, PIECES, most)
        }
    };
    if rng.one_in(4) {
        change(rng, &mut source);
    }
    let mut source = source.into_bytes();
    if rng.one_in(30) && !source.is_empty() {
        let at = rng.below(source.len());
        source[at] = rng.byte();
    }
    if rng.one_in(60) {
        source.truncate(rng.below(source.len() + 1));
    }
    source
}

fn soup(rng: &mut Rng, pieces: &[&str], most: usize) -> String {
    let count = rng.below(most + 1);
    let spaced = rng.one_in(2);
    let mut source = String::new();
    for _ in 0..count {
        source += rng.pick(pieces);
        if spaced && rng.one_in(2) {
            source.push(' ');
        }
    }
    source
}

/// Takes characters away or puts pieces in.
fn change(rng: &mut Rng, source: &mut String) {
    for _ in 0..1 + rng.below(3) {
        let places: Vec<usize> = source.char_indices().map(|(at, _)| at).collect();
        if places.is_empty() {
            return;
        }
        let at = rng.pick(&places);
        match rng.below(3) {
            0 => {
                source.remove(at);
            }
            1 => source.insert_str(at, rng.pick(PIECES)),
            _ => source.truncate(at),
        }
    }
}

/// One source for each branch of the rules.
const BRANCHES: &[&str] = &[
    // space and comments
    "", " ", "\t\n\u{b}\u{c}\r ", "\u{85}\u{a0}\u{1680}\u{2000}\u{200a}",
    "\u{2028}\u{2029}\u{202f}\u{205f}", "\u{3000}a", "\u{200b}", "\u{180e}", "\u{feff}", "\u{1c}",
    "#", "# a", "#\n", "#\\\nb", "#\\\\\nb", "#\\\\\\\nb\nc", "#\\\r\nb", "#\\\\\r\nb",
    "#\\\r\r\nb", "#\\ \nb", "#\\", "#\\\n", "#\\\n\\\nb", "#\n#\\\na\nb", "a#b\nc",
    "a #\u{3000}\n\u{3000}# é\\\né", "#\\\n\\\r\n\\\\\n(", "#é\\\n(\n[]", // words
    "a", "_", "aZ09_", "A1", "a::b", "a::@b", "a::$b", "a::", "a::1", "a::@", "a::$", "a:: b",
    "a:b", "a:::b", "a::b::c", "a::@@b", "_::_", "a::é", "aé", // variables and formats
    "$x", "$", "$1", "$ x", "$_1", "$$x", "$é", "@x", "@", "@1", "@@x", "@text \"a\"", "$x::y",
    "$\"a\"", // numbers
    "0", "00", "123", "1.5", "1.", "1..2", "1.a", "1e5", "1E5", "1e+5", "1e-5", "1e", "1e+", "1e-",
    "1e++1", "1.5e3", "1.e3", "1.e", "1.5.6", "1e5e5", "1a", "1.é", "0x1", "9e9.9",
    // symbols
    "|", "|=", "=", "==", "!", "!=", "<", ">=", "+", "+=", "-", "--", "-=", "+-", "=-1", "*-*", "/",
    "//", "//=", "%", "|=!<>+*/%", "- -", "|||", ":", "::", ";", ",", "?", "?//", ".", "..", "...",
    "....", ".a", "._", ".a1", ".1", ".a.b", ".é", ". a", "..a", ".\"a\"", ".a::b",
    // blocks
    "()", "[]", "{}", "( )", "(#)\n)", "(a)", "[1, 2]", "{a: (b)}", "(()[]{})", "(", "[", "{", "( ",
    "(a", "(]", "[)", "{)", "([)", "([)]", "(]}", "((", "())", ")", "]", "}", "(&)", "(&", "({[",
    "({[}])", "a)(", "(\n#)", "[\u{3000}]", "(é)", "() ()", // strings
    "\"\"", "\"a\"", "\"é€\u{1f4a3}\"", "\"\n\"", "\"#\"", "\"(\"", "\"", "\"a", "\"a\\\"",
    "\"\\\"\"", "\"\\\\\\/\\\"\\b\\f\\n\\r\\t\"", "\"a\\nb\"", "\"\\a\"", "\"\\", "\"\\é\"",
    "\"\\ \"", "\"\\N\"", "\"a\\'b\"", "\"\\u0041\"", "\"\\u00e9\\u20AC\"", "\"\\uFfFf\"",
    "\"\\u0000\"", "\"\\uD7FF\\uE000\"", "\"\\uD800\"", "\"\\uDFFF\"", "\"\\udbff\\udc00\"",
    "\"\\u\"", "\"\\u1\"", "\"\\u12\"", "\"\\u123\"", "\"\\u123g\"", "\"\\ug\"", "\"\\u",
    "\"\\u12", "\"\\u12é4\"", "\"\\u 123\"", "\"\\u+123\"", "\"\\uD800", "\"\\u004\\n\"",
    "\"\\u00410\"", "\"\\()\"", "\"\\(1)\"", "\"a\\(b)c\"", "\"\\(\"\\(1)\")\"", "\"\\(\"",
    "\"\\(1\"", "\"\\(1]\"", "\"\\(]\"", "\"\\((1))\"", "\"\\( # )\n)\"", "\"\\(a)\\(b)\"",
    "\"\\(\"a)\"", "\"a\\(\"b\\u00e9\\(c)\")d\" e", "\"\\[1]\"", "(\"a\")", "[\"\\n\"",
    "\"a\"\"b\"", "\"a\" \"", "{\"a\":\"b\"}", "\"\\(1) \\x \\ud800 \\(",
    // what starts no token, and errors in their order
    "&", "~", "^", "'", "`", "\\", "\0", "\u{7f}", "é", "§ a", "a & b", "$ & $", "1. $ (",
    "( $ ] 1e", "\"\\a\\u\\uD800\\(\" $", "((1. ] \"\\q", "[$, @, 1.] }",
];

/// Some 300 cases, each rule at least once, in at most 60,000 bytes: the source that is too long
/// takes more than half of them.
pub fn sample(each: &mut dyn FnMut(&[u8], Lent)) {
    let mut rng = Rng::new(1);
    for (at, source) in BRANCHES.iter().enumerate() {
        let source = source.as_bytes();
        match at % 8 {
            3 => each(source, Lent::OneShort),
            5 => each(source, Lent::Nothing),
            7 => each(source, Lent::More(1 + at % 5)),
            _ => {}
        }
        each(source, Lent::Exact);
    }
    for source in PROGRAMS {
        each(source.as_bytes(), Lent::Exact);
    }
    for _ in 0..12 {
        each(soup(&mut rng, PIECES, 12).as_bytes(), Lent::Exact);
    }
    for broken in [
        &b"\x80"[..],
        b"a\xc3",
        b"\xc0\x80",
        b"ab\xe0\x9f\x80",
        b"\xe3\x80",
        b"(\xed\xa0\x80",
        b"\xf0\x8f\xbf\xbf",
        b"\xf4\x90\x80\x80",
        b"\xc3\xa9\xf5",
        b"a\xff(",
    ] {
        each(broken, Lent::More(32));
    }
    let deepest = "(".repeat(DEEPEST) + &")".repeat(DEEPEST);
    each(deepest.as_bytes(), Lent::Exact);
    let strings = "\"\\(".repeat(DEEPEST / 2) + &")\"".repeat(DEEPEST / 2);
    each(strings.as_bytes(), Lent::Exact);
    each("[".repeat(DEEPEST).as_bytes(), Lent::Exact);
    for deeper in [
        "(".repeat(DEEPEST + 1),
        "(a".repeat(DEEPEST) + " {}",
        "\"\\(".repeat(DEEPEST / 2) + "\"",
        "[".repeat(DEEPEST - 1) + "\"é\\(",
        "(".repeat(DEEPEST + 1) + "&",
    ] {
        each(deeper.as_bytes(), Lent::More(32));
    }
    each((")".to_owned() + &"(".repeat(DEEPEST + 1)).as_bytes(), Lent::Exact);
    each(&[&b"(".repeat(DEEPEST + 1)[..], &[0xff]].concat(), Lent::More(32));
    each(&[b' '; LONGEST_INPUT + 1], Lent::More(32));
}

/// Definitions as a library has them; each hole takes a number.
const LIBRARY: &str = "\
# what bay {n} may draw, in litres
def limit{n}($floor; f): .bays[{n}] | select(.open) | f as $x | [$x, $floor] | max;
def name{n}: \"bay \\(.id // {n}): \\(.name | @text \"<\\(.)>\")\\n\";
def sum{n}(xs): reduce xs as $x (0; . + ($x | tonumber? // 0.5e-1));
def walk{n}(f): if type == \"object\" then map_values(walk{n}(f)) elif . == null then 0 else f end;
def runs{n}: foreach .[] as [$a, {b: $c}] ({n}; . + $a * $c; [., -$a]) | .[1:{n}]?;

";

/// Filters and a library, with their names.
pub fn to_measure() -> [(&'static str, String); 3] {
    let library: String = (10..38).map(|n| LIBRARY.replace("{n}", &n.to_string())).collect();
    let filter = "[.bays[] | select(.open and .level > 2.5) \
        | {id, level: (.level * 100), text: \"bay \\(.id)\"}] | first";
    [
        ("a filter of 13 bytes", ".[] | .a + 10".to_owned()),
        ("a filter of 100 bytes", filter.to_owned()),
        ("a library of 12 KB", library),
    ]
}

/// What fills a whole source, in pieces of a length that divides it.
pub const TO_GROW: &[(&str, &str)] = &[
    ("words", "map abc "),
    ("blocks", "([{1}]) "),
    ("escapes", "\"\\n\\u0041\\t\\\\\\\"\""),
    ("errors", "$ 1. @; "),
    ("blanks", " "),
    ("one comment", "# a comment and "),
];
