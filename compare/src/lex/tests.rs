use super::*;
use crate::gen::Rng;

fn answer(source: &str) -> (u8, Vec<u8>) {
    let mut listing = vec![1];
    let due = oracle(source.as_bytes(), &mut listing);
    assert_eq!(due.place, 0);
    (due.number, listing)
}

/// The listing of a source, without its opening.
fn listing(source: &str) -> Vec<u8> {
    let (number, listing) = answer(source);
    assert!(number <= 1 && listing.starts_with(&OPENING));
    // "listing of tokens" or "listing of errors, nothing else"
    let is_error = |tag: u8| tag >= 0x20;
    assert_eq!(number == 1, listing.get(4).copied().is_some_and(is_error));
    listing[4..].to_vec()
}

fn refusal(source: &[u8]) -> (u8, u32) {
    let mut listing = vec![1];
    let due = oracle(source, &mut listing);
    assert!(due.number >= 2 && listing.is_empty());
    (due.number, due.place)
}

#[test]
fn bench_cases() {
    assert_eq!(answer(""), (0, vec![0, 1, 0, 1]));
    assert_eq!(listing("1..2"), [0x20, 2, 0, 2, 0]);
    assert_eq!(listing("\"\\uD800\""), [0x24, 2, 0, 3, 0]);
    assert_eq!(listing("\"\\a\""), [0x23, 2, 0, 2, 0]);
    assert_eq!(listing("(]"), [0x22, 3, 0, 1, 0, b'(', 0x25, 2, 0, 1, 0]);
    assert_eq!(listing("a::"), [0x21, 2, 0, 3, 0]);
    let block = [0, 1, 0, 1, 7, 4, 0, 0, 0, 2, 0, 5, 4, 0, 1, 0, 1, 0, 9, 0, 0];
    assert_eq!(answer("()"), (0, block.to_vec()));
}

#[test]
fn leaves_by_hand() {
    let leaf = |tag, start, length| [tag, 4, 0, start, 0, length, 0];
    let leaves = |source: &str, expected: &[(u8, u8, u8)]| {
        let expected: Vec<_> =
            expected.iter().map(|(tag, at, length)| leaf(*tag, *at, *length)).collect();
        assert_eq!(listing(source), expected.concat(), "{source:?}");
    };
    leaves("a1 _b", &[(1, 0, 2), (1, 3, 2)]);
    leaves("a::b c::@d e::$f", &[(1, 0, 4), (1, 5, 5), (1, 11, 5)]);
    leaves("a::b::c", &[(1, 0, 4), (5, 4, 1), (5, 5, 1), (1, 6, 1)]);
    leaves("$x@y", &[(2, 0, 2), (3, 2, 2)]);
    leaves("12.50e-3", &[(4, 0, 8)]);
    leaves("1E5", &[(4, 0, 3)]);
    leaves("1a", &[(4, 0, 1), (1, 1, 1)]);
    // "then as many of these as follow, without `-`"
    leaves("--", &[(5, 0, 1), (5, 1, 1)]);
    leaves("//=-=", &[(5, 0, 3), (5, 3, 2)]);
    leaves("|-", &[(5, 0, 1), (5, 1, 1)]);
    leaves("...a", &[(5, 0, 2), (5, 2, 2)]);
    leaves(".1:;,?", &[(5, 0, 1), (4, 1, 1), (5, 2, 1), (5, 3, 1), (5, 4, 1), (5, 5, 1)]);
    leaves("\u{3000}a\u{a0}b", &[(1, 3, 1), (1, 6, 1)]);
}

#[test]
fn comments_by_hand() {
    let word = |at: u8| vec![1, 4, 0, at, 0, 1, 0];
    for (source, words) in [
        ("#a\nb", &[3][..]),
        // an odd number of backslashes, then an even one
        ("#\\\nb\nc", &[5]),
        ("#\\\\\nb", &[4]),
        // one CR is taken off, no more
        ("#\\\r\nb\nc", &[6]),
        ("#\\\r\r\nb", &[5]),
        // a continued line is a line
        ("#\\\n\\\nb\nc", &[7]),
        ("#\\\n\\\\\nb", &[6]),
        ("#\\", &[]),
        ("#\\\n", &[]),
        ("a#\r\nb", &[0, 4]),
    ] {
        let expected: Vec<u8> = words.iter().flat_map(|at| word(*at)).collect();
        assert_eq!(listing(source), expected, "{source:?}");
    }
}

#[test]
fn strings_by_hand() {
    // `"é\n\u20aC\(.a)"`: text, two characters, a block that starts at its `(`
    let expected = [
        &[6, 4, 0, 0, 0, 17, 0][..],
        &[8, 4, 0, 1, 0, 2, 0],
        &[10, 4, 0, 10, 0, 0, 0],
        &[10, 4, 0, 0xac, 0x20, 0, 0],
        &[7, 4, 0, 12, 0, 4, 0],
        &[5, 4, 0, 13, 0, 2, 0],
        &[5, 4, 0, 15, 0, 1, 0],
        &[9, 0, 0],
        &[9, 0, 0],
    ];
    assert_eq!(listing("\"é\\n\\u20aC\\(.a)\""), expected.concat());
    let escapes: Vec<_> = [92, 47, 34, 8, 12, 10, 13, 9].map(|c| [10, 4, 0, c, 0, 0, 0]).concat();
    let expected = [&[6, 4, 0, 0, 0, 18, 0][..], &escapes, &[9, 0, 0]];
    assert_eq!(listing("\"\\\\\\/\\\"\\b\\f\\n\\r\\t\""), expected.concat());
    assert_eq!(listing("\"\""), [6, 4, 0, 0, 0, 2, 0, 9, 0, 0]);
}

#[test]
fn errors_by_hand() {
    let errors = |source: &str, expected: &[(u8, u8, &[u8])]| {
        let field = |(tag, place, opener): &(u8, u8, &[u8])| {
            [&[*tag, 2 + opener.len() as u8, 0, *place, 0], *opener].concat()
        };
        let expected: Vec<_> = expected.iter().flat_map(field).collect();
        assert_eq!(listing(source), expected, "{source:?}");
    };
    errors("$ @1", &[(0x21, 1, b""), (0x21, 3, b"")]);
    errors("1.e", &[(0x20, 2, b""), (0x20, 3, b"")]);
    errors("1e+a", &[(0x20, 3, b"")]);
    errors("&", &[(0x25, 0, b"")]);
    errors("a é (", &[(0x25, 2, b"")]);
    errors("([)", &[(0x22, 2, b"[")]);
    errors("{ #\n", &[(0x22, 4, b"{")]);
    errors("\"a", &[(0x22, 2, b"\"")]);
    errors("\"\\", &[(0x23, 2, b""), (0x22, 2, b"\"")]);
    errors("\"\\u12g\"", &[(0x24, 5, b"")]);
    errors("\"\\u12", &[(0x24, 5, b""), (0x22, 5, b"\"")]);
    errors("\"\\(1]\"", &[(0x22, 4, b"(")]);
    // inside out
    let quote = (0x22, 5, &b"\""[..]);
    errors("\"\\([\"", &[quote, (0x22, 5, b"["), (0x22, 5, b"("), quote]);
    // the string goes on where the block ended
    errors("\"\\(]\\q\"", &[(0x22, 3, b"("), (0x23, 5, b"")]);
}

#[test]
fn lowest_refusal() {
    let longest = LONGEST_INPUT;
    assert_eq!(refusal(&vec![0xff; longest + 1]), (2, 0));
    assert_eq!(refusal(&vec![0xff; longest]), (3, 0));
    assert_eq!(answer(&" ".repeat(longest)).0, 0);
    assert_eq!(refusal(b"a\xc3\xa9\xe2\x82"), (3, 3));
    assert_eq!(refusal(&[&b"(".repeat(200)[..], &[0x80]].concat()), (3, 200));
    assert_eq!(refusal(&b"(".repeat(129)), (4, 128));
    assert_eq!(answer(&"(".repeat(128)).0, 1);
}

#[test]
fn nesting_by_hand() {
    let deep = "([{".repeat(42);
    assert_eq!(answer(&(deep.clone() + "((")).0, 1);
    assert_eq!(refusal((deep.clone() + "((a \"").as_bytes()), (4, 130));
    // a string and its interpolation are two; the interpolation's opener is its `(`
    assert_eq!(refusal("\"\\(".repeat(65).as_bytes()), (4, 3 * 64));
    assert_eq!(refusal((deep.clone() + "(\"é\\(").as_bytes()), (4, 126 + 1 + 1 + 2 + 1));
    // what is closed is not open, well or not
    assert_eq!(answer(&"()".repeat(200)).0, 0);
    assert_eq!(answer(&("(".repeat(128) + &")".repeat(128) + &"(".repeat(128))).0, 1);
    assert_eq!(answer(&("(".repeat(128) + "]" + &"(".repeat(128))).0, 1);
    assert_eq!(refusal(("(".repeat(128) + ")" + "[[").as_bytes()), (4, 130));
    // what is not lexed does not count
    assert_eq!(listing(&(")".to_owned() + &"(".repeat(129))), [0x25, 2, 0, 0, 0]);
    assert_eq!(answer(&("#".to_owned() + &"(".repeat(129))).0, 0);
    assert_eq!(answer(&format!("\"{}\"", "(".repeat(129))).0, 0);
    assert_eq!(refusal(("#\\\n(\n".to_owned() + &"(".repeat(129)).as_bytes()), (4, 5 + 128));
}

#[test]
fn spaces_are_rusts() {
    assert!((0..=0x10_ffff).filter_map(char::from_u32).all(|c| is_space(c) == c.is_whitespace()));
}

/// The deepest nesting of the Rust's own tokens, which it gives where there are no errors.
fn depth(tokens: &[Token<&str>]) -> usize {
    tokens.iter().map(depth_of_token).max().unwrap_or(0)
}

fn depth_of_token(Token(_, token): &Token<&str>) -> usize {
    let of_part = |part: &StrPart<&str, Token<&str>>| match part {
        StrPart::Term(block) => depth_of_token(block),
        _ => 0,
    };
    match token {
        Tok::Block(tokens) => 1 + depth(tokens),
        Tok::Str(parts) => 1 + parts.iter().map(of_part).max().unwrap_or(0),
        _ => 0,
    }
}

#[test]
fn nesting_is_the_rusts() {
    let mut seen = [0, 0];
    inputs(&mut Rng::new(3), 20_000, &mut |source| {
        let Ok(text) = str::from_utf8(source) else { return };
        if text.len() > 4_000 {
            return;
        }
        if let Ok(tokens) = Lexer::new(text).lex() {
            let deep = depth(&tokens) > DEEPEST;
            assert_eq!(first_too_deep(text).is_some(), deep, "{text:?}");
            seen[usize::from(deep)] += 1;
        }
    });
    assert!(seen[0] > 100_000 && seen[1] > 100, "{seen:?}");
}

#[test]
fn sample_is_small() {
    let (mut cases, mut bytes, mut answers, mut tags) = (0, 1, [0; 9], [false; 0x26]);
    sample(&mut |source, lent| {
        let case = crate::room::recorded(&SUBJECT, source, lent);
        let answer = 1 + 4 + source.len() + 4;
        answers[case[answer] as usize] += 1;
        let mut fields = &case[answer + 9..];
        while let [tag, low, high, rest @ ..] = fields {
            tags[*tag as usize] = true;
            fields = &rest[usize::from(*low) + 256 * usize::from(*high)..];
        }
        cases += 1;
        bytes += case.len();
    });
    assert!(cases >= 300 && bytes <= 60_000, "{cases} cases, {bytes} bytes");
    assert!([0, 1, 2, 3, 4, 7].into_iter().all(|number| answers[number] > 0));
    assert!((0..=10).chain(0x20..=0x25).all(|tag| tags[tag]));
}

#[test]
fn what_is_measured() {
    assert_eq!(inputs::to_measure().map(|(_, source)| source.len() / 10), [1, 10, 1_184]);
    // all but the errors are free of them
    let sources = inputs::to_measure().into_iter().map(|(_, source)| source);
    let filled = inputs::TO_GROW.iter().map(|(_, piece)| inputs::filled(piece, LONGEST_INPUT));
    let with_errors = sources.chain(filled).filter(|source| answer(source).0 != 0);
    assert_eq!(with_errors.count(), 1);
}
