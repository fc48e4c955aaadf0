//! The climber. The Rust's `climb` is run over operands that are numbers: an expression is its
//! leftmost and rightmost operand, and an operator writes both down where its field stands.

use crate::bench;
use crate::fields::{LONGEST_INPUT, OPENING};
use crate::gen::{all_rows, Rng};
use crate::library;
use crate::prec_climb::{climb, Associativity, Expr, Op};
use crate::room::{Answer, Due, Lent, Subject};
use std::hint::black_box;

pub const SUBJECT: Subject = Subject { name: "climb", code: 1, ours: library::CLIMB, rust: oracle };

const MOST_OPERATORS: usize = 1_024;
/// "field 0B with its leftmost and rightmost operand numbers, two bytes each".
const FIELD: usize = 7;

struct Operator<'a> {
    precedence: u8,
    right: bool,
    field: &'a mut [u8; FIELD],
}

impl Op for Operator<'_> {
    fn precedence(&self) -> usize {
        self.precedence.into()
    }

    fn associativity(&self) -> Associativity {
        match self.right {
            true => Associativity::Right,
            false => Associativity::Left,
        }
    }
}

struct Span {
    leftmost: u16,
    rightmost: u16,
}

impl Span {
    fn operand(number: u16) -> Self {
        Self { leftmost: number, rightmost: number }
    }
}

impl Expr<Operator<'_>> for Span {
    fn from_op(lhs: Self, op: Operator<'_>, rhs: Self) -> Self {
        let [a, b] = lhs.leftmost.to_le_bytes();
        let [c, d] = rhs.rightmost.to_le_bytes();
        *op.field = [0x0b, 4, 0, a, b, c, d];
        Self { leftmost: lhs.leftmost, rightmost: rhs.rightmost }
    }
}

/// The operators of a row that is not refused.
fn operators(row: &[u8]) -> Result<&[[u8; 2]], Due> {
    let (operators, rest) = row.as_chunks::<2>();
    let sides = || operators.iter().fold(0, |sides, [_, side]| sides | side);
    if row.len() > LONGEST_INPUT {
        Err(Due::refusal(2, 0))
    } else if !rest.is_empty() || sides() > 1 {
        Err(Due::refusal(3, 0))
    } else if operators.len() > MOST_OPERATORS {
        Err(Due::refusal(8, 0))
    } else {
        Ok(operators)
    }
}

fn listing_length(operators: &[[u8; 2]]) -> usize {
    OPENING.len() + FIELD * operators.len()
}

/// Writes the listing into memory of its length.
fn write_listing(operators: &[[u8; 2]], out: &mut [u8]) {
    let (opening, fields) = out.split_at_mut(OPENING.len());
    opening.copy_from_slice(&OPENING);
    let fields = fields.as_chunks_mut::<FIELD>().0.iter_mut();
    let row = operators.iter().zip(fields).enumerate();
    let tail = row.map(|(number, (&[precedence, side], field))| {
        let right = side == 1;
        (Operator { precedence, right, field }, Span::operand(number as u16 + 1))
    });
    climb(Span::operand(0), tail);
}

fn oracle(row: &[u8], listing: &mut Vec<u8>) -> Due {
    listing.clear();
    match operators(row) {
        Err(refusal) => refusal,
        Ok(operators) => {
            listing.resize(listing_length(operators), 0);
            write_listing(operators, listing);
            Due::listing(0)
        }
    }
}

/// The Rust's side for measuring: no vector, no second pass.
fn into_room(row: &[u8], room: &mut [u8]) -> Answer {
    match operators(row) {
        Err(refusal) => refusal.in_room(0, 0),
        Ok(operators) => {
            let length = listing_length(operators);
            if let Some(out) = room.get_mut(..length) {
                write_listing(operators, out);
            }
            Due::listing(0).in_room(length, room.len())
        }
    }
}

/// All pieces of a precedence and a side.
fn pieces(precedences: &[u8], sides: &[u8]) -> Vec<[u8; 2]> {
    let with = |precedence: &u8| sides.iter().map(|side| [*precedence, *side]).collect::<Vec<_>>();
    precedences.iter().flat_map(with).collect()
}

fn slices<const N: usize>(pieces: &[[u8; N]]) -> Vec<&[u8]> {
    pieces.iter().map(|piece| &piece[..]).collect()
}

pub fn inputs(rng: &mut Rng, count: usize, each: &mut dyn FnMut(&[u8])) {
    // every row of few operators, three precedences and both sides
    all_rows(&slices(&pieces(&[0, 1, 2], &[0, 1])), 7, each);
    all_rows(&slices(&pieces(&[0, 1, 255], &[0, 1])), 5, each);
    // every two precedences
    for first in 0..=255 {
        for second in 0..=255 {
            for sides in 0..4 {
                each(&[first, sides & 1, second, sides >> 1]);
            }
        }
    }
    // every string of at most two bytes; longer ones of few values, among them sides that are none
    let bytes: Vec<[u8; 1]> = (0..=255).map(|byte| [byte]).collect();
    all_rows(&slices(&bytes), 2, each);
    all_rows(&[&[0], &[1], &[2], &[3], &[128], &[254], &[255]], 4, each);
    all_rows(&[&[0], &[1], &[2], &[255]], 6, each);
    limits(rng, each);
    for _ in 0..count {
        each(&random_row(rng));
    }
}

/// Rows on either side of each limit, well formed and not.
fn limits(rng: &mut Rng, each: &mut dyn FnMut(&[u8])) {
    let operators = [1_023, 1_024, 1_025, 1_026, 2_048, 16_383, 16_384, 16_385];
    let past_two_bytes = [32_767, 32_768, 32_769, 65_536, 65_537, 500_000];
    for count in operators.into_iter().chain(past_two_bytes) {
        for shape in 0..SHAPES {
            let mut row = row_of(rng, shape, count);
            each(&row);
            each(&row[1..]);
            row.push(0);
            each(&row);
            row.pop();
            for at in [0, 1_023, 1_024, count - 1] {
                if at < count {
                    let side = std::mem::replace(&mut row[2 * at + 1], 2 + rng.byte() % 254);
                    each(&row);
                    each(&row[..2 * count - 1]);
                    row[2 * at + 1] = side;
                }
            }
        }
    }
}

fn random_row(rng: &mut Rng) -> Vec<u8> {
    let most = rng.pick(&[8, 8, 8, 30, 30, 100, 300, 1_100]);
    let count = rng.below(most + 1);
    let shape = rng.below(SHAPES);
    let mut row = row_of(rng, shape, count);
    if count > 0 && rng.one_in(20) {
        let at = rng.below(count);
        row[2 * at + 1] = rng.byte();
    }
    if rng.one_in(50) {
        row.push(rng.byte() & 1);
    }
    row
}

const SHAPES: usize = 7;

/// A row of well-formed operators.
fn row_of(rng: &mut Rng, shape: usize, count: usize) -> Vec<u8> {
    let few: Vec<u8> = (0..1 + rng.below(4)).map(|_| rng.byte()).collect();
    let base = rng.byte();
    let step = 1 + rng.byte() % 3;
    let operator = |at: usize| match shape {
        // equally tight: all left, all right, both
        0 => [base, 0],
        1 => [base, 1],
        2 => [base, rng.byte() & 1],
        // ever tighter, ever looser, until the byte is full
        3 => [(at / 4).min(255) as u8, rng.byte() & 1],
        4 => [255 - (at / 4).min(255) as u8, rng.byte() & 1],
        // teeth
        5 => [(at as u8).wrapping_mul(step), rng.byte() & 1],
        // few precedences
        _ => [rng.pick(&few), rng.byte() & 1],
    };
    (0..count).map(operator).collect::<Vec<_>>().concat()
}

/// Some 300 cases, each rule at least once, in at most 60,000 bytes: the row that is too long takes
/// more than half of them.
pub fn sample(each: &mut dyn FnMut(&[u8], Lent)) {
    let mut rng = Rng::new(1);
    let two = pieces(&[0, 1], &[0, 1]);
    all_rows(&slices(&two), 3, &mut |row| {
        each(row, Lent::Exact);
        each(row, Lent::OneShort);
    });
    all_rows(&slices(&two), 2, &mut |row| {
        each(row, Lent::Nothing);
        each(row, Lent::More(1 + row.len()));
    });
    all_rows(&[&[0], &[1], &[2], &[255]], 2, &mut |row| each(row, Lent::More(16)));
    for malformed in [[0, 0, 0], [0, 1, 1], [7, 2, 7], [7, 1, 255]] {
        each(&malformed, Lent::Nothing);
        each(&[&malformed[..], &[2]].concat(), Lent::More(32));
        each(&[&malformed[..], &[0, 1]].concat(), Lent::More(64));
    }
    for _ in 0..60 {
        let (shape, count) = (rng.below(SHAPES), 4 + rng.below(5));
        each(&row_of(&mut rng, shape, count), Lent::Exact);
    }
    let equal_right = [9, 1].repeat(MOST_OPERATORS);
    each(&equal_right, Lent::Exact);
    each(&[&equal_right[..], &[9, 1]].concat(), Lent::More(8_192));
    each(&[&equal_right[..], &[9, 2]].concat(), Lent::More(8_192));
    each(&[0; LONGEST_INPUT + 1], Lent::More(8_192));
}

pub fn bench() {
    let mut rng = Rng::new(1);
    for count in [3, 20, 1_024] {
        let mixed = (0..count).map(|_| [rng.byte() % 8, rng.byte() & 1]).collect::<Vec<_>>();
        let rows = [("left", [4, 0].repeat(count)), ("right", [4, 1].repeat(count))];
        for (name, row) in rows.into_iter().chain([("mixed", mixed.concat())]) {
            let mut room = vec![0; OPENING.len() + FIELD * count];
            let mut rust = bench::timed(|| {
                black_box(into_room(black_box(&row), black_box(&mut room)));
            });
            let label = format!("climb, {count} operators, {name}");
            bench::pair(&label, &SUBJECT, &row, &mut rust);
        }
    }
}

#[cfg(test)]
mod tests {
    use super::*;

    fn listing(row: &[u8]) -> Vec<u8> {
        let mut listing = Vec::new();
        assert_eq!(oracle(row, &mut listing), Due::listing(0));
        listing
    }

    fn refusal(row: &[u8]) -> u8 {
        let mut listing = vec![1];
        let due = oracle(row, &mut listing);
        assert_eq!((due.place, listing.len()), (0, 0));
        due.number
    }

    #[test]
    fn bytes_by_hand() {
        assert_eq!(listing(&[]), [0, 1, 0, 1]);
        assert_eq!(listing(&[7, 0]), [0, 1, 0, 1, 11, 4, 0, 0, 0, 1, 0]);
        // "Equal precedence, a R b L c R d: a R ((b L c) R d)."
        let fields = [[11, 4, 0, 0, 0, 3, 0], [11, 4, 0, 1, 0, 2, 0], [11, 4, 0, 1, 0, 3, 0]];
        let row = [5, 1, 5, 0, 5, 1];
        assert_eq!(listing(&row), [&OPENING, fields.as_flattened()].concat());
        // "a row of 1,024 equal right-associative operators is accepted"
        let last = &listing(&[9, 1].repeat(1_024))[4 + 7 * 1_023..];
        assert_eq!(last, [11, 4, 0, 0xff, 3, 0, 4]);
    }

    #[test]
    fn lowest_refusal() {
        assert_eq!(refusal(&[0]), 3);
        assert_eq!(refusal(&[0, 2]), 3);
        assert_eq!(refusal(&[0; 2 * 1_025]), 8);
        assert_eq!(refusal(&[0; 2 * 1_025 + 1]), 3);
        assert_eq!(refusal(&[2; 2 * 1_025]), 3);
        assert_eq!(refusal(&[0; 32_768]), 8);
        assert_eq!(refusal(&[0; 32_769]), 2);
        assert_eq!(refusal(&[2; 32_770]), 2);
    }

    /// The sentences of the rule, as they stand: "The right operand of operator i runs over the
    /// longest row of following operators that are each tighter, or equally tight if i is
    /// right-associative. The left operand starts after the nearest earlier operator whose row
    /// holds i, else at the head."
    fn by_the_rule(row: &[u8]) -> Vec<u8> {
        let operators = row.as_chunks::<2>().0;
        let row_of = |i: usize| {
            let [precedence, side] = operators[i];
            let held =
                |[next, _]: &&[u8; 2]| *next > precedence || *next == precedence && side == 1;
            let length = operators[i + 1..].iter().take_while(held).count();
            i + 1..i + 1 + length
        };
        let mut listing = OPENING.to_vec();
        for i in 0..operators.len() {
            let holder = (0..i).rev().find(|j| row_of(*j).contains(&i));
            let leftmost = holder.map_or(0, |j| j as u16 + 1).to_le_bytes();
            let rightmost = (row_of(i).end as u16).to_le_bytes();
            listing.extend([11, 4, 0, leftmost[0], leftmost[1], rightmost[0], rightmost[1]]);
        }
        listing
    }

    #[test]
    fn the_rule_is_the_rusts() {
        let three = pieces(&[0, 1, 2], &[0, 1]);
        all_rows(&slices(&three), 5, &mut |row| assert_eq!(listing(row), by_the_rule(row)));
        let mut rng = Rng::new(1);
        for _ in 0..2_000 {
            let (shape, count) = (rng.below(SHAPES), rng.below(60));
            let row = row_of(&mut rng, shape, count);
            assert_eq!(listing(&row), by_the_rule(&row));
        }
    }

    #[test]
    fn both_forms_of_the_rusts_side_agree() {
        inputs(&mut Rng::new(2), 2_000, &mut |row| {
            let mut listing = Vec::new();
            let due = oracle(row, &mut listing);
            let length = listing.len();
            let mut room = vec![0; length];
            assert_eq!(into_room(row, &mut room), due.in_room(length, length));
            assert_eq!(room, listing);
        });
    }

    #[test]
    fn sample_is_small() {
        let (mut cases, mut bytes, mut answers) = (0, 1, [0; 9]);
        sample(&mut |row, lent| {
            let case = crate::room::recorded(&SUBJECT, row, lent);
            answers[case[1 + 4 + row.len() + 4] as usize] += 1;
            cases += 1;
            bytes += case.len();
        });
        assert!(cases >= 300 && bytes <= 60_000, "{cases} cases, {bytes} bytes");
        assert!([0, 2, 3, 7, 8].into_iter().all(|number| answers[number] > 0));
    }
}
