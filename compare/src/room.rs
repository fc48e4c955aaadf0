//! The lent room and the comparison: one input is lent several rooms, each between guards.

use crate::library::{self, Entry};

/// What an entry answers.
#[derive(Clone, Copy, Debug, PartialEq, Eq)]
pub struct Answer {
    pub number: u8,
    /// The length written.
    pub length: u32,
    pub place: u32,
}

impl Answer {
    pub fn unpack(packed: u64) -> Self {
        Self { number: packed as u8, length: (packed >> 8) as u32, place: (packed >> 40) as u32 }
    }
}

/// The answer that is due in a room that is large enough.
#[derive(Clone, Copy, Debug, PartialEq, Eq)]
pub struct Due {
    pub number: u8,
    pub place: u32,
}

impl Due {
    pub const fn listing(number: u8) -> Self {
        Self { number, place: 0 }
    }

    pub const fn refusal(number: u8, place: u32) -> Self {
        Self { number, place }
    }

    fn is_listing(self) -> bool {
        self.number <= 1
    }

    /// "then 7, tested against the listing due"; "For 2 to 8 the length is 0."
    pub fn in_room(self, listing: usize, room: usize) -> Answer {
        let Self { number, place } = self;
        let answer = |number, length, place| Answer { number, length, place };
        match self.is_listing() {
            true if listing > room => answer(7, 0, 0),
            true => answer(number, listing as u32, 0),
            false => answer(number, 0, place),
        }
    }
}

/// The Rust's side: what is due for an input, and in the vector the listing, empty in a refusal.
pub type Oracle = fn(&[u8], &mut Vec<u8>) -> Due;

/// An entry and its two sides.
pub struct Subject {
    pub name: &'static str,
    /// The entry's byte in a recorded sample.
    pub code: u8,
    pub ours: Option<Entry>,
    pub rust: Oracle,
}

/// The length of a room, by the length of the listing due.
#[derive(Clone, Copy)]
pub enum Lent {
    Nothing,
    OneShort,
    Exact,
    More(usize),
}

impl Lent {
    pub fn length(self, listing: usize) -> usize {
        match self {
            Self::Nothing => 0,
            Self::OneShort => listing.saturating_sub(1),
            Self::Exact => listing,
            Self::More(more) => listing + more,
        }
    }
}

const GUARD: usize = 64;

/// Memory to lend, with a guard at either side, all of it filled with a pattern.
struct Room {
    bytes: Vec<u8>,
    pattern: Vec<u8>,
    flip: u8,
}

impl Room {
    fn new(flip: u8) -> Self {
        Self { bytes: Vec::new(), pattern: Vec::new(), flip }
    }

    fn lend(&mut self, length: usize) -> &mut [u8] {
        let needed = length + 2 * GUARD;
        for at in self.bytes.len()..needed {
            let byte = (at * 0x9d + (at >> 8) * 0x35) as u8 ^ self.flip;
            self.bytes.push(byte);
            self.pattern.push(byte);
        }
        &mut self.bytes[GUARD..GUARD + length]
    }

    /// The first place, counted from the room's start, where it does not hold the written bytes, or
    /// where another byte of room or guards is not as it was.
    fn fault(&self, length: usize, written: &[u8]) -> Option<isize> {
        let (end, lent) = (GUARD + written.len(), length + 2 * GUARD);
        let differs = |at: &usize| match at.checked_sub(GUARD) {
            Some(place) if place < written.len() => self.bytes[*at] != written[place],
            _ => self.bytes[*at] != self.pattern[*at],
        };
        let good = self.bytes[..GUARD] == self.pattern[..GUARD]
            && self.bytes[GUARD..end] == *written
            && self.bytes[end..lent] == self.pattern[end..lent];
        let at = if good { None } else { (0..lent).find(differs) };
        at.map(|at| at as isize - GUARD as isize)
    }

    /// Fills what was written with the pattern again, or all where more was written.
    fn restore(&mut self, length: usize, written: &[u8], fault: bool) {
        let dirty = match fault {
            true => 0..length + 2 * GUARD,
            false => GUARD..GUARD + written.len(),
        };
        self.bytes[dirty.clone()].copy_from_slice(&self.pattern[dirty]);
    }
}

/// Mismatches that are printed; further ones are counted.
const PRINTED: u64 = 10;

/// The comparison of one entry, call by call. A case is an input and a room.
pub struct Comparison<'a> {
    subject: &'a Subject,
    ours: Entry,
    listing: Vec<u8>,
    /// Two patterns that differ in every byte: a stray byte hides in one of them at most. The next
    /// input gets the other one in a room of the same kind.
    rooms: [Room; 2],
    inputs: u64,
    cases: u64,
    pub mismatches: u64,
    answers: [u64; 256],
}

impl<'a> Comparison<'a> {
    /// None where the library does not have the entry.
    pub fn new(subject: &'a Subject) -> Option<Self> {
        Some(Self {
            subject,
            ours: subject.ours?,
            listing: Vec::new(),
            rooms: [Room::new(0), Room::new(0xff)],
            inputs: 0,
            cases: 0,
            mismatches: 0,
            answers: [0; 256],
        })
    }

    /// Compares both sides on an input, in rooms that are too short, just enough and more.
    pub fn input(&mut self, input: &[u8]) {
        let mut listing = std::mem::take(&mut self.listing);
        let due = (self.subject.rust)(input, &mut listing);
        self.inputs += 1;
        let more = 1 + self.cases as usize % 61;
        if due.is_listing() {
            self.case(input, due, &listing, Lent::OneShort);
            self.case(input, due, &listing, Lent::Exact);
        } else {
            // as much as any input of this length could fill
            self.case(input, due, &listing, Lent::More(9 * input.len().min(4096) + 4));
        }
        self.case(input, due, &listing, Lent::Nothing);
        self.case(input, due, &listing, Lent::More(more));
        self.listing = listing;
    }

    fn case(&mut self, input: &[u8], due: Due, listing: &[u8], lent: Lent) {
        let length = lent.length(listing.len());
        let expected = due.in_room(listing.len(), length);
        let written = &listing[..expected.length as usize];

        let room = &mut self.rooms[(self.inputs + self.cases) as usize % 2];
        let answer = Answer::unpack(library::call(self.ours, input, room.lend(length)));
        let fault = room.fault(length, written);

        self.cases += 1;
        self.answers[expected.number as usize] += 1;
        if answer != expected || fault.is_some() {
            self.mismatches += 1;
            if self.mismatches <= PRINTED {
                let name = self.subject.name;
                println!("{name}: mismatch in a room of {length} bytes");
                println!("  input of {} bytes: {}", input.len(), hex(input));
                println!("  rust: {expected:?}: {}", hex(written));
                println!("  ours: {answer:?}: {}", hex(room.lend(length)));
                if let Some(at) = fault {
                    println!("  the room is not as due at {at}");
                }
            }
        }
        room.restore(length, written, fault.is_some());
    }

    pub fn report(&self) {
        let Self { cases, mismatches, .. } = self;
        let name = self.subject.name;
        println!("{name}: {cases} cases, {mismatches} mismatches");
        let seen = self.answers.iter().enumerate().filter(|(_, count)| **count > 0);
        let seen: Vec<_> = seen.map(|(number, count)| format!("{number}: {count}")).collect();
        println!("{name}: answers {}", seen.join(", "));
    }
}

/// Bytes in hex, a long row cut.
fn hex(bytes: &[u8]) -> String {
    const LONGEST: usize = 4096;
    let shown = bytes.iter().take(LONGEST).map(|byte| format!("{byte:02x}"));
    let cut = if bytes.len() > LONGEST { " .." } else { "" };
    shown.collect::<Vec<_>>().join(" ") + cut
}

/// A case of a recorded sample: the entry's byte, the input after its length, the room's length, the
/// answer's number, length and place, the listing written. Lengths and the place have four bytes,
/// little-endian.
pub fn recorded(subject: &Subject, input: &[u8], lent: Lent) -> Vec<u8> {
    let mut listing = Vec::new();
    let due = (subject.rust)(input, &mut listing);
    let room = lent.length(listing.len());
    let answer = due.in_room(listing.len(), room);

    let mut case = vec![subject.code];
    case.extend((input.len() as u32).to_le_bytes());
    case.extend(input);
    case.extend((room as u32).to_le_bytes());
    case.push(answer.number);
    case.extend(answer.length.to_le_bytes());
    case.extend(answer.place.to_le_bytes());
    case.extend(&listing[..answer.length as usize]);
    case
}
