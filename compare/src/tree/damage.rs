//! Trees that are not well formed, or are so in another way: fields put in, taken out and changed with
//! all lengths right, and bytes changed without regard to them.

use crate::gen::Rng;

/// A field whose members are apart, of any tags.
#[derive(Clone)]
pub struct Raw {
    tag: u8,
    content: Content,
}

#[derive(Clone)]
enum Content {
    Members(Vec<Raw>),
    Bytes(Vec<u8>),
}

/// A well-formed field of each tag, about as small as it can be.
const FIELDS: &[&[u8]] = &[
    &[0x80, 0x12, 0, 0x81, 0, 0, 0x84, 0x0c, 0, 0x86, 0, 0, 0x87, 0, 0, 0x88, 0, 0, 0xa0, 0, 0],
    &[0x81, 0, 0],
    &[0x82, 0, 0],
    &[0x83, 0x0c, 0, 0x86, 0, 0, 0x87, 0, 0, 0x88, 0, 0, 0x89, 0, 0],
    &[0x84, 0x0c, 0, 0x86, 0, 0, 0x87, 0, 0, 0x88, 0, 0, 0xa0, 0, 0],
    &[0x85, 3, 0, 0x90, 0, 0],
    &[0x86, 0, 0],
    &[0x87, 0, 0],
    &[0x88, 0, 0],
    &[0x89, 0, 0],
    &[0x8a, 8, 0, 0x8d, 2, 0, 0, 0, 0x90, 0, 0],
    &[0x8c, 7, 0, 0x90, 1, 0, b'f', 0xa0, 0, 0],
    &[0x8d, 2, 0, 0, 0],
    &[0x8d, 2, 0, 1, 0],
    &[0x90, 0, 0],
    &[0x90, 1, 0, b'f'],
    &[0x91, 2, 0, b'$', b'a'],
    &[0x91, 1, 0, b'f'],
    &[0x98, 2, 0, b'$', b'a'],
    &[0x99, 0, 0],
    &[0x9a, 0, 0],
    &[0x9b, 6, 0, 0xa0, 0, 0, 0x99, 0, 0],
    &[0xa0, 0, 0],
    &[0xa1, 0, 0],
    &[0xa2, 0, 0],
    &[0xa3, 3, 0, 0xa0, 0, 0],
    &[0xa4, 6, 0, 0x90, 0, 0, 0xa0, 0, 0],
    &[0xa5, 0, 0],
    &[0xa6, 9, 0, 0xb8, 6, 0, 0xa0, 0, 0, 0xa1, 0, 0],
    &[0xa7, 2, 0, b'$', b'a'],
    &[0xa8, 4, 0, 0x90, 1, 0, b'f'],
    &[0xa9, 3, 0, 0xa0, 0, 0],
    &[0xaa, 1, 0, b'1'],
    &[0xab, 3, 0, 0xa0, 0, 0],
    &[0xac, 9, 0, 0x90, 0, 0, 0xa0, 0, 0, 0x99, 0, 0],
    &[0xad, 9, 0, 0xa0, 0, 0, 0xb7, 0, 0, 0xa0, 0, 0],
    &[0xae, 3, 0, 0xa0, 0, 0],
    &[0xaf, 0, 0],
    &[0xb0, 0, 0],
    &[0xb7, 0, 0],
    &[0xb8, 6, 0, 0xa0, 0, 0, 0xa0, 0, 0],
    &[0xb9, 1, 0, 1],
    &[0xba, 1, 0, b'f'],
    &[0xbb, 1, 0, b'a'],
    &[0xbc, 4, 0, b'a', 0, 0, 0],
    &[0xbd, 3, 0, 0xa0, 0, 0],
    &[0xbe, 3, 0, 0xa0, 0, 0],
    &[0xbf, 0, 0],
    &[0xc0, 0, 0],
    &[0xc1, 3, 0, 0xa0, 0, 0],
    &[0xc2, 3, 0, 0xa0, 0, 0],
];

/// Tags that no field has, beside those that fields have.
const NO_TAGS: [u8; 11] = [0, 0x50, 0x7f, 0x8b, 0x8e, 0x92, 0x97, 0x9c, 0xb1, 0xb6, 0xc3];

/// Contents for a field that holds no members.
const CONTENTS: &[&[u8]] = &[
    b"", b"f", b"$", b"$a", b"a$", b"m::f", b"\xc3\xa9", b"$\xc3", b"\xff", b"\xc0\x80",
    b"\xed\xa0\x80", b"\0", b"\x01", b"\x07", b"\x08", b"\x0f", b"\x10", b"\x14", b"\x15", b"\x25",
    b"\x26", b"\x34", b"\x35", b"\0\0", b"\x01\0", b"\xff\xff", b"\0\0\0", b"\0\0\0\0",
    b"\xff\xd7\0\0", b"\0\xd8\0\0", b"\xff\xdf\0\0", b"\0\xe0\0\0", b"\xff\xff\x10\0",
    b"\0\0\x11\0", b"\0\0\0\x01", b"\0\0\0\0\0",
];

impl Raw {
    /// The one field that well-formed bytes are.
    fn read(bytes: &[u8]) -> Self {
        fields(bytes).pop().unwrap()
    }

    fn bytes(&self) -> Vec<u8> {
        let mut bytes = Vec::new();
        self.write(&mut bytes);
        bytes
    }

    /// A length that two bytes do not hold is cut, and the result is no tree.
    fn write(&self, bytes: &mut Vec<u8>) {
        bytes.extend([self.tag, 0, 0]);
        let start = bytes.len();
        match &self.content {
            Content::Members(members) => members.iter().for_each(|member| member.write(bytes)),
            Content::Bytes(content) => bytes.extend(content),
        }
        let length = (bytes.len() - start) as u16;
        bytes[start - 2..start].copy_from_slice(&length.to_le_bytes());
    }

    fn members(&self) -> &[Raw] {
        match &self.content {
            Content::Members(members) => members,
            Content::Bytes(_) => &[],
        }
    }

    /// How many fields it is.
    fn count(&self) -> usize {
        1 + self.members().iter().map(Self::count).sum::<usize>()
    }

    /// The field of a number: 0 is this one, 1 its first member, then that one's members.
    fn at(&mut self, mut number: usize) -> &mut Raw {
        if number == 0 {
            return self;
        }
        number -= 1;
        let Content::Members(members) = &mut self.content else { unreachable!() };
        for member in members {
            let count = member.count();
            if number < count {
                return member.at(number);
            }
            number -= count;
        }
        unreachable!("no field of this number")
    }

    fn change(&mut self, change: &Change) {
        match (change, &mut self.content) {
            (Change::Tag(tag), _) => self.tag = *tag,
            (Change::Content(content), _) => self.content = Content::Bytes(content.to_vec()),
            (Change::Whole(field), _) => *self = Raw::read(field),
            (Change::Around, _) => self.content = Content::Members(vec![self.clone()]),
            (Change::Insert(at, field), Content::Members(members)) => {
                members.insert(*at, Raw::read(field));
            }
            (Change::Remove(at), Content::Members(members)) => _ = members.remove(*at),
            (Change::Twice(at), Content::Members(members)) => {
                members.insert(*at, members[*at].clone());
            }
            (Change::Swap(at), Content::Members(members)) => members.swap(*at, at + 1),
            (_, Content::Bytes(_)) => {}
        }
    }
}

/// A change of a field. Members are numbered from 0.
enum Change {
    Tag(u8),
    Content(&'static [u8]),
    Whole(&'static [u8]),
    /// The field becomes its own only member.
    Around,
    Insert(usize, &'static [u8]),
    Remove(usize),
    Twice(usize),
    Swap(usize),
}

/// All changes of a field with so many members.
fn changes(members: usize) -> Vec<Change> {
    let tags = FIELDS.iter().map(|field| field[0]).chain(NO_TAGS);
    let mut changes: Vec<_> = tags.map(Change::Tag).collect();
    changes.extend(CONTENTS.iter().map(|content| Change::Content(content)));
    changes.extend(FIELDS.iter().map(|field| Change::Whole(field)));
    changes.push(Change::Around);
    for at in 0..=members {
        changes.extend(FIELDS.iter().map(|field| Change::Insert(at, field)));
    }
    changes.extend((0..members).flat_map(|at| [Change::Remove(at), Change::Twice(at)]));
    changes.extend((1..members).map(|at| Change::Swap(at - 1)));
    changes
}

fn fields(mut bytes: &[u8]) -> Vec<Raw> {
    let mut fields = Vec::new();
    while let Some(([tag, low, high], rest)) = bytes.split_first_chunk() {
        let (content, rest) = rest.split_at(u16::from_le_bytes([*low, *high]).into());
        fields.push(Raw { tag: *tag, content: read_content(*tag, content) });
        bytes = rest;
    }
    fields
}

fn read_content(tag: u8, content: &[u8]) -> Content {
    match tag {
        0x8d | 0x90 | 0x91 | 0x98 | 0xa5 | 0xa7 | 0xaa | 0xb9..=0xbc => {
            Content::Bytes(content.to_vec())
        }
        _ => Content::Members(fields(content)),
    }
}

/// Each field of a tree changed in each way, each byte set to each value, and each front.
pub fn systematic(tree: &[u8], each: &mut dyn FnMut(&[u8])) {
    let mut whole = Raw::read(tree);
    for number in 0..whole.count() {
        for change in changes(whole.at(number).members().len()) {
            let mut changed = whole.clone();
            changed.at(number).change(&change);
            each(&changed.bytes());
        }
    }
    let mut bytes = tree.to_vec();
    for at in 0..bytes.len() {
        for value in 0..=255 {
            bytes[at] = value;
            each(&bytes);
        }
        bytes[at] = tree[at];
        each(&tree[..at]);
    }
}

/// The tags of all fields of a tree.
#[cfg(test)]
pub fn tags(tree: &[u8]) -> std::collections::BTreeSet<u8> {
    let mut whole = Raw::read(tree);
    (0..whole.count()).map(|number| whole.at(number).tag).collect()
}

/// A tree with one or a few random changes.
pub fn damaged(rng: &mut Rng, tree: &[u8]) -> Vec<u8> {
    let mut whole = Raw::read(tree);
    let count = whole.count();
    for _ in 0..rng.below(3) {
        // a change may leave fewer fields
        let field = whole.at(rng.below(count.min(whole.count())));
        let changes = changes(field.members().len());
        field.change(&changes[rng.below(changes.len())]);
    }
    let mut bytes = whole.bytes();
    for _ in 0..rng.below(3) {
        change_byte(rng, &mut bytes);
    }
    bytes
}

fn change_byte(rng: &mut Rng, bytes: &mut Vec<u8>) {
    let at = rng.below(bytes.len() + 1);
    match rng.below(6) {
        0 => bytes.truncate(at),
        1 => bytes.insert(at, rng.byte()),
        _ if at == bytes.len() => bytes.push(0),
        2 => _ = bytes.remove(at),
        3 => bytes[at] = rng.byte(),
        4 => bytes[at] ^= 1 << rng.below(8),
        _ => bytes[at] = bytes[at].wrapping_add(rng.pick(&[1, 3, 255, 253])),
    }
}
