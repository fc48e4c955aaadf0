//! Whether bytes are a tree, straight from the table of the tree form, and how deep it is. Nothing is
//! called once for each level: bytes may be nested deeper than any tree that is accepted.

/// What a member may be, and how often it may stand there.
struct Slot {
    tags: Tags,
    least: usize,
    most: usize,
}

enum Tags {
    One(u8),
    Either(&'static [u8]),
    Term,
    Pattern,
    Operator,
    PartOfString,
}

impl Tags {
    fn has(&self, tag: u8) -> bool {
        match self {
            Self::One(one) => tag == *one,
            Self::Either(tags) => tags.contains(&tag),
            Self::Term => (0xa0..=0xb0).contains(&tag),
            Self::Pattern => (0x98..=0x9a).contains(&tag),
            Self::Operator => tag == 0xb7 || tag == 0xb9,
            Self::PartOfString => tag == 0xbb || tag == 0xbc || Self::Term.has(tag),
        }
    }
}

const fn one(tags: Tags) -> Slot {
    Slot { tags, least: 1, most: 1 }
}

const fn optional(tags: Tags) -> Slot {
    Slot { tags, least: 0, most: 1 }
}

const fn many(tags: Tags) -> Slot {
    Slot { tags, least: 0, most: usize::MAX }
}

const fn some(tags: Tags) -> Slot {
    Slot { tags, least: 1, most: usize::MAX }
}

/// A field's content.
enum Content {
    Members(&'static [Slot]),
    Text,
    /// A text that starts with `$`.
    Variable,
    ModuleNumber,
    Operator,
    Character,
}

fn content(tag: u8) -> Option<Content> {
    use Content::*;
    use Tags::{Either, One, PartOfString, Pattern, Term};
    Some(match tag {
        0x80 => Members(
            const { &[one(One(0x81)), optional(One(0x82)), many(One(0x83)), one(One(0x84))] },
        ),
        0x81 => Members(const { &[many(One(0x85))] }),
        0x82 | 0x88 => Members(const { &[many(One(0x90))] }),
        0x83 => {
            Members(const { &[one(One(0x86)), one(One(0x87)), one(One(0x88)), one(One(0x89))] })
        }
        0x84 => Members(const { &[one(One(0x86)), one(One(0x87)), one(One(0x88)), one(Term)] }),
        0x85 => Members(const { &[one(One(0x90)), many(One(0x91))] }),
        0x86 => Members(const { &[many(One(0x8a))] }),
        0x87 => Members(const { &[many(One(0x8d))] }),
        0x89 => Members(const { &[many(One(0x8c))] }),
        0x8a => Members(const { &[one(One(0x8d)), one(One(0x90))] }),
        0x8c => Members(const { &[one(One(0x90)), many(One(0x91)), one(Term)] }),
        0x8d => ModuleNumber,
        0x90 | 0x91 | 0xa5 | 0xaa | 0xba | 0xbb => Text,
        0x98 | 0xa7 => Variable,
        0x99 => Members(const { &[many(Pattern)] }),
        0x9a => Members(const { &[many(One(0x9b))] }),
        0x9b => Members(const { &[one(Term), one(Pattern)] }),
        0xa0 | 0xa1 | 0xc0 => Members(&[]),
        0xa2 => Members(const { &[optional(Term)] }),
        0xa3 | 0xc1 | 0xc2 => Members(const { &[one(Term)] }),
        0xa4 => Members(const { &[one(One(0x90)), one(Term)] }),
        0xa6 => Members(const { &[some(One(0xb8)), optional(Term)] }),
        0xa8 => Members(const { &[one(One(0x90)), many(Term)] }),
        0xa9 => Members(const { &[many(One(0x8c)), one(Term)] }),
        0xab | 0xbd => Members(const { &[one(Term), optional(Term)] }),
        0xac => Members(const { &[one(One(0x90)), one(Term), one(Pattern), many(Term)] }),
        0xad => Members(const { &[one(Term), one(Tags::Operator), one(Term)] }),
        0xae => Members(const { &[one(Term), many(Either(&[0xbe, 0xbf]))] }),
        0xaf => Members(const { &[optional(One(0xba)), many(PartOfString)] }),
        0xb0 => Members(const { &[many(One(0xbd))] }),
        0xb7 => Members(const { &[optional(Pattern)] }),
        0xb8 => Members(const { &[one(Term), one(Term)] }),
        0xb9 => Operator,
        0xbc => Character,
        0xbe => Members(const { &[one(Term), optional(One(0xc0))] }),
        0xbf => Members(const { &[optional(One(0xc1)), optional(One(0xc2)), optional(One(0xc0))] }),
        _ => return None,
    })
}

#[cfg(test)]
pub fn is_tag(tag: u8) -> bool {
    content(tag).is_some()
}

fn is_operator(byte: u8) -> bool {
    matches!(byte, 0x01..=0x07 | 0x10..=0x14 | 0x20..=0x25 | 0x30..=0x34)
}

/// How deep a tree is.
#[derive(Debug, PartialEq, Eq)]
pub struct Depth {
    /// The most fields that are open at once.
    pub fields: usize,
    /// The most definitions among them.
    pub definitions: usize,
}

const DEFINITION: u8 = 0x8c;

/// A field with members that is open.
struct Open {
    tag: u8,
    end: usize,
    /// Where the next member may stand, and how many stand there.
    slots: &'static [Slot],
    count: usize,
}

impl Open {
    /// Takes a member's tag into the first slot from here on that has room for it.
    fn take(&mut self, tag: u8) -> Option<()> {
        loop {
            let slot = self.slots.first()?;
            if self.count < slot.most && slot.tags.has(tag) {
                self.count += 1;
                return Some(());
            }
            self.next_slot()?;
        }
    }

    fn next_slot(&mut self) -> Option<()> {
        let (slot, rest) = self.slots.split_first()?;
        let full = self.count >= slot.least;
        (self.slots, self.count) = (rest, 0);
        full.then_some(())
    }

    /// Whether no member is missing.
    fn complete(mut self) -> bool {
        while !self.slots.is_empty() {
            if self.next_slot().is_none() {
                return false;
            }
        }
        true
    }
}

/// The depth of a tree, or none where the bytes are no tree.
pub fn check(tree: &[u8]) -> Option<Depth> {
    let mut depth = Depth { fields: 0, definitions: 0 };
    // around the tree field, as if it were the only member of all bytes
    let around =
        Open { tag: 0, end: tree.len(), slots: const { &[one(Tags::One(0x80))] }, count: 0 };
    let mut open = vec![around];
    let mut definitions = 0;
    let mut modules = 0;
    let mut at = 0;
    loop {
        let innermost = open.last_mut()?;
        if at == innermost.end {
            definitions -= usize::from(innermost.tag == DEFINITION);
            modules += usize::from(innermost.tag == 0x83);
            if !open.pop()?.complete() {
                return None;
            }
            if open.is_empty() {
                return Some(depth);
            }
            continue;
        }
        let [tag, low, high] = *tree.get(at..innermost.end)?.first_chunk::<3>()?;
        let start = at + 3;
        let end = start + usize::from(u16::from_le_bytes([low, high]));
        if end > innermost.end {
            return None;
        }
        innermost.take(tag)?;
        depth.fields = depth.fields.max(open.len());
        if let Content::Members(slots) = content(tag)? {
            definitions += usize::from(tag == DEFINITION);
            depth.definitions = depth.definitions.max(definitions);
            open.push(Open { tag, end, slots, count: 0 });
            at = start;
        } else {
            if !is_leaf(content(tag)?, &tree[start..end], modules) {
                return None;
            }
            at = end;
        }
    }
}

/// Whether a field without members is well formed, in the module of the given number.
fn is_leaf(content: Content, bytes: &[u8], module: usize) -> bool {
    match content {
        Content::Members(_) => false,
        Content::Text => str::from_utf8(bytes).is_ok(),
        Content::Variable => bytes.starts_with(b"$") && str::from_utf8(bytes).is_ok(),
        Content::ModuleNumber => {
            bytes.try_into().is_ok_and(|bytes| usize::from(u16::from_le_bytes(bytes)) < module)
        }
        Content::Operator => matches!(bytes, [byte] if is_operator(*byte)),
        Content::Character => {
            bytes.try_into().is_ok_and(|bytes| char::from_u32(u32::from_le_bytes(bytes)).is_some())
        }
    }
}
