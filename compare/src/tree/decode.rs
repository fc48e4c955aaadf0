//! Reads a tree from bytes that are one. Every text is a slice of the tree bytes, so that its place
//! can be told from it.

use super::operators::{CMP, MATH};
use super::program::{Module, Program};
use crate::load::lex::StrPart;
use crate::load::parse::{BinaryOp, Def, Pattern, Term};
use crate::path::{Opt, Part, Path};

/// The text of a number, or what stands for it. No error names it.
pub type Number<'a, 's> = &'a dyn Fn(&'s str) -> &'s str;

pub fn decode<'s>(tree: &'s [u8], number: Number<'_, 's>) -> Program<'s> {
    Decoder { number }.program(members(tree).next().unwrap())
}

/// A field of a tree: its tag and its content.
#[derive(Clone, Copy)]
struct Field<'s>(u8, &'s [u8]);

fn members(mut content: &[u8]) -> impl Iterator<Item = Field<'_>> {
    std::iter::from_fn(move || {
        let ([tag, low, high], rest) = content.split_first_chunk()?;
        let (content_of, rest) = rest.split_at(u16::from_le_bytes([*low, *high]).into());
        content = rest;
        Some(Field(*tag, content_of))
    })
}

impl<'s> Field<'s> {
    fn members(self) -> impl Iterator<Item = Field<'s>> {
        members(self.1)
    }

    fn texts(self) -> Vec<&'s str> {
        self.members().map(Self::text).collect()
    }

    fn text(self) -> &'s str {
        str::from_utf8(self.1).unwrap()
    }

    fn number(self) -> usize {
        u16::from_le_bytes(self.1.try_into().unwrap()).into()
    }

    fn character(self) -> char {
        char::from_u32(u32::from_le_bytes(self.1.try_into().unwrap())).unwrap()
    }
}

struct Decoder<'a, 's> {
    number: Number<'a, 's>,
}

impl<'s> Decoder<'_, 's> {
    fn program(&self, tree: Field<'s>) -> Program<'s> {
        let mut members = tree.members().peekable();
        let natives = members.next().unwrap().members().map(|native| {
            let mut texts = native.texts().into_iter();
            (texts.next().unwrap(), texts.collect())
        });
        let natives = natives.collect();
        let globals = members.next_if(|Field(tag, _)| *tag == 0x82).map(Field::texts);
        let mut modules = Vec::new();
        while let Some(module) = members.next_if(|Field(tag, _)| *tag == 0x83) {
            modules.push(self.module(module, |body| self.definitions(body.members())));
        }
        let main = self.module(members.next().unwrap(), |body| self.term(body));
        Program { natives, globals, modules, main }
    }

    fn module<B>(&self, module: Field<'s>, body: impl Fn(Field<'s>) -> B) -> Module<'s, B> {
        let mut members = module.members();
        let mut next = || members.next().unwrap();
        let imports = next().members().map(|import| {
            let mut members = import.members();
            (members.next().unwrap().number(), members.next().unwrap().text())
        });
        Module {
            imports: imports.collect(),
            includes: next().members().map(Field::number).collect(),
            variables: next().texts(),
            body: body(next()),
        }
    }

    fn definitions(&self, fields: impl Iterator<Item = Field<'s>>) -> Vec<Def<&'s str>> {
        fields.map(|definition| self.definition(definition)).collect()
    }

    fn definition(&self, definition: Field<'s>) -> Def<&'s str> {
        let mut members = definition.members();
        let name = members.next().unwrap().text();
        let mut members: Vec<_> = members.collect();
        let body = self.term(members.pop().unwrap());
        Def::new(name, members.into_iter().map(Field::text).collect(), body)
    }

    fn boxed(&self, term: Field<'s>) -> Box<Term<&'s str>> {
        Box::new(self.term(term))
    }

    fn term(&self, term: Field<'s>) -> Term<&'s str> {
        let mut members = match term.0 {
            0xa5 => return Term::Break(term.text()),
            0xa7 => return Term::Var(term.text()),
            0xaa => return Term::Num((self.number)(term.text())),
            _ => term.members().peekable(),
        };
        let name = members.next_if(|Field(tag, _)| matches!(tag, 0x90 | 0xba)).map(Field::text);
        let rest = &mut members;
        match term.0 {
            0xa0 => Term::Id,
            0xa1 => Term::Recurse,
            0xa2 => Term::Arr(rest.next().map(|body| self.boxed(body))),
            0xa3 => Term::Neg(self.boxed(rest.next().unwrap())),
            0xa4 => Term::Label(name.unwrap(), self.boxed(rest.next().unwrap())),
            0xa6 => {
                let mut pairs = Vec::new();
                while let Some(pair) = rest.next_if(|Field(tag, _)| *tag == 0xb8) {
                    let mut pair = pair.members().map(|term| self.term(term));
                    pairs.push((pair.next().unwrap(), pair.next().unwrap()));
                }
                Term::IfThenElse(pairs, rest.next().map(|last| self.boxed(last)))
            }
            0xa8 => Term::Call(name.unwrap(), rest.map(|argument| self.term(argument)).collect()),
            0xa9 => {
                let mut members: Vec<_> = rest.collect();
                let body = self.boxed(members.pop().unwrap());
                Term::Def(self.definitions(members.into_iter()), body)
            }
            0xab => {
                let body = self.boxed(rest.next().unwrap());
                Term::TryCatch(body, rest.next().map(|catch| self.boxed(catch)))
            }
            0xac => {
                let source = self.boxed(rest.next().unwrap());
                let pattern = self.pattern(rest.next().unwrap());
                let arguments = rest.map(|argument| self.term(argument)).collect();
                Term::Fold(name.unwrap(), source, pattern, arguments)
            }
            0xad => {
                let left = self.boxed(rest.next().unwrap());
                let operator = self.operator(rest.next().unwrap());
                Term::BinOp(left, operator, self.boxed(rest.next().unwrap()))
            }
            0xae => {
                let head = self.boxed(rest.next().unwrap());
                Term::Path(head, Path(rest.map(|part| self.part(part)).collect()))
            }
            0xaf => {
                let parts = rest.map(|part| match part.0 {
                    0xbb => StrPart::Str(part.text()),
                    0xbc => StrPart::Char(part.character()),
                    _ => StrPart::Term(self.term(part)),
                });
                Term::Str(name, parts.collect())
            }
            0xb0 => Term::Obj(rest.map(|entry| self.entry(entry)).collect()),
            tag => unreachable!("{tag:02x} is no term"),
        }
    }

    fn entry(&self, entry: Field<'s>) -> (Term<&'s str>, Option<Term<&'s str>>) {
        let mut members = entry.members().map(|term| self.term(term));
        (members.next().unwrap(), members.next())
    }

    fn part(&self, part: Field<'s>) -> (Part<Term<&'s str>>, Opt) {
        let mut members = part.members().peekable();
        let kind = match part.0 {
            0xbe => Part::Index(self.term(members.next().unwrap())),
            _ => {
                let mut bound = |bound: u8| {
                    let field = members.next_if(|Field(tag, _)| *tag == bound)?;
                    field.members().next().map(|term| self.term(term))
                };
                let from = bound(0xc1);
                Part::Range(from, bound(0xc2))
            }
        };
        match members.next() {
            Some(_) => (kind, Opt::Optional),
            None => (kind, Opt::Essential),
        }
    }

    fn pattern(&self, pattern: Field<'s>) -> Pattern<&'s str> {
        let members = pattern.members();
        match pattern.0 {
            0x98 => Pattern::Var(pattern.text()),
            0x99 => Pattern::Arr(members.map(|member| self.pattern(member)).collect()),
            _ => {
                let entries = members.map(|entry| {
                    let mut members = entry.members();
                    let key = self.term(members.next().unwrap());
                    (key, self.pattern(members.next().unwrap()))
                });
                Pattern::Obj(entries.collect())
            }
        }
    }

    fn operator(&self, operator: Field<'s>) -> BinaryOp<&'s str> {
        use BinaryOp::*;
        if operator.0 == 0xb7 {
            return Pipe(operator.members().next().map(|pattern| self.pattern(pattern)));
        }
        match operator.1[0] {
            0x01 => Comma,
            0x02 => Alt,
            0x03 => Or,
            0x04 => And,
            0x05 => Assign,
            0x06 => Update,
            0x07 => UpdateAlt,
            byte @ 0x10..=0x14 => Math(MATH[usize::from(byte - 0x10)]),
            byte @ 0x20..=0x25 => Cmp(CMP[usize::from(byte - 0x20)]),
            byte => UpdateMath(MATH[usize::from(byte - 0x30)]),
        }
    }
}
