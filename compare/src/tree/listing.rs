//! The Rust's table and its errors, as listings.

use super::operators::{cmp, math};
use super::signed;
use crate::compile::{CallType, Errors, Filter, Fold, Pattern, Term, TermId, Undefined};
use crate::fields::{number, put, OPENING};
use crate::path::{Opt, Part};
use crate::Bind;

/// "Listings open with field 00: edition 1, and for terms the main number."
pub fn terms(filter: &Filter<()>, listing: &mut Vec<u8>) {
    put(listing, 0, &[&[1], &number(filter.id.0)]);
    let mut record = Record(Vec::new());
    for each in &filter.lut.terms {
        record.0.clear();
        let tag = record.term(each);
        put(listing, tag, &[&record.0]);
    }
}

/// A record's content.
struct Record(Vec<u8>);

impl Record {
    fn byte(&mut self, byte: u8) -> &mut Self {
        self.0.push(byte);
        self
    }

    fn number(&mut self, of: usize) -> &mut Self {
        self.0.extend(number(of));
        self
    }

    fn id(&mut self, id: TermId) -> &mut Self {
        self.number(id.0)
    }

    fn ids<const N: usize>(&mut self, ids: [TermId; N]) -> &mut Self {
        ids.into_iter().for_each(|id| _ = self.id(id));
        self
    }

    fn text(&mut self, text: &str) -> &mut Self {
        self.0.extend(text.as_bytes());
        self
    }

    /// Writes a term's members, and gives its tag: "tags 50 to 6B in the order of `Term`".
    fn term(&mut self, term: &Term) -> u8 {
        match term {
            Term::Id => 0x50,
            Term::Recurse => 0x51,
            Term::ToString => 0x52,
            Term::Int(value) => {
                self.0.extend((*value as i64).to_le_bytes());
                0x53
            }
            Term::Num(text) => self.text(signed::reveal(text)).tag(0x54),
            Term::Str(text) => self.text(text).tag(0x55),
            Term::Arr(body) => self.id(*body).tag(0x56),
            Term::ObjEmpty => 0x57,
            Term::ObjSingle(key, value) => self.ids([*key, *value]).tag(0x58),
            Term::Var(index) => self.number(*index).tag(0x59),
            Term::CallDef(id, arguments, skip, kind) => {
                self.id(*id).arguments(arguments).number(*skip).byte(call_type(*kind)).tag(0x5a)
            }
            Term::Native(native, arguments) => self.number(*native).arguments(arguments).tag(0x5b),
            Term::Label(body) => self.id(*body).tag(0x5c),
            Term::Neg(body) => self.id(*body).tag(0x5d),
            Term::Pipe(left, pattern, right) => {
                self.id(*left).pattern(pattern.as_ref()).id(*right).tag(0x5e)
            }
            Term::Comma(left, right) => self.ids([*left, *right]).tag(0x5f),
            Term::Assign(left, right) => self.ids([*left, *right]).tag(0x60),
            Term::Update(left, right) => self.ids([*left, *right]).tag(0x61),
            Term::UpdateMath(left, op, right) => {
                self.id(*left).byte(math(*op)).id(*right).tag(0x62)
            }
            Term::UpdateAlt(left, right) => self.ids([*left, *right]).tag(0x63),
            Term::Logic(left, or, right) => self.id(*left).byte((*or).into()).id(*right).tag(0x64),
            Term::Math(left, op, right) => self.id(*left).byte(math(*op)).id(*right).tag(0x65),
            Term::Cmp(left, op, right) => self.id(*left).byte(cmp(*op)).id(*right).tag(0x66),
            Term::Alt(left, right) => self.ids([*left, *right]).tag(0x67),
            Term::TryCatch(body, catch) => self.ids([*body, *catch]).tag(0x68),
            Term::Ite(condition, branch, other) => {
                self.ids([*condition, *branch, *other]).tag(0x69)
            }
            Term::Fold(source, pattern, init, update, fold) => {
                self.id(*source).pattern(Some(pattern)).ids([*init, *update]).fold(fold).tag(0x6a)
            }
            Term::Path(head, path) => {
                self.id(*head).number(path.0.len());
                path.0.iter().for_each(|(part, optional)| self.part(part, *optional));
                0x6b
            }
        }
    }

    fn tag(&self, tag: u8) -> u8 {
        tag
    }

    /// "Argument lists: count, then 0 (variable) or 1 (filter) and number."
    fn arguments(&mut self, arguments: &[Bind<TermId>]) -> &mut Self {
        self.number(arguments.len());
        for argument in arguments {
            match argument {
                Bind::Var(id) => self.byte(0).id(*id),
                Bind::Fun(id) => self.byte(1).id(*id),
            };
        }
        self
    }

    /// "Pattern: 0 none, 1 variable, 2 with count, then key and pattern."
    fn pattern(&mut self, pattern: Option<&Pattern<TermId>>) -> &mut Self {
        match pattern {
            None => self.byte(0),
            Some(Pattern::Var) => self.byte(1),
            Some(Pattern::Idx(entries)) => {
                self.byte(2).number(entries.len());
                entries.iter().for_each(|(key, of)| _ = self.id(*key).pattern(Some(of)));
                self
            }
        }
    }

    /// "Fold: 0 reduce, 1 foreach, 2 foreach and number."
    fn fold(&mut self, fold: &Fold<TermId>) -> &mut Self {
        match fold {
            Fold::Reduce => self.byte(0),
            Fold::Foreach(None) => self.byte(1),
            Fold::Foreach(Some(projection)) => self.byte(2).id(*projection),
        }
    }

    /// "for each part index (0, number) or range (1, two optional numbers, each after a 0/1 byte), then
    /// 1 if optional, else 0"
    fn part(&mut self, part: &Part<TermId>, optional: Opt) {
        match part {
            Part::Index(index) => _ = self.byte(0).id(*index),
            Part::Range(from, upto) => {
                self.byte(1);
                for bound in [from, upto] {
                    match bound {
                        Some(bound) => self.byte(1).id(*bound),
                        None => self.byte(0),
                    };
                }
            }
        }
        self.byte(matches!(optional, Opt::Optional).into());
    }
}

/// "Inline 0, Throw 1, CatchOne 2, CatchAll 3"
fn call_type(kind: CallType) -> u8 {
    match kind {
        CallType::Inline => 0,
        CallType::Throw => 1,
        CallType::CatchOne => 2,
        CallType::CatchAll => 3,
    }
}

/// "Mod 28, Var 29, Label 2A, Filter 2B, with module, name's place in the tree bytes and length, Filter
/// also arity."
pub fn errors(errors: &Errors<&str, usize>, tree: &[u8], listing: &mut Vec<u8>) {
    listing.extend(OPENING);
    for (file, errors) in errors {
        for (name, undefined) in errors {
            let place = number(place(name, tree));
            let [module, length] = [file.path, name.len()].map(number);
            let name = [&module[..], &place, &length].concat();
            match undefined {
                Undefined::Mod => put(listing, 0x28, &[&name]),
                Undefined::Var => put(listing, 0x29, &[&name]),
                Undefined::Label => put(listing, 0x2a, &[&name]),
                Undefined::Filter(arity) => put(listing, 0x2b, &[&name, &number(*arity)]),
            }
        }
    }
}

/// Where a name lies in the tree bytes, or 0 where it does not: "`!empty` has place 0, length 6."
fn place(name: &str, tree: &[u8]) -> usize {
    let place = name.as_ptr().addr().wrapping_sub(tree.as_ptr().addr());
    match place.saturating_add(name.len()) <= tree.len() {
        true => place,
        false => 0,
    }
}
