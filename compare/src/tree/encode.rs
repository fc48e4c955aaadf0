//! Writes a tree.

use super::operators::{cmp, math};
use super::program::{Module, Program};
use crate::load::lex::StrPart;
use crate::load::parse::{BinaryOp, Def, Pattern, Term};
use crate::path::{Opt, Part};

pub fn encode(program: &Program) -> Vec<u8> {
    let mut encoder = Encoder { tree: Vec::new() };
    encoder.program(program);
    encoder.tree
}

struct Encoder {
    tree: Vec<u8>,
}

impl Encoder {
    /// A field whose content is written by a function.
    fn field(&mut self, tag: u8, content: impl FnOnce(&mut Self)) {
        self.tree.extend([tag, 0, 0]);
        let start = self.tree.len();
        content(self);
        let length =
            u16::try_from(self.tree.len() - start).expect("a content of two bytes' length");
        self.tree[start - 2..start].copy_from_slice(&length.to_le_bytes());
    }

    fn bytes(&mut self, tag: u8, bytes: &[u8]) {
        self.field(tag, |e| e.tree.extend_from_slice(bytes));
    }

    fn text(&mut self, tag: u8, text: &str) {
        self.bytes(tag, text.as_bytes());
    }

    /// A field that holds texts.
    fn texts(&mut self, tag: u8, member: u8, texts: &[&str]) {
        self.field(tag, |e| texts.iter().for_each(|text| e.text(member, text)));
    }

    fn number(&mut self, number: usize) {
        self.bytes(0x8d, &u16::try_from(number).unwrap().to_le_bytes());
    }

    fn program(&mut self, program: &Program) {
        self.field(0x80, |e| {
            e.field(0x81, |e| {
                for (name, parameters) in &program.natives {
                    e.field(0x85, |e| {
                        e.text(0x90, name);
                        parameters.iter().for_each(|parameter| e.text(0x91, parameter));
                    });
                }
            });
            if let Some(globals) = &program.globals {
                e.texts(0x82, 0x90, globals);
            }
            for module in &program.modules {
                e.module(0x83, module, |e| e.field(0x89, |e| e.definitions(&module.body)));
            }
            e.module(0x84, &program.main, |e| e.term(&program.main.body));
        });
    }

    fn module<B>(&mut self, tag: u8, module: &Module<B>, body: impl FnOnce(&mut Self)) {
        self.field(tag, |e| {
            e.field(0x86, |e| {
                for (number, name) in &module.imports {
                    e.field(0x8a, |e| {
                        e.number(*number);
                        e.text(0x90, name);
                    });
                }
            });
            e.field(0x87, |e| module.includes.iter().for_each(|number| e.number(*number)));
            e.texts(0x88, 0x90, &module.variables);
            body(e);
        });
    }

    fn definitions(&mut self, definitions: &[Def<&str>]) {
        for definition in definitions {
            self.field(0x8c, |e| {
                e.text(0x90, definition.name);
                definition.args.iter().for_each(|parameter| e.text(0x91, parameter));
                e.term(&definition.body);
            });
        }
    }

    fn terms<'a, 's: 'a>(&mut self, terms: impl IntoIterator<Item = &'a Term<&'s str>>) {
        terms.into_iter().for_each(|term| self.term(term));
    }

    fn term(&mut self, term: &Term<&str>) {
        match term {
            Term::Id => self.bytes(0xa0, &[]),
            Term::Recurse => self.bytes(0xa1, &[]),
            Term::Arr(body) => self.field(0xa2, |e| e.terms(body.as_deref())),
            Term::Neg(body) => self.field(0xa3, |e| e.term(body)),
            Term::Label(name, body) => self.named(0xa4, name, |e| e.term(body)),
            Term::Break(name) => self.text(0xa5, name),
            Term::IfThenElse(pairs, last) => self.field(0xa6, |e| {
                for (condition, branch) in pairs {
                    e.field(0xb8, |e| e.terms([condition, branch]));
                }
                e.terms(last.as_deref());
            }),
            Term::Var(name) => self.text(0xa7, name),
            Term::Call(name, arguments) => self.named(0xa8, name, |e| e.terms(arguments)),
            Term::Def(definitions, body) => self.field(0xa9, |e| {
                e.definitions(definitions);
                e.term(body);
            }),
            Term::Num(text) => self.text(0xaa, text),
            Term::TryCatch(body, catch) => self.field(0xab, |e| {
                e.term(body);
                e.terms(catch.as_deref());
            }),
            Term::Fold(name, source, pattern, arguments) => self.named(0xac, name, |e| {
                e.term(source);
                e.pattern(pattern);
                e.terms(arguments);
            }),
            Term::BinOp(left, operator, right) => self.field(0xad, |e| {
                e.term(left);
                e.operator(operator);
                e.term(right);
            }),
            Term::Path(head, path) => self.field(0xae, |e| {
                e.term(head);
                path.0.iter().for_each(|(part, optional)| e.part(part, *optional));
            }),
            Term::Str(format, parts) => self.field(0xaf, |e| {
                if let Some(format) = format {
                    e.text(0xba, format);
                }
                for part in parts {
                    match part {
                        StrPart::Str(text) => e.text(0xbb, text),
                        StrPart::Char(c) => e.bytes(0xbc, &u32::from(*c).to_le_bytes()),
                        StrPart::Term(term) => e.term(term),
                    }
                }
            }),
            Term::Obj(entries) => self.field(0xb0, |e| {
                for (key, value) in entries {
                    e.field(0xbd, |e| {
                        e.term(key);
                        e.terms(value);
                    });
                }
            }),
        }
    }

    fn named(&mut self, tag: u8, name: &str, rest: impl FnOnce(&mut Self)) {
        self.field(tag, |e| {
            e.text(0x90, name);
            rest(e);
        });
    }

    fn part(&mut self, part: &Part<Term<&str>>, optional: Opt) {
        let end = |e: &mut Self| {
            if let Opt::Optional = optional {
                e.bytes(0xc0, &[]);
            }
        };
        match part {
            Part::Index(term) => self.field(0xbe, |e| {
                e.term(term);
                end(e);
            }),
            Part::Range(from, upto) => self.field(0xbf, |e| {
                for (tag, bound) in [(0xc1, from), (0xc2, upto)] {
                    if let Some(bound) = bound {
                        e.field(tag, |e| e.term(bound));
                    }
                }
                end(e);
            }),
        }
    }

    fn pattern(&mut self, pattern: &Pattern<&str>) {
        match pattern {
            Pattern::Var(name) => self.text(0x98, name),
            Pattern::Arr(patterns) => {
                self.field(0x99, |e| patterns.iter().for_each(|pattern| e.pattern(pattern)));
            }
            Pattern::Obj(entries) => self.field(0x9a, |e| {
                for (key, pattern) in entries {
                    e.field(0x9b, |e| {
                        e.term(key);
                        e.pattern(pattern);
                    });
                }
            }),
        }
    }

    fn operator(&mut self, operator: &BinaryOp<&str>) {
        let byte = match operator {
            BinaryOp::Pipe(pattern) => {
                return self.field(0xb7, |e| pattern.iter().for_each(|pattern| e.pattern(pattern)));
            }
            BinaryOp::Comma => 0x01,
            BinaryOp::Alt => 0x02,
            BinaryOp::Or => 0x03,
            BinaryOp::And => 0x04,
            BinaryOp::Assign => 0x05,
            BinaryOp::Update => 0x06,
            BinaryOp::UpdateAlt => 0x07,
            BinaryOp::Math(operator) => 0x10 + math(*operator),
            BinaryOp::Cmp(operator) => 0x20 + cmp(*operator),
            BinaryOp::UpdateMath(operator) => 0x30 + math(*operator),
        };
        self.bytes(0xb9, &[byte]);
    }
}
