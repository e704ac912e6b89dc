//! From records to the boxed tree and the semantic tables that `gen_code` takes.

use std::sync::OnceLock;

use text_size::TextRange;

use crate::{
    compiler::{
        ast::*,
        index::*,
        semantic::{FunctionSemantic, Reference, ReferenceKind, Semantic, Symbol, SymbolKind},
        value::ValueType,
    },
    tables::{NONE, Tables},
    text::Text,
    utils::Float,
};

pub struct Build<'a> {
    pub t: &'a Tables,
    /// The reference that an Ident or pattern Ident record gets.
    pub reference: Box<dyn Fn(usize) -> u32 + 'a>,
}

fn lock<T>(value: T) -> OnceLock<T> {
    let lock = OnceLock::new();
    let _ = lock.set(value);
    lock
}

fn bin_op(n: u32) -> BinOp {
    use BinOp::*;
    [Add, Sub, Mul, Div, Rem, And, Or, Eq, Ne, Lt, Le, Gt, Ge, Is][n as usize]
}

pub fn value_type(n: u32) -> ValueType {
    use ValueType::*;
    [Null, Bool, Int, Float, Str, Bytes, Table, Function, Effect, UserData][n as usize]
}

fn function_kind(n: u32) -> FunctionKind {
    [FunctionKind::Function, FunctionKind::Closure, FunctionKind::Do][n as usize]
}

impl Build<'_> {
    fn text<S: Text>(&self, string: u32, record: usize) -> S {
        S::make(&self.t.strings[string as usize], record as u32)
    }

    fn range(&self, r: usize) -> TextRange {
        TextRange::new(self.t.records[r].start, self.t.records[r].end)
    }

    fn lit<S: Text>(&self, r: usize) -> Lit<S> {
        let rec = &self.t.records[r];
        assert!(matches!(rec.kind, 1 | 35), "Lit");
        let wide = u64::from(rec.q) << 32 | u64::from(rec.p);
        let kind = match rec.detail {
            0 => LitKind::Null,
            1 => LitKind::Bool(rec.p == 1),
            2 => LitKind::Int(wide as i64),
            3 => LitKind::Float(Float(f64::from_bits(wide))),
            4 => LitKind::Str(self.text(rec.p, r)),
            5 => LitKind::Bytes(self.t.strings[rec.p as usize].clone()),
            _ => panic!("Lit's detail"),
        };
        Lit { kind, range: self.range(r) }
    }

    fn ident<S: Text>(&self, r: usize) -> Ident<S> {
        let rec = &self.t.records[r];
        assert!(matches!(rec.kind, 2 | 36), "Ident");
        let reference = (self.reference)(r);
        Ident {
            name: self.text(rec.q, r),
            range: self.range(r),
            reference_id: if reference == NONE {
                OnceLock::new()
            } else {
                lock(ReferenceId::from_raw(reference))
            },
        }
    }

    fn typed<S: Text>(&self, r: usize) -> TypedIdent<S> {
        TypedIdent { ident: Box::new(self.ident(r)), ty: None, range: self.range(r) }
    }

    fn block<S: Text>(&self, r: usize) -> Block<S> {
        assert_eq!(self.t.records[r].kind, 4, "Block");
        Block {
            body: self.t.children(r).into_iter().map(|c| self.expr(c)).collect(),
            range: self.range(r),
            scope_id: OnceLock::new(),
        }
    }

    fn params<S: Text>(&self, r: usize) -> Params<S> {
        let rec = &self.t.records[r];
        assert_eq!(rec.kind, 31, "Params");
        let mut children = self.t.children(r);
        let variadic = (rec.detail == 1).then(|| children.pop().expect("variadic"));
        Params {
            params: children.into_iter().map(|c| self.typed(c)).collect(),
            variadic: variadic.map(|c| Box::new(self.typed(c))),
        }
    }

    pub fn function<S: Text>(&self, r: usize) -> Function<S> {
        let rec = &self.t.records[r];
        assert_eq!(rec.kind, 30, "Function");
        let c = self.t.children(r);
        Function {
            name: (rec.q != NONE).then(|| self.text(rec.q, r)),
            kind: function_kind(rec.detail),
            params: Box::new(self.params(c[0])),
            returns: None,
            body: Box::new(self.block(c[1])),
            range: self.range(r),
            function_id: lock(FunctionId::from_raw(rec.p)),
        }
    }

    fn member<S: Text>(&self, kind: u32, property: Option<&usize>) -> MemberKind<S> {
        let get = || *property.expect("property");
        match kind {
            0 => MemberKind::Bracket(Box::new(self.expr(get()))),
            1 => MemberKind::Dot(Box::new(self.ident(get()))),
            2 => MemberKind::DoubleColon(Box::new(self.ident(get()))),
            3 => MemberKind::BracketMeta,
            4 => MemberKind::DotMeta,
            5 => MemberKind::DoubleColonMeta,
            _ => panic!("MemberKind"),
        }
    }

    fn left<S: Text>(&self, r: usize) -> AssignLeft<S> {
        let rec = &self.t.records[r];
        assert_eq!(rec.kind, 34, "Left");
        let c = self.t.children(r);
        let kind = if rec.detail == 0 {
            AssignLeftKind::Ident(Box::new(self.typed(c[0])))
        } else {
            AssignLeftKind::Member {
                ident: Box::new(self.ident(c[0])),
                property: self.member(rec.detail - 1, c.get(1)),
            }
        };
        AssignLeft { kind, range: self.range(r) }
    }

    fn pattern<S: Text>(&self, r: usize) -> Pattern<S> {
        let rec = &self.t.records[r];
        let c = self.t.children(r);
        let others = (rec.detail == 1).then(|| self.range(r));
        let kind = match rec.kind {
            35 => PatternKind::Lit(Box::new(self.lit(r))),
            36 => PatternKind::Ident(Box::new(self.ident(r))),
            37 => PatternKind::Table {
                pairs: c
                    .chunks(2)
                    .map(|pair| TablePatternPair {
                        key: self.lit(pair[0]),
                        value: self.pattern(pair[1]),
                        range: self.range(r),
                    })
                    .collect(),
                others,
            },
            38 => PatternKind::List {
                items: c.into_iter().map(|c| self.pattern(c)).collect(),
                others,
            },
            _ => panic!("pattern"),
        };
        Pattern { kind, range: self.range(r) }
    }

    fn case<S: Text>(&self, r: usize) -> MatchCase<S> {
        let rec = &self.t.records[r];
        assert_eq!(rec.kind, 33, "Case");
        let c = self.t.children(r);
        let p = rec.p as usize;
        MatchCase {
            patterns: c[..p].iter().map(|&c| self.pattern(c)).collect(),
            body: Box::new(self.expr(c[p])),
            range: self.range(r),
            scope_id: OnceLock::new(),
        }
    }

    fn handler<S: Text>(&self, r: usize) -> EffectHandler<S> {
        let c = self.t.children(r);
        let mut effect: Ident<S> = self.ident(c[0]);
        // The name carries the Handler's record, as document 01 wants it shown.
        effect.name = self.text(self.t.records[c[0]].q, r);
        EffectHandler {
            effect,
            params: Box::new(self.params(c[1])),
            body: Box::new(self.block(c[2])),
            range: self.range(r),
        }
    }

    fn expr<S: Text>(&self, r: usize) -> Expr<S> {
        let rec = &self.t.records[r];
        let c = self.t.children(r);
        let p = rec.p as usize;
        let bx = |c: usize| Box::new(self.expr(c));
        let kind = match rec.kind {
            1 => ExprKind::Lit(Box::new(self.lit(r))),
            2 => ExprKind::Ident(Box::new(self.ident(r))),
            3 => ExprKind::Paren(bx(c[0])),
            4 => ExprKind::Block(Box::new(self.block(r))),
            5 => ExprKind::Fn {
                glo: None,
                name: (rec.detail == 1).then(|| Box::new(self.ident(c[0]))),
                function: Box::new(self.function(*c.last().unwrap())),
            },
            6 => ExprKind::Effect {
                glo: None,
                name: Box::new(self.ident(c[0])),
                effect: Box::new(Effect {
                    name: self.text(rec.p, r),
                    params: Box::new(self.params(c[1])),
                    range: self.range(r),
                }),
            },
            7 => ExprKind::Table {
                properties: c
                    .chunks(2)
                    .map(|pair| TableProperty {
                        key: self.expr(pair[0]),
                        value: self.expr(pair[1]),
                        range: self.range(r),
                    })
                    .collect(),
            },
            8 => ExprKind::List { items: c.into_iter().map(|c| self.expr(c)).collect() },
            9 => ExprKind::Unary {
                operator: [UnOp::Not, UnOp::Neg][rec.detail as usize],
                argument: bx(c[0]),
            },
            10 => {
                ExprKind::Binary { operator: bin_op(rec.detail), left: bx(c[0]), right: bx(c[1]) }
            }
            11 => ExprKind::TypeCheck { left: bx(c[0]), right: value_type(rec.detail) },
            12 => ExprKind::Member {
                table: bx(c[0]),
                property: self.member(rec.detail % 8, c.get(1)),
                safe: (rec.detail >= 8).then(|| self.range(r)),
            },
            13 => {
                let of = |kinds: std::ops::RangeInclusive<u32>| {
                    let t = self.t;
                    c[1..].iter().copied().filter(move |&c| kinds.contains(&t.records[c].kind))
                };
                ExprKind::Call {
                    callee: bx(c[0]),
                    arguments: of(1..=27).map(|c| self.expr(c)).collect(),
                    trailing_lambda: of(30..=30).next().map(|c| Box::new(self.function(c))),
                    handlers: of(32..=32).map(|c| self.handler(c)).collect(),
                }
            }
            14 => ExprKind::If {
                test: bx(c[0]),
                consequent: Box::new(self.block(c[1])),
                alternate: (rec.detail == 1).then(|| bx(c[2])),
            },
            15 => ExprKind::Match {
                expr: bx(c[0]),
                cases: c[1..].iter().map(|&c| self.case(c)).collect(),
            },
            16 => ExprKind::Loop { body: Box::new(self.block(c[0])) },
            17 => ExprKind::While { test: bx(c[0]), body: Box::new(self.block(c[1])) },
            18 => ExprKind::For {
                left: c[..p].iter().map(|&c| self.ident(c)).collect(),
                right: bx(c[p]),
                body: Box::new(self.block(c[p + 1])),
            },
            19 => ExprKind::Break,
            20 => ExprKind::Continue,
            21 => ExprKind::Return { argument: bx(c[0]) },
            22 => ExprKind::Import {
                path: c[..p].iter().map(|&c| self.ident(c)).collect(),
                path_str: self.text(rec.q, r),
                kind: match rec.detail {
                    0 => ImportKind::Simple(None),
                    1 => ImportKind::Simple(Some(Box::new(self.ident(c[p])))),
                    2 => ImportKind::Nested(
                        c[p..]
                            .iter()
                            .map(|&item| {
                                let c = self.t.children(item);
                                ImportItem {
                                    name: self.ident(c[0]),
                                    alias: c.get(1).map(|&c| self.ident(c)),
                                    range: self.range(item),
                                }
                            })
                            .collect(),
                    ),
                    3 => ImportKind::Glob,
                    _ => panic!("ImportKind"),
                },
            },
            23 => ExprKind::GloAssign { left: Box::new(self.typed(c[0])), right: bx(c[1]) },
            24 => ExprKind::Assign { left: self.left(c[0]), right: bx(c[1]) },
            25 => ExprKind::AssignOp {
                operator: bin_op(rec.detail),
                left: self.left(c[0]),
                right: bx(c[1]),
            },
            26 => ExprKind::AssignUnpack {
                left: c[..p].iter().map(|&c| self.left(c)).collect(),
                right: bx(c[p]),
            },
            27 => ExprKind::AssignMulti {
                left: c[..p].iter().map(|&c| self.left(c)).collect(),
                right: c[p..].iter().map(|&c| self.expr(c)).collect(),
            },
            _ => panic!("expr kind {}", rec.kind),
        };
        Expr { kind, range: self.range(r) }
    }

    pub fn semantic<S: Text>(&self, references: &[u32]) -> Semantic<S> {
        let t = self.t;
        let mut out = Semantic::new();
        let mut member = 0;
        for (i, &[parent, count]) in t.functions.iter().enumerate() {
            let record = t.records.iter().find(|r| r.kind == 30 && r.p as usize == i);
            let mut f = FunctionSemantic::new(
                function_kind(record.expect("its record").detail),
                (parent != NONE).then(|| FunctionId::from_raw(parent)),
            );
            for _ in 0..count {
                f.symbols.insert(SymbolId::from_raw(t.members[member]));
                member += 1;
            }
            out.functions.push(f);
        }
        for &[kind, name] in &t.symbols {
            out.symbols.push(Symbol {
                name: self.text(name, 0),
                range: TextRange::default(),
                scope_id: ScopeId::new(0),
                kind: [SymbolKind::Local, SymbolKind::Global][kind as usize],
                references: Vec::new(),
            });
        }
        for &symbol in references {
            out.references.push(Reference {
                range: TextRange::default(),
                symbol_id: SymbolId::from_raw(symbol),
                kind: ReferenceKind::Read,
            });
        }
        out
    }
}
