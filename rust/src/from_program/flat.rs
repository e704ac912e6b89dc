//! The tree and the symbol tables as flat words.

use std::{collections::HashMap, hash::Hash};

use lucia_lang::compiler::{
    ast::{Block, Function, FunctionKind, Ident, Lit, LitKind, Params, Program},
    semantic::{Semantic, SymbolKind},
};
use text_size::TextRange;

use crate::tables::{NONE, Tables};

/// Exprs and patterns below this level are written as Null: past 128 levels all is refused.
const CUT: usize = 130;

/// A program's tables, and the names behind their strings. Records stand in preorder.
#[derive(Debug)]
pub struct Flat<'a, S> {
    pub tables: Tables,
    strings: HashMap<&'a [u8], u32>,
    names: Vec<Option<&'a S>>,
    /// Records whose children are being written, each with its last child or 0.
    open: Vec<(usize, usize)>,
}

/// A record's first four words.
pub(super) type Head = [u32; 4];

/// The real text-size has a type of its own for a place in the source.
#[allow(clippy::useless_conversion)]
fn ends(range: TextRange) -> [u32; 2] {
    [range.start().into(), range.end().into()]
}

pub(super) fn count<T>(items: &[T]) -> u32 {
    // More than the limit of table 7 is refused in any case.
    u32::try_from(items.len()).unwrap_or(NONE)
}

fn split(wide: u64) -> [u32; 2] {
    [wide as u32, (wide >> 32) as u32]
}

impl<'a, S: AsRef<[u8]> + Eq + Hash> Flat<'a, S> {
    /// The tables of a program. Any tree is taken; one that is too large or too deep is refused
    /// by the call.
    pub fn new(program: &'a Program<S>, semantic: &'a Semantic<S>) -> Self {
        let mut flat = Self {
            tables: Tables::default(),
            strings: HashMap::new(),
            names: Vec::new(),
            open: Vec::new(),
        };
        flat.semantic(semantic);
        flat.function(&program.function);
        flat
    }

    /// The name behind a string, if it is one of the program's names.
    pub fn name(&self, string: u32) -> Option<&'a S> {
        self.names.get(string as usize).copied().flatten()
    }

    fn semantic(&mut self, semantic: &'a Semantic<S>) {
        for symbol in semantic.symbols.iter() {
            let kind = match symbol.kind {
                SymbolKind::Local => 0,
                SymbolKind::Global => 1,
            };
            let name = self.text(&symbol.name);
            self.tables.symbols.extend([kind, name]);
        }
        let references = semantic.references.iter().map(|r| r.symbol_id.raw());
        self.tables.references.extend(references);
        for function in semantic.functions.iter() {
            let parent = function.parent_id.map_or(NONE, |parent| parent.raw());
            let before = self.tables.members.len();
            self.tables.members.extend(function.symbols.iter().map(|symbol| symbol.raw()));
            let share = count(&self.tables.members[before..]);
            self.tables.functions.extend([parent, share]);
        }
    }

    /// A string's number; equal ones are one.
    pub(super) fn string(&mut self, bytes: &'a [u8]) -> u32 {
        if let Some(&number) = self.strings.get(bytes) {
            return number;
        }
        let number = self.tables.push_string(bytes);
        self.strings.insert(bytes, number);
        self.names.push(None);
        number
    }

    pub(super) fn text(&mut self, name: &'a S) -> u32 {
        let number = self.string(name.as_ref());
        self.names[number as usize].get_or_insert(name);
        number
    }

    /// A record, and below it what `children` writes.
    pub(super) fn node(
        &mut self,
        [kind, detail, p, q]: Head,
        range: TextRange,
        children: impl FnOnce(&mut Self),
    ) {
        let [start, end] = ends(range);
        let number = self.tables.records.len() / 8;
        if let Some((parent, last)) = self.open.last_mut() {
            let at = if *last == 0 { 8 * *parent + 6 } else { 8 * *last + 7 };
            self.tables.records[at] = number as u32;
            *last = number;
        }
        self.tables.push_record([kind, detail, p, q, start, end, 0, 0]);
        self.open.push((number, 0));
        children(self);
        self.open.pop();
    }

    /// Whether the next record is so deep that what it holds does not matter.
    pub(super) fn too_deep(&self) -> bool {
        self.open.len() >= CUT
    }

    pub(super) fn leaf(&mut self, head: Head, range: TextRange) {
        self.node(head, range, |_| ());
    }

    /// A Lit, as an expression or a key (kind 1) or as a pattern (35).
    pub(super) fn lit(&mut self, kind: u32, lit: &'a Lit<S>) {
        let (detail, [p, q]) = match &lit.kind {
            LitKind::Null => (0, [0, 0]),
            LitKind::Bool(v) => (1, [u32::from(*v), 0]),
            LitKind::Int(v) => (2, split(*v as u64)),
            LitKind::Float(v) => (3, split(v.0.to_bits())),
            LitKind::Str(v) => (4, [self.text(v), 0]),
            LitKind::Bytes(v) => (5, [self.string(v), 0]),
        };
        self.leaf([kind, detail, p, q], lit.range);
    }

    /// An Ident, as an expression (kind 2) or as a pattern (36).
    pub(super) fn ident(&mut self, kind: u32, ident: &'a Ident<S>) {
        let reference = ident.reference_id.get().map_or(NONE, |id| id.raw());
        let name = self.text(&ident.name);
        self.leaf([kind, 0, reference, name], ident.range);
    }

    pub(super) fn idents(&mut self, idents: impl IntoIterator<Item = &'a Ident<S>>) {
        for ident in idents {
            self.ident(2, ident);
        }
    }

    pub(super) fn params(&mut self, params: &'a Params<S>) {
        let variadic = u32::from(params.variadic.is_some());
        self.node([31, variadic, 0, 0], TextRange::default(), |f| {
            for param in params.params.iter().chain(params.variadic.as_deref()) {
                f.ident(2, &param.ident);
            }
        });
    }

    pub(super) fn block(&mut self, block: &'a Block<S>) {
        self.node([4, 0, 0, 0], block.range, |f| f.exprs(&block.body));
    }

    pub(super) fn function(&mut self, function: &'a Function<S>) {
        let kind = match function.kind {
            FunctionKind::Function => 0,
            FunctionKind::Closure => 1,
            FunctionKind::Do => 2,
        };
        let number = function.function_id.get().map_or(NONE, |id| id.raw());
        let name = function.name.as_ref().map_or(NONE, |name| self.text(name));
        self.node([30, kind, number, name], function.range, |f| {
            f.params(&function.params);
            f.block(&function.body);
        });
    }
}
