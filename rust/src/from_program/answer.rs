//! A listing in lucia-lang's own types.

use std::{hash::Hash, rc::Rc};

use lucia_lang::{
    compiler::{
        ast::FunctionKind,
        code::{CodeParams, ConstValue, EffectConst, UpvalueCapture, UserEffect},
        error::CompilerError,
        index::{FunctionId, LocalNameId, SymbolId, UpvalueNameId},
        value::BuiltinEffect,
    },
    utils::Float,
};
use text_size::TextRange;

use super::{FunctionStream, Generated, flat::Flat, opcode};
use crate::{
    listing::{Capture, CodeError, Constant, ErrorKind, FunctionCode, Listing},
    tables::NONE,
};

fn kind(detail: u32) -> Option<FunctionKind> {
    [FunctionKind::Function, FunctionKind::Closure, FunctionKind::Do].get(detail as usize).copied()
}

// The real text-size has a type of its own for a place in the source.
#[allow(clippy::useless_conversion)]
fn error(error: &CodeError) -> CompilerError {
    let range = TextRange::new(error.start.into(), error.end.into());
    match error.kind {
        ErrorKind::BreakOutsideLoop => CompilerError::BreakOutsideLoop { range },
        ErrorKind::ContinueOutsideLoop => CompilerError::ContinueOutsideLoop { range },
        ErrorKind::ReturnOutsideFunction => CompilerError::ReturnOutsideFunction { range },
    }
}

impl<S: AsRef<[u8]> + Clone + Eq + Hash> Flat<'_, S> {
    /// A listing of these tables; nothing if it is one of others.
    pub fn answer(&self, listing: &Listing) -> Option<Generated<S>> {
        let functions = listing.functions.iter().enumerate();
        let functions = functions.map(|(number, f)| self.function_stream(number as u32, f));
        Some((functions.collect::<Option<_>>()?, listing.errors.iter().map(error).collect()))
    }

    fn function_stream(&self, number: u32, f: &FunctionCode) -> Option<FunctionStream<S>> {
        let record = self.tables.function_record(number)?;
        let words = self.tables.record(record)?;
        Some(FunctionStream {
            name: if words.q == NONE { None } else { Some(self.owned(words.q)?) },
            params: self.code_params(self.tables.children(record).next()?)?,
            kind: kind(words.detail)?,
            code: f.markers.iter().map(|m| opcode::marker(*m)).collect::<Option<_>>()?,
            label_count: f.labels as usize,
            consts: f.constants.iter().map(|c| self.constant(*c)).collect::<Option<_>>()?,
            local_names: self.named(&f.locals)?,
            global_names: self.named(&f.globals)?,
            upvalue_names: self.captured(f)?,
            loop_depth: f.loop_depth,
        })
    }

    fn owned(&self, string: u32) -> Option<S> {
        self.name(string).cloned()
    }

    fn code_params(&self, record: u32) -> Option<CodeParams<S>> {
        let idents = self.tables.children(record);
        let names = idents.map(|ident| self.owned(self.tables.record(ident)?.q));
        let mut params: Vec<S> = names.collect::<Option<_>>()?;
        let variadic = if self.tables.record(record)?.detail == 1 { params.pop() } else { None };
        Some(CodeParams { params, variadic })
    }

    /// The effect of an Effect record, or of a Handler record.
    fn effect(&self, record: u32) -> Option<ConstValue<S, FunctionId>> {
        let words = self.tables.record(record)?;
        let mut children = self.tables.children(record);
        let ident = self.tables.record(children.next()?)?;
        let name = self.owned(if words.kind == 6 { words.p } else { ident.q })?;
        let params = self.code_params(children.next()?)?;
        Some(ConstValue::Effect(EffectConst::User(Rc::new(UserEffect { name, params }))))
    }

    fn constant(&self, constant: Constant) -> Option<ConstValue<S, FunctionId>> {
        Some(match constant {
            Constant::Null => ConstValue::Null,
            Constant::Bool(v) => ConstValue::Bool(v),
            Constant::Int(v) => ConstValue::Int(v),
            Constant::Float(v) => ConstValue::Float(Float(f64::from_bits(v))),
            Constant::Str(v) => ConstValue::Str(self.owned(v)?),
            Constant::Bytes(v) => ConstValue::Bytes(self.tables.string(v)?.to_vec()),
            Constant::Function(v) => ConstValue::Function(FunctionId::new(v as usize)),
            Constant::Effect(record) => self.effect(record)?,
            Constant::Yield => ConstValue::Effect(EffectConst::Builtin(BuiltinEffect::Yield)),
        })
    }

    fn symbol(&self, symbol: u32) -> Option<(SymbolId, S)> {
        let name = self.owned(self.tables.symbol_name(symbol)?)?;
        Some((SymbolId::new(symbol as usize), name))
    }

    fn named(&self, symbols: &[u32]) -> Option<Vec<(SymbolId, S)>> {
        symbols.iter().map(|&symbol| self.symbol(symbol)).collect()
    }

    fn captured(&self, f: &FunctionCode) -> Option<Vec<(SymbolId, (S, UpvalueCapture))>> {
        let one = |upvalue: &crate::Upvalue| {
            let (symbol, name) = self.symbol(upvalue.symbol)?;
            let capture = match upvalue.capture {
                Capture::Local(i) => UpvalueCapture::Local(LocalNameId::new(i as usize)),
                Capture::Upvalue(i) => UpvalueCapture::Upvalue(UpvalueNameId::new(i as usize)),
            };
            Some((symbol, (name, capture)))
        };
        f.upvalues.iter().map(one).collect()
    }
}
