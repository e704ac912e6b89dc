//! From lucia-lang's own `Program` and `Semantic` to a call and back to lucia-lang's types, for
//! callers of its `gen_code`.
//!
//! A function's stream is given where lucia-lang makes its control-flow graph of it. A reference or
//! function number that is not set, which makes lucia-lang panic, is refused (10 or 9). The kind in
//! a `FunctionSemantic` is taken to be that of its `Function`.

mod answer;
mod expr;
mod flat;
mod opcode;

use std::hash::Hash;

use lucia_lang::compiler::{
    ast::{FunctionKind, Program},
    code::{CodeParams, ConstValue, UpvalueCapture},
    error::CompilerError,
    index::{FunctionId, LabelId, SymbolId},
    opcode::OpCode,
    semantic::Semantic,
};

pub use flat::Flat;

use crate::{
    call::{self, Answer},
    refused::Refused,
};

/// An instruction, or a label's place; lucia-lang's own `CodeMarker` is private to it.
#[derive(Debug, Clone, Copy, PartialEq, Eq)]
pub enum CodeMarker {
    OpCode(OpCode<LabelId>),
    Label(LabelId),
}

/// What lucia-lang's `FunctionIR` holds, with the stream in the graph's place.
#[derive(Debug, Clone, PartialEq, Eq)]
pub struct FunctionStream<S> {
    pub name: Option<S>,
    pub params: CodeParams<S>,
    pub kind: FunctionKind,
    pub code: Vec<CodeMarker>,
    pub label_count: usize,
    pub consts: Vec<ConstValue<S, FunctionId>>,
    pub local_names: Vec<(SymbolId, S)>,
    pub global_names: Vec<(SymbolId, S)>,
    pub upvalue_names: Vec<(SymbolId, (S, UpvalueCapture))>,
    pub loop_depth: u32,
}

/// The functions met, by number, and the errors in the order they arose.
pub type Generated<S> = (Vec<FunctionStream<S>>, Vec<CompilerError>);

/// In place of lucia-lang's `gen_code`; what it panics on is refused.
///
/// # Panics
///
/// If the system gives no thread, as [`crate::gen_code`].
pub fn gen_code<S: AsRef<[u8]> + Clone + Eq + Hash>(
    program: &Program<S>,
    semantic: &Semantic<S>,
) -> Result<Generated<S>, Refused> {
    let flat = Flat::new(program, semantic);
    match call::gen_code(&flat.tables) {
        Answer::Refused(refused) => Err(refused),
        Answer::Listing(listing) => {
            Ok(flat.answer(&listing).expect("the listing is of these tables"))
        }
    }
}
