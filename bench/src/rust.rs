//! The Rust generator on the same trees.

use std::cell::RefCell;

use crate::{
    compiler::{
        ast::Program,
        codegen::{CodeMarker, gen_code},
        error::CompilerError,
        index::FunctionId,
        ir::FunctionIR,
        semantic::Semantic,
    },
    listing::{Streams, listing, without_effect_records},
    tables::{Record, Tables},
    tree::Build,
};

/// Strings are byte vectors, as document 01 has them for runs of the Rust.
type Name = Vec<u8>;

thread_local! {
    static STREAMS: RefCell<Vec<(usize, Vec<CodeMarker>, usize)>> = const { RefCell::new(vec![]) };
}

/// Called by codegen.rs in place of `ControlFlowGraph::from_bytecode`. The stream is moved out, not
/// copied: the generator has no more use for it.
pub fn keep_stream(function: usize, code: &mut Vec<CodeMarker>, labels: usize) {
    STREAMS.with_borrow_mut(|s| s.push((function, std::mem::take(code), labels)));
}

/// A tree and its symbol tables, ready for `gen_code`.
pub struct Tree {
    program: Program<Name>,
    semantic: Semantic<Name>,
}

/// What `gen_code` gives, and the streams.
pub struct Answer {
    functions: oxc_index::IndexVec<FunctionId, FunctionIR<Name>>,
    errors: Vec<CompilerError>,
    streams: Vec<(usize, Vec<CodeMarker>, usize)>,
}

/// The words as the oracle's rows.
pub fn rows(t: &lucia_codegen::Tables) -> Tables {
    let pairs = |words: &[u32]| words.chunks(2).map(|w| [w[0], w[1]]).collect();
    let strings = 0..t.strings.len() as u32 / 2;
    let record = |w: &[u32]| Record {
        kind: w[0],
        detail: w[1],
        p: w[2],
        q: w[3],
        start: w[4],
        end: w[5],
        first: w[6],
        next: w[7],
    };
    Tables {
        strings: strings.map(|n| t.string(n).expect("a string").to_vec()).collect(),
        symbols: pairs(&t.symbols),
        references: t.references.clone(),
        functions: pairs(&t.functions),
        members: t.members.clone(),
        records: t.records.chunks(8).map(record).collect(),
    }
}

pub fn tree(t: &Tables) -> Tree {
    let build = Build { t, reference: Box::new(|r| t.records[r].p) };
    Tree {
        program: Program { function: Box::new(build.function(0)) },
        semantic: build.semantic(&t.references),
    }
}

pub fn run(tree: &Tree) -> Answer {
    let (functions, errors) = gen_code(&tree.program, &tree.semantic);
    Answer { functions, errors, streams: STREAMS.take() }
}

/// The listing, with every effect's record hidden: the Rust does not know it.
pub fn text(t: &Tables, answer: Answer) -> String {
    let streams = answer.streams.into_iter();
    let streams: Streams = streams.map(|(i, code, labels)| (i, (code, labels))).collect();
    without_effect_records(&listing(t, answer.functions.iter(), &streams, &answer.errors))
}
