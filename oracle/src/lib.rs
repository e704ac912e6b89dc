//! The Rust code generator, compiled as it stands, with what feeds it from flat tables and prints
//! genlist's listing. Other packages here take its tree and its answers from this library.

#![allow(dead_code, unused_imports, private_interfaces)]

#[path = "../gen/compiler/mod.rs"]
pub mod compiler;
#[path = "../gen/utils.rs"]
pub mod utils;

pub mod listing;
pub mod run;
pub mod tables;
pub mod text;
pub mod tree;

// The name that the one edit of codegen.rs calls.
pub(crate) use run::keep_stream;
