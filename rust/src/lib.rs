//! A safe call of the proved code generator for Lucia.
//!
//! [`gen_code`] takes [`Tables`], the words of a script's tree and symbol tables, and gives an
//! [`Answer`]: a [`Listing`], the code of each function, or [`Refused`], a number and a place. The
//! words are those of the repository's `docs/FORMAT.md`, the numbers those of `docs/REFUSALS.md`.
//!
//! What is proved is proved of `lucia_gen_code` in the static library. This package is plain Rust
//! around it: it lends the words, and reads them back into types.

mod call;
mod code;
#[cfg(feature = "program")]
pub mod from_program;
mod listing;
mod refused;
mod space;
mod tables;
mod text;

pub use call::{Answer, Told, call_on_this_thread, gen_code, gen_code_into};
pub use code::Code;
pub use listing::{
    Capture, CodeError, Constant, ErrorKind, FunctionCode, Listing, Marker, Upvalue,
};
pub use refused::Refused;
pub use space::{Output, Space};
pub use tables::{NONE, Record, Tables};

// The example of the README is tried with the tests.
#[cfg(doctest)]
#[doc = include_str!("../README.md")]
struct Readme;
