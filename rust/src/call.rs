//! The call itself.

use std::thread;

use crate::{
    listing::Listing,
    refused::Refused,
    space::{Output, Space},
    tables::Tables,
};

/// The stack of the thread that a call is made on. The deepest trees take about 2.5 MB.
const STACK: usize = 8 << 20;

/// What a call answers.
#[derive(Debug, Clone, PartialEq, Eq)]
pub enum Answer {
    /// The code of each function met. With errors it is still written; what an error cut off is
    /// missing from it.
    Listing(Listing),
    /// A number and a place.
    Refused(Refused),
}

/// What an accepted call tells beside the words.
#[derive(Debug, Clone, Copy, PartialEq, Eq)]
pub struct Told {
    /// How many lines, one for each function met.
    pub lines: u64,
    pub errors: u64,
    /// A number of markers that no run exceeds.
    pub forecast: u64,
}

unsafe extern "C" {
    // include/lucia_codegen.h: each table and output a pointer and its length in elements.
    fn lucia_gen_code(
        strings: *const u32,
        strings_len: usize,
        bytes: *const u8,
        bytes_len: usize,
        symbols: *const u32,
        symbols_len: usize,
        references: *const u32,
        references_len: usize,
        functions: *const u32,
        functions_len: usize,
        members: *const u32,
        members_len: usize,
        records: *const u32,
        records_len: usize,
        markers: *mut u32,
        markers_len: usize,
        constants: *mut u32,
        constants_len: usize,
        names: *mut u32,
        names_len: usize,
        errors: *mut u32,
        errors_len: usize,
        lines: *mut u32,
        lines_len: usize,
        told: *mut u64,
        told_len: usize,
    ) -> u32;
}

/// The bare call, on the thread it is made on: the words are left in `out`.
///
/// # Safety
///
/// At least 4 MB of this thread's stack must be free: the library does not check it.
#[rustfmt::skip]
pub unsafe fn call_on_this_thread(t: &Tables, out: &mut Output<'_>) -> Result<Told, Refused> {
    let mut told = [0; 3];
    // SAFETY: each pointer and length are those of one slice that lives through the call. The
    // outputs are distinct `&mut` and `told` is local, so none overlaps another slice. An empty
    // slice's pointer is not null and, its length being 0, never read. The library is proved to
    // stay inside the lengths for all words, and keeps no pointer. The stack is the caller's word.
    let number = unsafe {
        lucia_gen_code(
            t.strings.as_ptr(), t.strings.len(),
            t.bytes.as_ptr(), t.bytes.len(),
            t.symbols.as_ptr(), t.symbols.len(),
            t.references.as_ptr(), t.references.len(),
            t.functions.as_ptr(), t.functions.len(),
            t.members.as_ptr(), t.members.len(),
            t.records.as_ptr(), t.records.len(),
            out.markers.as_mut_ptr(), out.markers.len(),
            out.constants.as_mut_ptr(), out.constants.len(),
            out.names.as_mut_ptr(), out.names.len(),
            out.errors.as_mut_ptr(), out.errors.len(),
            out.lines.as_mut_ptr(), out.lines.len(),
            told.as_mut_ptr(), told.len(),
        )
    };
    let [first, errors, forecast] = told;
    match number {
        0 => Ok(Told { lines: first, errors, forecast }),
        number => Err(Refused { number, place: first }),
    }
}

/// Generates code into the caller's space. The words are left there; the answer has them as types.
///
/// The call is made on a thread of its own with 8 MB of stack, whatever the caller's has.
///
/// # Panics
///
/// If the system gives no thread. No words given make it panic.
pub fn gen_code_into(tables: &Tables, out: &mut Output<'_>) -> Answer {
    let called = thread::scope(|scope| {
        // SAFETY: the thread has 8 MB of stack, and this is its first call.
        let call = || unsafe { call_on_this_thread(tables, out) };
        let made = thread::Builder::new().stack_size(STACK).spawn_scoped(scope, call);
        made.expect("no thread for the call").join().expect("the call does not panic")
    });
    match called {
        Err(refused) => Answer::Refused(refused),
        Ok(told) => Answer::Listing(
            Listing::read(out, told).expect("libcodegen.a wrote other words than it promises"),
        ),
    }
}

/// Generates code, lending enough space itself. As [`gen_code_into`] otherwise.
///
/// # Panics
///
/// If the system gives no thread. No words given make it panic.
pub fn gen_code(tables: &Tables) -> Answer {
    gen_code_into(tables, &mut Space::enough_for(tables).lend())
}
