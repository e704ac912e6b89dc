//! The words of an accepted call, as types.

use crate::{call::Told, code::Code, space::Output};

/// All that an accepted call gives.
#[derive(Debug, Clone, PartialEq, Eq)]
pub struct Listing {
    /// The functions met, by number.
    pub functions: Vec<FunctionCode>,
    /// Errors in the order they arose.
    pub errors: Vec<CodeError>,
    /// A number of markers that no run exceeds.
    pub forecast: u64,
}

/// One function's code and tables.
#[derive(Debug, Clone, PartialEq, Eq)]
pub struct FunctionCode {
    pub markers: Vec<Marker>,
    /// How many labels; they are numbered from 0.
    pub labels: u32,
    pub constants: Vec<Constant>,
    /// Symbols of the locals.
    pub locals: Vec<u32>,
    /// Symbols of the globals.
    pub globals: Vec<u32>,
    pub upvalues: Vec<Upvalue>,
    /// The most Loop, While and For records on one path of the function's own tree.
    pub loop_depth: u32,
}

/// An instruction, or a label's place.
#[derive(Debug, Clone, Copy, PartialEq, Eq)]
pub struct Marker {
    pub code: Code,
    /// 0 where the code has none.
    pub operand: u32,
}

/// A constant. A string, function or record is its number.
#[derive(Debug, Clone, Copy, PartialEq, Eq)]
pub enum Constant {
    Null,
    Bool(bool),
    Int(i64),
    /// The 64 bits of a binary64.
    Float(u64),
    Str(u32),
    Bytes(u32),
    Function(u32),
    /// The Effect or Handler record that first brought it.
    Effect(u32),
    Yield,
}

/// A captured symbol.
#[derive(Debug, Clone, Copy, PartialEq, Eq)]
pub struct Upvalue {
    pub symbol: u32,
    pub capture: Capture,
}

/// Where a capture is in the parent.
#[derive(Debug, Clone, Copy, PartialEq, Eq)]
pub enum Capture {
    Local(u32),
    Upvalue(u32),
}

/// An error in the script.
#[derive(Debug, Clone, Copy, PartialEq, Eq)]
pub struct CodeError {
    pub kind: ErrorKind,
    /// The record's range in the source.
    pub start: u32,
    pub end: u32,
}

#[derive(Debug, Clone, Copy, PartialEq, Eq)]
pub enum ErrorKind {
    BreakOutsideLoop,
    ContinueOutsideLoop,
    ReturnOutsideFunction,
}

/// Takes `count` entries of `N` words from the front.
fn take<'a, const N: usize>(words: &mut &'a [u32], count: u64) -> Option<&'a [[u32; N]]> {
    let length = usize::try_from(count).ok()?.checked_mul(N)?;
    let (front, rest) = words.split_at_checked(length)?;
    *words = rest;
    Some(front.as_chunks().0)
}

fn marker(&[code, operand]: &[u32; 2]) -> Option<Marker> {
    Some(Marker { code: Code::from_number(code)?, operand })
}

fn constant(&[kind, low, high]: &[u32; 3]) -> Option<Constant> {
    let wide = u64::from(high) << 32 | u64::from(low);
    Some(match kind {
        0 => Constant::Null,
        1 => Constant::Bool(low == 1),
        2 => Constant::Int(wide as i64),
        3 => Constant::Float(wide),
        4 => Constant::Str(low),
        5 => Constant::Bytes(low),
        6 => Constant::Function(low),
        7 => Constant::Effect(low),
        8 => Constant::Yield,
        _ => return None,
    })
}

fn upvalue(&[symbol, capture, index]: &[u32; 3]) -> Option<Upvalue> {
    let capture = match capture {
        1 => Capture::Local(index),
        2 => Capture::Upvalue(index),
        _ => return None,
    };
    Some(Upvalue { symbol, capture })
}

fn error(&[kind, start, end]: &[u32; 3]) -> Option<CodeError> {
    let kind = match kind {
        0 => ErrorKind::BreakOutsideLoop,
        1 => ErrorKind::ContinueOutsideLoop,
        2 => ErrorKind::ReturnOutsideFunction,
        _ => return None,
    };
    Some(CodeError { kind, start, end })
}

/// What of the outputs is not read yet.
struct Rest<'a> {
    markers: &'a [u32],
    constants: &'a [u32],
    names: &'a [u32],
}

impl Rest<'_> {
    fn function(&mut self, line: &[u32; 7]) -> Option<FunctionCode> {
        let [markers, labels, constants, locals, globals, upvalues, loop_depth] = *line;
        let symbols = |entries: &[[u32; 3]]| entries.iter().map(|entry| entry[0]).collect();
        Some(FunctionCode {
            markers: all(take(&mut self.markers, markers.into())?, marker)?,
            labels,
            constants: all(take(&mut self.constants, constants.into())?, constant)?,
            locals: symbols(take(&mut self.names, locals.into())?),
            globals: symbols(take(&mut self.names, globals.into())?),
            upvalues: all(take(&mut self.names, upvalues.into())?, upvalue)?,
            loop_depth,
        })
    }
}

/// Every entry read, or nothing.
fn all<const N: usize, T>(
    entries: &[[u32; N]],
    read: impl FnMut(&[u32; N]) -> Option<T>,
) -> Option<Vec<T>> {
    entries.iter().map(read).collect()
}

impl Listing {
    /// Reads what a call has written; nothing if the words are not those of a listing.
    pub fn read(out: &Output<'_>, told: Told) -> Option<Self> {
        let mut rest =
            Rest { markers: &*out.markers, constants: &*out.constants, names: &*out.names };
        let lines = take(&mut &*out.lines, told.lines)?;
        Some(Self {
            functions: all(lines, |line| rest.function(line))?,
            errors: all(take(&mut &*out.errors, told.errors)?, error)?,
            forecast: told.forecast,
        })
    }
}
