//! genlist's listing, printed from what the Rust returned and the streams kept aside.

use std::{collections::BTreeMap, fmt::Write as _};

use crate::{
    compiler::{
        code::{CodeParams, ConstValue, EffectConst, UpvalueCapture},
        codegen::CodeMarker,
        error::CompilerError,
        index::FunctionId,
        ir::FunctionIR,
        value::BuiltinEffect,
    },
    tables::Tables,
    text::Text,
    tree::value_type,
};

/// A stream and its label count, by function.
pub type Streams = BTreeMap<usize, (Vec<CodeMarker>, usize)>;

/// A string shows as its number.
fn number(t: &Tables, bytes: &[u8]) -> String {
    t.strings.iter().position(|x| x == bytes).expect("a string").to_string()
}

fn params<S: Text>(t: &Tables, params: &CodeParams<S>) -> String {
    let mut out: Vec<String> = params.params.iter().map(|s| number(t, s.bytes())).collect();
    out.extend(params.variadic.iter().map(|s| format!("*{}", number(t, s.bytes()))));
    if out.is_empty() { "-".into() } else { out.join(",") }
}

/// The derived Debug gives the enum's own names: `Pop`, `Call(2)`, `TypeCheck(Table)`.
fn marker(marker: &CodeMarker) -> (String, String) {
    let text = match marker {
        CodeMarker::OpCode(op) => format!("{op:?}"),
        CodeMarker::Label(l) => format!("Label({l:?})"),
    };
    let Some((word, rest)) = text.split_once('(') else {
        return (text, "-".into());
    };
    let rest = rest.trim_end_matches(')');
    let is_type = |n: &u32| format!("{:?}", value_type(*n)) == rest;
    let value = rest.parse().unwrap_or_else(|_| (0..10).find(is_type).expect("a type"));
    (word.into(), value.to_string())
}

fn constant<S: Text>(t: &Tables, c: &ConstValue<S, FunctionId>) -> (&'static str, String) {
    match c {
        ConstValue::Null => ("Null", "-".into()),
        ConstValue::Bool(v) => ("Bool", u8::from(*v).to_string()),
        ConstValue::Int(v) => ("Int", v.to_string()),
        ConstValue::Float(v) => ("Float", format!("{:016x}", v.0.to_bits())),
        ConstValue::Str(v) => ("Str", number(t, v.bytes())),
        ConstValue::Bytes(v) => ("Bytes", number(t, v)),
        ConstValue::Function(v) => ("Function", v.index().to_string()),
        ConstValue::Effect(EffectConst::User(v)) => {
            ("Effect", v.name.record().map_or("?".into(), |r| r.to_string()))
        }
        ConstValue::Effect(EffectConst::Builtin(BuiltinEffect::Yield)) => ("Yield", "-".into()),
        ConstValue::Effect(EffectConst::Builtin(_)) => panic!("a builtin effect"),
    }
}

fn function<S: Text>(
    out: &mut String,
    t: &Tables,
    i: usize,
    f: &FunctionIR<S>,
    code: &[CodeMarker],
) -> std::fmt::Result {
    let record = t.records.iter().position(|r| r.kind == 30 && r.p as usize == i).unwrap();
    let name = f.name.as_ref().map_or("-".into(), |s| number(t, s.bytes()));
    writeln!(out, "{i} head 0 {:?} {name} {}", f.kind, params(t, &f.params))?;
    writeln!(out, "{i} head 1 Loops {} -", t.loop_depth(record))?;
    for (place, m) in code.iter().enumerate() {
        let (word, value) = marker(m);
        writeln!(out, "{i} code {place} {word} {value} -")?;
    }
    for (place, c) in f.consts.iter().enumerate() {
        let (word, value) = constant(t, c);
        writeln!(out, "{i} const {place} {word} {value} -")?;
    }
    for (place, (symbol, name)) in f.local_names.iter().enumerate() {
        writeln!(out, "{i} local {place} {} - {symbol}", number(t, name.bytes()))?;
    }
    for (place, (symbol, name)) in f.global_names.iter().enumerate() {
        writeln!(out, "{i} global {place} {} - {symbol}", number(t, name.bytes()))?;
    }
    for (place, (symbol, (_, capture))) in f.upvalue_names.iter().enumerate() {
        let (word, index) = match capture {
            UpvalueCapture::Local(i) => ("Local", i.index()),
            UpvalueCapture::Upvalue(i) => ("Upvalue", i.index()),
        };
        writeln!(out, "{i} upvalue {place} {word} {index} {symbol}")?;
    }
    Ok(())
}

/// The whole listing of an accepted tree.
pub fn listing<'a, S: Text + 'a>(
    t: &Tables,
    functions: impl Iterator<Item = &'a FunctionIR<S>>,
    streams: &Streams,
    errors: &[CompilerError],
) -> String {
    let mut out = String::from("function section place word value more\n");
    for (i, f) in functions.enumerate() {
        function(&mut out, t, i, f, &streams[&i].0).unwrap();
    }
    for (place, e) in errors.iter().enumerate() {
        let (word, range) = match e {
            CompilerError::BreakOutsideLoop { range } => ("BreakOutsideLoop", range),
            CompilerError::ContinueOutsideLoop { range } => ("ContinueOutsideLoop", range),
            CompilerError::ReturnOutsideFunction { range } => ("ReturnOutsideFunction", range),
            _ => panic!("a parse error"),
        };
        writeln!(out, "- error {place} {word} {} {}", range.start(), range.end()).unwrap();
    }
    out
}

/// The listing with every effect's record number hidden.
pub fn without_effect_records(listing: &str) -> String {
    let hide = |line: &str| match line.split_once(" Effect ") {
        Some((before, _)) if before.contains(" const ") => format!("{before} Effect ? -\n"),
        _ => format!("{line}\n"),
    };
    listing.lines().map(hide).collect()
}
