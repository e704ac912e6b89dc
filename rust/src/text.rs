//! The listing as text, in the form of genlist.

use std::fmt::{self, Display, Write};

use crate::{
    listing::{Capture, Constant, FunctionCode, Listing},
    tables::{NONE, Tables},
};

/// A number, or `-` where there is none.
struct Field(Option<u64>);

impl Display for Field {
    fn fmt(&self, f: &mut fmt::Formatter<'_>) -> fmt::Result {
        match self.0 {
            Some(value) => write!(f, "{value}"),
            None => f.write_str("-"),
        }
    }
}

fn field(value: Option<u32>) -> Field {
    Field(value.map(u64::from))
}

fn kind_name(detail: u32) -> &'static str {
    ["Function", "Closure", "Do"].get(detail as usize).copied().unwrap_or("-")
}

/// Parameter strings with commas, `*` before the variadic.
fn params(tables: &Tables, record: u32) -> String {
    let idents: Vec<u32> = tables.children(record).collect();
    let variadic = tables.record(record).is_some_and(|r| r.detail == 1);
    let last = idents.len().wrapping_sub(1);
    let shown = idents.iter().enumerate().map(|(i, &ident)| {
        let star = if variadic && i == last { "*" } else { "" };
        format!("{star}{}", field(tables.record(ident).map(|r| r.q)))
    });
    let shown: Vec<String> = shown.collect();
    if shown.is_empty() { "-".into() } else { shown.join(",") }
}

fn constant(constant: Constant) -> (&'static str, String) {
    match constant {
        Constant::Null => ("Null", "-".into()),
        Constant::Bool(v) => ("Bool", u8::from(v).to_string()),
        Constant::Int(v) => ("Int", v.to_string()),
        Constant::Float(v) => ("Float", format!("{v:016x}")),
        Constant::Str(v) => ("Str", v.to_string()),
        Constant::Bytes(v) => ("Bytes", v.to_string()),
        Constant::Function(v) => ("Function", v.to_string()),
        Constant::Effect(v) => ("Effect", v.to_string()),
        Constant::Yield => ("Yield", "-".into()),
    }
}

fn head(out: &mut String, t: &Tables, i: usize, f: &FunctionCode) -> fmt::Result {
    let record = t.function_record(i as u32).unwrap_or(0);
    let words = t.record(record);
    let kind = words.map_or("-", |r| kind_name(r.detail));
    let name = field(words.map(|r| r.q).filter(|&q| q != NONE));
    let params = t.children(record).next().map_or("-".into(), |child| params(t, child));
    writeln!(out, "{i} head 0 {kind} {name} {params}")?;
    writeln!(out, "{i} head 1 Loops {} -", f.loop_depth)
}

fn function(out: &mut String, t: &Tables, i: usize, f: &FunctionCode) -> fmt::Result {
    head(out, t, i, f)?;
    for (place, m) in f.markers.iter().enumerate() {
        let operand = field(m.code.has_operand().then_some(m.operand));
        writeln!(out, "{i} code {place} {} {operand} -", m.code.name())?;
    }
    for (place, c) in f.constants.iter().enumerate() {
        let (word, value) = constant(*c);
        writeln!(out, "{i} const {place} {word} {value} -")?;
    }
    for (section, symbols) in [("local", &f.locals), ("global", &f.globals)] {
        for (place, &symbol) in symbols.iter().enumerate() {
            let name = field(t.symbol_name(symbol));
            writeln!(out, "{i} {section} {place} {name} - {symbol}")?;
        }
    }
    for (place, upvalue) in f.upvalues.iter().enumerate() {
        let (word, index) = match upvalue.capture {
            Capture::Local(index) => ("Local", index),
            Capture::Upvalue(index) => ("Upvalue", index),
        };
        writeln!(out, "{i} upvalue {place} {word} {index} {}", upvalue.symbol)?;
    }
    Ok(())
}

impl Listing {
    /// The listing in genlist's form; `tables` are those it was made from.
    pub fn text(&self, tables: &Tables) -> String {
        let mut out = String::from("function section place word value more\n");
        for (i, f) in self.functions.iter().enumerate() {
            // Writing to a String does not fail.
            let _ = function(&mut out, tables, i, f);
        }
        for (place, e) in self.errors.iter().enumerate() {
            let _ = writeln!(out, "- error {place} {:?} {} {}", e.kind, e.start, e.end);
        }
        out
    }
}
