//! Tables in genlist's text on standard input, of any size up to the limits of document 01; the
//! listing or the refusal on standard output. Many texts with a line `====` between two of them.

#[path = "../tests/common/mod.rs"]
mod common;

use std::io::{Read, Write, stdin, stdout};

use lucia_codegen::gen_code;

fn main() -> std::io::Result<()> {
    let mut text = String::new();
    stdin().read_to_string(&mut text)?;
    let answers = common::split(&text).into_iter().map(|given| {
        let tables = common::read(&given);
        common::print(&tables, &gen_code(&tables))
    });
    let answers: Vec<String> = answers.collect();
    stdout().write_all(answers.join("====\n").as_bytes())
}
