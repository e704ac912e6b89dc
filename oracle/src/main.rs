//! The oracle: the Rust code generator, fed from flat tables, printing genlist's listing.
//!
//! Standard input: genlist's text, or many such texts with a line `====` between two of them.
//! Standard output: for each the listing, or `panic MESSAGE`; a line `====` between two of them.
//! With `--extra`, lines that begin with `#` follow: label counts, or where a panic arose.
//! The tables are taken to pass refusals 1 to 9 of document 01.

use std::{
    io::{Read, Write},
    panic::{AssertUnwindSafe, catch_unwind},
};

use oracle::run;

/// Trees are visited by recursion, so the work has a thread with a deep stack.
const STACK: usize = 256 << 20;

fn split(text: &str) -> Vec<String> {
    let mut cases = vec![String::new()];
    for line in text.lines() {
        if line == "====" {
            cases.push(String::new());
        } else {
            let case = cases.last_mut().unwrap();
            case.push_str(line);
            case.push('\n');
        }
    }
    cases
}

fn work(extra: bool) {
    let mut text = String::new();
    std::io::stdin().read_to_string(&mut text).unwrap();
    let mut out = std::io::BufWriter::new(std::io::stdout().lock());
    for (i, case) in split(&text).iter().enumerate() {
        if i != 0 {
            out.write_all(b"====\n").unwrap();
        }
        let answer = catch_unwind(AssertUnwindSafe(|| run::one_case(case, extra)));
        // A panic of the oracle's own is told apart from one of the generator.
        let answer = answer.unwrap_or_else(|_| {
            let (message, location) = run::last_panic();
            format!("oracle {message} at {location}\n")
        });
        out.write_all(answer.as_bytes()).unwrap();
    }
}

fn main() {
    let extra = std::env::args().any(|a| a == "--extra");
    run::keep_panics();
    let worker = std::thread::Builder::new().stack_size(STACK).spawn(move || work(extra));
    worker.unwrap().join().unwrap();
}
