//! Times `lucia_gen_code` beside the Rust's `gen_code` on the same trees.
//!
//! usage: bench                                            a table of times
//!        bench --count ours|rust|build SHAPE SIZE [TIMES]   runs inside `counted`, for a profiler
//!        bench --stack                                    the stack of a call on deep trees

#![allow(dead_code, unused_imports)]

#[path = "../../oracle/gen/compiler/mod.rs"]
mod compiler;
#[path = "../../oracle/gen/utils.rs"]
mod utils;

#[path = "../../oracle/src/listing.rs"]
mod listing;
#[path = "../../oracle/src/tables.rs"]
mod tables;
#[path = "../../oracle/src/text.rs"]
mod text;
#[path = "../../oracle/src/tree.rs"]
mod tree;

mod node;
mod rust;
mod shapes;
mod stack;

use std::{
    hint::black_box,
    path::Path,
    process::Command,
    time::{Duration, Instant},
};

use lucia_codegen::{Listing, Output, Space, Tables, Told, call_on_this_thread};
// The name that the one edit of codegen.rs calls.
pub(crate) use rust::keep_stream;

/// Both generators visit by recursion.
const STACK: usize = 256 << 20;
/// How long each measurement is repeated, and how often at least.
const SPAN: Duration = Duration::from_millis(300);
const REPEATS: u32 = 20;

/// A tree in each form.
struct Case {
    tables: Tables,
    rows: tables::Tables,
    tree: rust::Tree,
    space: Space,
}

/// A seeded tree of the oracle's cases.
fn mix(records: usize) -> Tables {
    let script = Path::new(env!("CARGO_MANIFEST_DIR")).join("mix.py");
    let made = Command::new("python3").arg(script).arg(records.to_string()).output();
    let made = made.expect("python3 runs");
    assert!(made.status.success(), "mix.py failed");
    let rows = tables::read_tables(std::str::from_utf8(&made.stdout).expect("a text"));
    let mut t = Tables::default();
    for string in &rows.strings {
        t.push_string(string);
    }
    t.symbols = rows.symbols.concat();
    t.references = rows.references;
    t.functions = rows.functions.concat();
    t.members = rows.members;
    for r in &rows.records {
        t.push_record([r.kind, r.detail, r.p, r.q, r.start, r.end, r.first, r.next]);
    }
    t
}

impl Case {
    fn new(shape: &str, records: usize) -> Self {
        let tables = shapes::shape(shape, records).unwrap_or_else(|| mix(records));
        let rows = rust::rows(&tables);
        let (tree, space) = (rust::tree(&rows), Space::enough_for(&tables));
        Self { tables, rows, tree, space }
    }

    fn ours(&mut self) -> Told {
        // SAFETY: `main` gives this thread 256 MB of stack.
        let called = unsafe { call_on_this_thread(&self.tables, &mut self.space.lend()) };
        called.expect("a listing")
    }

    /// Both listings must be the same, but for the records of effects.
    fn check(&mut self) {
        let told = self.ours();
        let ours = Listing::read(&self.space.lend(), told).expect("a listing");
        let ours = listing::without_effect_records(&ours.text(&self.tables));
        assert!(ours == rust::text(&self.rows, rust::run(&self.tree)), "the listings differ");
    }
}

/// The shortest of many runs, in microseconds, without what reading the clock takes. What a run
/// gives is dropped outside its time.
fn best<T>(mut run: impl FnMut() -> T) -> f64 {
    let begun = Instant::now();
    let mut shortest = [Duration::MAX; 2];
    let mut repeats = 0;
    while repeats < REPEATS || begun.elapsed() < SPAN {
        let start = Instant::now();
        let given = black_box(run());
        let end = Instant::now();
        let empty = end.elapsed();
        shortest = [shortest[0].min(end - start), shortest[1].min(empty)];
        drop(given);
        repeats += 1;
    }
    shortest[0].saturating_sub(shortest[1]).as_nanos() as f64 / 1000.0
}

fn time(shape: &str, size: usize) {
    let mut case = Case::new(shape, size);
    case.check();
    let ours = best(|| case.ours());
    let rust = best(|| rust::run(&case.tree));
    let built = best(|| {
        let tree = rust::tree(&case.rows);
        (rust::run(&tree), tree)
    });
    let records = case.rows.records.len();
    println!(
        "| {shape} | {records} | {ours:.1} | {rust:.1} | {built:.1} | {:.2} | {:.2} |",
        ours / rust,
        ours / built
    );
}

/// The function whose instructions callgrind counts.
#[inline(never)]
fn counted(work: &mut dyn FnMut()) {
    work();
}

fn count(what: &str, case: &mut Case, times: u32) {
    case.check();
    for _ in 0..times {
        // What a run gives is dropped outside `counted`.
        let (mut answer, mut tree) = (None, None);
        match what {
            "ours" => counted(&mut || {
                black_box(case.ours());
            }),
            "rust" => counted(&mut || answer = Some(rust::run(&case.tree))),
            _ => counted(&mut || {
                let made = tree.insert(rust::tree(&case.rows));
                answer = Some(rust::run(made));
            }),
        }
        black_box((answer, tree));
    }
}

fn work() {
    let args: Vec<String> = std::env::args().skip(1).collect();
    match args.iter().map(String::as_str).collect::<Vec<_>>()[..] {
        [] => {
            println!(
                "| shape | records | ours | Rust | Rust, tree built | ours / Rust | ours / built |"
            );
            println!("|---|---|---|---|---|---|---|");
            for shape in shapes::SHAPES {
                shapes::SIZES.iter().for_each(|&size| time(shape, size));
            }
        }
        ["--count", what, shape, size, ref times @ ..] => {
            let times = times.first().map_or(1, |times| times.parse().expect("a number"));
            count(what, &mut Case::new(shape, size.parse().expect("a size")), times);
        }
        ["--stack"] => stack::report(),
        _ => eprintln!("usage: bench [--count ours|rust|build SHAPE SIZE [TIMES] | --stack]"),
    }
}

fn main() {
    let worker = std::thread::Builder::new().stack_size(STACK).spawn(work);
    worker.expect("a thread").join().expect("the work is done");
}
