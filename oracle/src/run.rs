//! Running the Rust on one text, twice.

use std::{
    cell::RefCell,
    collections::{BTreeMap, HashMap},
    panic::{AssertUnwindSafe, catch_unwind},
};

use crate::{
    compiler::{
        ast::Program,
        codegen::{CodeMarker, gen_code},
        index::LabelId,
        opcode::OpCode,
        semantic::Semantic,
    },
    listing::{Streams, listing, without_effect_records},
    tables::{Tables, read_tables},
    text::{Tagged, Text},
    tree::Build,
};

thread_local! {
    static STREAMS: RefCell<Streams> = const { RefCell::new(BTreeMap::new()) };
    static PANIC: RefCell<(String, String)> = const { RefCell::new((String::new(), String::new())) };
}

/// Called by codegen.rs in place of `ControlFlowGraph::from_bytecode`.
pub(crate) fn keep_stream(function: usize, code: &[CodeMarker], labels: usize) {
    STREAMS.with_borrow_mut(|s| s.insert(function, (code.to_vec(), labels)));
}

/// A marker for other packages: an opcode, or a label's place.
pub type Kept = Result<OpCode<LabelId>, LabelId>;

/// The streams of the last `gen_code` on this thread, with their label counts, by function.
pub fn kept() -> Vec<(Vec<Kept>, usize)> {
    let kept = |marker: &CodeMarker| match *marker {
        CodeMarker::OpCode(opcode) => Ok(opcode),
        CodeMarker::Label(label) => Err(label),
    };
    STREAMS.with_borrow_mut(|streams| {
        let streams = std::mem::take(streams);
        streams.values().map(|(code, labels)| (code.iter().map(kept).collect(), *labels)).collect()
    })
}

/// Keeps a panic's message and place instead of printing them.
pub fn keep_panics() {
    std::panic::set_hook(Box::new(|info| {
        let message = info.payload_as_str().unwrap_or("?").replace('\n', " ");
        let location = info.location().map_or("?".into(), |l| {
            format!("{}:{}", l.file().rsplit('/').next().unwrap(), l.line())
        });
        PANIC.with_borrow_mut(|p| *p = (message, location));
    }));
}

/// The last panic's message and place.
pub fn last_panic() -> (String, String) {
    PANIC.with_borrow(|p| p.clone())
}

struct Ran {
    /// The listing, or `panic MESSAGE`.
    answer: String,
    /// Lines that begin with `#`.
    extra: String,
    panicked: bool,
}

fn run<S: Text>(t: &Tables, build: &Build<'_>, references: &[u32]) -> Ran {
    let semantic: Semantic<S> = build.semantic(references);
    let program = Program { function: Box::new(build.function::<S>(0)) };
    STREAMS.with_borrow_mut(|s| s.clear());
    oxc_index::forget_last();
    let result = catch_unwind(AssertUnwindSafe(|| gen_code(&program, &semantic)));
    let streams = STREAMS.with_borrow_mut(std::mem::take);
    match result {
        Ok((ir, errors)) => Ran {
            answer: listing(t, ir.iter(), &streams, &errors),
            extra: streams.iter().map(|(i, s)| format!("# labels {i} {}\n", s.1)).collect(),
            panicked: false,
        },
        Err(_) => {
            let (message, location) = last_panic();
            Ran {
                answer: format!("panic {message}\n"),
                extra: format!("# at {location}\n"),
                panicked: true,
            }
        }
    }
}

/// One text's answer.
///
/// The first run is as document 01 says: S a byte vector, references as they stand in table 4.
/// The second gives each Ident a reference of its own and names that carry their record: the
/// same run, but effects and panics can be brought back to records. The two must agree.
pub fn one_case(text: &str, extra: bool) -> String {
    let t = read_tables(text);
    let plain = Build { t: &t, reference: Box::new(|r| t.records[r].p) };
    let first = run::<Vec<u8>>(&t, &plain, &t.references);

    let mut owner = Vec::new();
    let mut references = Vec::new();
    let idents = || (0..t.records.len()).filter(|&r| matches!(t.records[r].kind, 2 | 36));
    // Idents out of range come last, so that theirs stay out of range.
    for valid in [true, false] {
        for r in idents() {
            let p = t.records[r].p as usize;
            if (p < t.references.len()) == valid {
                owner.push(r);
                references.extend(t.references.get(p).copied());
            }
        }
    }
    let id: HashMap<usize, u32> = owner.iter().enumerate().map(|(i, &r)| (r, i as u32)).collect();
    let tagged = Build { t: &t, reference: Box::new(|r| id[&r]) };
    let second = run::<Tagged>(&t, &tagged, &references);

    assert_eq!(first.panicked, second.panicked, "the two runs differ");
    let (answer, more) = if first.panicked {
        let place = oxc_index::last_index("ReferenceId").map(|i| owner[i]);
        let place = place.map_or("-".into(), |r| r.to_string());
        (first.answer, format!("{}# ident {place}\n", second.extra))
    } else {
        let hidden = without_effect_records(&second.answer);
        assert_eq!(first.answer, hidden, "the two runs differ");
        (second.answer, second.extra)
    };
    if extra { answer + &more } else { answer }
}
