//! lucia-lang's own tree through the call, held against lucia-lang's `gen_code`.

mod common;

use std::panic::{AssertUnwindSafe, catch_unwind};

use lucia_codegen::{
    NONE, Refused, Tables,
    from_program::{CodeMarker, Flat, FunctionStream, gen_code},
};
use lucia_lang::{
    compiler::{ast::Program, codegen, semantic::Semantic},
    run, tables,
    tree::Build,
};

type Name = Vec<u8>;
type Tree = (Program<Name>, Semantic<Name>);

fn build(text: &str) -> Tree {
    let t = tables::read_tables(text);
    let build = Build { t: &t, reference: Box::new(|r| t.records[r].p) };
    let program = Program { function: Box::new(build.function(0)) };
    (program, build.semantic(&t.references))
}

/// A text of tables, for `build`.
fn write(t: &Tables) -> String {
    let mut out = String::from("strings\n");
    for number in 0..t.strings.len() / 2 {
        let bytes = t.string(number as u32).unwrap();
        let hex: String = bytes.iter().map(|byte| format!("{byte:02x}")).collect();
        out += if hex.is_empty() { "-" } else { &hex };
        out += "\n";
    }
    let tables =
        [(&t.symbols, 2), (&t.references, 1), (&t.functions, 2), (&t.members, 1), (&t.records, 8)];
    for (words, entry) in tables {
        out += "\nnames\n";
        for words in words.chunks(entry) {
            let words: Vec<String> = words.iter().map(u32::to_string).collect();
            out += &(words.join(" ") + "\n");
        }
    }
    out + "\n"
}

/// Records in preorder: where a tree's record stands in tables made from the tree.
fn preorder(t: &Tables, record: u32, out: &mut Vec<u32>) {
    out.push(record);
    for child in t.children(record) {
        preorder(t, child, out);
    }
}

/// What lucia-lang's own `gen_code` gives, or nothing where it panics.
fn rust((program, semantic): &Tree) -> Option<(Vec<FunctionStream<Name>>, Vec<String>)> {
    let made = catch_unwind(AssertUnwindSafe(|| codegen::gen_code(program, semantic)));
    let streams = run::kept();
    let (functions, errors) = made.ok()?;
    let pairs = functions.iter().zip(streams);
    let functions = pairs.map(|(f, (code, label_count))| FunctionStream {
        name: f.name.clone(),
        params: f.params.clone(),
        kind: f.kind,
        code: code
            .into_iter()
            .map(|marker| marker.map_or_else(CodeMarker::Label, CodeMarker::OpCode))
            .collect(),
        label_count,
        consts: f.consts.iter().cloned().collect(),
        local_names: f.local_names.iter().map(|(id, name)| (*id, name.clone())).collect(),
        global_names: f.global_names.iter().map(|(id, name)| (*id, name.clone())).collect(),
        upvalue_names: f.upvalue_names.iter().map(|(id, held)| (*id, held.clone())).collect(),
        loop_depth: 0,
    });
    Some((functions.collect(), errors.iter().map(|e| format!("{e:?}")).collect()))
}

/// Every stored case: lucia-lang's functions and errors, or the stored refusal at its place. Trees
/// with `and=` or `or=` on a plain name, which lucia-lang has no code for, are accepted or refused.
#[test]
fn as_lucia_lang() {
    run::keep_panics();
    let mut refusals = 0;
    for (name, given, stored) in common::cases() {
        let tree = build(&given);
        let ours = gen_code(&tree.0, &tree.1);
        if common::has_short_assignment(&common::read(&given)) {
            assert_eq!(ours.is_err(), stored.starts_with("refusal"), "case {name}");
            continue;
        }
        match (rust(&tree), ours) {
            (Some((functions, errors)), Ok((mut given, given_errors))) => {
                given.iter_mut().for_each(|f| f.loop_depth = 0);
                assert_eq!(given, functions, "case {name}");
                let given: Vec<String> = given_errors.iter().map(|e| format!("{e:?}")).collect();
                assert_eq!(given, errors, "case {name}");
            }
            (None, Err(Refused { number, place })) => {
                let mut order = Vec::new();
                preorder(&common::read(&given), 0, &mut order);
                let place = order[place as usize];
                assert_eq!(format!("refusal place\n{number} {place}\n"), stored, "case {name}");
                refusals += 1;
            }
            (_, ours) => panic!("case {name}: {ours:?}"),
        }
    }
    assert!(refusals > 0);
}

/// A string by its bytes, or a word as it is.
fn meant(t: &Tables, is_string: bool, word: u32) -> (u32, Option<&[u8]>) {
    if is_string && word != NONE { (0, t.string(word)) } else { (word, None) }
}

/// The record's kind and the words that its kind uses, strings by their bytes.
fn used(t: &Tables, record: u32) -> impl PartialEq + std::fmt::Debug + '_ {
    let r = t.record(record).unwrap();
    let [p, q, p_string, q_string] = match (r.kind, r.detail) {
        (1 | 35, 2 | 3) | (30, _) => [true, true, false, r.kind == 30],
        (1 | 35, 1) => [true, false, false, false],
        (1 | 35, 4 | 5) | (6, _) => [true, false, true, false],
        (2 | 36 | 22, _) => [true, true, false, true],
        (18 | 26 | 27 | 33, _) => [true, false, false, false],
        _ => [false; 4],
    };
    let has_detail = matches!(r.kind, 1 | 5 | 9..=12 | 14 | 22 | 25 | 30 | 31 | 34 | 35 | 37..);
    (
        (r.kind, if has_detail { r.detail } else { 0 }),
        meant(t, p_string, if p { r.p } else { 0 }),
        meant(t, q_string, if q { r.q } else { 0 }),
        // Params have no range in lucia-lang.
        if r.kind == 31 { (0, 0) } else { (r.start, r.end) },
        t.children(record).count(),
    )
}

/// Tables, their tree, and tables again: the same records, in preorder; and these again the same.
#[test]
fn there_and_back() {
    for (name, given, _) in common::cases() {
        let before = common::read(&given);
        let (program, semantic) = build(&given);
        let flat = Flat::new(&program, &semantic);
        let mut order = Vec::new();
        preorder(&before, 0, &mut order);
        assert_eq!(8 * order.len(), flat.tables.records.len(), "case {name}");
        for (after, &record) in order.iter().enumerate() {
            let (old, new) = (used(&before, record), used(&flat.tables, after as u32));
            assert!(old == new, "case {name}: {old:?} and {new:?}");
        }
        assert_eq!(flat.tables.references, before.references);
        assert_eq!(flat.tables.functions, before.functions);
        assert_eq!(flat.tables.members, before.members);
        let (program, semantic) = build(&write(&flat.tables));
        assert_eq!(Flat::new(&program, &semantic).tables, flat.tables, "case {name}");
    }
}

/// A tree far too deep is refused at its first record past 128 levels, and makes nothing overflow.
#[test]
fn far_too_deep() {
    let deep = |levels| {
        let (program, semantic) = build(&write(&common::levels(levels)));
        gen_code(&program, &semantic)
    };
    assert!(deep(128).is_ok());
    for levels in [129, 130, 131, 132, 500] {
        assert_eq!(deep(levels), Err(Refused { number: 8, place: 129 }));
    }
}

/// Numbers that are not set are refused, where lucia-lang panics.
#[test]
fn numbers_not_set() {
    let (mut program, semantic) = build(&common::stored("worked/A.in"));
    program.function.function_id.take();
    assert_eq!(gen_code(&program, &semantic), Err(Refused { number: 9, place: 0 }));
}
