//! Refusals, space, depth and names, through the wrapper.

mod common;

use common::{frame, levels};
use lucia_codegen::{
    Answer, Capture, Code, Constant, FunctionCode, Listing, Marker, NONE, Output, Refused, Space,
    Tables, Upvalue, gen_code, gen_code_into,
};

fn refused(tables: &Tables) -> (u32, u64) {
    match gen_code(tables) {
        Answer::Refused(Refused { number, place }) => (number, place),
        Answer::Listing(listing) => panic!("accepted: {listing:?}"),
    }
}

fn accepted(tables: &Tables) -> Listing {
    match gen_code(tables) {
        Answer::Listing(listing) => listing,
        Answer::Refused(refused) => panic!("{refused}"),
    }
}

/// Tables with one string, one Local of its name and one reference to it.
fn with_symbol(mut tables: Tables) -> Tables {
    let name = tables.push_string(b"a");
    tables.symbols.extend([0, name]);
    tables.references.push(0);
    tables
}

/// The same, with the Local in the function's share.
fn with_member(tables: Tables) -> Tables {
    Tables { functions: vec![NONE, 1], members: vec![0], ..with_symbol(tables) }
}

#[test]
fn case_a() {
    let listing = accepted(&frame(&[]));
    assert_eq!(listing.forecast, 96);
    assert_eq!(listing.errors, []);
    let wanted = FunctionCode {
        markers: vec![
            Marker { code: Code::LoadConst, operand: 0 },
            Marker { code: Code::Return, operand: 0 },
        ],
        labels: 0,
        constants: vec![Constant::Null],
        locals: vec![],
        globals: vec![],
        upvalues: vec![],
        loop_depth: 0,
    };
    assert_eq!(listing.functions, [wanted]);
}

#[test]
fn empty_tables() {
    assert_eq!(refused(&Tables::default()), (1, 7));
    let mut out = Space::default();
    let answer = gen_code_into(&Tables::default(), &mut out.lend());
    assert_eq!(answer, Answer::Refused(Refused { number: 1, place: 7 }));
}

#[test]
fn tables_past_their_limits() {
    let mut t = frame(&[]);
    t.records.push(0);
    assert_eq!(refused(&t), (1, 7));
    t.records = vec![0; 8 * 100_000];
    assert_eq!(refused(&t), (1, 7));
    let t = Tables { bytes: vec![0; 65_537], ..frame(&[]) };
    assert_eq!(refused(&t), (1, 2));
    let t = Tables { members: vec![0; 1_025], ..frame(&[]) };
    assert_eq!(refused(&t), (1, 6));
}

/// The examples of docs/REFUSALS.md, rows 3 to 16.
#[test]
fn refusals_by_number() {
    let twice = {
        let mut t = frame(&[]);
        t.push_string(b"a");
        t.push_string(b"a");
        t
    };
    assert_eq!(refused(&twice), (3, 1));
    assert_eq!(refused(&frame(&[[1, 1, 2, 0, 0, 0, 0, 0]])), (4, 3));
    assert_eq!(refused(&frame(&[[3, 0, 0, 0, 0, 0, 3, 0]])), (5, 3));
    assert_eq!(refused(&frame(&[[3, 0, 0, 0, 0, 0, 0, 0]])), (6, 3));
    let mut loose = frame(&[[19, 0, 0, 0, 0, 0, 0, 0]]);
    loose.records[8 * 2 + 6] = 0;
    assert_eq!(refused(&loose), (7, 3));
    let longer = Tables { functions: vec![NONE, 0, 0, 0], ..frame(&[]) };
    assert_eq!(refused(&longer), (9, 0));

    let ident = [2, 0, 0, 0, 0, 0, 0, 0];
    let null = [1, 0, 0, 0, 0, 0, 0, 0];
    assert_eq!(refused(&Tables { references: vec![], ..with_symbol(frame(&[ident])) }), (10, 3));
    assert_eq!(refused(&with_symbol(frame(&[ident]))), (11, 3));
    let store = [[23, 0, 0, 0, 0, 0, 4, 0], [2, 0, 0, 0, 0, 0, 0, 5], null];
    assert_eq!(refused(&with_symbol(frame(&store))), (12, 4));
    let is = [[10, 13, 0, 0, 0, 0, 4, 0], [1, 0, 0, 0, 0, 0, 0, 5], null];
    assert_eq!(refused(&frame(&is)), (13, 3));
    let dotted = [[25, 6, 0, 0, 0, 0, 4, 0], [34, 5, 0, 0, 0, 0, 5, 6], ident, null];
    assert_eq!(refused(&with_member(frame(&dotted))), (13, 3));
    let multi = [[27, 0, 1, 0, 0, 0, 4, 0], [34, 0, 0, 0, 0, 0, 5, 0], ident];
    assert_eq!(refused(&with_symbol(frame(&multi))), (14, 3));
    assert_eq!(refused(&with_symbol(frame(&[[22, 0, 0, 0, 0, 0, 0, 0]]))), (15, 3));
}

/// `a or= null`: a load, a jump to a label, the right side, the label, a store, Null.
#[test]
fn or_on_a_plain_name() {
    let listing = accepted(&with_member(frame(&[
        [25, 6, 0, 0, 0, 0, 4, 0],
        [34, 0, 0, 0, 0, 0, 5, 6],
        [2, 0, 0, 0, 0, 0, 0, 0],
        [1, 0, 0, 0, 0, 0, 0, 0],
    ])));
    let codes = [
        Code::LoadLocal,
        Code::JumpIfTrueOrPop,
        Code::LoadConst,
        Code::Label,
        Code::StoreLocal,
        Code::LoadConst,
        Code::Return,
    ];
    let markers = codes.map(|code| Marker { code, operand: 0 });
    assert_eq!(listing.functions[0].markers, markers);
    assert_eq!(listing.functions[0].labels, 1);
}

#[test]
fn a_refusal_tells_itself() {
    let shown = Refused { number: 8, place: 129 }.to_string();
    assert_eq!(shown, "refused 8 at record 129: nested past 128 levels");
}

#[test]
fn levels_128_and_129() {
    let listing = accepted(&levels(128));
    assert_eq!(listing.functions[0].markers.len(), 2);
    assert_eq!(refused(&levels(129)), (8, 129));
}

/// The deepest kind of tree, from a thread with far too small a stack for it.
#[test]
fn deep_from_a_small_thread() {
    let mut others = Vec::new();
    // A Match is a level, and its Case another: 127 levels in all.
    for pair in 0..62 {
        let at = 3 + 3 * pair;
        others.push([15, 0, 0, 0, 0, 0, at + 1, 0]);
        others.push([1, 0, 0, 0, 0, 0, 0, at + 2]);
        others.push([33, 0, 0, 0, 0, 0, at + 3, 0]);
    }
    others.push([1, 0, 0, 0, 0, 0, 0, 0]);
    let small = std::thread::Builder::new().stack_size(256 << 10);
    let worker = small.spawn(move || accepted(&frame(&others)));
    assert_eq!(worker.unwrap().join().unwrap().functions[0].labels, 2 * 62);
}

/// Each output one entry short, the others as asked for: refused, and no word changed.
#[test]
fn short_space() {
    let mut t = with_symbol(frame(&[]));
    t.functions[1] = 1;
    t.members.push(0);
    for (place, missing) in [2, 3, 3, 3, 7].into_iter().enumerate() {
        let mut space = Space::enough_for(&t);
        let outputs = [
            &mut space.markers,
            &mut space.constants,
            &mut space.names,
            &mut space.errors,
            &mut space.lines,
        ];
        for (i, words) in outputs.into_iter().enumerate() {
            words.fill(77);
            words.truncate(words.len() - if i == place { missing } else { 0 });
        }
        let answer = gen_code_into(&t, &mut space.lend());
        assert_eq!(answer, Answer::Refused(Refused { number: 2, place: place as u64 }));
        let Space { markers, constants, names, errors, lines } = space;
        let all = [markers, constants, names, errors, lines].concat();
        assert!(all.iter().all(|&word| word == 77));
    }
}

/// Words past the written ones stay.
#[test]
fn space_with_a_rest() {
    let t = frame(&[]);
    let (mut markers, mut constants, mut errors, mut lines) = ([9; 200], [9; 30], [9; 9], [9; 10]);
    let mut out = Output {
        markers: &mut markers,
        constants: &mut constants,
        names: &mut [],
        errors: &mut errors,
        lines: &mut lines,
    };
    assert_eq!(gen_code_into(&t, &mut out), gen_code(&t));
    assert_eq!(markers[..5], [6, 0, 37, 0, 9]);
    assert_eq!(constants[..4], [0, 0, 0, 9]);
    assert_eq!(lines, [2, 0, 1, 0, 0, 0, 0, 9, 9, 9]);
    assert!(errors.iter().chain(&markers[4..]).all(|&word| word == 9));
}

/// A Local of the root, captured in a function and from there in one below it; a Global in all.
#[test]
fn captures() {
    let function = |number, first| [30, 0, number, NONE, 0, 0, first, 0];
    let params = |next| [31, 0, 0, 0, 0, 0, 0, next];
    let mut t = frame(&[
        [5, 0, 0, 0, 0, 0, 4, 0],
        function(1, 5),
        params(6),
        [4, 0, 0, 0, 0, 0, 7, 0],
        [5, 0, 0, 0, 0, 0, 8, 0],
        function(2, 9),
        params(10),
        [4, 0, 0, 0, 0, 0, 11, 0],
        [2, 0, 0, 0, 0, 0, 0, 12],
        [2, 0, 1, 1, 0, 0, 0, 0],
    ]);
    let (x, y) = (t.push_string(b"x"), t.push_string(b"y"));
    t.symbols.extend([0, x, 1, y]);
    t.references.extend([0, 1]);
    t.functions = vec![NONE, 2, 0, 2, 1, 2];
    t.members = vec![0, 1, 1, 0, 0, 1];
    let listing = accepted(&t);
    let names: Vec<_> = listing.functions.iter().map(|f| (&f.locals[..], &f.globals[..])).collect();
    assert_eq!(names, [(&[0][..], &[1][..]), (&[], &[1]), (&[], &[1])]);
    assert_eq!(listing.functions[1].upvalues, [Upvalue { symbol: 0, capture: Capture::Local(0) }]);
    assert_eq!(
        listing.functions[2].upvalues,
        [Upvalue { symbol: 0, capture: Capture::Upvalue(0) }]
    );
    let codes: Vec<_> = listing.functions[2].markers.iter().map(|m| m.code).collect();
    assert_eq!(codes, [Code::LoadUpvalue, Code::Pop, Code::LoadGlobal, Code::Return]);
}

/// Any words are taken: none makes the call do anything but answer.
#[test]
fn any_words() {
    let mut state = 1_u64;
    let mut next = move || {
        state = state.wrapping_mul(6_364_136_223_846_793_005).wrapping_add(1);
        (state >> 33) as u32
    };
    let (_, given, _) = &common::cases()[100];
    let good = common::read(given);
    for _ in 0..300 {
        let mut t = good.clone();
        let tables = [
            &mut t.strings,
            &mut t.symbols,
            &mut t.references,
            &mut t.functions,
            &mut t.members,
            &mut t.records,
        ];
        for words in tables {
            let Some(place) = (next() as usize).checked_rem(words.len()) else { continue };
            match next() % 6 {
                0 => words[place] = next(),
                1 => words[place] = next() % 40,
                2 => words.truncate(place),
                _ => (),
            }
        }
        if let Answer::Listing(listing) = gen_code(&t) {
            listing.text(&t);
        }
    }
}
