//! How much stack a call takes on trees of 128 levels, one for each kind that can stand inside itself.

use std::hint::black_box;

use lucia_codegen::{Space, Tables, call_on_this_thread};

use crate::node::{Node, SYMBOLS, assign, binary, block, function, ident, int, node, null, tables};

const LEVELS: usize = 128;
/// What is painted before a call; more than any call takes.
const PAINTED: usize = 4 << 20;
const PAINT: u8 = 0xA5;

/// A kind that holds a tree, and how many levels it adds above it.
type Around = (&'static str, usize, fn(Node) -> Node);

fn kinds() -> Vec<Around> {
    vec![
        ("Paren", 1, |x| node([3, 0, 0, 0], vec![x])),
        ("Block", 1, |x| block(vec![x])),
        ("Table", 1, |x| node([7, 0, 0, 0], vec![int(1), x])),
        ("List", 1, |x| node([8, 0, 0, 0], vec![x])),
        ("Unary", 1, |x| node([9, 0, 0, 0], vec![x])),
        ("Binary Add", 1, |x| binary(0, ident(1), x)),
        ("Binary And", 1, |x| binary(5, ident(1), x)),
        ("Binary Or, left", 1, |x| binary(6, x, ident(1))),
        ("TypeCheck", 1, |x| node([11, 0, 0, 0], vec![x])),
        ("Member", 1, |x| node([12, 0, 0, 0], vec![x, int(1)])),
        ("Member's property", 1, |x| node([12, 0, 0, 0], vec![ident(1), x])),
        ("Call", 1, |x| node([13, 0, 0, 0], vec![x])),
        ("Call's argument", 1, |x| node([13, 0, 0, 0], vec![ident(1), x])),
        ("Call of a method", 2, |x| node([13, 0, 0, 0], vec![node([12, 1, 0, 0], vec![x, ident(1)])])),
        ("Handler", 3, |x| {
            let params = node([31, 0, 0, 0], vec![]);
            let handler = node([32, 0, 0, 0], vec![ident(1), params, block(vec![x])]);
            node([13, 0, 0, 0], vec![ident(1), handler])
        }),
        ("If", 2, |x| node([14, 0, 0, 0], vec![ident(1), block(vec![x])])),
        ("If's test", 1, |x| node([14, 0, 0, 0], vec![x, block(vec![])])),
        ("else", 1, |x| node([14, 1, 0, 0], vec![ident(1), block(vec![]), x])),
        ("Match", 1, |x| node([15, 0, 0, 0], vec![x])),
        ("Case", 2, |x| {
            let case = node([33, 0, 1, 0], vec![node([35, 0, 0, 0], vec![]), x]);
            node([15, 0, 0, 0], vec![ident(1), case])
        }),
        ("Loop", 2, |x| node([16, 0, 0, 0], vec![block(vec![x])])),
        ("While", 2, |x| node([17, 0, 0, 0], vec![ident(1), block(vec![x])])),
        ("While's test", 1, |x| node([17, 0, 0, 0], vec![x, block(vec![])])),
        ("For", 2, |x| node([18, 0, 1, 0], vec![ident(1), ident(2), block(vec![x])])),
        ("For's right side", 1, |x| node([18, 0, 1, 0], vec![ident(1), x, block(vec![])])),
        ("Return", 1, |x| node([21, 0, 0, 0], vec![x])),
        ("Return of a Call", 2, |x| node([21, 0, 0, 0], vec![node([13, 0, 0, 0], vec![ident(1), x])])),
        ("GloAssign", 1, |x| node([23, 0, 0, 0], vec![ident(8), x])),
        ("Assign", 1, |x| assign(1, x)),
        ("AssignOp", 1, |x| node([25, 0, 0, 0], vec![left(), x])),
        ("AssignOp and=", 1, |x| node([25, 5, 0, 0], vec![left(), x])),
        ("Left's property", 2, |x| {
            node([24, 0, 0, 0], vec![node([34, 1, 0, 0], vec![ident(1), x]), null()])
        }),
        ("AssignUnpack", 1, |x| node([26, 0, 1, 0], vec![left(), x])),
        ("AssignMulti", 1, |x| node([27, 0, 1, 0], vec![left(), x])),
        ("Function", 3, |x| node([5, 0, 0, 0], vec![function(vec![x])])),
    ]
}

fn left() -> Node {
    node([34, 0, 0, 0], vec![ident(1)])
}

/// Record 0 is level 1 and its Block level 2; a Left's Ident stands a level below it.
fn tree(levels: usize, around: fn(Node) -> Node) -> Tables {
    let mut inner = null();
    let mut below = 2;
    while below + levels + 2 <= LEVELS {
        inner = around(inner);
        below += levels;
    }
    tables(&function(vec![inner]), SYMBOLS, |f| if f == 0 { (0..SYMBOLS).collect() } else { vec![1] })
}

/// A pattern of 128 levels: Tables and Lists in turn.
fn patterns() -> Tables {
    let mut inner = node([36, 0, 1, 1], vec![]);
    for level in 0..LEVELS - 5 {
        inner = match level % 2 {
            0 => node([38, 0, 0, 0], vec![inner]),
            _ => node([37, 0, 0, 0], vec![int(1), inner]),
        };
    }
    let case = node([33, 0, 1, 0], vec![inner, null()]);
    let matched = node([15, 0, 0, 0], vec![ident(1), case]);
    tables(&function(vec![matched]), SYMBOLS, |_| (0..SYMBOLS).collect())
}

/// Paints the stack below, and answers where the painted bytes begin.
#[inline(never)]
fn paint() -> usize {
    let mut words = [0u8; PAINTED];
    words.fill(PAINT);
    black_box(&mut words).as_ptr() as usize
}

/// How many of the painted bytes were written since: a stack grows down, to the lowest of them.
#[inline(never)]
fn written(start: usize) -> usize {
    let start = black_box(start) as *const u8;
    // SAFETY: the bytes lie in this thread's stack, below every frame that is live, and are read only.
    let unwritten = (0..PAINTED).take_while(|&i| unsafe { start.add(i).read_volatile() } == PAINT);
    PAINTED - unwritten.count()
}

fn measured(tables: &Tables) -> usize {
    let mut space = Space::enough_for(tables);
    let start = paint();
    // SAFETY: `main` gives this thread 256 MB of stack.
    let called = unsafe { call_on_this_thread(tables, &mut space.lend()) };
    let taken = written(start);
    called.expect("a listing");
    taken
}

pub fn report() {
    println!("| tree of {LEVELS} levels | records | stack, bytes |");
    println!("|---|---|---|");
    let mut rows: Vec<(usize, String, usize)> = Vec::new();
    for (name, levels, around) in kinds() {
        let tables = tree(levels, around);
        rows.push((measured(&tables), name.to_string(), tables.records.len() / 8));
    }
    let tables = patterns();
    rows.push((measured(&tables), "patterns".to_string(), tables.records.len() / 8));
    rows.sort();
    for (stack, name, records) in rows {
        println!("| {name} | {records} | {stack} |");
    }
}
