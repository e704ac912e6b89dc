//! The trees that are timed: a shape and a number of records.

use lucia_codegen::Tables;

use crate::node::{
    Node, SYMBOLS, assign, binary, block, function, ident, ident_of, int, node, null, tables,
};

pub const SIZES: [usize; 4] = [64, 256, 1024, 4096];
pub const SHAPES: [&str; 7] = ["flat", "deep", "loops", "functions", "constants", "names", "mix"];

/// All symbols in the root, none elsewhere.
fn root_only(function: u32) -> Vec<u32> {
    if function == 0 { (0..SYMBOLS).collect() } else { vec![] }
}

/// All symbols in the root, and three of them, two captured, in the others.
fn three_each(function: u32) -> Vec<u32> {
    if function == 0 { (0..SYMBOLS).collect() } else { vec![0, 1, 8] }
}

/// As many of `make`'s exprs as fit into so many records.
fn fill(records: usize, mut make: impl FnMut(u32) -> Node) -> Vec<Node> {
    let mut exprs = Vec::new();
    let mut used = 0;
    for i in 0.. {
        let expr = make(i);
        used += expr.records();
        if used > records {
            break;
        }
        exprs.push(expr);
    }
    exprs
}

/// Assignments and calls side by side; few constants.
fn flat(records: usize) -> Tables {
    let exprs = fill(records - 3, |i| match i % 2 {
        0 => assign(i / 2, binary(i % 5, ident(i + 3), int(i % 8))),
        _ => node([13, 0, 0, 0], vec![ident(i), ident(i + 1), int(i % 8)]),
    });
    tables(&function(exprs), SYMBOLS, root_only)
}

/// Paths down to level 128, or less where there are fewer records.
fn deep(records: usize) -> Tables {
    let one = |levels: usize| {
        let mut inner = null();
        let mut below = 1;
        while below + 2 <= levels {
            (inner, below) = match below % 4 {
                0 => (node([3, 0, 0, 0], vec![inner]), below + 1),
                1 => (node([9, 1, 0, 0], vec![inner]), below + 1),
                2 => (binary(5, ident(1), inner), below + 1),
                _ => (node([14, 0, 0, 0], vec![ident(2), block(vec![inner])]), below + 2),
            };
        }
        inner
    };
    let mut levels = 126;
    while one(levels).records() > records - 3 {
        levels -= 1;
    }
    let mut exprs = fill(records - 3, |_| one(levels));
    let used: usize = exprs.iter().map(Node::records).sum();
    exprs.extend(fill(records - 3 - used, |_| null()));
    tables(&function(exprs), SYMBOLS, root_only)
}

/// Integers, all different.
fn constants(records: usize) -> Tables {
    tables(&function(fill(records - 3, int)), SYMBOLS, root_only)
}

/// Loads of a quarter as many names as there are records.
fn names(records: usize) -> Tables {
    let count = records as u32 / 4;
    let loads = fill(records - 3, |i| ident_of(i % count));
    tables(&function(loads), count, |_| (0..count).collect())
}

/// As many functions as fit, at most 256, side by side; each loads what it captures.
fn functions(records: usize) -> Tables {
    let each = (records - 3) / 255;
    let mut left = 255;
    let exprs = fill(records - 3, |_| {
        left -= 1;
        if left < 0 {
            return null();
        }
        let body = fill(each.saturating_sub(4), |i| match i % 2 {
            0 => binary(0, ident([0, 1, 8][i as usize / 2 % 3]), int(i)),
            _ => node([21, 0, 0, 0], vec![ident(1)]),
        });
        node([5, 0, 0, 0], vec![function(body)])
    });
    tables(&function(exprs), SYMBOLS, three_each)
}

/// Loops of each kind, and matches with nested patterns.
fn loops(records: usize) -> Tables {
    let lit = |value| node([35, 2, value, 0], vec![]);
    let name = |symbol: u32| node([36, 0, symbol, symbol], vec![]);
    let list = |i: u32| node([38, i % 2, 0, 0], vec![lit(i % 8), name(i % 8)]);
    let table = move |i: u32| node([37, i % 2, 0, 0], vec![int(i % 4), list(i)]);
    let case =
        move |i: u32| node([33, 0, 2, 0], vec![table(i), lit(i % 8), binary(0, ident(i), int(1))]);
    let stop = || node([14, 0, 0, 0], vec![ident(8), block(vec![node([19, 0, 0, 0], vec![])])]);
    let exprs = fill(records - 3, |i| match i % 4 {
        0 => node([15, 0, 0, 0], vec![ident(i), case(i), case(i + 1)]),
        1 => node([16, 0, 0, 0], vec![block(vec![stop(), node([20, 0, 0, 0], vec![])])]),
        2 => node([17, 0, 0, 0], vec![ident(9), block(vec![assign(i, null()), stop()])]),
        _ => node([18, 0, 2, 0], vec![ident(1), ident(2), ident(10), block(vec![stop()])]),
    });
    tables(&function(exprs), SYMBOLS, root_only)
}

/// A tree of one of the shapes made here.
pub fn shape(name: &str, records: usize) -> Option<Tables> {
    Some(match name {
        "flat" => flat(records),
        "deep" => deep(records),
        "constants" => constants(records),
        "names" => names(records),
        "functions" => functions(records),
        "loops" => loops(records),
        _ => return None,
    })
}
