//! Trees as nodes, and their way into the seven tables.

use lucia_codegen::{NONE, Tables};

/// A record's kind, detail, p and q, and its children.
pub struct Node {
    words: [u32; 4],
    children: Vec<Node>,
}

/// How many symbols most trees have.
pub const SYMBOLS: u32 = 16;

pub fn node(words: [u32; 4], children: Vec<Node>) -> Node {
    Node { words, children }
}

pub fn null() -> Node {
    node([1, 0, 0, 0], vec![])
}

pub fn int(value: u32) -> Node {
    node([1, 2, value, 0], vec![])
}

/// A load of a symbol, or the name of a store to it.
pub fn ident(symbol: u32) -> Node {
    ident_of(symbol % SYMBOLS)
}

/// The same where there are more symbols.
pub fn ident_of(symbol: u32) -> Node {
    node([2, 0, symbol, symbol], vec![])
}

pub fn block(exprs: Vec<Node>) -> Node {
    node([4, 0, 0, 0], exprs)
}

pub fn function(exprs: Vec<Node>) -> Node {
    let params = node([31, 0, 0, 0], vec![]);
    node([30, 0, 0, NONE], vec![params, block(exprs)])
}

/// `symbol = value`
pub fn assign(symbol: u32, value: Node) -> Node {
    let left = node([34, 0, 0, 0], vec![ident(symbol)]);
    node([24, 0, 0, 0], vec![left, value])
}

pub fn binary(operator: u32, left: Node, right: Node) -> Node {
    node([10, operator, 0, 0], vec![left, right])
}

impl Node {
    /// How many records.
    pub fn records(&self) -> usize {
        1 + self.children.iter().map(Node::records).sum::<usize>()
    }
}

/// Lays a tree out in preorder, numbering Functions as they come. No Function may stand on the left
/// of an assignment, where visiting order is another.
struct Layout<F> {
    tables: Tables,
    functions: u32,
    members: F,
}

impl<F: Fn(u32) -> Vec<u32>> Layout<F> {
    fn lay(&mut self, node: &Node, parent: u32) -> u32 {
        let [kind, detail, mut p, q] = node.words;
        let mut inside = parent;
        if kind == 30 {
            p = self.functions;
            inside = p;
            self.functions += 1;
            let share = (self.members)(p);
            self.tables.functions.extend([parent, share.len() as u32]);
            self.tables.members.extend(share);
        }
        let record = self.tables.push_record([kind, detail, p, q, 0, 0, 0, 0]);
        let mut link = 8 * record as usize + 6;
        for child in &node.children {
            let child = self.lay(child, inside);
            self.tables.records[link] = child;
            link = 8 * child as usize + 7;
        }
        record
    }
}

/// The tables of a root Function; `members` gives each function's symbols. Of the symbols the first
/// half are Local, the others Global; each has a reference and a name of its number.
pub fn tables(root: &Node, symbols: u32, members: impl Fn(u32) -> Vec<u32>) -> Tables {
    let mut tables = Tables::default();
    for symbol in 0..symbols {
        let name = tables.push_string(format!("name{symbol:04}").as_bytes());
        tables.symbols.extend([u32::from(symbol >= symbols / 2), name]);
        tables.references.push(symbol);
    }
    let mut layout = Layout { tables, functions: 0, members };
    layout.lay(root, NONE);
    layout.tables
}
