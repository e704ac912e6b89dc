//! Reading genlist's text into flat tables.

pub const NONE: u32 = u32::MAX;

pub struct Record {
    pub kind: u32,
    pub detail: u32,
    pub p: u32,
    pub q: u32,
    pub start: u32,
    pub end: u32,
    pub first: u32,
    pub next: u32,
}

#[derive(Default)]
pub struct Tables {
    pub strings: Vec<Vec<u8>>,
    pub symbols: Vec<[u32; 2]>,
    pub references: Vec<u32>,
    pub functions: Vec<[u32; 2]>,
    pub members: Vec<u32>,
    pub records: Vec<Record>,
}

fn numbers(line: &str, n: usize) -> Vec<u32> {
    let v: Vec<u32> = line.split_ascii_whitespace().map(|x| x.parse().expect("a number")).collect();
    assert_eq!(v.len(), n, "values in {line:?}");
    v
}

pub fn read_tables(text: &str) -> Tables {
    let mut t = Tables::default();
    let mut lines = text.lines();
    for table in [1, 3, 4, 5, 6, 7] {
        lines.next().expect("a line of names");
        for line in lines.by_ref() {
            if line.is_empty() {
                break;
            }
            match table {
                1 if line == "-" => t.strings.push(Vec::new()),
                1 => t.strings.push(
                    (0..line.len() / 2)
                        .map(|i| u8::from_str_radix(&line[2 * i..2 * i + 2], 16).expect("hex"))
                        .collect(),
                ),
                3 => t.symbols.push(numbers(line, 2).try_into().unwrap()),
                4 => t.references.push(numbers(line, 1)[0]),
                5 => t.functions.push(numbers(line, 2).try_into().unwrap()),
                6 => t.members.push(numbers(line, 1)[0]),
                _ => {
                    let v = numbers(line, 8);
                    t.records.push(Record {
                        kind: v[0],
                        detail: v[1],
                        p: v[2],
                        q: v[3],
                        start: v[4],
                        end: v[5],
                        first: v[6],
                        next: v[7],
                    });
                }
            }
        }
    }
    t
}

impl Tables {
    pub fn children(&self, r: usize) -> Vec<usize> {
        let mut out = Vec::new();
        let mut at = self.records[r].first as usize;
        while at != 0 {
            out.push(at);
            at = self.records[at].next as usize;
        }
        out
    }

    /// Document 01's loop depth, which the Rust lacks: over a function's own tree.
    pub fn loop_depth(&self, r: usize) -> usize {
        let own = usize::from(matches!(self.records[r].kind, 16..=18));
        let below = self.children(r).into_iter();
        let below = below.filter(|&c| self.records[c].kind != 30).map(|c| self.loop_depth(c));
        own + below.max().unwrap_or(0)
    }
}
