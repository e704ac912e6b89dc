//! The seven tables of a call, as words.

/// The word for 'no parent' and 'no name'.
pub const NONE: u32 = u32::MAX;

/// How many words a record has.
const RECORD: usize = 8;

/// The seven tables; `docs/FORMAT.md` has the words of each. Any words may be given: what is not a
/// script's tables is refused.
#[derive(Debug, Clone, Default, PartialEq, Eq)]
pub struct Tables {
    /// 1: offset and length, into the bytes.
    pub strings: Vec<u32>,
    /// 2: the bytes of the strings.
    pub bytes: Vec<u8>,
    /// 3: kind, name string.
    pub symbols: Vec<u32>,
    /// 4: symbol.
    pub references: Vec<u32>,
    /// 5: parent or [`NONE`], how many members.
    pub functions: Vec<u32>,
    /// 6: symbol, each function's share in turn.
    pub members: Vec<u32>,
    /// 7: kind, detail, p, q, start, end, first, next.
    pub records: Vec<u32>,
}

/// One record of table 7.
#[derive(Debug, Clone, Copy, PartialEq, Eq)]
pub struct Record {
    pub kind: u32,
    pub detail: u32,
    pub p: u32,
    pub q: u32,
    pub start: u32,
    pub end: u32,
    pub first: u32,
    pub next: u32,
}

impl Tables {
    /// Adds a string to tables 1 and 2, and gives its number. Each string may stand there once.
    pub fn push_string(&mut self, bytes: &[u8]) -> u32 {
        self.strings.extend([self.bytes.len() as u32, bytes.len() as u32]);
        self.bytes.extend_from_slice(bytes);
        (self.strings.len() / 2 - 1) as u32
    }

    /// Adds a record, and gives its number.
    pub fn push_record(&mut self, words: [u32; RECORD]) -> u32 {
        self.records.extend(words);
        (self.records.len() / RECORD - 1) as u32
    }

    /// A string's bytes.
    pub fn string(&self, number: u32) -> Option<&[u8]> {
        let at = (number as usize).checked_mul(2)?;
        let entry = self.strings.get(at..at.checked_add(2)?)?;
        let offset = entry[0] as usize;
        self.bytes.get(offset..offset.checked_add(entry[1] as usize)?)
    }

    /// A record.
    pub fn record(&self, number: u32) -> Option<Record> {
        let at = (number as usize).checked_mul(RECORD)?;
        let words = self.records.get(at..at.checked_add(RECORD)?)?;
        let &[kind, detail, p, q, start, end, first, next] = words else {
            return None;
        };
        Some(Record { kind, detail, p, q, start, end, first, next })
    }

    /// A record's children, from the first on. Links that do not rise end it.
    pub fn children(&self, number: u32) -> impl Iterator<Item = u32> {
        let after = move |from: u32, to: u32| (to > from).then_some(to);
        let first = self.record(number).and_then(|r| after(number, r.first));
        std::iter::successors(first, move |&at| self.record(at).and_then(|r| after(at, r.next)))
    }

    /// The record of a function, by the function's number.
    pub fn function_record(&self, function: u32) -> Option<u32> {
        let mut numbers = 0..(self.records.len() / RECORD) as u32;
        numbers.find(|&number| self.record(number).is_some_and(|r| r.kind == 30 && r.p == function))
    }

    /// The name string of a symbol.
    pub fn symbol_name(&self, symbol: u32) -> Option<u32> {
        let at = (symbol as usize).checked_mul(2)?;
        self.symbols.get(at.checked_add(1)?).copied()
    }

    /// How many records, members and functions there are, entries begun counted.
    pub(crate) fn counts(&self) -> [usize; 3] {
        [self.records.len().div_ceil(RECORD), self.members.len(), self.functions.len().div_ceil(2)]
    }
}
