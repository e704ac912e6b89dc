//! What is not a listing: a number and a place.

use std::fmt;

/// A refusal; `docs/REFUSALS.md` has each number with an example. No output word was changed.
#[derive(Debug, Clone, Copy, PartialEq, Eq)]
pub struct Refused {
    /// 1 to 16.
    pub number: u32,
    /// The table, output, entry or record where it arose, by the number.
    pub place: u64,
}

impl Refused {
    /// What the place counts, and what is wrong there.
    fn words(&self) -> [&'static str; 2] {
        match self.number {
            1 => ["table", "over its limit, a part entry, or no records"],
            2 => ["output", "too little space"],
            3 => ["entry", "of tables 1 to 6: out of range, given twice, or counts that differ"],
            4 => ["record", "unknown kind or detail, string out of range, or Bool not 0 or 1"],
            5 => ["record", "a link neither 0 nor greater, or past the last record"],
            6 => ["record", "children not those of its kind"],
            7 => ["record", "not named by exactly one link"],
            8 => ["record", "nested past 128 levels"],
            9 => ["record", "functions not in visiting order, or a parent not the one around it"],
            10 => ["record", "reference out of range"],
            11 => ["record", "load of a symbol that is in none of the function's tables"],
            12 => ["record", "store to a symbol that is not in the table of its kind"],
            13 => ["record", "an operator that cannot stand here"],
            14 => ["record", "as many targets as values are needed"],
            15 => ["record", "an import with no path"],
            16 => ["record", "a function met after an error skipped one"],
            _ => ["place", "unknown"],
        }
    }
}

impl fmt::Display for Refused {
    fn fmt(&self, f: &mut fmt::Formatter<'_>) -> fmt::Result {
        let [counted, why] = self.words();
        write!(f, "refused {} at {counted} {}: {why}", self.number, self.place)
    }
}

impl std::error::Error for Refused {}
