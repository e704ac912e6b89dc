//! Stored cases, and frames to put records into.

#![allow(dead_code)]

use std::{fs, path::Path};

use lucia_codegen::{Answer, NONE, Tables};

/// Reads a file of the oracle's.
pub fn stored(name: &str) -> String {
    let path = Path::new(env!("CARGO_MANIFEST_DIR")).join("../oracle").join(name);
    fs::read_to_string(&path).unwrap_or_else(|e| panic!("{}: {e}", path.display()))
}

/// Many texts with a line `====` between two of them.
pub fn split(text: &str) -> Vec<String> {
    let mut cases = vec![String::new()];
    for line in text.split_inclusive('\n') {
        if line == "====\n" {
            cases.push(String::new());
        } else {
            cases.last_mut().unwrap().push_str(line);
        }
    }
    cases
}

/// Name, genlist's text and its answer: cases A to J and the stored sample.
pub fn cases() -> Vec<(String, String, String)> {
    let worked = ('A'..='J').map(|letter| {
        let read = |end: &str| stored(&format!("worked/{letter}.{end}"));
        (letter.to_string(), read("in"), read("out"))
    });
    let inputs = split(&stored("sample/inputs.txt"));
    let listings = split(&stored("sample/listings.txt"));
    assert_eq!((inputs.len(), listings.len()), (333, 333));
    let sample = inputs.into_iter().zip(listings).enumerate();
    worked.chain(sample.map(|(i, (given, answer))| (i.to_string(), given, answer))).collect()
}

/// genlist's text as tables.
pub fn read(text: &str) -> Tables {
    let mut t = Tables::default();
    let mut lines = text.lines();
    for table in [1, 3, 4, 5, 6, 7] {
        lines.next().expect("a line of names");
        for line in lines.by_ref().take_while(|line| !line.is_empty()) {
            if table == 1 {
                let hex = if line == "-" { "" } else { line };
                let digits = hex.as_bytes().chunks(2);
                let bytes = digits.map(|two| std::str::from_utf8(two).unwrap());
                let bytes = bytes.map(|two| u8::from_str_radix(two, 16).unwrap());
                t.push_string(&bytes.collect::<Vec<u8>>());
                continue;
            }
            let words = line.split(' ').map(|word| word.parse::<u32>().unwrap());
            let into = match table {
                3 => &mut t.symbols,
                4 => &mut t.references,
                5 => &mut t.functions,
                6 => &mut t.members,
                _ => &mut t.records,
            };
            into.extend(words);
        }
    }
    t
}

/// Whether a tree has `and=` or `or=` on a plain name. lucia-lang has no code for it.
pub fn has_short_assignment(t: &Tables) -> bool {
    let records = (0..).map_while(|number| t.record(number));
    let mut updates = records.filter(|r| r.kind == 25 && matches!(r.detail, 5 | 6));
    updates.any(|r| t.record(r.first).is_some_and(|left| left.detail == 0))
}

/// An answer as genlist prints it.
pub fn print(tables: &Tables, answer: &Answer) -> String {
    match answer {
        Answer::Listing(listing) => listing.text(tables),
        Answer::Refused(refused) => {
            format!("refusal place\n{} {}\n", refused.number, refused.place)
        }
    }
}

/// Case A's frame, other records following from 3 on.
pub fn frame(others: &[[u32; 8]]) -> Tables {
    let first = if others.is_empty() { 0 } else { 3 };
    let mut t = Tables { functions: vec![NONE, 0], ..Tables::default() };
    t.push_record([30, 0, 0, NONE, 0, 0, 1, 0]);
    t.push_record([31, 0, 0, 0, 0, 0, 0, 2]);
    t.push_record([4, 0, 0, 0, 0, 0, first, 0]);
    for words in others {
        t.push_record(*words);
    }
    t
}

/// A tree of so many levels, Parens down to a Null. Record 2 is on level 2, so each is on its own.
pub fn levels(count: u32) -> Tables {
    let parens = (3..count).map(|record| [3, 0, 0, 0, 0, 0, record + 1, 0]);
    let others: Vec<[u32; 8]> = parens.chain([[1, 0, 0, 0, 0, 0, 0, 0]]).collect();
    frame(&others)
}
