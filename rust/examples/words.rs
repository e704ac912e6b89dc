//! The call as it is, in words: cases in the form of `crates/codegen_test/stdin` on standard input
//! (seven lengths of tables, five of outputs, then the words of the tables), each answer in the form of
//! its `stdout`. `oracle/library` holds these answers against the model.

use std::io::{Read, Write, stdin, stdout};

use lucia_codegen::{Output, Tables, call_on_this_thread};

/// The next number of the text.
fn number<'a>(words: &mut impl Iterator<Item = &'a str>) -> Option<u32> {
    words.next().map(|word| word.parse().expect("a number"))
}

fn row(words: &[u32]) -> String {
    let words: Vec<String> = words.iter().map(u32::to_string).collect();
    words.join(" ") + "\n"
}

/// One case: its answer, or nothing at the end of the text.
fn answer<'a>(words: &mut impl Iterator<Item = &'a str>) -> Option<String> {
    let first = number(words)?;
    let mut lengths = vec![first as usize];
    lengths.extend((0..11).map(|_| number(words).expect("a length") as usize));
    let mut table = |i: usize| -> Vec<u32> {
        (0..lengths[i]).map(|_| number(words).expect("a word")).collect()
    };
    let tables = Tables {
        strings: table(0),
        bytes: table(1).into_iter().map(|byte| byte as u8).collect(),
        symbols: table(2),
        references: table(3),
        functions: table(4),
        members: table(5),
        records: table(6),
    };
    let mut space: Vec<Vec<u32>> = lengths[7..].iter().map(|&length| vec![0; length]).collect();
    let [markers, constants, names, errors, lines] = &mut space[..] else { unreachable!() };
    let mut output = Output { markers, constants, names, errors, lines };
    // SAFETY: `main` gives this thread 8 MB of stack.
    let given = unsafe { call_on_this_thread(&tables, &mut output) };
    Some(match given {
        Err(refused) => format!("refused {} {}\n", refused.number, refused.place),
        Ok(told) => {
            // as many words of each output as the lines count
            let (lines, errors) = (told.lines as usize * 7, told.errors as usize * 3);
            let count = |word: usize| -> usize {
                space[4][..lines].chunks(7).map(|line| line[word] as usize).sum()
            };
            let names = count(3) + count(4) + count(5);
            let written = [count(0) * 2, count(2) * 3, names * 3, errors, lines];
            let rows = space.iter().zip(written).map(|(words, n)| row(&words[..n]));
            let head = format!("listing {} {} {}\n", told.lines, told.errors, told.forecast);
            head + &rows.collect::<String>()
        }
    })
}

fn answers() -> std::io::Result<()> {
    let mut text = String::new();
    stdin().read_to_string(&mut text)?;
    let mut words = text.split_ascii_whitespace();
    while let Some(answer) = answer(&mut words) {
        stdout().write_all(answer.as_bytes())?;
    }
    Ok(())
}

fn main() -> std::io::Result<()> {
    let worker = std::thread::Builder::new().stack_size(8 << 20).spawn(answers)?;
    worker.join().expect("the work is done")
}
