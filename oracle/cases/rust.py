"""Asking the Rust oracle, and holding its answers against the model's."""

import pathlib
import re
import subprocess

HERE = pathlib.Path(__file__).resolve().parent.parent
ORACLE = HERE / "target" / "release" / "oracle"
SOURCE = HERE / "gen" / "compiler" / "codegen.rs"

# What stands in the line of codegen.rs where a refusal's panic arises.
PANICS = [
    (10, "self.semantic.references["),
    (11, 'unreachable!("symbol not found")'),
    (12, "get_index_of(&symbol_id).unwrap()"),
    (13, "BinOp::And | BinOp::Or | BinOp::Is => unreachable!()"),
    (14, "assert!("),
    (15, "path.last().unwrap()"),
]


def ask(texts, extra=True):
    """The oracle's answers to many texts."""
    command = [str(ORACLE)] + ["--extra"] * extra
    done = subprocess.run(command, input="====\n".join(texts).encode(), stdout=subprocess.PIPE,
                          check=True)
    return re.split(r"(?m)^====\n", done.stdout.decode())


def left_out(words):
    """What runs against the Rust leave out: NaN, minus zero, ranges that end before they
    start ('Down through a function')."""
    for r in range(0, len(words[7]) - 7, 8):
        kind, detail, p, q, start, end = words[7][r:r + 6]
        if start > end:
            return True
        if kind in (1, 35) and detail == 3:
            bits = q << 32 | p
            if bits == 1 << 63 or bits & (1 << 63) - 1 > 0x7FF << 52:
                return True
    return False


def short_assignments(words):
    """The records with `and=` or `or=` on a plain name. The Rust panics there, so a tree with one is
    not put to it: 'judged by this text alone' (Job 1, reading 54)."""
    rows = [words[7][at:at + 8] for at in range(0, len(words[7]), 8)]
    return [r for r, row in enumerate(rows) if row[0] == 25 and row[1] in (5, 6)
            and rows[row[6]][1] == 0]


def panic_number(extra):
    """The refusal that a panic's place in codegen.rs speaks for, or None."""
    found = re.search(r"# at codegen\.rs:(\d+)", extra)
    if found is None:
        return None
    line = SOURCE.read_text().splitlines()[int(found[1]) - 1]
    return next((number for number, words in PANICS if words in line), None)


def difference(answer, refused, said):
    """How the Rust's answer departs from the model's listing or refusal, or None.

    A panic stands for a refusal 10 to 16. Its place in codegen.rs must be that of the number, and
    for 10 to 12 the last Ident looked at must be the place. 16 the Rust doesn't notice where the
    function is met, and panics somewhere after it (reading 17).
    """
    if refused is None:
        if said == answer:
            return None
        return "other listing"
    if not said.startswith("panic "):
        return f"the model refuses {refused.number} {refused.place}, the Rust does not"
    if refused.number == 16:
        return None
    number = panic_number(said)
    if number != refused.number:
        return f"the model refuses {refused.number}, the Rust's panic speaks for {number}"
    if number <= 12:
        ident = re.search(r"# ident (\S+)", said)[1]
        if ident != str(refused.place):
            return f"refusal {number}: the model's place is {refused.place}, the Rust's {ident}"
    return None
