#!/usr/bin/env python3
"""Remakes crates/genlist_test/stdin and stdout, always the same: texts and genlist's answers.

A line `====` stands between two texts and between two answers. In this order: cases A to J, nesting of
128 and 129 levels, each error, every refusal that a text can reach, `and=` and `or=` on plain names, the
texts for the reader, the stored sample, a text that is too long, and one without a line feed at its end.

Each listing is the Rust's (oracle/build.sh must have been run), but for `and=` and `or=` on plain names,
of which the Rust is not asked: these are stated by hand, and in the sample they are the model's. Refusals
and `input` are stated by hand, but for the refusals of the sample, where the Rust panics. All must be
the model's too.
"""

import pathlib
import re
import sys

HERE = pathlib.Path(__file__).resolve().parent
sys.path.insert(0, str(HERE.parent))

from cases import rust
from model import text
from model.listing import answer_text
from replay import refusal_texts, short_texts, texts_cases
from replay.refusal_texts import nested
from replay.texts_cases import LISTING

TARGET = HERE.parent.parent / "crates" / "genlist_test"
WORKED = "ABCDEFGHIJ"
RUST = None     # in place of an answer: the Rust gives it


def worked():
    """Cases A to J, written by hand from document 01."""
    folder = HERE.parent / "worked"
    for case in WORKED:
        yield (folder / f"{case}.in").read_text(), (folder / f"{case}.out").read_text()


def errors():
    """Each error, where it arises."""
    outside = refusal_texts.text
    yield outside("a Break outside a loop", "19 0 0 0 5 10 0 0"), RUST
    yield outside("a Continue outside a loop", "20 0 0 0 5 13 0 0"), RUST
    yield outside("a Return in a Do", "5 0 0 0 0 0 4 0", "30 2 1 none 0 0 5 0", "31 0 0 0 0 0 0 6",
                  "4 0 0 0 0 0 7 0", "21 0 0 0 3 14 8 0", "1 0 0 0 0 0 0 0",
                  functions=["none 0", "0 0"]), RUST


def refusals():
    for number, place, given in refusal_texts.cases():
        yield given, f"refusal place\n{number} {place}\n"


def short():
    for given, answer, _ in short_texts.cases():
        yield given, answer


def reader():
    """The texts for the reader; a listing is the Rust's."""
    for given, answer in texts_cases.checked():
        yield given, RUST if answer.startswith(LISTING) else answer


def sample():
    folder = HERE.parent / "sample"
    inputs, answers = (re.split(r"(?m)^====\n", (folder / name).read_text())
                       for name in ("inputs.txt", "listings.txt"))
    yield from zip(inputs, answers, strict=True)


def last():
    """Line 6 holds byte 262,144; the other text ends where its last line does."""
    base = texts_cases.text_of("262,144 bytes or more", texts_cases.line(6, "0" + " " * 262144 + "0"))
    yield base, "input 6\n"
    yield texts_cases.text_of("no line feed at the end", texts_cases.BASE[:21])[:-1], RUST


def cases():
    """(text, answer or RUST)"""
    yield from worked()
    yield nested("128 levels", 128), RUST
    yield nested("129 levels", 129), "refusal place\n8 129\n"
    for group in (errors, refusals, short, reader, sample, last):
        yield from group()


def told_by_rust(given):
    """The Rust's listings, of texts that are read and written again in the plain form; none for Job 1's
    assignments."""
    words = {one: text.read(one.encode()) for one in given}
    asked = {one: text.write(w) for one, w in words.items() if not rust.short_assignments(w)}
    return dict(zip(asked, rust.ask(asked.values(), extra=False), strict=True))


def checked():
    """(text, answer, whether it is a listing of the Rust's): each the model's."""
    pairs = list(cases())
    models = [answer_text(given.encode()) for given, _ in pairs]
    listed = [given for (given, _), model in zip(pairs, models) if model.startswith(LISTING)]
    by_rust = told_by_rust(listed)
    for (given, stated), model in zip(pairs, models):
        answer = by_rust.get(given, model) if stated is RUST else stated
        if not answer == model == by_rust.get(given, model):
            sys.exit(f"{given.splitlines()[0]}: stated\n{answer}the model says\n{model}")
        yield given, answer, given in by_rust


def main():
    made = list(checked())
    TARGET.mkdir(exist_ok=True)
    (TARGET / "stdin").write_text("====\n".join(given for given, _, _ in made), newline="")
    (TARGET / "stdout").write_text("====\n".join(answer for _, answer, _ in made))
    listed = sum(answer.startswith(LISTING) for _, answer, _ in made)
    by_rust = sum(rusts for _, _, rusts in made)
    print(f"listings: {len(made)} texts, {listed} with a listing, {by_rust} of these the Rust's")


if __name__ == "__main__":
    main()
