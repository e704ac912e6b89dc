#!/usr/bin/env python3
"""Remakes crates/codegen_test/stdin and stdout, always the same.

Per case: seven lengths (words of tables 1 to 7), five lengths (words of the outputs), then the words of
the tables. The answer is `refused` with number and place, or `listing` with lines, errors and forecast,
and a line for the words of each output.

Listings are the Rust's own, as stored in worked/ and sample/, turned into words here. From the model come
what the Rust does not give: refusals (1 to 9 stated by hand in hand.py and children.py where they have a
purpose of their own), the forecast, and each function's label count, which sample/make.py held against the
Rust's when it stored the listing. Loop depth is the oracle's count. The words of every accepted case must
be the model's too.

Of `and=` and `or=` on plain names the Rust is not asked. The cases of short_texts.py are stated by hand,
label counts too; those of the sample are the model's. 13 on other operators is stated by hand as well
(refusal_texts.py).
"""

import pathlib
import re
import sys

HERE = pathlib.Path(__file__).resolve().parent
sys.path.insert(0, str(HERE.parent))

from cases.build import Program, function, null
from model import text
from model.run import generate
from model.words import CODE, CONSTANTS, ERRORS, FLOAT, INT, NONE, Refused
from replay import children, hand, refusal_texts, short_texts
from replay.make import lines

TARGET = HERE.parent.parent / "crates" / "codegen_test"
WORKED = "ABCDEFGHIJ"
PER_NUMBER = 12     # of each number 1 to 9 from hand.py and children.py
SMALL = 1200        # words of such a case


def enough(words):
    """Just enough words of each output: 32 markers, 3 constants, 1 error per record, and so on."""
    records = len(words[7]) // 8
    return [64 * records, 9 * records, 3 * len(words[6]), 3 * records, 7 * (len(words[5]) // 2)]


def write_case(words, room):
    """The lengths of tables and outputs, then the words of tables 1 to 7."""
    out = [" ".join(str(len(words[table])) for table in range(1, 8)), " ".join(map(str, room))]
    for table in range(1, 8):
        out += lines(words[table], 8 if table == 7 else 32)
    return "\n".join(out) + "\n"


def answer_of(counts, outputs):
    """The program's text for a listing."""
    return "\n".join(" ".join(map(str, row)) for row in [["listing", *counts], *outputs]) + "\n"


def constant(name, value):
    """The three words of a constant of the listing."""
    kind = CONSTANTS.index(name)
    if kind == INT:
        bits = int(value) % (1 << 64)
    elif kind == FLOAT:
        bits = int(value, 16)
    else:
        bits = 0 if value == "-" else int(value)
    return [kind, bits & NONE, bits >> 32]


def words_of(listing, labels):
    """The five outputs of a listing's text; label counts are handed in."""
    sections = {}
    for row in listing.splitlines()[1:]:
        number, section, _, word, value, more = row.split(" ")
        sections.setdefault(number, {}).setdefault(section, []).append((word, value, more))
    markers, constants, names, errors, counts = [], [], [], [], []
    for word, value, more in sections.pop("-", {}).get("error", []):
        errors += [ERRORS.index(word), int(value), int(more)]
    for number in sorted(sections, key=int):
        rows = sections[number]
        for word, value, _ in rows["code"]:
            markers += [CODE[word], 0 if value == "-" else int(value)]
        for word, value, _ in rows["const"]:
            constants += constant(word, value)
        for _, _, symbol in rows.get("local", []) + rows.get("global", []):
            names += [int(symbol), 0, 0]
        for word, index, symbol in rows.get("upvalue", []):
            names += [int(symbol), ["Local", "Upvalue"].index(word) + 1, int(index)]
        counts += [len(rows["code"]), labels[int(number)], len(rows["const"])]
        counts += [len(rows.get(section, [])) for section in ("local", "global", "upvalue")]
        counts.append(int(rows["head"][1][1]))
    return [markers, constants, names, errors, counts]


def model_answer(words, room):
    """The model's text, with row 2 for the room that is lent."""
    try:
        answer = generate(words, room)
    except Refused as refused:
        return f"refused {refused.number} {refused.place}\n"
    outputs = answer.words()
    return answer_of([len(answer.streams), len(answer.errors), answer.forecast()], outputs)


def stored_answer(words, stored, labels=None):
    """The stored text, turned into the program's; label counts are the model's unless stated."""
    refusal = re.fullmatch(r"refusal place\n(\d+) (\d+)\n", stored)
    if refusal:
        return f"refused {refusal[1]} {refusal[2]}\n"
    model = generate(words)
    outputs = words_of(stored, labels or [stream.labels for stream in model.streams])
    return answer_of([len(outputs[4]) // 7, len(outputs[3]) // 3, model.forecast()], outputs)


def stored_cases():
    """Cases A to J and the sample: (words, room, answer)."""
    worked = HERE.parent / "worked"
    pairs = [((worked / f"{c}.in").read_text(), (worked / f"{c}.out").read_text()) for c in WORKED]
    sample = HERE.parent / "sample"
    inputs, listings = (re.split(r"(?m)^====\n", (sample / name).read_text())
                        for name in ("inputs.txt", "listings.txt"))
    pairs += zip(inputs, listings, strict=True)
    for i, (given, stored) in enumerate(pairs):
        words = text.read(given.encode())
        room = [n + i % 4 for n in enough(words)]
        yield words, room, stored_answer(words, stored)


def short_cases():
    """`and=` and `or=` on plain names, and where 13 stands beside them."""
    for given, answer, labels in short_texts.cases():
        words = text.read(given.encode())
        yield words, enough(words), stored_answer(words, answer, labels)
    for number, place, given in refusal_texts.row_13():
        words = text.read(given.encode())
        yield words, enough(words), f"refused {number} {place}\n"


def early_cases():
    """Refusals 1 and 3 to 9, stated by hand, and both depths of nesting."""
    taken = {}
    stated = [(answer, words) for _, answer, words in hand.cases()] + list(children.cases())
    for answer, words in stated:
        number = answer and answer[0]
        if answer == "model" or sum(map(len, words.values())) > SMALL:
            continue
        taken[number] = taken.get(number, 0) + 1
        if number is not None and taken[number] <= PER_NUMBER:
            yield words, enough(words), "refused %d %d\n" % answer
    for levels in (128, 129):
        words = hand.frame(hand.chain(levels - 2)).words()
        yield words, enough(words), model_answer(words, enough(words))


def space_cases():
    """Row 2: one word too few in each output, in several, and before row 3 but after row 1."""
    root = function(null(), null())
    words = Program(root, [b"a"], [(0, 0)], [0], {root: [0]}).words()
    room = enough(words)
    for short in ([0], [1], [2], [3], [4], [4, 3], [2, 1], [0, 1, 2, 3, 4]):
        less = [n - (k in short) for k, n in enumerate(room)]
        yield words, less, f"refused 2 {min(short)}\n"
    yield words, [0] * 5, "refused 2 0\n"
    yield words, room, model_answer(words, room)
    wrong = hand.changed(words, (4, 0, 7))
    yield wrong, room, "refused 3 0\n"
    yield wrong, [room[0], room[1], 0, 0, 0], "refused 2 2\n"
    yield hand.with_length(wrong, 7, []), [0] * 5, "refused 1 7\n"


def main():
    tables, answers = [], []
    for words, room, answer in [*stored_cases(), *short_cases(), *early_cases(),
                               *space_cases()]:
        model = model_answer(words, room)
        if answer != model:
            sys.exit(f"case {len(answers)}: stored\n{answer}the model says\n{model}")
        tables.append(write_case(words, room))
        answers.append(answer)
    (TARGET / "stdin").write_text("".join(tables))
    (TARGET / "stdout").write_text("".join(answers))
    found = sorted({int(a.split()[1]) for a in answers if a.startswith("refused")})
    print(f"calls: {len(answers)} cases, refusals {found}")


if __name__ == "__main__":
    main()
