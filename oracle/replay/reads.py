#!/usr/bin/env python3
"""Remakes crates/read_test/stdin and stdout, always the same.

The texts are those of texts.in, cases A to J, and some without a line feed at their end; `====` and a
line feed between two. The answer is `input` and a line number, or a line for the words of each of tables
1 to 7, a space after each word.
"""

import pathlib
import re
import sys

HERE = pathlib.Path(__file__).resolve().parent
sys.path.insert(0, str(HERE.parent))

from model import text
from replay import texts_cases
from replay.listings import worked

TARGET = HERE.parent.parent / "crates" / "read_test"

EMPTY = "a\n\nb\n\nc\n\nd\n\ne\n\nf"    # the tables' lines of names, the last line without its end
RECORD = "1 2 3 4 5 6 7 8"
# Texts without a line feed at their end, with the line that can't be read or None.
ENDINGS = [("strings", 2), ("strings\n\nx", 4), (EMPTY, None), (f"{EMPTY}\n{RECORD}", None),
           (f"{EMPTY}\n{RECORD}\n\nz", 14), ("a\n-\n--", 3), ("a\n-", 3), ("a\n00ff\n\nb\n 1 2", 5),
           ("a\n\nb\n1 2 ", 4)]


def answer(given):
    """What read_test prints for a text."""
    try:
        words = text.read(given.encode())
    except text.Input as wrong:
        return f"input {wrong.line}\n"
    return "".join("".join(f"{word} " for word in words[table]) + "\n" for table in range(1, 8))


def endings():
    """The texts of ENDINGS, their lines as stated."""
    for given, line in ENDINGS:
        told = re.fullmatch(r"input (\d+)\n", answer(given))
        if (told and int(told[1])) != line:
            sys.exit(f"{given!r}: stated {line}, the model says {answer(given)}")
        yield given


def main():
    texts = [given for given, _ in [*texts_cases.checked(), *worked()]] + list(endings())
    (TARGET / "stdin").write_text("====\n".join(texts), newline="")
    (TARGET / "stdout").write_text("".join(answer(given) for given in texts))
    print(f"reads: {len(texts)} texts")


if __name__ == "__main__":
    main()
