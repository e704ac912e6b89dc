#!/usr/bin/env python3
"""Prints a seeded tree of the oracle's cases: every kind, no refusal and no error.

usage: mix.py RECORDS   (genlist's text; at least nine tenths of so many records)
"""
import pathlib
import random
import sys

sys.path.insert(0, str(pathlib.Path(__file__).resolve().parent.parent / "oracle"))

from cases import rust, trees
from model import text
from model.run import generate
from model.words import Refused


def profile(rng, records):
    made = trees.Profile(rng, records=records, errors=0, wrong=0, functions=250)
    made.strings = min(300, records // 8)
    made.symbols, made.members, made.references = 1000, 1000, 4000
    made.depth = 12
    made.fill = True
    made.weights = {kind: 2 for kind in range(1, 28)}
    return made


def main():
    records = int(sys.argv[1])
    for i in range(1000):
        rng = random.Random(f"bench {records} {i}")
        words = trees.make(rng, profile(rng, records)).words()
        found = len(words[7]) // 8
        if not records * 9 // 10 <= found <= records or rust.left_out(words):
            continue
        try:
            if not generate(words).errors:
                sys.stdout.write(text.write(words))
                return
        except Refused:
            pass
    sys.exit("mix.py: no tree of this size")


if __name__ == "__main__":
    main()
