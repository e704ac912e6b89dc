#!/usr/bin/env python3
"""Remakes tables, names and texts (.in and .out) beside it, always the same."""

import pathlib
import random
import sys

HERE = pathlib.Path(__file__).resolve().parent
sys.path.insert(0, str(HERE.parent))

from cases import build, damage, trees
from model.tree import verdict
from replay import children, hand, names_cases, texts_cases

SEED = 20261115


def lines(values, n):
    """Values in lines of n."""
    return [" ".join(map(str, values[i:i + n])) for i in range(0, len(values), n)]


def write_case(words):
    """Seven lengths, then the words of tables 1 to 7."""
    out = [" ".join(str(len(words[table])) for table in range(1, 8))]
    for table in range(1, 8):
        out += lines(words[table], 8 if table == 7 else 32)
    return "\n".join(out) + "\n"


def damaged_cases(rng):
    """Random trees with faults, until each number has come up often enough."""
    wanted = {None: 4, 1: 4, 3: 6, 4: 6, 5: 6, 6: 6, 7: 6, 8: 0, 9: 6}
    while any(wanted.values()):
        profile = trees.Profile(rng, records=rng.choice([8, 14, 25]))
        order = rng.choice([build.preorder, build.breadth_first, build.scattered])
        words = trees.make(rng, profile).words(order, rng)
        words = damage.damaged(rng, words)
        answer = verdict(words)
        number = answer and answer[0]
        if wanted[number] > 0:
            wanted[number] -= 1
            yield words


def table_cases():
    """(words, answer); the answers written by hand must be the model's."""
    stated = list(hand.cases())
    stated += [("children", answer, words) for answer, words in children.cases()]
    stated += [("damaged", "model", words) for words in damaged_cases(random.Random(SEED))]
    for i, (group, answer, words) in enumerate(stated):
        model = verdict(words)
        if answer != "model" and answer != model:
            sys.exit(f"case {i} of {group}: stated {answer}, the model says {model}")
        yield words, model


def main():
    tables, answers = [], []
    for words, answer in table_cases():
        tables.append(write_case(words))
        answers.append("ok" if answer is None else "%d %d" % answer)
    (HERE / "tables.in").write_text("".join(tables))
    (HERE / "tables.out").write_text("".join(line + "\n" for line in answers))
    print(f"tables: {len(answers)} cases")

    tables, answers = [], []
    for words, answer in names_cases.cases(random.Random(SEED)):
        tables.append(write_case(words))
        answers.append(answer)
    (HERE / "names.in").write_text("".join(tables))
    (HERE / "names.out").write_text("\n".join(answers))
    print(f"names: {len(answers)} cases")

    pairs = list(texts_cases.checked())
    (HERE / "texts.in").write_text("====\n".join(text for text, _ in pairs), newline="")
    (HERE / "texts.out").write_text("====\n".join(answer for _, answer in pairs))
    print(f"texts: {len(pairs)} cases")


if __name__ == "__main__":
    main()
