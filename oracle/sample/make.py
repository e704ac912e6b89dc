#!/usr/bin/env python3
"""Remakes inputs.txt, listings.txt and coverage.txt beside it, always the same.

Small trees that genlist's text takes; one is kept when it brings something new: a pair of parent
and child kinds, a detail, a pair of opcodes that follow each other, a refusal, an error. The
answers are the Rust's own, with two exceptions. Where it panics, the answer is the refusal that the
model gives, after its number and place were held against the panic as far as that tells them. Trees
with `and=` or `or=` on a plain name are not put to the Rust (Job 1): their answers are the model's.
"""
import collections
import pathlib
import sys

HERE = pathlib.Path(__file__).resolve().parent
sys.path.insert(0, str(HERE.parent))

from cases import coverage, mix, rust
from cases.build import Node, Program, function, null
from cases.judge import Case, ask_rust
from model import text
from model.run import generate
from model.words import FUNCTION, Refused

SEED = "sample"
DRAWS = 9000
KEPT = 320
LARGEST = 60     # records
REFUSALS = 5     # of each number 10 to 16 at records of one kind and detail
SHORT_SEED = "short"
SHORT_KEPT = 30  # more trees with `and=` or `or=` on a plain name
MADE = "2026-11-16"
COMMIT = "5f8fdaec83"


def deepest():
    """128 levels, the most that is taken."""
    node = null()
    for _ in range(125):
        node = Node(3, children=[node])
    return Program(function(node)).words()


def features(words, answer):
    rows = [words[7][i:i + 8] for i in range(0, len(words[7]), 8)]
    for row in rows:
        yield "detail", row[0], row[1] if row[0] != FUNCTION else row[1] + 10 * (row[3] == 0)
        at, place = row[6], 0
        while at:
            yield "child", row[0], min(place, 2), rows[at][0]
            at, place = rows[at][7], place + 1
    for stream in answer.streams:
        codes = [code for code, _ in stream.markers]
        for pair in zip([None] + codes, codes + [None]):
            yield "follows", pair
        for capture, _ in stream.names.captures:
            yield "capture", capture
    for kind, _, _ in answer.errors:
        yield "error", kind
    yield "errors", min(len(answer.errors), 4)
    yield "functions", min(len(answer.streams), 5)


def answered(words):
    """(Answer, Refused): one of them; both None where rows 1 to 9 refuse or genlist's text is
    too small."""
    try:
        text.read(text.write(words).encode())
        return generate(words), None
    except Refused as refused:
        return None, refused if refused.number >= 10 else None
    except text.Input:
        return None, None


def kept_for(words, refused):
    """The refusal that a tree is kept for, as number, kind and detail, or None. Job 1's assignments
    count as the 13 that they were, so that the trees kept are the same as before it."""
    short = rust.short_assignments(words)
    if not short and refused is None:
        return None
    number, place = (13, short[0]) if short else (refused.number, refused.place)
    return number, *words[7][8 * place:8 * place + 2]


def choose():
    """The words kept, in the order drawn."""
    kept, seen, refusals = [deepest()], set(), collections.Counter()
    for i in range(DRAWS):
        words, _ = mix.case(SEED, i, "small", 0.1, short=False)
        answer, refused = (None, None) if rust.left_out(words) else answered(words)
        if answer is None and refused is None or len(words[7]) > 8 * LARGEST:
            continue
        key = kept_for(words, refused)
        if key is not None:
            if refusals[key] < REFUSALS:
                refusals[key] += 1
                kept.append(words)
        else:
            new = set(features(words, answer)) - seen
            # The more are kept, the more a new one must bring.
            if len(new) > len(kept) // 60:
                seen |= new
                kept.append(words)
        if len(kept) >= KEPT:
            break
    return kept


def short_features(words, answer, refused):
    """What a tree with Job 1's assignments shows of them; listings with errors count apart."""
    if refused is not None:
        yield "refusal", refused.number
        return
    rows = [words[7][i:i + 8] for i in range(0, len(words[7]), 8)]
    parents = {}
    for row in rows:
        at = row[6]
        while at:
            parents[at] = row[0]
            at = rows[at][7]
    for r in rust.short_assignments(words):
        operator, left = rows[r][1], rows[r][6]
        yield "in", parents[r], bool(answer.errors)
        yield "right", operator, rows[rows[left][7]][0], bool(answer.errors)
    for kind, _, _ in answer.errors:
        yield "error", kind


def choose_short():
    """More trees with Job 1's assignments, each with two new things or a new refusal."""
    kept, seen = [], set()
    for i in range(DRAWS):
        words, _ = mix.case(SHORT_SEED, i, "small", 0.1)
        answer, refused = (None, None) if rust.left_out(words) else answered(words)
        if answer is None and refused is None or len(words[7]) > 8 * LARGEST:
            continue
        if rust.short_assignments(words):
            new = set(short_features(words, answer, refused)) - seen
            if len(new) > 1 or any(one[0] == "refusal" for one in new):
                seen |= new
                kept.append(words)
        if len(kept) >= SHORT_KEPT:
            break
    return kept


def main():
    cases = [Case(words) for words in choose() + choose_short()]
    by_rust = ask_rust(cases)
    for case in cases:
        if case.difference():
            sys.exit(f"model and Rust: {case.difference()}\n{text.write(case.words)}")
    inputs = [text.write(case.words) for case in cases]
    listings = [case.expected() for case in cases]
    reached = coverage.Coverage()
    for case in cases:
        reached.add(case.words, case.answer, case.refused)
    (HERE / "inputs.txt").write_text("====\n".join(inputs))
    (HERE / "listings.txt").write_text("====\n".join(listings))
    early = [f"refusal {number}" for number in range(1, 10)]  # these trees all pass
    missing = ", ".join(m for m in reached.missing() if m not in early) or "nothing that can be"
    table = [f"Made by oracle/sample/make.py, seed '{SEED}', {MADE}, from lucia-lang commit "
             f"{COMMIT}: {len(cases)} trees.",
             "Listings are the Rust's; refusals are the model's, where the Rust panics.",
             f"{len(cases) - by_rust} trees have `and=` or `or=` on a plain name (Job 1). The Rust "
             "is not asked about them: their listings and refusals are the model's.", "",
             *reached.lines(), f"not reached: {missing}"]
    (HERE / "coverage.txt").write_text("\n".join(table) + "\n")
    print(f"{len(cases)} trees, {by_rust} of them put to the Rust; not reached: {missing}")


if __name__ == "__main__":
    main()
