"""What a case must be answered with, and who says so: the Rust, or the model alone."""

import sys

from model import text
from model.counts import label_count
from model.listing import listing, refusal
from model.run import generate
from model.words import Refused

from . import rust

# Who says what the answer is.
RUST, PANIC, MODEL = "rust", "panic", "model"


class Case:
    """Tables with the model's answer: an Answer, a Refused, or the line of `input`."""

    __slots__ = ("words", "data", "way", "answer", "refused", "line", "told")

    def __init__(self, words=None, data=None, way="plain"):
        self.words, self.data, self.way = words, data, way
        self.answer = self.refused = self.line = None
        self.told = None    # by the Rust, with its `#` lines, where it was asked
        if data is not None:
            try:
                self.words = text.read(data)
            except text.Input as wrong:
                self.line = wrong.line
                return
        try:
            self.answer = generate(self.words)
        except Refused as refused:
            self.refused = refused
            return
        check_counts(self.answer)

    def rust_can_judge(self):
        """`input`, rows 1 to 9 and Job 1's assignments are outside what the Rust can be asked."""
        if self.line is not None or self.refused is not None and self.refused.number < 10:
            return False
        return not rust.left_out(self.words) and not rust.short_assignments(self.words)

    def difference(self):
        """How the Rust departs from the model, or None."""
        if self.told is None:
            return None
        return rust.difference(with_labels(self.answer) if self.answer else None, self.refused,
                               self.told)

    def by(self):
        if self.told is None:
            return MODEL
        return RUST if self.answer else PANIC

    def expected(self):
        """What genlist must print: a listing is the Rust's own, where it can judge."""
        if self.line is not None:
            return f"input {self.line}\n"
        if self.refused is not None:
            return refusal(self.refused)
        return listing(self.answer) if self.told is None else self.told.split("# labels", 1)[0]

    def outcome(self):
        """For counting."""
        if self.line is not None:
            return "input"
        if self.refused is not None:
            return "refusal"
        return "listing with errors" if self.answer.errors else "listing"


def ask_rust(cases):
    """One process for all that the Rust can judge; returns how many there are."""
    asked = [case for case in cases if case.rust_can_judge()]
    if not asked:
        return 0
    answers = rust.ask([text.write(case.words) for case in asked])
    if len(answers) != len(asked):
        sys.exit("the oracle gave another number of answers")
    for case, told in zip(asked, answers):
        case.told = told
    return len(asked)


def check_counts(answer):
    """The label counts are those of the tree, and the room that row 2 asks for is enough."""
    t = answer.t
    for stream in answer.streams:
        counted = label_count(t, stream.record)
        if stream.labels > counted or (stream.labels < counted and not answer.errors):
            sys.exit(f"labels: the run took {stream.labels}, the tree has {counted}")
    markers, constants, names, errors, lines = answer.words()
    records = len(t.records)
    assert len(markers) <= 2 * answer.forecast() == 64 * records
    assert len(constants) <= 9 * records and len(errors) <= 3 * records
    assert len(names) <= 3 * len(t.members) and len(lines) <= 7 * len(t.functions)


def with_labels(answer):
    """The listing and the label counts behind it, as `oracle --extra` gives them."""
    labels = "".join(f"# labels {s.number} {s.labels}\n" for s in answer.streams)
    return listing(answer) + labels
