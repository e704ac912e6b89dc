"""What a set of cases has reached, as a table."""

import collections

from model.shape import DETAILS
from model.words import *

from . import rust

OUTCOMES = ["listing", "listing with errors", "refusal", "input"]
PLACES_OF_13 = [("in Binary", IS), ("on a name", IS), ("on a member", AND), ("on a member", OR),
                ("on a member", IS)]


def place_of_13(records, at):
    """What a 13 stands at, and its operator."""
    if records[at] == BINARY:
        return "in Binary", records[at + 1]
    left = records[at + 6]
    return "on a member" if records[8 * left + 1] else "on a name", records[at + 1]


class Coverage:
    def __init__(self):
        self.count = collections.Counter()

    def add(self, words, answer, refused):
        """Counts a case by its records and the model's Answer or Refused."""
        self.count["cases"] += 1
        if refused is not None:
            self.count["refusal", refused.number] += 1
            if refused.number < 10:
                return
            if refused.number == 13:
                self.count["operator", *place_of_13(words[7], 8 * refused.place)] += 1
        for r in range(0, len(words[7]), 8):
            kind, detail = words[7][r:r + 2]
            self.count["kind", kind] += 1
            if kind in DETAILS:
                self.count["detail", kind, detail] += 1
        short = rust.short_assignments(words)
        for r in short:
            self.count["short", words[7][8 * r + 1]] += 1
        self.count["short trees"] += bool(short)
        self.count["short listings"] += bool(short and answer)
        if answer is not None:
            self.count["listings"] += 1
            for stream in answer.streams:
                for code, _ in stream.markers:
                    self.count["opcode", code] += 1
                for constant in stream.constants:
                    self.count["constant", constant[0]] += 1
                for capture, _ in stream.names.captures:
                    self.count["capture", capture] += 1
            for error in answer.errors:
                self.count["error", error[0]] += 1

    def told(self, case):
        """Counts a case by its answer, who says what it must be, and how its text was made."""
        self.count["answer", case.outcome(), case.by()] += 1
        self.count["way", case.way, case.outcome()] += 1

    def answers(self):
        """How many answers there were, and what each was held against."""
        said = {"rust": "with the Rust's listing, byte for byte",
                "panic": "with the model's, where the Rust panics as it should",
                "model": "with the model's alone"}
        for outcome in OUTCOMES:
            count = {by: self.count["answer", outcome, by] for by in said}
            parts = "; ".join(f"{n} {said[by]}" for by, n in count.items() if n)
            yield f"{outcome}: {sum(count.values())}" + (f" ({parts})" if parts else "")

    def ways(self):
        """How texts were made, and what came of them."""
        for way in sorted({key[1] for key in self.count if key[0] == "way"}):
            count = [f"{self.count['way', way, outcome]} {outcome}" for outcome in OUTCOMES
                     if self.count["way", way, outcome]]
            yield f"  {way}: " + ", ".join(count)

    def lines(self):
        count = self.count
        yield f"cases {count['cases']}, listings {count['listings']}"
        yield ""
        yield "kind, its records, and per detail where details are told apart:"
        for kind, name in KIND_NAMES.items():
            details = " ".join(f"{d}:{count['detail', kind, d]}" for d in DETAILS.get(kind, ()))
            yield f"  {kind:2} {name:13} {count['kind', kind]:8}  {details}".rstrip()
        yield "opcode:"
        for code, name in enumerate(OPCODES):
            yield f"  {code:2} {name:17} {count['opcode', code]:8}"
        for title, key, names in [("constant", "constant", enumerate(CONSTANTS)),
                                  ("capture", "capture", [(1, "Local"), (2, "Upvalue")]),
                                  ("error", "error", enumerate(ERRORS))]:
            yield f"{title}: " + ", ".join(f"{name} {count[key, n]}" for n, name in names)
        yield "refusal: " + ", ".join(f"{n}: {count['refusal', n]}" for n in range(1, 17))
        yield "13: " + ", ".join(f"{OPERATORS[d]} {where} {count['operator', where, d]}"
                                 for where, d in PLACES_OF_13)
        yield (f"short assignments: And {count['short', AND]}, Or {count['short', OR]}, in "
               f"{count['short trees']} trees, {count['short listings']} of them with a listing")

    def missing(self):
        """What no case has reached; PopJumpIfTrue can't be (reading 24), 2 is no matter of
        tables."""
        count = self.count
        out = [f"kind {kind}" for kind in KIND_NAMES if not count["kind", kind]]
        out += [f"detail {d} of {KIND_NAMES[kind]}" for kind, details in DETAILS.items()
                for d in details if not count["detail", kind, d]]
        out += [f"opcode {name}" for code, name in enumerate(OPCODES)
                if not count["opcode", code] and name != "PopJumpIfTrue"]
        out += [f"constant {name}" for n, name in enumerate(CONSTANTS) if not count["constant", n]]
        out += [f"error {name}" for n, name in enumerate(ERRORS) if not count["error", n]]
        out += [f"refusal {n}" for n in range(1, 17) if n != 2 and not count["refusal", n]]
        out += [f"13 for {OPERATORS[d]} {where}" for where, d in PLACES_OF_13
                if not count["operator", where, d]]
        out += [f"short {OPERATORS[d]}" for d in (AND, OR) if not count["short", d]]
        return out
