"""Rows 7 to 9: the records are one tree, not too deep, its functions well numbered."""

from .words import *
from .tables import Tables, row_1, row_2, row_3
from .shape import row_4, row_5, row_6


def row_7(t):
    """One but 0 not named by exactly one link; at the record named wrongly."""
    named = [0] * len(t.records)
    for record in t.records:
        named[record.first] += 1
        named[record.next] += 1
    for r in range(1, len(named)):
        if named[r] != 1:
            raise Refused(7, r)


def row_8(t):
    """Nesting past 128 levels, record 0 being level 1; at the lowest record (reading 9)."""
    level = [1] * len(t.records)
    for r, record in enumerate(t.records):  # links rise, so levels are known in time
        if level[r] > LEVELS:
            raise Refused(8, r)
        if record.first:
            level[record.first] = level[r] + 1
        if record.next:
            level[record.next] = level[r]


def visiting_order(t, r):
    """The children of r as the run visits them ('Records', last paragraph)."""
    record, children = t.records[r], t.children(r)
    if record.kind in (ASSIGN, ASSIGN_UNPACK):
        return children[-1:] + children[:-1]
    if record.kind == ASSIGN_MULTI:
        return children[record.p:] + children[:record.p][::-1]
    return children


def function_records(t):
    """(record, enclosing function's place in this list or none), in visiting order."""
    found = []

    def visit(r, enclosing):
        if t.records[r].kind == FUNCTION:
            found.append((r, enclosing))
            enclosing = len(found) - 1
        for child in visiting_order(t, r):
            visit(child, enclosing)

    visit(0, NONE)
    return found


def row_9(t):
    """Functions 0, 1, .. in visiting order, table 5 as long, parents the enclosing functions;
    by rising record, place 0 for the length and for record 0 (reading 13)."""
    found = function_records(t)
    if len(found) != len(t.functions):
        raise Refused(9, 0)
    for number, (r, enclosing) in sorted(enumerate(found), key=lambda item: item[1][0]):
        if t.records[r].p != number or t.functions[number][0] != enclosing:
            raise Refused(9, r)


def check(words, lengths=None):
    """Rows 1 to 9 (2 only when output lengths are given): the tables, or Refused."""
    row_1(words)
    if lengths is not None:
        row_2(words, lengths)
    t = Tables(words)
    t.split()
    for row in (row_3, row_4, row_5, row_6, row_7, row_8, row_9):
        row(t)
    return t


def verdict(words, lengths=None):
    """(number, place) of the first broken rule of rows 1 to 9, or None."""
    try:
        check(words, lengths)
    except Refused as refused:
        return refused.number, refused.place
    return None
