"""Counts that document 01 gives by the tree alone."""

from .words import *


def own(t, r):
    """The children, but for nested functions, which count for themselves."""
    return [c for c in t.children(r) if t.records[c].kind != FUNCTION]


def loop_depth(t, r):
    """The most loops on one path of the function's own tree; loops that an error skips count
    (reading 19)."""
    below = max((loop_depth(t, c) for c in own(t, r)), default=0)
    return below + (t.records[r].kind in LOOPS)


def pattern_depth(t, r):
    """The most Table and List patterns on one path down a pattern."""
    below = max((pattern_depth(t, c) for c in t.children(r)), default=0)
    return below + (t.records[r].kind in (TABLE_PATTERN, LIST_PATTERN))


def short_assignment(t, r):
    """`and=` or `or=` on a plain name: an AssignOp that jumps and is not 13 (reading 54)."""
    record = t.records[r]
    return (record.kind == ASSIGN_OP and record.detail in (AND, OR)
            and t.records[record.first].detail == 0)


def label_count(t, r):
    """'Labels counted', over a function's own tree; a run with errors may take fewer
    (reading 16). A Case's own patterns count, not those inside them (reading 18)."""
    record = t.records[r]
    kinds = [t.records[c].kind for c in t.children(r)]
    count = {MEMBER: 1, RETURN: 1, IF: 2, LOOP: 2, WHILE: 2, FOR: 3}.get(record.kind, 0)
    if record.kind == BINARY:
        count = int(record.detail in (AND, OR))
    elif record.kind == ASSIGN_OP:
        count = int(short_assignment(t, r))
    elif record.kind == CALL and HANDLER in kinds:
        count = 1 + kinds.count(HANDLER)
    elif record.kind == MATCH:
        count = 1 + kinds.count(CASE)
    elif record.kind == CASE:
        count = sum(1 + pattern_depth(t, c) for c in t.children(r)[:record.p])
    return count + sum(label_count(t, c) for c in own(t, r))
