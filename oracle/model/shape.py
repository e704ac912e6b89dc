"""Rows 4 to 6: each record's kind, words, links and children."""

from .words import *

# Reading 4: the details of each kind; a kind that is not here ignores its detail (reading 3).
DETAILS = {
    LIT: range(6), LIT_PATTERN: range(6), FN: range(2), UNARY: range(2), BINARY: range(14),
    TYPE_CHECK: range(10), MEMBER: (*range(6), *range(8, 14)), IF: range(2), IMPORT: range(4),
    ASSIGN_OP: range(14), FUNCTION: range(3), PARAMS: range(2), LEFT: range(7),
    TABLE_PATTERN: range(2), LIST_PATTERN: range(2), ITEM: range(2),
}


def named_string(record):
    """The string that row 4 looks at, or None (reading 4)."""
    if record.kind in (LIT, LIT_PATTERN):
        return record.p if record.detail in (4, 5) else None
    if record.kind in (IDENT, IDENT_PATTERN, IMPORT):
        return record.q
    if record.kind == EFFECT:
        return record.p
    if record.kind == FUNCTION:
        return None if record.q == NONE else record.q
    return None


def row_4(t):
    """Unknown kind or detail; string out of range; Bool not 0 or 1."""
    for r, record in enumerate(t.records):
        if record.kind not in KIND_NAMES:
            raise Refused(4, r)
        if record.kind in DETAILS and record.detail not in DETAILS[record.kind]:
            raise Refused(4, r)
        string = named_string(record)
        if string is not None and string >= len(t.spans):
            raise Refused(4, r)
        if record.kind in (LIT, LIT_PATTERN) and record.detail == 1 and record.p > 1:
            raise Refused(4, r)


def row_5(t):
    """Link neither 0 nor greater, or past the last record; at the record that holds it."""
    for r, record in enumerate(t.records):
        for link in (record.first, record.next):
            if link != 0 and not r < link < len(t.records):
                raise Refused(5, r)


def is_expr(kind):
    return kind in EXPRS


def is_pattern(kind):
    return kind in PATTERNS


def only(wanted):
    return lambda kind: kind == wanted


def fits(kinds, *tests):
    """Exactly one child for each test, in order."""
    return len(kinds) == len(tests) and all(test(kind) for test, kind in zip(tests, kinds))


def each(kinds, test):
    return all(test(kind) for kind in kinds)


def pairs(kinds, first, second):
    return len(kinds) % 2 == 0 and each(kinds[::2], first) and each(kinds[1::2], second)


def property_tests(member):
    """Bracket's expr or Dot's and DoubleColon's Ident; the Meta forms have none."""
    if member == BRACKET:
        return (is_expr,)
    return (only(IDENT),) if member in (DOT, DOUBLE_COLON) else ()


def call_children(kinds):
    """Callee, arguments, at most one Function, Handlers, in this order (reading 6)."""
    at = 1
    while at < len(kinds) and is_expr(kinds[at]):
        at += 1
    if at < len(kinds) and kinds[at] == FUNCTION:
        at += 1
    return bool(kinds) and is_expr(kinds[0]) and each(kinds[at:], only(HANDLER))


def import_children(detail, p, kinds):
    path, rest = kinds[:p], kinds[p:]
    if len(kinds) < p or not each(path, only(IDENT)):
        return False
    if detail == 1:
        return fits(rest, only(IDENT))
    return each(rest, only(ITEM)) if detail == 2 else not rest


def counted(p, kinds, test):
    """The first p children pass the test; the others are returned, or None."""
    return kinds[p:] if len(kinds) >= p and each(kinds[:p], test) else None


def children_fit(record, kinds):
    """'Records': whether these are the children of the record's kind. Reading 5: no least
    numbers but a variadic's."""
    kind, detail, p = record.kind, record.detail, record.p
    ident, block, left = only(IDENT), only(BLOCK), only(LEFT)
    if kind in (LIT, IDENT, BREAK, CONTINUE, LIT_PATTERN, IDENT_PATTERN):
        return not kinds  # reading 2
    if kind in (PAREN, UNARY, TYPE_CHECK, RETURN):
        return fits(kinds, is_expr)
    if kind in (BLOCK, LIST):
        return each(kinds, is_expr)
    if kind == FN:
        return fits(kinds, *[ident] * detail, only(FUNCTION))
    if kind == EFFECT:
        return fits(kinds, ident, only(PARAMS))
    if kind == TABLE:
        return pairs(kinds, is_expr, is_expr)
    if kind == BINARY:
        return fits(kinds, is_expr, is_expr)
    if kind == MEMBER:
        return fits(kinds, is_expr, *property_tests(detail % SAFE))
    if kind == CALL:
        return call_children(kinds)
    if kind == IF:
        return fits(kinds, is_expr, block, *[is_expr] * detail)
    if kind == MATCH:
        return bool(kinds) and is_expr(kinds[0]) and each(kinds[1:], only(CASE))
    if kind == LOOP:
        return fits(kinds, block)
    if kind == WHILE:
        return fits(kinds, is_expr, block)
    if kind == FOR:
        rest = counted(p, kinds, ident)
        return rest is not None and fits(rest, is_expr, block)
    if kind == IMPORT:
        return import_children(detail, p, kinds)
    if kind == GLO_ASSIGN:
        return fits(kinds, ident, is_expr)
    if kind in (ASSIGN, ASSIGN_OP):
        return fits(kinds, left, is_expr)
    if kind == ASSIGN_UNPACK:
        rest = counted(p, kinds, left)
        return rest is not None and fits(rest, is_expr)
    if kind == ASSIGN_MULTI:  # other lengths pass here and are 14 (reading 5)
        rest = counted(p, kinds, left)
        return rest is not None and each(rest, is_expr)
    if kind == FUNCTION:
        return fits(kinds, only(PARAMS), block)
    if kind == PARAMS:
        return len(kinds) >= detail and each(kinds, ident)
    if kind == HANDLER:
        return fits(kinds, ident, only(PARAMS), block)
    if kind == CASE:
        rest = counted(p, kinds, is_pattern)
        return rest is not None and fits(rest, is_expr)
    if kind == LEFT:
        return fits(kinds, ident, *(property_tests(detail - 1) if detail else ()))
    if kind == TABLE_PATTERN:  # its keys are of kind 1 (reading 1)
        return pairs(kinds, only(LIT), is_pattern)
    if kind == LIST_PATTERN:
        return each(kinds, is_pattern)
    assert kind == ITEM
    return fits(kinds, *[ident] * (1 + detail))


def row_6(t):
    """Children not those of its kind; record 0 no Function or with `next`."""
    for r, record in enumerate(t.records):
        if r == 0 and (record.kind != FUNCTION or record.next != 0):
            raise Refused(6, 0)
        if not children_fit(record, [t.records[c].kind for c in t.children(r)]):
            raise Refused(6, r)
