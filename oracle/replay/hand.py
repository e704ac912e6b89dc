"""Cases for rows 1, 3 to 5 and 7 to 9, each with the answer that document 01 gives."""

from cases import shapes
from cases.build import (NONE, Node, Program, block, breadth_first, fn, function, ident, left,
                         null, params)
from cases.damage import copy

OK = None


def frame(*exprs, **more):
    """A root Function that holds one Local, with a reference to it and two strings."""
    root = function(*exprs, **more)
    return Program(root, [b"a", b"bc"], [(0, 0), (1, 1)], [0, 1], {root: [0, 1]})


def changed(words, *changes):
    """A copy with words set: (table, position, value)."""
    words = copy(words)
    for table, at, value in changes:
        words[table][at] = value
    return words


def with_length(words, table, entries):
    """A copy whose table has other words."""
    words = copy(words)
    words[table] = entries
    return words


def record(words, r, **values):
    """A copy with named words of record r set."""
    names = "kind detail p q start end first next".split()
    return changed(words, *((7, 8 * r + names.index(n), v) for n, v in values.items()))


def lengths():
    """Row 1."""
    w = frame(null()).words()
    many = [word for i in range(1024) for word in (2 * i, 2)]
    data = [byte for i in range(1024) for byte in (i >> 8, i & 255)]
    yield OK, w
    yield (1, 7), {table: [] for table in range(1, 8)}
    for table in (1, 3, 5, 7):
        yield (1, table), with_length(w, table, w[table] + [0])
    yield (1, 7), with_length(w, 7, [])
    yield (1, 7), with_length(w, 7, w[7][:3])
    yield (1, 1), with_length(with_length(w, 7, []), 1, [0])
    yield (1, 5), with_length(with_length(w, 7, w[7][:-1]), 5, w[5][:1])
    full = with_length(with_length(w, 1, many), 2, data)
    yield OK, full
    yield (1, 1), with_length(full, 1, many + [0, 0])
    yield OK, with_length(w, 2, w[2] + [0] * (65536 - len(w[2])))
    yield (1, 2), with_length(w, 2, w[2] + [0] * (65537 - len(w[2])))
    yield OK, with_length(w, 3, [0, 1] * 1024)
    yield (1, 3), with_length(w, 3, [0, 1] * 1025)
    yield OK, with_length(w, 4, [1] * 4096)
    yield (1, 4), with_length(w, 4, [1] * 4097)
    members = with_length(with_length(w, 3, [1, 0] * 1024), 6, list(range(1023, -1, -1)))
    yield OK, with_length(members, 5, [NONE, 1024])
    members[6] += [0]
    yield (1, 6), with_length(members, 5, [NONE, 1025])
    functions = Program(function(*(fn(function()) for _ in range(255)))).words()
    yield OK, functions
    yield (1, 5), with_length(functions, 5, functions[5] + [0, 0])
    records = frame(Node(8, children=[null() for _ in range(2000)]),
                    *(null() for _ in range(4096 - 2004))).words(breadth_first)
    yield OK, records
    yield (1, 7), with_length(records, 7, records[7] + [1, 0, 0, 0, 0, 0, 0, 0])


def all_limits():
    """Every table at its limit at once, 128 levels deep."""
    yield OK, shapes.limits().words()


def entries():
    """Row 3."""
    w = frame(null()).words()
    for spans, answer in [
            ([0, 4, 0, 1], (3, 0)), ([0, 1, 2, 2], (3, 1)), ([0, 1, 3, 0], OK),
            ([0, 1, 4, 0], (3, 1)), ([NONE, 1, 0, 1], (3, 0)), ([NONE, NONE, 0, 1], (3, 0)),
            ([0, 1, 1, NONE], (3, 1)), ([0, 0, 1, 0], (3, 1)), ([0, 3, 0, 3], (3, 1)),
            ([0, 1, 1, 1], OK), ([0, 1, 0, 1, 9, 9], (3, 1)), ([1, 2, 0, 1], OK),
            ([0, 2, 1, 2, 0, 3, 2, 1, 0, 2], (3, 4))]:
        yield answer, with_length(w, 1, spans)
    yield (3, 1), changed(with_length(w, 2, [97, 97, 97]), (1, 3, 1))
    yield (3, 0), changed(w, (3, 0, 2))
    yield (3, 1), changed(w, (3, 2, NONE))
    yield (3, 0), changed(w, (3, 1, 2))
    yield (3, 1), changed(w, (3, 3, NONE))
    yield (3, 0), changed(w, (4, 0, 2))
    yield (3, 1), changed(w, (4, 1, NONE))
    yield (3, 0), changed(w, (5, 0, 1))
    yield (3, 0), changed(w, (5, 0, NONE - 1))
    yield (3, 1), changed(w, (5, 1, 1))
    yield (3, 1), changed(w, (5, 1, 3))
    yield (3, 1), changed(w, (5, 1, NONE))
    yield (3, 0), changed(w, (6, 0, 2))
    yield (3, 1), changed(w, (6, 1, NONE))
    yield (3, 1), changed(w, (6, 1, 0))
    middle = function(fn(function()))
    three = frame(fn(function()), fn(middle))
    three.members[middle] = [1, 0]
    t = three.words()
    yield OK, t
    # Shares 2, 0, 2, 0: a symbol in two functions is well, twice in one is not.
    yield (3, 3), changed(t, (6, 3, 1))
    yield (3, 4), changed(t, (5, 1, NONE), (5, 3, 5))      # wide, the sum isn't 4
    yield (3, 4), changed(t, (5, 7, 1))
    yield (3, 3), changed(t, (5, 6, 4), (6, 0, 9))
    # Tables in turn, whatever the place.
    yield (3, 1), changed(w, (1, 3, 9), (3, 0, 5))
    yield (3, 1), changed(w, (3, 2, 5), (4, 0, 5))
    yield (3, 1), changed(w, (4, 1, 5), (5, 0, 5))
    yield (3, 0), changed(w, (5, 0, 5), (5, 1, 5))
    yield (3, 1), changed(w, (5, 1, 5), (6, 0, 5))
    yield (3, 1), changed(w, (6, 1, 5), (7, 0, 99))
    yield (1, 7), changed(with_length(w, 7, w[7] + [1]), (3, 0, 5))


# Row 4: a node, and whether it passes.
def words_of_kinds():
    def import_of(detail, q):
        last = [ident()] if detail == 1 else []
        return Node(22, detail, 1, q, [ident()] + last)

    bad = [Node(k) for k in (0, 28, 29, 40, NONE)]
    bad += [Node(1, 6), Node(1, NONE), Node(1, 1, 2), Node(1, 4, 2), Node(1, 5, NONE),
            Node(2, 0, 0, 2), Node(2, 0, 0, NONE)]
    good = [Node(1, 0, 9, 9), Node(1, 1, 1, 9), Node(1, 2, NONE, NONE), Node(1, 3, 9, 9),
            Node(1, 4, 1, NONE), Node(1, 5, 1, 9), Node(2, 9, NONE, 1), Node(19, 7, 7, 7),
            Node(20, 7, 7, 7), Node(4, 9, 9, 9)]
    for node in bad:
        yield (4, 3), node
    for node in good:
        yield OK, node
    for kind, top in [(9, 2), (11, 10)]:
        yield (4, 3), Node(kind, top, children=[null()])
    yield (4, 3), Node(10, 14, children=[null(), null()])
    yield OK, Node(10, 13, children=[null(), null()])
    for detail in (6, 7, 14, 16, NONE):
        yield (4, 3), Node(12, detail, children=[null()])
    for detail in (3, 5, 11, 13):
        yield OK, Node(12, detail, children=[null()])
    yield (4, 3), Node(14, 2, children=[null(), block()])
    yield (4, 3), Node(5, 2, children=[function()])
    yield (4, 3), Node(25, 14, children=[left(ident()), null()])
    yield OK, Node(25, 13, children=[left(ident()), null()])
    yield (4, 4), Node(24, children=[Node(34, 7, children=[ident()]), null()])
    yield OK, Node(24, 9, 9, 9, [Node(34, 6, children=[ident()]), null()])
    yield (4, 3), Node(6, 0, 2, 0, [ident(), params()])
    yield (4, 3), Node(6, 0, NONE, 0, [ident(), params()])
    yield (4, 5), Node(6, 0, 1, 0, [ident(), params(variadic=2)])
    for detail in range(4):
        yield (4, 3), import_of(detail, 2 if detail % 2 else NONE)
        yield OK, import_of(detail, 1)
    yield (4, 3), Node(22, 4, 0, 0)
    yield (4, 6), Node(22, 2, 0, 0, [Node(39, children=[ident()]), Node(39, 2, children=[ident()])])
    for kind, detail, p, q, answer in [
            (35, 6, 0, 0, (4, 6)), (35, 1, 2, 0, (4, 6)), (35, 4, 2, 0, (4, 6)),
            (35, 5, 2, 0, (4, 6)), (35, 5, 1, 9, OK), (35, 2, 9, 9, OK),
            (36, 0, 0, 2, (4, 6)), (36, 5, NONE, 1, OK),
            (37, 2, 0, 0, (4, 6)), (38, 2, 0, 0, (4, 6)), (37, 1, 9, 9, OK), (38, 1, 9, 9, OK)]:
        case = Node(33, 9, 1, 9, [Node(kind, detail, p, q), null()])
        yield answer, Node(15, children=[null(), case])
    for detail, q, answer in [(3, NONE, (4, 4)), (0, 2, (4, 4)), (0, NONE - 1, (4, 4)),
                              (2, 1, OK), (1, NONE, OK)]:
        inner = function(kind=detail, name=q)
        yield answer, fn(inner)


def kinds():
    """Row 4; the nodes that pass stand in one tree."""
    good = [node for answer, node in words_of_kinds() if answer is OK]
    yield OK, frame(*good).words()
    for answer, node in words_of_kinds():
        if answer is not OK:
            yield answer, frame(node).words()
    yield (4, 0), record(frame().words(), 0, kind=29)
    yield (4, 0), record(frame().words(), 0, detail=3)
    yield (4, 0), record(frame().words(), 0, q=2)
    yield (4, 1), record(frame().words(), 1, detail=2)
    yield (4, 2), record(record(frame().words(), 2, kind=0), 0, first=0)
    # Row by row: 4 over all records before 5, 5 before 6.
    five = frame(null(), null()).words()
    yield (4, 4), record(record(record(five, 0, first=0), 1, next=1), 4, detail=6)
    yield (5, 1), record(record(five, 0, first=0), 1, next=1)
    yield (3, 1), record(changed(five, (6, 1, 0)), 0, kind=0)


def links():
    """Row 5."""
    w = frame(null(), null()).words()   # records 0 to 4
    for r, name, value in [(0, "first", 5), (0, "first", NONE), (0, "next", NONE), (1, "first", 1),
                           (1, "next", 1), (2, "first", 1), (2, "next", 2), (3, "next", 3),
                           (3, "first", 2), (4, "first", 4), (4, "next", 5), (4, "next", 1),
                           (4, "first", 5)]:
        yield (5, r), record(w, r, **{name: value})
    yield (5, 2), record(record(w, 4, next=4), 2, first=2)
    yield (5, 4), record(record(w, 4, next=9), 1, next=0)
    yield (6, 0), record(w, 0, next=4)


def naming():
    """Row 7."""
    w = frame(Node(8, children=[null()]), Node(8, children=[null()])).words()  # 3 4, 5 6
    yield OK, w
    yield (7, 4), record(w, 3, first=6)
    yield (7, 4), record(w, 3, first=0)
    yield (7, 6), record(w, 5, first=0)
    yield (7, 4), record(record(w, 3, first=0), 5, first=0)
    yield (7, 5), record(w, 3, next=0)
    alone = with_length(w, 7, w[7] + [1, 0, 0, 0, 0, 0, 0, 0])
    yield (7, 7), alone
    yield (7, 7), with_length(w, 7, alone[7] + [8, 0, 0, 0, 0, 0, 0, 0])
    yield (7, 6), record(alone, 5, first=7)
    yield (7, 4), record(w, 3, first=5)
    tail = frame(Node(8, children=[null(), null()]), Node(8, children=[null(), null()])).words()
    yield (7, 5), record(tail, 4, next=8)
    # A tree apart from the first, its top named by nothing.
    apart = with_length(w, 7, w[7] + [3, 0, 0, 0, 0, 0, 8, 0, 1, 0, 0, 0, 0, 0, 0, 0])
    yield (7, 7), apart
    yield (6, 7), record(apart, 7, first=0)


def chain(n, kind=3):
    """n records, each the child of the one before."""
    node = null()
    for _ in range(n - 1):
        node = Node(kind, children=[node])
    return node


def nesting():
    """Row 8."""
    yield OK, frame(chain(126)).words()
    yield (8, 129), frame(chain(127)).words()
    yield (8, 129), frame(chain(200)).words()
    yield OK, frame(chain(126), chain(126)).words(breadth_first)
    yield (8, 255), frame(chain(126), chain(127)).words()
    yield (8, 255), frame(chain(126), chain(127)).words(breadth_first)
    yield (8, 129), frame(chain(128), chain(127)).words()
    yield (8, 255), frame(chain(128), chain(127)).words(breadth_first)
    blocks = null()
    for _ in range(126):
        blocks = block(null(), blocks)
    yield (8, 254), frame(blocks).words()
    # 7 before 8, 8 before 9.
    deep = frame(chain(127), null()).words()
    yield (7, 131), with_length(deep, 7, deep[7] + [1, 0, 0, 0, 0, 0, 0, 0])
    yield (8, 129), record(deep, 0, p=1)


def numbering():
    """Row 9."""
    def bracket(inner):
        return left(ident(), 0, fn(inner))

    two = frame(fn(function()), fn(function())).words()       # Functions 0, 4, 8
    yield OK, two
    yield (9, 0), record(two, 0, p=1)
    yield (9, 4), record(record(two, 4, p=2), 8, p=1)
    yield (9, 4), record(two, 4, p=0)
    yield (9, 8), record(two, 8, p=3)
    yield (9, 8), record(two, 8, p=NONE)
    yield (9, 0), changed(two, (5, 0, 0))
    yield (9, 0), changed(two, (5, 0, 2))
    yield (9, 4), changed(two, (5, 2, NONE))
    yield (9, 4), changed(two, (5, 2, 1))
    yield (9, 8), changed(two, (5, 4, 1))
    yield (9, 0), with_length(two, 5, two[5] + [0, 0])
    yield (9, 0), with_length(two, 5, two[5][:-2])
    yield (9, 0), with_length(with_length(two, 5, []), 6, [])
    yield (9, 0), record(with_length(two, 5, two[5] + [0, 0]), 4, p=7)
    nested = frame(fn(function(fn(function())))).words()      # Functions 0, 4, 8
    yield OK, nested
    yield (9, 8), changed(nested, (5, 4, 0))
    yield (9, 8), changed(nested, (5, 4, NONE))
    yield (9, 4), record(record(nested, 4, p=2), 8, p=1)
    yield OK, frame(fn(function(fn(function())))).words(breadth_first)

    assign = frame(Node(24, children=[bracket(function()), fn(function())])).words()
    yield OK, assign                                          # Functions 0, 7 (2), 11 (1)
    yield (9, 7), record(record(assign, 7, p=1), 11, p=2)
    op = frame(Node(25, 0, children=[bracket(function()), fn(function())])).words()
    yield OK, op
    yield (9, 7), record(record(op, 7, p=2), 11, p=1)
    unpack = frame(Node(26, 0, 2, children=[
        bracket(function()), bracket(function()), fn(function())])).words()
    yield OK, unpack                                          # 7 (2), 13 (3), 17 (1)
    yield (9, 7), record(record(record(unpack, 7, p=1), 13, p=2), 17, p=3)
    yield (9, 7), record(record(unpack, 7, p=3), 13, p=2)
    multi = frame(Node(27, 0, 2, children=[
        bracket(function()), bracket(function()), fn(function()), fn(function())])).words()
    yield OK, multi                                           # 7 (4), 13 (3), 17 (1), 21 (2)
    yield (9, 7), record(record(record(record(multi, 7, p=1), 13, p=2), 17, p=3), 21, p=4)
    yield (9, 7), record(record(multi, 7, p=3), 13, p=4)
    yield (9, 17), record(record(multi, 17, p=2), 21, p=1)
    # An error will skip the Function: it is numbered like any other.
    yield OK, frame(Node(8, children=[Node(19), fn(function())])).words()
    call = frame(Node(13, children=[fn(function()), fn(function()), function(), Node(
        32, children=[ident(), params(), block(fn(function()))])])).words()
    yield OK, call
    yield OK, frame(kind=2, name=1, parameters=params(ident(), ident(), variadic=1)).words()


def cases():
    for group in (lengths, all_limits, entries, kinds, links, naming, nesting, numbering):
        for answer, words in group():
            yield group.__name__, answer, words
