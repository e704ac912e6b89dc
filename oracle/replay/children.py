"""Row 6: for every kind its children as they should be, one too few, one too many, one wrong."""

from cases.build import Node, Program, block, fn, function, ident, integer, left, null, params

from .hand import OK, frame, record

# A kind that comes near to the one wanted and isn't it.
NEAR = {2: 1, 4: 8, 30: 4, 31: 4, 32: 33, 33: 32, 34: 2, 35: 1, 36: 2, 37: 7, 38: 8, 39: 2}

# The kinds whose number of children is fixed by their own words.
FIXED = {3, 5, 6, 9, 10, 11, 12, 14, 16, 17, 18, 21, 23, 24, 25, 26, 30, 32, 33, 34, 39}


def pattern(detail=2):
    return Node(35, detail, 1)


def handler():
    return Node(32, children=[ident(), params(), block()])


def specimens():
    """(expression, the node in it that is looked at)"""
    def own(node):
        return node, node

    yield own(Node(3, children=[null()]))
    yield own(block(null(), null()))
    yield own(fn(function()))
    yield own(fn(function(), ident()))
    yield own(Node(6, children=[ident(), params()]))
    yield own(Node(7, children=[null(), null(), null(), null()]))
    yield own(Node(8, children=[null(), null()]))
    yield own(Node(9, children=[null()]))
    yield own(Node(10, children=[null(), null()]))
    yield own(Node(11, children=[null()]))
    for detail, rest in [(0, null), (1, ident), (2, ident), (8, null), (9, ident), (10, ident)]:
        yield own(Node(12, detail, children=[null(), rest()]))
    yield own(Node(12, 3, children=[null()]))
    yield own(Node(12, 13, children=[null()]))
    yield own(Node(13, children=[null()]))
    yield own(Node(13, children=[null(), integer(1), function(), handler(), handler()]))
    yield own(Node(14, children=[null(), block()]))
    yield own(Node(14, 1, children=[null(), block(), null()]))
    yield own(Node(15, children=[null(), Node(33, children=[null()])]))
    yield own(Node(16, children=[block()]))
    yield own(Node(17, children=[null(), block()]))
    yield own(Node(18, 0, 0, children=[null(), block()]))
    yield own(Node(18, 0, 2, children=[ident(), ident(), null(), block()]))
    yield own(Node(21, children=[null()]))
    yield own(Node(22, 0, 2, 0, [ident(), ident()]))
    yield own(Node(22, 1, 1, 0, [ident(), ident()]))
    yield own(Node(22, 2, 1, 0, [ident(), Node(39, children=[ident()])]))
    yield own(Node(22, 3, 1, 0, [ident()]))
    yield own(Node(23, children=[ident(), null()]))
    yield own(Node(24, children=[left(ident()), null()]))
    yield own(Node(25, children=[left(ident()), null()]))
    yield own(Node(26, 0, 2, children=[left(ident()), left(ident()), null()]))
    yield own(Node(27, 0, 1, children=[left(ident()), null()]))
    for inner in (params(ident(), ident()), params(ident(), variadic=1)):
        yield fn(Node(30, 0, 0, 0, [inner, block()])), inner
    inner = function()
    yield fn(inner), inner
    inner = handler()
    yield Node(13, children=[null(), inner]), inner
    for patterns in ([], [pattern(), pattern()]):
        inner = Node(33, 0, len(patterns), children=patterns + [null()])
        yield Node(15, children=[null(), inner]), inner
    for member, value in [(None, None), (0, null()), (1, ident()), (2, ident()), (4, None)]:
        inner = left(ident(), member, value)
        yield Node(24, children=[inner, null()]), inner
    for inner in (Node(37, children=[null(), pattern(), null(), Node(36)]),
                  Node(38, 1, children=[pattern(), Node(37)])):
        case = Node(33, 0, 1, children=[inner, null()])
        yield Node(15, children=[null(), case]), inner
    for detail in (0, 1):
        inner = Node(39, detail, children=[ident() for _ in range(1 + detail)])
        yield Node(22, 2, 0, 0, [inner]), inner


def variants(node, further):
    """Other children, and whether the kind must refuse them or None where it may take them; a
    further specimen of a kind shows only what its detail changes."""
    children = node.children
    fixed = True if node.kind in FIXED else None
    yield children[:-1], fixed
    if not further:
        yield children + [Node(34) if fixed is None else Node(children[-1].kind)], True
        # A pattern for an expr, else an Item.
        yield [Node(35 if children[0].kind == 1 and node.kind < 30 else 39)] + children[1:], True
    for i, child in enumerate(children):
        if child.kind in NEAR:
            # What comes near may do for an argument of a Call.
            wrong = None if child.kind in (2, 4, 30) else True
            yield children[:i] + [Node(NEAR[child.kind])] + children[i + 1:], wrong


def cases():
    # Leaves have no children; detail, p and q they ignore.
    for kind in (1, 2, 19, 20):
        yield (6, 3), frame(Node(kind, children=[null()])).words()
    for kind in (35, 36):
        case = Node(33, 0, 1, children=[Node(kind, children=[null()]), null()])
        yield (6, 6), frame(Node(15, children=[null(), case])).words()
    yield OK, frame(*(expr for expr, _ in specimens())).words()
    yield OK, Program(function(null(), Node(8, children=[null()]))).words()   # no strings
    seen = set()
    for expr, node in specimens():
        for node.children, wrong in list(variants(node, node.kind in seen)):
            words = frame(expr).words()
            yield ((6, node.record) if wrong else "model"), words
        seen.add(node.kind)
    # Counts in p that the children don't bear out.
    for node in (Node(18, 0, 3, children=[ident(), null(), block()]),
                 Node(18, 0, 4294967295, children=[null(), block()]),
                 Node(22, 0, 1, 0), Node(22, 2, 2, 0, [ident()]),
                 Node(26, 0, 1, children=[null()]),
                 Node(26, 0, 2, children=[left(ident()), null()]),
                 Node(27, 0, 1), Node(27, 0, 0, children=[left(ident())])):
        yield (6, 3), frame(node).words()
    # No least numbers: all of these are well.
    for node in (Node(4), Node(7), Node(8), Node(15, children=[null()]), Node(22, 2, 0, 0),
                 Node(22, 0, 0, 0), Node(26, 0, 0, children=[null()]), Node(27),
                 Node(27, 0, 0, children=[null()]), Node(27, 0, 1, children=[left(ident())])):
        yield OK, frame(node).words()
    # The order within a Call.
    for rest in ([handler(), null()], [function(), null()], [handler(), function()],
                 [function(), function()]):
        yield (6, 3), frame(Node(13, children=[null()] + rest)).words()
    yield (6, 3), frame(Node(13, children=[function()])).words()
    # Record 0.
    w = frame(null()).words()
    yield (6, 0), record(w, 0, kind=4)
    yield (6, 0), record(w, 0, next=3)
    yield (6, 0), record(w, 0, first=0)
    yield (6, 0), record(w, 0, first=2)
    # The lowest place of several.
    yield (6, 3), frame(Node(3), Node(9)).words()
    yield (6, 2), frame(Node(31), Node(9)).words()
    yield (6, 4), frame(null(), Node(3)).words()
