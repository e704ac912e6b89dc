"""Trees of a shape that chance seldom gives: deep, wide, many loops left open, the limits."""

from .build import Node, Program, block, fn, function, ident, integer, left, null, params


def plain(root):
    """The root holds a Local and a Global, and so do all functions in it."""
    members = {}
    waiting = [root]
    while waiting:
        node = waiting.pop()
        if node.kind == 30:
            members[node] = [0, 1]
        waiting += node.children
    return Program(root, [b"a", b"b"], [(0, 0), (1, 1)], [0, 1], members)


def deep(random, levels=125):
    """One path down to level 128 unless given, of kinds that hold an expr or a Block."""
    def wrap(node, left_over):
        choices = [
            (1, lambda: Node(3, children=[node])),
            (1, lambda: Node(9, random.randrange(2), children=[node])),
            (1, lambda: Node(10, random.choice([0, 5, 6]), children=[null(), node])),
            (1, lambda: Node(12, random.choice([0, 8]), children=[null(), node])),
            (1, lambda: Node(8, children=[null(), node, null()])),
            (1, lambda: Node(13, children=[node, null()])),
            (2, lambda: Node(16, children=[block(node, Node(19))])),
            (2, lambda: Node(14, children=[null(), block(node)])),
            (1, lambda: Node(17, children=[node, block()])),
            (1, lambda: Node(18, 0, 1, 0, [ident(1), node, block(null())])),
            (2, lambda: Node(15, children=[null(), Node(33, 0, 1, 0, [Node(35), node])])),
            (2, lambda: Node(24, children=[left(ident(1), 0, node), null()])),
            (3, lambda: fn(function(node, kind=random.randrange(3)))),
        ]
        cost, made = random.choice([c for c in choices if c[0] <= left_over])
        return cost, made()

    node = null()
    while levels:
        cost, node = wrap(node, levels)
        levels -= cost
    return plain(function(node, kind=random.randrange(3)))


def near_128(random):
    """126 to 129 levels in few records: the last are too many."""
    node = null()
    for _ in range(random.choice([123, 125, 126, 126])):
        node = Node(random.choice([3, 9, 21]), children=[node])
    return plain(function(node, null()))


def deep_pattern(random, levels=122):
    """A pattern down to level 128 unless given."""
    node = Node(36, 0, random.randrange(2))
    for _ in range(levels):
        if random.random() < 0.5:
            node = Node(38, random.randrange(2), children=[Node(35), node])
        else:
            node = Node(37, random.randrange(2), children=[integer(3), node])
    return plain(function(Node(15, children=[null(), Node(33, 0, 1, 0, [node, null()])])))


def open_loops(random, count=40):
    """A Do in which While tests and For right sides are cut short, loops around them ending."""
    exprs = []
    for _ in range(count):
        cut = Node(21, children=[null()], start=1, end=2)
        kind = random.choice([16, 17, 17, 18, 19, 19, 20, 14])
        if kind == 16:
            inner = [e for e in exprs[-3:]]
            del exprs[-3:]
            exprs.append(Node(16, children=[block(*inner, Node(19))]))
        elif kind == 17:
            exprs.append(Node(17, children=[cut, block(null())]))
        elif kind == 18:
            exprs.append(Node(18, 0, 1, 0, [ident(0), cut, block()]))
        elif kind == 14:
            exprs.append(Node(14, children=[null(), block(*exprs[-2:])]))
            del exprs[-3:-1]
        else:
            exprs.append(Node(kind, start=3, end=4))
    return plain(function(*exprs, kind=2))


def skipped(random):
    """Expressions cut short before a Function of theirs, then mostly one that is met."""
    def inner(depth=0):
        body = [null()] if depth or random.random() < 0.7 else [fn(inner(1))]
        return function(*body, kind=random.randrange(3), parameters=params(
            *(ident(random.choice([1, 1, 1, 9])) for _ in range(random.randrange(2)))))

    def cut():
        kind = random.choice([19, 20, 21])
        return Node(kind, children=[null()] if kind == 21 else [], start=kind, end=kind + 5)

    holders = [
        lambda: Node(8, children=[cut(), fn(inner())]),
        lambda: Node(13, children=[cut(), inner()]),
        lambda: Node(13, children=[null(), cut(), fn(inner()), inner()]),
        lambda: Node(10, random.choice([0, 5]), children=[cut(), fn(inner())]),
        lambda: Node(24, children=[left(ident(1), 0, fn(inner())), cut()]),
        lambda: Node(27, 0, 2, 0, [left(ident(1), 0, fn(inner())), left(ident(1)), null(), cut()]),
        lambda: Node(14, children=[cut(), block(fn(inner()))]),
    ]
    exprs = [null() for _ in range(random.randrange(3))]
    exprs += [random.choice(holders)() for _ in range(random.choice([1, 1, 2]))]
    if random.random() < 0.8:
        exprs.append(random.choice([lambda: fn(inner()),
                                    lambda: Node(13, children=[null(), inner()])])())
    return plain(function(*exprs, kind=2))


def short(random):
    """`and=` and `or=` on plain names: in each other, in loops and tests, cut short, captured."""
    def update(right):
        return Node(25, random.choice([5, 6]), children=[left(ident(random.randrange(2))), right])

    wraps = [
        update, update, update,
        lambda node: Node(3, children=[node]),
        lambda node: Node(10, random.choice([5, 6]), children=[ident(1), node]),
        lambda node: block(node, update(null())),
        lambda node: Node(16, children=[block(node, Node(19))]),
        lambda node: Node(17, children=[node, block(update(Node(20)))]),
        lambda node: Node(18, 0, 1, 0, [ident(1), node, block(null())]),
        lambda node: Node(24, children=[left(ident(1), 0, node), null()]),
        lambda node: Node(25, random.choice([0, 0, 5, 6, 13]),
                          children=[left(ident(1), 4), node]),
        lambda node: Node(13, children=[node, update(null())]),
        lambda node: fn(function(node, kind=random.randrange(3))),
    ]
    exprs = []
    for _ in range(random.choice([1, 2, 3])):
        node = random.choice([null(), ident(1), Node(19, start=1, end=2), Node(20, start=3, end=4),
                              Node(21, children=[null()], start=5, end=6)])
        for _ in range(random.choice([1, 2, 3, 5, 8])):
            node = random.choice(wraps)(node)
        exprs.append(node)
    return plain(function(*exprs, kind=random.choice([0, 2])))


def few_open_loops(random):
    return open_loops(random, 12)


def captures(random, depth=41):
    """One Local held by functions nested as deep as they can be, some of them not holding it."""
    node = null()
    members = {}
    for _ in range(depth):
        inner = function(ident(0) if random.random() < 0.5 else null(), node)
        members[inner] = random.sample([0, 1, 2, 3], random.randint(0, 4))
        inner.children[1].children[0] = (
            ident(random.choice(members[inner])) if members[inner] else null())
        node = fn(inner)
    root = function(node)
    members[root] = [3, 2, 1, 0]
    return Program(root, [b"x"], [(0, 0), (0, 0), (1, 0), (0, 0)], [0, 1, 2, 3], members)


def wide(random, sizes=(100, 400, 900)):
    """Many children side by side: long lists, calls, matches, unpackings."""
    n = random.choice(sizes)
    choices = [
        lambda: Node(8, children=[integer(i) for i in range(n)]),
        lambda: Node(7, children=[integer(i // 3) for i in range(2 * n)]),
        lambda: Node(13, children=[null()] + [integer(i) for i in range(n)]),
        lambda: Node(13, children=[null()] + [
            Node(32, children=[ident(0), params(ident(1, i % 2)), block()])
            for i in range(n // 3)]),
        lambda: Node(15, children=[null()] + [
            Node(33, 0, 1, 0, [Node(35, 2, i), null()]) for i in range(n)]),
        lambda: Node(26, 0, n, 0, [left(ident(0)) for _ in range(n)] + [null()]),
        lambda: Node(27, 0, n, 0, [left(ident(0)) for _ in range(n)] + [null() for _ in range(n)]),
        lambda: Node(18, 0, n, 0, [ident(1) for _ in range(n)] + [null(), block()]),
        lambda: Node(22, 2, 1, 0, [ident(9)] + [
            Node(39, 0, children=[ident(0, i % 2)]) for i in range(n)]),
        lambda: block(*(Node(random.choice([19, 20]), start=i, end=i) for i in range(n))),
    ]
    return plain(function(random.choice(choices)(), parameters=params(ident(0), ident(1, 1))))


def compact(random):
    """A shape that is deep or wide for the 140 records of a text."""
    return random.choice([
        lambda: deep(random, random.choice([20, 40, 60])),
        lambda: deep_pattern(random, random.choice([20, 40, 60, 65])),
        lambda: captures(random, random.choice([3, 10, 25])),
        lambda: wide(random, [10, 30, 40, 60, 65, 66, 67, 68, 130, 133, 134, 135, 136]),
        lambda: open_loops(random, 30),
    ])()


def limits(_random=None):
    """Every table at its limit at once, 128 levels deep."""
    deep_one = null()
    for _ in range(125):
        deep_one = Node(3, children=[deep_one])
    inner = [fn(function()) for _ in range(255)]
    used = 3 + 126 + 4 * 255
    root = function(deep_one, *inner, *(ident(i, 1023) for i in range(4096 - used)))
    strings = [bytes([i >> 8, i & 255]) for i in range(1023)]
    strings.append(b"\0" * (65536 - 2 * 1023))
    return Program(root, strings, [(i % 2, i) for i in range(1024)],
                   [i % 1024 for i in range(4096)], {root: list(range(1024))})


SMALL = [skipped, skipped, few_open_loops, near_128]
SHAPES = SMALL + [deep, deep, deep_pattern, open_loops, captures, wide, wide, limits]
