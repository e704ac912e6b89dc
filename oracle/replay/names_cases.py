"""Cases for the name tables, as if every function were met."""

from cases import build, trees
from cases.build import Program, fn, function
from model.names import all_names
from model.tree import check

# Each: symbols (0 Local, 1 Global), then a tree of functions (members, inner functions).
HAND = [
    ([], ([], [])),
    ([0], ([0], [])),
    ([1], ([0], [])),
    ([0, 1, 0, 1], ([3, 2, 1, 0], [])),
    # Captured from locals, then from upvalues, over three levels.
    ([0], ([0], [([0], [([0], [([0], [])])])])),
    ([0, 0, 0], ([2, 0, 1], [([1, 2], [([2, 1, 0], [([0, 1, 2], [])])])])),
    # The function between does not hold it: a local of its own below.
    ([0], ([0], [([], [([0], [])])])),
    ([0], ([0], [([], [([0], [([0], [])])])])),
    ([0, 0], ([0, 1], [([1], [([0, 1], [([1, 0], [])])])])),
    ([0], ([0], [([0], [([], [([0], [([0], [])])])])])),
    # Siblings see the parent's tables, not each other's.
    ([0, 0], ([0], [([1], []), ([1, 0], []), ([0, 1], [([1, 0], [])])])),
    ([0, 0], ([], [([0], []), ([0], [([0, 1], []), ([1, 0], [])])])),
    # Globals are never captured.
    ([1, 0], ([0, 1], [([0, 1], [([1, 0], [])])])),
    ([1, 1], ([], [([1], [([0, 1], [])])])),
    ([1, 0, 1, 0], ([0, 1, 2, 3], [([3, 2], [([1, 0, 3], [])]), ([], [([3], [])])])),
    # Empty functions between and beside.
    ([0, 0], ([], [([], []), ([0, 1], [([], []), ([1], [])]), ([], [])])),
    # Indices that are not the first ones.
    ([0] * 6, ([5, 4, 3, 2, 1, 0], [([0, 5], [([5, 3, 0], [([3, 0, 5], [])])])])),
    ([0, 1] * 4, ([0, 1, 2, 3, 4, 5, 6, 7], [([7, 6, 5, 4, 3, 2, 1, 0], [([6, 1, 2], [])])])),
]


def tree(shape, members):
    share, inner = shape
    node = function(*(fn(tree(one, members)) for one in inner))
    members[node] = share
    return node


def hand_cases():
    for kinds, shape in HAND:
        members = {}
        root = tree(shape, members)
        yield Program(root, [b"n"], [(kind, 0) for kind in kinds], [], members).words()


def random_cases(rng, count):
    while count:
        profile = trees.Profile(rng, records=60)
        profile.weights.update({5: 30, 13: 5})
        profile.depth = 20
        words = trees.make(rng, profile).words(build.scattered, rng)
        if len(words[5]) >= 6:
            count -= 1
            yield words


def answer(words):
    t = check(words)
    out = []
    for f, names in enumerate(all_names(t)):
        counts = len(names.locals), len(names.globals), len(names.upvalues)
        out.append("%d: %d %d %d\n" % (f, *counts))
        out += ["%d %d %d\n" % entry for entry in names.words()]
    return "".join(out)


def cases(rng):
    for words in [*hand_cases(), *random_cases(rng, 24)]:
        yield words, answer(words)
