"""The seeded stream of cases: case `i` of a seed is always the same."""

import random

from . import damage, shapes, trees
from .build import breadth_first, preorder, scattered, walk

SHORT = 0.5     # of the trees: most of their AssignOps on plain names become And or Or
SHORT_SHAPES = 0.03


def large(rng):
    """A profile towards the limits of document 01."""
    profile = trees.Profile(rng, records=rng.choice([300, 600, 1500, 4000]), functions=250)
    profile.strings = rng.choice([5, 40, 300])
    profile.symbols, profile.members, profile.references = 1000, 1000, 4000
    profile.depth = rng.choice([6, 10, 20, 40])
    profile.fill = True
    return profile


def focused(rng):
    """A profile that dwells on one matter."""
    profile = trees.Profile(rng)
    topic = rng.choice(["functions", "skips", "open", "patterns", "calls", "assign", "import"])
    weights = {
        "functions": {5: 12, 13: 6, 4: 3}, "skips": {5: 10, 8: 8, 13: 8, 10: 4},
        "open": {17: 10, 18: 10, 16: 5, 19: 8, 20: 5, 14: 4}, "patterns": {15: 30},
        "calls": {13: 20, 12: 10, 6: 5, 21: 10}, "import": {22: 20},
        "assign": {23: 8, 24: 8, 25: 12, 26: 8, 27: 8, 12: 3},
    }[topic]
    profile.weights = {kind: profile.weights[kind] // 3 for kind in profile.weights}
    profile.weights.update(weights)
    profile.weights[1] += 1
    if topic in ("skips", "open"):
        profile.errors = rng.choice([0.05, 0.15, 0.3])
        profile.do = 0.8
    if topic in ("assign", "import"):
        profile.wrong_forms = rng.choice([0, 0, 0.15])
    profile.depth = max(profile.depth, 9)
    return profile


def program(rng, sizes):
    """A tree of one of the sizes: small fits genlist's text, wide goes to the limits."""
    draw = rng.random()
    if draw < 0.45:
        return trees.make(rng)
    if draw < 0.92:
        return trees.make(rng, focused(rng))
    if sizes == "small":
        return rng.choice(shapes.SMALL)(rng)
    if draw < 0.97:
        return rng.choice(shapes.SHAPES)(rng)
    return trees.make(rng, large(rng))


def shortened(rng, made):
    """Job 1's assignments, and now and then Is, by draws of their own: the other trees of a seed stay
    as they were."""
    draw = rng.random()
    if draw < SHORT:
        for node in walk(made.root):
            if node.kind == 25 and node.children[0].detail == 0 and rng.random() < 0.7:
                node.detail = rng.choice([5, 6] * 12 + [13])
    return shapes.short(rng) if draw > 1 - SHORT_SHAPES else made


def case(seed, i, sizes="wide", faults=0.15, short=True):
    """(words, whether they were damaged)"""
    rng = random.Random(f"{seed} {i}")
    made = program(rng, sizes)
    if short:
        made = shortened(random.Random(f"short {seed} {i}"), made)
    words = made.words(rng.choice([preorder, preorder, breadth_first, scattered]), rng)
    if rng.random() < faults:
        # Tables 4 and 6 lead to 10 to 12, which the Rust also meets.
        tables = rng.choice([(1, 2, 3, 4, 5, 6, 7, 7, 7, 7), (4, 6), (3, 4, 6), (7,)])
        return damage.damaged(rng, words, tables=tables), True
    return words, False
