"""Damaged copies of tables: words changed, cut off or added, so that refusals arise."""

from .build import NONE

ENTRY_WORDS = {1: 2, 2: 1, 3: 2, 4: 1, 5: 2, 6: 1, 7: 8}
# Positions of a record's words, and how often each is hit: kind, detail, p, q, first, next.
RECORD_WORDS = [0, 1, 1, 2, 2, 3, 6, 6, 7, 7]


def copy(words):
    return {table: list(values) for table, values in words.items()}


def some_value(random, words, table, at):
    """A value near the edges of what a word may hold."""
    lengths = [len(words[t]) // ENTRY_WORDS[t] for t in words]
    near = random.choice(lengths + [at // ENTRY_WORDS[table], words[table][at]])
    value = random.choice([0, 1, 2, near, near, near - 1, near + 1, NONE, NONE - 1,
                           random.randrange(45), random.getrandbits(32)])
    return value % (256 if table == 2 else 1 << 32)


def change_word(random, words, tables):
    filled = [t for t in tables if words[t]]
    if not filled:
        return
    table = random.choice(filled)
    at = random.randrange(len(words[table]))
    if table == 7:
        # The last record may be a part one.
        at = min(at // 8 * 8 + random.choice(RECORD_WORDS), len(words[7]) - 1)
    words[table][at] = some_value(random, words, table, at)


def change_length(random, words, tables):
    table = random.choice(tables)
    n = ENTRY_WORDS[table] if random.random() < 0.7 else 1
    if random.random() < 0.5 and len(words[table]) >= n:
        del words[table][-n:]
    else:
        words[table] += (words[table][-n:] if random.random() < 0.5 else []) or [0] * n


def swap_kinds(random, words, _tables):
    """Two records exchange kind, detail, p and q: children no longer fit."""
    count = len(words[7]) // 8
    if count < 2:
        return
    a, b = random.sample(range(count), 2)
    one, other = words[7][8 * a:8 * a + 4], words[7][8 * b:8 * b + 4]
    words[7][8 * a:8 * a + 4], words[7][8 * b:8 * b + 4] = other, one


def swap_functions(random, words, _tables):
    """Two Functions exchange their numbers."""
    found = [r for r in range(len(words[7]) // 8) if words[7][8 * r] == 30]
    if len(found) > 1:
        a, b = random.sample(found, 2)
        one, other = words[7][8 * a + 2], words[7][8 * b + 2]
        words[7][8 * a + 2], words[7][8 * b + 2] = other, one


def lose_children(random, words, _tables):
    """A Block, Table or List without its children, or with fewer: some are named by no link."""
    found = [r for r in range(0, len(words[7]) - 7, 8)
             if words[7][r] in (4, 7, 8, 38) and words[7][r + 6]]
    if found:
        at = random.choice(found) + 6
        child = 8 * words[7][at]
        if random.random() < 0.5 and child + 8 <= len(words[7]):
            at = child + 7
        words[7][at] = random.choice([0, words[7][at] + 1])


def other_parent(random, words, _tables):
    """A function that names another parent."""
    count = len(words[5]) // 2
    if count:
        words[5][2 * random.randrange(count)] = random.choice([NONE, random.randrange(count)])


def odd(random, words):
    """A copy with what runs against the Rust leave out: NaN, minus zero, a range that ends before it
    starts."""
    words = copy(words)
    for r in range(0, len(words[7]) - 7, 8):
        if words[7][r] in (1, 35) and random.random() < 0.5:
            words[7][r + 1:r + 4] = random.choice(
                [(3, 0, 1 << 31), (3, 0, 0), (3, 1, 0x7FF00000), (3, 0, 0x7FF80000),
                 (3, 0, 0xFFF80000)])
        elif random.random() < 0.2:
            words[7][r + 4:r + 6] = (random.choice([5, NONE]), random.choice([0, 4]))
    return words


def damaged(random, words, faults=None, tables=(1, 2, 3, 4, 5, 6, 7, 7, 7, 7)):
    """A copy with one or more faults."""
    words = copy(words)
    ways = [change_word] * 6 + [change_length, swap_kinds, swap_functions, lose_children,
                                other_parent]
    for _ in range(faults or random.choice([1, 1, 1, 2, 3, 5])):
        random.choice(ways)(random, words, tables)
    return words
