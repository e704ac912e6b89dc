"""The lent tables and rows 1 to 3 of 'Refused by place'."""

from .words import ENTRY_WORDS, LIMITS, NONE, Refused


class Record:
    """One entry of table 7."""

    __slots__ = ("kind", "detail", "p", "q", "start", "end", "first", "next")

    def __init__(self, words):
        (self.kind, self.detail, self.p, self.q, self.start, self.end, self.first,
         self.next) = words


class Tables:
    """Tables 1 to 7 as lists of words, and as entries once row 1 has passed."""

    def __init__(self, words):
        self.words = words  # words[1] .. words[7]

    def split(self):
        """Cuts the words into entries."""
        def entries(table):
            n, words = ENTRY_WORDS[table], self.words[table]
            return [tuple(words[i:i + n]) for i in range(0, len(words), n)]
        self.spans = entries(1)
        self.bytes = bytes(self.words[2])
        self.symbols = entries(3)
        self.references = self.words[4]
        self.functions = entries(5)
        self.members = self.words[6]
        self.records = [Record(entry) for entry in entries(7)]

    def string(self, number):
        offset, length = self.spans[number]
        return self.bytes[offset:offset + length]

    def children(self, r):
        out = []
        at = self.records[r].first
        while at != 0:
            out.append(at)
            at = self.records[at].next
        return out

    def share(self, f):
        """Table 6: symbols, each function's share in turn."""
        start = sum(count for _, count in self.functions[:f])
        return self.members[start:start + self.functions[f][1]]


def row_1(words):
    """Lent tables: over the limit, a part entry, or no records; by rising table (reading 15)."""
    for table in range(1, 8):
        entries, rest = divmod(len(words[table]), ENTRY_WORDS[table])
        if rest != 0 or entries > LIMITS[table] or (table == 7 and entries == 0):
            raise Refused(1, table)


# 'Out': words of a marker, constant, name, error, line.
OUT_WORDS = [2, 3, 3, 3, 7]


def row_2(words, lengths):
    """Out space; lengths are the words of the five outputs, a rest is no room (reading 14)."""
    records = len(words[7]) // 8
    needs = [32 * records, 3 * records, len(words[6]), records, len(words[5]) // 2]
    for place, need in enumerate(needs):
        if lengths[place] // OUT_WORDS[place] < need:
            raise Refused(2, place)


def row_3(t):
    """Tables 1 to 6 in turn, by entry."""
    strings, symbols, functions = len(t.spans), len(t.symbols), len(t.functions)
    seen = set()
    for i, (offset, length) in enumerate(t.spans):
        if offset + length > len(t.bytes):
            raise Refused(3, i)
        if t.string(i) in seen:  # at the later one (reading 12)
            raise Refused(3, i)
        seen.add(t.string(i))
    for i, (kind, name) in enumerate(t.symbols):
        if kind > 1 or name >= strings:
            raise Refused(3, i)
    for i, symbol in enumerate(t.references):
        if symbol >= symbols:
            raise Refused(3, i)
    for i, (parent, _) in enumerate(t.functions):
        if parent != NONE and parent >= functions:  # reading 11
            raise Refused(3, i)
    # The sum stands between the entries of 5 and those of 6 (reading 10).
    if sum(count for _, count in t.functions) != len(t.members):
        raise Refused(3, functions)
    at = 0
    for _, count in t.functions:
        held = set()
        for i in range(at, at + count):
            if t.members[i] >= symbols or t.members[i] in held:
                raise Refused(3, i)
            held.add(t.members[i])
        at += count
