"""A script's tree with the places of its parts in the text, and its way into the seven tables.

A part is found in the text by its opening word, after the part before it; its end is that of its closing
word or of its last child. Names are resolved by the shares given for each function.
"""

from .build import NONE, Node, Program, walk


class Part(Node):
    """A node that knows its words in the text."""

    __slots__ = ("word", "used", "opening", "closing")

    def __init__(self, kind, *children, detail=0, p=0, word=None, used=False, opening=None,
                 closing=None):
        super().__init__(kind, detail, p, 0, children)
        self.word = word            # the string that the record names
        self.used = used            # an Ident that is loaded or stored
        self.opening = opening
        self.closing = closing


def place(part, text, at):
    """Finds a part and those in it from a place on; returns the place after it."""
    start = None
    if part.opening is not None:
        start = text.index(part.opening, at)
        at = start + len(part.opening)
    for child in part.children:
        at = place(child, text, at)
    if part.closing is not None:
        at = text.index(part.closing, at) + len(part.closing)
    first = part.children[0].start if part.children else at
    part.start, part.end = first if start is None else start, at
    return at


class Script:
    """A root Function with its text; symbols and shares by name."""

    def __init__(self, text, root, shares, globals_=()):
        self.strings, self.references = [], []
        place(root, text, 0)
        names = list(dict.fromkeys(name for share in shares.values() for name in share))
        self.symbols = [(int(name in globals_), self.string(name)) for name in names]
        for part in walk(root):
            self.fill(part, names)
        members = {part: [names.index(name) for name in share] for part, share in shares.items()}
        strings = [word.encode() for word in self.strings]
        self.program = Program(root, strings, self.symbols, self.references, members)

    def string(self, word):
        if word not in self.strings:
            self.strings.append(word)
        return self.strings.index(word)

    def fill(self, part, names):
        """The words p and q of a part that names a string or a symbol."""
        number = NONE if part.word is None else self.string(part.word)
        if part.kind in (2, 36):
            part.q, part.p = number, NONE
            if part.used:
                part.p = len(self.references)
                self.references.append(names.index(part.word))
        elif part.kind in (1, 35) and part.detail in (4, 5) or part.kind == 6:
            part.p = number
        elif part.kind in (22, 30):
            part.q = number


# Short names for the parts of a script.

def name(word, kind=2):
    """An Ident that is loaded or stored."""
    return Part(kind, word=word, used=True, opening=word)


def label(word):
    """An Ident of which only the name counts."""
    return Part(2, word=word, opening=word)


def integer(value, kind=1):
    return number(value, kind, opening=str(value))


def number(value, kind=1, opening=None):
    part = Part(kind, detail=2, p=value & NONE, opening=opening)
    part.q = value >> 32 & NONE
    return part


def string(word, kind=1):
    return Part(kind, detail=4, word=word, opening=f'"{word}"')


def member(table, word):
    return Part(12, table, label(word), detail=1)


def call(callee, *arguments, closing=")"):
    return Part(13, callee, *arguments, closing=closing)


def block(*exprs):
    return Part(4, *exprs, opening="{", closing="}")


def params(*words, opening="(", closing=")"):
    return Part(31, *map(name, words), opening=opening, closing=closing)


def closure(words, *exprs):
    return Part(30, params(*words, opening="|", closing="|"), block(*exprs), detail=1)


def root(*exprs):
    """The outermost Function: the whole text."""
    return Part(30, Part(31), Part(4, *exprs, opening=""), opening="", closing=None)


def binary(operator, left, right):
    return Part(10, left, right, detail="+ - * / % and or == != < <= > >= is".split().index(operator))


def assign(left, right):
    return Part(24, Part(34, left), right)
