"""A function's symbols as locals, globals and upvalues ('Down through a function')."""

from .words import NONE

LOCAL_CAPTURE, UPVALUE_CAPTURE = 1, 2


class Names:
    """The name tables of one function: symbols in order; upvalues with what they capture."""

    def __init__(self):
        self.locals = []
        self.globals = []
        self.upvalues = []   # symbols
        self.captures = []   # (1 Local or 2 Upvalue, index in the parent's table)

    def words(self):
        """'Out': symbol, capture, its index or 0; locals, globals, upvalues."""
        out = [(symbol, 0, 0) for symbol in self.locals + self.globals]
        return out + [(symbol, *capture) for symbol, capture in zip(self.upvalues, self.captures)]


def names_of(t, f, made):
    """The tables of function f; `made` holds those of the functions before it."""
    names = Names()
    parent = t.functions[f][0]
    outer = Names() if parent == NONE else made[parent]
    for symbol in t.share(f):
        if t.symbols[symbol][0] == 1:
            names.globals.append(symbol)
        elif symbol in outer.locals:
            names.upvalues.append(symbol)
            names.captures.append((LOCAL_CAPTURE, outer.locals.index(symbol)))
        elif symbol in outer.upvalues:
            names.upvalues.append(symbol)
            names.captures.append((UPVALUE_CAPTURE, outer.upvalues.index(symbol)))
        else:
            names.locals.append(symbol)
    return names


def all_names(t):
    """The tables of every function of table 5."""
    made = []
    for f in range(len(t.functions)):
        made.append(names_of(t, f, made))
    return made
