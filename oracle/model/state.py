"""The state of a run and its leaves: markers, labels, constants, loads and stores."""

from .words import *
from .counts import loop_depth
from .names import names_of


class Cut(Exception):
    """An error that ends its expression; the nearest enclosing block keeps it."""

    def __init__(self, kind, record):
        super().__init__(kind)
        self.words = (kind, record.start, record.end)


class Stream:
    """What is made for one function."""

    def __init__(self, number, record, names):
        self.number = number
        self.record = record       # the Function record
        self.names = names
        self.markers = []          # (code, operand or 0)
        self.labels = 0
        self.constants = []        # words: kind and two more
        self.known = {}            # what makes constants equal -> index
        self.continue_stack = []
        self.break_stack = []
        self.depth = 0


def constant_of(detail, p, q):
    """A Lit's detail with its p and q, unused words 0 (reading 21)."""
    if detail in (INT, FLOAT):
        return detail, p, q
    return (detail, 0, 0) if detail == NULL else (detail, p, 0)


class State:
    """The run: streams of the functions met, errors, and the function it stands in."""

    def __init__(self, t):
        self.t = t
        self.streams = []
        self.errors = []
        self.now = None

    # -- markers, labels, constants

    def put(self, name, operand=0):
        self.now.markers.append((CODE[name], operand))

    def label(self):
        self.now.labels += 1
        return self.now.labels - 1

    def place(self, label):
        self.put("Label", label)

    def constant(self, words, key=None):
        """Equal ones are one; the first stays. Effects are equal by another key than their
        words (reading 20)."""
        key = words if key is None else key
        if key not in self.now.known:
            self.now.known[key] = len(self.now.constants)
            self.now.constants.append(words)
        return self.now.known[key]

    def load_const(self, words, key=None):
        self.put("LoadConst", self.constant(words, key))

    def load_null(self):
        self.load_const((NULL, 0, 0))

    def load_int(self, value):
        self.load_const((INT, value, 0))

    def load_effect(self, name, params, record):
        """Name string, the parameters' names and the variadic's (reading 20)."""
        idents = [self.t.records[c].q for c in self.t.children(params)]
        variadic = self.t.records[params].detail == 1
        self.load_const((EFFECT_CONST, record, 0), ("effect", name, tuple(idents), variadic))

    # -- names

    def symbol(self, r):
        reference = self.t.records[r].p
        if reference >= len(self.t.references):
            raise Refused(10, r)
        return self.t.references[reference]

    def load(self, r):
        """'A load looks in locals, upvalues, globals.'"""
        symbol, names = self.symbol(r), self.now.names
        for code, table in (("LoadLocal", names.locals), ("LoadUpvalue", names.upvalues),
                            ("LoadGlobal", names.globals)):
            if symbol in table:
                self.put(code, table.index(symbol))
                return
        raise Refused(11, r)

    def store(self, r):
        """In the table of the symbol's kind; a captured one is not in locals."""
        symbol, names = self.symbol(r), self.now.names
        is_global = self.t.symbols[symbol][0] == 1
        table = names.globals if is_global else names.locals
        if symbol not in table:
            raise Refused(12, r)
        self.put("StoreGlobal" if is_global else "StoreLocal", table.index(symbol))

    # -- functions

    def enter(self, r):
        """Begins a function; 16 before its Params are stored (reading 17)."""
        number = self.t.records[r].p
        if number != len(self.streams):
            raise Refused(16, r)
        names = names_of(self.t, number, [stream.names for stream in self.streams])
        outer = self.now
        self.now = Stream(number, r, names)
        self.now.depth = loop_depth(self.t, r)
        self.streams.append(self.now)
        self.constant((NULL, 0, 0))  # 'Constants start with Null'
        return outer
