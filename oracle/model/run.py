"""The whole call: rows 1 to 9, the run, and the words of 'Out'."""

import sys

from .tree import check
from .visit import Visitor

sys.setrecursionlimit(20000)


class Answer:
    """An accepted answer."""

    def __init__(self, visitor):
        self.t = visitor.t
        self.streams = visitor.streams   # of the functions met, always the lowest numbers
        self.errors = visitor.errors     # (kind, start, end) in the order they arose

    def line(self, stream):
        """Markers, labels, constants, locals, globals, upvalues and loop depth."""
        names = stream.names
        return (len(stream.markers), stream.labels, len(stream.constants), len(names.locals),
                len(names.globals), len(names.upvalues), stream.depth)

    def forecast(self):
        """A number of markers that no run exceeds."""
        return 32 * len(self.t.records)

    def words(self):
        """The five outputs as lists of words: markers, constants, names, errors, lines."""
        def flat(entries):
            return [word for entry in entries for word in entry]
        streams = self.streams
        return [flat(marker for s in streams for marker in s.markers),
                flat(constant for s in streams for constant in s.constants),
                flat(name for s in streams for name in s.names.words()),
                flat(self.errors),
                flat(self.line(s) for s in streams)]


def run(t):
    """The run over tables that passed rows 1 to 9: an Answer, or Refused 10 to 16."""
    visitor = Visitor(t)
    visitor.visit_function(0, root=True)
    return Answer(visitor)


def generate(words, lengths=None):
    """The call: an Answer, or Refused."""
    return run(check(words, lengths))
