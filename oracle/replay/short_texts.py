"""Small texts with `and=` or `or=` on a plain name, and what genlist prints of each.

All answers are written by hand from the text of Job 1 in document 02: the name is loaded, a jump goes to
a label taken before the load, the right side is visited, the label placed, the name stored, Null loaded.
The Rust has no part in them. With a listing stands each function's label count.
"""

from .refusal_texts import FRAME, NULL, ROOT, inner, text

# A Local x; the same as a Global; x and a Global f.
X = {"strings": ["78"], "symbols": ["0 0"], "references": ["0"], "functions": ["none 1"],
     "members": ["0"]}
GLOBAL = {**X, "symbols": ["1 0"]}
X_F = {"strings": ["78", "66"], "symbols": ["0 0", "1 1"], "references": ["0", "1"],
       "functions": ["none 2"], "members": ["0", "1"]}
DO = ("30 2 0 none 0 0 1 0", *FRAME[1:])
X_ROW, F_ROW = ["0 - 0"], ["1 - 1"]    # name, symbol
ONE = "1 2 1 0 0 0 0 0"
CALL_F = ("13 0 0 0 0 0 {} 0", "2 0 1 1 0 0 0 0")
AND, OR = 5, 6


def update(operator, at, *right, next_=0, reference=0):
    """An AssignOp on a plain name from a record on, its right side from at + 3; `{}` is the record
    after."""
    left = (f"25 {operator} 0 0 0 0 {at + 1} {next_}", f"34 0 0 0 0 0 {at + 2} {at + 3}",
            f"2 0 {reference} 0 0 0 0 0")
    return left + tuple(line.format(at + 4 + i) for i, line in enumerate(right))


def stated(*functions, errors=()):
    """The text of a listing: per function its sections with their rows, then errors."""
    out = ["function section place word value more"]

    def rows(number, section, lines):
        for place, line in enumerate(lines):
            fields = line.split() + ["-"] * (3 - len(line.split()))
            out.append(" ".join([str(number), section, str(place), *fields]))

    for number, sections in enumerate(functions):
        for section, lines in sections.items():
            rows(number, section, lines)
    rows("-", "error", errors)
    return "\n".join(out) + "\n"


def function(code, *, const=("Null",), head="Function", loops=0, **names):
    """The sections of a function; its code with commas, as document 01 writes it."""
    return {"head": [head, f"Loops {loops}"], "code": code.split(", "), "const": const, **names}


def plain():
    """Locals, globals, parameters, right sides of some kinds."""
    one = ("Null", "Int 1")
    yield (text("x and= 1", *update(AND, 3, ONE), **X), [1], stated(function(
        "LoadLocal 0, JumpIfFalseOrPop 0, LoadConst 1, Label 0, StoreLocal 0, LoadConst 0, Return",
        const=one, local=X_ROW)))
    yield (text("x or= f()", *update(OR, 3, *CALL_F), **X_F), [1], stated(function(
        "LoadLocal 0, JumpIfTrueOrPop 0, LoadGlobal 0, Call 0, Label 0, StoreLocal 0, LoadConst 0, "
        "Return", local=X_ROW, **{"global": F_ROW})))
    yield (text("x and= 1, a Global", *update(AND, 3, ONE), **GLOBAL), [1], stated(function(
        "LoadGlobal 0, JumpIfFalseOrPop 0, LoadConst 1, Label 0, StoreGlobal 0, LoadConst 0, Return",
        const=one, **{"global": X_ROW})))
    yield (text("x or= 1, a parameter", "2 0 0 0 0 0 0 0", *update(OR, 4, ONE),
                frame=(ROOT, "31 0 0 0 0 0 3 2", "4 0 0 0 0 0 4 0"), **X), [1], stated(function(
        "StoreLocal 0, LoadLocal 0, JumpIfTrueOrPop 0, LoadConst 1, Label 0, StoreLocal 0, "
        "LoadConst 0, Return", head="Function - 0", const=one, local=X_ROW)))
    yield (text("x and= x or= 1", *update(AND, 3, *update(OR, 6, ONE)), **X), [2], stated(function(
        "LoadLocal 0, JumpIfFalseOrPop 0, LoadLocal 0, JumpIfTrueOrPop 1, LoadConst 1, Label 1, "
        "StoreLocal 0, LoadConst 0, Label 0, StoreLocal 0, LoadConst 0, Return",
        const=one, local=X_ROW)))
    yield (text("x or= a closure", *update(OR, 3, "5 0 0 0 0 0 {} 0", "30 1 1 none 0 0 {} 0",
                                           "31 0 0 0 0 0 0 {}", "4 0 0 0 0 0 0 0"),
                **{**X, "functions": ["none 1", "0 0"]}), [1, 0], stated(
        function("LoadLocal 0, JumpIfTrueOrPop 0, LoadConst 1, Label 0, StoreLocal 0, LoadConst 0, "
                 "Return", const=["Null", "Function 1"], local=X_ROW),
        function("LoadConst 0, Return", head="Closure")))
    yield (text("return x or= f()", "21 0 0 0 0 0 4 0", *update(OR, 4, *CALL_F), **X_F), [2],
           stated(function(
               "Jump 0, Label 0, LoadLocal 0, JumpIfTrueOrPop 1, LoadGlobal 0, Call 0, Label 1, "
               "StoreLocal 0, LoadConst 0, Return, LoadConst 0, Return",
               local=X_ROW, **{"global": F_ROW})))


def loops():
    """In a loop with a Break on the right, and as a test."""
    yield (text("loop { x and= break }", "16 0 0 0 0 0 4 0", "4 0 0 0 0 0 5 0",
                *update(AND, 5, "19 0 0 0 0 0 0 0"), **X), [3], stated(function(
        "Label 0, LoadLocal 0, JumpIfFalseOrPop 2, Break 1, LoadConst 0, Label 2, StoreLocal 0, "
        "LoadConst 0, Pop, JumpBackEdge 0, Label 1, LoadConst 0, Return", loops=1, local=X_ROW)))
    yield (text("while x or= f() {}", "17 0 0 0 0 0 4 0", *update(OR, 4, *CALL_F, next_=9),
                "4 0 0 0 0 0 0 0", **X_F), [3], stated(function(
        "Label 0, LoadLocal 0, JumpIfTrueOrPop 2, LoadGlobal 0, Call 0, Label 2, StoreLocal 0, "
        "LoadConst 0, PopJumpIfFalse 1, LoadConst 0, Pop, JumpBackEdge 0, Label 1, LoadConst 0, "
        "Return", loops=1, local=X_ROW, **{"global": F_ROW})))


def errors():
    """A right side cut short: the label is taken and counted, but not placed."""
    cut = ("21 0 0 0 6 14 {} 0", NULL)
    yield (text("a Do: x or= return null", *update(OR, 3, *cut), frame=DO, **X), [1], stated(
        function("LoadLocal 0, JumpIfTrueOrPop 0, Pop, LoadLocals, Return", head="Do", local=X_ROW),
        errors=["ReturnOutsideFunction 6 14"]))
    yield (text("a Do: x or= return null, x and= 1", *update(OR, 3, *cut, next_=8),
                *update(AND, 8, ONE), frame=DO, **X), [2], stated(
        function("LoadLocal 0, JumpIfTrueOrPop 0, Pop, LoadLocal 0, JumpIfFalseOrPop 1, LoadConst 1, "
                 "Label 1, StoreLocal 0, LoadConst 0, Pop, LoadLocals, Return", head="Do",
                 const=("Null", "Int 1"), local=X_ROW), errors=["ReturnOutsideFunction 6 14"]))
    yield (text("x and= break", *update(AND, 3, "19 0 0 0 7 12 0 0"), **X), [1], stated(
        function("LoadLocal 0, JumpIfFalseOrPop 0, Return", local=X_ROW),
        errors=["BreakOutsideLoop 7 12"]))


def refusals():
    """10 and 11 at the load, before the right side; 12 at the store, after it."""
    is_ = ("10 13 0 0 0 0 {} 0", "1 0 0 0 0 0 0 {}", NULL)
    unknown = {**X, "functions": ["none 0"], "members": []}
    captured = {**X, "functions": ["none 1", "0 1"], "members": ["0", "0"]}
    closure = (*inner(1, 3)[:3], "4 0 0 0 0 0 7 0")
    yield text("x or= 1, the reference out of range", *update(OR, 3, ONE, reference=7), **X), 10, 5
    yield text("x and= 1, x unknown", *update(AND, 3, ONE), **unknown), 11, 5
    yield text("x or= null is null, x unknown", *update(OR, 3, *is_), **unknown), 11, 5
    yield text("x and= null is null", *update(AND, 3, *is_), **X), 13, 6
    yield text("x or= 1, x captured", *closure, *update(OR, 7, ONE), **captured), 12, 9
    yield text("x and= 1, x captured", *closure, *update(AND, 7, ONE), **captured), 12, 9
    yield text("x or= null is null, x captured", *closure, *update(OR, 7, *is_), **captured), 13, 10


def cases():
    """(text, answer, each function's labels or None)"""
    for group in (plain, loops, errors):
        for given, labels, answer in group():
            yield given, answer, labels
    for given, number, place in refusals():
        yield given, f"refusal place\n{number} {place}\n", None
