"""genlist's answers: the listing, a refusal, or `input` ('The listing program')."""

from . import text
from .run import generate
from .words import *


def signed(low, high):
    value = high << 32 | low
    return value - (1 << 64) if value >> 63 else value


def constant_value(kind, first, second):
    """'-' for Null and Yield, Int signed, Float 16 hexadecimal digits, else the first word."""
    if kind in (NULL, YIELD):
        return "-"
    if kind == INT:
        return str(signed(first, second))
    if kind == FLOAT:
        return "%016x" % (second << 32 | first)
    return str(first)


def head(t, stream):
    """Kind, name string, parameter strings."""
    record = t.records[stream.record]
    params = t.children(stream.record)[0]
    names = [str(t.records[c].q) for c in t.children(params)]
    if t.records[params].detail == 1:
        names[-1] = "*" + names[-1]
    name = "-" if record.q == NONE else str(record.q)
    return FUNCTION_KINDS[record.detail], name, ",".join(names) or "-"


def function_rows(t, stream):
    """(section, word, value, more) of one function."""
    yield ("head", *head(t, stream))
    yield "head", "Loops", stream.depth, "-"
    for code, operand in stream.markers:
        name = OPCODES[code]
        yield "code", name, "-" if name in WITHOUT_OPERAND else operand, "-"
    for kind, first, second in stream.constants:
        yield "const", CONSTANTS[kind], constant_value(kind, first, second), "-"
    for symbol in stream.names.locals:
        yield "local", t.symbols[symbol][1], "-", symbol
    for symbol in stream.names.globals:
        yield "global", t.symbols[symbol][1], "-", symbol
    for symbol, (capture, index) in zip(stream.names.upvalues, stream.names.captures):
        yield "upvalue", ["Local", "Upvalue"][capture - 1], index, symbol


def listing(answer):
    """The text of an accepted answer; places count within a section (reading 26)."""
    out = ["function section place word value more"]
    for stream in answer.streams:
        places = {}
        for section, *rest in function_rows(answer.t, stream):
            place = places.get(section, 0)
            places[section] = place + 1
            out.append(" ".join(map(str, (stream.number, section, place, *rest))))
    for place, (kind, start, end) in enumerate(answer.errors):
        out.append(f"- error {place} {ERRORS[kind]} {start} {end}")
    return "\n".join(out) + "\n"


def refusal(refused):
    return f"refusal place\n{refused.number} {refused.place}\n"


def answer_text(data, limited=True, show=listing):
    """What genlist prints for a text."""
    try:
        return show(generate(text.read(data, limited)))
    except text.Input as wrong:
        return f"input {wrong.line}\n"
    except Refused as refused:
        return refusal(refused)
