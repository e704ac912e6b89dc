#!/usr/bin/env python3
"""Remakes examples/*.in and *.out from the scripts beside them, always the same.

The trees and the shares of names are written here by hand, as a parser and a resolver of names would
give them. A listing is the Rust's (oracle/build.sh must have been run) and must be the model's too; of
the refusal the Rust's panic must speak for its number and place. Of `ready` the Rust is not asked: its
listing is written by hand from Job 1's text, and must be the model's.
"""

import pathlib
import struct
import sys

HERE = pathlib.Path(__file__).resolve().parent
sys.path.insert(0, str(HERE.parent))

from cases.judge import Case, ask_rust
from cases.script import (Part, Script, assign, binary, block, call, closure, integer, label, member,
                          name, number, params, root, string)
from model import text
from model.words import OPERATORS
from replay.short_texts import function, stated

TARGET = HERE.parent.parent / "examples"


def ratio():
    body = root(
        assign(name("point"), call(member(name("meter"), "point"), integer(1))),
        Part(24, Part(34, name("point"), label("ratio"), detail=2),
             binary("/", integer(400), integer(5))),
        Part(14, binary(">", member(name("point"), "ratio"), integer(0)),
             block(call(member(name("meter"), "save"), name("point"))), opening="if"))
    return body, {body: ["meter", "point"]}


def channels():
    body = root(Part(
        18, name("channel"), member(name("meter"), "channels"),
        block(Part(14, member(name("channel"), "unused"), block(Part(20, opening="continue")),
                   opening="if"),
              Part(24, Part(34, name("channel"), label("period"), detail=2), integer(900))),
        p=1, opening="for"))
    return body, {body: ["meter", "channel"]}


def meter_type():
    def case(*parts):
        return Part(33, *parts, p=len(parts) - 1)

    table = Part(37, string("phases"), name("given", 36), detail=1, opening="{", closing="}")
    body = root(assign(name("phases"), Part(
        15, member(name("meter"), "type"),
        case(string("E1", 35), integer(1)),
        case(string("E3", 35), string("E3T", 35), integer(3)),
        case(table, name("given")),
        case(name("other", 36), integer(0)),
        opening="match", closing="}")))
    return body, {body: ["meter", "phases", "given", "other"]}


def closures():
    days = closure(["days"], binary("/", binary("*", name("pulses"), name("ratio")), name("days")))
    pulses = closure(["pulses"], Part(5, days))
    scale = Part(30, params("ratio"), block(Part(5, pulses)), word="scale")
    low, high = struct.unpack("<II", struct.pack("<d", 0.001))
    thousandth = Part(1, detail=3, p=low, opening="0.001")
    thousandth.q = high
    body = root(Part(5, name("scale"), scale, detail=1, opening="fn"),
                assign(name("kwh"), call(name("scale"), thousandth)))
    return body, {body: ["scale", "kwh"], scale: ["ratio"], pulses: ["pulses", "ratio"],
                  days: ["days", "pulses", "ratio"]}


def imports():
    items = [Part(39, name("show")), Part(39, label("clear"), name("blank"), detail=1)]
    body = root(
        Part(22, label("meter"), name("clock"), p=2, word="meter::clock", opening="import"),
        Part(22, label("meter"), label("display"), *items, detail=2, p=2, word="meter::display",
             opening="import", closing="}"),
        call(member(name("clock"), "set_zone"), string("UTC")),
        call(name("blank")),
        call(name("show"), call(member(name("clock"), "now"))))
    return body, {body: ["clock", "show", "blank"]}


def handler():
    register = Part(
        30, params("number"),
        block(Part(14, binary(">", name("number"), integer(99)),
                   block(call(name("fault"), name("number"))), opening="if"),
              Part(21, call(member(name("meter"), "read"), name("number")), opening="return")),
        word="register")
    minus = Part(9, integer(1), detail=1, opening="-")
    caught = Part(32, name("fault"), params("code"), block(minus))
    told = Part(31, label("code"), opening="(", closing=")")
    tried = Part(13, name("register"), integer(120), caught, opening="try")
    body = root(Part(6, name("fault"), told, word="fault", opening="effect"),
                Part(5, name("register"), register, detail=1, opening="fn"),
                assign(name("value"), tried))
    return body, {body: ["fault", "register", "value", "code"],
                  register: ["number", "fault", "meter"]}


def outside_loop():
    body = root(
        Part(14, member(name("meter"), "sealed"), block(Part(19, opening="break")), opening="if"),
        call(member(name("meter"), "start")))
    return body, {body: ["meter"]}


def captured_store():
    add = closure(["pulses"], Part(25, Part(34, name("total")), name("pulses")))
    body = root(assign(name("total"), integer(0)), assign(name("add"), Part(5, add)))
    return body, {body: ["total", "add"], add: ["pulses", "total"]}


def ready():
    def update(operator, right):
        return Part(25, Part(34, name("ready")), right, detail=OPERATORS.index(operator))

    body = root(
        assign(name("ready"), member(name("meter"), "sealed")),
        update("And", member(name("meter"), "clock_set")),
        update("Or", call(name("check"))),
        Part(14, name("ready"), block(call(member(name("meter"), "start"))), opening="if"))
    return body, {body: ["meter", "check", "ready"]}


EXAMPLES = {"ratio": ratio, "channels": channels, "meter_type": meter_type, "closure": closures,
            "import": imports, "handler": handler, "outside_loop": outside_loop,
            "captured_store": captured_store, "ready": ready}

# What the Rust has no part in; a new line for each statement.
BY_HAND = {"ready": stated(function(
    "LoadGlobal 0, LoadConst 1, GetAttr, Label 0, StoreLocal 0, LoadConst 0, Pop, "
    "LoadLocal 0, JumpIfFalseOrPop 1, LoadGlobal 0, LoadConst 2, GetAttr, Label 2, Label 1, "
    "StoreLocal 0, LoadConst 0, Pop, "
    "LoadLocal 0, JumpIfTrueOrPop 3, LoadGlobal 1, Call 0, Label 3, StoreLocal 0, LoadConst 0, Pop, "
    "LoadLocal 0, PopJumpIfFalse 4, LoadGlobal 0, Copy 1, LoadConst 3, GetAttr, Swap 2, Label 6, "
    "Call 1, Jump 5, Label 4, LoadConst 0, Label 5, Return",
    const=["Null", "Str 3", "Str 4", "Str 5"], local=["2 - 2"], **{"global": ["0 - 0", "1 - 1"]}))}


def named(title, script, plain):
    """The text with lines of names that tell what stands below them."""
    symbols = [script.strings[q] for _, q in script.symbols]
    names = {1: f"{title}: strings " + ", ".join(f"{i} {s}" for i, s in enumerate(script.strings)),
             3: "symbols " + ", ".join(f"{i} {s}" for i, s in enumerate(symbols))
                + ": kind (0 Local, 1 Global), name",
             4: "references: symbol", 5: "functions: parent, count", 6: "members: symbol",
             7: "records: kind detail p q start end first next"}
    for table, line in names.items():
        plain = plain.replace(text.NAMES[table] + "\n", line + "\n", 1)
    return plain


def made(title):
    """The text of an example's tables, and its answer."""
    body, shares = EXAMPLES[title]()
    source = (TARGET / f"{title}.lucia").read_text()
    script = Script(source, body, shares, globals_=["meter", "check"])
    given = named(title, script, text.write(script.program.words()))
    case = Case(data=given.encode())
    if title in BY_HAND:
        if case.rust_can_judge() or case.expected() != BY_HAND[title]:
            sys.exit(f"{title}: the model says\n{case.expected()}")
    elif ask_rust([case]) != 1 or case.difference():
        sys.exit(f"{title}: {case.difference()}")
    return given, case.expected()


def main():
    for title in EXAMPLES:
        given, answer = made(title)
        (TARGET / f"{title}.in").write_text(given)
        (TARGET / f"{title}.out").write_text(answer)
    print(f"examples: {len(EXAMPLES)}")


if __name__ == "__main__":
    main()
