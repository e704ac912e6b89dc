"""Small texts, each with the refusal that document 01 gives; the first line says what is wrong.

Records 0 to 2 are case A's frame unless a case brings its own: a Function, its Params, its Block.
"""

NAMES = ["symbols kind name", "references symbol", "functions parent count", "members symbol",
         "records kind detail p q start end first next"]
ROOT, PARAMS = "30 0 0 none 0 0 1 0", "31 0 0 0 0 0 0 2"
FRAME = (ROOT, PARAMS, "4 0 0 0 0 0 3 0")
NULL = "1 0 0 0 0 0 0 0"


def text(purpose, *records, strings=(), symbols=(), references=(), functions=("none 0",),
         members=(), frame=FRAME):
    """The text of tables whose lines are given, `none` as a word."""
    tables = [strings, symbols, references, functions, members, (*frame, *records)]
    parts = ["\n".join([name, *lines, "", ""]) for name, lines in zip([purpose, *NAMES], tables)]
    names, body = parts[0].split("\n", 1)
    return names + "\n" + (body + "".join(parts[1:])).replace("none", "4294967295")


def row_1():
    yield 1, 7, text("no records", frame=())


def row_3():
    one = {"strings": ["61"], "symbols": ["0 0"]}
    yield 3, 1, text("the second string equals the first", strings=["61", "61"])
    yield 3, 2, text("the empty string twice", strings=["-", "61", "-"])
    yield 3, 0, text("a symbol of kind 2", strings=["61"], symbols=["2 0"])
    yield 3, 1, text("the second symbol's name is no string", strings=["61"], symbols=["0 0", "1 1"])
    yield 3, 0, text("a reference to no symbol", references=["0"])
    yield 3, 1, text("the second reference to no symbol", references=["0", "1"], **one)
    yield 3, 0, text("a parent that is no function", functions=["1 0"])
    yield 3, 1, text("the second parent is no function", functions=["none 0", "2 0"])
    yield 3, 1, text("one function that counts a member too many", functions=["none 1"])
    yield 3, 2, text("two functions that count a member too many", functions=["none 0", "0 1"])
    yield 3, 0, text("a member that is no symbol", functions=["none 1"], members=["0"])
    yield 3, 1, text("the second member is no symbol", functions=["none 2"], members=["0", "1"], **one)
    yield 3, 1, text("a symbol twice in one function", functions=["none 2"], members=["0", "0"], **one)
    yield 3, 2, text("a symbol twice in the second function", functions=["none 1", "0 2"],
                     members=["0", "0", "0"], **one)
    yield 3, 1, text("tables in turn: entry 1 of 3 before entry 0 of 4", strings=["61"],
                     symbols=["0 0", "0 1"], references=["9"])


def row_4():
    yield 4, 3, text("kind 0", "0 0 0 0 0 0 0 0")
    yield 4, 4, text("kind 28", "1 0 0 0 0 0 0 4", "28 0 0 0 0 0 0 0")
    yield 4, 3, text("kind 40", "40 0 0 0 0 0 0 0")
    yield 4, 3, text("a Lit of detail 6", "1 6 0 0 0 0 0 0")
    yield 4, 3, text("a Member of detail 6", "12 6 0 0 0 0 4 0", NULL)
    yield 4, 1, text("Params of detail 2", frame=(ROOT, "31 2 0 0 0 0 0 2", "4 0 0 0 0 0 0 0"))
    yield 4, 3, text("a Bool of 2", "1 1 2 0 0 0 0 0")
    yield 4, 3, text("a Str that is no string", "1 4 0 0 0 0 0 0")
    yield 4, 4, text("an Ident whose name is no string", "1 0 0 0 0 0 0 4", "2 0 0 1 0 0 0 0",
                     strings=["61"])
    yield 4, 0, text("a Function whose name is no string",
                     frame=("30 0 0 0 0 0 1 0", PARAMS, "4 0 0 0 0 0 0 0"))
    yield 4, 4, text("4 at record 4 before 5 at record 3", "3 0 0 0 0 0 3 4", "0 0 0 0 0 0 0 0")


def row_5():
    yield 5, 3, text("a Paren that names itself", "3 0 0 0 0 0 3 0")
    yield 5, 2, text("a Block whose first is past the last record")
    yield 5, 4, text("a next that goes back", "1 0 0 0 0 0 0 4", "1 0 0 0 0 0 0 3")
    yield 5, 3, text("a next past the last record", "1 0 0 0 0 0 0 none")
    yield 5, 4, text("5 at record 4 before 6 at record 3", "3 0 0 0 0 0 0 4", "1 0 0 0 0 0 0 5")


def row_6():
    yield 6, 3, text("a Paren of nothing", "3 0 0 0 0 0 0 0")
    yield 6, 4, text("a Paren of nothing in a List", "8 0 0 0 0 0 4 0", "3 0 0 0 0 0 0 0")
    yield 6, 3, text("a Lit with a child", "1 0 0 0 0 0 4 0", NULL)
    yield 6, 1, text("variadic Params without an Ident",
                     frame=(ROOT, "31 1 0 0 0 0 0 2", "4 0 0 0 0 0 0 0"))
    yield 6, 0, text("record 0 no Function", frame=("4 0 0 0 0 0 0 0",))
    yield 6, 0, text("record 0 with a next", NULL,
                     frame=("30 0 0 none 0 0 1 3", PARAMS, "4 0 0 0 0 0 0 0"))
    yield 6, 0, text("a Function without a Block", frame=(ROOT, "31 0 0 0 0 0 0 0"))
    yield 6, 4, text("6 at record 4 before 7 at record 3", NULL, "3 0 0 0 0 0 0 0",
                     frame=(ROOT, PARAMS, "4 0 0 0 0 0 4 0"))


def row_7():
    yield 7, 3, text("a record that no link names", "19 0 0 0 0 0 0 0",
                     frame=(ROOT, PARAMS, "4 0 0 0 0 0 0 0"))
    yield 7, 5, text("a record that two Lists name", "8 0 0 0 0 0 5 4", "8 0 0 0 0 0 5 0", NULL)
    yield 7, 4, text("a record that its parent and a sibling name", "8 0 0 0 0 0 4 4", NULL)


def nested(purpose, levels, *before):
    """Parens down to a level; record 0 is level 1, the first Paren level 3."""
    start = 3 + len(before)
    parens = [f"3 0 0 0 0 0 {r + 1} 0" for r in range(start, start + levels - 3)]
    return text(purpose, *before, *parens, NULL)


def row_8():
    yield 8, 129, nested("129 levels", 129)
    yield 8, 130, nested("129 levels after a Null", 129, "1 0 0 0 0 0 0 4")
    yield 8, 129, nested("131 levels: the first too deep", 131)


def inner(number, at, next_=0):
    """A Fn and its Function without code, from a record on."""
    return (f"5 0 0 0 0 0 {at + 1} {next_}", f"30 0 {number} none 0 0 {at + 2} 0",
            f"31 0 0 0 0 0 0 {at + 3}", "4 0 0 0 0 0 0 0")


def row_9():
    two, three = ["none 0", "0 0"], ["none 0", "0 0", "0 0"]
    empty = "4 0 0 0 0 0 0 0"
    yield 9, 0, text("table 5 longer than there are Functions", functions=two,
                     frame=(ROOT, PARAMS, empty))
    yield 9, 0, text("table 5 empty", functions=[], frame=(ROOT, PARAMS, empty))
    yield 9, 0, text("record 0 with number 1", frame=("30 0 1 none 0 0 1 0", PARAMS, empty))
    yield 9, 0, text("record 0 with a parent", functions=["0 0"], frame=(ROOT, PARAMS, empty))
    yield 9, 4, text("an inner Function with number 0", *inner(0, 3), functions=two)
    yield 9, 8, text("the second inner Function with number 3", *inner(1, 3, 7), *inner(3, 7),
                     functions=three)
    yield 9, 8, text("a parent that is not the function around", *inner(1, 3, 7), *inner(2, 7),
                     functions=["none 0", "0 0", "1 0"])
    yield 9, 7, text("Assign numbered by text: the right side comes first", "24 0 0 0 0 0 4 0",
                     "34 1 0 0 0 0 5 10", "2 0 0 0 0 0 0 6", *inner(1, 6), *inner(2, 10),
                     strings=["61"], functions=three)
    yield 9, 7, text("AssignMulti numbered by text: the rights come first", "27 0 1 0 0 0 4 0",
                     "34 1 0 0 0 0 5 10", "2 0 0 0 0 0 0 6", *inner(1, 6), *inner(2, 10),
                     strings=["61"], functions=three)
    yield 9, 4, text("9 at record 4 before 15 at record 7", *inner(0, 3, 7), "22 0 0 0 0 0 0 0",
                     strings=["61"], functions=two)


def stored(at, ident="0"):
    """A GloAssign of Null from a record on."""
    return f"23 0 0 0 0 0 {at + 1} 0", f"2 0 {ident} 0 0 0 0 {at + 2}", NULL


def row_10():
    a = {"strings": ["61"]}
    yield 10, 3, text("a load by a reference out of range", "2 0 0 0 0 0 0 0", **a)
    yield 10, 4, text("a store by a reference out of range", *stored(3, "none"), **a)
    yield 10, 6, text("a pattern's Ident by a reference out of range", "15 0 0 0 0 0 4 0",
                      "1 0 0 0 0 0 0 5", "33 0 1 0 0 0 6 0", "36 0 7 0 0 0 0 7", NULL, **a)
    yield 10, 5, text("10 in a side before 13 of its Binary", "10 13 0 0 0 0 4 0",
                      "1 0 0 0 0 0 0 5", "2 0 7 0 0 0 0 0", **a)


def row_11():
    a = {"strings": ["61"], "references": ["0"]}
    yield 11, 3, text("a load of a Local that the function lacks", "2 0 0 0 0 0 0 0",
                      symbols=["0 0"], **a)
    yield 11, 3, text("a load of a Global that the function lacks", "2 0 0 0 0 0 0 0",
                      symbols=["1 0"], **a)
    yield 11, 7, text("a load of a Local that only the parent has", *inner(1, 3)[:3],
                      "4 0 0 0 0 0 7 0", "2 0 0 0 0 0 0 0", symbols=["0 0"],
                      functions=["none 1", "0 0"], members=["0"], **a)


def row_12():
    a = {"strings": ["61"], "references": ["0"]}
    yield 12, 4, text("a store to a Local that the function lacks", *stored(3), symbols=["0 0"], **a)
    yield 12, 4, text("a store to a Global that the function lacks", *stored(3), symbols=["1 0"], **a)
    yield 12, 9, text("a store to a captured Local", *inner(1, 3)[:3], "4 0 0 0 0 0 7 0",
                      "24 0 0 0 0 0 8 0", "34 0 0 0 0 0 9 10", "2 0 0 0 0 0 0 0", NULL,
                      symbols=["0 0"], functions=["none 1", "0 1"], members=["0", "0"], **a)


def update(operator, at):
    """An AssignOp with Null on its right, from a record on."""
    return (f"25 {operator} 0 0 0 0 {at + 1} 0", f"34 0 0 0 0 0 {at + 2} {at + 3}",
            "2 0 0 0 0 0 0 0", NULL)


MEMBERS = ["Bracket", "Dot", "DoubleColon", "BracketMeta", "DotMeta", "DoubleColonMeta"]


def member_update(operator, member, at):
    """The same with a member on its left; its property is Null or an Ident, a Meta has none."""
    first, last = f"25 {operator} 0 0 0 0 {at + 1} 0", "2 0 0 0 0 0 0 0"
    if member > 2:
        return first, f"34 {member + 1} 0 0 0 0 {at + 2} {at + 3}", last, NULL
    owner = f"2 0 0 0 0 0 0 {at + 3}"
    return first, f"34 {member + 1} 0 0 0 0 {at + 2} {at + 4}", owner, last if member else NULL, NULL


def row_13():
    a = {"strings": ["61"], "symbols": ["0 0"], "references": ["0"], "functions": ["none 1"],
         "members": ["0"]}
    yield 13, 3, text("Is in Binary", "10 13 0 0 0 0 4 0", "1 0 0 0 0 0 0 5", NULL)
    yield 13, 3, text("Is in AssignOp", *update(13, 3), **a)
    yield 13, 4, text("Is in AssignOp after a Null", "1 0 0 0 0 0 0 4", *update(13, 4), **a)
    for operator, word in ((5, "And"), (6, "Or"), (13, "Is")):
        for member, where in enumerate(MEMBERS):
            yield 13, 3, text(f"{word} in AssignOp on a {where}", *member_update(operator, member, 3),
                              **a)
    yield 13, 4, text("Or on a Dot after a Null", "1 0 0 0 0 0 0 4", *member_update(6, 1, 4), **a)
    yield 13, 3, text("And on a DotMeta, its right side `or=` on a name", "25 5 0 0 0 0 4 0",
                      "34 5 0 0 0 0 5 6", "2 0 0 0 0 0 0 0", *update(6, 6), **a)


def row_14():
    a = {"strings": ["61"]}
    yield 14, 3, text("a Left and no expr", "27 0 1 0 0 0 4 0", "34 0 0 0 0 0 5 0",
                      "2 0 0 0 0 0 0 0", **a)
    yield 14, 4, text("an expr and no Left", "1 0 0 0 0 0 0 4", "27 0 0 0 0 0 5 0", NULL)
    yield 14, 3, text("14 before 10 in a side", "27 0 0 0 0 0 4 0", "2 0 7 0 0 0 0 0", **a)


def row_15():
    a = {"strings": ["61"]}
    yield 15, 3, text("a Simple import with no path", "22 0 0 0 0 0 0 0", **a)
    yield 15, 4, text("the same with an alias", "1 0 0 0 0 0 0 4", "22 1 0 0 0 0 5 0",
                      "2 0 0 0 0 0 0 0", **a)


def row_16():
    cut = ("8 0 0 0 0 0 4 9", "19 0 0 0 0 0 0 5", *inner(1, 5))
    three = ["none 0", "0 0", "0 0"]
    yield 16, 10, text("a Fn after a Break skipped one", *cut, *inner(2, 9), functions=three)
    yield 16, 11, text("a Call's Function after a Break skipped one", *cut, "13 0 0 0 0 0 10 0",
                       "1 0 0 0 0 0 0 11", "30 0 2 none 0 0 12 0", "31 0 0 0 0 0 0 13",
                       "4 0 0 0 0 0 0 0", functions=three)


def cases():
    """(number, place, text)"""
    for row in (row_1, row_3, row_4, row_5, row_6, row_7, row_8, row_9, row_10, row_11, row_12,
                row_13, row_14, row_15, row_16):
        yield from row()
