"""Texts for genlist's reader: which line `input` names, and what is read all the same.

A text's first line says what it is about, where that line is not the matter itself.
"""

from model.listing import answer_text

BASE = """strings
61
-

symbols
0 0

references
0

functions
4294967295 1

members
0

records
30 0 0 4294967295 0 0 1 0
31 0 0 0 0 0 0 2
4 0 0 0 0 0 3 0
2 0 0 1 0 0 0 0

""".split("\n")[:-1]     # lines 1 to 22, the last one blank

LISTING = "function section place word value more"
ENTRY = "1 0 0 0 0 0 0 0"


def line(number, *new):
    """The base with one line replaced by others, or taken out."""
    return BASE[:number - 1] + list(new) + BASE[number:]


def after(number, *new):
    return BASE[:number] + list(new) + BASE[number:]


def numbers():
    """Digits only, one or more spaces, leading zeros, up to 4,294,967,295."""
    yield "as it should be", BASE, LISTING
    yield "three spaces", line(6, "0   0"), LISTING
    yield "leading zeros", line(6, "000 00000000000000000000000"), LISTING
    yield "leading zeros before the greatest", line(12, "0004294967295 1"), LISTING
    for what, new in (
            ("a value too few", "0"), ("a value too many", "0 0 0"), ("a minus sign", "0 -0"),
            ("a plus sign", "+0 0"), ("hexadecimal", "0 0x0"), ("a comma", "0,0"), ("a tab", "0\t0"),
            ("a letter", "a 0"), ("above the greatest", "0 4294967296"),
            ("above 64 bits", "18446744073709551616 0"), ("a full stop", "0 0."),
            ("no-break space", "0\u00a00"), ("a dash", "-"), ("carriage return", "0 0\r"),
            ("a space at the start", " 0 0"), ("a space at the end", "0 0 "), ("only a space", " ")):
        yield what, line(6, new), "input 6"
    yield "two values for a reference", line(9, "0 0"), "input 9"
    yield "a parent above the greatest", line(12, "4294967296 1"), "input 12"
    yield "a function without its count", line(12, "4294967295"), "input 12"
    yield "a word for a member", line(15, "one"), "input 15"
    yield "a record of seven values", line(18, "30 0 0 4294967295 0 0 1"), "input 18"
    yield "a record of nine values", line(21, "2 0 0 1 0 0 0 0 0"), "input 21"


def strings():
    """Hexadecimal in either case, an even number of digits, '-' for empty."""
    yield "a capital letter", line(2, "6A"), LISTING
    yield "both cases", line(2, "aFfA00"), LISTING
    for new in ("6", "616", "6g", "0x61", "61 62", "--", " 61"):
        yield f"a string of {new.strip()}", line(2, new), "input 2"


def names():
    """The line of names is any line."""
    yield "", line(1, ""), LISTING
    yield "numbers for names", line(17, "1 2 3"), LISTING
    yield "an entry for names", line(5, "0 0"), LISTING


def ends():
    """Where a text or a table ends."""
    yield "", [], "input 1"
    for number in (1, 2, 3, 4, 5, 9, 12, 15, 16):
        yield f"{number} lines", BASE[:number], f"input {number + 1}"
    yield "no records", BASE[:17], "1 7"
    yield "the end of the text ends table 7", BASE[:21], LISTING
    yield "blank lines at the end", BASE + [""] * 5, LISTING
    yield "a line after them", BASE + ["", "0"], "input 24"
    yield "a line after the blank one", BASE + ["names"], "input 23"
    # What follows is read as the next table.
    yield "a blank line too many", after(2, ""), "input 7"
    yield "a blank line too few", line(16), "input 16"


def sizes():
    """140 entries, 4,096 bytes."""
    yield "140 references", line(9, *["0"] * 140), LISTING
    yield "141 references", line(9, *["0"] * 141), "input 149"
    yield "200 references", line(9, *["0"] * 200), "input 149"
    yield "140 strings", line(2, *(f"{i:02x}" for i in range(139))), LISTING
    yield "141 strings", line(2, *(f"{i:02x}" for i in range(140))), "input 142"
    yield "140 records", line(21, *[ENTRY] * 137), "7 4"
    yield "141 records", line(21, *[ENTRY] * 138), "input 158"
    yield "4,096 bytes", line(2, "5a" * 4096), LISTING
    yield "4,097 bytes", line(2, "5a" * 4097), "input 2"
    yield "4,096 bytes in two strings", line(2, "5a" * 4095, "00"), LISTING
    yield "4,097 bytes in two strings", line(2, "5a" * 4095, "0001"), "input 3"


def firsts():
    """The first line that can't be read, before every refusal."""
    yield "an unknown kind", line(18, "99 0 0 4294967295 0 0 1 0"), "4 0"
    yield "a record of two values", after(21, "0 0"), "input 22"
    yield "a line that can't be read after a wrong entry", line(6, "9 9", "x"), "input 7"
    yield "the same string twice", line(3, "61"), "3 1"


def cases():
    """(purpose, lines, answer: LISTING, `input` and the line, or number and place)"""
    for group in (numbers, strings, names, ends, sizes, firsts):
        yield from group()


def text_of(purpose, lines):
    """The text, with the purpose in its first line if that is the base's."""
    if lines[:1] == BASE[:1]:
        lines = [f"strings: {purpose}"] + lines[1:]
    return "".join(text + "\n" for text in lines)


def agrees(answer, stated):
    """Whether an answer is the one stated; of a listing the first line is."""
    if stated == LISTING:
        return answer.startswith(LISTING + "\n")
    return answer == (stated if stated.startswith("input") else f"refusal place\n{stated}") + "\n"


def checked():
    """(text, answer), the answers as stated."""
    for purpose, lines, stated in cases():
        text = text_of(purpose, lines)
        answer = answer_text(text.encode())
        if not agrees(answer, stated):
            raise SystemExit(f"text {purpose!r}: stated {stated!r}, the model says {answer[:40]!r}")
        yield text, answer
