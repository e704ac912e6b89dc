"""genlist's text: reading it into words, and writing words as text ('The listing program')."""

import re

from .words import ENTRY_WORDS

ORDER = (1, 3, 4, 5, 6, 7)
NAMES = {1: "strings", 3: "symbols kind name", 4: "references symbol",
         5: "functions parent count", 6: "members symbol",
         7: "records kind detail p q start end first next"}
ENTRIES = 140
BYTES = 4096
LONGEST = 262144     # bytes; a text of so many is too long (decision 52)

NUMBERS = re.compile(rb"[0-9]+(?: +[0-9]+)*")
HEXADECIMAL = re.compile(rb"(?:[0-9A-Fa-f]{2})+")


class Input(Exception):
    """Text that can't be read, or more than is taken; line numbers count from 1."""

    def __init__(self, line):
        super().__init__(line)
        self.line = line


def values(line, count):
    """Numbers of a line, or None (reading 28)."""
    if not NUMBERS.fullmatch(line):
        return None
    digits = [word.lstrip(b"0") for word in line.split(b" ") if word]
    if len(digits) != count or max(map(len, digits)) > 10:
        return None
    found = [int(word or b"0") for word in digits]
    return found if max(found) < 1 << 32 else None


def string(line):
    if line == b"-":
        return b""
    return bytes.fromhex(line.decode()) if HEXADECIMAL.fullmatch(line) else None


def read(text, limited=True):
    """Words of tables 1 to 7, or Input (reading 27)."""
    if limited and len(text) >= LONGEST:
        raise Input(too_long(text))
    return read_lines(text, limited)


def too_long(text):
    """The first line that can't be read, or else that of byte 262,144."""
    try:
        read_lines(text[:LONGEST], True)
    except Input as wrong:
        return wrong.line
    return text.count(b"\n", 0, LONGEST - 1) + 1


def read_lines(text, limited):
    lines = text.split(b"\n")
    if lines[-1] == b"":
        lines.pop()
    words = {table: [] for table in range(1, 8)}
    at = 0
    for table in ORDER:
        if at == len(lines):
            raise Input(at + 1)
        at += 1  # the line of names is any line
        entries = 0
        while True:
            if at == len(lines):
                if table == 7:
                    break
                raise Input(at + 1)
            if lines[at] == b"":
                at += 1
                break
            read_entry(words, table, lines[at], at + 1)
            entries += 1
            if limited and (entries > ENTRIES or len(words[2]) > BYTES):
                raise Input(at + 1)
            at += 1
    for i in range(at, len(lines)):
        if lines[i] != b"":
            raise Input(i + 1)
    return words


def read_entry(words, table, line, number):
    if table == 1:
        data = string(line)
        if data is None:
            raise Input(number)
        words[1] += [len(words[2]), len(data)]
        words[2] += data
    else:
        found = values(line, ENTRY_WORDS[table])
        if found is None:
            raise Input(number)
        words[table] += found


def write(words):
    """The text of tables: strings are cut at the end of the bytes, part entries stay short."""
    out = []
    for table in ORDER:
        out.append(NAMES[table])
        n = ENTRY_WORDS[table]
        for i in range(0, len(words[table]), n):
            entry = words[table][i:i + n]
            if table == 1:
                offset, length = entry if len(entry) == 2 else (0, 0)
                out.append(bytes(words[2][offset:offset + length]).hex() or "-")
            else:
                out.append(" ".join(map(str, entry)))
        out.append("")
    return "\n".join(out) + "\n"
