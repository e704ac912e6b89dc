"""Texts of tables as genlist gets them: plain, written otherwise, and such as can't be read."""

from model import text

from . import damage

LONGEST = text.LONGEST


def pick(random, data):
    """The lines, and the place of a line that is not blank."""
    lines = data.split(b"\n")
    filled = [i for i, line in enumerate(lines) if line]
    return lines, random.choice(filled) if filled else 0


def with_line(lines, at, new):
    return b"\n".join(lines[:at] + [new] + lines[at + 1:])


def entries(lines):
    """Places of lines that hold an entry: not blank, and not after a blank one."""
    return [i for i, line in enumerate(lines) if i and line and lines[i - 1]]


# -- written otherwise: read all the same, but for what the sizes forbid

def leading_zeros(_random, data):
    return b"\n".join(b" ".join(b"00" + word if word.isdigit() and len(word) < 4 else word
                                for word in line.split(b" ")) if b" " in line else line
                      for line in data.split(b"\n"))


def wide_spaces(_random, data):
    return data.replace(b" ", b"   ")


def upper_case(_random, data):
    """Hexadecimal in either case."""
    strings, _, rest = data.partition(b"\n\n")
    return strings.upper() + b"\n\n" + rest


def other_names(random, data):
    """Lines of names of any bytes, or none."""
    lines = data.split(b"\n")
    at = random.choice([i for i, line in enumerate(lines) if i == 0 or not lines[i - 1]][:6])
    return with_line(lines, at, random.choice(
        [b"", b"1 2", b"\xff\x00\xfe", b"x" * 5000, b"names\r", b"\t", b"0" * 300]))


def no_last_feed(_random, data):
    return data.rstrip(b"\n")


def tail(random, data):
    """The end of the text: blank lines, a line too many."""
    return data.rstrip(b"\n") + random.choice([b"\n", b"\n\n\n\n", b"\n\n1\n", b"\n\n\n0\n", b"\n\n\n "])


# -- can't be read, mostly

def change_byte(random, data):
    at = random.randrange(len(data))
    new = random.choice(b"0123456789abcdefABCDEFxg- \n\t\r;\xff\x00")
    return data[:at] + bytes([new]) + data[at + 1:]


def insert_byte(random, data):
    at = random.randrange(len(data) + 1)
    return data[:at] + bytes([random.choice(b"0 \n\t\r\x00-+.,;:/\x80\xff")]) + data[at:]


def random_bytes(random, _data):
    alphabet = random.choice([bytes(range(256)), b"0123456789 \n", b"\n", b"0 \n-af\r\t\x00"])
    return bytes(random.choice(alphabet) for _ in range(random.choice([0, 1, 5, 60, 800, 5000])))


def cut(random, data):
    return data[:random.randrange(len(data) + 1)]


def change_line(random, data):
    """One line taken out, doubled, or another put in."""
    lines = data.split(b"\n")
    at = random.randrange(len(lines))
    new = random.choice([b"", b"1", b"0 0", b"00", b"-", b"0A", b"0", b"4294967295", b"4294967296",
                         b"00000000000000000000 1", b"1 2 3 4 5 6 7 8", b"1  2", b"names", b"+1",
                         b"-1", b"99999999999999999999"])
    how = random.randrange(4)
    if how == 0:
        del lines[at]
    elif how == 1:
        lines.insert(at, lines[at])
    elif how == 2:
        lines.insert(at, new)
    else:
        lines[at] = new
    return b"\n".join(lines)


def wrong_count(random, data):
    """A value more or less in a line."""
    lines, at = pick(random, data)
    words = lines[at].split(b" ")
    words = words[:-1] if random.random() < 0.5 else words + [b"0"]
    return with_line(lines, at, b" ".join(words))


def huge_number(random, data):
    """A number about 2^32, 2^64 and beyond."""
    lines = data.split(b"\n")
    places = entries(lines)
    if not places:
        return data
    at = random.choice(places)
    words = lines[at].split(b" ")
    edge = random.choice([1 << 32, 10 << 32, 1 << 63, 1 << 64, 10 ** 40, 10 ** 400])
    words[random.randrange(len(words))] = b"%d" % (edge + random.choice([-1, 0, 1]))
    return with_line(lines, at, b" ".join(words))


def long_line(random, data):
    """A line of values with many zeros, spaces, digits or values."""
    lines = data.split(b"\n")
    places = entries(lines)
    if not places:
        return data
    at, n = random.choice(places), random.choice([30, 300, 5000, 70000])
    line = lines[at]
    return with_line(lines, at, random.choice(
        [b"0" * n + line, line.replace(b" ", b" " * n, 1), line + b" 0" * n, line + b"9" * n]))


def blank_lines(random, data):
    """A blank line missing or too many."""
    lines = data.split(b"\n")
    blank = [i for i, line in enumerate(lines) if not line]
    if blank and random.random() < 0.5:
        del lines[random.choice(blank)]
    else:
        lines.insert(random.randrange(len(lines)), b"")
    return b"\n".join(lines)


def returns(random, data):
    """Carriage returns before all line feeds, or one of them."""
    if random.random() < 0.5:
        return data.replace(b"\n", b"\r\n")
    lines, at = pick(random, data)
    return with_line(lines, at, lines[at] + b"\r")


def tabs(random, data):
    lines, at = pick(random, data)
    return random.choice([data.replace(b" ", b"\t"), with_line(lines, at, b"\t" + lines[at]),
                          with_line(lines, at, lines[at].replace(b" ", b"\t", 1))])


def nul_bytes(random, data):
    lines, at = pick(random, data)
    return random.choice([data.replace(b" ", b"\0"), with_line(lines, at, lines[at] + b"\0"),
                          with_line(lines, at, b"\0"), data + b"\0"])


def spaces_around(random, data):
    """A space before or after a line's values, or in a blank line."""
    lines = data.split(b"\n")
    at = random.randrange(len(lines))
    return with_line(lines, at, random.choice([b" " + lines[at], lines[at] + b" "]))


def more_entries(random, data):
    """A line repeated up to or past 140 entries."""
    lines = data.split(b"\n")
    places = entries(lines)
    if not places:
        return data
    at = random.choice(places)
    return b"\n".join(lines[:at] + [lines[at]] * random.randint(100, 145) + lines[at:])


def many_bytes(random, data):
    """Bytes up to or past 4,096, in one string or two."""
    lines = data.split(b"\n")
    n = random.choice([4000, 4094, 4095, 4096, 4097, 5000])
    new = [b"5a" * n] if random.random() < 0.7 else [b"5a" * (n - 7), b"5b" * 7]
    return b"\n".join(lines[:1] + new + lines[1:])


def too_long(random, data):
    """Up to or past 262,144 bytes, by blank lines, a line of names, zeros or spaces."""
    lines = data.split(b"\n")
    more = LONGEST - len(data) + random.choice([-2, -1, 0, 1, 2, 40, 5000])
    if random.random() < 0.5:
        return data + b"\n" * more + random.choice([b"", b"", b"0", b"0\n"])
    at = random.randrange(len(lines))
    line = lines[at]
    return with_line(lines, at, random.choice(
        [line + b"x" * more, b"0" * more + line, line.replace(b" ", b" " * (more + 1), 1)]))


OTHERWISE = [leading_zeros, wide_spaces, upper_case, other_names, no_last_feed, tail]
MALFORMED = [change_byte, change_byte, insert_byte, insert_byte, random_bytes, cut, cut, change_line,
             change_line, wrong_count, huge_number, long_line, blank_lines, returns, tabs, nul_bytes,
             spaces_around, more_entries, many_bytes]


def given(random, words):
    """(text, how it was made) of a case's tables."""
    draw = random.random()
    if draw < 0.04:
        return text.write(damage.odd(random, words)).encode(), "odd words"
    data = text.write(words).encode()
    if draw < 0.70:
        return data, "plain"
    if draw < 0.80:
        way = random.choice(OTHERWISE)
    elif draw < 0.997:
        way = random.choice(MALFORMED)
    else:
        way = too_long
    return way(random, data), way.__name__.replace("_", " ")
