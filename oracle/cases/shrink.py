"""Makes a case smaller while something stays true of it."""

from .build import Node, Program, null, walk


def program_of(words):
    """The nodes of tables that pass rows 1 to 9."""
    rows = [words[7][i:i + 8] for i in range(0, len(words[7]), 8)]
    nodes = [Node(*row[:4], (), row[4], row[5]) for row in rows]
    for node, row in zip(nodes, rows):
        at = row[6]
        while at:
            node.children.append(nodes[at])
            at = rows[at][7]
    members, at = {}, 0
    by_number = {node.p: node for node in nodes if node.kind == 30}
    for f in range(len(words[5]) // 2):
        count = words[5][2 * f + 1]
        members[by_number[f]] = words[6][at:at + count]
        at += count
    strings = [bytes(words[2][o:o + n]) for o, n in zip(words[1][::2], words[1][1::2])]
    symbols = list(zip(words[3][::2], words[3][1::2]))
    return Program(nodes[0], strings, symbols, words[4], members)


def edits(root):
    """Ways to make the tree smaller, each with its way back."""
    for parent in list(walk(root)):
        for i in range(len(parent.children) - 1, -1, -1):
            child, before, p = parent.children[i], parent.children, parent.p
            without = before[:i] + before[i + 1:]
            yield parent, without, p
            if p and parent.kind in (18, 22, 26, 27, 33):
                yield parent, without, p - 1
            if parent.kind == 27 and i < p:
                yield parent, [c for n, c in enumerate(before) if n not in (i, i + p)], p - 1
            below = [d for c in child.children for d in c.children]
            for inner in child.children + below:
                yield parent, before[:i] + [inner] + before[i + 1:], p
            if child.children or child.kind != 1:
                yield parent, before[:i] + [null()] + before[i + 1:], p


class Tries:
    """Asks whether something is still so, a number of times at most; then it says no."""

    def __init__(self, still, count):
        self.still, self.count = still, count

    def __call__(self, given):
        self.count -= 1
        return self.count >= 0 and self.still(given)


def fewer_lines(lines, still):
    """Lines left out, many at first."""
    size = len(lines) // 2
    while size:
        at = 0
        while at < len(lines):
            without = lines[:at] + lines[at + size:]
            if still(b"\n".join(without)):
                lines = without
            else:
                at += size
        size //= 2
    return lines


def plainer_words(lines, still):
    """Numbers put to 0, long lines cut in two."""
    for at, line in enumerate(lines):
        words = line.split(b" ")
        shorter = [b" ".join(words[:i] + [b"0"] + words[i + 1:])
                   for i, word in enumerate(words) if word.isdigit() and word != b"0"]
        for new in [line[:len(line) // 2]] * (len(line) > 99) + shorter:
            if still(b"\n".join(lines[:at] + [new] + lines[at + 1:])):
                lines = lines[:at] + [new] + lines[at + 1:]
                break
    return lines


def shrink_text(data, still, tries=1500):
    """A smaller text of which `still` holds."""
    still = Tries(still, tries)
    again = True
    while again and still.count > 0:
        before = data
        lines = fewer_lines(data.split(b"\n"), still)
        data = b"\n".join(plainer_words(lines, still))
        again = len(data) < len(before)
    return data


def fewer_names(program, still):
    """Members left out, and strings, symbols and references from the last on."""
    for share in [*program.members.values(), program.references, program.symbols, program.strings]:
        for i in range(len(share) - 1, -1, -1):
            taken = share.pop(i)
            if not still(program.words()):
                share.insert(i, taken)


def shrink(words, still, tries=3000):
    """The smallest words found of which `still` holds; it must hold of these."""
    program = program_of(words)
    if not still(program.words()):
        return words
    again = True
    while again and tries > 0:
        again = False
        for parent, children, p in edits(program.root):
            tries -= 1
            before = parent.children, parent.p
            parent.children, parent.p = children, p
            again = still(program.words())
            if again:
                break
            parent.children, parent.p = before
            if tries <= 0:
                break
    fewer_names(program, Tries(still, 400))
    return program.words()
