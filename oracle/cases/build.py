"""Trees as nodes, and their way into the seven tables."""

NONE = 4294967295


class Node:
    """A record with its children; links are made when the tree is laid out."""

    __slots__ = ("kind", "detail", "p", "q", "start", "end", "children", "record")

    def __init__(self, kind, detail=0, p=0, q=0, children=(), start=0, end=0):
        self.kind = kind
        self.detail = detail
        self.p = p
        self.q = q
        self.start = start
        self.end = end
        self.children = list(children)
        self.record = None


def walk(node):
    """All nodes, a parent before its children."""
    waiting = [node]
    while waiting:
        node = waiting.pop()
        yield node
        waiting.extend(reversed(node.children))


def number_functions(root):
    """Gives each Function its number; returns (Function, parent) in this order: as visited, 24
    and 26 right side first, 27 the rights, then its Lefts from the last to the first."""
    found = []

    def down(node, enclosing):
        if node.kind == 30:
            node.p = len(found)
            found.append((node, enclosing))
            enclosing = node.p
        children = node.children
        if node.kind in (24, 26):
            children = children[-1:] + children[:-1]
        elif node.kind == 27:
            children = children[node.p:] + children[:node.p][::-1]
        for child in children:
            down(child, enclosing)

    down(root, NONE)
    return found


def preorder(root, _random=None):
    return list(walk(root))


def breadth_first(root, _random=None):
    out = [root]
    for node in out:
        out.extend(node.children)
    return out


def scattered(root, random):
    """Any order in which a parent and an earlier sibling come first: links only rise."""
    out, ready = [], [(root, [])]
    while ready:
        node, later = ready.pop(random.randrange(len(ready)))
        out.append(node)
        if later:
            ready.append((later[0], later[1:]))
        if node.children:
            ready.append((node.children[0], node.children[1:]))
    return out


def records(root, order=preorder, random=None):
    """The words of table 7."""
    nodes = order(root, random)
    for i, node in enumerate(nodes):
        node.record = i
    following = {}
    for node in nodes:
        for child, sibling in zip(node.children, node.children[1:]):
            following[child] = sibling.record
    words = []
    for node in nodes:
        first = node.children[0].record if node.children else 0
        words += [node.kind, node.detail, node.p, node.q, node.start, node.end, first,
                  following.get(node, 0)]
    return words


class Program:
    """A root Function and what stands beside it, before it becomes words."""

    def __init__(self, root, strings=(), symbols=(), references=(), members=None):
        self.root = root
        self.strings = list(strings)        # byte strings, all different
        self.symbols = list(symbols)        # (kind, name)
        self.references = list(references)  # symbols
        self.members = members or {}        # symbols by Function; missing: none

    def words(self, order=preorder, random=None):
        found = number_functions(self.root)
        shares = [self.members.get(node, []) for node, _ in found]
        spans, data = [], b""
        for string in self.strings:
            spans += [len(data), len(string)]
            data += string
        return {
            1: spans,
            2: list(data),
            3: [word for symbol in self.symbols for word in symbol],
            4: list(self.references),
            5: [word for (_, parent), share in zip(found, shares)
                for word in (parent, len(share))],
            6: [symbol for share in shares for symbol in share],
            7: records(self.root, order, random),
        }


# Short names for the nodes that frames are made of.

def null():
    return Node(1)


def integer(value):
    return Node(1, 2, value & NONE, value >> 32 & NONE)


def ident(reference=0, name=0):
    return Node(2, 0, reference, name)


def block(*exprs):
    return Node(4, children=exprs)


def params(*idents, variadic=0):
    return Node(31, variadic, children=idents)


def function(*exprs, kind=0, name=NONE, parameters=None):
    return Node(30, kind, 0, name, [parameters or params(), block(*exprs)])


def fn(inner, name=None):
    return Node(5, 0 if name is None else 1, children=[inner] if name is None else [name, inner])


def left(target, member=None, value=None):
    children = [target] if value is None else [target, value]
    return Node(34, 0 if member is None else 1 + member, children=children)
