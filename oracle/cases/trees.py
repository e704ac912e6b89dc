"""Random trees that pass rows 1 to 9, of every kind and detail."""

from .build import NONE, Node, Program
from .names import Names


class Profile:
    """How one tree is made."""

    def __init__(self, random, records=None, errors=None, wrong=None, functions=12):
        self.records = records or random.choice([4, 6, 8, 12, 20, 30, 50, 80, 120])
        self.depth = random.choice([4, 6, 9, 14, 20])
        # How often Break, Continue and Return stand where they are errors.
        self.errors = random.choice([0, 0, 0, 0.03, 0.1, 0.4]) if errors is None else errors
        self.wrong_names = random.choice([0] * 8 + [0.02, 0.1]) if wrong is None else wrong
        # How often 13, 14 and 15 are asked for; And and Or on a plain name are Job 1's.
        self.wrong_forms = random.choice([0] * 8 + [0.1]) if wrong is None else wrong
        self.fill = self.records > 40 and random.random() < 0.7
        self.functions = functions
        self.strings = random.choice([1, 3, 6, 12])
        self.symbols = 60
        self.members = 120
        self.references = 120
        self.do = random.choice([0.1, 0.3, 0.8])
        # A tree dwells on some kinds.
        self.weights = {kind: random.choice([0, 1, 1, 2, 5]) for kind in range(1, 28)}
        self.weights[1] += 1
        self.weights[2] += 1


class Maker:
    """Makes one tree. `loops` tells whether a Break would find a loop."""

    def __init__(self, random, profile):
        self.random = random
        self.profile = profile
        self.names = Names(random, profile)
        self.left = profile.records
        self.members = {}
        self.function_count = 0
        self.root_scope = None
        self.at = 0

    # -- leaves

    def node(self, kind, detail=0, p=0, q=0, children=()):
        random = self.random
        self.left -= 1
        if random.random() < 0.05:
            start = random.randrange(1 << 32)
            end = random.randint(start, NONE)
        else:
            start = self.at = self.at + random.randrange(5)
            end = start + random.randrange(9)
        return Node(kind, detail, p, q, children, start, end)

    def spare(self):
        """A word that a kind doesn't use."""
        return self.random.choice([0, 0, 0, 1, 7, NONE])

    def literal(self, kind=1):
        random = self.random
        detail = random.choice([0, 1, 2, 2, 2, 3, 4, 4, 5])
        p, q = self.spare(), self.spare()
        if detail == 1:
            p = random.randrange(2)
        elif detail == 2:
            value = random.choice([0, 1, 2, 3, -1, -2, 1 << 40, random.getrandbits(63), -1 << 63])
            p, q = value & NONE, value >> 32 & NONE
        elif detail == 3:
            # Document 01 leaves NaN and minus zero out of runs against the Rust.
            bits = random.choice([0, 0x3FF0000000000000, 0x7FF0000000000000, 1 << 63 | 1,
                                  random.getrandbits(62), 1 << 63 | random.getrandbits(61) + 1])
            if bits & (1 << 63) - 1 > 0x7FF0000000000000:
                bits = 1
            p, q = bits & NONE, bits >> 32
        elif detail in (4, 5):
            p = self.names.string()
        return self.node(kind, detail, p, q)

    def name(self, scope, store, kind=2):
        node = self.names.ident(scope, store, kind)
        if node is not None:
            self.left -= 1
            node.start = self.at
            node.end = self.at + 1
        return node

    def plain_name(self):
        self.left -= 1
        return self.names.name_only()

    # -- parts

    def many(self, low=0, high=3):
        """How many children, few when few records are left."""
        if self.random.random() < 0.03:
            high *= 4
        return self.random.randint(low, max(low, min(high, self.left // 3)))

    def stores(self, scope, count):
        nodes = [self.name(scope, True) for _ in range(count)]
        return [node for node in nodes if node is not None]

    def params(self, scope, count=None):
        count = self.random.choice([0, 0, 1, 2, 3]) if count is None else count
        idents = self.stores(scope, count)
        variadic = int(bool(idents) and self.random.random() < 0.3)
        return self.node(31, variadic, self.spare(), self.spare(), idents)

    def name_params(self):
        """An Effect's Params: only their names are used."""
        idents = [self.plain_name() for _ in range(self.random.choice([0, 1, 1, 2]))]
        variadic = int(bool(idents) and self.random.random() < 0.4)
        return self.node(31, variadic, 0, 0, idents)

    def function(self, parent, depth):
        random = self.random
        self.function_count += 1
        scope = self.names.scope(parent)
        kind = 2 if random.random() < self.profile.do else random.randrange(2)
        scope.do = kind == 2
        self.root_scope = self.root_scope or scope
        name = random.choice([NONE, self.names.string()])
        node = self.node(30, kind, 0, name)
        self.members[node] = scope.symbols
        scope.loops = False
        node.children = [self.params(scope), self.block(scope, depth)]
        return node

    def block(self, scope, depth):
        block = self.node(4, self.spare(), self.spare(), self.spare())
        block.children = self.exprs(scope, depth + 1, 0, 4)
        return block

    def loop_block(self, scope, depth):
        """A body in which Break and Continue find a loop."""
        before, scope.loops = scope.loops, True
        block = self.block(scope, depth)
        scope.loops = before
        return block

    def exprs(self, scope, depth, low, high):
        return [self.expr(scope, depth) for _ in range(self.many(low, high))]

    def property(self, scope, depth, member):
        if member == 0:
            return [self.expr(scope, depth)]
        return [self.plain_name()] if member in (1, 2) else []

    def target(self, scope, depth):
        """A Left, or None when nothing can be stored."""
        member = self.random.randrange(6) if self.random.random() < 0.6 else None
        name = self.name(scope, True)
        if name is None:
            return None
        if member is None:
            return self.node(34, 0, children=[name])
        node = self.node(34, 1 + member, children=[name])
        node.children += self.property(scope, depth + 1, member)
        return node

    def targets(self, scope, depth, count):
        found = [self.target(scope, depth) for _ in range(count)]
        return [node for node in found if node is not None]

    def pattern(self, scope, depth):
        random = self.random
        kind = random.choice([35, 36, 37, 38] if depth < self.profile.depth else [35, 36])
        if self.left < 4 and kind > 36:
            kind = 35
        if kind == 36:
            node = self.name(scope, True, 36)
            if node is not None:
                return node
            kind = 35
        if kind == 35:
            return self.literal(35)
        node = self.node(kind, random.randrange(2), self.spare(), self.spare())
        for _ in range(self.many(0, 2 if kind == 37 else 3)):
            if kind == 37:
                node.children.append(self.literal())
            node.children.append(self.pattern(scope, depth + 1))
        return node

    # -- expressions

    def expr(self, scope, depth):
        random = self.random
        if depth >= self.profile.depth or self.left < 3:
            return self.leaf(scope)
        kinds = list(self.profile.weights)
        kind = random.choices(kinds, list(self.profile.weights.values()))[0]
        made = getattr(self, f"make_{kind}", None)
        node = made(scope, depth + 1) if made else None
        return node if node is not None else self.leaf(scope)

    def leaf(self, scope):
        random = self.random
        if random.random() < self.profile.errors:
            kind = random.choice([19, 20, 21] if scope.do else [19, 20])
            return self.exit(kind)
        if random.random() < 0.4:
            node = self.name(scope, False)
            if node is not None:
                return node
        return self.literal()

    def exit(self, kind, scope=None, depth=0):
        node = self.node(kind, self.spare(), self.spare(), self.spare())
        if kind == 21:
            node.children = [self.returned(scope, depth) if scope else self.literal()]
        return node

    def returned(self, scope, depth):
        """A Return's argument, often the Call that becomes ReturnCall."""
        is_call = self.left > 4 and depth < self.profile.depth and self.random.random() < 0.4
        return self.make_13(scope, depth + 1) if is_call else self.expr(scope, depth)

    def make_1(self, scope, depth):
        return self.literal()

    def make_2(self, scope, depth):
        return self.name(scope, False)

    def make_3(self, scope, depth):
        return self.node(3, children=[self.expr(scope, depth)])

    def make_4(self, scope, depth):
        return self.block(scope, depth)

    def make_5(self, scope, depth):
        if self.function_count >= self.profile.functions or self.left < 6:
            return None
        node = self.node(5)
        if self.random.random() < 0.5:
            name = self.name(scope, True)
            if name is not None:
                node.detail = 1
                node.children.append(name)
        node.children.append(self.function(scope, depth))
        return node

    def make_6(self, scope, depth):
        name = self.name(scope, True)
        if name is None:
            return None
        return self.node(6, self.spare(), self.names.string(), 0, [name, self.name_params()])

    def make_7(self, scope, depth):
        node = self.node(7)
        for _ in range(self.many(0, 2)):
            node.children += [self.expr(scope, depth), self.expr(scope, depth)]
        return node

    def make_8(self, scope, depth):
        node = self.node(8)
        node.children = self.exprs(scope, depth, 0, 3)
        return node

    def make_9(self, scope, depth):
        return self.node(9, self.random.randrange(2), children=[self.expr(scope, depth)])

    def operator(self, logical):
        random = self.random
        if random.random() < self.profile.wrong_forms:
            return random.choice([13] if logical else [5, 6, 13])
        return random.choice([0, 1, 2, 3, 4, 7, 8, 9, 10, 11, 12] + [5, 6] * 3 * logical)

    def make_10(self, scope, depth):
        node = self.node(10, self.operator(True))
        node.children = [self.expr(scope, depth), self.expr(scope, depth)]
        return node

    def make_11(self, scope, depth):
        return self.node(11, self.random.randrange(10), children=[self.expr(scope, depth)])

    def make_12(self, scope, depth):
        member = self.random.randrange(6)
        node = self.node(12, member + self.random.choice([0, 8]))
        node.children = [self.expr(scope, depth)]
        node.children += self.property(scope, depth, member)
        return node

    def make_13(self, scope, depth):
        random = self.random
        node = self.node(13)
        callee = self.make_12(scope, depth) if random.random() < 0.5 else self.expr(scope, depth)
        node.children = [callee] + self.exprs(scope, depth, 0, 2)
        room = self.function_count < self.profile.functions and self.left >= 6
        if room and random.random() < 0.3:
            node.children.append(self.function(scope, depth))
        if random.random() < 0.4:
            for _ in range(random.choice([1, 1, 2, 3])):
                effect = self.name(scope, False)
                if effect is not None:
                    handler = self.node(32, children=[effect, self.params(scope)])
                    handler.children.append(self.block(scope, depth))
                    node.children.append(handler)
        return node

    def make_14(self, scope, depth):
        node = self.node(14, self.random.randrange(2))
        node.children = [self.expr(scope, depth), self.block(scope, depth)]
        if node.detail:
            node.children.append(self.expr(scope, depth))
        return node

    def make_15(self, scope, depth):
        node = self.node(15)
        node.children = [self.expr(scope, depth)]
        for _ in range(self.many(0, 3)):
            patterns = [self.pattern(scope, depth) for _ in range(self.many(0, 2))]
            case = self.node(33, self.spare(), len(patterns), 0, patterns)
            case.children.append(self.expr(scope, depth))
            node.children.append(case)
        return node

    def make_16(self, scope, depth):
        return self.node(16, children=[self.loop_block(scope, depth)])

    def make_17(self, scope, depth):
        node = self.node(17)
        # A Break in the test finds its own loop.
        before, scope.loops = scope.loops, True
        node.children = [self.expr(scope, depth), self.block(scope, depth)]
        scope.loops = before
        return node

    def make_18(self, scope, depth):
        idents = self.stores(scope, self.random.choice([0, 1, 1, 2, 3]))
        node = self.node(18, self.spare(), len(idents), 0, idents)
        before, scope.loops = scope.loops, True
        node.children += [self.expr(scope, depth), self.block(scope, depth)]
        scope.loops = before
        return node

    def make_19(self, scope, depth):
        if not scope.loops and self.random.random() >= self.profile.errors:
            return None
        return self.exit(19)

    def make_20(self, scope, depth):
        if not scope.loops and self.random.random() >= self.profile.errors:
            return None
        return self.exit(20)

    def make_21(self, scope, depth):
        if scope.do and self.random.random() >= self.profile.errors:
            return None
        return self.exit(21, scope, depth)

    def make_22(self, scope, depth):
        random = self.random
        detail = random.randrange(4)
        path = [self.plain_name() for _ in range(random.choice([0, 1, 1, 2]))]
        if detail < 2 and random.random() >= self.profile.wrong_forms:
            path = path or [self.plain_name()]
        if detail == 0 and path:
            stored = self.name(scope, True)
            if stored is None:
                detail = 3
            else:
                path[-1] = stored
        if detail == 1:
            alias = self.name(scope, True)
            if alias is None:
                return None
            return self.node(22, 1, len(path), self.names.string(), path + [alias])
        node = self.node(22, detail, len(path), self.names.string(), path)
        if detail == 2:
            items = [self.item(scope) for _ in range(self.many())]
            node.children += [item for item in items if item is not None]
        return node

    def item(self, scope):
        stored = self.name(scope, True)
        if stored is None:
            return None
        if self.random.random() < 0.5:
            return self.node(39, 1, children=[self.plain_name(), stored])
        return self.node(39, 0, children=[stored])

    def make_23(self, scope, depth):
        name = self.name(scope, True)
        if name is None:
            return None
        return self.node(23, children=[name, self.expr(scope, depth)])

    def make_24(self, scope, depth):
        target = self.target(scope, depth)
        if target is None:
            return None
        return self.node(24, children=[target, self.expr(scope, depth)])

    def make_25(self, scope, depth):
        target = self.target(scope, depth)
        if target is None:
            return None
        return self.node(25, self.operator(False), children=[target, self.expr(scope, depth)])

    def make_26(self, scope, depth):
        targets = self.targets(scope, depth, self.random.choice([0, 1, 2, 3]))
        node = self.node(26, self.spare(), len(targets), 0, targets)
        node.children.append(self.expr(scope, depth))
        return node

    def make_27(self, scope, depth):
        targets = self.targets(scope, depth, self.random.choice([0, 1, 2, 3]))
        node = self.node(27, self.spare(), len(targets), 0, targets)
        count = len(targets)
        if self.random.random() < self.profile.wrong_forms:
            count = max(0, count + self.random.choice([-1, 1]))
        node.children += [self.expr(scope, depth) for _ in range(count)]
        return node


def make(random, profile=None):
    """A Program that passes rows 1 to 9."""
    profile = profile or Profile(random)
    maker = Maker(random, profile)
    root = maker.function(None, 1)
    body = root.children[1]
    while profile.fill and maker.left > 8:
        body.children.append(maker.expr(maker.root_scope, 2))
    names = maker.names
    return Program(root, names.strings, names.symbols, names.references, maker.members)
