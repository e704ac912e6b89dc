"""Strings, symbols, references and the functions' members, as a tree is made."""

from .build import NONE, Node


class Scope:
    """One function while its tree is made: which symbols it holds, and how."""

    def __init__(self, parent=None):
        self.parent = parent
        self.symbols = []
        self.locals, self.globals, self.upvalues = [], [], []

    def hold(self, symbol, is_global):
        self.symbols.append(symbol)
        if is_global:
            self.globals.append(symbol)
        elif self.parent and symbol in self.parent.locals + self.parent.upvalues:
            self.upvalues.append(symbol)
        else:
            self.locals.append(symbol)


class Names:
    """What the idents of one tree draw from."""

    def __init__(self, random, profile):
        self.random = random
        self.profile = profile
        self.strings = []
        self.symbols = []
        self.references = []
        self.by_symbol = {}
        self.members_left = profile.members
        for _ in range(random.randint(1, profile.strings)):
            self.add_string()
        self.root_globals = [self.add_symbol(1) for _ in range(random.randint(0, 3))]

    def add_string(self):
        random = self.random
        while True:
            n = random.choice([0, 1, 1, 1, 2, 2, 3, 5, 8])
            string = bytes(random.randrange(256) for _ in range(n))
            if string not in self.strings:
                self.strings.append(string)
                return

    def string(self):
        return self.random.randrange(len(self.strings))

    def add_symbol(self, kind):
        self.symbols.append((kind, self.string()))
        return len(self.symbols) - 1

    def scope(self, parent):
        """A function's members: captured, own, global, and such as a grandparent holds."""
        random, scope = self.random, Scope(parent)
        wanted = []
        if parent:
            outer, up = [], parent.parent
            while up:
                outer += [s for s in up.symbols if s not in parent.symbols]
                up = up.parent
            near = parent.locals + parent.upvalues
            wanted += random.sample(near, random.randint(0, len(near)))
            if outer and random.random() < 0.4:
                wanted.append(random.choice(outer))
        wanted += random.sample(self.root_globals, random.randint(0, len(self.root_globals)))
        if len(self.symbols) < self.profile.symbols:
            wanted += [self.add_symbol(0) for _ in range(random.choice([0, 1, 1, 2, 4]))]
        wanted = list(dict.fromkeys(wanted))
        random.shuffle(wanted)
        for symbol in wanted[:self.members_left]:
            scope.hold(symbol, self.symbols[symbol][0] == 1)
        self.members_left -= len(scope.symbols)
        return scope

    def reference(self, symbol):
        """A reference to the symbol, one that is there or a new one."""
        known = self.by_symbol.setdefault(symbol, [])
        full = len(self.references) >= self.profile.references
        if known and (full or self.random.random() < 0.5):
            return self.random.choice(known)
        if full:
            return NONE
        self.references.append(symbol)
        known.append(len(self.references) - 1)
        return known[-1]

    def wrong(self, scope, store):
        """A reference that 10, 11 or 12 refuses."""
        random = self.random
        choices = [random.choice([len(self.references) + 1000, NONE, NONE - 1])]
        if store and scope.upvalues:
            choices += [self.reference(random.choice(scope.upvalues))] * 3
        foreign = [s for s in range(len(self.symbols)) if s not in scope.symbols]
        if foreign:
            choices += [self.reference(random.choice(foreign))] * 2
        return random.choice(choices)

    def name_only(self, kind=2):
        """An Ident that is neither loaded nor stored: its reference may be anything."""
        random = self.random
        p = random.choice([0, 1, NONE, random.randrange(1 << 32)])
        return Node(kind, random.choice([0, 0, 7]), p, self.string())

    def ident(self, scope, store, kind=2):
        """An Ident to be loaded, or stored and perhaps loaded before; None if there is none."""
        random = self.random
        if random.random() < self.profile.wrong_names:
            return Node(kind, 0, self.wrong(scope, store), self.string())
        usable = scope.locals + scope.globals if store else scope.symbols
        if not usable:
            return None
        reference = self.reference(random.choice(usable))
        if reference == NONE:
            return None
        return Node(kind, 0, reference, self.string())
