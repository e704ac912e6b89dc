"""The visitors: each writes the markers of `visit_expr`, in its order, or what Job 1 of document
02 says."""

from .words import *
from .counts import short_assignment
from .state import Cut, State, constant_of


class Visitor(State):
    def visit_function(self, r, root=False):
        record, (params, body) = self.t.records[r], self.t.children(r)
        outer = self.enter(r)
        self.visit_params(params)
        self.visit_block(body)
        if record.detail == DO:
            self.put("Pop")
            self.put("LoadLocals")
            self.put("Return")
        if not self.now.markers or self.now.markers[-1][0] != CODE["Return"]:
            self.put("Return")
        self.now = outer
        if not root:
            self.load_const((FUNCTION_CONST, record.p, 0))
            if record.detail == DO:
                self.put("Call", 0)

    def visit_params(self, r):
        """The variadic first, then from the last to the first (reading 23)."""
        for ident in reversed(self.t.children(r)):
            self.store(ident)

    def visit_block(self, r):
        """'An error ends its expression and is kept by the nearest enclosing block.'"""
        exprs = self.t.children(r)
        if not exprs:
            self.load_null()
        for i, expr in enumerate(exprs):
            try:
                self.visit_expr(expr)
            except Cut as cut:
                self.errors.append(cut.words)
            if i != len(exprs) - 1:
                self.put("Pop")

    def visit_expr(self, r):
        record = self.t.records[r]
        VISIT[record.kind](self, r, record, self.t.children(r))

    # -- leaves and what holds one or two expressions

    def lit(self, r, record, _children):
        self.load_const(constant_of(record.detail, record.p, record.q))

    def ident(self, r, _record, _children):
        self.load(r)

    def paren(self, _r, _record, children):
        self.visit_expr(children[0])

    def block(self, r, _record, _children):
        self.visit_block(r)

    def fn(self, _r, record, children):
        self.visit_function(children[-1])
        if record.detail == 1:
            self.store(children[0])
            self.load_null()

    def effect(self, r, record, children):
        self.load_effect(record.p, children[1], r)
        self.store(children[0])
        self.load_null()

    def table(self, _r, _record, children):
        for child in children:
            self.visit_expr(child)
        self.put("BuildTable", len(children) // 2)

    def list_(self, _r, _record, children):
        for child in children:
            self.visit_expr(child)
        self.put("BuildList", len(children))

    def unary(self, _r, record, children):
        self.visit_expr(children[0])
        self.put(["Not", "Neg"][record.detail])

    def binary(self, r, record, children):
        left, right = children
        if record.detail in (AND, OR):
            label = self.label()
            self.visit_expr(left)
            self.put(jump_code(record.detail), label)
            self.visit_expr(right)
            self.place(label)
        else:
            self.visit_expr(left)
            self.visit_expr(right)
            self.operator(r, record.detail)

    def operator(self, r, operator):
        """13, its sides already visited."""
        if operator in (AND, OR, IS):
            raise Refused(13, r)
        self.put(OPERATORS[operator])

    def type_check(self, _r, record, children):
        self.visit_expr(children[0])
        self.put("TypeCheck", record.detail)

    # -- members and calls

    def member(self, _r, record, children):
        """A label whether it is safe or not."""
        self.visit_expr(children[0])
        label = self.label()
        if record.detail >= SAFE:
            self.put("JumpPopIfNull", label)
        self.member_property(record.detail % SAFE, children[1:])
        self.put(member_code("Get", record.detail % SAFE))
        self.place(label)

    def member_property(self, member, rest):
        if member == BRACKET:
            self.visit_expr(rest[0])
        elif member in (DOT, DOUBLE_COLON):
            self.load_const((STR, self.t.records[rest[0]].q, 0))

    def callee_member(self, record, children):
        """A Member that is called: Dot and DotMeta pass the table on; true if they do."""
        member = record.detail % SAFE
        passes = member in (DOT, DOT_META)
        self.visit_expr(children[0])
        label = self.label()
        if record.detail >= SAFE:
            self.put("JumpPopIfNull", label)
        if passes:
            self.put("Copy", 1)
        self.member_property(member, children[1:])
        self.put(member_code("Get", member))
        if passes:
            self.put("Swap", 2)
        self.place(label)
        return passes

    def call(self, _r, _record, children):
        """Callee, arguments, Function; then the Call, or the Handlers around it."""
        callee, rest = self.t.records[children[0]], children[1:]
        handlers = [c for c in rest if self.t.records[c].kind == HANDLER]
        arguments = len(rest) - len(handlers)   # a trailing Function is one
        if callee.kind == MEMBER:
            arguments += self.callee_member(callee, self.t.children(children[0]))
        else:
            self.visit_expr(children[0])
        for c in rest[:len(rest) - len(handlers)]:
            if self.t.records[c].kind == FUNCTION:
                self.visit_function(c)
            else:
                self.visit_expr(c)
        if handlers:
            self.handlers(arguments, handlers)
        else:
            self.put("Call", arguments)

    def handlers(self, arguments, handlers):
        """All Handlers' Idents before any block (reading 23)."""
        end = self.label()
        parts = [self.t.children(handler) for handler in handlers]
        labels = []
        for ident, _, _ in parts:
            labels.append(self.label())
            self.load(ident)
            self.put("RegisterHandler", labels[-1])
        self.put("Call", arguments)
        self.put("Jump", end)
        for handler, label, (ident, params, body) in zip(handlers, labels, parts):
            self.place(label)
            self.load_effect(self.t.records[ident].q, params, handler)
            self.put("CheckEffect", len(self.t.children(params)))
            self.visit_params(params)
            self.visit_block(body)
            self.put("Jump", end)
        self.place(end)

    # -- branches and patterns

    def if_(self, _r, record, children):
        false, end = self.label(), self.label()
        self.visit_expr(children[0])
        self.put("PopJumpIfFalse", false)
        self.visit_block(children[1])
        self.put("Jump", end)
        self.place(false)
        if record.detail == 1:
            self.visit_expr(children[2])
        else:
            self.load_null()
        self.place(end)

    def match(self, _r, _record, children):
        """All patterns of all Cases before any Case's expr (reading 23)."""
        end = self.label()
        self.visit_expr(children[0])
        cases = [(self.label(), self.t.records[c].p, self.t.children(c)) for c in children[1:]]
        for label, count, parts in cases:
            for pattern in parts[:count]:
                self.case_pattern(pattern, label)
        self.load_null()
        self.put("Jump", end)
        for label, count, parts in cases:
            self.place(label)
            self.visit_expr(parts[count])
            self.put("Jump", end)
        self.place(end)
        self.put("Swap", 2)
        self.put("Pop")

    def case_pattern(self, pattern, label):
        clean = [self.label()]
        self.put("Copy", 1)
        self.visit_pattern(pattern, 0, clean)
        self.put("Pop")
        self.put("Jump", label)
        for i, clean_label in enumerate(reversed(clean)):
            if i != 0:
                self.put("Pop")
            self.place(clean_label)

    def clean_label(self, clean, depth):
        """'One more level of clean-up labels' for a pattern inside a pattern."""
        if depth == len(clean):
            clean.append(self.label())
        return clean[depth]

    def visit_pattern(self, r, depth, clean):
        record, children = self.t.records[r], self.t.children(r)
        if record.kind == LIT_PATTERN:
            label = self.clean_label(clean, depth)
            self.lit(r, record, ())
            self.put("Eq")
            self.put("PopJumpIfFalse", label)
            return
        if record.kind == IDENT_PATTERN:
            self.put("JumpPopIfNull", self.clean_label(clean, depth))
            self.store(r)
            return
        label = self.clean_label(clean, depth + 1)
        is_table = record.kind == TABLE_PATTERN
        keys = children[::2] if is_table else range(len(children))
        patterns = children[1::2] if is_table else children
        self.put("Copy", 1)
        self.put("TypeCheck", TYPE_TABLE)
        self.put("PopJumpIfFalse", label)
        if record.detail == 0:  # no `others`: the length must be right
            self.put("Copy", 1)
            self.put("GetLen")
            self.load_int(len(patterns))
            self.put("Eq")
            self.put("PopJumpIfFalse", label)
        for key, pattern in zip(keys, patterns):
            self.put("Copy", 1)
            if is_table:
                self.lit(key, self.t.records[key], ())
            else:
                self.load_int(key)
            self.put("GetItem")
            self.visit_pattern(pattern, depth + 1, clean)
        self.put("Pop")

    # -- loops and ways out of them

    def begin_loop(self):
        pair = self.label(), self.label()
        self.now.continue_stack.append(pair[0])
        self.now.break_stack.append(pair[1])
        return pair

    def end_loop(self):
        """Takes off the top pair: an open inner loop's, if there is one (reading 22)."""
        self.now.continue_stack.pop()
        self.now.break_stack.pop()

    def loop_body(self, body, again, out):
        self.visit_block(body)
        self.put("Pop")
        self.put("JumpBackEdge", again)
        self.place(out)

    def loop(self, _r, _record, children):
        again, out = self.begin_loop()
        self.place(again)
        self.loop_body(children[0], again, out)
        self.load_null()
        self.end_loop()

    def while_(self, _r, _record, children):
        """A test cut short leaves the loop open."""
        again, out = self.begin_loop()
        self.place(again)
        self.visit_expr(children[0])
        self.put("PopJumpIfFalse", out)
        self.loop_body(children[1], again, out)
        self.load_null()
        self.end_loop()

    def for_(self, _r, record, children):
        """A right side cut short leaves the loop open."""
        again, out = self.begin_loop()
        body = self.label()
        idents = children[:record.p]
        self.visit_expr(children[record.p])
        self.put("Iter")
        self.place(again)
        self.load_null()
        self.load_const((YIELD, 0, 0))
        self.put("RegisterHandler", body)
        self.put("Call", 1)
        self.put("Jump", out)
        self.place(body)
        self.put("MarkAddStackSize", 3)
        self.put("Pop")
        if len(idents) == 1:
            self.store(idents[0])
        else:
            for i, ident in enumerate(idents):
                self.put("Copy", 1)
                self.load_int(i)
                self.put("GetItem")
                self.store(ident)
            self.put("Pop")
        self.loop_body(children[record.p + 1], again, out)
        self.put("Pop")
        self.load_null()
        self.end_loop()

    def break_(self, _r, record, _children):
        if not self.now.break_stack:
            raise Cut(BREAK_ERROR, record)
        self.put("Break", self.now.break_stack[-1])
        self.load_null()

    def continue_(self, _r, record, _children):
        if not self.now.continue_stack:
            raise Cut(CONTINUE_ERROR, record)
        self.put("Continue", self.now.continue_stack[-1])
        self.load_null()

    def return_(self, _r, record, children):
        """A Call without Handlers becomes ReturnCall."""
        if self.t.records[self.now.record].detail == DO:
            raise Cut(RETURN_ERROR, record)
        label = self.label()
        self.put("Jump", label)
        self.place(label)
        self.visit_expr(children[0])
        inner = [self.t.records[c].kind for c in self.t.children(children[0])]
        if self.t.records[children[0]].kind == CALL and HANDLER not in inner:
            _, arguments = self.now.markers.pop()
            self.put("ReturnCall", arguments)
        else:
            self.put("Return")
        self.load_null()

    # -- imports and assignments

    def import_(self, r, record, children):
        path, rest = children[:record.p], children[record.p:]
        self.put("Import", self.constant((STR, record.q, 0)))
        if record.detail < 2:
            if not path:  # after the marker, before any store (reading 8)
                raise Refused(15, r)
            self.store(rest[0] if record.detail == 1 else path[-1])
        elif record.detail == 2:
            for item in rest:
                idents = self.t.children(item)
                name = self.constant((STR, self.t.records[idents[0]].q, 0))
                self.put("ImportFrom", name)
                self.store(idents[-1])
            self.put("Pop")
        else:
            self.put("ImportGlob")
        self.load_null()

    def glo_assign(self, _r, _record, children):
        self.visit_expr(children[1])
        self.store(children[0])
        self.load_null()

    def assign(self, _r, _record, children):
        self.visit_expr(children[1])
        self.visit_left(children[0])
        self.load_null()

    def visit_left(self, r):
        detail, children = self.t.records[r].detail, self.t.children(r)
        if detail != 0:
            self.load(children[0])
            self.member_property(detail - 1, children[1:])
            self.put(member_code("Set", detail - 1))
        self.store(children[0])

    def assign_op(self, r, record, children):
        """Load and property, right side, operator, store (reading 23)."""
        if short_assignment(self.t, r):
            self.short_assign(record, children)
            return
        left, right = children
        detail, parts = self.t.records[left].detail, self.t.children(left)
        member = detail - 1
        self.load(parts[0])
        if detail == 0:
            self.visit_expr(right)
            self.operator(r, record.detail)
        elif member in (BRACKET, DOT, DOUBLE_COLON):
            self.member_property(member, parts[1:])
            self.put("Copy", 2)
            self.put("Copy", 2)
            self.put(member_code("Get", member))
            self.visit_expr(right)
            self.operator(r, record.detail)
            self.put("Swap", 3)
            self.put("Swap", 2)
            self.put(member_code("Set", member))
        else:
            self.put("Copy", 1)
            self.put(member_code("Get", member))
            self.visit_expr(right)
            self.operator(r, record.detail)
            self.put("Swap", 2)
            self.put(member_code("Set", member))
        self.store(parts[0])
        self.load_null()

    def short_assign(self, record, children):
        """`and=` and `or=` on a plain name, by Job 1's text: the label before the load, placed
        before the store (reading 54)."""
        left, right = children
        ident = self.t.children(left)[0]
        label = self.label()
        self.load(ident)
        self.put(jump_code(record.detail), label)
        self.visit_expr(right)
        self.place(label)
        self.store(ident)
        self.load_null()

    def assign_unpack(self, _r, _record, children):
        lefts = children[:-1]
        self.visit_expr(children[-1])
        for _ in lefts[1:]:
            self.put("Copy", 1)
        for i, left in enumerate(lefts):
            self.load_int(i)
            self.put("GetItem")
            self.visit_left(left)
        self.load_null()

    def assign_multi(self, r, record, children):
        lefts, rights = children[:record.p], children[record.p:]
        if len(lefts) != len(rights):  # before any side (reading 8)
            raise Refused(14, r)
        for right in rights:
            self.visit_expr(right)
        for left in reversed(lefts):
            self.visit_left(left)
        self.load_null()


def jump_code(operator):
    """The jump of And or Or, which leaves the left side where it decides."""
    return "JumpIfFalseOrPop" if operator == AND else "JumpIfTrueOrPop"


def member_code(verb, member):
    """GetItem for Bracket, GetAttr for Dot and DoubleColon, GetMeta; Set likewise."""
    return verb + ["Item", "Attr", "Attr", "Meta", "Meta", "Meta"][member]


V = Visitor
VISIT = dict(zip(EXPRS, (
    V.lit, V.ident, V.paren, V.block, V.fn, V.effect, V.table, V.list_, V.unary, V.binary,
    V.type_check, V.member, V.call, V.if_, V.match, V.loop, V.while_, V.for_, V.break_,
    V.continue_, V.return_, V.import_, V.glo_assign, V.assign, V.assign_op, V.assign_unpack,
    V.assign_multi)))
