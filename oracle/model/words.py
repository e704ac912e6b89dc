"""Numbers and names that document 01 fixes."""

NONE = 4294967295  # 'The call': none

# 'The call': words of one entry; bytes (2) have entries of one (reading 15).
ENTRY_WORDS = {1: 2, 2: 1, 3: 2, 4: 1, 5: 2, 6: 1, 7: 8}

# 'Sizes and the order of porting'
LIMITS = {1: 1024, 2: 65536, 3: 1024, 4: 4096, 5: 256, 6: 1024, 7: 4096}
LEVELS = 128

# 'Records'
(LIT, IDENT, PAREN, BLOCK, FN, EFFECT, TABLE, LIST, UNARY, BINARY, TYPE_CHECK, MEMBER, CALL, IF,
 MATCH, LOOP, WHILE, FOR, BREAK, CONTINUE, RETURN, IMPORT, GLO_ASSIGN, ASSIGN, ASSIGN_OP,
 ASSIGN_UNPACK, ASSIGN_MULTI) = range(1, 28)
(FUNCTION, PARAMS, HANDLER, CASE, LEFT, LIT_PATTERN, IDENT_PATTERN, TABLE_PATTERN, LIST_PATTERN,
 ITEM) = range(30, 40)
EXPRS = range(1, 28)
PATTERNS = range(35, 39)
LOOPS = (LOOP, WHILE, FOR)

KIND_NAMES = dict(zip(EXPRS, """Lit Ident Paren Block Fn Effect Table List Unary Binary TypeCheck
Member Call If Match Loop While For Break Continue Return Import GloAssign Assign AssignOp
AssignUnpack AssignMulti""".split()))
KIND_NAMES.update(zip(range(30, 40), """Function Params Handler Case Left LitPattern IdentPattern
TablePattern ListPattern Item""".split()))

OPERATORS = "Add Sub Mul Div Rem And Or Eq Ne Lt Le Gt Ge Is".split()
AND, OR, IS = 5, 6, 13

# MemberKind's order: Bracket, Dot, DoubleColon, then the three Meta forms.
BRACKET, DOT, DOUBLE_COLON, BRACKET_META, DOT_META, DOUBLE_COLON_META = range(6)
SAFE = 8

FUNCTION_KINDS = ["Function", "Closure", "Do"]
DO = 2

# 'Leaves': opcodes 0 to 51 in the order of OpCode, 52 is Label.
OPCODES = """Pop Copy Swap LoadLocal LoadGlobal LoadUpvalue LoadConst StoreLocal StoreGlobal
BuildTable BuildList GetAttr GetItem GetMeta SetAttr SetItem SetMeta Neg Not Add Sub Mul Div Rem Eq
Ne Gt Ge Lt Le TypeCheck GetLen Import ImportFrom ImportGlob Iter Call Return ReturnCall LoadLocals
Jump JumpBackEdge Break Continue JumpPopIfNull PopJumpIfTrue PopJumpIfFalse JumpIfTrueOrPop
JumpIfFalseOrPop RegisterHandler CheckEffect MarkAddStackSize Label""".split()
CODE = {name: code for code, name in enumerate(OPCODES)}
WITHOUT_OPERAND = frozenset("""Pop GetAttr GetItem GetMeta SetAttr SetItem SetMeta Neg Not Add Sub
Mul Div Rem Eq Ne Gt Ge Lt Le GetLen ImportGlob Iter Return LoadLocals""".split())
TYPE_TABLE = 6  # ValueType::Table

# 'Out': constants
CONSTANTS = "Null Bool Int Float Str Bytes Function Effect Yield".split()
NULL, BOOL, INT, FLOAT, STR, BYTES, FUNCTION_CONST, EFFECT_CONST, YIELD = range(9)

# 'Out': errors
ERRORS = ["BreakOutsideLoop", "ContinueOutsideLoop", "ReturnOutsideFunction"]
BREAK_ERROR, CONTINUE_ERROR, RETURN_ERROR = range(3)


class Refused(Exception):
    """A refusal: document 01's number and place."""

    def __init__(self, number, place):
        super().__init__(number, place)
        self.number = number
        self.place = place
