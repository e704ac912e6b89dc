"""Writes crates/opcode_test/stdout from the text of the Rust: its enums in their order and the matches of codegen.rs.

Use: python3 tools/opcode_stdout.py DIR, where DIR holds opcode.rs, codegen.rs, ast/operator.rs and ast/member.rs.
"""
import pathlib
import re
import sys

KINDS = {
    '': 'None', 'usize': 'Count', 'ValueType': 'Type', 'JumpTarget': 'Label', 'ConstId': 'Const',
    'LocalNameId': 'Local', 'GlobalNameId': 'Global', 'UpvalueNameId': 'Upvalue',
}
HEAD = 'number name kind target code operand binary unary get set'


def block(text, start):
    """The lines from the one that begins with start to the brace that ends it, at the same indent."""
    at = text.index(start)
    indent = len(start) - len(start.lstrip())
    return text[at:text.index('\n' + ' ' * indent + '}', at)]


def variants(text, name):
    return re.findall(r'^    (\w+)(?:\((.*)\))?,$', block(text, f'pub enum {name}'), re.M)


def arms(text, start, enum):
    """For each variant of enum the opcode that its arm answers, None where there is none."""
    found = {}
    for left, right in re.findall(r'^            (' + enum + r'::[^=]*?)=>\s*(?:\{\s*)?([^\n,}]*)', block(text, start), re.M):
        op = re.match(r'OpCode::(\w+)', right)
        for variant in re.findall(enum + r'::(\w+)', left):
            found[variant] = op[1] if op else None
    return found


def main():
    rust = pathlib.Path(sys.argv[1])
    opcode, codegen, operator, member = (
        (rust / f).read_text() for f in ('opcode.rs', 'codegen.rs', 'ast/operator.rs', 'ast/member.rs'))
    ops = variants(opcode, 'OpCode')
    codes = {name: i for i, (name, _) in enumerate(ops)}
    targets = set(re.findall(r'OpCode::(\w+)\(target\)', block(opcode, '    pub fn jump_target(')))
    columns = [
        (variants(operator, 'BinOp'), arms(codegen, 'impl From<BinOp> for OpCode', 'BinOp')),
        (variants(operator, 'UnOp'), arms(codegen, 'impl From<UnOp> for OpCode', 'UnOp')),
        (variants(member, 'MemberKind'), arms(codegen, '    fn get_opcode', 'MemberKind')),
        (variants(member, 'MemberKind'), arms(codegen, '    fn set_opcode', 'MemberKind')),
    ]
    lines = [HEAD]
    for n in range(len(ops) + 2):
        if n < len(ops):
            name, operand = ops[n]
            row = [name, KINDS[operand], 'yes' if name in targets else 'no', n, 7 if operand else 0]
        else:
            row = ['Label', 'Label', 'no', n, 7] if n == len(ops) else ['-'] * 5
        for names, answers in columns:
            op = answers[names[n][0]] if n < len(names) else None
            row.append('-' if op is None else codes[op])
        lines.append(' '.join(str(x) for x in [n, *row]))
    out = pathlib.Path(__file__).parent.parent / 'crates/opcode_test/stdout'
    out.write_text('\n'.join(lines) + '\n')


main()
