"""Looks for divisions in what genlist does besides the generator's call: goes from its `main` through all calls but `gen_code`.

Use: rt mir genlist | python3 tools/divisions.py. Names each function met that has a `/` or `%`; the exit status is 1 if there is one.
"""
import re
import sys

START, GENERATOR = 'genlist::main', 'codegen::call::gen_code'


def functions(text):
    """Each function's name and text."""
    for part in text.split('(fn-def "')[1:]:
        name, body = part.split('"', 1)
        yield name, body


def met(bodies):
    """The functions that START reaches, in the order in which they are met."""
    todo, seen = [START], []
    while todo:
        name = todo.pop()
        if name in seen or name == GENERATOR:
            continue
        seen.append(name)
        todo += re.findall(r'\(fnRef "([^"]+)"\)', bodies[name])
    return seen


def main():
    bodies = dict(functions(sys.stdin.read()))
    names = met(bodies)
    dividing = [n for n in names if re.search(r'\(op2 \((div|rem) ', bodies[n])]
    for name in sorted(dividing):
        print(name)
    print(f'{len(names)} functions, {len(dividing)} of them with a division')
    sys.exit(1 if dividing else 0)


main()
