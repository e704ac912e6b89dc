#!/usr/bin/env python3
"""Functions of seven parameters or more, of all functions in crates/*/src at each commit given: tools/params.py REV.."""
import re
import subprocess
import sys


def git(*args):
    return subprocess.run(["git", *args], capture_output=True, text=True, check=True).stdout


for rev in sys.argv[1:]:
    wide = whole = 0
    for path in git("ls-tree", "-r", "--name-only", rev).splitlines():
        if re.match(r"crates/[^/]*/src/(?!tests\.rt).*\.rt$", path):
            for head in re.finditer(r"\bfn \w+(?:<[^(]*>)?\(([^)]*)\)", git("show", f"{rev}:{path}")):
                count = sum(1 for part in head.group(1).split(",") if part.strip())
                whole += 1
                wide += count >= 7
    print(f"{rev}: {wide} of {whole}")
