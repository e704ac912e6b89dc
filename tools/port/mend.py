#!/usr/bin/env python3
"""Mends the names in Answers.antt that a check's log says are missing, where the log offers one.

usage: mend.py LOG        in the crate's folder
"""
import re
import sys

text = re.sub(r"(?m)^so far: ", "", open(sys.argv[1], encoding="utf-8").read())
fixes = {}
for it in re.finditer(r"^\./(proofs/\S+?\.antt):(\d+):(\d+): error: [^\n]*?record `[^`]*` has no field `([^`]+)`([^\n]*)(?:\n[^\n]*?the fields that can be named here are ([^\n]*))?", text, re.M):
    path, line, col, field, rest, more = it.groups()
    near = re.search(r"\(nearest: \.([^,)\s]+)", rest)
    named = re.search(r"the fields that can be named here are ([^\n]*)", rest)
    fields = re.findall(r"`([^`]+)`", (named and named[1]) or more or "")
    to = fields[0] if len(fields) == 1 else near[1] if near else None
    if len(fields) == 1 and re.fullmatch(r"\d+", field):
        fixes.setdefault(path, set()).add((int(line), int(col), field, to, True))
    elif to:
        fixes.setdefault(path, set()).add((int(line), int(col), field, to, False))
for path, each in fixes.items():
    lines = open(path, encoding="utf-8").read().split("\n")
    for line, col, field, to, index in sorted(each, reverse=True):
        at = lines[line - 1]
        # the column is at the field, or at the path's head
        i = at.find("." + field, max(col - 2, 0))
        if i < 0:
            continue
        end = i + 1 + len(field)
        if index:
            end = re.compile(r"(?:\.\d+)*").match(at, end).end()
        lines[line - 1] = at[:i] + "." + to + at[end:]
        print(f"{path}:{line}: .{field} -> .{to}")
    open(path, "w", encoding="utf-8").write("\n".join(lines))
