#!/usr/bin/env python3
"""Gives each stored input to a program and compares with the stored answer.

usage: check.py COMMAND   (reads one genlist text on standard input)
"""
import pathlib
import re
import shlex
import subprocess
import sys

HERE = pathlib.Path(__file__).resolve().parent


def stored(name):
    return re.split(rb"(?m)^====\n", (HERE / name).read_bytes())


def main():
    if len(sys.argv) != 2:
        sys.exit(__doc__)
    command = shlex.split(sys.argv[1])
    pairs = list(zip(stored("inputs.txt"), stored("listings.txt"), strict=True))
    wrong = [i for i, (given, answer) in enumerate(pairs)
             if subprocess.run(command, input=given, stdout=subprocess.PIPE).stdout != answer]
    print(f"{len(pairs) - len(wrong)} of {len(pairs)} alike")
    if wrong:
        sys.exit(f"others: {' '.join(map(str, wrong))} (counted from 0)")


if __name__ == "__main__":
    main()
