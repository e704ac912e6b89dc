"""Running a program on a text, and keeping a text on which it differs."""

import shlex
import subprocess

SECONDS = 20    # no answer takes so long


def ask(command, data):
    """What the program prints; a crash, a status other than 0 or no end is told in a last line."""
    try:
        done = subprocess.run(shlex.split(command), input=data, stdout=subprocess.PIPE,
                              stderr=subprocess.DEVNULL, timeout=SECONDS)
    except subprocess.TimeoutExpired:
        return b"no end\n"
    if done.returncode < 0:
        return done.stdout + b"signal %d\n" % -done.returncode
    if done.returncode > 0:
        return done.stdout + b"exit status %d\n" % done.returncode
    return done.stdout


def keep(folder, data, expected, said):
    """Writes a difference's text and both answers; returns the text's path."""
    folder.mkdir(parents=True, exist_ok=True)
    (folder / "text.in").write_bytes(data)
    (folder / "text.expected").write_bytes(expected)
    (folder / "text.said").write_bytes(said)
    return folder / "text.in"
