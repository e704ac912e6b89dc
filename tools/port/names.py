#!/usr/bin/env python3
"""Brings the repository's own definitions and lemmas to the spelling of today's library: words in snake case, types in camel case.

usage: names.py [--check] ROOT

`operandKindOf` becomes `operand_kind_of`, and `rest-kept` becomes `rest_kept`. Names of Rattle code, exported names, strings, inputs and outputs stay.
Run once, after port.py. It prints each place where two names would fall together, and with --check writes nothing.
"""
import collections
import glob
import os
import re
import sys

WORD = r"[^\s(){}.;,@\"«»\[\]\\]+"
TOKEN = re.compile(r"--[^\n]*|\"(?:[^\"\\]|\\.)*\"|" + WORD)
HEAD = re.compile(r"^[ \t]*(?:(?:unfoldable|abbrev|pub|data|record)[ \t]+)*(" + WORD + r")[ \t]*:(?=[ \t\n])", re.M)
OF_TIE = re.compile(r"^(?:tie\.|goal\.|statement\b|\{M : Type 1\} → statement)")
USE = re.compile(r"^(?:ghost )?(?:pub )?use ([^\s{}]+?)\.\{([^}]*)\}", re.M)
# Where the plain rule makes two names one.
APART = {
    it: it.replace("-", "_") + "_lem"
    for it in "share-start is-go short-jump short-assign member-number stream-of onward-text member-count is-short is-meta input-text function-text found-member answer-text un-code bin-code same-list".split()
}
APART_IN = {
    "opcode/proofs/Rules.antt": ("in_order",),
    "listing/proofs/PrintedLaws.antt": ("is_digit", "all_digits"),
    "listing/proofs/ReadFits.antt": ("before_text",),
}


def read(path):
    with open(path, encoding="utf-8") as it:
        return it.read()


def spelled(name):
    if name in APART:
        return APART[name]
    if re.fullmatch(r"[A-Za-z][A-Za-z0-9'_-]*", name) is None:
        return name
    if name[0].isupper():
        return name if "-" not in name else name
    name = re.sub(r"(?<=[a-z0-9])([A-Z])", lambda it: "_" + it[1].lower(), name.replace("-", "_"))
    return name.lower() if not re.search(r"[A-Z]", name) else name


def crates(root):
    return sorted(os.path.basename(os.path.dirname(it)) for it in glob.glob(root + "/crates/*/src"))


def files(root, *endings):
    for folder, dirs, names in os.walk(root + "/crates"):
        dirs[:] = sorted(it for it in dirs if it != "out")
        for name in sorted(names):
            if name.endswith(endings):
                yield os.path.join(folder, name)


def defined(path):
    """Returns the names that a file of specs/ or proofs/ defines, but the answers of a function's proof."""
    text = re.sub(r"(?m)^--.*$", "", read(path))
    found = set()
    for it in HEAD.finditer(text):
        after = text[it.end() :].lstrip()
        if not OF_TIE.match(after):
            found.add(it[1])
    return found


def foreign(text, own):
    """Returns the names that a file imports from elsewhere."""
    found = set()
    for it in USE.finditer(text):
        top = it[1].split(".")
        if top[0] == "Rattle" and len(top) > 1 and top[1] in own and "declared" not in top:
            continue
        for name in it[2].split(","):
            words = name.split()
            if words:
                found.add(words[-1] if "as" in words else words[0])
                found.add(words[0])
    return found


def turned(text, names, skip, found):
    def one(it):
        word = it[0]
        if word.startswith(("--", '"')):
            return re.sub(r"`(" + WORD.replace("`", "") + r"?)`", lambda b: "`" + (names.get(b[1], b[1])) + "`", word) if word.startswith("--") else word
        new = names.get(word)
        if new is None or word in skip:
            return word
        found.setdefault(new, set()).add(word)
        return new

    return TOKEN.sub(one, text)


def clashes(path, text, new, found, said):
    bare = re.sub(r"(?m)^((?:ghost )?(?:pub )?use )[^{\n]*", r"\1", text)
    bare = re.sub(r"\." + WORD, "", bare)
    words = {it for it in TOKEN.findall(bare) if not it.startswith(("--", '"'))}
    for to, of in found.items():
        if len(of) > 1 or to in words:
            said.append(f"{path}: {sorted(of)} and {to if to in words else ''} become {to}")


def turn_rt(text, names, skip, found):
    """Only `ghost` lines and clauses, and names in backticks of comments, are antt."""
    out, at = [], 0
    ghost = re.compile(r"(?m)^[ \t]*ghost use [^;]*;|^[ \t]*(?:requires|ensures|ghost)\b[^{\n]*\{|^[ \t]*//[^\n]*")
    while True:
        it = ghost.search(text, at)
        if it is None:
            break
        out.append(text[at : it.start()])
        head = it[0]
        if head.lstrip().startswith("//"):
            out.append(re.sub(r"`([^`\n]*)`", lambda b: "`" + names.get(b[1], b[1]) + "`", head))
            at = it.end()
            continue
        end = it.end()
        if head.endswith("{"):
            depth = 1
            while depth:
                depth += {"{": 1, "}": -1}.get(text[end], 0)
                end += 1
        out.append(turned(text[it.start() : end], names, skip, found))
        at = end
    out.append(text[at:])
    return "".join(out)


def moved(root):
    """`specs.contracts` is Rattle's own module now: pattern's Contracts becomes Promises."""
    old, new = root + "/crates/pattern/specs/Contracts.antt", root + "/crates/pattern/specs/Promises.antt"
    if os.path.exists(old):
        os.rename(old, new)
    for path in files(root, ".antt", ".rt"):
        text = read(path)
        to = text.replace("Rattle.pattern.specs.Contracts", "Rattle.pattern.specs.Promises")
        if path.endswith("pattern/specs/Lib.antt"):
            to = to.replace("pub mod Contracts\n", "pub mod Promises\n")
        if to != text:
            with open(path, "w", encoding="utf-8") as it:
                it.write(to)


# Definitions of specs/ that the plain rule leaves with the ending of a lemma.
BETTER = {
    "share_start_lem": ("start_of_share", ()),
    "member_count_lem": ("count_of_members", ("rules/proofs/LabelSteps.antt", "rules/proofs/LabelKinds.antt")),
    "same_list_lem": ("same_numbers", ("tables/proofs/SeenLaws.antt",)),
    "stream_of_lem": ("stream_numbered", ()),
    "is_short_lem": ("is_short_form", ()),
}


def better(root):
    for path in files(root, ".antt", ".rt", ".edit"):
        text = to = read(path)
        for old, (new, apart) in BETTER.items():
            if not path.endswith(apart or ("\0",)):
                to = re.sub(rf"(?<![\w'-]){old}(?![\w'-])", new, to)
        if to != text:
            with open(path, "w", encoding="utf-8") as it:
                it.write(to)


def aliases(root):
    """Names that an import gives, as `nesting as nestingOf`, follow the rule too, in their file."""
    for path in files(root, ".antt", ".rt"):
        text = to = read(path)
        for old in set(re.findall(r"\bas ([a-z][a-z0-9_']*[A-Z][\w']*)", text)):
            new = re.sub(r"(?<=[a-z0-9])([A-Z])", lambda it: "_" + it[1].lower(), old)
            if re.search(rf"(?<![\w'-]){new}(?![\w'-])", re.sub(r"\." + WORD, "", text)):
                print(f"{path}: {old} and {new}")
                continue
            to = re.sub(rf"(?<![\w'-]){old}(?![\w'-])", new, to)
        if to != text:
            with open(path, "w", encoding="utf-8") as it:
                it.write(to)


def main(args):
    check = "--check" in args
    root = [it for it in args if it != "--check"][0].rstrip("/")
    own = crates(root)
    names, said = {}, []
    for path in files(root, ".antt"):
        for name in defined(path):
            if spelled(name) != name:
                names[name] = spelled(name)
    count = 0
    for path in files(root, ".antt", ".rt", ".edit"):
        text = read(path)
        before = text
        for end, each in APART_IN.items():
            for name in each if path.endswith(end) else ():
                text = re.sub(rf"(?<![\w.'-]){name}(?![\w'-])", name + "_lem", text)
        skip = foreign(text, own)
        found = {}
        if path.endswith(".rt"):
            new = turn_rt(text, names, skip, found)
            params = set(re.findall(r"[(,]\s*(?:mut )?(\w+)\s*:", text))
            for to in sorted(set(found) & params):
                said.append(f"{path}: parameter {to} hides {sorted(found[to])}")
        elif path.endswith(".edit"):
            new = turned(text, names, skip, found)
        else:
            new = turned(text, names, skip, found)
            clashes(path, text, new, found, said)
        if new != before:
            count += 1
            if not check:
                with open(path, "w", encoding="utf-8") as it:
                    it.write(new)
    for path in glob.glob(root + "/*.md") + glob.glob(root + "/docs/**/*.md", recursive=True) + glob.glob(root + "/oracle/*.md"):
        text = read(path)
        new = re.sub(r"`([^`\n]*)`", lambda b: "`" + TOKEN.sub(lambda it: names.get(it[0], it[0]), b[1]) + "`", text)
        if new != text and not check:
            with open(path, "w", encoding="utf-8") as it:
                it.write(new)
    if not check:
        moved(root)
        better(root)
        aliases(root)
    print("\n".join(sorted(said)))
    print(f"{len(names)} names, {count} files, {len(said)} places to look at")


if __name__ == "__main__":
    main(sys.argv[1:])
