#!/usr/bin/env python3
"""Makes Invariants.antt and Answers.antt of the older Proof.antt files of a crate.

usage: answers.py OLD CRATE invariants NAMES       in the repository: of each OLD/PATH/Proof.antt the loops' invariants and measures
       answers.py OLD CRATE answers NAMES LOG      the answers to the goals that the check's LOG names as open

OLD is a copy of the crate's old proofs/, and NAMES the names.json of `rt check --generated DIR --old-names`. What it can't turn it prints.
"""
import json
import os
import re
import sys

WORD = r"[^\s(){}.;,@\"«»\[\]\\]+"
PATH = re.compile(r"(?<![^\s(){};,\[\]\\])(" + WORD + r")((?:\." + WORD + r")+)")
plain = lambda it: re.sub(r"[-_]", "", it).lower()


def read(path):
    with open(path, encoding="utf-8") as it:
        return it.read()


def parts(text):
    """Returns the use lines and the declarations, each (comments, name, signature, body)."""
    uses, decls, pending, lines = [], [], [], text.split("\n")
    at = 0
    while at < len(lines):
        line = lines[at]
        if line.startswith("use ") or line.startswith("pub use "):
            block = line
            while "{" in block and "}" not in block:
                at += 1
                block += " " + lines[at].strip()
            uses.append(re.sub(r"\s+", " ", block).replace("{ ", "{").replace(", }", "}").replace(",}", "}"))
        elif line.startswith("--"):
            pending.append(line)
        elif not line.strip():
            pass
        elif line[0] not in " \t":
            block = [line]
            while at + 1 < len(lines) and (not lines[at + 1].strip() or lines[at + 1][0] in " \t" or lines[at + 1].startswith((")", "}"))):
                at += 1
                block.append(lines[at])
            text = "\n".join(block).rstrip()
            head = re.match(r"((?:(?:pub|abbrev|unfoldable|data|record|mutual)\s+)*)(" + WORD + r")\s*:(?=\s)", text)
            if head:
                decls.append({"comments": pending, "mods": head[1], "name": head[2], "text": [text]})
                pending = []
            elif decls:
                decls[-1]["text"].append(text)
        at += 1
    return uses, decls


SOURCES = {}


def clause_names(path):
    """Returns the names of the requires and the ensures clauses of a function, as `tables::members::stamp`, of the repository."""
    words = path.split("::")
    crate, name = words[0], words[-1]
    if crate not in SOURCES:
        SOURCES[crate] = {}
        for folder, _, files in os.walk(os.path.join("crates", crate, "src")):
            for f in files:
                text = read(os.path.join(folder, f))
                module = os.path.relpath(os.path.join(folder, f), os.path.join("crates", crate, "src"))[:-3].replace("/", "::")
                for it in re.finditer(r"(?m)^[ \t]*(?:pub(?:\([a-z]+\))? )?(?:const )?(?:extern \"C\" )?fn (\w+)", text):
                    rest = text[it.end() :]
                    end = re.search(r"\n[ \t]*\{\n|\n\n", rest)
                    head = rest[: end.start()] if end else rest
                    each = {k: [m or "" for m in re.findall(r"(?m)^[ \t]*" + k + r"\b[ ]?(\w*)[ ]?\{", head)] for k in ("requires", "ensures")}
                    SOURCES[crate][(module, it[1])] = each
                    SOURCES[crate].setdefault(("", it[1]), each)
    module = "::".join(words[1:-1])
    return SOURCES[crate].get((module, name)) or SOURCES[crate].get(("", name)) or {"requires": [], "ensures": []}


def by_name(segs, names):
    """Turns a path into right-nested pairs, as 1.0, into the name of a clause."""
    if len(names) < 2:
        return segs
    at, used_ = 0, 0
    while at < len(names) - 1 and used_ < len(segs) and segs[used_] == "1":
        at, used_ = at + 1, used_ + 1
    if at < len(names) - 1:
        if used_ < len(segs) and segs[used_] == "0":
            return [names[at]] + segs[used_ + 1 :]
        return segs
    return [names[at]] + segs[used_:]


class Function:
    def __init__(self, names, key):
        it = names[key]
        self.key = key
        self.in_cycle = False
        self.it = it
        self.place = {p[0]: p for p in it["places"]}
        self.index = {p[0]: i for i, p in enumerate(it["places"])}
        self.new_place = {plain(a): b for a, b in zip([p[0] for p in it["places"]], it["places_by_name"])}
        self.asked = it["asked_at"]
        for (old, new), (a, b) in zip(it["needs"], self.asked):
            self.new_place.setdefault(plain(a), b)
            self.new_place[plain(a)] = b
        self.needs = {plain(a): (b, at[0]) for (a, b), at in zip(it["needs"], self.asked)}
        self.settled = {plain(s) for s in it["settled"]}
        self.old_place = {plain(p[0]): p[0] for p in it["places"]}

    def chain(self, place):
        while place is not None and place in self.place:
            yield place
            place = self.place[place][1]

    def rename(self, place, segs, said):
        segs = [s for s in segs if s != "before"]
        if not segs:
            return []
        first = plain(segs[0])
        if first in ("requires", "pre") and self.in_cycle and segs[1:2] == ["0"]:
            return ["decreases"] + segs[2:]
        if first in ("requires", "pre") and self.in_cycle and segs[1:2] == ["1"]:
            return ["requires"] + by_name(segs[2:], clause_names(self.path)["requires"])
        if first in ("requires", "pre"):
            return ["requires"] + by_name(segs[1:], clause_names(self.path)["requires"])
        if first in ("args", "ranges", "typeinv"):
            return segs
        chain = list(self.chain(place))
        for p in chain:
            arm = self.it["arms"][self.index[p]]
            if arm:
                for field, step, path in sorted(arm[2], key=lambda a: -len(a[2])):
                    if plain(step) == first and [plain(s) for s in segs[1 : 1 + len(path)]] == [plain(s) for s in path]:
                        return [arm[0], field] + segs[1 + len(path) :]
        for p in chain:
            for var, step in self.it["typed"][self.index[p]]:
                if plain(step) == first and "known" in step:
                    return ["type_inv", var] + segs[1:]
        for p in chain:
            old, new = self.place[p][2]
            if plain(old) == first:
                if segs[1:2] in (["auto"], ["kept"]) and len(segs) > 2:
                    ones = 0
                    while segs[2 + ones : 3 + ones] == ["1"]:
                        ones += 1
                    vars_ = self.it["params"].get(self.place[p][3]) or dict((l[0][1], l[1]) for l in self.it["loops"]).get(new) or []
                    if ones < len(vars_):
                        return [new, "auto", vars_[ones]]
                return [new] + self.tail(self.place[p][3], segs[1:])
        for p in self.it["places"]:
            if plain(p[2][0]) == first:
                return [p[2][1]] + self.tail(p[3], segs[1:])
        it = re.match(r"(.*?)\d+$", segs[0])
        if it:
            return self.rename(place, [it[1]] + segs[1:], said)
        if segs[0].endswith("_lem"):
            return self.rename(place, [segs[0][:-4]] + segs[1:], said)
        said.append("no step " + ".".join(segs))
        return segs

    def is_call(self, step):
        name = re.sub(r"-\d+$", "", step.split("-not-", 1)[1])
        return any(p[3] and (p[2][1] == name or p[3].split("::")[-1] == name) for p in self.it["places"])

    def tail(self, callee, rest):
        if callee and rest[:1] == ["ensures"]:
            return ["ensures"] + by_name(rest[1:], clause_names(callee)["ensures"])
        return rest

    def body(self, text, place, states, said):
        text = re.sub(r"\n\s*\.before", ".before", text)
        text = collapsed(text, states)

        def one(it):
            if it[1] not in states:
                return it[0]
            segs = self.rename(place, it[2][1:].split("."), said)
            whole = ".".join([it[1]] + segs)
            if len(segs) == 2 and segs[1] in ("true", "false") and "-not-" in segs[0] and self.is_call(segs[0]):
                return f"(ap not {whole})"
            return whole

        return PATH.sub(one, text)


def collapsed(text, states):
    """Drops each `let` that only names an earlier place of the walk: a place's record has all earlier steps."""
    one = "|".join(map(re.escape, sorted(states)))
    while True:
        it = re.search(r"let (" + WORD + r") = \(?(" + one + r")((?:\.before)*(?:\.(?!args\b|loop)" + WORD + r")?)\)? in\s*", text)
        if not it:
            return text
        to = it[2] + re.sub(r"(\.before)+", "", it[3])
        text = text[: it.start()] + text[it.end() :]
        text = re.sub(r"(?<![^\s(){};,\[\]\\])" + re.escape(it[1]) + r"(?![^\s(){}.;,\[\]\\])", lambda _: to, text)


def arguments(text, at, count):
    """Returns the next arguments of a call and where they end."""
    out = []
    for _ in range(count):
        it = re.compile(r"\s*").match(text, at)
        at = it.end()
        if at < len(text) and text[at] == "(":
            depth, end = 0, at
            while True:
                depth += {"(": 1, ")": -1}.get(text[end], 0)
                end += 1
                if depth == 0:
                    break
            while end < len(text) and re.match(r"\.[^\s(){};,]", text[end:]):
                end += len(re.match(r"(?:\.[^\s(){}.;,]+)+", text[end:])[0])
        else:
            it = re.compile(r"[^\s(){};,\[\]]+").match(text, at)
            if not it:
                return None, at
            end = it.end()
        out.append(text[at:end])
        at = end
    return out, at


def recorded(text, names):
    """Turns a last tuple, which is right-nested pairs, into a record of the clauses' names."""
    stripped = text.rstrip()
    if not stripped.endswith(")"):
        return None
    depth, at = 0, len(stripped)
    while True:
        at -= 1
        depth += {")": 1, "(": -1}.get(stripped[at], 0)
        if depth == 0:
            break
    inner, parts_, depth, last = stripped[at + 1 : -1], [], 0, 0
    for i, ch in enumerate(inner):
        depth += {"(": 1, "[": 1, "{": 1, ")": -1, "]": -1, "}": -1}.get(ch, 0)
        if ch == "," and depth == 0:
            parts_.append(inner[last:i].strip())
            last = i + 1
    if inner[last:].strip():
        parts_.append(inner[last:].strip())
    if len(parts_) == 2 and len(names) > 2:
        more = recorded(parts_[1], names[1:])
        return more and stripped[:at] + "record { " + names[0] + " = " + parts_[0] + "; " + more[len("record { ") :]
    if len(parts_) != len(names):
        return None
    before = stripped[:at]
    if re.search(r"[^\s=(]\s*$", before) and not re.search(r"(\bin|=|\.)\s*$", before):
        return None
    return before + "record { " + "; ".join(f"{n} = {e}" for n, e in zip(names, parts_)) + " }"


def substituted(text, to):
    return re.sub(WORD + r"(?:\." + WORD + r")*", lambda it: ".".join([to.get(it[0].split(".")[0], it[0].split(".")[0])] + it[0].split(".")[1:]), text)


def used(text):
    return {it.split(".")[0] for it in re.findall(WORD + r"(?:\." + WORD + r")*", text)}


def clauses(decl):
    """Returns the signature and the clauses of a declaration."""
    name = re.escape(decl["name"])
    whole = decl["text"][0]
    return whole, decl["text"][1:]


def function_files(old):
    for folder, dirs, files in os.walk(old):
        dirs.sort()
        if "Proof.antt" in files and "+" not in folder:
            yield os.path.relpath(folder, old)


def kept_uses(uses, text):
    out = []
    for line in uses:
        if re.search(r"\.(Statement\.\{statement\}|Tie as tie)$", line):
            continue
        it = re.match(r"((?:pub )?use [^{]*\.)\{([^}]*)\}$", line)
        if not it:
            out.append(line)
            continue
        have = used(text)
        keep = []
        for name in [n.strip() for n in it[2].split(",") if n.strip()]:
            last = name.split()[-1]
            parts_ = [p for p in last.split("◌") if p]
            if last in have or (last == "[]" and "[]" in text) or ("◌" in last and all(p in text for p in parts_)):
                keep.append(name)
        if keep:
            out.append(it[1] + "{" + ", ".join(keep) + "}")
    return out


def invariants(fn, uses, decls, crate, module):
    out, named, params = [], {}, {}
    for i, ((old, new), vars_) in enumerate(fn.it["loops"]):
        order = []
        for var, changed in zip(vars_, fn.it["changed"][i]):
            order.append(f"l.initial.{var}" if changed else f"l.{var}")
        order += [f"l.{var}" for var, changed in zip(vars_, fn.it["changed"][i]) if changed]
        params[plain(old)] = (new, order)
    texts = []
    for decl in decls:
        it = re.match(r"(?:invariant|Inv|decreases|μ)-(.*)$", decl["name"])
        if not it or not re.search(r":\s*tie\.", decl["text"][0]):
            continue
        loop = params.get(plain(it[1]))
        kind = "invariant" if decl["name"].startswith(("inv", "Inv")) else "decreases"
        if not loop:
            out.append(f"no loop {decl['name']}")
            continue
        new, order = loop
        clause = decl["text"][1]
        head, _, body = clause.partition("=")
        names = head.split()[1:]
        if len(names) != len(order):
            out.append(f"{decl['name']}: {names} for {order}")
        body = substituted(body, {a: b for a, b in zip(names, order) if a != "_"})
        body = re.sub(r"(?<![\w])_(?![\w])", "_", body)
        texts.append("\n".join(decl["comments"] + [f"abbrev pub {kind}-{new} : goal.{kind}-{new}", f"{kind}-{new} l ={body}"]))
        named[decl["name"]] = f"{kind}-{new}"
    return texts, named, out


def local_closure(text, decls):
    byname = {d["name"]: d for d in decls}
    need, todo = [], [n for n in used(text) if n in byname]
    while todo:
        n = todo.pop()
        if n in need:
            continue
        need.append(n)
        todo += [m for m in used("\n".join(byname[n]["text"])) if m in byname and m not in need]
    return [d for d in decls if d["name"] in need]


def write(path, text):
    os.makedirs(os.path.dirname(path), exist_ok=True)
    with open(path, "w", encoding="utf-8") as it:
        it.write(text)


def self_inlined(fn, out, local, said):
    """Puts helpers over a place of the walk into the answers that call them: a place's record now has all earlier steps."""
    helpers = {}
    for d in local:
        sig = d["text"][0]
        it = re.search(r":\s*(?:\((" + WORD + r") : )?tie\.(" + WORD + r")(?: (?:invariant|decreases)-" + WORD + r")*\)?\s*→", sig)
        if not it or len(d["text"]) != 2 or not it.start() == sig.index(":"):
            continue
        it = (it[1], it[2], it.end())
        head, _, body = d["text"][1].partition("=")
        names = head.split()[1:]
        old = fn.old_place.get(plain(it[1]))
        kind = re.sub(r"(?m)^unfolding .*$", "", sig[it[2] :]).strip()
        if names and old and "abbrev" not in d["mods"]:
            kind = fn.body(kind, old, {it[0] or names[0]}, said)
            if it[0] and it[0] != names[0]:
                kind = re.sub(r"(?<![^\s(){};,\[\]\\])" + re.escape(it[0]) + r"(?![^\s(){}.;,\[\]\\])", names[0], kind)
            more = "λ " + " ".join(names[1:]) + ". " if names[1:] else ""
            body = f"let it : {kind} = {more}{fn.body(body.strip(), old, {names[0]}, said)} in it"
            helpers[d["name"]] = (names[:1], body, re.findall(r"^unfolding (.*)$", sig, re.M))
            continue
        if not names or not old:
            said.append(f"helper {d['name']} at {it[1]} is left")
            continue
        unf = re.findall(r"^unfolding (.*)$", sig, re.M)
        helpers[d["name"]] = (names, fn.body(body.strip(), old, {names[0]}, said), unf)
    res = []
    for text in out:
        got = set()
        for _ in range(20000):
            it = None
            for name in helpers:
                it = re.search(r"(?<![^\s(){};,\[\]\\])" + re.escape(name) + r"(?=\s)", text)
                if it:
                    break
            if not it:
                break
            params, body, unf = helpers[name]
            args, end = arguments(text, it.end(), len(params))
            if args is None:
                said.append(f"no arguments of {name}")
                break
            for var, arg in zip(params, args):
                arg = re.sub(r"^\((c)(?:\.before)*\)$|^(c)(?:\.before)+$", "c", arg)
                body = re.sub(r"(?<![^\s(){};,\[\]\\])" + re.escape(var) + r"(?![^\s(){}.;,\[\]\\])", lambda _: arg, body)
            got.update(unf)
            text = text[: it.start()] + "(" + body + ")" + text[end:]
            text = re.sub(r"\((c)(?:\.before)*\)", r"\1", text)
        text = re.sub(r"(?<![^\s(){};,\[\]\\])(c)((?:\.before)+)", r"\1", text)
        if got:
            lines = text.split("\n")
            i = next(k for k, l in enumerate(lines) if l.startswith("pub "))
            have = [l for l in lines if l.startswith("unfolding ")]
            words = sorted({w for u in got for w in u.split()} | {w for l in have for w in l.split()[1:]})
            lines = [l for l in lines if not l.startswith("unfolding ")]
            lines.insert(i + 1, "unfolding " + " ".join(words))
            text = "\n".join(lines)
        res.append(text)
    return res, [d for d in local if d["name"] not in helpers], None


def run(old, crate, mode, names_file, log=None):
    names = json.load(open(names_file))
    opened = {}
    if log:
        text = re.sub(r"(?m)^so far: ", "", read(log))
        for it in re.finditer(r"expected answers in \./proofs/(\S+)/Answers\.antt; `search` did not prove ([^\n]*)", text):
            opened[it[1]] = {re.sub(r"-clause-.*", "", g) for g in re.findall(r"`([^`]+)`", it[2].split("; it calls")[0])}
        for it in re.finditer(r"help: write \./proofs/(\S+)/Answers\.antt[^\n]*\n((?:    [^\n]*\n|\s*\n)*)", text):
            opened.setdefault(it[1], set()).update(re.sub(r"-clause-.*", "", g) for g in re.findall(r"^    pub (\S+) : goal\.", it[2], re.M))
    for rel in function_files(old):
        module = rel.replace("/", ".")
        key = f"Rattle-{crate}-proofs.{module}.Lts"
        if key not in names:
            print(f"{rel}: no such function")
            continue
        fn = Function(names, key)
        fn.path = crate + "::" + rel.replace("/", "::")
        uses, decls = parts(read(os.path.join(old, rel, "Proof.antt")))
        goals = [d for d in decls if re.search(r":\s*tie\.(Need-|invariant-|decreases-|Inv-|μ-)", d["text"][0])]
        last = [d for d in decls if re.search(r"statement M", d["text"][0])]
        local = [d for d in decls if d not in goals and d not in last]
        inv, named, said = invariants(fn, uses, decls, crate, module)
        shared = local_closure("\n".join(inv), local)
        for d in shared:
            if "pub" not in d["mods"].split():
                d["text"][0] = re.sub(r"^((?:(?:abbrev|unfoldable)\s+)?)", r"\1pub ", d["text"][0], 1)
        to = os.path.join("crates", crate, "proofs", rel)
        if mode == "invariants":
            if inv:
                text = "\n\n".join(["\n".join(d["comments"] + d["text"]) for d in shared] + inv)
                lines = kept_uses(uses, text) + [f"use Rattle.{crate}.proofs.{module}.Given as goal"]
                write(os.path.join(to, "Invariants.antt"), "\n".join(lines) + "\n\n" + text + "\n")
            for line in said:
                print(f"{rel}: {line}")
            continue
        if rel not in opened:
            continue
        out, left = [], set(opened[rel])
        for d in goals:
            head = d["text"][0]
            it = re.search(r":\s*tie\.Need-(\S+)", head)
            if not it:
                continue
            need = fn.needs.get(plain(it[1])) or fn.needs.get(plain(d["name"]))
            if not need:
                if plain(d["name"]) not in fn.settled:
                    print(f"{rel}: no goal for {d['name']} ({it[1]})")
                continue
            new, place = need
            if new not in opened[rel]:
                continue
            left.discard(new)
            extra = d["text"][0].split("\n")[1:]
            body_lines = []
            for clause in d["text"][1:]:
                clause = re.sub(r"^" + re.escape(d["name"]) + r"(?=\s)", new, clause)
                clause = re.sub(r"^(\S+ \S+) κs =", r"\1 =", clause)
                var = clause.split()[1] if len(clause.split()) > 1 else "c"
                done = fn.body(clause, place, {var}, said)
                kind = clause_names(fn.path)["ensures"] if new.startswith("returns") else []
                if new.endswith("-requires") or re.search(r"-requires-", new):
                    callee = [p[3] for p in fn.it["places"] if p[3] and new.startswith(p[2][1].split("-")[0])]
                    callee = [c for c in callee if new.startswith(c.split("::")[-1])] or callee
                    kind = clause_names(callee[0])["requires"] if callee else []
                if len(kind) > 1:
                    as_record = recorded(done, kind)
                    if as_record:
                        done = as_record
                    elif len(d["text"]) == 2:
                        lets = re.match(r"(\S+ \S+ =\s*(?:let " + WORD + r" = (?:(?! in\b)[\s\S])*? in\b\s*)*)([\s\S]*)$", done)
                        each = [(".1" * i + (".0" if i < len(kind) - 1 else "")) for i in range(len(kind))]
                        done = lets[1] + " let both = " + lets[2] + " in record { " + "; ".join(f"{n} = both{e}" for n, e in zip(kind, each)) + " }"
                    else:
                        said.append(f"{new}: an answer to {kind}")
                body_lines.append(done)
            unf = [l for l in d["text"][0].split("\n")[1:]]
            out.append("\n".join(d["comments"] + [f"pub {new} : goal.{new}"] + unf + body_lines))
        out, local_left, unfolds = self_inlined(fn, out, local, said)
        helper = local_closure("\n".join(out), local_left)
        helper_text = []
        for d in helper:
            if d in shared:
                continue
            text = "\n".join(d["comments"] + d["text"])
            places = re.findall(r"tie\.(" + WORD + ")", text)
            if places:
                old_p = fn.old_place.get(plain(places[0]))
                sig_vars = set(re.findall(r"\((" + WORD + r") : tie\.", text))
                heads = [c.split()[1] for c in d["text"][1:] if len(c.split()) > 1 and c.split()[1] != "="]
                text = fn.body(text, old_p, sig_vars | set(heads), said) if old_p else text
                text = re.sub(r"tie\.(" + WORD + ")", lambda p: "goal." + fn.new_place.get(plain(p[1]), p[1]), text)
            helper_text.append(text)
        text = "\n\n".join(helper_text + out)
        if not out:
            print(f"{rel}: open with no answer: {sorted(left)}")
            continue
        text = re.sub(r"tie\.Need-", "goal.", text)
        lines = kept_uses(uses, text)
        if "(ap not " in text:
            head = "\n".join(lines)
            lines += [f"use {m}.{{{n}}}" for m, n in (("mathlib.Core.Path", "ap"), ("mathlib.Core.Bool", "not")) if not re.search(r"[{ ,]" + n + r"[,}]", head)]
        mine = [d["name"] for d in shared if d["name"] in used(text)]
        mine += [n for n in named.values() if n in used(text)]
        if mine:
            lines.append(f"use Rattle.{crate}.proofs.{module}.Invariants." + "{" + ", ".join(mine) + "}")
        lines.append(f"use Rattle.{crate}.proofs.{module}.Goals as goal")
        write(os.path.join(to, "Answers.antt"), "\n".join(lines) + "\n\n" + text + "\n")
        if left:
            print(f"{rel}: open with no answer: {sorted(left)}")
        for line in said:
            print(f"{rel}: {line}")


def fn_params(crate, module, name):
    """Returns the names of a function's parameters, as its source has them."""
    for folder, _, files in os.walk(os.path.join("crates", crate, "src")):
        for f in files:
            text = read(os.path.join(folder, f))
            it = re.search(r"\bfn " + name + r"\(([^)]*)\)", text)
            if it and (f[:-3] == module or module == "" or not module):
                return [re.sub(r"^mut ", "", a.strip()).split(":")[0].strip() for a in it[1].split(",") if a.strip()]
    return []


def dedented(text):
    """Takes the declarations of a section `module _ (t : ℕ) where` out of it."""
    out, inside = [], False
    for line in text.split("\n"):
        if re.match(r"module _ \(t : ℕ\) where", line):
            inside = True
            continue
        if inside and line.strip() and not line.startswith(" "):
            inside = False
        out.append(line[2:] if inside and line.startswith("  ") else line)
    return "\n".join(out)


def cycle(old, crate, rel, names_file, log=None):
    """Turns the proof of a cycle of calls: OLD has Proof.antt and perhaps Proof/NAME.antt, REL is as depth/+patterns."""
    names = json.load(open(names_file))
    module = rel.replace("/", ".")
    place_of = os.path.dirname(rel)
    opened = set()
    if log and log != "ALL":
        text = re.sub(r"(?m)^so far: ", "", read(log))
        path = re.escape(rel)
        for it in re.finditer(r"expected answers in \./proofs/" + path + r"/Answers\.antt; `search` did not prove ([^\n]*)", text):
            opened |= {re.sub(r"-clause-.*", "", g) for g in re.findall(r"`([^`]+)`", it[1].split("; it calls")[0])}
        for it in re.finditer(r"help: write \./proofs/" + path + r"/Answers\.antt[^\n]*\n((?:    [^\n]*\n|\s*\n)*)", text):
            opened |= {re.sub(r"-clause-.*", "", g) for g in re.findall(r"^    pub (\S+) :", it[1], re.M)}
    sources = [os.path.join(old, "Proof.antt")]
    if os.path.isdir(os.path.join(old, "Proof")):
        sources += sorted(os.path.join(old, "Proof", f) for f in os.listdir(os.path.join(old, "Proof")))
    measures, invs, answers, uses_all, helpers_all, said, found = [], [], [], [], [], [], set()
    for source in sources:
        raw = dedented(read(source))
        alias = {it[2]: it[1] for it in re.finditer(r"use \S*\.Lts-(\w+) as (\S+)", raw)}
        uses, decls = parts(raw)
        local, goals = [], []
        for d in decls:
            head = d["text"][0]
            if d["name"].startswith("μ-") and ": Measures" in head:
                clause = d["text"][1]
                fn_name = None
                it = re.search(r"Measures \d+ (\S+?)\.ps", head)
                kinds = re.search(r"use \S*\.(\w+)\.Kinds as " + re.escape(it[1]), raw)
                fn_name = kinds[1]
                params = fn_params(crate, os.path.basename(place_of) if place_of else "lib", fn_name)
                body = clause.partition("=")[2]
                body = re.sub(r"(?<![\w.])a((?:\.1)*)\.0(?![\w])", lambda it: "l." + params[it[1].count(".1")], body)
                measures.append((fn_name, body.strip(), d))
                continue
            it = re.search(r":\s*(\S+?)\.(Need-(\S+)|invariant-(\S+)|decreases-(\S+))", head)
            if it and it[1] in alias:
                goals.append((d, alias[it[1]], it))
            elif re.search(r"\.Claims$|: ℕ → In |statement M", head):
                continue
            elif d["name"] == "calls" or d["name"].endswith(("_calls", "_at", "_below")):
                continue
            else:
                local.append(d)
        if log is None:
            for d, fn_name, it in goals:
                loop = it[4] or it[5]
                if not loop:
                    continue
                fn = Function(names, f"Rattle-{crate}-proofs.{module}.Lts-{fn_name}")
                for i, ((o, new), vars_) in enumerate(fn.it["loops"]):
                    if plain(o) != plain(loop):
                        continue
                    order = [f"l.initial.{v}" if ch else f"l.{v}" for v, ch in zip(vars_, fn.it["changed"][i])]
                    order += [f"l.{v}" for v, ch in zip(vars_, fn.it["changed"][i]) if ch]
                    kind = "invariant" if it[4] else "decreases"
                    head, _, body = d["text"][1].partition("=")
                    argnames = head.split()[1:]
                    if len(argnames) != len(order):
                        said.append(f"{d['name']}: {argnames} for {order}")
                    body = substituted(body, {a: b for a, b in zip(argnames, order) if a != "_"})
                    name = f"{kind}-{fn.it['stem']}{new}"
                    invs.append("\n".join(d["comments"] + [f"abbrev pub {name} : goal.{name}", f"{name} l ={body}"]))
                    uses_all += uses
            if any(True for m in measures):
                uses_all += uses
            continue
        out = []
        for d, fn_name, it in goals:
            if not it[3]:
                continue
            fn = Function(names, f"Rattle-{crate}-proofs.{module}.Lts-{fn_name}")
            fn.in_cycle = True
            fn.path = "::".join([crate] + [w for w in place_of.split("/") if w] + [fn_name])
            need = fn.needs.get(plain(it[3]))
            if not need:
                short = plain(re.sub("^" + fn_name + "[-_]", "", d["name"]))
                need = fn.needs.get(short)
            if not need:
                if plain(it[3]) not in fn.settled:
                    said.append(f"{fn_name}: no goal for {d['name']} ({it[3]})")
                continue
            goal = fn.it["stem"] + need[0]
            plainly = re.sub(r"\s+", " ", "\n".join(d["text"][1:]).partition("=")[2]).strip()
            if (goal not in opened) if log != "ALL" else plainly in ("tt", "search rules", "search needs"):
                continue
            found.add(goal)
            lines = []
            for clause in d["text"][1:]:
                clause = re.sub(r"^" + re.escape(d["name"]) + r"(?=\s)", goal + " t", clause)
                clause = re.sub(r"^(\S+ t \S+) κs =", r"\1 =", clause)
                lines.append(fn.body(clause, need[1], {"c"}, said))
            unf = [l.strip() for l in d["text"][0].split("\n")[1:] if l.strip().startswith("unfolding")]
            out.append("\n".join(d["comments"] + [f"pub {goal} : goal.{goal}"] + unf + lines))
        if out:
            answers += out
            uses_all += uses
            helpers_all += local_closure("\n".join(out), local)
    to = os.path.join("crates", crate, "proofs", rel)
    merged = {}
    for line in uses_all:
        if re.search(r"\.(Lts-\w+|Reads|Kinds) as |borrow\.Fn\.(Kinds|PlainCycle)|\.Proof\.Base\.|\.Tie\.|\{statement\}", line):
            continue
        it = re.match(r"((?:pub )?use [^{]*\.)\{([^}]*)\}$", line)
        if it:
            for n in it[2].split(","):
                if n.strip() and n.strip() not in merged.setdefault(it[1], []):
                    merged[it[1]].append(n.strip())
        else:
            merged.setdefault(line, None)
    merged = [k if v is None else k + "{" + ", ".join(v) + "}" for k, v in merged.items()]
    if log is None:
        text = "\n\n".join([f"abbrev pub decreases-{n} : goal.decreases-{n}\ndecreases-{n} l = {b}" for n, b, _ in measures] + invs)
        write(os.path.join(to, "Invariants.antt"), "\n".join(kept_uses(merged, text) + [f"use Rattle.{crate}.proofs.{module}.Given as goal"]) + "\n\n" + text + "\n")
    else:
        text = "\n\n".join(["\n".join(d["comments"] + d["text"]) for d in helpers_all] + answers)
        lines = kept_uses(merged, text)
        if "(ap not " in text:
            head = "\n".join(lines)
            lines += [f"use {m}.{{{n}}}" for m, n in (("mathlib.Core.Path", "ap"), ("mathlib.Core.Bool", "not")) if not re.search(r"[{ ,]" + n + r"[,}]", head)]
        write(os.path.join(to, "Answers.antt"), "\n".join(lines + [f"use Rattle.{crate}.proofs.{module}.Goals as goal"]) + "\n\n" + text + "\n")
        print(f"open with no answer: {sorted(opened - found)}")
    for line in said:
        print(line)


if __name__ == "__main__":
    if sys.argv[1] == "cycle":
        cycle(*sys.argv[2:])
        raise SystemExit
    run(*sys.argv[1:])
