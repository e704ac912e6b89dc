#!/usr/bin/env python3
"""Old and new of public functions and definitions, a page per crate: gen.py OLD NEW OUT (run in the repository)."""
import re, subprocess, sys, os
old, new, out = sys.argv[1:]
def git(*a): return subprocess.run(["git", *a], capture_output=True, text=True, check=True).stdout
def files(rev, pat):
    return [f for f in git("ls-tree", "-r", "--name-only", rev).splitlines() if re.match(pat, f)]
def crates(rev):
    cs = sorted({f.split('/')[1] for f in files(rev, r"crates/[^/]+/(src|specs)/")})
    return [c for c in cs]
def functions(rev, crate):
    """name -> list of (head, place); public ones, and methods of trait impls"""
    found = []
    for f in files(rev, rf"crates/{crate}/src/(?!tests\.rt).*\.rt$"):
        text = git("show", f"{rev}:{f}")
        mod = os.path.basename(f)[:-3]
        text = re.sub(r"//[^\n]*", "", text)
        impl = None
        lines = text.split("\n")
        i = 0
        while i < len(lines):
            l = lines[i]
            m = re.match(r"impl(?:<[^{]*?>)?\s+(.*?)\s*\{", l)
            if m: impl = re.sub(r"\s+", " ", m[1])
            elif l == "}": impl = None
            m = re.match(r"\s*(pub )?(?:const )?(extern \"C\" )?fn (\w+)", l)
            if m and (m[1] or (impl and ' for ' in impl)) and 'pub(crate)' not in l:
                buf = []
                j = i
                while j < len(lines):
                    t = lines[j].strip()
                    if t == "{" or (t.endswith("{") and not re.search(r"(ensures|requires)\b.*\{$", t) and buf == [] and ')' in t and t.count('{') - t.count('}') == 1):
                        if t != "{": buf.append(t[:-1].strip())
                        break
                    if t == "{}":
                        break
                    buf.append(t)
                    j += 1
                head = re.sub(r"\s+", " ", " ".join(buf)).strip()
                head = head.replace("( ", "(").replace(", )", ")")
                place = mod + (f": {impl}::{m[3]}" if impl else "")
                found.append((m[3], head, place))
            i += 1
    return found
def definitions(rev, crate):
    found = {}
    for f in files(rev, rf"crates/{crate}/specs/.*\.antt$"):
        mod = os.path.basename(f)[:-5]
        cur, block, depth = None, False, 0
        for l in git("show", f"{rev}:{f}").split("\n"):
            l = re.sub(r"\s+-- .*$", "", l).rstrip()
            t = l.strip()
            if not t: cur = None; continue
            if t.startswith("--") or t.startswith("use ") or re.match(r"(pub )?mod\b|module ", t): cur = None; continue
            ind = len(l) - len(l.lstrip())
            m = re.match(r"(?:(?:abbrev|unfoldable|pub)\s+)+(data |record )?([^\s:({]+)", t)
            if m and not (cur and block and ind > depth):
                cur, block, depth = (mod, m[2]), bool(m[1]), ind
                found.setdefault(cur, []).append(l[depth:]); continue
            if cur: found[cur].append(l[depth:] if len(l) > depth else t)
    return found
def pair(o, n):
    changed, gone, fresh = [], [], []
    left = list(n)
    for name, head, place in o:
        same = [x for x in left if x[0] == name and x[1] == head]
        if same: left.remove(same[0]); continue
        gone.append((name, head, place))
    still = []
    for x in gone:
        cand = [y for y in left if y[0] == x[0]]
        cand.sort(key=lambda y: (y[2].split(':')[0] != x[2].split(':')[0]))
        if cand: left.remove(cand[0]); changed.append((x, cand[0]))
        else: still.append(x)
    return changed, still, left
os.makedirs(out, exist_ok=True)
for c in crates(new):
    oc = 'emit' if c == 'context' else c
    of, nf = functions(old, oc), functions(new, c)
    changed, gone, fresh = pair(of, nf)
    od, nd = definitions(old, oc), definitions(new, c)
    byname = {}
    for (m, k), v in nd.items(): byname.setdefault(k, []).append((m, v))
    dch, dgo, used = [], [], set()
    for (m, k), v in od.items():
        c2 = byname.get(k, [])
        exact = [x for x in c2 if x[0] == m] or c2
        if exact:
            used.add((exact[0][0], k))
            if [re.sub(r"\s+", " ", z) for z in exact[0][1]] != [re.sub(r"\s+", " ", z) for z in v]:
                dch.append((k, exact[0][0], v, exact[0][1]))
        else: dgo.append((k, m, v))
    dnew = [(k, m, v) for (m, k), v in nd.items() if (m, k) not in used and not any(k == kk for (mm, kk) in od)]
    page = [f"# `{oc}`" + (f", now `{c}`" if oc != c else "") + ": old and new", ""]
    if changed:
        page += ["## Public functions changed", ""]
        for (n, h, p), (n2, h2, p2) in changed:
            page += [f"`{n}` ({p.split(':')[0]})", "", f"    - {h}", f"    + {h2}", f"      ({p2})", ""]
    if gone: page += ["## Public functions gone", ""] + [f"    - {h}   ({p})" for n, h, p in gone] + [""]
    if fresh: page += ["## Public functions new", ""] + [f"    + {h}   ({p})" for n, h, p in fresh] + [""]
    if dch:
        page += ["## Definitions changed", ""]
        for k, m, v, w in dch:
            page += [f"`{k}` ({m})", ""] + [f"    - {z}" for z in v] + [f"    + {z}" for z in w] + [""]
    if dgo: page += ["## Definitions gone", ""] + [f"    - {z}" for k, m, v in dgo for z in v] + [""]
    if dnew: page += ["## Definitions new", ""] + [f"    + {z}" for k, m, v in dnew for z in v] + [""]
    if len(page) > 2: open(f"{out}/{c}.md", "w").write("\n".join(page).rstrip() + "\n")
