#!/usr/bin/env python3
"""Prints the places in the crates' src/ folders that docs/DESIGN-PASS.md counts, and how many there are in each crate.

usage: python3 tools/places.py POINT [NAME,NAME,..]     at the top of the repository, where POINT is one of

  enums      every enum with its variants, by shape: Option, Result, Result of Option, other
  arms       match arms over these enums, and how many of them only hand a refusal on
  results    functions whose result is a usize, u32 or u64, or a bool beside something lent to be written, with what is said of it
  twins      functions whose bodies are the same or nearly so once names, types and numbers are left out; structs with like fields
  loops      every while loop, by what moves it
  records    functions that build a record with fields copied from another
  facts      bodies of requires clauses that stand in three functions or more, as they are and with old and now read as one
  params     groups of parameters (name and type) that stand together in three functions or more: in how many, of how many that have
             any of them. params NAME,NAME,.. prints the functions that have all of these
  tests      functions that are chains of tests: ifs that all leave early, one after another
  proofs     per crate: answer files, invariant files, lemma files, answers, lines

Only text is read; nothing is checked or built. Functions are told by the line with `fn`, their bodies by the indent of the brace
that closes them, so the sources have to be laid out as they are here.
"""

import difflib
import itertools
import os
import re
import signal
import sys

OWN = ["priors", "entries", "book", "divergence", "baseline", "exports", "kit"]
FN = re.compile(r"(\s*)(?:pub(?:\(crate\))? )?(?:extern \"C\" )?fn (\w+)")
TOKEN = re.compile(r"0x[0-9a-f]+|\d+\.\d+(?:e-?\d+)?|\d\w*|[A-Za-z_]\w*|\"[^\"]*\"|[-+*/%<>=!&|]=|&&|\|\||=>|->|\.\.|::|\S")
WORDS = {"let", "mut", "if", "else", "while", "return", "match", "true", "false", "as", "self", "len", "for", "in"}
TYPES = {"usize", "u8", "u16", "u32", "u64", "i32", "f64", "bool"}


class Function:
    def __init__(self, path, line, name, head, clauses, body, said):
        self.path, self.line, self.name = path, line, name
        self.head, self.clauses, self.body, self.said = head, clauses, body, said
        self.crate = path.split("/")[1]
        self.place = f"{path}:{line}:{name}"
        inside = re.search(r"\((.*)\)", head.split("->")[0].replace("pub(crate)", "pub"), re.S).group(1)
        self.params = []
        for p in split(inside):
            name, _, kind = p.partition(":")
            self.params.append((name.replace("mut ", "").strip(), " ".join(kind.split())))
        self.result = head.split("->")[1].strip() if "->" in head else ""


def split(text):
    """Cuts a list of parameters at its outer commas."""
    out, depth, word = [], 0, ""
    for c in text:
        depth += (c in "([{<") - (c in ")]}>")
        if c == "," and depth == 0:
            out.append(word)
            word = ""
        else:
            word += c
    return [p for p in out + [word] if p.strip()]


def sources():
    for crate in OWN:
        for folder, dirs, names in os.walk(f"crates/{crate}/src"):
            dirs.sort()
            for name in sorted(names):
                if name.endswith(".rt"):
                    yield os.path.join(folder, name)


def functions():
    for path in sources():
        lines = open(path, encoding="utf-8").read().split("\n")
        for i, line in enumerate(lines):
            m = FN.match(line)
            if not m:
                continue
            indent = m[1]
            end = next(k for k in range(i, len(lines)) if lines[k] == indent + "}")
            clause = re.compile(r"\s*(requires|ensures)\b")
            start = next(k for k in range(i, end) if lines[k].rstrip().endswith("{") and not clause.match(lines[k]))
            first = next((k for k in range(i, start) if clause.match(lines[k])), start)
            head = "\n".join(lines[i:first] or [lines[i]])
            if first == start:
                head = "\n".join(lines[i:start + 1]).rstrip()[:-1]
            k = i - 1
            while k >= 0 and lines[k].strip().startswith("#["):
                k -= 1
            top = k
            while top >= 0 and lines[top].strip().startswith("//"):
                top -= 1
            said = " ".join(x.strip()[2:].strip() for x in lines[top + 1:k + 1])
            clauses = "\n".join(lines[first:start]) if first < start else ""
            yield Function(path, i + 1, m[2], head, clauses, list(enumerate(lines[start + 1:end], start + 2)), said)


def bodies(clauses, word):
    """The bodies of the clauses of one kind, without their names."""
    for m in re.finditer(rf"^\s*{word}\b\s*\w*\s*\{{", clauses, re.M):
        depth, k = 1, m.end()
        while depth:
            depth += (clauses[k] == "{") - (clauses[k] == "}")
            k += 1
        yield " ".join(clauses[m.end():k - 1].split())


def named(fs):
    """The functions of each file, on one line."""
    out = []
    for path in sorted({f.path for f in fs}, key=lambda p: (OWN.index(p.split("/")[1]), p)):
        out.append(f"{path}: {', '.join(f.name for f in fs if f.path == path)}")
    return "; ".join(out)


def shares(fs):
    return ", ".join(f"{c} {n}" for c in OWN for n in [sum(f.crate == c for f in fs)] if n)


def by_crate(crates):
    crates = list(crates)
    print("per crate: " + ", ".join(f"{c} {crates.count(c)}" for c in OWN) + f"; together {len(crates)}")


def blocks(word):
    """Each enum or struct: its place, its name and the lines within."""
    for path in sources():
        text = open(path, encoding="utf-8").read()
        for m in re.finditer(rf"^(?:pub )?{word} (\w+) \{{\n(.*?)^\}}", text, re.M | re.S):
            yield path, text[:m.start()].count("\n") + 1, m[1], [x.strip().rstrip(",") for x in m[2].split("\n") if x.strip()]


def shape(variants):
    full = [v for v in variants if "(" in v]
    turned = [v for v in full if "Refusal" in v]
    if len(variants) == 2:
        return "Option" if len(full) == 1 and not turned else "Result" if full else "other"
    if len(variants) == 3 and len(full) == 2 and len(turned) == 1:
        return "Result of Option"
    return "other"


def enums():
    found = list(blocks("enum"))
    for path, line, name, variants in found:
        text = ", ".join(variants)
        print(f"{path}:{line}:{name}: {shape(variants)}: {text if len(text) < 120 else text[:117] + '..'}")
    by_crate(path.split("/")[1] for path, _, _, _ in found)


def arms():
    names = "|".join(name for _, _, name, _ in blocks("enum"))
    every, handed = [], []
    for path in sources():
        for i, line in enumerate(open(path, encoding="utf-8"), 1):
            if re.match(rf"\s*(?:{names})::\w+(?:\([^=]*\))? =>", line):
                every.append(path.split("/")[1])
                on = re.match(rf"\s*(\w+)::\w+\((r|refusal)\) => (?:return )?\w+::\w+\(\2\),?$", line)
                if on:
                    handed.append(path.split("/")[1])
                print(f"{path}:{i}:{line.strip()}{'    -- hands on' if on else ''}")
    by_crate(every)
    print("of these hand a refusal on, ", end="")
    by_crate(handed)


def results():
    found = []
    for f in functions():
        told = f.result == "bool" and any("&mut" in kind for _, kind in f.params)
        if f.result in ("usize", "u32", "u64") or told:
            found.append(f.crate)
            print(f"{f.place} -> {f.result}{' beside &mut' if told else ''}: {f.said}")
    by_crate(found)


def plain(f):
    """The tokens of a body with names, types and numbers left out."""
    text = " ".join(re.sub(r"//.*", "", x) for _, x in f.body)
    return ["0" if t[0].isdigit() or t.startswith('"') else t if t in WORDS or not re.match(r"\w", t) else "T" if t in TYPES else "x" for t in TOKEN.findall(text)]


def twins():
    every = [(f, plain(f)) for f in functions()]
    every = [(f, t) for f, t in every if len(t) >= 8]
    groups, seen = [], set()
    for i, (f, t) in enumerate(every):
        if i in seen:
            continue
        group = [i]
        for k in range(i + 1, len(every)):
            u = every[k][1]
            if k in seen or min(len(t), len(u)) < 0.9 * max(len(t), len(u)):
                continue
            same = t == u
            if same or (min(len(t), len(u)) >= 24 and difflib.SequenceMatcher(None, t, u, False).ratio() >= 0.95):
                group.append(k)
        if len(group) > 1:
            seen.update(group)
            groups.append(group)
    for n, group in enumerate(groups, 1):
        print(f"group {n}, {len(every[group[0]][1])} tokens:")
        for k in group:
            print(f"  {every[k][0].place}")
    by_crate(every[k][0].crate for group in groups for k in group)
    print("structs with like fields:")
    fields = {}
    for path, line, name, lines in blocks("struct"):
        names = tuple(x.replace("pub ", "").split(":")[0] for x in lines)
        kinds = tuple(x.split(":")[1].strip() for x in lines)
        fields[f"{path}:{line}:{name}"] = (names, kinds)
    for (a, (na, ka)), (b, (nb, kb)) in itertools.combinations(fields.items(), 2):
        common = [x for x in na if x in nb]
        if len(common) >= 2 and len(common) * 2 >= max(len(na), len(nb)) or ka == kb and len(ka) > 1:
            print(f"  {a} {b}: {', '.join(common) or 'types alone'}")


def kind_of(cond, body):
    """What moves a loop, by its condition and the lines within."""
    names = set(re.findall(r"\b[a-z_]\w*\b", cond)) - {"len", "as", "usize"}
    text = "\n".join(body)
    steps = {m[1] for m in re.finditer(r"\b(\w+) [-+]= 1;", text)}
    if re.search(r"/ 2\b", text) and not steps & names:
        return "halving"
    if re.search(r"\bstep = step \* 2\b", text):
        return "doubling"
    if re.search(r"\b(link|at) != 0", cond) or "link +" in cond:
        return "links"
    if re.search(r"^\s*i = to;", text, re.M):
        return "nodes"
    if steps & names:
        down = any(re.search(rf"\b{x} -= 1;", text) for x in names)
        return "counted down" if down else "counted up"
    return "other"


def loops():
    found = []
    for f in functions():
        for k, (i, line) in enumerate(f.body):
            m = re.match(r"(\s*)while (.*) \{$", line)
            if m:
                end = next(e for e in range(k, len(f.body)) if f.body[e][1] == m[1] + "}")
                kind = kind_of(m[2], [x for _, x in f.body[k + 1:end]])
                found.append((f.crate, kind))
                print(f"{f.path}:{i}:{f.name}: {kind}: while {m[2]}")
    for kind in sorted({k for _, k in found}):
        print(f"{kind}, ", end="")
        by_crate(c for c, k in found if k == kind)


def records():
    found = []
    for f in functions():
        text = "\n".join(x for _, x in f.body)
        copied = re.findall(r"\b(\w+): \w+\.\1(?=,| \})", text)
        if copied:
            found.append(f.crate)
            print(f"{f.place}: {', '.join(copied)}")
    by_crate(found)


def facts():
    for title, change in (("as they stand", lambda b: b), ("old and now read as one", lambda b: re.sub(r"\.(old|now)\b", "", b))):
        where = {}
        for f in functions():
            for b in set(change(b) for b in bodies(f.clauses, "requires")):
                where.setdefault(b, []).append(f)
        often = {b: fs for b, fs in where.items() if len(fs) >= 3}
        print(f"{title}: {len(often)} bodies of {len(where)}")
        for b, fs in sorted(often.items(), key=lambda e: (-len(e[1]), e[0])):
            print(f"{len(fs):3} {{ {b} }}    {shares(fs)}\n      {named(fs)}")
        by_crate(f.crate for fs in often.values() for f in fs)


def params(names=None):
    every = []
    for f in functions():
        every.append((f, frozenset((n, re.sub(r"&(mut )?", "", k)) for n, k in f.params if k)))
    if names:
        wanted = set(names.split(","))
        fs = [f for f, s in every if wanted <= {n for n, _ in s}]
        for f in fs:
            print(f.place)
        return by_crate(f.crate for f in fs)
    closed = {s for _, s in every}
    new = closed
    while new:
        new = {a & b for a in new for b in closed} - closed
        closed |= new
    groups = [(s, [f for f, t in every if s <= t], sum(bool(s & t) for _, t in every)) for s in closed if len(s) >= 2]
    groups = [g for g in groups if len(g[1]) >= 3]
    order = {}
    for f in functions():
        for n, _ in f.params:
            order.setdefault(n, len(order))
    for s, fs, any_of in sorted(groups, key=lambda g: (-len(g[1]), sorted(g[0]))):
        print(f"{len(fs):3} of {any_of:3} ({', '.join(n + ': ' + k for n, k in sorted(s, key=lambda p: order[p[0]]))})    {shares(fs)}")
    by_crate(f.crate for f in {f for _, fs, _ in groups for f in fs})


def tests():
    found = []
    for f in functions():
        text = "\n".join(re.sub(r"//.*", "", x) for _, x in f.body)
        left = re.findall(r"if [^{]*\{\s*return [^;]*;\s*\}", text)
        if len(left) >= 3:
            found.append(f.crate)
            print(f"{f.place}: {len(left)} tests")
    by_crate(found)


def proofs():
    for crate in OWN:
        told, loops, lemmas, answers, lines = 0, 0, 0, 0, 0
        for folder, _, names in os.walk(f"crates/{crate}/proofs"):
            for name in names:
                if not name.endswith(".antt"):
                    continue
                text = open(os.path.join(folder, name), encoding="utf-8").read().split("\n")
                lines += len(text) - 1
                told += name == "Answers.antt"
                loops += name == "Invariants.antt"
                lemmas += folder == f"crates/{crate}/proofs"
                answers += sum(x.startswith("pub ") for x in text) if name == "Answers.antt" else 0
        print(f"{crate}: {told} Answers.antt, {loops} Invariants.antt, {lemmas} lemma files, {answers} answers, {lines} lines")


POINTS = {f.__name__: f for f in (enums, arms, results, twins, loops, records, facts, params, tests, proofs)}

if __name__ == "__main__":
    signal.signal(signal.SIGPIPE, signal.SIG_DFL)
    if sys.argv[1:2] == ["params"] and len(sys.argv) == 3:
        params(sys.argv[2])
    elif len(sys.argv) == 2 and sys.argv[1] in POINTS:
        POINTS[sys.argv[1]]()
    else:
        sys.exit(__doc__)
