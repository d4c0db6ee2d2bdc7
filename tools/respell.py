#!/usr/bin/env python3
"""Brings the repository's own definitions and lemmas to today's spelling: words in snake case, a dash only between two names.

usage: python3 tools/respell.py [--say]      at the top of the repository, once, after the toolchain's port.py

A word in camel case becomes one in snake case wherever it stands in a proof, a definition, a clause or an edit; types and modules keep
their capitals. In a lemma's name a dash stays where both neighbours name a definition (`length-drop`), else it becomes `_`. The names that
the checker makes in a function's Proof.antt, functions of src/, strings and exported names are left. --say prints the names and changes
nothing. It stops where two names fall together.
"""

import os
import re
import sys

OWN = ["priors", "entries", "book", "divergence", "baseline", "exports", "kit"]
WORD = re.compile(r"[A-Za-z_][A-Za-z0-9_'\u2080-\u2089-]*")
STARTS = re.compile(r"(\s*)((?:(?:abbrev|opaque|unfoldable|pub|instance)\s+)*)(record\s+|data\s+)?([A-Za-z_][^\s:(){},.=|]*)(?:\s+\{[^}]*\})*(?:\s+\([^)]*\))*\s*:(?:\s|$)")
SIGNATURE = re.compile(r"(\s*)((?:(?:abbrev|opaque|unfoldable|pub|instance)\s+)+)([A-Za-z_][^\s:(){},.=|]*)\s*$")
# definitions whose word in snake case names another thing
LIBRARY = {"in_float"}
OTHER = {
    "allLeft": "all_values_left",
    "allTold": "all_kl_told",
    "countAt": "entry_count_at",
    "countFits": "record_count_fits",
    "entriesFit": "table_entries_fit",
    "passedOver": "number_passed",
}


def files():
    for crate in OWN:
        for folder, dirs, names in os.walk(os.path.join("crates", crate)):
            dirs[:] = sorted(d for d in dirs if d != "out")
            for name in sorted(names):
                yield crate, os.path.join(folder, name)


def snake(word):
    return re.sub(r"(?<=[a-z0-9])([A-Z]+)", lambda m: "_" + m[1].lower(), word) if re.match(r"[a-z_]", word) and not re.match(r"[A-Z]", word) else word


def defined(text):
    for line in text.split("\n"):
        m = STARTS.match(line)
        if m:
            yield m[4], len(m[1])
            continue
        m = SIGNATURE.match(line)
        if m:
            yield m[3], len(m[1])


def parts(word, camel):
    out = word.split("-")
    name = snake(out[0])
    for before, after in zip(out, out[1:]):
        name += ("-" if before in camel or after in camel else "_") + snake(after)
    return name


def main(say):
    texts = {path: (crate, open(path, encoding="utf-8").read()) for crate, path in files() if path.endswith((".antt", ".rt", ".edit"))}
    words, lemmas, fields = set(), set(), set()
    for path, (crate, text) in texts.items():
        if not path.endswith(".antt") or path.endswith("/Proof.antt"):
            continue
        for name, _ in defined(text):
            if "-" in name:
                lemmas.add(name)
            else:
                words.add(name)
    turned = {w: OTHER.get(w, snake(w)) for w in words if snake(w) != w}
    taken = {turned.get(w, w): w for w in words}
    bad = [f"{old} and {taken[new]} are both {new}" for old, new in turned.items() if taken[new] != old]
    for old in sorted(lemmas):
        new = parts(old, {w for w in words if snake(w) != w})
        if new in taken or new in LIBRARY:
            new += "_lem"
        if new in taken:
            bad.append(f"{taken[new]} and {old} are both {new}")
        taken[new] = old
        if new != old:
            turned[old] = new
    for path, (crate, text) in texts.items():
        if path.endswith(".rt"):
            have = set(re.findall(r"\b([a-z_][a-z0-9_]*): ", text)) | set(re.findall(r"\blet (?:mut )?([a-z_][a-z0-9_]*)", text))
            bad += [f"{path}: a parameter would hide {new}" for old, new in sorted(turned.items()) if new in have and re.search(rf"\b{re.escape(old)}\b", text)]
    if say:
        for old, new in sorted(turned.items()):
            print(old, new)
        print("\n".join(bad), file=sys.stderr)
        return 0
    if bad:
        print("\n".join(bad), file=sys.stderr)
        return 1
    for path, (crate, text) in texts.items():
        text = turn(path, text, turned, lemmas)
        with open(path, "w", encoding="utf-8") as out:
            out.write(text)
    return 0


def turn(path, text, turned, lemmas):
    if path.endswith(".edit"):
        return "\n".join(words_in(line, turned, set()) if re.match(r"(old|new):", line) else line for line in text.split("\n"))
    if path.endswith(".rt"):
        return clauses(text, turned)
    here = {n for n, _ in defined(text) if "-" in n} if not path.endswith("/Proof.antt") else set()
    for m in re.finditer(r"use (Rattle\.(\w+)\.[^{\n]*)\.\{([^}]*)\}", text):
        if m[2] in OWN:
            here |= {w.split()[0] for w in m[3].split(",") if w.strip()}
    return "\n".join(line if not line.strip() else words_in(line, turned, here) for line in text.split("\n"))


def words_in(line, turned, here):
    def one(m):
        word = m[0]
        if word not in turned:
            return word
        if "-" in word and (word not in here or (m.start() and line[m.start() - 1] == ".")):
            return word
        return turned[word]

    return WORD.sub(one, line)


def clauses(text, turned):
    """Camel case in a .rt file: Rattle's own names never have it, so a word that was turned is a definition's."""
    out = []
    for line in text.split("\n"):
        out.append(line if '"' in line else re.sub(r"[A-Za-z_][A-Za-z0-9_]*", lambda m: turned.get(m[0], m[0]), line))
    return "\n".join(out)


if __name__ == "__main__":
    raise SystemExit(main("--say" in sys.argv[1:]))
