#!/usr/bin/env python3
"""Brings this repository's own names to today's spelling, once, after the kit's port.py.

usage: respell.py [--names]      at the top of the repository

port.py respells the names of the kit's library and some of the repository's. This turns the others, the definitions, lemmas, fields and
constructors of specs/ and proofs/, in the sources, the proofs and the must-fail edits: words in snake case, a hump to `_`, and a dash to `_`
but where it joins two functions (KEPT). A lemma that would get the name of a function gets `_lem`. Names from src/ keep their spelling.
--names prints the names and changes nothing.
"""

import os
import re
import sys

W = re.compile(r"[^\s(){}.;,@\"«»\[\]\\]+")
# A dash stays where it joins two functions.
KEPT = re.compile(r"^(?:length|size)-[\w-]+$|^[\w']+-(?:append|map)$")
# Names that Rattle makes, in proofs/F/.
MADE = {"invariant-loop", "decreases-loop"}
SIGNATURE = re.compile(r"^\s*(?:abbrev\s+pub|pub\s+abbrev|unfoldable\s+pub|abbrev|unfoldable|pub)?\s*((?:[^\s(){}:,.;=]+\s+)+):\s")
WORDS = {"let", "in", "record", "data", "module", "where", "pub", "abbrev", "unfoldable", "λ", "elim", "as", "use"}
KINDS = (".antt", ".rt", ".edit")


def files(kinds):
    for folder, dirs, names in os.walk("crates"):
        dirs[:] = sorted(d for d in dirs if d != "out")
        for name in sorted(names):
            if name.endswith(kinds):
                yield os.path.join(folder, name)


def read(path):
    with open(path, encoding="utf-8") as f:
        return f.read()


def own():
    found = {}
    for path in files((".antt",)):
        for line in read(path).split("\n"):
            if line.lstrip().startswith(("--", "use ", "pub use ")):
                continue
            m = SIGNATURE.match(line)
            names = m.group(1).split() if m else []
            if set(names) & WORDS:
                continue
            for n in names:
                found.setdefault(n, set()).add(path)
    return found


def snake(name):
    return re.sub(r"([a-z0-9])([A-Z])", r"\1_\2", name).lower()


def respelled(names):
    humps = {n: snake(n) for n in names if n[0].islower() and re.search(r"[a-z0-9][A-Z]", n) and "-" not in n}
    taken = set(humps.values()) | {n for n in names if "-" not in n and n not in humps}
    turned = dict(humps)
    for n in sorted(names):
        if "-" not in n or n in MADE or not re.search(r"\w", n) or not n[0].islower():
            continue
        to = "-".join(snake(p) for p in n.split("-"))
        if not KEPT.match(n):
            to = to.replace("-", "_")
            if to in taken:
                to += "_lem"
        if to != n:
            turned[n] = to
    return turned


def turn(text, names, comments=True):
    """Each token that is one of names, turned; a dashed name in a comment is left, since it may be English."""
    out = []
    for line in text.split("\n"):
        code, said = line, ""
        m = re.search(r"(?:^|\s)(--|//|#)(?:\s|$)", line)
        if m:
            code, said = line[: m.start()], line[m.start() :]
        code = W.sub(lambda t: names.get(t.group(), t.group()), code)
        said = W.sub(lambda t: names.get(t.group(), t.group()) if "-" not in t.group() else t.group(), said)
        out.append(code + said)
    return "\n".join(out)


def main():
    os.path.isdir("crates") or sys.exit("respell: no crates/ here")
    names = respelled(own())
    if "--names" in sys.argv:
        for n in sorted(names):
            print(n, names[n])
        seen = {}
        for n in names:
            seen.setdefault(names[n], []).append(n)
        for n in seen:
            if len(seen[n]) > 1:
                print("together:", n, *seen[n])
        for path in files((".antt", ".rt")):
            words = set(W.findall(read(path)))
            for n in words & set(names):
                if names[n] in words:
                    print("beside:", path, n, names[n])
        return
    for path in files(KINDS):
        text = read(path)
        new = turn(text, names)
        if new != text:
            with open(path, "w", encoding="utf-8") as f:
                f.write(new)


main()
