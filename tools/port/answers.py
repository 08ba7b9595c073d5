#!/usr/bin/env python3
"""Turns proofs/F/Proof.antt, which walked the code by `tie.spec`, into Invariants.antt and Answers.antt.

usage: answers.py CRATE           in the repository, the crates below CRATE proved: turns each Proof.antt of it
       answers.py CRATE F ..      those functions alone (the path of the folder below proofs/)

It moves each Proof.antt to the folder that OLD names (else proofs-old/CRATE in the folder for temporary files), writes the invariants, checks
the crate, and answers the goals that the check leaves open, by the old answers, with the old names of steps and goals turned (rt check
--generated --old-names). Of an old answer `λ c t e. ..` it keeps the first binder: the others are put back by hand.
"""

import json
import os
import re
import subprocess
import sys
import tempfile

W = r"[^\s(){}.;,@\"«»\[\]\\]+"


def run(crate, *words):
    return subprocess.run(["rt", "check", *words], cwd=os.path.join("crates", crate), capture_output=True, text=True, errors="replace")


def group(text, i):
    """The end of the atom that begins at i: a group in parentheses, or a word with its projections."""
    if text[i] == "(":
        depth = 0
        while True:
            c = text[i]
            if text.startswith("--", i) and text[i - 1] in " \n":
                i = text.index("\n", i)
                continue
            if c in "([{":
                depth += 1
            if c in ")]}":
                depth -= 1
            i += 1
            if depth == 0:
                break
        m = re.match(r"(\.[^\s(){};,]+)*", text[i:])
        return i + m.end()
    m = re.match(r"[^\s()]+", text[i:])
    return i + m.end()


def atoms(text, i):
    out = []
    while True:
        while i < len(text) and text[i].isspace():
            i += 1
        if i >= len(text) or text[i] == ")":
            return out, i
        j = group(text, i)
        out.append(text[i:j])
        i = j


DECLARES = re.compile(r"^(?:(?:pub |abbrev |unfoldable )*" + W + r" :|(?:pub )?(?:record|data|module)\b)")


def blocks(text):
    """The file's declarations, each from its signature to the next; comments go with what follows."""
    out, held, said = [], [], []
    for line in text.split("\n"):
        if line.startswith("--"):
            said.append(line)
            continue
        if DECLARES.match(line):
            out.append("\n".join(held))
            held = said + [line]
            said = []
            continue
        held += said + [line]
        said = []
    out.append("\n".join(held + said))
    return out


def declared(block):
    m = re.match(r"(?:--.*\n)*(?:pub |abbrev |unfoldable )*(" + W + r") :", block)
    return m.group(1) if m else None


class Turn:
    def __init__(self, entry):
        self.steps = {}
        for place in entry["places"]:
            old, new = place[2]
            if old:
                self.steps.setdefault(old, new)
        self.places = dict(zip([p[0] for p in entry["places"]], entry["places_by_name"]))

    def text(self, t):
        t = re.sub(r"\(tie\.(" + W + r")((?: invariant-loop\d* decreases-loop\d*)+)\)", lambda m: "goal." + self.places.get(m[1], m[1]), t)
        t = re.sub(r"tie\.(" + W + r")((?: invariant-loop\d* decreases-loop\d*)*)", lambda m: "goal." + self.places.get(m[1], m[1]), t)
        t = re.sub(r"(?:\.before)+(?=\.)", "", t)
        t = re.sub(r"\.(" + W + r")", lambda m: "." + self.steps.get(m[1], m[1]), t)
        return t


def branches(t):
    """Cases on how a branch came, once an `either`, by its two arms: ⊎_elim (λ w. A) (λ w. B) c.if-x.branch."""
    made, i = set(), 0
    while True:
        i = t.find("⊎_elim", i)
        if i < 0:
            return t.rstrip("\n") + "\n", made
        parts, j = atoms(t, i + len("⊎_elim"))
        last = re.search(r"\.if-(" + W + r")\.branch$", parts[2]) if len(parts) >= 3 else None
        arms = [re.match(r"^\(λ (\S+?)\.\s(.*)\)$", p, re.S) for p in parts[:2]]
        if last and len(parts) == 3:
            said = []
            for word, arm, part in zip(("then", "else"), arms, parts):
                made.add(f"{word}-{last[1]}")
                said.append(f"{word}-{last[1]} {arm[1]} ↦ {arm[2]}" if arm else f"{word}-{last[1]} w ↦ {part} w")
            t = t[:i] + f"elim ({parts[2]}) [ " + " | ".join(said) + " ]" + t[j:]
        i += 1


def param_map(entry, k, names):
    """From the old parameters of loop k's invariant to the fields of l."""
    vars_, changed = entry["loops"][k][1], entry["changed"][k]
    want = len(vars_) + sum(changed)
    if len(names) != want:
        return None
    out = {}
    for n, v, c in zip(names, vars_, changed):
        out[n] = f"l.initial.{v}" if c else f"l.{v}"
    for n, v in zip(names[len(vars_) :], [v for v, c in zip(vars_, changed) if c]):
        out[n] = f"l.{v}"
    return out


def subst(body, names):
    return re.sub(r"(?<![\w'.-])(" + W + r")", lambda m: names.get(m[1], m[1]), body)


def main():
    crate, only = sys.argv[1], sys.argv[2:]
    top = os.path.join("crates", crate, "proofs")
    made = tempfile.mkdtemp()
    r = run(crate, "--generated", made, "--old-names")
    path = os.path.join(made, "names.json")
    if not os.path.exists(path):
        print(r.stdout[-3000:], r.stderr[-3000:])
        sys.exit("answers: no names.json")
    table = json.load(open(path, encoding="utf-8"))
    old = {}
    keep = os.environ.get("OLD") or os.path.join(tempfile.gettempdir(), "proofs-old", crate)
    for folder, dirs, names in os.walk(top):
        f = os.path.relpath(folder, top)
        if "Proof.antt" in names and (not only or f in only):
            old[f] = open(os.path.join(folder, "Proof.antt"), encoding="utf-8").read()
            to = os.path.join(keep, f)
            os.makedirs(to, exist_ok=True)
            os.replace(os.path.join(folder, "Proof.antt"), os.path.join(to, "Proof.antt"))
    for f in only:
        if f not in old:
            old[f] = open(os.path.join(keep, f, "Proof.antt"), encoding="utf-8").read()
    answers = {}
    for f, text in old.items():
        key = f"Rattle-{crate}-proofs." + f.replace("/", ".") + ".Lts"
        entry = table.get(key)
        if entry is None:
            print("no names for", key)
            continue
        answers[f] = turned(crate, f, text, entry)
    r = run(crate)
    said = r.stdout + r.stderr
    open(os.path.join(tempfile.gettempdir(), f"answers-{crate}.log"), "w").write(said)
    open_goals = {}
    for m in re.finditer(r"^fn (\S+?): no proof: (.*)$", said, re.M):
        open_goals[m[1]] = re.findall(r"`([^`]+)`", m[2].split("did not prove", 1)[1]) if "did not prove" in m[2] else None
    for f, (head, helpers, goals) in answers.items():
        fn = crate + "::" + f.replace("/", "::")
        if fn not in open_goals:
            print("proved alone:", f)
            continue
        wanted = open_goals[fn]
        if wanted is None:
            print("look:", fn)
            wanted = list(goals)
        body, used = [], ""
        for g in wanted:
            base = g.split("-clause-")[0]
            if g in goals:
                used += goals[g]
                body.append(goals[g])
            elif base in goals and goals[base] not in body:
                body.append(goals[base])
            elif base not in goals:
                print("no old answer:", f, g)
        out = head + "".join(b + "\n" for b in helpers) + "\n".join(body)
        write(os.path.join(top, f, "Answers.antt"), out)
        print("answers:", f, *wanted)


def write(path, text):
    os.makedirs(os.path.dirname(path), exist_ok=True)
    with open(path, "w", encoding="utf-8") as h:
        h.write(re.sub(r"\n{3,}", "\n\n", text).strip("\n") + "\n")


def turned(crate, f, text, entry):
    turn = Turn(entry)
    dotted = f"Rattle.{crate}.proofs." + f.replace("/", ".")
    lines = text.split("\n")
    uses = [l for l in lines if l.startswith("use ") and ".Statement." not in l and not l.endswith(".Tie as tie")]
    comment = []
    for l in lines:
        if not l.startswith("--"):
            break
        comment.append(l)
    rest = "\n".join(l for l in lines[len(comment) :] if not l.startswith("use "))
    spec = None
    helpers, invariants, needs = [], [], {}
    for b in blocks(rest):
        name = declared(b)
        if not name:
            if b.strip():
                helpers.append(b)
            continue
        if "statement M" in b.split("\n")[0] or re.search(r"→ statement M", b):
            spec = b
            continue
        if re.search(r"abbrev (?:pub )?(invariant|decreases)-loop", b):
            invariants.append(b)
            continue
        m = re.search(r"^(" + re.escape(name) + r") : tie\.(?:Need-)(\S+)", b, re.M)
        if m:
            needs[name] = (m[2], b)
            continue
        helpers.append(b)
    unfold = re.search(r"^unfolding (.*)$", spec, re.M)
    at = spec.index("tie.spec") + len("tie.spec")
    args, _ = atoms(spec, at)
    inv_args = [a for a in args if re.fullmatch(r"(invariant|decreases)-loop\d*", a)]
    args = [a for a in args if a not in inv_args]
    goals = {}
    if len(args) != len(entry["needs"]):
        print(f"count: {f}: {len(args)} answers, {len(entry['needs'])} goals {[n[1] for n in entry['needs']]}")
    for (o, n), a in zip(entry["needs"], args):
        if a in needs:
            b = needs[a][1]
            b = re.sub(r"^(pub )?" + re.escape(a) + r" : tie\.Need-.*$", f"pub {n} : goal.{n}", b, flags=re.M)
            b = re.sub(r"^" + re.escape(a) + r" ", f"{n} ", b, flags=re.M)
            goals[n] = turn.text(b).strip("\n") + "\n"
            continue
        m = re.match(r"^\(λ (\S+?)((?: \S+?)*)\.\s(.*)\)$", a, re.S)
        u = f"\nunfolding {unfold[1]}" if unfold else ""
        if m:
            body = turn.text(m[3])
            body = body.strip() if "\n" not in body.strip() else "\n" + body.strip("\n")
            goals[n] = f"pub {n} : goal.{n}{u}\n{n} {m[1]} =" + (" " if body[0] != "\n" else "") + (body if body[0] != "\n" else "\n    " + body.strip()) + "\n"
        else:
            goals[n] = f"pub {n} : goal.{n}{u}\n{n} c = {turn.text(a)} c\n"
    if invariants:
        out = comment + [u for u in uses] + [f"use {dotted}.Given as goal", ""]
        for b in invariants:
            m = re.match(r"((?:--.*\n)*)abbrev (?:pub )?((invariant|decreases)-loop(\d*)) : .*\n(unfolding .*\n)?\2 (.*?) =(.*)$", b, re.S)
            if not m:
                out.append("-- hand: " + b)
                continue
            k = int(m[4]) - 1 if m[4] else 0
            new = entry["loops"][k][0][1]
            names = param_map(entry, k, m[6].split())
            if names is None:
                print("params:", f, m[6], entry["loops"][k], entry["changed"][k])
                names = {}
            out.append(f"{m[1]}abbrev pub {m[3]}-{new} : goal.{m[3]}-{new}\n{m[5] or ''}{m[3]}-{new} l ={subst(m[7], names)}")
        write(os.path.join("crates", crate, "proofs", f, "Invariants.antt"), "\n".join(out))
    head = "".join(c + "\n" for c in comment) if not invariants else ""
    head += "".join(u + "\n" for u in uses) + f"use {dotted}.Goals as goal\n\n"
    helpers = [turn.text(h).strip("\n") + "\n" for h in helpers]
    arms = set()
    for k, h in enumerate(helpers):
        helpers[k], made = branches(h)
        arms |= made
    for g in goals:
        goals[g], made = branches(goals[g])
        arms |= made
    if arms:
        head = head[:-1] + f"use {dotted}.Goals.{{" + ", ".join(sorted(arms, reverse=True)) + "}\n\n"
    return head, helpers, goals


main()
