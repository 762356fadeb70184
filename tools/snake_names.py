#!/usr/bin/env python3
"""Spells the repository's own definitions and lemmas as today's Rattle does.

usage: python3 tools/snake_names.py [--list]      at the top of the repository

A name with dashes becomes one in snake case, one that begins with a capital letter one in upper camel case.
Only names that a file of specs/ or proofs/ defines (a definition, a lemma, a field, a constructor) are turned, in
.antt files and in the clauses of .rt files; what Rattle makes (goals, steps, arms) keeps its name. Comments are
turned with the rest, so that they still name what they speak of. Prints names that would fall together, and then writes nothing.
"""
import collections
import os
import re
import sys

MADE = ("Answers.antt", "Invariants.antt", "Choices.antt", "Proof.antt")
WORD = re.compile(r"(?<![\w'\-])[A-Za-z][\w']*(?:-[\w']+)+(?![\w'\-])|(?<![\w'\-])first_of(?![\w'\-])")
DEFINED = re.compile(r"^\s*(?:abbrev\s+|unfoldable\s+)?(?:pub\s+)?(?:data\s+|record\s+)?([A-Za-z][\w'\-]*)\s*((?:\([^\n]*?\)\s*|\{[^\n]*?\}\s*)*):", re.M)
# a lemma that has the name of a tactic since the hyphens went
ODD = {"first_of": "first_from"}
# where the plain spelling is another name's: the record that a theorem says holds of everything
APART = {n: "".join(w[:1].upper() + w[1:] for w in n.split("-")) + "Always" for n in ("Order-makes-no-difference", "Nothing-lost", "Paths-agree", "Walk-stands", "New-stands")}


def files():
    for folder, dirs, names in os.walk("crates"):
        dirs[:] = sorted(d for d in dirs if d != "out")
        for n in sorted(names):
            if n.endswith((".antt", ".rt")):
                yield os.path.join(folder, n)


def spelled(name):
    if name in ODD:
        return ODD[name]
    if name in APART:
        return APART[name]
    if name[0].isupper() and not re.match(r"[A-Z]\w*-(?:push|insert|append)", name):
        return "".join(p[:1].upper() + p[1:] for p in name.split("-"))
    return name.replace("-", "_")


def main():
    texts = {p: open(p, encoding="utf-8").read() for p in files()}
    own = set()
    for p, t in texts.items():
        if not p.endswith(".antt"):
            continue
        for m in DEFINED.finditer(t):
            name = m.group(1)
            line = t[m.start() : t.find("\n", m.end())]
            if os.path.basename(p) in MADE and re.search(r":\s*goal\.", line):
                continue
            if "-" in name or (name == "first_of" and "/ledger/" in p):
                own.add(name)
    turn = {n: spelled(n) for n in own}
    if "--list" in sys.argv:
        for n in sorted(turn):
            print(n, turn[n])
    bad = False
    back = collections.defaultdict(list)
    for n, s in turn.items():
        back[s].append(n)
    for s, ns in back.items():
        if len(ns) > 1:
            print("fall together:", s, ns)
            bad = True
    for p, t in texts.items():
        # a function of src/ may have the name of the definition that says what it answers
        for n in own if p.endswith(".antt") else ():
            if turn[n] != n and re.search(r"(?<![\w'\-.])" + re.escape(n) + r"(?![\w'\-])", t) and re.search(r"(?<![\w'\-.])" + re.escape(turn[n]) + r"(?![\w'\-])", t):
                where = [t.count("\n", 0, m.start()) + 1 for m in re.finditer(r"(?<![\w'\-.])" + re.escape(turn[n]) + r"(?![\w'\-])", t)]
                print("stands already:", p, n, turn[n], where[:5])
                bad = True
    if bad or "--list" in sys.argv:
        return 1

    def put(m, p):
        n = m.group(0)
        if n not in turn or (n == "first_of" and "/ledger/" not in p):
            return n
        before = m.string[max(0, m.start() - 200) : m.start()]
        # what Rattle made: below the record of a goal's facts or of a loop, and the goals themselves
        if os.path.basename(p) in MADE and re.search(r"(?:^|[^\w'\-.])(?:goal|c|l|g|a|b|t)\.(?:[\w'\-]+\.)*$", before) and n.split("-")[0] in ("in", "loop", "returns", "at", "before"):
            return n
        return turn[n]

    n = 0
    for p, t in texts.items():
        new = WORD.sub(lambda m: put(m, p), t)
        if new != t:
            open(p, "w", encoding="utf-8").write(new)
            n += 1
    print(f"{len(turn)} names, {n} files")
    return 0


if __name__ == "__main__":
    raise SystemExit(main())
