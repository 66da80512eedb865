#!/usr/bin/env python3
"""Respells the repository's own names of specs/ and proofs/: words in snake case, types in camel case.

usage: python3 tools/spell_names.py    at the top, once, after the toolchain's own script and before any edit by hand

A name is own where a file of specs/ or proofs/ writes it with a dash and no library that is imported has it.
Names that the checker makes (goals, steps, arms) stand in Answers.antt and Invariants.antt alone, and are left.
A dash before an operator stays, as in joined-++: it joins two names there.
In must-fail edits and pages a name that the toolchain's script has respelled in specs/ and proofs/ already follows it.
"""

import os
import re
import sys

PART = r"[\w'₀-₉ℕ]"
NAME = re.compile(r"(?<![\w'₀-₉-])[A-Za-z]" + PART + r"*(?:-" + PART + r"+)+(?![\w'₀-₉◌≡≢≤+*-])")
USE = re.compile(r"use ([\w.+'\-]+?)\.\{([^}]*)\}")
MADE = ("Answers.antt", "Invariants.antt", "Choices.antt", "Proof.antt")


def texts(endings):
    for folder, dirs, files in sorted(os.walk("crates")):
        dirs[:] = sorted(d for d in dirs if d != "out")
        for f in sorted(files):
            if f.endswith(endings):
                yield os.path.join(folder, f)


def read(path):
    with open(path, encoding="utf-8") as f:
        return f.read()


def bare(text):
    return re.sub(r"--.*", "", text)


# A type whose plain camel case is a variant's name in the code.
TAKEN = {"Out-of-order": "IsOutOfOrder"}


def respelled(name):
    if name in TAKEN:
        return TAKEN[name]
    if name[0].isupper():
        return "".join(p[0].upper() + p[1:] for p in name.split("-"))
    return name.replace("-", "_")


def own_names():
    foreign, here = set(), set()
    for path in texts(".antt"):
        text = read(path)
        for module, names in USE.findall(text):
            parts = module.split(".")
            if not (parts[0] == "Rattle" and os.path.isdir(os.path.join("crates", parts[1]))):
                for n in names.split(","):
                    foreign.update(n.strip().split(" as "))
        if os.path.basename(path) not in MADE:
            here.update(NAME.findall(bare(text)))
            continue
        # of these files, what they declare themselves and no goal
        for n, rest in re.findall(r"(?:^|\blet |[({])\s*(?:pub )?((?:[A-Za-z][\w'-]*)) : (\S*)", bare(text), re.M):
            if "-" in n and not rest.startswith("goal") and NAME.fullmatch(n):
                here.add(n)
        for n in re.findall(r"\blet ([A-Za-z][\w'-]*) =", bare(text)):
            if "-" in n and NAME.fullmatch(n):
                here.add(n)
    return here - foreign


def main():
    names = own_names()
    turn = {n: respelled(n) for n in names}
    told = 0
    spoken = set()
    for path in texts((".antt", ".rt")):
        spoken.update(re.findall(PART + r"+", NAME.sub(lambda m: turn.get(m.group(0), m.group(0)), read(path))))
    for path in list(texts((".antt", ".rt", ".edit"))) + [os.path.join("docs", f) for f in sorted(os.listdir("docs"))] + ["README.md"]:
        if os.path.basename(path) in ("PORT.md", "PORTING-LEFT.md"):
            continue
        text = read(path)
        before = set(re.findall(PART + r"+(?:-" + PART + r"+)*", bare(text) if path.endswith(".antt") else text))

        def at(m):
            return turn.get(m.group(0), m.group(0))

        def follow(m):
            name = m.group(0)
            return turn.get(name, respelled(name) if respelled(name) in spoken else name)

        if path.endswith(".md"):
            new = re.sub(r"`[^`\n]*`", lambda q: NAME.sub(follow, q.group(0)), text)
        elif path.endswith(".rt"):
            new = re.sub(r"(?m)^.*$", lambda line: line.group(0) if line.group(0).lstrip().startswith("//") or '"' in line.group(0) else NAME.sub(at, line.group(0)), text)
        else:
            new = NAME.sub(follow if path.endswith(".edit") else at, text)
        for n in sorted(before):
            if n in turn and turn[n] in before and path.endswith((".antt", ".rt")):
                print(f"fall together: {path}: {n} and {turn[n]}")
                told += 1
        if new != text:
            with open(path, "w", encoding="utf-8") as f:
                f.write(new)
    print(f"{len(turn)} names respelled, {told} that fall together")
    return 0


sys.exit(main())
