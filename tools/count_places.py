#!/usr/bin/env python3
"""Counts the places in src/ that docs/DESIGN-PASS.md speaks of; with --list it names them.

usage: python3 tools/count_places.py [--list] [POINT..]      (POINT: 1 to 8)

It reads text and knows no types: each row is a place to look at, and what was found of it stands in the page.
"""
import collections
import glob
import re
import sys

KEYWORDS = set("as bool break const continue else enum ensures false fn for ghost if impl in let loop match mod mut pub ref "
               "requires return self Self struct trait true type use where while Some None Ok Err Option Result Vec "
               "u8 u16 u32 u64 usize".split())


def without_comments(text):
    return re.sub(r"//[^\n]*", lambda m: " " * len(m.group()), text)


def closing(text, at):
    """The place behind the bracket that closes the one at `at`."""
    depth = 0
    for i in range(at, len(text)):
        if text[i] == "{":
            depth += 1
        elif text[i] == "}":
            depth -= 1
            if depth == 0:
                return i + 1
    return len(text)


class Function:
    def __init__(self, path, text, start):
        self.path, self.line = path, text.count("\n", 0, start) + 1
        self.name = re.match(r"fn (\w+)", text[start:]).group(1)
        paren = text.index("(", start)
        depth, end = 0, paren
        while True:
            depth += {"(": 1, ")": -1}.get(text[end], 0)
            end += 1
            if depth == 0:
                break
        self.parameters = [p.strip() for p in re.split(r",(?![^<(\[]*[>)\]])", text[paren + 1:end - 1]) if p.strip()]
        self.clauses, self.answer, self.body = [], "", ""
        at = end
        while at < len(text) and text[at] not in "{;":
            clause = re.match(r"(requires|ensures)\*?\s*(\w*)\s*", text[at:])
            if clause:
                brace = text.index("{", at)
                stop = closing(text, brace)
                self.clauses.append((clause.group(1), " ".join(text[brace + 1:stop - 1].split())))
                at = stop
                while at < len(text) and text[at].isspace():
                    at += 1
                continue
            self.answer += text[at]
            at += 1
        self.answer = " ".join(self.answer.split())
        if at < len(text) and text[at] == "{":
            self.body = text[at:closing(text, at)]

    def place(self):
        return f"{self.path}:{self.line} {self.name}"


def shape(body):
    """The body with all names and literals alike: twins have one shape."""
    body = re.sub(r'b?"[^"]*"|b?\'.\'|\b[\d_]+\b', "0", body)
    return re.sub(r"\b[A-Za-z_]\w*\b", lambda m: m.group() if m.group() in KEYWORDS else "x", "".join(body.split(" ")))


def sources():
    for path in sorted(glob.glob("crates/*/src/**/*.rt", recursive=True)):
        yield path, without_comments(open(path).read())


def lines(pattern):
    for path, text in sources():
        for found in re.finditer(pattern, text, re.M):
            yield f"{path}:{text.count(chr(10), 0, found.start()) + 1} {' '.join(found.group().split())}"


def functions():
    for path, text in sources():
        for found in re.finditer(r"\bfn \w+", text):
            yield Function(path, text, found.start())


def answers():
    all_of_them = list(functions())
    rows = {
        "a call that changes something and answers a bool": [f.place() for f in all_of_them if f.answer == "-> bool" and any("&mut" in p for p in f.parameters)],
        "an error in an Option, or a bool inside a Result": [f.place() for f in all_of_them if re.search(r"Option<\w*Refusal>|Result<bool", f.answer)],
        "a bool field beside others": list(lines(r"^\s+(pub(\(crate\))? )?\w+: bool,")),
        "an enum of the shape of Option": [],
        "a refusal turned into its number or detail": [f.place() for f in all_of_them if f.name in ("number", "detail") and "Refusal" in f.body],
    }
    for path, text in sources():
        for found in re.finditer(r"enum (\w+)[^{]*\{", text):
            variants = [v for v in re.split(r",\s*(?![^({]*[)}])", text[found.end():closing(text, found.end() - 1) - 1]) if v.strip()]
            if len(variants) == 2 and sorted("(" in v for v in variants) == [False, True]:
                rows["an enum of the shape of Option"].append(f"{path}:{text.count(chr(10), 0, found.start()) + 1} {found.group(1)}")
    return rows


def twins():
    groups = collections.defaultdict(list)
    for f in functions():
        if len(f.body) > 40:
            groups[shape(f.body)].append(f.place())
    for path, text in sources():
        for found in re.finditer(r"\b(struct|enum) \w+[^;{]*\{", text):
            body = text[found.end() - 1:closing(text, found.end() - 1)]
            groups["type " + shape(body)].append(f"{path}:{text.count(chr(10), 0, found.start()) + 1} {found.group().split()[1]}")
    constants = collections.defaultdict(list)
    for row in lines(r"^(pub(\(crate\))? )?const \w+: \w+ = [\d_x]+;"):
        constants[re.search(r"= ([\d_x]+);", row).group(1).replace("_", "")].append(row)
    return {
        "functions or types of one shape": [" ~ ".join(g) for g in groups.values() if len(g) > 1],
        "constants of one value": [" ~ ".join(g) for g in constants.values() if len(g) > 1],
    }


def loops():
    return {
        "a while that counts": list(lines(r"while [^\n]*[<>][^\n]*\{")),
        "a for over indexes": list(lines(r"for \w+ in 0\.\.[^\n]*\{")),
    }


def by_hand():
    return {
        "a match that only hands a None on": list(lines(r"None => (None|\{\}|return None)")),
        "a cast that only widens": list(lines(r"\w[\w.()]* as (usize|u64)\b")),
        "a named conversion or comparison": [f.place() for f in functions() if re.match(r"(is_same|same|of_\w+|from_\w+|to_\w+)$", f.name)],
        "a for that only finds, counts or tests": list(lines(r"for [^\n]* in [^\n]*\{\s*if [^\n]*\{\s*return (true|false|Some\([^\n]*\)|i|Err\([^\n]*\));\s*\}\s*\}")),
    }


def together():
    clauses, pairs = collections.defaultdict(set), collections.defaultdict(set)
    for f in functions():
        for kind, text in f.clauses:
            clauses[text].add(f.place())
        kept = [p for p in f.parameters if ":" in p]
        for a, b in zip(kept, kept[1:]):
            pairs[f"{a}, {b}"].add(f.place())
    return {
        "a clause of three functions or more": [f"{t}: {', '.join(sorted(s))}" for t, s in clauses.items() if len(s) > 2],
        "two parameters of three functions or more": [f"{t}: {', '.join(sorted(s))}" for t, s in pairs.items() if len(s) > 2],
        "a fact of a type that bounds a list's room": list(lines(r"ghost \w+: \{ [^\n]*vec_capacity[^\n]*\}")),
    }


def buffers():
    rows = {"a struct with two lists or more": [], "a buffer and how much of it is filled": list(lines(r"let mut \w+ = \[0\w*; ?[A-Z]\w*\];"))}
    for path, text in sources():
        for found in re.finditer(r"struct (\w+)[^;{]*\{", text):
            body = text[found.end():closing(text, found.end() - 1)]
            if len(re.findall(r"Vec<|Reserved<|\[\w+; ", body)) > 1:
                rows["a struct with two lists or more"].append(f"{path}:{text.count(chr(10), 0, found.start()) + 1} {found.group(1)}")
    rows["an index worked out from two others"] = list(lines(r"\[[^\]\n]*\*[^\]\n]*\+[^\]\n]*\]"))
    return rows


def steps():
    return {"a match on which step to run": list(lines(r"match (stage|step|kind|mode|choice|request)\b")), "a table of functions": list(lines(r"\bdyn \w+|: fn\(|\[fn\("))}


def proofs():
    rows = {}
    for crate in sorted(glob.glob("crates/*/proofs")):
        files = glob.glob(crate + "/**/Answers.antt", recursive=True)
        texts = [open(f).read() for f in files]
        rows[f"{crate}: files of answers, answers, lines of all proofs"] = [
            str(len(files)), str(sum(len(re.findall(r"^pub ", t, re.M)) for t in texts)),
            str(sum(open(f).read().count("\n") for f in glob.glob(crate + "/**/*.antt", recursive=True)))]
    return rows


def main():
    points = [answers, twins, loops, by_hand, together, buffers, steps, proofs]
    wanted = [int(a) for a in sys.argv[1:] if a.isdigit()] or range(1, 9)
    for number in wanted:
        for what, rows in points[number - 1]().items():
            if number == 8:
                print(f"8  {what}: {' '.join(rows)}")
                continue
            print(f"{number}  {what}: {len(rows)}")
            if "--list" in sys.argv:
                for row in rows:
                    print("     " + row)


main()
