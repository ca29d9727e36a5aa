#!/usr/bin/env python3
"""Respells this repository's own definitions and lemmas as Rattle's contracts are spelled: snake case, a prime as an apostrophe.

usage: tools/respell.py [--list]        at the top of the repository; run once, after the kit's port.py

Own names are what specs/ and proofs/ bind: definitions, fields, parameters, local names. Names of the library, names that Rattle makes
(goals, facts), functions of src/, strings and must-fail edits keep their spelling. Names that would fall together are said, and nothing is written.
"""

import os
import re
import sys

TOKEN = r"[A-Za-z_][\w'′-]*"
WORD = re.compile(r"(?<![\w'′-])" + TOKEN)
ANSWERS = ("Answers.antt", "Invariants.antt", "Proof.antt")
# Lemmas that would fall together with the function that they are about get _lem.
OTHERWISE = {
    "by-counts": "by_counts_lem",
    "by-standing": "by_standing_lem",
    "grades-passed": "grades_passed_lem",
    "in-six": "in_six_lem",
    "in_four": "in_four_lem",
    "is-lower": "is_lower_lem",
    "is-mark": "is_mark_lem",
    "is_same": "is_same_lem",
}


def files(root):
    for folder, dirs, names in os.walk(os.path.join(root, "crates")):
        dirs[:] = sorted(d for d in dirs if d not in ("out", "must-fail"))
        for name in sorted(names):
            if name.endswith((".antt", ".rt")):
                yield os.path.join(folder, name)


def code(line):
    return "" if line.lstrip().startswith("--") else line.split(" -- ")[0]


def bound(path):
    """The names that a file of specs/ or proofs/ binds."""
    names = set()
    with open(path, encoding="utf-8") as f:
        for line in map(code, f):
            if line.startswith("use ") or line.startswith("pub use "):
                continue
            head = re.match(r"(?:abbrev |unfoldable |pub |let |\s)*(%s)(?: [^:=]*)? :(?:\s|$)" % TOKEN, line)
            if head:
                names.add(head.group(1))
            head = re.match(r"\s*(?:pub |let )*(%s)[^=:]* = " % TOKEN, line)
            if head:
                names.add(head.group(1))
            for group in re.findall(r"[({]((?:%s )+):" % TOKEN, line) + re.findall(r"λ ([^.]*)\. ", line):
                names.update(re.findall(TOKEN, group))
            for name in re.findall(r"let (%s) " % TOKEN, line):
                names.add(name)
    return names


def library(paths):
    """The names that files take from the library, and the goals that answer files answer."""
    names = set()
    for path in paths:
        with open(path, encoding="utf-8") as f:
            for line in f:
                use = re.match(r"\s*(?:pub |ghost )*use (Rattle\.std|borrow|lib|denote|logic|mir|native|mathlib|Prim|specs)\.?.*\{(.*)\}", line)
                if use:
                    for name in use.group(2).split(","):
                        names.add(name.strip().split(" as ")[0].strip())
                if os.path.basename(path) in ANSWERS:
                    goal = re.match(r"(?:abbrev )?pub (\S+) : (?:.*→ )?goal\.(\S+)", line)
                    if goal:
                        names.update((goal.group(1), goal.group(2)))
    return names


def respelt(name):
    if name in OTHERWISE:
        return OTHERWISE[name]
    name = name.replace("′", "'")
    if re.match(r"[a-z]", name):
        name = re.sub(r"(?<=[a-z0-9])([A-Z])(?=[a-z0-9])", lambda m: "_" + m.group(1).lower(), name)
    return name.replace("-", "_")


def main(argv):
    root = "."
    paths = list(files(root))
    keep = library(paths)
    own = {}
    for path in paths:
        if path.endswith(".antt") and not path.endswith("Lib.antt"):
            for name in bound(path):
                own.setdefault(name, set()).add(path)
    turn = {n: respelt(n) for n in own if n not in keep and respelt(n) != n}
    clashes = []
    for path in paths:
        with open(path, encoding="utf-8") as f:
            text = "\n".join(map(code, f.read().split("\n")))
        words = set(WORD.findall(text))
        for old in sorted(words & set(turn)):
            if turn[old] in words:
                if not path.endswith(".rt") and "/words/after_first/" not in path and turn[old] not in turn:  # a function of src/ and the definition that it meets may share a name
                    clashes.append(f"{path}: {old} and {turn[old]}")
        news = {}
        for old in words & set(turn):
            news.setdefault(turn[old], set()).add(old)
        clashes += [f"{path}: {sorted(v)}" for v in news.values() if len(v) > 1]
    if "--list" in argv:
        for old in sorted(turn):
            print(old, turn[old], len(own[old]))
        print("\n".join(clashes))
        return 0
    if clashes and "--anyway" not in argv:
        print("\n".join(clashes))
        return 1
    count = 0
    for path in paths:
        with open(path, encoding="utf-8") as f:
            before = f.read()
        lines = []
        for line in before.split("\n"):
            if path.endswith(".rt"):
                parts = re.split(r'("(?:[^"\\]|\\.)*")', line)
            else:
                parts = re.split(r'((?:^|(?<= ))-- .*$|"(?:[^"\\]|\\.)*")', line)
            lines.append("".join(p if i % 2 else WORD.sub(lambda m: turn.get(m.group(0), m.group(0)), p) for i, p in enumerate(parts)))
        after = "\n".join(lines)
        if after != before:
            with open(path, "w", encoding="utf-8") as f:
                f.write(after)
            count += 1
    print(f"{len(turn)} names, {count} files")
    return 0


if __name__ == "__main__":
    raise SystemExit(main(sys.argv[1:]))
