#!/usr/bin/env python3
"""Counts each crate's lines, functions and must-fail edits, as docs/ARCHITECTURE.md has them.

usage: python3 tools/figures.py [SECONDS]    at the top of the repository

Lines are counted that are neither blank nor comments: code in src/, definitions in specs/, proofs in proofs/; functions by their `fn`. SECONDS is a
file with a line for each crate: its name and the processor seconds of its check from nothing; with it each row has them too, and what its edits
cost at that price each.
"""
import os
import re
import sys


def files(folder, ending):
    for at, dirs, names in os.walk(folder):
        dirs[:] = [d for d in dirs if d not in ("out", "target")]
        for name in names:
            if name.endswith(ending):
                yield os.path.join(at, name)


def lines(folder, ending, comment):
    count = 0
    for path in files(folder, ending):
        for line in open(path):
            line = line.strip()
            if line and not line.startswith(comment):
                count += 1
    return count


def functions(folder):
    return sum(len(re.findall(r"^\s*(?:pub(?:\([a-z]+\))? )?(?:extern \"C\" )?fn ", open(path).read(), re.M)) for path in files(folder, ".rt"))


def crates():
    for line in open("crates.txt"):
        line = line.split("#")[0].strip()
        if line:
            yield line.split(":")[0].split()[0]


def main():
    seconds = {}
    if len(sys.argv) > 1:
        for line in open(sys.argv[1]):
            name, s = line.split()
            seconds[name] = float(s)
    total = [0] * 5
    own = edits_cost = 0.0
    for name in crates():
        at = f"crates/{name}"
        row = [
            lines(f"{at}/src", ".rt", "//"),
            lines(f"{at}/specs", ".antt", "--"),
            lines(f"{at}/proofs", ".antt", "--"),
            functions(f"{at}/src"),
            len(list(files(f"{at}/must-fail", ".edit"))),
        ]
        total = [a + b for a, b in zip(total, row)]
        more = ""
        if seconds:
            s = seconds.get(name, 0.0)
            own += s
            edits_cost += s * row[4]
            more = f" {s:.0f} | {s * row[4]:.0f} |"
        print(f"| `{name}` | " + " | ".join(map(str, row)) + " |" + more)
    print("| all | " + " | ".join(map(str, total)) + " |" + (f" {own:.0f} | {edits_cost:.0f} |" if seconds else ""))


if __name__ == "__main__":
    main()
