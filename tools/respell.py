#!/usr/bin/env python3
"""Brings the repository's own names in specs/ and proofs/ to snake case, and its facts to upper camel case.

usage: python3 tools/respell.py [COMMIT]    at the top of the repository, once, right after the kit's port.py

COMMIT is the one that port.py was run on (HEAD if left out): the names there are brought up to date in must-fail edits and pages,
which port.py does not turn. Words in strings, functions of src/ and names of libraries stay. `--list` prints the names and writes nothing.
"""
import collections
import os
import re
import subprocess
import sys

WORD = re.compile(r"[\w'◌\u00b7-]+")
DECLARED = re.compile(r"^(\s*)((?:(?:abbrev|unfoldable|pub|opaque)\s+)*)(?:(record|data|ruleset)\s+)?([^\s(){}:;,.\"=|]+)(?=\s|$)(.*)$")
KEYWORDS = set("use module where unfolding infixl infixr infix infixl mod pub record data abbrev unfoldable ruleset let in open elim rw simp omega if then else".split())
# names whose plain respelling another name has, and facts that were spelled as functions
SPECIAL = {
    "withoutCRs": "without_crs",
    "u8": "U8",
    "u16": "U16",
    "u32": "U32",
}
# facts of specs/Fits that have the names of Rust's types: in proof files alone, and where those types aren't meant
PROOF_FILES_ALONE = {"u8", "u16", "u32"}


def snake(name):
    name = re.sub(r"(?<=[a-z0-9])([A-Z]+)", lambda m: "_" + m[1].lower(), name) if name[0].islower() else name
    return name.replace("-", "_")


def camel(name):
    return "".join(p[0].upper() + p[1:] for p in re.split("[-_]", name) if p)


def walk(root, endings):
    for folder, dirs, files in os.walk(root):
        dirs[:] = sorted(d for d in dirs if d not in ("out", "target", ".git"))
        for f in sorted(files):
            if f.endswith(endings):
                yield os.path.join(folder, f)


def of_function(path):
    """Whether a file lies in proofs/F/, whose names Rattle gives."""
    parts = path.split("/")
    return "proofs" in parts and len(parts) - parts.index("proofs") > 2


def declared(text):
    """The names that a file of specs/ or proofs/ declares, in their order, each with its kind."""
    found = []
    for line in text.split("\n"):
        line = re.sub(r"\s--(\s.*)?$", "", line)
        if line.lstrip().startswith("--") or line.lstrip().startswith("use "):
            continue
        m = DECLARED.match(line)
        if not m or m[4] in KEYWORDS:
            continue
        kind, name, rest = m[3], m[4], m[5]
        if kind:
            found.append((name, kind))
        elif re.search(r"(^|\s):(\s|$)", rest) and re.match(r"^(\s*[({].*)?\s*:(\s|$)", rest):
            found.append((name, "fact" if re.search(r"(→|:)\s*(Type \d|Prop)\s*$", rest) else "def"))
    return found


def tokens_of(text):
    return {w for line in text.split("\n") for w in WORD.findall(line.split("--")[0])}


def imported(text, crates):
    """The names that a file takes from a library."""
    found = set()
    for m in re.finditer(r"(?m)^\s*(?:pub )?(?:ghost )?use\s+([^\s{;]+?)\.?\{([^}]*)\}", text):
        parts = m[1].split(".")
        if parts[0] != "Rattle" or parts[1] not in crates:
            found |= {n.strip().split(" as ")[0] for n in m[2].split(",")}
    return found


def table(root):
    """The names with their new spelling, and those that would have fallen together in a file."""
    crates = set(os.listdir(os.path.join(root, "crates")))
    kinds, files, library, specs = {}, {}, set(), set()
    for path in walk(os.path.join(root, "crates"), (".antt", ".rt")):
        text = open(path, encoding="utf-8").read()
        library |= imported(text, crates)
        if path.endswith(".antt"):
            files[path] = tokens_of(text)
            if not of_function(path):
                for name, kind in declared(text):
                    kinds.setdefault(name, kind)
                    if "/specs/" in path:
                        specs.add(name)
    new = {}
    for name, kind in kinds.items():
        if name in library and name not in PROOF_FILES_ALONE or "◌" in name:
            continue
        to = SPECIAL.get(name) or (camel(name) if kind in ("record", "data", "fact") else snake(name))
        if to != name:
            new[name] = to
    together = collections.defaultdict(list)
    for name in list(kinds) + sorted(library - set(kinds)):
        together[new.get(name, name)].append(name)
    clashes = []
    for to, names in together.items():
        if len(names) < 2 or not any(sum(n in tokens for n in names) > 1 for tokens in files.values()):
            continue
        # the definition keeps the name, and its lemma is called a lemma
        first = sorted(names, key=lambda n: (n not in library, n not in specs, "-" in n, n))[0]
        rest = [n for n in names if n != first]
        for n in rest:
            new[n] = to + "_lem"
        clashes.append((to, first, rest))
    return new, clashes


def turn(text, new, ending):
    """The text with the names turned, but in strings; a name with a dash in a comment stays where it is not in backticks."""
    comment = {".rt": "//", ".antt": "--"}.get(ending)
    proof = ending == ".antt" and "denote.Builtin" not in text
    pick = lambda w: new[w] if w in new and (proof or w not in PROOF_FILES_ALONE) else w
    out = []
    for line in text.split("\n"):
        code, said = line, ""
        if comment:
            at = re.search(r"(^|\s)" + re.escape(comment) + r"(\s|$)", line)
            if at:
                code, said = line[: at.start()], line[at.start() :]
        pieces = re.split(r'("(?:[^"\\]|\\.)*")', code) if ending in (".rt", ".antt") else [code]
        code = "".join(p if p.startswith('"') and len(p) > 1 else WORD.sub(lambda m: pick(m[0]), p) for p in pieces)
        out.append(code + in_words(said, pick))
    return "\n".join(out)


def in_words(said, pick):
    """A comment or a page: a name in backticks is turned, elsewhere only one that no word of English looks like."""
    pieces = re.split(r"(`[^`]*`)", said)
    plain = lambda m: pick(m[0]) if re.match(r"^[a-z]+[A-Z]", m[0]) and "-" not in m[0] else m[0]
    marked = lambda m: pick(m[0]) if "-" in m[0] or re.search("[a-z][A-Z]", m[0]) or "·" in m[0] else m[0]
    return "".join(WORD.sub(marked if p.startswith("`") and len(p) > 1 else plain, p) for p in pieces)


def since(root, commit, new):
    """The names at the commit, with what they are called now: a file's names stand in the same order as then."""
    then = dict(new)
    for path in walk(os.path.join(root, "crates"), (".antt",)):
        if of_function(path):
            continue
        shown = subprocess.run(["git", "show", f"{commit}:{os.path.relpath(path, root)}"], cwd=root, capture_output=True, text=True)
        if shown.returncode:
            continue
        old, now = declared(shown.stdout.replace("_", "_")), declared(open(path, encoding="utf-8").read())
        if len(old) != len(now):
            print(f"look: {path}: {len(old)} names then, {len(now)} now")
            continue
        for (a, _), (b, _) in zip(old, now):
            to = new.get(b, b)
            if a != to and "_" not in a.strip("_") and "◌" not in b:
                then.setdefault(a, to)
    return then


def main(argv):
    root = subprocess.run(["git", "rev-parse", "--show-toplevel"], capture_output=True, text=True, check=True).stdout.strip()
    listing = "--list" in argv
    commit = next((a for a in argv if not a.startswith("--")), "HEAD")
    new, clashes = table(root)
    for to, first, rest in clashes:
        print(f"look: {to} is {first}; {', '.join(rest)}: {to}_lem")
    if listing:
        print(len(new))
        return 0
    then = since(root, commit, new)
    for path in walk(os.path.join(root, "crates"), (".antt", ".rt", ".edit")):
        text = open(path, encoding="utf-8").read()
        ending = os.path.splitext(path)[1]
        if ending == ".edit":
            file = re.search(r"(?m)^file: (.*)$", text)
            kind = os.path.splitext(file[1])[1] if file else ".rt"
            lines = [turn(l, then, kind) if l.startswith(("old: ", "new: ")) else in_words(l, lambda w: then.get(w, w)) for l in text.split("\n")]
            turned = "\n".join(lines)
        else:
            turned = turn(text, new, ending)
        if turned != text:
            open(path, "w", encoding="utf-8").write(turned)
    for path in [os.path.join(root, "README.md"), *walk(os.path.join(root, "docs"), (".md",))]:
        if os.path.basename(path).startswith("PORT"):
            continue
        text = open(path, encoding="utf-8").read()
        turned = "\n".join(in_words(l, lambda w: then.get(w, w)) for l in text.split("\n"))
        if turned != text:
            open(path, "w", encoding="utf-8").write(turned)
    return 0


if __name__ == "__main__":
    raise SystemExit(main(sys.argv[1:]))
