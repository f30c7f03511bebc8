#!/usr/bin/env python3
"""Brings the repository's own definitions and lemmas to the spelling of today's Rattle.

usage: python3 tools/respell.py [FOLDER]      once, at the top of the repository, after the kit's own scripts

A name with dashes becomes snake case (own-serial: own_serial), and one that begins with a capital becomes camel case
(Octets-of-value: OctetsOfValue). Only names that this repository declares in specs/ and proofs/ change: names of the
library, names that Rattle makes (goal.loop-i-preserved, c.if-x-b), Rust code, strings and comments keep their spelling;
in README.md and docs/ what stands between backticks follows.
It prints each new name, and stops before it writes where two names would fall together.
"""

import os
import re
import sys

PART = r"[A-Za-z0-9_'\u25cc\u2115]+"
DASHED = re.compile(r"(?<![\w'\-])[A-Za-z_]" + r"[A-Za-z0-9_']*(?:-[A-Za-z0-9_']+)+(?![\w'\-])")
WORD = re.compile(r"(?<![\w'\-])[A-Za-z_][A-Za-z0-9_']*(?![\w'\-])")
# a signature, a field, a parameter of a module or a type, or a let
DECLARED = re.compile(r"^\s*(?:(?:pub|abbrev|unfoldable|record|data|mutual)\s+)*([A-Za-z_][A-Za-z0-9_']*(?:-[A-Za-z0-9_']+)+)\s*(?::|\()(?!:)", re.M)
LET = re.compile(r"(?:\blet\s+|\u03bb\s+|\()([A-Za-z_][A-Za-z0-9_']*(?:-[A-Za-z0-9_']+)+)\s*(?=[:=.])")
FIELD = re.compile(r"^\s+(?:pub\s+)?([A-Za-z_][A-Za-z0-9_']*(?:-[A-Za-z0-9_']+)+)\s*:", re.M)
HEAD = re.compile(r"(?<![\w'\-.])(c|w|l|g|goal)\.((?:[\w'\-]+\.)*)$")
GOAL = re.compile(r"^(?:abbrev\s+)?(?:pub\s+)?(\S+)\s*:\s*goal\.\1(?![\w'\-])", re.M)
FOREIGN = re.compile(r"^\s*(?:ghost )?use\s+(?!Rattle\.(?:%s)\.)\S*?\.?\{([^}]*)\}", re.M)
CLAUSE = re.compile(r"(?:requires|ensures)\*?(?:\s+\w+)?\s*\{|ghost use [^;{]*\{|ghost\s+\w+\s*[:=]\s*\{")


def texts(root, suffix):
    for folder, dirs, files in os.walk(os.path.join(root, "crates")):
        dirs[:] = sorted(d for d in dirs if d not in ("out", ".git"))
        for f in sorted(files):
            if f.endswith(suffix):
                yield os.path.join(folder, f)


def read(path):
    with open(path, encoding="utf-8") as f:
        return f.read()


def split_comments(text):
    """Pieces of an .antt file: (code or not, text)."""
    for line in text.splitlines(keepends=True):
        at = re.search(r"(?:^|\s)--(?:\s|$)", line)
        if at:
            yield True, line[:at.start()]
            yield False, line[at.start():]
        else:
            yield True, line


def clauses(text):
    """Pieces of an .rt file: (within a clause or not, text)."""
    at = 0
    for m in CLAUSE.finditer(text):
        if m.start() < at or re.search(r"//[^\n]*$", text[:m.start()].rsplit("\n", 1)[-1]):
            continue
        depth, end = 1, m.end()
        while depth and end < len(text):
            depth += {"{": 1, "}": -1}.get(text[end], 0)
            end += 1
        yield False, text[at:m.start()]
        yield True, text[m.start():end]
        at = end
    yield False, text[at:]


def spelled(name):
    if name[0].isupper():
        return "".join(p[:1].upper() + p[1:] for p in name.split("-"))
    return name.replace("-", "_")


def main(root):
    crates = sorted(os.listdir(os.path.join(root, "crates")))
    foreign = re.compile(FOREIGN.pattern % "|".join(crates), re.M)
    own, library, made, fields = set(), set(), set(), set()
    for path in list(texts(root, ".antt")) + list(texts(root, ".rt")):
        text = read(path)
        for names in foreign.findall(text):
            library |= {n.split(" as ")[-1].strip() for n in names.replace("\n", " ").split(",")}
        if path.endswith(".antt"):
            code = "".join(t for c, t in split_comments(text) if c)
            goals = set(GOAL.findall(code))
            made |= goals
            own |= (set(DECLARED.findall(code)) | set(LET.findall(code))) - goals
            if not path.endswith(("/Answers.antt", "/Invariants.antt")):
                fields |= set(FIELD.findall(code))
    names = {n: spelled(n) for n in own - library}
    used = set()
    for path in texts(root, ".antt"):
        used |= set(WORD.findall("".join(t for c, t in split_comments(read(path)) if c)))
    for path in texts(root, ".rt"):
        used |= set(WORD.findall("".join(t for c, t in clauses(read(path)) if c)))
    for n, to in sorted(names.items()):
        print(f"{n}: {to}" + ("   THERE ALREADY" if to in used else "") + ("   ALSO MADE" if n in made else ""))
    back = {}
    for n, to in names.items():
        back.setdefault(to, []).append(n)
    together = [f"{to}: {' '.join(n)}" for to, n in back.items() if len(n) > 1]
    if together:
        print("fall together: " + "; ".join(together), file=sys.stderr)
        return 1

    def turned(text):
        # in an answer, what follows c., w., l., g. or goal. has the name that Rattle gives it, and only fields further on are ours
        def keep(m):
            head = HEAD.search(text[:m.start()])
            return head and (not head.group(2) or m.group() not in fields)

        return DASHED.sub(lambda m: m.group() if keep(m) else names.get(m.group(), m.group()), text)

    for path in texts(root, ".antt"):
        text = read(path)
        new = "".join(turned(t) if c else t for c, t in split_comments(text))
        if new != text:
            with open(path, "w", encoding="utf-8") as f:
                f.write(new)
    for path in texts(root, ".rt"):
        text = read(path)
        new = "".join(turned(t) if c else t for c, t in clauses(text))
        if new != text:
            with open(path, "w", encoding="utf-8") as f:
                f.write(new)
    pages = os.path.join(root, "docs")
    for path in [os.path.join(root, "README.md")] + [os.path.join(pages, f) for f in sorted(os.listdir(pages)) if f.endswith(".md")]:
        text = read(path)
        new = re.sub(r"`[^`\n]+`", lambda m: turned(m.group()), text)
        if new != text:
            with open(path, "w", encoding="utf-8") as f:
                f.write(new)
    return 0


if __name__ == "__main__":
    raise SystemExit(main(sys.argv[1] if len(sys.argv) > 1 else "."))
