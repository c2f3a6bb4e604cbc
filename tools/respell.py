#!/usr/bin/env python3
"""Brings the repository's own names in specs/ and proofs/ to snake case.

usage: python3 tools/respell.py [FOLDER]     the top of a checkout; this one, if none is named

A word with hyphens becomes one with underscores wherever the repository itself declares it: a definition, a lemma, a
constructor, a field of a record or a name bound in a lemma file. Names of the library keep their spelling, and so do
functions, strings and comments. Run it once, right after the kit's port.py; a second run finds nothing to do.
"""
import re
import sys
from pathlib import Path

NAME = r"[A-Za-z_][\w']*(?:-[\w']+)+"
# `name : type`, several names before one colon, and binders `(name : type)`, `{name : type}`, `λ name.`, `let name =`
DECLARED = re.compile(rf"(?:^|[({{\s])((?:[\w'-]+\s+)*{NAME}(?:\s+[\w'-]+)*)\s+:\s", re.M)
BOUND = re.compile(rf"(?:\blet\s+|λ\s+(?:[\w'-]+\s+)*)({NAME})")


def uncommented(text):
    return "\n".join(line.split("--", 1)[0] for line in text.split("\n"))


def lemma_files(top):
    for crate in sorted((top / "crates").iterdir()):
        yield from sorted((crate / "specs").glob("**/*.antt"))
        yield from sorted((crate / "proofs").glob("*.antt"))


def own_names(top):
    names = set()
    for path in lemma_files(top):
        text = uncommented(path.read_text())
        for match in DECLARED.finditer(text):
            names.update(re.findall(rf"(?<![\w'-]){NAME}(?![\w'-])", match.group(1)))
        names.update(BOUND.findall(text))
    return names


def library_names(top):
    names = set()
    for path in sorted((top / "crates").glob("**/*")):
        if path.suffix in (".antt", ".rt") and "out" not in path.parts:
            for match in re.finditer(r"use (?:Rattle\.std|native|logic)\.[^{;\n]*\{([^}]*)\}", path.read_text()):
                names.update(re.findall(NAME, match.group(1)))
    return names


def respelled(text, names, comment):
    def turn(match):
        word = match.group(0)
        return word.replace("-", "_") if word in names else word

    word = re.compile(rf"(?<![\w'-]){NAME}(?![\w'-])")
    lines = []
    for line in text.split("\n"):
        code, mark, rest = line.partition(comment)
        lines.append(word.sub(turn, code) + mark + rest)
    return "\n".join(lines)


def main():
    top = Path(sys.argv[1] if len(sys.argv) > 1 else ".").resolve()
    names = own_names(top) - library_names(top)
    taken = {}
    for name in sorted(names):
        other = taken.setdefault(name.replace("-", "_"), name)
        if other != name:
            print(f"look: {name} and {other} fall together")
    changed = 0
    for path in sorted((top / "crates").glob("**/*")):
        if path.suffix not in (".antt", ".rt") or "out" in path.relative_to(top).parts:
            continue
        text = path.read_text()
        new = respelled(text, names, "--" if path.suffix == ".antt" else "//")
        if new != text:
            path.write_text(new)
            changed += 1
    print(f"{len(names)} names, {changed} files")


if __name__ == "__main__":
    main()
