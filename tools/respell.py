#!/usr/bin/env python3
"""Brings the names of this repository's own definitions and lemmas to today's spelling.

usage: tools/respell.py        at the top of the repository, once, after port.py

A name that specs/ or proofs/ declare with a hyphen, or under which an import brings a module, is written in snake case, and in
camel case where it begins with a capital, as types do. It is turned wherever it stands as a word of its own: in the definitions,
the proofs and the clauses. Names that Rattle makes (loop-x, in-Some), names of its library, comments, strings, and the functions
of src/ stay as they are. It stops, and writes nothing, where two names of one file would fall together.
"""
import glob
import re
import sys

WORD = r"[A-Za-z0-9_']+"
HYPHENED = re.compile(rf"(?<![\w'-]){WORD}(?:-{WORD})+(?![\w'-])")
DECLARED = re.compile(r"^\s*(?:(?:unfoldable|abbrev|pub|data|record|opaque)\s+)*([A-Za-z][\w'-]*)\s*(?:\{[^}]*\}\s*|\([^)]*\)\s*)*:(?!:)")
HEADED = re.compile(r"^(?:pub )?(?:record|data) ([A-Za-z][\w'-]*)")
ALIAS = re.compile(r"^(?:ghost |pub )*use .* as ([A-Za-z][\w'-]*)")
SKIPPED = re.compile(r'//[^\n]*|(?<![\w\'])--[^\n]*|b?"(?:\\.|[^"\\])*"')


def sources():
    return sorted(p for p in glob.glob("crates/**/*", recursive=True) if p.endswith((".antt", ".rt")) and "/out/" not in p)


def spelled(name):
    parts = name.split("-")
    if name[0].isupper():
        return "".join(p[:1].upper() + p[1:] for p in parts)
    return "_".join(parts)


def read(path):
    with open(path, encoding="utf-8") as f:
        return f.read()


def own_names():
    """The names with a hyphen that top-level declarations, fields and imports of definitions and lemmas bring."""
    names = set()
    for p in sources():
        if not re.match(r"crates/\w+/(specs|proofs)/\w+\.antt$", p):
            continue
        for line in read(p).split("\n"):
            m = ALIAS.match(line) or HEADED.match(line) or (None if re.match(r"^(pub )?(use|mod) ", line) else DECLARED.match(line))
            if m and "-" in m.group(1):
                names.add(m.group(1))
    return names


def turned(text, names):
    """The text with each name turned, but for comments and strings."""
    out, at = [], 0
    for skip in SKIPPED.finditer(text):
        out.append(HYPHENED.sub(lambda m: names.get(m.group(0), m.group(0)), text[at:skip.start()]))
        out.append(skip.group(0))
        at = skip.end()
    out.append(HYPHENED.sub(lambda m: names.get(m.group(0), m.group(0)), text[at:]))
    return "".join(out)


def stands(text, name):
    return re.search(rf"(?<![\w'-]){re.escape(name)}(?![\w'-])", text)


def both(path, text, old, new):
    """Would two names of a file be one? In a source a field of a clause may have the name of a function, as each is only read as what it is."""
    if path.endswith(".rt"):
        text = "\n".join(line for line in text.split("\n") if "ghost use" in line or re.search(rf"\b(fn|let|mut) {re.escape(new)}\b", line))
        return any(stands(line, old) for line in text.split("\n") if "ghost use" in line) and stands(text, new)
    return stands(text, old) and stands(text, new)


def main():
    names = {n: spelled(n) for n in own_names()}
    texts = {p: read(p) for p in sources()}
    clashes = [f"{p}: {old} and {new}" for p, t in texts.items() for old, new in names.items() if both(p, t, old, new)]
    if clashes:
        sys.exit("these would fall together:\n  " + "\n  ".join(clashes))
    changed = 0
    for p, t in texts.items():
        new = turned(t, names)
        if new != t:
            changed += 1
            with open(p, "w", encoding="utf-8") as f:
                f.write(new)
    for old in sorted(names):
        print(f"{old} -> {names[old]}")
    print(f"{len(names)} names, {changed} files")


main()
