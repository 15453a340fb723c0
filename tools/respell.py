#!/usr/bin/env python3
"""Brings the repository's own definitions and lemmas to snake case, its own facts and types to camel case.

usage: python3 tools/respell.py     at the top of a checkout, once, right after the kit's own script
It goes by text. Names of src/, of the library, of goals and of the steps that Rattle makes stay as they are.
It prints each name that changed, and names that have fallen together.
"""
import os
import re

WORD = re.compile(r"[^\s(){}\[\];,\"]+")
DASHED = re.compile(r"[^\W\d][\w']*(?:-[\w'≤<+*]+)+$")
MADE = ("Answers.antt", "Invariants.antt", "Proof.antt")
IMPORT = re.compile(r"use ([^\s;{]+)\.\{([^}]*)\}")


def texts(root):
    for folder, dirs, files in os.walk(os.path.join(root, "crates")):
        dirs[:] = sorted(d for d in dirs if d != "out")
        yield from (os.path.join(folder, f) for f in sorted(files) if f.endswith((".rt", ".antt")))


def read(path):
    with open(path, encoding="utf-8") as f:
        return f.read()


def respelt(name):
    if not DASHED.match(name):
        return name
    parts = name.replace("getD", "get_or").split("-")
    return "".join(p[:1].upper() + p[1:] for p in parts) if name[0].isupper() else "_".join(parts)


def blanked(path, text):
    """The text with comments, and a source's strings, blanked."""
    mark = r'--[^\n]*' if path.endswith(".antt") else r'//[^\n]*|b?"(?:[^"\\\n]|\\.)*"'
    return re.sub(mark, lambda m: re.sub(r"\S", " ", m[0]), text)


def foreign(code, crates):
    """What a file takes from the library, or from what Rattle makes of a function."""
    out = set()
    for path, names in IMPORT.findall(code):
        parts = path.split(".")
        own = parts[0] == "Rattle" and parts[1] in crates
        if not own or parts[-1] in ("Goals", "Given") or "declared" in parts:
            out |= set(re.split(r"[\s,]+", names))
    return out


def declared(path, code):
    """The dashed names that a file of definitions, lemmas or answers declares, but for the goals."""
    goals = set(re.findall(r"\bgoal\.([^\s(){}\[\];,]+)", code)) if path.endswith(MADE) else set()
    heads = re.findall(r"(?m)^\s*(?:(?:abbrev|unfoldable|pub|record|data|ruleset) )*([^\s(){}\[\];,.:]+)(?= .*:\s| :\s|\s*:$)", code)
    heads += re.findall(r"(?m)^(?:(?:abbrev|unfoldable|pub|record|data|ruleset) )*([^\s(){}\[\];,.:]+)(?= [({]| :)", code)
    return {h for h in heads if DASHED.match(h)} - goals


def turned(path, text, code, own, crates):
    goals = set(re.findall(r"\bgoal\.([^\s(){}\[\];,]+)", code)) if path.endswith(MADE) else set()
    keep = foreign(code, crates) | goals
    local = path.endswith(".antt")

    def word(m):
        if code[m.start()] == " ":
            return m[0]
        head, *rest = m[0].split(".")
        if head in keep or head == "goal":
            return m[0]
        new = respelt(head) if head in own or local else head
        return ".".join([new] + [respelt(p) if p in own else p for p in rest])

    return WORD.sub(word, text)


def main():
    root = "."
    crates = set(os.listdir(os.path.join(root, "crates")))
    files = {p: read(p) for p in texts(root)}
    codes = {p: blanked(p, t) for p, t in files.items()}
    own = set().union(*(declared(p, c) for p, c in codes.items() if p.endswith(".antt")))
    taken = {w for c in codes.values() for w in re.findall(r"[^\s(){}\[\];,.\"]+", c)}
    for name in sorted(own):
        print(name, "->", respelt(name), "  FALLS TOGETHER" if respelt(name) in taken else "")
    for path, text in files.items():
        new = turned(path, text, codes[path], own, crates)
        if new != text:
            with open(path, "w", encoding="utf-8") as f:
                f.write(new)


if __name__ == "__main__":
    main()
