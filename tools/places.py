#!/usr/bin/env python3
"""Lists the places that the design pass looks at, by point: python3 tools/places.py [POINT] [--count].

It reads crates/*/src (point 8: crates/*/proofs) of the tree in which it is run.
"""
import collections
import pathlib
import re
import sys

ROOT = pathlib.Path(__file__).resolve().parent.parent

PATTERNS = {
    # Own enums, flags and numbers in the place of kinds, sentinels, a flag or a number beside a value.
    1: r"^\s*(pub(\(crate\))? )?enum "
       r"|\b(kind|KIND): u8|fn (own_)?kind\(|-> \(usize, \w+\)"
       r"|^\s*pub(\(crate\))? \w+: bool,"
       r"|//.*(or 64|or as many as|or zeros|where there is none|or the number of boards)",
    # Loops: counted ones, and those without a head.
    3: r"^\s*(for \w+ in .*\.\.|while |loop )",
    # Conversions, orders and comparisons by hand.
    4: r"^\s*impl.* (From|TryFrom|PartialEq|PartialOrd|Ord|Display)\b.* for "
       r"|fn (number|last|place|which)\(&self\)|fn \w+_before\(|fn is_copy\("
       r"|fn (number|word|words)_at\(|fn (number|text)\(&mut self|fn used_by\(|fn code\(",
    # Fixed buffers: as fields, parameters, answers and locals.
    6: r"\[[\w:<>]+; ?\w+\]",
    # Tables and switches over kinds and fates, function pointers.
    7: r"match .*(kind|fate)|^(pub )?const \w+: \[\w+; \w+\] = \[|\bfn\(|dyn ",
}


KEPT_WORDS = "let|mut|for|in|if|else|match|return|self|Self|Some|None|Ok|Err|true|false"


def sources():
    for path in sorted(ROOT.glob("crates/*/src/**/*.rt")):
        yield path.relative_to(ROOT), path.read_text().split("\n")


def matching(pattern):
    for name, lines in sources():
        for at, line in enumerate(lines, 1):
            if re.search(pattern, line):
                yield f"{name}:{at}: {line.strip()}"


def functions():
    """Each function: its file and line, its head up to the body, its body."""
    for name, lines in sources():
        text = "\n".join(lines)
        for found in re.finditer(r"^( *)(pub(\(crate\))? )?fn (\w+)", text, re.M):
            head = re.compile(rf"^{found[1]}\{{$|\) (-> [^\n]+ )?\{{$|;$", re.M).search(text, found.end())
            if not head:
                continue
            body = "" if head[0] == ";" else text[head.end():].split(f"\n{found[1]}}}\n")[0]
            at = text.count("\n", 0, found.start()) + 1
            yield f"{name}:{at}", found[4], text[found.start():head.end()], body


def shape(body):
    body = re.sub(r"//.*", "", body)
    body = re.sub(rf"\b(?!(?:{KEPT_WORDS})\b)[A-Za-z_]\w*\b", "_", body)
    return re.sub(r"\s+", " ", re.sub(r"\b\d+\b", "#", body))


def twins():
    """Functions whose bodies are alike but for names and numbers."""
    alike = collections.defaultdict(list)
    for place, name, _head, body in functions():
        if len(re.findall(r"\S+", shape(body))) >= 4:
            alike[shape(body)].append(f"{place}: fn {name}")
    for group in alike.values():
        if len(group) > 1:
            yield "  ~  ".join(group)


def repeated():
    """Facts that three or more functions of a crate require, and three or more parameters that as many functions take."""
    facts, takes = collections.defaultdict(list), collections.defaultdict(dict)
    for place, name, head, _body in functions():
        crate = place.split("/")[1]
        for clause in re.findall(r"requires (?:\w+ )?\{(.*?)\}", head, re.S):
            for fact in re.sub(r"\s+", " ", clause).split(" × "):
                facts[crate, fact.strip(" ()")].append(name)
        signature = re.split("ensures|requires", head)[0].partition("(")[2]
        takes[crate][name] = frozenset(f"{p[0]}: {p[1]}" for p in re.findall(r"(\w+): (&?[^,()]+)", signature))
    for (crate, fact), names in sorted(facts.items()):
        if len(names) >= 3:
            yield f"{crate}: {fact}: required by {', '.join(names)}"
    for crate, by_name in takes.items():
        groups = {one & two for one in by_name.values() for two in by_name.values()}
        shared = [g for g in groups if len(g) >= 3 and sum(g <= taken for taken in by_name.values()) >= 3]
        for group in sorted((g for g in shared if not any(g < other for other in shared)), key=sorted):
            names = [name for name, taken in by_name.items() if group <= taken]
            yield f"{crate}: {', '.join(sorted(group))}: taken by {', '.join(names)}"


def answers():
    """Answers and lemmas in proofs/."""
    for path in sorted(ROOT.glob("crates/*/proofs/**/*.antt")):
        for at, line in enumerate(path.read_text().split("\n"), 1):
            if re.match(r"^(abbrev )?pub [\w'-]+ *:", line):
                yield f"{path.relative_to(ROOT)}:{at}: {line.strip()}"


def places(point):
    special = {2: twins, 5: repeated, 8: answers}
    return list(special[point]() if point in special else matching(PATTERNS[point]))


def main(words):
    points = [int(word) for word in words if word.isdigit()] or range(1, 9)
    for point in points:
        found = places(point)
        print(f"point {point}: {len(found)}")
        if "--count" not in words:
            print("\n".join("  " + place for place in found))


if __name__ == "__main__":
    main(sys.argv[1:])
