"""Prints what became of planted bugs."""

import re
from collections import Counter

from planting.edits import KINDS
from planting.trying import HARMLESS, NAMES, PROOF, VERDICTS


SHORT = re.compile(r" (?:at|by) (?:a|its program's) ")


def squeezed(text, width=150):
    words = " ".join(text.split())
    return words if len(words) <= width else f"{words[: width - 2]}.."


def old_and_new(edit, text):
    """The lines that an edit changes, before and after."""
    first = text.rfind("\n", 0, edit.start) + 1
    last = text.find("\n", edit.end)
    old = text[first:last]
    new = text[first : edit.start] + edit.new + text[edit.end : last]
    return squeezed(old), squeezed(new) or "(left out)"


def show_edit(edit, text):
    old, new = old_and_new(edit, text)
    print(f"{edit.id}  {edit.file}:{edit.line}  {edit.function}  {edit.kind}")
    print(f"    - {old}")
    print(f"    + {new}")


def show_trial(trial, text):
    show_edit(trial.edit, text)
    reason = f": {trial.says}" if trial.verdict == HARMLESS else ""
    print(f"    {trial.verdict}{reason}, {trial.seconds:.0f} s")
    if trial.lacking:
        nor = "nor is it proved " if trial.verdict == NAMES else ""
        print(f"    {nor}without the proof files of {trial.lacking}")
    if trial.says and not reason:
        print(f"    {trial.place}{': ' if trial.place else ''}{squeezed(trial.says, 300)}")
    if trial.facts:
        shown = len(trial.shown_false)
        print(f"    facts in src: {shown} shown false, {len(trial.facts) - shown} not proved")
    if trial.verdict in (PROOF, NAMES):
        for place, says in trial.facts[:4]:
            print(f"        {place}: {squeezed(says, 200)}")
    print(flush=True)


def show_table(head, rows, trials, key):
    """How many of each verdict, by crate or by kind."""
    counts = Counter((key(it), it.verdict) for it in trials)
    rows = [it for it in rows if any((it, verdict) in counts for verdict in VERDICTS)]
    names = [it for it in VERDICTS if any((row, it) in counts for row in rows)]
    short = [SHORT.sub(": ", it) for it in names]
    width = max([len(head), *map(len, rows)])
    print(f"{head:{width}}  {'bugs':>5}  " + "  ".join(short))
    for row in [*rows, "all"]:
        of_row = [counts[row, it] for it in names]
        if row == "all":
            of_row = [sum(counts[it, name] for it in rows) for name in names]
        cells = "  ".join(f"{n:>{len(it)}}" for n, it in zip(of_row, short))
        print(f"{row:{width}}  {sum(of_row):>5}  {cells}")
    print()


def show_ids(text, trials):
    if trials:
        print(f"{text}: {len(trials)}")
        print("".join(f"    {it.edit.id}\n" for it in trials), end="")


def show_end(trials, crates, thrown, seconds):
    show_table("crate", crates, trials, lambda it: it.edit.crate)
    show_table("kind", list(KINDS), trials, lambda it: it.edit.kind)
    if thrown:
        print(f"edits that did not compile, and were drawn again: {len(thrown)}")
        for it in thrown:
            print(f"    {it.edit.id}  {it.place}: {squeezed(it.says, 120)}")
    facts = sum(len(it.facts) for it in trials)
    shown = sum(len(it.shown_false) for it in trials)
    print(f"facts in src: {shown} shown false by values, {facts - shown} not proved by the search")
    alone = [it for it in trials if it.verdict == PROOF and not it.facts]
    show_ids("refused at a proof file alone, with no fact in src besides", alone)
    by_name = [it for it in trials if it.verdict == NAMES]
    show_ids("refused only since a proof names what the edit took away", by_name)
    print(f"{seconds / 60:.0f} min")
