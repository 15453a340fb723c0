"""Bugs that survive and are known to be harmless."""

import re
from pathlib import Path

from planting.telling import old_and_new

TABLE = Path(__file__).with_name("harmless.txt")


def key_of(edit, text):
    return (edit.crate, edit.function, *old_and_new(edit, text))


def read_harmless():
    """By crate, function and a line before and after: why the bug is harmless."""
    reasons = {}
    for block in re.split(r"\n\s*\n", TABLE.read_text(encoding="utf-8")):
        lines = [it.strip() for it in block.splitlines() if it.strip() and it[0] != "#"]
        if lines:
            old = [it[2:] for it in lines if it.startswith("- ")]
            new = [it[2:] for it in lines if it.startswith("+ ")]
            for pair in zip(old, new, strict=True):
                reasons[(*lines[0].split(), *pair)] = lines[-1]
    return reasons
