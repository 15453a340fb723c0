"""The lines that the two programs print, and the one line of both that `stdout` holds for each scene."""

from exchange import Run
from forest import laid_within_memory
from medium import Queue, Quota, Script
from scene import Refused, read_scene

MOST_CIRCLES = 100000


def medium_of(rough):
    below = Quota(8, Queue())
    return Script(below) if rough else below


def run_lines(scene, run):
    plan = run.plan
    tally = run.tally
    yield (f"boards {scene.boards} overlap {scene.overlap} kind {scene.kind}"
           f" copies {len(plan.copies)} edges {len(plan.edges)}")
    yield " ".join(f"{name} {tally[name]}" for name in ("turns", "puts", "lost", "accepted"))
    for p in range(plan.boards):
        awaited = run.awaits(p)
        yield f"{p} settled" if awaited is None else f"{p} awaits {awaited}"
        for (board, vertex), words in zip(plan.copies, run.values):
            if board == p:
                yield f"{board} {vertex} {words[0]} {words[1]} {words[2]}"


def listing(data, rough):
    """What `halo` (or `halo-rough`) prints for these bytes."""
    try:
        scene = read_scene(data)
        plan = laid_within_memory(scene)
    except Refused as refusal:
        return f"refused {refusal.number} at {refusal.last}\n"
    run = Run(scene, plan, medium_of(rough))
    run.circles(MOST_CIRCLES)
    return "".join(line + "\n" for line in run_lines(scene, run))


def digest(text):
    total = 0
    for k, b in enumerate(text.encode()):
        total = (total + (k % 65521 + 1) * b) % 4294967296
    return total


def shortened(text):
    """A refusal's line, or the first two lines of a listing and the digest of all, on one line."""
    lines = text.splitlines()
    return ", ".join(lines[:2] + ([f"digest {digest(text)}"] if len(lines) > 1 else []))


def entry(name, data):
    return f"{name}: {shortened(listing(data, False))}; rough: {shortened(listing(data, True))}\n"
