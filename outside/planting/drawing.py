"""Draws bugs by a seed: one at least in each crate, the rest by amount of code, of all kinds."""

import random

from planting.edits import KINDS

ALTERNATES = 9  # for each bug, in case it does not compile


def sizes_of(sources):
    """How many lines of code that runs each crate has."""
    sizes = {}
    for source in sources:
        spans = [it.body for it in source.functions if it.body]
        spans += [it.value for it in source.constants]
        tokens = [source.tokens[i] for first, last in spans for i in range(first, last)]
        lines = {source.line_of(it.at) for it in tokens}
        if lines:
            sizes[source.crate] = sizes.get(source.crate, 0) + len(lines)
    return sizes


def shares(sizes, bugs, room):
    """How many bugs each crate gets: one, then by size, and no more than it has lines for."""
    given = dict.fromkeys(sizes, 1)
    while sum(given.values()) < bugs:
        open_ones = [it for it in sizes if given[it] < room[it]]
        if not open_ones:
            break
        given[max(open_ones, key=lambda it: sizes[it] / given[it])] += 1
    return given


def pools_of(edits, dice):
    """For each crate and kind its edits in a drawn order, one for each line."""
    grouped = {}
    for edit in edits:
        lines = grouped.setdefault((edit.crate, edit.kind), {})
        lines.setdefault((edit.path, edit.line), []).append(edit)
    pools = {}
    for (crate, kind), lines in sorted(grouped.items()):
        chosen = [dice.choice(lines[it]) for it in sorted(lines)]
        dice.shuffle(chosen)
        pools.setdefault(crate, {})[kind] = chosen
    return pools


def kinds_of_slots(given, pools, dice):
    """A kind for each bug, so that the kinds come out even; the crates with least choice first."""
    counts, slots = dict.fromkeys(KINDS, 0), []
    for crate in sorted(given, key=lambda it: (len(pools[it]), it)):
        own = dict.fromkeys(pools[crate], 0)
        for _ in range(given[crate]):
            kinds = [it for it in KINDS if own.get(it, 99) < len(pools[crate].get(it, ()))]
            if kinds:
                kind = min(kinds, key=lambda it: (counts[it], own[it], dice.random()))
                counts[kind] += 1
                own[kind] += 1
                slots.append((crate, kind))
    return slots


def lines_of(edit):
    return [(edit.crate, edit.path, line) for line in range(edit.line, edit.last_line + 1)]


def lines_in(groups):
    return len({line for edits in groups for edit in edits for line in lines_of(edit)})


def deal(slots, pools):
    """For each bug its edits, in the order in which they are tried; no two bugs share a line."""
    hands, taken, dealt = [[] for _ in slots], {}, set()
    for _ in range(ALTERNATES + 1):
        for n, (crate, kind) in enumerate(slots):
            kinds = [kind, *(it for it in KINDS if it != kind and it in pools[crate])]
            for edit in (it for name in kinds for it in pools[crate][name]):
                free = all(taken.get(it, n) == n for it in lines_of(edit))
                if free and edit.id not in dealt:
                    dealt.add(edit.id)
                    taken.update(dict.fromkeys(lines_of(edit), n))
                    hands[n].append(edit)
                    break
    return hands


def draw(sources, edits, bugs, seed):
    """For each bug a list of edits; the first that compiles is the bug."""
    dice = random.Random(f"plant {seed}")
    pools = pools_of(edits, dice)
    sizes = {crate: size for crate, size in sizes_of(sources).items() if crate in pools}
    room = {it: lines_in(pools[it].values()) for it in sizes}
    if bugs < len(sizes):
        sizes = {it: sizes[it] for it in sorted(dice.sample(sorted(sizes), bugs))}
    slots = kinds_of_slots(shares(sizes, bugs, room), pools, dice)
    order = list(dict.fromkeys(it.crate for it in sources))
    slots.sort(key=lambda it: (order.index(it[0]), KINDS.index(it[1])))
    return [it for it in deal(slots, pools) if it]
