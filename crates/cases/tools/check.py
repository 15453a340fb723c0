"""Checks of these tools against the rules: worked readings, refusals stated by hand, and for each
accepted scene, by brute force, the plan, the totals and the length of the run."""

import os

from accepted import all_accepted
from build import patched, two_triangles
from exchange import Run
from forest import lay_plan
from listing import MOST_CIRCLES, entry, listing, medium_of
from make import ROOT, all_scenes
from refused import all_refused
from scene import join, read_scene, undivided_totals

PLAIN = """boards 2 overlap 0 kind 2 copies 6 edges 2
turns 8 puts 7 lost 0 accepted 4
0 settled
0 0 5 0 0
0 1 7 0 0
0 2 6 0 0
1 settled
1 1 7 0 0
1 2 6 0 0
1 3 9 0 0
"""
ROUGH = PLAIN.replace("turns 8 puts 7 lost 0", "turns 12 puts 10 lost 2")


def same(what, got, wanted):
    if got != wanted:
        raise SystemExit(f"{what}: got {got!r}, wanted {wanted!r}")


def first_line(data):
    return listing(data, False).split("\n")[0]


def check_readings():
    two = two_triangles()
    same("two triangles", listing(two, False), PLAIN)
    same("two triangles, rough", listing(two, True), ROUGH)
    counts = {
        two_triangles(overlap=1): "boards 2 overlap 1 kind 2 copies 8 edges 4",
        two_triangles(boards=3): "boards 3 overlap 0 kind 2 copies 6 edges 2",
        two_triangles(vertices=5): "boards 2 overlap 0 kind 2 copies 6 edges 2",
        two_triangles(boards=8): "boards 8 overlap 0 kind 2 copies 6 edges 2",
        two_triangles(boards=9): "refused 3 at 4",
        patched(two, 14, b"\1"): "refused 5 at 16",
        patched(two, 24, b"\1"): "refused 6 at 24",
    }
    empty = bytes.fromhex("53 43 01 01 01 00 00 00 00 00 45 4E")
    counts[empty] = "boards 1 overlap 0 kind 1 copies 0 edges 0"
    counts[empty + b"\0"] = "refused 7 at 12"
    counts[empty[:-1]] = "refused 1 at 10"
    for data, wanted in counts.items():
        same(data.hex(), first_line(data), wanted)
    same("axis", join(1, (2147483647, 0, 0), (1, 0, 0)), (2147483648, 0, 0))


def check_refused():
    for name, data, number, last in all_refused():
        for rough in (False, True):
            same(name, listing(data, rough), f"refused {number} at {last}\n")


def near(scene, vertices):
    """Vertices of the cells that have one of these vertices."""
    return {v for cell in scene.cells if vertices & set(cell.corners) for v in cell.corners}


def check_plan(name, scene, plan):
    """Copies and edges once more, from sets of vertices instead of sets of cells."""
    kept = {}
    for p in range(scene.boards):
        vertices = {v for cell in scene.cells if cell.board == p for v in cell.corners}
        for _ in range(scene.overlap):
            vertices = near(scene, vertices)
        kept[p] = vertices
    owner = {}
    for cell in scene.cells:
        for v in cell.corners:
            owner[v] = min(owner.get(v, cell.board), cell.board)
    same(name, plan.copies, [(p, v) for p in range(scene.boards) for v in sorted(kept[p])])
    ghosts = sorted((p, owner[v], v) for p, v in plan.copies if owner[v] != p)
    same(name, [edge[:3] for edge in plan.edges], ghosts)
    for edge in plan.edges:
        same(name, plan.copies[edge.leaf_copy], (edge.leaf_board, edge.vertex))
        same(name, plan.copies[edge.root_copy], (edge.root_board, edge.vertex))
    same(name, len(plan.edges), len(plan.copies) - len(owner))


class Booked(Run):
    """A run beside which a book counts items by the frames waiting as each turn begins."""

    def __init__(self, scene, plan, medium):
        super().__init__(scene, plan, medium)
        self.book = {(q, p): 0 for p in range(plan.boards) for q in range(plan.boards)}
        self.own = list(self.values)

    def lane(self, q, p):
        medium = self.medium
        while hasattr(medium, "below"):
            medium = medium.below
        return medium.lanes[q, p]

    def turn(self, p):
        for q in self.others(p):
            for item, _ in self.lane(q, p):
                count = self.book[q, p]
                if item is not None and count < self.plan.items(q, p) and item[0] == count % 2:
                    self.book[q, p] = count + 1
        super().turn(p)
        for q in self.others(p):
            same("book", self.accepted[q][p], self.book[q, p])


def check_run(name, scene, plan, rough):
    run = Booked(scene, plan, medium_of(rough))
    circles = run.circles(MOST_CIRCLES)
    edges, lost = len(plan.edges), run.tally["lost"]
    same(name + " settled", run.settled(), True)
    same(name + " in time", circles <= 8 * edges + 4 * lost, True)
    same(name + " accepted", run.tally["accepted"], 2 * edges)
    same(name + " turns", run.tally["turns"], circles * scene.boards)
    totals = undivided_totals(scene)
    same(name + " totals", run.values, [totals[v] for _, v in plan.copies])


def check_small_run(name, scene, plan):
    """After each turn: settled boards hold totals, every ghost its own sum or the total."""
    run = Booked(scene, plan, medium_of(True))
    totals = undivided_totals(scene)
    ghosts = [edge.leaf_copy for edge in plan.edges]
    while not run.settled():
        for p in range(plan.boards):
            run.turn(p)
            for ghost in ghosts:
                total = totals[plan.copies[ghost][1]]
                same(name + " ghost", run.values[ghost] in (run.own[ghost], total), True)
            for k, (board, v) in enumerate(plan.copies):
                if run.awaits(board) is None:
                    same(name + " total", run.values[k], totals[v])


def check_accepted():
    for name, data in all_accepted():
        scene = read_scene(data)
        plan = lay_plan(scene)
        same(name + " fits", max(len(plan.copies), len(plan.edges)) <= 4096, True)
        check_plan(name, scene, plan)
        for rough in (False, True):
            check_run(name, scene, plan, rough)
        if len(plan.copies) < 200:
            check_small_run(name, scene, plan)


def check_files():
    """What stands in data/, args and stdout is what these tools make."""
    scenes = all_scenes()
    folder = os.path.join(ROOT, "data")
    same("data", sorted(os.listdir(folder)), sorted(name for name, _ in scenes))
    for name, data in scenes:
        with open(os.path.join(folder, name), "rb") as stored:
            same(name, stored.read(), data)
    with open(os.path.join(ROOT, "args"), newline="") as stored:
        same("args", stored.read(), "".join(name + "\n" for name, _ in scenes))
    with open(os.path.join(ROOT, "stdout"), newline="") as stored:
        same("stdout", stored.read(), "".join(entry(name, data) for name, data in scenes))


if __name__ == "__main__":
    check_readings()
    check_refused()
    check_accepted()
    check_files()
    print("all as it should be")
