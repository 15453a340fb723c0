"""Which board keeps which vertex, who owns it, and the edges from ghosts to roots."""

from collections import namedtuple

from scene import Refused

MOST_COPIES = 4096
MOST_EDGES = 4096

Edge = namedtuple("Edge", "leaf_board root_board vertex leaf_copy root_copy")


class Plan:
    def __init__(self, boards, copies, edges):
        self.boards = boards
        self.copies = copies
        self.edges = edges
        # links[p][q]: the edges from leaf board p to root board q, in their order
        self.links = [[[] for _ in range(boards)] for _ in range(boards)]
        for edge in edges:
            self.links[edge.leaf_board][edge.root_board].append(edge)

    def up(self, p, q):
        return len(self.links[p][q])

    def items(self, p, q):
        """Items that the link from p to q carries: sums up, then totals down."""
        return self.up(p, q) + self.up(q, p)


def cells_on(scene):
    on = [[] for _ in range(scene.vertices)]
    for number, cell in enumerate(scene.cells):
        for v in cell.corners:
            on[v].append(number)
    return on


def kept_vertices(scene, on, board):
    """Vertices of the board's own cells and of so many layers of cells around them."""
    cells = {number for number, cell in enumerate(scene.cells) if cell.board == board}
    for _ in range(scene.overlap):
        touched = {v for number in cells for v in scene.cells[number].corners}
        cells = {number for v in touched for number in on[v]}
    return sorted({v for number in cells for v in scene.cells[number].corners})


def lay_plan(scene):
    on = cells_on(scene)
    copies = [(p, v) for p in range(scene.boards) for v in kept_vertices(scene, on, p)]
    number = {copy: k for k, copy in enumerate(copies)}
    edges = []
    for p, v in copies:
        owner = min(scene.cells[c].board for c in on[v])
        if owner != p:
            edges.append(Edge(p, owner, v, number[p, v], number[owner, v]))
    edges.sort(key=lambda e: (e.leaf_board, e.root_board, e.vertex))
    return Plan(scene.boards, copies, edges)


def laid_within_memory(scene):
    plan = lay_plan(scene)
    if len(plan.copies) > MOST_COPIES:
        raise Refused(8, len(plan.copies))
    if len(plan.edges) > MOST_EDGES:
        raise Refused(8, len(plan.edges))
    return plan
