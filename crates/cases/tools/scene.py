"""Scenes as bytes: the reader with its refusals, and the element types."""

HEADER_BYTES = 10
CELL_BYTES = 46
END_BYTES = 2
HEADER_MARK = b"\x53\x43"
CELL_MARK = b"\x43\x45"
END_MARK = b"\x45\x4e"
CORNERS = 3
WORDS = 3
MOST_VERTICES = 1024
MOST_CELLS = 1024
# Words that an element of each kind uses; the others must be zero.
USED = {1: 3, 2: 1, 3: 2}
ZERO = (0, 0, 0)


class Refused(Exception):
    """A refusal: its number, and the last number that goes with it."""

    def __init__(self, number, last):
        super().__init__(number, last)
        self.number = number
        self.last = last


class Cell:
    def __init__(self, board, corners, contributions):
        self.board = board
        self.corners = corners
        self.contributions = contributions


class Scene:
    def __init__(self, kind, boards, overlap, vertices, cells):
        self.kind = kind
        self.boards = boards
        self.overlap = overlap
        self.vertices = vertices
        self.cells = cells


def low_first(data, at, size):
    return int.from_bytes(data[at:at + size], "little")


def join(kind, a, b):
    """Force adds modulo 2^32, Depth keeps the larger, Tags unite."""
    if kind == 1:
        return tuple((x + y) & 0xFFFFFFFF for x, y in zip(a, b))
    if kind == 2:
        return (max(a[0], b[0]), 0, 0)
    return (a[0] | b[0], a[1] | b[1], 0)


def due(data, at, size, mark):
    """A record of this size with this mark stands at this place."""
    if at + size > len(data):
        raise Refused(1, at)
    if data[at:at + 2] != mark:
        raise Refused(2, at)


def within(number, at, value, low, high):
    if value < low or value > high:
        raise Refused(number, at)
    return value


def read_header(data):
    due(data, 0, HEADER_BYTES, HEADER_MARK)
    within(3, 2, data[2], 1, 1)
    kind = within(3, 3, data[3], 1, 3)
    boards = within(3, 4, data[4], 1, 8)
    overlap = within(3, 5, data[5], 0, 4)
    vertices = within(3, 6, low_first(data, 6, 2), 0, MOST_VERTICES)
    cells = within(3, 8, low_first(data, 8, 2), 0, MOST_CELLS)
    return kind, boards, overlap, vertices, cells


def read_cell(data, at, kind, boards, vertices):
    due(data, at, CELL_BYTES, CELL_MARK)
    board = within(4, at + 2, data[at + 2], 0, boards - 1)
    within(4, at + 3, data[at + 3], 0, 0)
    places = [at + 4 + 2 * c for c in range(CORNERS)]
    corners = [within(4, place, low_first(data, place, 2), 0, vertices - 1) for place in places]
    for first, later in ((0, 1), (0, 2), (1, 2)):
        if corners[first] == corners[later]:
            raise Refused(5, places[later])
    contributions = []
    for c in range(CORNERS):
        words = []
        for w in range(WORDS):
            place = at + 10 + 12 * c + 4 * w
            word = low_first(data, place, 4)
            if w >= USED[kind] and word != 0:
                raise Refused(6, place)
            words.append(word)
        contributions.append(tuple(words))
    return Cell(board, corners, contributions)


def read_scene(data):
    """The scene that these bytes are, or a refusal: header, cells, end, nothing after."""
    kind, boards, overlap, vertices, count = read_header(data)
    at = HEADER_BYTES
    cells = []
    for _ in range(count):
        cells.append(read_cell(data, at, kind, boards, vertices))
        at += CELL_BYTES
    due(data, at, END_BYTES, END_MARK)
    at += END_BYTES
    if at < len(data):
        raise Refused(7, at)
    return Scene(kind, boards, overlap, vertices, cells)


def own_sums(scene):
    """For each board and vertex, the join of the contributions in the cells the board owns."""
    sums = {}
    for cell in scene.cells:
        for v, words in zip(cell.corners, cell.contributions):
            key = (cell.board, v)
            sums[key] = join(scene.kind, sums.get(key, ZERO), words)
    return sums


def undivided_totals(scene):
    """For each vertex, the join of all contributions at it, whichever board owns the cell."""
    totals = [ZERO] * scene.vertices
    for cell in scene.cells:
        for v, words in zip(cell.corners, cell.contributions):
            totals[v] = join(scene.kind, totals[v], words)
    return totals
