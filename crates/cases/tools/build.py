"""Making scene bytes, right ones and wrong ones; and a number source that is always the same."""


class Numbers:
    """A linear congruential source: the same start gives the same numbers everywhere."""

    def __init__(self, start):
        self.state = start

    def below(self, limit):
        self.state = (self.state * 6364136223846793005 + 1442695040888963407) % (1 << 64)
        return (self.state >> 33) % limit

    def word(self):
        return self.below(1 << 16) << 16 | self.below(1 << 16)


def low(value, size):
    return value.to_bytes(size, "little")


def header(kind=2, boards=2, overlap=0, vertices=4, cells=2, mark=b"SC", version=1):
    return mark + bytes([version, kind, boards, overlap]) + low(vertices, 2) + low(cells, 2)


def cell(board, corners, words, mark=b"CE", zero=0):
    """One cell. A contribution is a tuple of up to three words; those not given are zero."""
    out = mark + bytes([board, zero])
    for corner in corners:
        out += low(corner, 2)
    for given in words:
        padded = tuple(given) + (0,) * (3 - len(given))
        for word in padded:
            out += low(word, 4)
    return out


def scene(kind, boards, overlap, vertices, cells):
    """A scene of cells given as (board, corners, words)."""
    body = b"".join(cell(*one) for one in cells)
    return header(kind, boards, overlap, vertices, len(cells)) + body + b"EN"


def any_words(kind, numbers):
    """One contribution of this kind."""
    if kind == 1:
        return (numbers.word(), numbers.word(), numbers.word())
    if kind == 2:
        return (numbers.below(100000),)
    return (1 << numbers.below(32), 1 << numbers.below(32))


def filled(kind, start, owned):
    """Cells given as (board, corners), with contributions drawn from the number source."""
    numbers = Numbers(start)
    return [(board, corners, [any_words(kind, numbers) for _ in corners]) for board, corners in owned]


FIRST = (0, (0, 1, 2), [(5,), (7,), (1,)])
SECOND = (1, (1, 3, 2), [(4,), (9,), (6,)])


def two_triangles(kind=2, boards=2, overlap=0, vertices=4):
    """Two cells that share an edge, each on a board of its own."""
    return scene(kind, boards, overlap, vertices, [FIRST, SECOND])


def patched(data, at, new):
    """The same bytes but for those from this place on."""
    return data[:at] + new + data[at + len(new):]
