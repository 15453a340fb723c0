"""Scenes that are read, and planned within memory."""

from build import Numbers, filled, scene, two_triangles

LARGEST = 0xFFFFFFFF
HALF = 0x80000000


def strip(count):
    """Corners of triangles along a band: each shares an edge with the next."""
    return [(k, k + 1, k + 2) for k in range(count)]


def chain(count):
    """Corners of triangles that touch the next one in one vertex only."""
    return [(2 * k, 2 * k + 1, 2 * k + 2) for k in range(count)]


def fan(count):
    """Corners of triangles that all have vertex 0, and no other in common."""
    return [(0, 2 * k + 1, 2 * k + 2) for k in range(count)]


def sheet(width, height):
    """Corners of the two triangles of each square of a sheet of width by height vertices."""
    out = []
    for y in range(height - 1):
        for x in range(width - 1):
            a = y * width + x
            out.append((a, a + 1, a + width))
            out.append((a + 1, a + width + 1, a + width))
    return out


def in_blocks(corners, boards):
    """The first cells to board 0, the next to board 1, and so on."""
    return [(k * boards // len(corners), c) for k, c in enumerate(corners)]


def in_turn(corners, boards):
    return [(k % boards, c) for k, c in enumerate(corners)]


def by_numbers(start, vertices, cells, boards):
    """Cells with any three different corners, on any board."""
    numbers = Numbers(start)
    out = []
    while len(out) < cells:
        corners = tuple(numbers.below(vertices) for _ in range(3))
        if len(set(corners)) == 3:
            out.append((numbers.below(boards), corners))
    return out


def plain():
    """The smallest scenes, and the two triangles with one thing changed."""
    yield "no_cells", scene(1, 1, 0, 0, [])
    yield "no_cells_but_vertices", scene(3, 8, 4, 1024, [])
    yield "two_triangles", two_triangles()
    yield "two_triangles_overlap_1", two_triangles(overlap=1)
    yield "two_triangles_third_board", two_triangles(boards=3)
    yield "two_triangles_eight_boards", two_triangles(boards=8)
    yield "two_triangles_fifth_vertex", two_triangles(vertices=5)
    yield "two_triangles_force", two_triangles(kind=1)
    yield "two_triangles_tags", two_triangles(kind=3, overlap=1)
    yield "one_board_one_cell", scene(1, 1, 0, 3, [(0, (2, 0, 1), [(1, 2, 3), (4, 5, 6), (7, 8, 9)])])
    yield "one_board_overlap_4", scene(3, 1, 4, 8, filled(3, 1, in_turn(strip(6), 1)))


def elements():
    """What joining does with words at the ends of their range."""
    most = [(HALF - 1, LARGEST, 1), (HALF, HALF, LARGEST), (LARGEST, 0, HALF)]
    more = [(1, 1, LARGEST), (HALF, HALF, LARGEST), (LARGEST, 0, HALF)]
    same = (0, 1, 2)
    yield "force_wraps", scene(1, 2, 0, 3, [(0, same, most), (1, same, more)])
    yield "force_wraps_on_one_board", scene(1, 1, 0, 3, [(0, same, most), (0, same, more)])
    yield "depth_has_no_sign", scene(2, 2, 0, 3, [
        (0, same, [(HALF,), (HALF - 1,), (LARGEST,)]), (1, same, [(1,), (HALF,), (0,)])])
    yield "tags_all_set", scene(3, 2, 0, 3, [
        (0, same, [(LARGEST, 0), (0x55555555, 0xAAAAAAAA), (LARGEST, LARGEST)]),
        (1, same, [(0, LARGEST), (0xAAAAAAAA, 0x55555555), (LARGEST, LARGEST)])])
    yield "all_words_zero", scene(1, 2, 1, 4, [(0, (0, 1, 2), [()] * 3), (1, (1, 3, 2), [()] * 3)])
    yield "low_byte_first", scene(1, 2, 0, 773, [
        (0, (1, 256, 772), [(0x01020304, 0x05060708, 0x090A0B0C), (1, 256, 65536), (1 << 24, 0, 0)]),
        (1, (772, 258, 513), [(0x0D0E0F10, 0x11121314, 0x15161718), (0, 0, 3), (0, 2, 0)])])
    marks = (0x4E454345, 0x43534E45, 0x45434E45)
    yield "marks_among_words", scene(1, 2, 0, 0x4E, [
        (0, (0x43, 0x45, 0x4D), [marks] * 3), (1, (0x45, 0x43, 1), [marks] * 3)])


def owners():
    """Who owns a vertex, who keeps a copy, and boards that own little."""
    one = [(1,), (2,), (3,)]
    yield "owner_is_not_lowest_keeper", scene(2, 3, 1, 7, [
        (0, (0, 1, 2), one), (2, (2, 3, 4), one), (1, (4, 5, 6), one)])
    yield "owner_has_fewer_cells", scene(1, 2, 0, 7, [
        (1, (0, 1, 2), one), (1, (0, 3, 4), one), (0, (0, 5, 6), one)])
    yield "first_board_owns_nothing", scene(2, 3, 0, 4, [
        (1, (0, 1, 2), one), (2, (1, 3, 2), one)])
    yield "middle_board_owns_nothing", scene(3, 3, 2, 4, [
        (0, (0, 1, 2), [(1, 8)] * 3), (2, (1, 3, 2), [(2, 4)] * 3)])
    yield "last_board_owns_all", scene(2, 8, 3, 4, [(7, (0, 1, 2), one), (7, (3, 2, 1), one)])
    yield "boards_that_do_not_touch", scene(2, 2, 4, 6, [(0, (0, 1, 2), one), (1, (5, 4, 3), one)])
    yield "same_cell_twice_on_a_board", scene(1, 2, 0, 3, [
        (1, (0, 1, 2), one), (1, (0, 1, 2), one), (0, (2, 1, 0), one)])
    yield "same_cell_on_eight_boards", scene(1, 8, 0, 3, filled(1, 2, [(p, (0, 1, 2)) for p in range(8)]))
    yield "boards_falling_along_a_strip", scene(1, 4, 1, 10, filled(1, 3, [
        (3 - k // 2, c) for k, c in enumerate(strip(8))]))
    yield "last_vertices_of_1024", scene(2, 2, 0, 1024, [
        (0, (1023, 0, 1022), one), (1, (1021, 1023, 512), one)])


def neighbours():
    """Boards with several neighbours, links of many items, and each overlap."""
    for overlap in range(5):
        yield f"chain_overlap_{overlap}", scene(1, 3, overlap, 25, filled(1, 4, in_blocks(chain(12), 3)))
    yield "fan_of_eight_boards", scene(1, 8, 0, 17, filled(1, 5, in_turn(fan(8), 8)))
    yield "fan_of_eight_boards_overlap_1", scene(3, 8, 1, 17, filled(3, 6, in_turn(fan(8), 8)))
    ring = [(p, (p, 8 + p, (p + 1) % 8)) for p in range(8)]
    yield "ring_of_eight_boards", scene(2, 8, 2, 16, filled(2, 7, ring))
    yield "sheet_of_four_boards", scene(2, 4, 1, 36, filled(2, 10, in_blocks(sheet(6, 6), 4)))
    yield "long_link", scene(1, 2, 0, 80, filled(1, 11, in_turn(strip(78), 2)))
    yield "any_cells_five_boards", scene(2, 5, 1, 40, filled(2, 13, by_numbers(102, 40, 16, 5)))
    yield "any_cells_six_boards", scene(3, 6, 2, 90, filled(3, 14, by_numbers(103, 90, 28, 6)))
    yield "any_cells_seven_boards", scene(1, 7, 3, 60, filled(1, 15, by_numbers(104, 60, 12, 7)))
    yield "any_cells_eight_boards", scene(1, 8, 1, 50, filled(1, 16, by_numbers(105, 50, 30, 8)))


def wide_sheet():
    """A sheet of 1,024 cells and 561 vertices."""
    return sheet(33, 17)


def large():
    """The ends of the ranges, and plans that just fit into memory."""
    spread = [tuple(v * 3 + c for c in range(3)) for v in range(341)] + [(1023, 0, 511)]
    yield "vertices_1024_all_used", scene(2, 4, 1, 1024, filled(2, 17, in_turn(spread, 4)))
    yield "cells_1024", scene(1, 8, 2, 561, filled(1, 18, in_blocks(wide_sheet(), 8)))
    # every board keeps every one of 512 vertices
    apart = [(255, 510, 511)]
    yield "copies_4096", scene(2, 8, 2, 512, filled(2, 19, in_turn(fan(255) + apart, 8)))
    lone = [(6, (897, 898, 896))]
    yield "copies_4096_overlap_4", scene(1, 8, 4, 1024, filled(1, 20, long_strip() + lone))


def long_strip():
    """A strip of 894 cells in pieces of five, dealt to eight boards in turn. With four layers
    a board keeps well over half of its 896 vertices: 4,093 copies in all."""
    return [(k // 5 % 8, c) for k, c in enumerate(strip(894))]


def all_accepted():
    for group in (plain, elements, owners, neighbours, large):
        yield from group()
