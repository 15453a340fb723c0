"""Scenes that are refused, each with the refusal that the rules give, worked out by hand.

The two triangles have their header at 0, cells at 10 and 56, the end at 102 and 104 bytes."""

from accepted import fan, in_turn, long_strip
from build import cell, filled, header, low, patched, scene, two_triangles, FIRST, SECOND

TWO = two_triangles()
END = b"EN"


def headers():
    """Headers that are short, unmarked, or have a field out of its range."""
    yield "empty_file", b"", 1, 0
    yield "header_short_by_one", TWO[:9], 1, 0
    yield "header_short_and_unmarked", b"XX\x09", 1, 0
    yield "header_mark_first_byte", patched(TWO, 0, b"\x43"), 2, 0
    yield "header_mark_second_byte", patched(TWO, 1, b"\x53"), 2, 0
    yield "header_mark_before_fields", patched(TWO, 0, b"CE\xff\xff\xff\xff\xff\xff\xff\xff"), 2, 0
    yield "version_0", patched(TWO, 2, b"\0"), 3, 2
    yield "version_2", patched(TWO, 2, b"\2"), 3, 2
    yield "version_before_kind", patched(TWO, 2, b"\0\0\0\5"), 3, 2
    yield "kind_0", patched(TWO, 3, b"\0"), 3, 3
    yield "kind_4", patched(TWO, 3, b"\4"), 3, 3
    yield "kind_before_boards", patched(TWO, 3, b"\0\0"), 3, 3
    yield "boards_0", patched(TWO, 4, b"\0"), 3, 4
    yield "boards_9", patched(TWO, 4, b"\x09"), 3, 4
    yield "boards_before_overlap", patched(TWO, 4, b"\xff\xff"), 3, 4
    yield "overlap_5", patched(TWO, 5, b"\5"), 3, 5
    yield "overlap_before_vertices", patched(TWO, 5, b"\xff\xff\xff"), 3, 5
    yield "vertices_1025", patched(TWO, 6, low(1025, 2)), 3, 6
    yield "vertices_before_cells", patched(TWO, 6, b"\xff\xff\xff\xff"), 3, 6
    yield "cells_1025", patched(TWO, 8, low(1025, 2)), 3, 8


def cells():
    """Cells that are short, unmarked, or have a field out of its range."""
    yield "cell_missing", TWO[:10], 1, 10
    yield "cell_short_by_one", TWO[:55], 1, 10
    yield "cell_short_and_unmarked", TWO[:10] + b"XX", 1, 10
    yield "second_cell_short", TWO[:101], 1, 56
    yield "second_cell_missing_end_there", TWO[:56] + END, 1, 56
    yield "cell_mark_first_byte", patched(TWO, 10, b"\x45"), 2, 10
    yield "cell_mark_second_byte", patched(TWO, 11, b"\x43"), 2, 10
    yield "cell_mark_before_board", patched(TWO, 10, b"EN\xff\xff"), 2, 10
    yield "mark_of_second_cell", patched(TWO, 57, b"\x4e"), 2, 56
    yield "board_2_of_2", patched(TWO, 12, b"\2"), 4, 12
    yield "board_255_of_second_cell", patched(TWO, 58, b"\xff"), 4, 58
    yield "board_before_zero_byte", patched(TWO, 12, b"\2\1"), 4, 12
    yield "zero_byte_1", patched(TWO, 13, b"\1"), 4, 13
    yield "zero_byte_before_corner", patched(TWO, 13, b"\x80\4\0"), 4, 13


def corners():
    """Corners out of range, and equal ones."""
    def first(*three):
        return patched(TWO, 14, b"".join(low(corner, 2) for corner in three))

    yield "corner_0_out_of_range", first(4, 1, 2), 4, 14
    yield "corner_1_out_of_range", first(0, 4, 2), 4, 16
    yield "corner_2_out_of_range", first(0, 1, 4), 4, 18
    yield "corner_high_byte", first(0, 257, 2), 4, 16
    yield "corner_of_no_vertices", scene(2, 2, 0, 0, [FIRST, SECOND]), 4, 14
    yield "corners_out_of_range_first_named", first(0, 4, 65535), 4, 16
    yield "corner_range_before_equal", first(1, 1, 4), 4, 18
    yield "corners_equal_0_1", first(1, 1, 2), 5, 16
    yield "corners_equal_0_2", first(2, 1, 2), 5, 18
    yield "corners_equal_1_2", first(0, 2, 2), 5, 18
    yield "corners_all_equal", first(3, 3, 3), 5, 16
    yield "corners_equal_in_second_cell", patched(TWO, 62, low(1, 2)), 5, 62
    yield "corners_equal_before_words", patched(first(0, 2, 2), 24, b"\1"), 5, 18


def words():
    """Nonzero words past those that the kind uses: Depth uses one, Tags use two."""
    tags = two_triangles(kind=3)
    for corner in range(3):
        for word in (1, 2):
            at = 20 + 12 * corner + 4 * word
            yield f"depth_corner_{corner}_word_{word}", patched(TWO, at, b"\1"), 6, at
        at = 20 + 12 * corner + 8
        yield f"tags_corner_{corner}_word_2", patched(tags, at, b"\1"), 6, at
    yield "word_high_byte", patched(TWO, 27, b"\x80"), 6, 24
    yield "words_first_named", patched(patched(TWO, 52, b"\1"), 40, b"\1"), 6, 40
    yield "word_before_next_mark", patched(TWO, 52, b"\1\0\0\0XX"), 6, 52


def ends():
    """The end missing, unmarked, or not the end; and faults of which an earlier record's counts."""
    empty = header(1, 1, 0, 0, 0) + END
    yield "end_missing", TWO[:102], 1, 102
    yield "end_short_by_one", empty[:11], 1, 10
    yield "end_short_and_unmarked", TWO[:102] + b"X", 1, 102
    yield "end_mark_first_byte", patched(TWO, 102, b"\x4e"), 2, 102
    yield "end_mark_second_byte", patched(TWO, 103, b"\x45"), 2, 102
    yield "end_mark_before_bytes_after", TWO[:102] + b"EE\0", 2, 102
    yield "cell_past_the_count", TWO[:102] + cell(*FIRST) + END, 2, 102
    yield "byte_after_end", empty + b"\0", 7, 12
    yield "second_end", TWO + END, 7, 104
    yield "first_cell_wrong_second_missing", patched(TWO, 13, b"\1")[:56], 4, 13
    yield "second_cell_wrong_and_bytes_after", patched(TWO, 58, b"\2") + b"\0", 4, 58


def plans():
    """Scenes whose plan has more copies than there is memory for.

    Edges alone can't be too many: each copy has at most one edge, and roots have none."""
    lone = [(k, (511 + 3 * k, 512 + 3 * k, 513 + 3 * k)) for k in range(3)]
    one_too_many = scene(2, 8, 1, 520, filled(2, 21, in_turn(fan(255), 8) + lone))
    yield "copies_4097", one_too_many, 8, 4097
    yield "copies_4097_and_byte_after", one_too_many + b"\0", 7, len(one_too_many)
    pair = [(6, (897, 898, 896)), (6, (897, 899, 898))]
    yield "copies_4097_overlap_4", scene(1, 8, 4, 1024, filled(1, 20, long_strip() + pair)), 8, 4097
    last = [(0, (1023, 0, 1))]
    yield "copies_8192", scene(3, 8, 2, 1024, filled(3, 22, in_turn(fan(511), 8) + last)), 8, 8192


def all_refused():
    for group in (headers, cells, corners, words, ends, plans):
        yield from group()
