//! One fault in a scene: of each number, at each sort of place.

use super::{Edit, Recipe, bases, bases_of_kinds, refused};
use crate::bytes::*;

#[derive(Clone, Copy, Debug, PartialEq, Eq)]
enum Record {
    Header,
    Cell(usize),
    End,
}

impl Record {
    /// The header, the first, middle and last cell, and the end.
    fn some_of(scene: &Scene) -> Vec<Record> {
        let cells = some_cells(scene).into_iter().map(Record::Cell);
        [Record::Header]
            .into_iter()
            .chain(cells)
            .chain([Record::End])
            .collect()
    }

    fn place(self, scene: &Scene) -> usize {
        match self {
            Record::Header => 0,
            Record::Cell(cell) => cell_place(cell),
            Record::End => end_place(scene.cells.len()),
        }
    }

    fn length(self) -> usize {
        match self {
            Record::Header => HEADER,
            Record::Cell(_) => CELL,
            Record::End => END,
        }
    }

    fn mark(self) -> [u8; 2] {
        match self {
            Record::Header => HEADER_MARK,
            Record::Cell(_) => CELL_MARK,
            Record::End => END_MARK,
        }
    }
}

fn some_cells(scene: &Scene) -> Vec<usize> {
    let count = scene.cells.len();
    let mut cells: Vec<usize> = if count == 0 {
        Vec::new()
    } else {
        vec![0, count / 2, count - 1]
    };
    cells.dedup();
    cells
}

/// Number 1: the bytes end at, soon after, or just before the end of a record.
pub(super) fn short() -> Vec<Recipe> {
    let mut recipes = Vec::new();
    for scene in bases() {
        for record in Record::some_of(&scene) {
            let (place, length) = (record.place(&scene), record.length());
            let mut kept = vec![0, 1, 2, length / 2, length - 1];
            kept.retain(|kept| *kept < length);
            kept.sort_unstable();
            kept.dedup();
            let cut = |kept| Recipe::new(&scene, [Edit::Cut(place + kept)], refused(1, place));
            recipes.extend(kept.into_iter().map(cut));
        }
    }
    recipes
}

/// Number 2: either byte of a mark, or both, are other ones.
pub(super) fn mark() -> Vec<Recipe> {
    let mut recipes = Vec::new();
    for scene in bases() {
        for record in Record::some_of(&scene) {
            let (place, [low, high]) = (record.place(&scene), record.mark());
            let wrong = |mark| Recipe::new(&scene, [Edit::Half(place, mark)], refused(2, place));
            let halves = [low ^ 1, 0, 255].map(|other| [other, high]);
            let highs = [high ^ 0x20, 0, 255].map(|other| [low, other]);
            let both = [HEADER_MARK, CELL_MARK, END_MARK, [high, low], [0, 0]];
            let marks = halves.into_iter().chain(highs).chain(both);
            let others = marks.filter(|mark| *mark != record.mark());
            recipes.extend(others.map(u16::from_le_bytes).map(wrong));
        }
    }
    recipes
}

/// Number 3: each field of the header out of its range.
pub(super) fn header() -> Vec<Recipe> {
    let bytes = [
        (VERSION_PLACE, vec![0, 2, 3, 128, 255]),
        (KIND_PLACE, vec![0, 4, 5, 128, 255]),
        (BOARDS_PLACE, vec![0, 9, 16, 128, 255]),
        (OVERLAP_PLACE, vec![5, 6, 128, 255]),
    ];
    let halves = [VERTICES_PLACE, CELLS_PLACE]
        .map(|place| (place, [1025_u16, 1279, 1280, 2048, 0x8000, u16::MAX]));
    let bytes = bytes.into_iter().flat_map(|(place, values)| {
        values
            .into_iter()
            .map(move |value| (place, Edit::Byte(place, value)))
    });
    let halves = halves
        .into_iter()
        .flat_map(|(place, values)| values.map(|value| (place, Edit::Half(place, value))));
    let edits: Vec<(usize, Edit)> = bytes.chain(halves).collect();
    bases()
        .iter()
        .flat_map(|scene| {
            let recipe = |&(place, edit)| Recipe::new(scene, [edit], refused(3, place));
            edits.iter().map(recipe)
        })
        .collect()
}

/// Number 4: a cell's board, zero byte or corner out of its range.
pub(super) fn cell() -> Vec<Recipe> {
    let mut recipes = Vec::new();
    for scene in bases_of_kinds(5).iter().chain(&bases_of_kinds(MOST)) {
        for cell in some_cells(scene) {
            let (board, zero) = (board_place(cell), zero_place(cell));
            let mut edits: Vec<Edit> = [3, 4, 8, 255].map(|past| Edit::Byte(board, past)).into();
            edits.extend([1, 128, 255].map(|byte| Edit::Byte(zero, byte)));
            for corner in 0..3 {
                let place = corner_place(cell, corner);
                let own = scene.cells[cell].corners[corner];
                let past = [
                    scene.vertices,
                    scene.vertices + 1,
                    0x8000 | own,
                    0xff00 | own,
                ];
                edits.extend(past.map(|vertex| Edit::Half(place, vertex)));
            }
            recipes.extend(
                edits
                    .into_iter()
                    .map(|edit| Recipe::new(scene, [edit], refused(4, edit.places().start))),
            );
        }
    }
    recipes
}

/// Number 5: two corners, or all three, are equal. Each is set to the other in turn.
pub(super) fn corners() -> Vec<Recipe> {
    let mut recipes = Vec::new();
    for scene in bases_of_kinds(5).iter().chain(&bases_of_kinds(MOST)) {
        for cell in some_cells(scene) {
            let own = scene.cells[cell].corners;
            let set =
                |corner: usize, from: usize| Edit::Half(corner_place(cell, corner), own[from]);
            for (first, later) in [(0, 1), (0, 2), (1, 2)] {
                let answer = refused(5, corner_place(cell, later));
                recipes.push(Recipe::new(scene, [set(later, first)], answer));
                recipes.push(Recipe::new(scene, [set(first, later)], answer));
            }
            let answer = refused(5, corner_place(cell, 1));
            recipes.push(Recipe::new(scene, [set(1, 0), set(2, 0)], answer));
            recipes.push(Recipe::new(scene, [set(0, 2), set(1, 2)], answer));
        }
    }
    recipes
}

/// Number 6: each byte of each word past the used ones.
pub(super) fn word() -> Vec<Recipe> {
    let mut recipes = Vec::new();
    for scene in bases_of_kinds(5).iter().chain(&bases_of_kinds(MOST)) {
        for cell in some_cells(scene) {
            for (corner, word) in unused(scene.kind) {
                let place = word_place(cell, corner, word);
                let values = (place..place + 4).flat_map(|at| [1, 128].map(|byte| (at, byte)));
                recipes.extend(values.map(|(at, byte)| {
                    Recipe::new(scene, [Edit::Byte(at, byte)], refused(6, place))
                }));
            }
        }
    }
    recipes
}

pub(super) fn unused(kind: Kind) -> impl Iterator<Item = (usize, usize)> {
    (0..3).flat_map(move |corner| (kind.used()..3).map(move |word| (corner, word)))
}

/// Number 7: one byte or many behind the end.
pub(super) fn behind() -> Vec<Recipe> {
    let mut recipes = Vec::new();
    for scene in bases() {
        let place = end_place(scene.cells.len()) + END;
        for count in [1, 2, 46, 48, 1000, 70_000] {
            for byte in [0, b'E', 255] {
                recipes.push(Recipe::new(
                    &scene,
                    [Edit::Behind(count, byte)],
                    refused(7, place),
                ));
            }
        }
    }
    recipes
}

/// The header's count of cells is not that of the cells.
pub(super) fn count() -> Vec<Recipe> {
    let mut recipes = Vec::new();
    for scene in bases() {
        let cells = scene.cells.len();
        let end = end_place(cells);
        let mut counts = vec![
            0,
            1,
            cells / 2,
            cells.saturating_sub(1),
            cells + 1,
            2 * cells,
            MOST,
        ];
        counts.retain(|count| *count != cells && *count <= MOST);
        counts.sort_unstable();
        counts.dedup();
        for count in counts {
            let edit = Edit::Half(CELLS_PLACE, count as u16);
            if count < cells {
                recipes.push(Recipe::new(&scene, [edit], refused(2, cell_place(count))));
            } else {
                recipes.push(Recipe::new(&scene, [edit], refused(1, end)));
                // With 44 bytes more a whole cell could stand where the end does.
                let more = |count| [edit, Edit::Behind(count, 0)];
                recipes.push(Recipe::new(&scene, more(CELL - END - 1), refused(1, end)));
                recipes.push(Recipe::new(&scene, more(CELL - END), refused(2, end)));
            }
        }
    }
    recipes
}
