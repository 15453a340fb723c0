//! Two faults at once, in one record or in two: so the order of the rules shows.

use std::sync::Arc;

use super::single::unused;
use super::{Answer, Edit, Recipe, refused};
use crate::bytes::*;
use crate::surfaces::base;

/// One fault, what makes it, and its answer.
#[derive(Clone, Copy, Debug)]
struct Fault {
    edit: Edit,
    answer: Answer,
}

impl Fault {
    fn new(edit: Edit, number: u8, place: usize) -> Fault {
        let answer = refused(number, place);
        Fault { edit, answer }
    }

    fn byte(place: usize, byte: u8, number: u8) -> Fault {
        Fault::new(Edit::Byte(place, byte), number, place)
    }
}

/// Two faults at once: of each pair the one that is tried first is answered.
pub(super) fn twofold() -> Vec<Recipe> {
    let scene = Arc::new(base(Kind::Depth, 5, 1));
    let some = |(corner, word): &(usize, usize)| (*corner, *word) == (0, 1) || *corner == 2;
    let cells = [0, 2, 4].into_iter().flat_map(|cell| {
        let words: Vec<(usize, usize)> = unused(scene.kind).filter(some).collect();
        cell_faults(&scene, cell, &words)
    });
    let all: Vec<Fault> = header_faults()
        .into_iter()
        .chain(cells)
        .chain(end_faults(&scene))
        .collect();
    let words: Vec<(usize, usize)> = unused(scene.kind).collect();
    let mut recipes = pairs(&scene, &all);
    recipes.extend(pairs(&scene, &cell_faults(&scene, 1, &words)));
    recipes.extend(equal_corners_out_of_range(&scene));
    recipes
}

/// The faults stand in the order of the rules, so the earlier of two is answered.
fn pairs(scene: &Arc<Scene>, faults: &[Fault]) -> Vec<Recipe> {
    let apart = |one: &Fault, other: &Fault| {
        let (one, other) = (one.edit.places(), other.edit.places());
        one.end <= other.start || other.end <= one.start
    };
    let mut recipes = Vec::new();
    for (number, first) in faults.iter().enumerate() {
        let later = faults[number + 1..]
            .iter()
            .filter(|later| apart(first, later));
        recipes
            .extend(later.map(|later| Recipe::new(scene, [first.edit, later.edit], first.answer)));
    }
    recipes
}

fn header_faults() -> Vec<Fault> {
    vec![
        Fault::new(Edit::Cut(HEADER - 1), 1, 0),
        Fault::byte(0, b'T', 2),
        Fault::byte(VERSION_PLACE, 2, 3),
        Fault::byte(KIND_PLACE, 4, 3),
        Fault::byte(BOARDS_PLACE, 9, 3),
        Fault::byte(OVERLAP_PLACE, 5, 3),
        Fault::new(Edit::Half(VERTICES_PLACE, 1025), 3, VERTICES_PLACE),
        Fault::new(Edit::Half(CELLS_PLACE, 1025), 3, CELLS_PLACE),
    ]
}

fn cell_faults(scene: &Scene, cell: usize, words: &[(usize, usize)]) -> Vec<Fault> {
    let place = cell_place(cell);
    let own = scene.cells[cell].corners;
    let set = |corner: usize, vertex, number| {
        let place = corner_place(cell, corner);
        Fault::new(Edit::Half(place, vertex), number, place)
    };
    let mut faults = vec![
        Fault::new(Edit::Cut(place + CELL - 1), 1, place),
        Fault::new(Edit::Byte(place + 1, b'F'), 2, place),
        Fault::byte(board_place(cell), 3, 4),
        Fault::byte(zero_place(cell), 1, 4),
    ];
    faults.extend((0..3).map(|corner| set(corner, scene.vertices, 4)));
    faults.extend([set(1, own[0], 5), set(2, own[0], 5), set(2, own[1], 5)]);
    faults.extend(words.iter().map(|&(corner, word)| {
        let place = word_place(cell, corner, word);
        Fault::new(Edit::Byte(place + 3, 1), 6, place)
    }));
    faults
}

fn end_faults(scene: &Scene) -> Vec<Fault> {
    let place = end_place(scene.cells.len());
    vec![
        Fault::new(Edit::Cut(place + 1), 1, place),
        Fault::byte(place, b'C', 2),
        Fault::new(Edit::Behind(1, b'E'), 7, place + END),
    ]
}

/// Ranges are tried before equal corners, in every order of the three corners.
fn equal_corners_out_of_range(scene: &Arc<Scene>) -> Vec<Recipe> {
    let (past, cell) = (scene.vertices, 3);
    let own = scene.cells[cell].corners;
    let cases = [
        ([past, past, own[2]], 0),
        ([past, own[1], past], 0),
        ([own[0], past, past], 1),
        ([past, past, past], 0),
        ([own[0], own[0], past], 2),
        ([past, own[1], own[1]], 0),
        ([own[0], past, own[0]], 1),
    ];
    cases
        .map(|(corners, first)| {
            let edits: Vec<Edit> = (0..3)
                .map(|corner| Edit::Half(corner_place(cell, corner), corners[corner]))
                .collect();
            Recipe::new(scene, edits, refused(4, corner_place(cell, first)))
        })
        .to_vec()
}
