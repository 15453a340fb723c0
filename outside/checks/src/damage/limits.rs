//! Scenes at the limits of what is allowed, on both sides.

use std::sync::Arc;

use super::Answer::Accepted;
use super::{Edit, Recipe, refused};
use crate::bytes::*;
use crate::surfaces::{ROOM, base, roomy};

/// Plans about as long as there is room for, on both sides.
pub(super) fn room() -> Vec<Recipe> {
    let sizes = (4..=BOARDS).flat_map(|boards| {
        (ROOM - 6..=ROOM + 6).flat_map(move |copies| {
            let overlaps = [1 + copies % 2, 3 + (boards + copies) % 2];
            overlaps.map(|overlap| (boards, copies, overlap))
        })
    });
    sizes
        .filter_map(|(boards, copies, overlap)| {
            let scene = Arc::new(roomy(boards, copies, overlap)?);
            let answer = if copies <= ROOM {
                Accepted
            } else {
                refused(8, copies)
            };
            Some(Recipe::new(&scene, [], answer))
        })
        .collect()
}

/// The highest and the lowest of each field, and one past.
pub(super) fn limits() -> Vec<Recipe> {
    let mut recipes = header_limits();
    recipes.extend(whole_limits());
    recipes.extend(board_limits());
    recipes.extend(corner_limits());
    recipes.extend(word_limits());
    recipes
}

/// The smallest scene with one field of the header within its range, or past it.
fn header_limits() -> Vec<Recipe> {
    let ranges = [
        (VERSION_PLACE, 1..=1),
        (KIND_PLACE, 1..=3),
        (BOARDS_PLACE, 1..=8),
        (OVERLAP_PLACE, 0..=4),
    ];
    let bytes = ranges.into_iter().flat_map(|(place, range)| {
        (0..=9).map(move |value| {
            let within = range.contains(&value);
            let answer = if within { Accepted } else { refused(3, place) };
            (Edit::Byte(place, value), answer)
        })
    });
    let halves = [
        (Edit::Half(VERTICES_PLACE, 1), Accepted),
        (Edit::Half(VERTICES_PLACE, 1024), Accepted),
        (Edit::Half(VERTICES_PLACE, 1025), refused(3, VERTICES_PLACE)),
        (Edit::Half(CELLS_PLACE, 1), refused(1, HEADER)),
        (Edit::Half(CELLS_PLACE, 1024), refused(1, HEADER)),
        (Edit::Half(CELLS_PLACE, 1025), refused(3, CELLS_PLACE)),
    ];
    let scene = Arc::new(smallest());
    let recipe = |(edit, answer)| Recipe::new(&scene, [edit], answer);
    bytes.chain(halves).map(recipe).collect()
}

/// Whole scenes with the most cells and the most overlap, and one more.
fn whole_limits() -> Vec<Recipe> {
    let cells = [
        (MOST, 0, Accepted),
        (MOST + 1, 0, refused(3, CELLS_PLACE)),
        (9, 4, Accepted),
        (9, 5, refused(3, OVERLAP_PLACE)),
    ];
    cells
        .map(|(cells, overlap, answer)| {
            Recipe::new(&Arc::new(base(Kind::Depth, cells, overlap)), [], answer)
        })
        .to_vec()
}

fn one_cell(boards: u8, vertices: u16, board: u8, corners: [u16; 3]) -> Arc<Scene> {
    let words = [[1, 0, 0], [2, 0, 0], [3, 0, 0]];
    Arc::new(Scene {
        kind: Kind::Depth,
        boards,
        overlap: 0,
        vertices,
        cells: vec![Cell {
            board,
            corners,
            words,
        }],
    })
}

fn board_limits() -> Vec<Recipe> {
    let boards = 1..=8;
    boards
        .flat_map(|boards| {
            let scene = |board| one_cell(boards, 3, board, [0, 1, 2]);
            [
                Recipe::new(&scene(0), [], Accepted),
                Recipe::new(&scene(boards - 1), [], Accepted),
                Recipe::new(&scene(boards), [], refused(4, board_place(0))),
            ]
        })
        .collect()
}

fn corner_limits() -> Vec<Recipe> {
    let few = [(0, 0), (1, 1), (2, 2)].map(|(vertices, corner)| {
        let scene = one_cell(1, vertices, 0, [0, 1, 2]);
        Recipe::new(&scene, [], refused(4, corner_place(0, corner)))
    });
    let more = [3, 4, 255, 256, 257, 1023, 1024]
        .into_iter()
        .flat_map(|vertices: u16| {
            (0..3).flat_map(move |corner| {
                let scene = |value| {
                    let mut corners = [value, 0, 1];
                    corners.rotate_right(corner);
                    one_cell(2, vertices, 1, corners)
                };
                let past = refused(4, corner_place(0, corner));
                [
                    Recipe::new(&scene(vertices - 1), [], Accepted),
                    Recipe::new(&scene(vertices), [], past),
                ]
            })
        });
    few.into_iter().chain(more).collect()
}

/// The highest value of each used word, alone and together.
fn word_limits() -> Vec<Recipe> {
    let scenes = Kind::ALL.into_iter().flat_map(|kind| {
        let used = (0..3).flat_map(move |corner| (0..kind.used()).map(move |word| (corner, word)));
        let one = used.clone().flat_map(move |(corner, word)| {
            [u32::MAX, 1 << 31, i32::MAX as u32].map(|value| {
                let mut scene = base(kind, 4, 1);
                scene.cells[1].words[corner][word] = value;
                scene
            })
        });
        let mut all = base(kind, 4, 1);
        for cell in &mut all.cells {
            used.clone()
                .for_each(|(corner, word)| cell.words[corner][word] = u32::MAX);
        }
        one.chain([all])
    });
    scenes
        .map(|scene| Recipe::new(&Arc::new(scene), [], Accepted))
        .collect()
}
