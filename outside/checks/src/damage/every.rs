//! Small scenes cut and changed at every byte, and inputs that are too long.

use std::sync::Arc;

use super::{Answer, Edit, Recipe, refused};
use crate::bytes::*;
use crate::surfaces::base;

fn small_force() -> Scene {
    base(Kind::Force, 5, 2)
}

/// Two small scenes, cut at every byte.
pub(super) fn cut() -> Vec<Recipe> {
    let scenes = [two_triangles(), small_force()].map(Arc::new);
    scenes
        .iter()
        .flat_map(|scene| {
            let end = end_place(scene.cells.len());
            (0..end + END).map(move |kept| {
                let record = match kept {
                    0..HEADER => 0,
                    _ => HEADER + (kept - HEADER) / CELL * CELL,
                };
                Recipe::new(scene, [Edit::Cut(kept)], refused(1, record))
            })
        })
        .collect()
}

/// Every byte of two small scenes, changed in several ways.
pub(super) fn byte() -> Vec<Recipe> {
    let scenes = [two_triangles(), base(Kind::Tags, 1, 1)].map(Arc::new);
    let mut recipes = Vec::new();
    for scene in &scenes {
        for (place, own) in scene.bytes().into_iter().enumerate() {
            let set = [0, 1, 2, 255, own.wrapping_add(1), own.wrapping_sub(1)];
            let flipped = (0..8).map(|bit| own ^ 1 << bit);
            let mut values: Vec<u8> = set.into_iter().chain(flipped).collect();
            values.sort_unstable();
            values.dedup();
            values.retain(|value| *value != own);
            recipes.extend(
                values
                    .into_iter()
                    .map(|value| Recipe::new(scene, [Edit::Byte(place, value)], Answer::Open)),
            );
        }
    }
    recipes
}

/// No bytes, and more than there may be.
pub(super) fn long() -> Vec<Recipe> {
    let largest = Arc::new(base(Kind::Force, MOST, 0));
    let mut recipes = vec![
        Recipe::new(&largest, [Edit::Cut(0)], refused(1, 0)),
        Recipe::new(&largest, [], Answer::Accepted),
        Recipe::new(
            &largest,
            [Edit::Cut(LARGEST - 1)],
            refused(1, LARGEST - END),
        ),
        Recipe::new(
            &largest,
            [Edit::Cut(LARGEST - 2)],
            refused(1, LARGEST - END),
        ),
    ];
    for count in [1, 2, 3, 4, 46, 2000, 18_420, 18_421, 100_000, 1_000_000] {
        let edit = Edit::Behind(count, b'S');
        recipes.push(Recipe::new(&largest, [edit], refused(7, LARGEST)));
        let wrong = [edit, Edit::Byte(LARGEST - 1, 0)];
        recipes.push(Recipe::new(&largest, wrong, refused(2, LARGEST - END)));
    }
    // Long inputs whose scene ends early, or never begins.
    for length in [47_115, 47_116, 47_117, 47_118, 65_536, 65_537, 300_000] {
        for scene in [smallest(), two_triangles(), small_force()].map(Arc::new) {
            let end = end_place(scene.cells.len()) + END;
            let edit = Edit::Behind(length - end, 0);
            recipes.push(Recipe::new(&scene, [edit], refused(7, end)));
            recipes.push(Recipe::new(&scene, [edit, Edit::Half(0, 0)], refused(2, 0)));
        }
    }
    recipes
}
