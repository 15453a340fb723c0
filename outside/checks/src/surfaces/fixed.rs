//! Scenes that are made for a purpose, each by its number or sizes.

use super::mesh::{Division, Patch, Surface, fan, grid, round_strip, strip, triples};
use super::{Head, all};
use crate::bytes::{BOARDS, Kind, MOST, Scene};
use crate::random::Random;

/// A scene of a row that meets every count of cells, and every count of vertices.
pub fn sized(number: usize) -> Scene {
    let random = &mut Random::of("sizes", 0, number);
    let (cells, vertices) = match number.checked_sub(MOST + 1) {
        // A cell needs three vertices, so the scenes with fewer stand behind the others.
        Some(vertices) => (0, vertices),
        None => match (number * 389 + 200) % (MOST + 1) {
            few @ 0..3 => (number, few + 511),
            vertices => (number, vertices),
        },
    };
    let head = Head {
        kind: Kind::ALL[number % 3],
        boards: 1 + number % BOARDS,
        overlap: number % 5,
    };
    let mut surface = round_strip(cells, vertices);
    surface.divide(Division::Bands, &all(head.boards), random);
    head.scene(surface, random)
}

/// From 0 to the most cells, and from 0 to 2 vertices.
pub const SIZES: usize = MOST + 1 + 3;

/// A scene whose plan has exactly so many copies, where there is one of this sort: a fan that
/// all boards keep whole, and beside it a strip that only one board keeps.
pub fn roomy(boards: usize, copies: usize, overlap: usize) -> Option<Scene> {
    let random = &mut Random::of("room", overlap as u64, boards * 10_000 + copies);
    let (mut shared, mut alone) = (copies / boards, copies % boards);
    while alone == 1 || alone == 2 {
        (shared, alone) = (shared - 1, alone + boards);
    }
    if shared + alone > MOST {
        return None;
    }
    let mut surface = fan(shared - 2);
    surface.divide(Division::Turns, &all(boards), random);
    if alone > 0 {
        let mut beside = strip(alone - 2);
        beside.divide(Division::Turns, &[random.below(boards) as u8], random);
        surface = surface.beside(beside);
    }
    let head = Head {
        kind: random.pick(&Kind::ALL),
        boards,
        overlap,
    };
    Some(head.scene(surface, random))
}

/// How many copies the programs have room for.
pub const ROOM: usize = 4096;

/// Drawn surfaces that just fit into the room (even numbers), or no more by one cell (odd ones).
pub fn near_room(number: usize) -> Scene {
    let random = &mut Random::of("near", 0, number / 2);
    let boards = random.within(5..=BOARDS);
    let vertices = random.within(5000 / boards..=MOST);
    let (boards, mut surface) = match random.below(3) {
        0 => (BOARDS, grid(MOST, random)),
        1 => (boards, triples(MOST, vertices, random)),
        _ => (boards, round_strip(MOST, vertices)),
    };
    let head = Head {
        kind: random.pick(&Kind::ALL),
        boards,
        overlap: random.within(2..=4),
    };
    surface.divide(Division::Scattered, &all(head.boards), random);
    let mut scene = head.scene(surface, random);
    // A cell more never takes a copy away.
    let (mut fits, mut over) = (0, scene.cells.len() + 1);
    while over - fits > 1 {
        let middle = fits.midpoint(over);
        if fits_room(&scene, middle) {
            fits = middle
        } else {
            over = middle
        }
    }
    scene
        .cells
        .truncate(if number.is_multiple_of(2) { fits } else { over });
    scene
}

fn fits_room(scene: &Scene, cells: usize) -> bool {
    let cells = scene.cells[..cells].to_vec();
    let part = Scene { cells, ..*scene };
    plain::sizes(&part.bytes()).is_some_and(|sizes| sizes.copies <= ROOM)
}

/// A strip of so many cells on three boards; what the damaged scenes are made from.
pub fn base(kind: Kind, cells: usize, overlap: usize) -> Scene {
    let random = &mut Random::of("base", kind.number().into(), cells);
    let mut surface = round_strip(cells, (cells + 2).min(MOST));
    surface.divide(Division::Turns, &all(3), random);
    Head {
        kind,
        boards: 3,
        overlap,
    }
    .scene_in_order(surface, random)
}

/// A surface closed both ways, of twice as many triangles as squares, on scattered boards. A
/// vertex for every two cells, and with overlap 1 almost every board keeps it: so the plan grows
/// as the cells do.
pub fn closed(columns: usize, rows: usize, kind: Kind) -> Scene {
    let random = &mut Random::of("closed", columns as u64, rows);
    let corner = |column: usize, row: usize| row % rows * columns + column % columns;
    let triangles = (0..columns * rows).flat_map(|square| {
        let (column, row) = (square % columns, square / columns);
        let [a, b] = [corner(column, row), corner(column + 1, row)];
        let [c, d] = [corner(column, row + 1), corner(column + 1, row + 1)];
        [[a, b, c], [b, d, c]].map(|corners| Patch::new(corners, (column, row)))
    });
    let mut surface = Surface {
        vertices: columns * rows,
        extent: (columns, rows),
        patches: triangles.collect(),
    };
    surface.divide(Division::Scattered, &all(BOARDS), random);
    let head = Head {
        kind,
        boards: BOARDS,
        overlap: 1,
    };
    head.scene_in_order(surface, random)
}
