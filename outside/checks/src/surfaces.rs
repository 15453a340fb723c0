//! Valid scenes: surfaces of several shapes, divided among boards in several ways.

mod fixed;
mod mesh;

use crate::bytes::{BOARDS, Cell, Kind, MOST, Scene};
use crate::random::Random;
use mesh::{Division, Patch, Surface, fan, grid, round_strip, strip, triple, triples};

pub use fixed::{ROOM, SIZES, base, closed, near_room, roomy, sized};

/// The families of scenes that are drawn by seed and number.
#[derive(Clone, Copy, Debug, PartialEq, Eq, Hash)]
pub enum Shape {
    /// A few cells on a few vertices, or none at all.
    Small,
    /// A strip of triangles, cut into stretches.
    Strip,
    /// A grid of triangles, in bands or blocks.
    Grid,
    /// A grid whose cells have scattered boards.
    Scatter,
    /// Random triples of corners.
    Triples,
    /// A fan about one vertex that all boards share.
    Fan,
    /// Some boards own nothing, and some vertices lie on no cell.
    Idle,
    /// Many cells on the same few corners.
    Same,
    /// Several surfaces apart.
    Pieces,
    /// As many cells and vertices as there may be.
    Large,
}

impl Shape {
    pub const ALL: [Shape; 10] = [
        Shape::Small,
        Shape::Strip,
        Shape::Grid,
        Shape::Scatter,
        Shape::Triples,
        Shape::Fan,
        Shape::Idle,
        Shape::Same,
        Shape::Pieces,
        Shape::Large,
    ];

    pub fn name(self) -> &'static str {
        match self {
            Shape::Small => "small",
            Shape::Strip => "strip",
            Shape::Grid => "grid",
            Shape::Scatter => "scatter",
            Shape::Triples => "triples",
            Shape::Fan => "fan",
            Shape::Idle => "idle",
            Shape::Same => "same",
            Shape::Pieces => "pieces",
            Shape::Large => "large",
        }
    }

    pub fn named(name: &str) -> Option<Shape> {
        Shape::ALL.into_iter().find(|shape| shape.name() == name)
    }

    /// The scene of this shape that the seed and the number stand for.
    pub fn scene(self, seed: u64, number: usize) -> Scene {
        let random = &mut Random::of(self.name(), seed, number);
        let head = Head::drawn(random);
        let surface = self.surface(head.boards, random);
        head.scene(surface, random)
    }

    fn surface(self, boards: usize, random: &mut Random) -> Surface {
        match self {
            Shape::Small => small(boards, random),
            Shape::Strip => {
                let mut surface = strip(size(random).min(MOST - 2));
                surface.divide(Division::Stretches, &all(boards), random);
                surface.or_more_vertices(random)
            }
            Shape::Grid => {
                let mut surface = grid(size(random), random);
                let division = random.pick(&[Division::Bands, Division::Blocks]);
                surface.divide(division, &all(boards), random);
                surface.or_more_vertices(random)
            }
            Shape::Scatter => {
                let mut surface = grid(size(random), random);
                surface.divide(Division::Scattered, &all(boards), random);
                surface
            }
            Shape::Triples => {
                let cells = size(random);
                let vertices = random.within(3..=MOST.min(2 * cells + 3));
                let mut surface = triples(cells, vertices, random);
                surface.divide(Division::drawn(random), &all(boards), random);
                surface
            }
            Shape::Fan => {
                let mut surface = fan(size(random).max(boards));
                surface.divide(Division::Turns, &all(boards), random);
                surface.or_more_vertices(random)
            }
            Shape::Idle => idle(boards, random),
            Shape::Same => same(boards, random),
            Shape::Pieces => pieces(boards, random),
            Shape::Large => large(boards, random),
        }
    }
}

/// What a scene's header says, but for the counts.
#[derive(Clone, Copy, Debug)]
struct Head {
    kind: Kind,
    boards: usize,
    overlap: usize,
}

impl Head {
    fn drawn(random: &mut Random) -> Head {
        Head {
            kind: random.pick(&Kind::ALL),
            boards: random.within(1..=BOARDS),
            overlap: random.within(0..=4),
        }
    }

    fn scene(self, mut surface: Surface, random: &mut Random) -> Scene {
        surface.shuffle(random);
        self.scene_in_order(surface, random)
    }

    fn scene_in_order(self, surface: Surface, random: &mut Random) -> Scene {
        let cell = |patch: Patch| Cell {
            board: patch.board,
            corners: patch.corners,
            words: words(self.kind, random),
        };
        Scene {
            kind: self.kind,
            boards: self.boards as u8,
            overlap: self.overlap as u8,
            vertices: surface.vertices as u16,
            cells: surface.patches.into_iter().map(cell).collect(),
        }
    }
}

/// Contributions at three corners, often extreme, so that sums of forces wrap.
fn words(kind: Kind, random: &mut Random) -> [[u32; 3]; 3] {
    let mut words = [[0; 3]; 3];
    for contribution in &mut words {
        contribution[..kind.used()].fill_with(|| word(random));
    }
    words
}

fn word(random: &mut Random) -> u32 {
    match random.below(9) {
        0 => 0,
        1 => 1,
        2 => i32::MAX as u32,
        3 => 1 << 31,
        4 => u32::MAX,
        5 => random.below(10) as u32,
        6 => 1 << random.below(32),
        _ => random.draw() as u32,
    }
}

fn all(boards: usize) -> Vec<u8> {
    (0..boards as u8).collect()
}

/// A number of cells: small ones often, and now and then as many as there may be.
fn size(random: &mut Random) -> usize {
    match random.below(16) {
        0..=7 => random.within(0..=12),
        8..=12 => random.within(13..=160),
        13..=14 => random.within(161..=MOST),
        _ => MOST,
    }
}

fn small(boards: usize, random: &mut Random) -> Surface {
    let vertices = random.within(0..=9);
    let cells = if vertices < 3 {
        0
    } else {
        random.within(0..=7)
    };
    let mut surface = triples(cells, vertices, random);
    surface.divide(Division::Scattered, &all(boards), random);
    surface
}

fn idle(boards: usize, random: &mut Random) -> Surface {
    let mut owners = all(boards);
    random.shuffle(&mut owners);
    owners.truncate(random.within(1..=boards));
    let cells = size(random).min(MOST - 24);
    let mut surface = if random.one_in(2) {
        strip(cells)
    } else {
        grid(cells, random)
    };
    surface.divide(Division::drawn(random), &owners, random);
    surface.vertices = random.within(surface.vertices..=MOST);
    surface
}

fn same(boards: usize, random: &mut Random) -> Surface {
    let vertices = random.within(3..=12);
    let few: Vec<[usize; 3]> = (0..random.within(1..=4))
        .map(|_| triple(vertices, random))
        .collect();
    let patches = (0..size(random)).map(|n| {
        let mut corners = random.pick(&few);
        random.shuffle(&mut corners);
        Patch::new(corners, (n, 0))
    });
    let patches: Vec<Patch> = patches.collect();
    let extent = (patches.len().max(1), 1);
    let mut surface = Surface {
        vertices,
        extent,
        patches,
    };
    surface.divide(Division::drawn(random), &all(boards), random);
    surface
}

fn pieces(boards: usize, random: &mut Random) -> Surface {
    let count = random.within(2..=6);
    let cells = size(random).max(boards).min(MOST - 40 * count) / count;
    let owners = all(boards);
    let piece = |random: &mut Random| {
        let mut piece = match random.below(3) {
            0 => strip(cells),
            1 => grid(cells, random),
            _ => fan(cells),
        };
        let first = random.below(boards);
        piece.divide(Division::drawn(random), &owners[first..], random);
        piece
    };
    let first = piece(random);
    (1..count).fold(first, |surface, _| surface.beside(piece(random)))
}

fn large(boards: usize, random: &mut Random) -> Surface {
    let mut surface = match random.below(4) {
        0 => round_strip(MOST, MOST),
        1 => grid(MOST, random),
        2 => fan(MOST),
        _ => triples(MOST, MOST, random),
    };
    surface.divide(Division::drawn(random), &all(boards), random);
    surface.vertices = MOST;
    surface
}

#[cfg(test)]
mod tests {
    use super::*;
    use std::collections::BTreeSet;

    #[test]
    fn every_shape_s_scenes_are_accepted() {
        for shape in Shape::ALL {
            for number in 0..150 {
                let scene = shape.scene(1, number);
                let sizes = plain::sizes(&scene.bytes());
                assert!(sizes.is_some(), "{}/1/{number}", shape.name());
            }
        }
    }

    #[test]
    fn the_shapes_meet_all_boards_overlaps_and_kinds() {
        for shape in Shape::ALL {
            let scenes: Vec<Scene> = (0..300).map(|number| shape.scene(1, number)).collect();
            let boards: BTreeSet<u8> = scenes.iter().map(|scene| scene.boards).collect();
            let overlaps: BTreeSet<u8> = scenes.iter().map(|scene| scene.overlap).collect();
            let kinds: BTreeSet<u8> = scenes.iter().map(|scene| scene.kind.number()).collect();
            assert!(boards.into_iter().eq(1..=8), "{shape:?}");
            assert!(overlaps.into_iter().eq(0..=4), "{shape:?}");
            assert!(kinds.into_iter().eq(1..=3), "{shape:?}");
        }
    }

    #[test]
    fn sized_scenes_are_accepted_and_meet_every_count() {
        let (mut cells, mut vertices) = (BTreeSet::new(), BTreeSet::new());
        for number in 0..SIZES {
            let scene = sized(number);
            assert!(plain::sizes(&scene.bytes()).is_some(), "sizes/{number}");
            cells.insert(scene.cells.len());
            vertices.insert(usize::from(scene.vertices));
        }
        assert!(cells.into_iter().eq(0..=MOST));
        assert!(vertices.into_iter().eq(0..=MOST));
    }

    #[test]
    fn roomy_scenes_have_the_copies_asked_for() {
        for boards in 4..=8 {
            for copies in [4090, 4095, 4096, 4097, 4098, 4102] {
                let Some(scene) = roomy(boards, copies, 1 + copies % 4) else {
                    continue;
                };
                let sizes = plain::sizes(&scene.bytes()).expect("accepted");
                assert_eq!(sizes.copies, copies, "{boards} boards");
            }
        }
        assert!(roomy(8, ROOM, 1).is_some_and(|scene| scene.vertices == 512));
    }

    #[test]
    fn near_scenes_lie_on_both_sides_of_the_room() {
        for number in 0..20 {
            let sizes = plain::sizes(&near_room(number).bytes()).expect("accepted");
            assert_eq!(sizes.copies <= ROOM, number % 2 == 0, "near/{number}");
        }
    }

    #[test]
    fn closed_surfaces_almost_fill_the_room() {
        for (columns, rows, room) in [(32, 16, ROOM), (16, 8, ROOM / 4), (8, 4, ROOM / 16)] {
            let sizes = plain::sizes(&closed(columns, rows, Kind::Force).bytes());
            let copies = sizes.expect("accepted").copies;
            assert!(
                room * 9 / 10 < copies && copies <= room,
                "{copies} of {room}"
            );
        }
    }
}
