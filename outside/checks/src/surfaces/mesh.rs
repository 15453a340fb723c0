//! Triangulated surfaces, and how they are divided among boards.

use crate::bytes::MOST;
use crate::random::Random;

/// A triangle: its corners, where on the surface it lies, and whose it is.
#[derive(Clone, Debug)]
pub struct Patch {
    pub corners: [u16; 3],
    pub spot: (usize, usize),
    pub board: u8,
}

impl Patch {
    pub fn new(corners: [usize; 3], spot: (usize, usize)) -> Patch {
        Patch {
            corners: corners.map(|corner| corner as u16),
            spot,
            board: 0,
        }
    }
}

#[derive(Clone, Debug)]
pub struct Surface {
    pub vertices: usize,
    /// Columns and rows; every patch's spot is within.
    pub extent: (usize, usize),
    pub patches: Vec<Patch>,
}

#[derive(Clone, Copy, Debug)]
pub enum Division {
    Bands,
    Blocks,
    Stretches,
    Turns,
    Scattered,
}

impl Division {
    pub fn drawn(random: &mut Random) -> Division {
        random.pick(&[
            Division::Bands,
            Division::Blocks,
            Division::Stretches,
            Division::Turns,
            Division::Scattered,
        ])
    }
}

impl Surface {
    pub fn divide(&mut self, division: Division, owners: &[u8], random: &mut Random) {
        let (count, (columns, rows)) = (owners.len(), self.extent);
        let (patches, half) = (self.patches.len(), count.div_ceil(2));
        for (number, patch) in self.patches.iter_mut().enumerate() {
            let (column, row) = patch.spot;
            let owner = match division {
                Division::Bands => column * count / columns,
                Division::Blocks => (row * 2 / rows) * half + column * half / columns,
                Division::Stretches => number * count / patches,
                Division::Turns => number,
                Division::Scattered => random.below(count),
            };
            patch.board = owners[owner % count];
        }
    }

    /// Half of the surfaces get some vertices that lie on no cell.
    pub fn or_more_vertices(mut self, random: &mut Random) -> Surface {
        if random.one_in(2) {
            self.vertices = random.within(self.vertices..=MOST);
        }
        self
    }

    /// This surface and another one beside it.
    pub fn beside(mut self, other: Surface) -> Surface {
        let before = self.vertices as u16;
        self.patches
            .extend(other.patches.into_iter().map(|patch| Patch {
                corners: patch.corners.map(|corner| corner + before),
                ..patch
            }));
        self.vertices += other.vertices;
        self
    }

    /// Other numbers for the vertices, another order of the cells and of their corners: the
    /// rules must not depend on any of these.
    pub fn shuffle(&mut self, random: &mut Random) {
        if random.one_in(2) {
            let mut numbers: Vec<u16> = (0..self.vertices as u16).collect();
            random.shuffle(&mut numbers);
            for patch in &mut self.patches {
                patch.corners = patch.corners.map(|corner| numbers[usize::from(corner)]);
            }
        }
        if random.one_in(3) {
            random.shuffle(&mut self.patches);
        }
        if random.one_in(2) {
            let patches = self.patches.iter_mut();
            patches.for_each(|patch| random.shuffle(&mut patch.corners));
        }
    }
}

pub fn strip(cells: usize) -> Surface {
    let patches = (0..cells).map(|n| Patch::new([n, n + 1, n + 2], (n, 0)));
    Surface {
        vertices: if cells == 0 { 0 } else { cells + 2 },
        extent: (cells.max(1), 1),
        patches: patches.collect(),
    }
}

/// A strip that goes round a ring of vertices, several times if there are more cells.
pub fn round_strip(cells: usize, vertices: usize) -> Surface {
    let patches = (0..cells).map(|n| {
        let corners = [n % vertices, (n + 1) % vertices, (n + 2) % vertices];
        Patch::new(corners, (n % vertices, 0))
    });
    Surface {
        vertices,
        extent: (vertices.max(1), 1),
        patches: patches.collect(),
    }
}

/// Squares in rows, each of two triangles; the last row need not be full.
pub fn grid(cells: usize, random: &mut Random) -> Surface {
    let squares = cells.div_ceil(2).max(1);
    // From half the root on, even 512 squares stay within 1,024 vertices.
    let root = squares.isqrt().max(1);
    let columns = random.within(root.div_ceil(2)..=root + 1);
    let rows = squares.div_ceil(columns);
    let corner = |column: usize, row: usize| row * (columns + 1) + column;
    let triangles = (0..squares).flat_map(|square| {
        let (column, row) = (square % columns, square / columns);
        let [a, b] = [corner(column, row), corner(column + 1, row)];
        let [c, d] = [corner(column, row + 1), corner(column + 1, row + 1)];
        let corners = if random.one_in(2) {
            [[a, b, c], [b, d, c]]
        } else {
            [[a, b, d], [a, d, c]]
        };
        corners.map(|corners| Patch::new(corners, (column, row)))
    });
    let patches: Vec<Patch> = triangles.take(cells).collect();
    Surface {
        vertices: (columns + 1) * (rows + 1),
        extent: (columns, rows),
        patches,
    }
}

/// Triangles about vertex 0; with the most cells they go round more than once.
pub fn fan(cells: usize) -> Surface {
    let rim = (cells + 1).min(MOST - 1);
    let patches = (0..cells).map(|n| Patch::new([0, 1 + n % rim, 1 + (n + 1) % rim], (n, 0)));
    Surface {
        vertices: rim + 1,
        extent: (cells.max(1), 1),
        patches: patches.collect(),
    }
}

pub fn triples(cells: usize, vertices: usize, random: &mut Random) -> Surface {
    let patches = (0..cells).map(|n| Patch::new(triple(vertices, random), (n, 0)));
    Surface {
        vertices,
        extent: (cells.max(1), 1),
        patches: patches.collect(),
    }
}

pub fn triple(vertices: usize, random: &mut Random) -> [usize; 3] {
    loop {
        let [a, b, c] = std::array::from_fn(|_| random.below(vertices));
        if a != b && a != c && b != c {
            return [a, b, c];
        }
    }
}
