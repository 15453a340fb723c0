//! Scenes for the tests: the worked examples, and small ones by chance.

#![allow(dead_code)]

pub type Words = [u32; 3];

#[derive(Clone, Debug)]
pub struct Triangle {
    pub board: u8,
    pub corners: [u16; 3],
    pub contributions: [Words; 3],
}

#[derive(Clone, Debug)]
pub struct Model {
    pub kind: u8,
    pub boards: u8,
    pub overlap: u8,
    pub vertices: u16,
    pub cells: Vec<Triangle>,
}

impl Model {
    pub fn bytes(&self) -> Vec<u8> {
        let mut bytes = vec![0x53, 0x43, 1, self.kind, self.boards, self.overlap];
        bytes.extend(self.vertices.to_le_bytes());
        bytes.extend((self.cells.len() as u16).to_le_bytes());
        for cell in &self.cells {
            bytes.extend([0x43, 0x45, cell.board, 0]);
            bytes.extend(cell.corners.iter().flat_map(|c| c.to_le_bytes()));
            bytes.extend(
                cell.contributions
                    .iter()
                    .flatten()
                    .flat_map(|w| w.to_le_bytes()),
            );
        }
        bytes.extend([0x45, 0x4e]);
        bytes
    }
}

pub fn smallest() -> Vec<u8> {
    vec![0x53, 0x43, 1, 1, 1, 0, 0, 0, 0, 0, 0x45, 0x4e]
}

pub fn triangles() -> Model {
    let depths = |depths: [u32; 3]| depths.map(|depth| [depth, 0, 0]);
    Model {
        kind: 2,
        boards: 2,
        overlap: 0,
        vertices: 4,
        cells: vec![
            Triangle {
                board: 0,
                corners: [0, 1, 2],
                contributions: depths([5, 7, 1]),
            },
            Triangle {
                board: 1,
                corners: [1, 3, 2],
                contributions: depths([4, 9, 6]),
            },
        ],
    }
}

/// A small seeded generator (the step and the mixing of splitmix64).
pub struct Chance(u64);

impl Chance {
    pub fn new(seed: u64) -> Chance {
        Chance(seed)
    }

    pub fn word(&mut self) -> u32 {
        self.0 = self.0.wrapping_add(0x9e37_79b9_7f4a_7c15);
        let mixed = (self.0 ^ (self.0 >> 30)).wrapping_mul(0xbf58_476d_1ce4_e5b9);
        let mixed = (mixed ^ (mixed >> 27)).wrapping_mul(0x94d0_49bb_1331_11eb);
        (mixed >> 32) as u32
    }

    /// A number below the limit.
    pub fn below(&mut self, limit: u32) -> u32 {
        self.word() % limit
    }

    pub fn model(&mut self) -> Model {
        let kind = 1 + self.below(3) as u8;
        let boards = 1 + self.below(8) as u8;
        let vertices = 3 + self.below(28) as u16;
        let cells = self.below(31);
        Model {
            kind,
            boards,
            overlap: self.below(5) as u8,
            vertices,
            cells: (0..cells)
                .map(|_| self.triangle(kind, boards, vertices))
                .collect(),
        }
    }

    fn triangle(&mut self, kind: u8, boards: u8, vertices: u16) -> Triangle {
        let mut contributions = [[0; 3]; 3];
        let used = [3, 1, 2][usize::from(kind) - 1];
        for contribution in &mut contributions {
            contribution[..used].fill_with(|| self.word());
        }
        Triangle {
            board: self.below(boards.into()) as u8,
            corners: self.corners(vertices.into()),
            contributions,
        }
    }

    /// Three different vertices that mostly lie near to each other, so that layers differ.
    fn corners(&mut self, vertices: u32) -> [u16; 3] {
        loop {
            let first = self.below(vertices);
            let corners = [0, 4, 4].map(|spread| {
                let step = if spread == 0 { 0 } else { self.below(spread) };
                ((first + step) % vertices) as u16
            });
            let [a, b, c] = corners;
            if a != b && a != c && b != c {
                return corners;
            }
        }
    }
}
