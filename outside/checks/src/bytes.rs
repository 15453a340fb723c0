//! The writer of scenes: a scene's fields, as they are, to bytes.

pub const HEADER: usize = 10;
pub const CELL: usize = 46;
pub const END: usize = 2;
pub const MOST: usize = 1024;
pub const BOARDS: usize = 8;
pub const LARGEST: usize = HEADER + CELL * MOST + END;

pub const HEADER_MARK: [u8; 2] = *b"SC";
pub const CELL_MARK: [u8; 2] = *b"CE";
pub const END_MARK: [u8; 2] = *b"EN";

#[derive(Clone, Copy, Debug, PartialEq, Eq, Hash)]
pub enum Kind {
    Force,
    Depth,
    Tags,
}

impl Kind {
    pub const ALL: [Kind; 3] = [Kind::Force, Kind::Depth, Kind::Tags];

    pub fn number(self) -> u8 {
        match self {
            Kind::Force => 1,
            Kind::Depth => 2,
            Kind::Tags => 3,
        }
    }

    /// How many of a contribution's words the kind uses.
    pub fn used(self) -> usize {
        match self {
            Kind::Force => 3,
            Kind::Depth => 1,
            Kind::Tags => 2,
        }
    }
}

#[derive(Clone, Debug, PartialEq, Eq)]
pub struct Cell {
    pub board: u8,
    pub corners: [u16; 3],
    pub words: [[u32; 3]; 3],
}

/// A scene's fields. Nothing is checked: a scene that breaks the format is written all the same.
#[derive(Clone, Debug, PartialEq, Eq)]
pub struct Scene {
    pub kind: Kind,
    pub boards: u8,
    pub overlap: u8,
    pub vertices: u16,
    pub cells: Vec<Cell>,
}

impl Scene {
    pub fn bytes(&self) -> Vec<u8> {
        let mut bytes = Vec::with_capacity(end_place(self.cells.len()) + END);
        bytes.extend(HEADER_MARK);
        bytes.extend([1, self.kind.number(), self.boards, self.overlap]);
        bytes.extend(self.vertices.to_le_bytes());
        bytes.extend((self.cells.len() as u16).to_le_bytes());
        for cell in &self.cells {
            bytes.extend(CELL_MARK);
            bytes.extend([cell.board, 0]);
            bytes.extend(cell.corners.iter().flat_map(|corner| corner.to_le_bytes()));
            bytes.extend(
                cell.words
                    .iter()
                    .flatten()
                    .flat_map(|word| word.to_le_bytes()),
            );
        }
        bytes.extend(END_MARK);
        bytes
    }
}

pub const VERSION_PLACE: usize = 2;
pub const KIND_PLACE: usize = 3;
pub const BOARDS_PLACE: usize = 4;
pub const OVERLAP_PLACE: usize = 5;
pub const VERTICES_PLACE: usize = 6;
pub const CELLS_PLACE: usize = 8;

pub fn cell_place(cell: usize) -> usize {
    HEADER + CELL * cell
}

pub fn board_place(cell: usize) -> usize {
    cell_place(cell) + 2
}

pub fn zero_place(cell: usize) -> usize {
    cell_place(cell) + 3
}

pub fn corner_place(cell: usize, corner: usize) -> usize {
    cell_place(cell) + 4 + 2 * corner
}

pub fn word_place(cell: usize, corner: usize, word: usize) -> usize {
    cell_place(cell) + 10 + 12 * corner + 4 * word
}

pub fn end_place(cells: usize) -> usize {
    cell_place(cells)
}

/// The two triangles of the documents: kind Depth, two boards, four vertices.
pub fn two_triangles() -> Scene {
    let depths = |depths: [u32; 3]| depths.map(|depth| [depth, 0, 0]);
    Scene {
        kind: Kind::Depth,
        boards: 2,
        overlap: 0,
        vertices: 4,
        cells: vec![
            Cell {
                board: 0,
                corners: [0, 1, 2],
                words: depths([5, 7, 1]),
            },
            Cell {
                board: 1,
                corners: [1, 3, 2],
                words: depths([4, 9, 6]),
            },
        ],
    }
}

/// The smallest scene of the documents: one board and nothing on it.
pub fn smallest() -> Scene {
    Scene {
        kind: Kind::Force,
        boards: 1,
        overlap: 0,
        vertices: 0,
        cells: Vec::new(),
    }
}

#[cfg(test)]
mod tests {
    use super::*;

    fn from_hex(text: &str) -> Vec<u8> {
        text.split_whitespace()
            .map(|byte| u8::from_str_radix(byte, 16).expect("two hexadecimal digits"))
            .collect()
    }

    #[test]
    fn the_smallest_scene_is_written_as_documented() {
        assert_eq!(
            smallest().bytes(),
            from_hex("53 43 01 01 01 00 00 00 00 00 45 4E")
        );
    }

    #[test]
    fn the_two_triangles_are_written_as_documented() {
        let documented = "53 43 01 02 02 00 04 00 02 00
            43 45 00 00   00 00 01 00 02 00
            05 00 00 00 00 00 00 00 00 00 00 00
            07 00 00 00 00 00 00 00 00 00 00 00
            01 00 00 00 00 00 00 00 00 00 00 00
            43 45 01 00   01 00 03 00 02 00
            04 00 00 00 00 00 00 00 00 00 00 00
            09 00 00 00 00 00 00 00 00 00 00 00
            06 00 00 00 00 00 00 00 00 00 00 00
            45 4E";
        assert_eq!(two_triangles().bytes(), from_hex(documented));
        assert_eq!(two_triangles().bytes().len(), 104);
    }

    #[test]
    fn places_are_as_documented() {
        assert_eq!(LARGEST, 47_116);
        assert_eq!(corner_place(1, 1), 62);
        assert_eq!(word_place(0, 0, 1), 24);
        assert_eq!(word_place(1, 2, 2), 98);
        assert_eq!(end_place(2), 102);
    }
}
