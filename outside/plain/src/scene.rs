//! A scene, checked while it is read from its bytes.

use crate::element::{Kind, Words};
use crate::refusal::Refusal;

/// No scene has more boards than this.
pub const BOARDS: usize = 8;
pub const CORNERS: usize = 3;

const VERSION: u8 = 1;
const MAX_OVERLAP: u8 = 4;
const MAX_VERTICES: u16 = 1_024;
const MAX_CELLS: u16 = 1_024;

const HEADER_LENGTH: usize = 10;
const CELL_LENGTH: usize = 46;
const END_LENGTH: usize = 2;

/// A triangle of the surface and what it contributes at each corner.
#[derive(Clone, Copy, Debug, PartialEq, Eq)]
pub struct Cell {
    pub board: u8,
    pub corners: [u16; CORNERS],
    pub contributions: [Words; CORNERS],
}

/// A scene that keeps all rules: boards and corners are in range, corners differ.
#[derive(Clone, Debug, PartialEq, Eq)]
pub struct Scene {
    pub kind: Kind,
    pub boards: usize,
    pub overlap: usize,
    pub vertices: usize,
    pub cells: Vec<Cell>,
}

impl Scene {
    /// Reads a scene; the first rule that does not hold refuses the bytes.
    pub fn read(bytes: &[u8]) -> Result<Scene, Refusal> {
        let header = Header::read(bytes)?;
        let mut cells = Vec::with_capacity(header.cells.into());
        let mut start = HEADER_LENGTH;
        for _ in 0..header.cells {
            cells.push(read_cell(bytes, start, &header)?);
            start += CELL_LENGTH;
        }
        read_end(bytes, start)?;
        Ok(Scene {
            kind: header.kind,
            boards: header.boards.into(),
            overlap: header.overlap.into(),
            vertices: header.vertices.into(),
            cells,
        })
    }
}

struct Header {
    kind: Kind,
    boards: u8,
    overlap: u8,
    vertices: u16,
    cells: u16,
}

impl Header {
    fn read(bytes: &[u8]) -> Result<Header, Refusal> {
        let record = record::<HEADER_LENGTH>(bytes, 0, *b"SC")?;
        let fault = |place| Refusal::Header { place };
        ensure(record[2] == VERSION, fault(2))?;
        let kind = Kind::from_number(record[3]).ok_or(fault(3))?;
        let boards = record[4];
        ensure((1..=BOARDS).contains(&boards.into()), fault(4))?;
        let overlap = record[5];
        ensure(overlap <= MAX_OVERLAP, fault(5))?;
        let vertices = u16_at(record, 6);
        ensure(vertices <= MAX_VERTICES, fault(6))?;
        let cells = u16_at(record, 8);
        ensure(cells <= MAX_CELLS, fault(8))?;
        Ok(Header {
            kind,
            boards,
            overlap,
            vertices,
            cells,
        })
    }
}

fn read_cell(bytes: &[u8], start: usize, header: &Header) -> Result<Cell, Refusal> {
    let record = record::<CELL_LENGTH>(bytes, start, *b"CE")?;
    let fault = |offset| Refusal::Cell {
        place: start + offset,
    };
    let board = record[2];
    ensure(board < header.boards, fault(2))?;
    ensure(record[3] == 0, fault(3))?;
    let corner_offset = |k: usize| 4 + 2 * k;
    let corners: [u16; CORNERS] = std::array::from_fn(|k| u16_at(record, corner_offset(k)));
    for (k, &corner) in corners.iter().enumerate() {
        ensure(corner < header.vertices, fault(corner_offset(k)))?;
    }
    for (earlier, later) in [(0, 1), (0, 2), (1, 2)] {
        let place = start + corner_offset(later);
        ensure(
            corners[earlier] != corners[later],
            Refusal::Corners { place },
        )?;
    }
    let contributions = read_contributions(record, start, header.kind.used())?;
    Ok(Cell {
        board,
        corners,
        contributions,
    })
}

fn read_contributions(
    record: &[u8; CELL_LENGTH],
    start: usize,
    used: usize,
) -> Result<[Words; CORNERS], Refusal> {
    let mut contributions = [[0; 3]; CORNERS];
    for (k, contribution) in contributions.iter_mut().enumerate() {
        for (w, word) in contribution.iter_mut().enumerate() {
            let offset = 10 + 12 * k + 4 * w;
            *word = u32_at(record, offset);
            let place = start + offset;
            ensure(w < used || *word == 0, Refusal::Word { place })?;
        }
    }
    Ok(contributions)
}

fn read_end(bytes: &[u8], start: usize) -> Result<(), Refusal> {
    record::<END_LENGTH>(bytes, start, *b"EN")?;
    let place = start + END_LENGTH;
    ensure(bytes.len() == place, Refusal::Trailing { place })
}

/// The record of `N` bytes at `start`: its length is checked before its mark.
fn record<const N: usize>(bytes: &[u8], start: usize, mark: [u8; 2]) -> Result<&[u8; N], Refusal> {
    let record = bytes
        .get(start..)
        .and_then(|rest| rest.first_chunk::<N>())
        .ok_or(Refusal::Short { place: start })?;
    ensure(record.starts_with(&mark), Refusal::Mark { place: start })?;
    Ok(record)
}

fn ensure(holds: bool, refusal: Refusal) -> Result<(), Refusal> {
    if holds { Ok(()) } else { Err(refusal) }
}

fn u16_at(record: &[u8], offset: usize) -> u16 {
    u16::from_le_bytes([record[offset], record[offset + 1]])
}

fn u32_at(record: &[u8], offset: usize) -> u32 {
    u32::from_le_bytes([
        record[offset],
        record[offset + 1],
        record[offset + 2],
        record[offset + 3],
    ])
}
