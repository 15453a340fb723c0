//! Which boards keep copies of which vertices, and how the copies hang together.

use std::ops::{BitOr, BitOrAssign, Range};

use crate::refusal::Refusal;
use crate::scene::{BOARDS, Cell, Scene};

const LINKS: usize = BOARDS * BOARDS;

/// A board's copy of a vertex.
#[derive(Clone, Copy, Debug, PartialEq, Eq)]
pub struct CopyRecord {
    pub board: u8,
    pub vertex: u16,
}

/// A ghost's tie to its root: both boards, the vertex, and the numbers of both copies.
#[derive(Clone, Copy, Debug, PartialEq, Eq)]
pub struct Edge {
    pub from: u8,
    pub to: u8,
    pub vertex: u16,
    pub leaf: u16,
    pub root: u16,
}

/// For how many records there is room.
#[derive(Clone, Copy, Debug, PartialEq, Eq)]
pub struct Room {
    pub copies: usize,
    pub edges: usize,
}

impl Room {
    pub const UNBOUNDED: Room = Room {
        copies: usize::MAX,
        edges: usize::MAX,
    };
}

/// The number of the link from one board to another.
#[inline]
pub fn link(from: usize, to: usize) -> usize {
    BOARDS * from + to
}

/// All copies by board, then vertex; all edges by leaf board, root board, then vertex.
#[derive(Clone, Debug)]
pub struct Plan {
    boards: usize,
    vertices: usize,
    copies: Vec<CopyRecord>,
    edges: Vec<Edge>,
    /// The number of each board's copy of each vertex; without meaning where there is none.
    numbers: Vec<u16>,
    /// Before which copy each board's copies begin, and where the last board's end.
    board_starts: [usize; BOARDS + 1],
    /// The same for the edges of each link.
    link_starts: [usize; LINKS + 1],
}

impl Plan {
    /// Lays the plan of a scene, unless its records are more than there is room for.
    pub fn lay(scene: &Scene, room: Room) -> Result<Plan, Refusal> {
        let owning = owning_boards(scene);
        let keeping = keeping_boards(scene, &owning);
        let needed = keeping.iter().map(|boards| boards.len()).sum();
        if needed > room.copies {
            return Err(Refusal::Copies { needed });
        }
        let copies = Vec::with_capacity(needed);
        let roots = owning.iter().filter_map(|boards| boards.lowest()).count();
        let needed = needed - roots;
        if needed > room.edges {
            return Err(Refusal::Edges { needed });
        }
        let mut plan = Plan {
            boards: scene.boards,
            vertices: scene.vertices,
            copies,
            edges: Vec::with_capacity(needed),
            numbers: vec![0; scene.boards * scene.vertices],
            board_starts: [0; BOARDS + 1],
            link_starts: [0; LINKS + 1],
        };
        let roots = plan.number_copies(&owning, &keeping, roots);
        plan.draw_edges(&roots, &keeping);
        Ok(plan)
    }

    pub fn boards(&self) -> usize {
        self.boards
    }

    pub fn copies(&self) -> &[CopyRecord] {
        &self.copies
    }

    pub fn edges(&self) -> &[Edge] {
        &self.edges
    }

    /// Which of the copies are this board's.
    pub fn board_part(&self, board: usize) -> Range<usize> {
        self.board_starts[board]..self.board_starts[board + 1]
    }

    /// The edges from one leaf board to one root board.
    #[inline]
    pub fn edges_between(&self, leaf: usize, root: usize) -> &[Edge] {
        let link = link(leaf, root);
        &self.edges[self.link_starts[link]..self.link_starts[link + 1]]
    }

    /// How many edges go from one leaf board to one root board.
    #[inline]
    pub fn up(&self, leaf: usize, root: usize) -> usize {
        let link = link(leaf, root);
        self.link_starts[link + 1] - self.link_starts[link]
    }

    /// How many items the link between two boards carries, each way.
    #[inline]
    pub fn items(&self, from: usize, to: usize) -> usize {
        self.up(from, to) + self.up(to, from)
    }

    /// The number of a copy that the board is known to keep.
    #[inline]
    pub fn number(&self, board: u8, vertex: u16) -> usize {
        self.numbers[self.slot(board, vertex)].into()
    }

    fn slot(&self, board: u8, vertex: u16) -> usize {
        usize::from(board) * self.vertices + usize::from(vertex)
    }

    /// Writes all copies and answers those of them that are roots, in the same order.
    fn number_copies(
        &mut self,
        owning: &[BoardSet],
        keeping: &[BoardSet],
        roots: usize,
    ) -> Vec<CopyRecord> {
        let mut root_copies = Vec::with_capacity(roots);
        for board in 0..self.boards as u8 {
            let first = self.slot(board, 0);
            let numbers = &mut self.numbers[first..][..self.vertices];
            for (vertex, number) in (0..).zip(numbers) {
                if !keeping[usize::from(vertex)].has(board) {
                    continue;
                }
                *number = self.copies.len() as u16;
                let copy = CopyRecord { board, vertex };
                self.copies.push(copy);
                if owning[usize::from(vertex)].lowest() == Some(board) {
                    root_copies.push(copy);
                }
            }
            self.board_starts[usize::from(board) + 1..].fill(self.copies.len());
        }
        root_copies
    }

    /// Writes all edges: one pass over the roots for each leaf board.
    fn draw_edges(&mut self, roots: &[CopyRecord], keeping: &[BoardSet]) {
        let mut counts = [0; LINKS];
        for from in 0..self.boards as u8 {
            for &CopyRecord { board: to, vertex } in roots {
                if to == from || !keeping[usize::from(vertex)].has(from) {
                    continue;
                }
                counts[link(from.into(), to.into())] += 1;
                self.edges.push(Edge {
                    from,
                    to,
                    vertex,
                    leaf: self.numbers[self.slot(from, vertex)],
                    root: self.numbers[self.slot(to, vertex)],
                });
            }
        }
        for (link, count) in counts.into_iter().enumerate() {
            self.link_starts[link + 1] = self.link_starts[link] + count;
        }
    }
}

/// For each vertex the boards that own a cell on it.
fn owning_boards(scene: &Scene) -> Vec<BoardSet> {
    let mut owning = vec![BoardSet::default(); scene.vertices];
    for cell in &scene.cells {
        for vertex in corners(cell) {
            owning[vertex] |= BoardSet::of(cell.board);
        }
    }
    owning
}

/// For each vertex the boards that keep a copy of it: each layer is one pass over the cells.
fn keeping_boards(scene: &Scene, owning: &[BoardSet]) -> Vec<BoardSet> {
    let mut keeping = owning.to_vec();
    let mut inner = owning.to_vec();
    for _ in 0..scene.overlap {
        inner.copy_from_slice(&keeping);
        for cell in &scene.cells {
            let [a, b, c] = corners(cell);
            let near = inner[a] | inner[b] | inner[c];
            keeping[a] |= near;
            keeping[b] |= near;
            keeping[c] |= near;
        }
    }
    keeping
}

fn corners(cell: &Cell) -> [usize; 3] {
    cell.corners.map(usize::from)
}

/// A set of boards, one bit each.
#[derive(Clone, Copy, Debug, Default, PartialEq, Eq)]
struct BoardSet(u8);

impl BoardSet {
    fn of(board: u8) -> BoardSet {
        BoardSet(1 << board)
    }

    fn has(self, board: u8) -> bool {
        self.0 >> board & 1 == 1
    }

    fn len(self) -> usize {
        self.0.count_ones() as usize
    }

    fn lowest(self) -> Option<u8> {
        (self.0 != 0).then(|| self.0.trailing_zeros() as u8)
    }
}

impl BitOr for BoardSet {
    type Output = BoardSet;

    fn bitor(self, other: BoardSet) -> BoardSet {
        BoardSet(self.0 | other.0)
    }
}

impl BitOrAssign for BoardSet {
    fn bitor_assign(&mut self, other: BoardSet) {
        self.0 |= other.0;
    }
}
