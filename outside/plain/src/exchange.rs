//! The exchange: leaves go up to their roots, totals come back down, by the alternating bit.

use crate::element::{Element, Words};
use crate::media::{Frame, Item, Medium};
use crate::plan::{Plan, link};
use crate::scene::BOARDS;

/// A run is given up after so many circles.
const MAX_CIRCLES: usize = 100_000;

/// How far a link has come.
#[derive(Clone, Copy, Debug, Default, PartialEq, Eq)]
struct Link {
    /// How many items the sender knows to have arrived.
    known: usize,
    /// How many items the receiver has accepted.
    accepted: usize,
}

/// What one turn did; lost puts are those that the medium answered with none.
#[derive(Clone, Copy, Debug, Default, PartialEq, Eq)]
pub struct Turn {
    pub taken: usize,
    pub accepted: usize,
    pub puts: usize,
    pub lost: usize,
}

/// What all turns did.
#[derive(Clone, Copy, Debug, Default, PartialEq, Eq)]
pub struct Tally {
    pub turns: usize,
    pub puts: usize,
    pub lost: usize,
    pub accepted: usize,
}

impl Tally {
    fn add(&mut self, turn: Turn) {
        self.turns += 1;
        self.puts += turn.puts;
        self.lost += turn.lost;
        self.accepted += turn.accepted;
    }
}

/// A run of the exchange over one medium.
#[derive(Clone, Debug)]
pub struct Run<'a, E, M> {
    plan: &'a Plan,
    medium: M,
    copies: Vec<E>,
    links: [Link; BOARDS * BOARDS],
    tally: Tally,
}

impl<'a, E: Element, M: Medium> Run<'a, E, M> {
    /// Starts from the own sums, over a medium in which nothing waits.
    pub fn start(plan: &'a Plan, own_sums: Vec<E>, medium: M) -> Run<'a, E, M> {
        Run {
            plan,
            medium,
            copies: own_sums,
            links: [Link::default(); BOARDS * BOARDS],
            tally: Tally::default(),
        }
    }

    pub fn plan(&self) -> &Plan {
        self.plan
    }

    pub fn copies(&self) -> &[E] {
        &self.copies
    }

    pub fn tally(&self) -> Tally {
        self.tally
    }

    /// Makes whole circles of turns until all boards are settled, or too many were made.
    pub fn settle(&mut self) {
        for _ in 0..MAX_CIRCLES {
            if self.all_settled() {
                return;
            }
            for board in 0..self.plan.boards() {
                self.turn(board);
            }
        }
    }

    pub fn all_settled(&self) -> bool {
        (0..self.plan.boards()).all(|board| self.awaits(board).is_none())
    }

    /// The lowest board from which this board lacks items.
    pub fn awaits(&self, board: usize) -> Option<usize> {
        self.others(board)
            .find(|&other| self.links[link(other, board)].accepted < self.plan.items(other, board))
    }

    /// One turn of a board: it empties the lanes to it, then puts at most a frame in each lane.
    pub fn turn(&mut self, board: usize) -> Turn {
        let mut turn = Turn::default();
        let mut owes_reply = [false; BOARDS];
        for other in self.others(board) {
            owes_reply[other] = self.receive(board, other, &mut turn);
        }
        let gathered = self.has_gathered(board);
        for other in self.others(board) {
            let item = self.next_item(board, other, gathered);
            if item.is_none() && !owes_reply[other] {
                continue;
            }
            let reply = is_odd(self.links[link(other, board)].accepted);
            turn.puts += 1;
            if self.medium.put(board, other, Frame { reply, item }) == 0 {
                turn.lost += 1;
            }
        }
        self.tally.add(turn);
        turn
    }

    fn others(&self, board: usize) -> impl Iterator<Item = usize> + use<E, M> {
        (0..self.plan.boards()).filter(move |&other| other != board)
    }

    /// Whether the board has joined all leaves that hang on its roots.
    fn has_gathered(&self, board: usize) -> bool {
        self.others(board)
            .all(|other| self.links[link(other, board)].accepted >= self.plan.up(other, board))
    }

    /// Takes all that waits from another board; answers whether an item was among it.
    fn receive(&mut self, board: usize, other: usize, turn: &mut Turn) -> bool {
        let items = self.plan.items(board, other);
        let mut item_taken = false;
        for _ in 0..self.medium.waiting(other, board) {
            let Some(frame) = self.medium.take(other, board) else {
                break;
            };
            turn.taken += 1;
            let known = &mut self.links[link(board, other)].known;
            if *known < items && frame.reply != is_odd(*known) {
                *known += 1;
            }
            let Some(item) = frame.item else {
                continue;
            };
            // An item that is dropped is replied to as well: its sender may have missed the reply.
            item_taken = true;
            let accepted = &mut self.links[link(other, board)].accepted;
            if *accepted < items && item.bit == is_odd(*accepted) {
                let number = *accepted;
                *accepted += 1;
                turn.accepted += 1;
                self.accept(board, other, number, item.words);
            }
        }
        item_taken
    }

    /// Joins an item that came up into its root, or lets one that came down replace its leaf.
    fn accept(&mut self, board: usize, other: usize, number: usize, words: Words) {
        let value = E::unpack(words);
        match number.checked_sub(self.plan.up(other, board)) {
            None => {
                let edge = self.plan.edges_between(other, board)[number];
                let root = &mut self.copies[usize::from(edge.root)];
                *root = root.join(value);
            }
            Some(number) => {
                let edge = self.plan.edges_between(board, other)[number];
                self.copies[usize::from(edge.leaf)] = value;
            }
        }
    }

    /// The item that is due to another board; totals wait until the board has gathered.
    fn next_item(&self, board: usize, other: usize, gathered: bool) -> Option<Item> {
        let known = self.links[link(board, other)].known;
        let copy = match known.checked_sub(self.plan.up(board, other)) {
            None => self.plan.edges_between(board, other)[known].leaf,
            Some(number) if gathered => self.plan.edges_between(other, board).get(number)?.root,
            Some(_) => return None,
        };
        Some(Item {
            bit: is_odd(known),
            words: self.copies[usize::from(copy)].pack(),
        })
    }
}

fn is_odd(count: usize) -> bool {
    count % 2 == 1
}
