//! Media: lanes of waiting frames between boards, which may lose and double frames.

use crate::element::Words;
use crate::scene::BOARDS;

/// A value on its way, with the alternating bit of its number.
#[derive(Clone, Copy, Debug, PartialEq, Eq)]
pub struct Item {
    pub bit: bool,
    pub words: Words,
}

/// What one put sends: a reply bit and perhaps an item.
#[derive(Clone, Copy, Debug, Default, PartialEq, Eq)]
pub struct Frame {
    pub reply: bool,
    pub item: Option<Item>,
}

/// One lane from each board to each board; other boards have none.
pub trait Medium {
    /// Appends some copies of the frame, perhaps none, and answers how many.
    fn put(&mut self, from: usize, to: usize, frame: Frame) -> usize;

    /// Removes the oldest frame.
    fn take(&mut self, from: usize, to: usize) -> Option<Frame>;

    /// How many frames wait.
    fn waiting(&self, from: usize, to: usize) -> usize;
}

/// Loses nothing as long as its lanes are not full.
#[derive(Clone, Debug)]
pub struct Queue {
    lanes: Vec<Lane>,
}

const LANE_ROOM: usize = 8;

/// A ring of frames.
#[derive(Clone, Copy, Debug, Default)]
struct Lane {
    frames: [Frame; LANE_ROOM],
    first: usize,
    waiting: usize,
}

#[inline]
fn lane_number(from: usize, to: usize) -> Option<usize> {
    (from < BOARDS && to < BOARDS).then_some(BOARDS * from + to)
}

impl Queue {
    pub fn new() -> Queue {
        Queue {
            lanes: vec![Lane::default(); BOARDS * BOARDS],
        }
    }
}

impl Default for Queue {
    fn default() -> Queue {
        Queue::new()
    }
}

impl Medium for Queue {
    #[inline]
    fn put(&mut self, from: usize, to: usize, frame: Frame) -> usize {
        let Some(number) = lane_number(from, to) else {
            return 0;
        };
        let lane = &mut self.lanes[number];
        if lane.waiting == LANE_ROOM {
            return 0;
        }
        lane.frames[(lane.first + lane.waiting) % LANE_ROOM] = frame;
        lane.waiting += 1;
        1
    }

    #[inline]
    fn take(&mut self, from: usize, to: usize) -> Option<Frame> {
        let lane = &mut self.lanes[lane_number(from, to)?];
        if lane.waiting == 0 {
            return None;
        }
        let frame = lane.frames[lane.first];
        lane.first = (lane.first + 1) % LANE_ROOM;
        lane.waiting -= 1;
        Some(frame)
    }

    #[inline]
    fn waiting(&self, from: usize, to: usize) -> usize {
        lane_number(from, to).map_or(0, |number| self.lanes[number].waiting)
    }
}

/// The limit of a quota, 1 to 64.
#[derive(Clone, Copy, Debug, PartialEq, Eq)]
pub struct Limit(usize);

impl Limit {
    pub const fn new(frames: usize) -> Option<Limit> {
        match frames {
            1..=64 => Some(Limit(frames)),
            _ => None,
        }
    }
}

/// Passes a put down unless the lane has reached the limit.
#[derive(Clone, Debug)]
pub struct Quota<M> {
    below: M,
    limit: Limit,
}

impl<M: Medium> Quota<M> {
    pub fn new(below: M, limit: Limit) -> Quota<M> {
        Quota { below, limit }
    }
}

impl<M: Medium> Medium for Quota<M> {
    fn put(&mut self, from: usize, to: usize, frame: Frame) -> usize {
        if self.waiting(from, to) >= self.limit.0 {
            return 0;
        }
        self.below.put(from, to, frame)
    }

    fn take(&mut self, from: usize, to: usize) -> Option<Frame> {
        self.below.take(from, to)
    }

    fn waiting(&self, from: usize, to: usize) -> usize {
        self.below.waiting(from, to)
    }
}

#[derive(Clone, Copy, Debug)]
enum Code {
    Pass,
    Drop,
    Double,
}

/// Loses and doubles by a fixed table, which all puts together go round and round.
#[derive(Clone, Debug)]
pub struct Script<M> {
    below: M,
    next: usize,
}

impl<M: Medium> Script<M> {
    const CODES: [Code; 16] = {
        use Code::{Double, Drop, Pass};
        [
            Drop, Pass, Pass, Double, Pass, Drop, Pass, Pass, //
            Double, Pass, Pass, Drop, Pass, Pass, Pass, Double,
        ]
    };

    pub fn new(below: M) -> Script<M> {
        Script { below, next: 0 }
    }
}

impl<M: Medium> Medium for Script<M> {
    fn put(&mut self, from: usize, to: usize, frame: Frame) -> usize {
        let code = Self::CODES[self.next];
        self.next = (self.next + 1) % Self::CODES.len();
        match code {
            Code::Pass => self.below.put(from, to, frame),
            Code::Drop => 0,
            Code::Double => self.below.put(from, to, frame) + self.below.put(from, to, frame),
        }
    }

    fn take(&mut self, from: usize, to: usize) -> Option<Frame> {
        self.below.take(from, to)
    }

    fn waiting(&self, from: usize, to: usize) -> usize {
        self.below.waiting(from, to)
    }
}

pub type Smooth = Quota<Queue>;
pub type Rough = Script<Smooth>;

const LIMIT: Limit = Limit::new(8).unwrap();

/// The medium that loses nothing unless a lane is full.
pub fn smooth() -> Smooth {
    Quota::new(Queue::new(), LIMIT)
}

/// The medium that loses and doubles.
pub fn rough() -> Rough {
    Script::new(smooth())
}

#[cfg(test)]
mod tests {
    use super::*;

    fn frame(word: u32) -> Frame {
        let words = [word, 0, 0];
        let item = Some(Item { bit: true, words });
        Frame { reply: false, item }
    }

    #[test]
    fn a_queue_keeps_eight_in_order() {
        let mut queue = Queue::new();
        for round in 0..3 {
            for n in 0..8 {
                assert_eq!(queue.put(2, 5, frame(round + n)), 1);
            }
            assert_eq!(queue.put(2, 5, frame(99)), 0);
            assert_eq!((queue.waiting(2, 5), queue.waiting(5, 2)), (8, 0));
            for n in 0..8 {
                assert_eq!(queue.take(2, 5), Some(frame(round + n)));
            }
            assert_eq!(queue.take(2, 5), None);
            queue.put(2, 5, frame(0));
            queue.take(2, 5);
        }
    }

    #[test]
    fn there_is_no_ninth_board() {
        let mut medium = rough();
        for _ in 0..16 {
            assert_eq!(medium.put(8, 0, frame(0)), 0);
            assert_eq!(medium.put(0, 8, frame(0)), 0);
        }
        assert_eq!((medium.take(8, 0), medium.take(0, 8)), (None, None));
        assert_eq!((medium.waiting(8, 0), medium.waiting(0, 8)), (0, 0));
    }

    #[test]
    fn a_quota_holds_its_limit() {
        assert_eq!((Limit::new(0), Limit::new(65)), (None, None));
        assert!(Limit::new(64).is_some());
        let mut medium = Quota::new(Queue::new(), Limit::new(1).unwrap());
        assert_eq!(medium.put(0, 0, frame(1)), 1);
        assert_eq!(medium.put(0, 0, frame(2)), 0);
        assert_eq!(medium.take(0, 0), Some(frame(1)));
        assert_eq!(medium.put(0, 0, frame(3)), 1);
    }

    #[test]
    fn a_script_numbers_all_puts_together() {
        let mut medium = rough();
        let answers: Vec<usize> = (0..18)
            .map(|n| medium.put(n % 8, if n == 4 { 8 } else { n / 8 }, frame(0)))
            .collect();
        let expected = [0, 1, 1, 2, 0, 0, 1, 1, 2, 1, 1, 0, 1, 1, 1, 2, 0, 1];
        assert_eq!(answers, expected);
    }

    #[test]
    fn a_doubled_put_may_fit_once() {
        let mut medium = Script::new(Quota::new(Queue::new(), Limit::new(3).unwrap()));
        let answers: Vec<usize> = (0..5).map(|_| medium.put(0, 1, frame(0))).collect();
        assert_eq!(answers, [0, 1, 1, 1, 0]);
    }
}
