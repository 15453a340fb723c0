//! A small seeded generator: xoshiro256**, its state filled by splitmix64.

use std::ops::RangeInclusive;

#[derive(Clone, Debug)]
pub struct Random {
    state: [u64; 4],
}

impl Random {
    pub fn new(seed: u64) -> Self {
        let mut at = seed;
        Random {
            state: std::array::from_fn(|_| splitmix(&mut at)),
        }
    }

    /// The generator of one scene: its family, seed and number are all that it depends on.
    pub fn of(family: &str, seed: u64, number: usize) -> Self {
        let mut at = seed;
        for byte in family.bytes() {
            at = splitmix(&mut at) ^ u64::from(byte);
        }
        at = splitmix(&mut at) ^ number as u64;
        Random::new(splitmix(&mut at))
    }

    pub fn draw(&mut self) -> u64 {
        let [a, b, c, d] = self.state;
        let answer = b.wrapping_mul(5).rotate_left(7).wrapping_mul(9);
        let (c, d) = (c ^ a, d ^ b);
        self.state = [a ^ d, b ^ c, c ^ (b << 17), d.rotate_left(45)];
        answer
    }

    /// A number below `bound`, which is not 0.
    pub fn below(&mut self, bound: usize) -> usize {
        assert!(bound > 0, "nothing is below 0");
        ((u128::from(self.draw()) * bound as u128) >> 64) as usize
    }

    pub fn within(&mut self, range: RangeInclusive<usize>) -> usize {
        let (first, last) = range.into_inner();
        first + self.below(last - first + 1)
    }

    pub fn one_in(&mut self, count: usize) -> bool {
        self.below(count) == 0
    }

    pub fn byte(&mut self) -> u8 {
        self.below(256) as u8
    }

    pub fn pick<T: Copy>(&mut self, choices: &[T]) -> T {
        choices[self.below(choices.len())]
    }

    pub fn shuffle<T>(&mut self, items: &mut [T]) {
        for last in (1..items.len()).rev() {
            items.swap(last, self.below(last + 1));
        }
    }
}

fn splitmix(at: &mut u64) -> u64 {
    *at = at.wrapping_add(0x9e37_79b9_7f4a_7c15);
    let mixed = (*at ^ (*at >> 30)).wrapping_mul(0xbf58_476d_1ce4_e5b9);
    let mixed = (mixed ^ (mixed >> 27)).wrapping_mul(0x94d0_49bb_1331_11eb);
    mixed ^ (mixed >> 31)
}

#[cfg(test)]
mod tests {
    use super::*;

    #[test]
    fn the_first_draws_of_splitmix_are_the_published_ones() {
        let mut at = 1234567;
        let draws: Vec<u64> = (0..3).map(|_| splitmix(&mut at)).collect();
        let published = [
            6457827717110365317,
            3203168211198807973,
            9817491932198370423,
        ];
        assert_eq!(draws, published);
    }

    #[test]
    fn a_scene_s_draws_depend_on_family_seed_and_number() {
        let first = |family, seed, number| Random::of(family, seed, number).draw();
        assert_eq!(first("grid", 1, 2), first("grid", 1, 2));
        assert_ne!(first("grid", 1, 2), first("strip", 1, 2));
        assert_ne!(first("grid", 1, 2), first("grid", 2, 2));
        assert_ne!(first("grid", 1, 2), first("grid", 1, 3));
    }

    #[test]
    fn every_number_below_a_bound_is_drawn() {
        let mut random = Random::new(5);
        let mut met = [false; 9];
        (0..500).for_each(|_| met[random.below(9)] = true);
        assert_eq!(met, [true; 9]);
    }
}
