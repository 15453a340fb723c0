//! Damage drawn by seed and number.

use std::ops::RangeInclusive;

use crate::bytes::*;
use crate::random::Random;
use crate::surfaces::Shape;

/// A drawn scene of some size, with one byte changed at a drawn place.
pub fn flipped(seed: u64, number: usize) -> Vec<u8> {
    let random = &mut Random::of("flip", seed, number);
    let mut bytes = scene_of_some_size(random);
    let place = match random.below(4) {
        0 => random.below(bytes.len().min(3 * CELL)),
        _ => random.below(bytes.len()),
    };
    bytes[place] = match random.below(3) {
        0 => bytes[place] ^ 1 << random.below(8),
        1 => random.pick(&[0, 1, 2, 7, 8, 255]),
        _ => random.byte(),
    };
    bytes
}

fn scene_of_some_size(random: &mut Random) -> Vec<u8> {
    loop {
        let scene = any_scene(random);
        if scene.cells.len() >= 20 {
            return scene.bytes();
        }
    }
}

fn any_scene(random: &mut Random) -> Scene {
    random.pick(&Shape::ALL).scene(random.draw(), 0)
}

/// Random bytes, more or less like a scene.
pub fn noise(seed: u64, number: usize) -> Vec<u8> {
    let random = &mut Random::of("noise", seed, number);
    match number % 8 {
        0 => random_bytes(0..=300, random),
        1 => HEADER_MARK
            .into_iter()
            .chain(random_bytes(0..=300, random))
            .collect(),
        2 => {
            let mut bytes = smallest().bytes();
            bytes.truncate(random.within(0..=HEADER + END));
            bytes.extend(random_bytes(47_000..=120_000, random));
            bytes
        }
        3 => guessed(random),
        4 => slipped(random),
        5 => swapped(random),
        6 => {
            let mut bytes = scene_of_some_size(random);
            bytes.truncate(random.below(bytes.len()));
            bytes
        }
        _ => {
            let mut bytes = any_scene(random).bytes();
            bytes.extend(random_bytes(1..=100, random));
            bytes
        }
    }
}

fn random_bytes(lengths: RangeInclusive<usize>, random: &mut Random) -> Vec<u8> {
    (0..random.within(lengths)).map(|_| random.byte()).collect()
}

/// All fields are drawn, most of them within their ranges or just past.
fn guessed(random: &mut Random) -> Vec<u8> {
    let vertices = random.within(2..=40);
    let boards = random.within(1..=BOARDS);
    let kind = random.pick(&Kind::ALL);
    let cell = |random: &mut Random| Cell {
        board: within_or_past(boards, random),
        corners: [(); 3].map(|()| random.within(0..=vertices) as u16),
        words: [(); 3].map(|()| {
            let used = kind.used() + usize::from(random.one_in(9));
            std::array::from_fn(|word| if word < used { random.byte().into() } else { 0 })
        }),
    };
    let scene = Scene {
        kind,
        boards: boards as u8,
        overlap: random.within(0..=4) as u8,
        vertices: vertices as u16 + 1 - u16::from(random.one_in(3)),
        cells: (0..random.within(0..=6)).map(|_| cell(random)).collect(),
    };
    scene.bytes()
}

fn within_or_past(boards: usize, random: &mut Random) -> u8 {
    let past = usize::from(random.one_in(9));
    random.below(boards + past) as u8
}

/// A scene that lost a byte, or got one more, somewhere.
fn slipped(random: &mut Random) -> Vec<u8> {
    let mut bytes = any_scene(random).bytes();
    let place = random.below(bytes.len());
    if random.one_in(2) {
        bytes.remove(place);
    } else {
        bytes.insert(place, random.byte());
    }
    bytes
}

/// A scene in which two stretches of bytes changed places.
fn swapped(random: &mut Random) -> Vec<u8> {
    let mut bytes = any_scene(random).bytes();
    let length = random.within(1..=(bytes.len() / 2).min(CELL));
    let middle = bytes.len() / 2;
    let first = random.within(0..=middle - length);
    let second = random.within(middle..=bytes.len() - length);
    let (before, after) = bytes.split_at_mut(second);
    before[first..first + length].swap_with_slice(&mut after[..length]);
    bytes
}
