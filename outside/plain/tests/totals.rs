//! Small scenes by chance, against what the definitions say directly.

mod common;

use std::collections::BTreeSet;

use common::{Chance, Model, Triangle, Words};
use plain::Program;
use plain::plan::{Plan, Room};
use plain::scene::Scene;

const SCENES: usize = 400;

fn models(seed: u64) -> impl Iterator<Item = Model> {
    let mut chance = Chance::new(seed);
    (0..SCENES).map(move |_| chance.model())
}

fn join(kind: u8, a: Words, b: Words) -> Words {
    std::array::from_fn(|w| match kind {
        1 => ((u64::from(a[w]) + u64::from(b[w])) % (1 << 32)) as u32,
        2 => a[w].max(b[w]),
        _ => a[w] | b[w],
    })
}

fn undivided_total(model: &Model, vertex: u16) -> Words {
    let mut total = [0; 3];
    for cell in &model.cells {
        for (&corner, &words) in cell.corners.iter().zip(&cell.contributions) {
            if corner == vertex {
                total = join(model.kind, total, words);
            }
        }
    }
    total
}

fn touch(a: &Triangle, b: &Triangle) -> bool {
    a.corners.iter().any(|corner| b.corners.contains(corner))
}

/// The vertices that a board keeps, by growing its set of cells layer by layer.
fn kept(model: &Model, board: u8) -> BTreeSet<u16> {
    let mut layer: Vec<&Triangle> = model.cells.iter().filter(|c| c.board == board).collect();
    for _ in 0..model.overlap {
        let touches = |cell: &&Triangle| layer.iter().any(|inner| touch(cell, inner));
        layer = model.cells.iter().filter(touches).collect();
    }
    layer.iter().flat_map(|cell| cell.corners).collect()
}

fn owner(model: &Model, vertex: u16) -> u8 {
    let on_vertex = model
        .cells
        .iter()
        .filter(|cell| cell.corners.contains(&vertex));
    on_vertex.map(|cell| cell.board).min().unwrap()
}

#[test]
fn plans_are_as_defined() {
    for model in models(1) {
        let copies: Vec<(u8, u16)> = (0..model.boards)
            .flat_map(|board| kept(&model, board).into_iter().map(move |v| (board, v)))
            .collect();
        let place = |copy: (u8, u16)| copies.iter().position(|&c| c == copy).unwrap() as u16;
        let mut edges: Vec<(u8, u8, u16, u16, u16)> = copies
            .iter()
            .map(|&(board, v)| (board, owner(&model, v), v))
            .filter(|(from, to, _)| from != to)
            .map(|(from, to, v)| (from, to, v, place((from, v)), place((to, v))))
            .collect();
        edges.sort_unstable();
        let scene = Scene::read(&model.bytes()).unwrap();
        let plan = Plan::lay(&scene, Room::UNBOUNDED).unwrap();
        let laid_copies = plan.copies().iter().map(|c| (c.board, c.vertex));
        let laid_edges = plan
            .edges()
            .iter()
            .map(|e| (e.from, e.to, e.vertex, e.leaf, e.root));
        assert!(laid_copies.eq(copies.iter().copied()), "{model:?}");
        assert!(laid_edges.eq(edges.iter().copied()), "{model:?}");
        check_views(&plan);
    }
}

/// The parts of boards and links, found by a search.
fn check_views(plan: &Plan) {
    for p in 0..8 {
        let part = plan
            .copies()
            .iter()
            .filter(|copy| usize::from(copy.board) == p);
        assert!(part.eq(&plan.copies()[plan.board_part(p)]));
        for q in 0..8 {
            let of_link = |edge: &&plain::plan::Edge| (edge.from.into(), edge.to.into()) == (p, q);
            assert!(
                plan.edges()
                    .iter()
                    .filter(of_link)
                    .eq(plan.edges_between(p, q))
            );
            assert_eq!(plan.up(p, q), plan.edges_between(p, q).len());
        }
    }
}

/// Checks each copy's line of the listing, and answers whether all boards are settled.
fn check_totals(model: &Model, program: Program) -> bool {
    let listing = String::from_utf8(plain::listing(&model.bytes(), program)).unwrap();
    let mut lines = listing.lines().skip(2);
    let mut all_settled = true;
    for board in 0..model.boards {
        let state = lines.next().unwrap();
        let settled = state == format!("{board} settled");
        all_settled &= settled;
        for vertex in kept(model, board) {
            let line = lines.next().unwrap();
            let [x, y, z] = undivided_total(model, vertex);
            let expected = format!("{board} {vertex} {x} {y} {z}");
            assert!(
                !settled || line == expected,
                "{line}, not {expected}: {model:?}"
            );
        }
    }
    assert_eq!(lines.next(), None);
    all_settled
}

#[test]
fn smooth_runs_give_the_undivided_totals() {
    for model in models(2) {
        assert!(check_totals(&model, Program::Halo), "{model:?}");
    }
}

#[test]
fn rough_runs_give_the_undivided_totals() {
    let settled = models(3)
        .filter(|model| check_totals(model, Program::HaloRough))
        .count();
    println!("{settled} of {SCENES} rough runs settled");
    assert!(settled > SCENES / 2);
}

#[test]
fn changed_bytes_are_accepted_or_refused() {
    let mut chance = Chance::new(4);
    let mut refused = BTreeSet::new();
    for _ in 0..4_000 {
        let mut bytes = chance.model().bytes();
        for _ in 0..=chance.below(2) {
            let place = chance.below(bytes.len() as u32) as usize;
            bytes[place] = chance.below(8) as u8;
        }
        let listing = String::from_utf8(plain::listing(&bytes, Program::Halo)).unwrap();
        let parts: Vec<&str> = listing.lines().next().unwrap().split(' ').collect();
        assert_eq!(plain::sizes(&bytes).is_none(), parts[0] == "refused");
        if let ["refused", number, "at", place] = parts[..] {
            assert!(place.parse::<usize>().unwrap() <= bytes.len());
            refused.insert(number.to_string());
        }
    }
    assert!(refused.len() >= 6, "{refused:?}");
}
