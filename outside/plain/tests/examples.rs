//! The worked examples.

mod common;

use common::{Model, smallest, triangles};
use plain::Program::{self, Halo, HaloRough};
use plain::element::{Depth, Element};
use plain::exchange::{Run, Tally, Turn};
use plain::listing::list;
use plain::media::{self, Frame, Medium};
use plain::plan::{CopyRecord, Edge, Plan, Room};
use plain::refusal::Refusal;
use plain::scene::Scene;
use plain::sums::own_sums;
use plain::{Sizes, sizes};

fn listing(bytes: &[u8], program: Program) -> String {
    String::from_utf8(plain::listing(bytes, program)).unwrap()
}

/// A refusal's two numbers, or none if the scene is accepted.
type Answer = Option<(u8, usize)>;

fn answer(bytes: &[u8]) -> Answer {
    let refusal = Scene::read(bytes).err()?;
    let answer = (refusal.number(), refusal.last());
    let line = format!("refused {} at {}\n", answer.0, answer.1);
    assert_eq!(listing(bytes, Halo), line);
    assert_eq!(listing(bytes, HaloRough), line);
    assert_eq!(sizes(bytes), None);
    Some(answer)
}

/// The two triangles with some bytes replaced from a place on.
fn changed(place: usize, bytes: &[u8]) -> Vec<u8> {
    let mut scene = triangles().bytes();
    scene[place..place + bytes.len()].copy_from_slice(bytes);
    scene
}

const TRIANGLE_COPIES: &str = "\
0 settled
0 0 5 0 0
0 1 7 0 0
0 2 6 0 0
1 settled
1 1 7 0 0
1 2 6 0 0
1 3 9 0 0
";

#[test]
fn the_smallest_scene() {
    let scene = smallest();
    let expected = "boards 1 overlap 0 kind 1 copies 0 edges 0\n\
                    turns 0 puts 0 lost 0 accepted 0\n0 settled\n";
    assert_eq!(listing(&scene, Halo), expected);
    assert_eq!(listing(&scene, HaloRough), expected);
    assert_eq!(answer(&scene), None);
    assert_eq!(answer(&[scene.as_slice(), &[0]].concat()), Some((7, 12)));
    assert_eq!(answer(&scene[..11]), Some((1, 10)));
    assert_eq!(answer(&scene[..9]), Some((1, 0)));
    assert_eq!(answer(&[]), Some((1, 0)));
}

#[test]
fn the_two_triangles_have_these_bytes() {
    let bytes = triangles().bytes();
    assert_eq!(bytes.len(), 104);
    assert_eq!(bytes[..10], [0x53, 0x43, 1, 2, 2, 0, 4, 0, 2, 0]);
    assert_eq!(bytes[10..20], [0x43, 0x45, 0, 0, 0, 0, 1, 0, 2, 0]);
    assert_eq!(bytes[56..66], [0x43, 0x45, 1, 0, 1, 0, 3, 0, 2, 0]);
    let words = [(20, 5), (32, 7), (44, 1), (66, 4), (78, 9), (90, 6)];
    for (place, word) in words {
        assert_eq!(
            bytes[place..place + 12],
            [word, 0, 0, 0, 0, 0, 0, 0, 0, 0, 0, 0]
        );
    }
}

#[test]
fn changed_headers() {
    let rows: [(usize, &[u8], Answer); 18] = [
        (0, &[0x53], None),
        (1, &[0x44], Some((2, 0))),
        (0, &[0x44], Some((2, 0))),
        (2, &[2], Some((3, 2))),
        (2, &[0], Some((3, 2))),
        (3, &[0], Some((3, 3))),
        (3, &[4], Some((3, 3))),
        (4, &[0], Some((3, 4))),
        (4, &[9], Some((3, 4))),
        (4, &[8], None),
        (5, &[4], None),
        (5, &[5], Some((3, 5))),
        (6, &[1, 4], Some((3, 6))),
        (6, &[0, 4], None),
        (8, &[1, 4], Some((3, 8))),
        (6, &[3, 0], Some((4, 62))),
        (8, &[3, 0], Some((1, 102))),
        (8, &[1, 0], Some((2, 56))),
    ];
    for (place, bytes, expected) in rows {
        assert_eq!(
            answer(&changed(place, bytes)),
            expected,
            "{place}: {bytes:?}"
        );
    }
}

#[test]
fn changed_cells_and_ends() {
    let rows: [(usize, &[u8], (u8, usize)); 12] = [
        (11, &[0], (2, 10)),
        (12, &[2], (4, 12)),
        (13, &[1], (4, 13)),
        (14, &[1, 0, 1, 0, 2, 0], (5, 16)),
        (14, &[1, 0, 0, 0, 1, 0], (5, 18)),
        (14, &[0, 0, 2, 0, 2, 0], (5, 18)),
        (14, &[4, 0, 4, 0, 2, 0], (4, 14)),
        (24, &[1], (6, 24)),
        (27, &[1], (6, 24)),
        (98, &[1], (6, 98)),
        (103, &[0x45], (2, 102)),
        (102, &[0x4e], (2, 102)),
    ];
    for (place, bytes, expected) in rows {
        assert_eq!(
            answer(&changed(place, bytes)),
            Some(expected),
            "{place}: {bytes:?}"
        );
    }
    let scene = triangles().bytes();
    assert_eq!(answer(&scene[..56]), Some((1, 56)));
    assert_eq!(answer(&[scene.as_slice(), &[0]].concat()), Some((7, 104)));
}

#[test]
fn every_cut_is_short() {
    let scene = triangles().bytes();
    for length in 0..scene.len() {
        let place = [0, 10, 56, 102].into_iter().zip([10, 56, 102, 104]);
        let (start, _) = place.into_iter().find(|&(_, end)| length < end).unwrap();
        assert_eq!(answer(&scene[..length]), Some((1, start)));
    }
}

#[test]
fn kinds_use_their_words() {
    let mut model = triangles();
    model.cells[0].contributions[0] = [5, 1, 0];
    model.kind = 3;
    assert_eq!(answer(&model.bytes()), None);
    model.cells[0].contributions[0] = [5, 1, 1];
    assert_eq!(answer(&model.bytes()), Some((6, 28)));
    for cell in &mut model.cells {
        cell.contributions = [[1, 2, 3]; 3];
    }
    model.kind = 1;
    assert_eq!(answer(&model.bytes()), None);
}

#[test]
fn the_two_triangles() {
    let scene = triangles().bytes();
    let first = "boards 2 overlap 0 kind 2 copies 6 edges 2\n";
    let halo = format!("{first}turns 8 puts 7 lost 0 accepted 4\n{TRIANGLE_COPIES}");
    let rough = format!("{first}turns 12 puts 10 lost 2 accepted 4\n{TRIANGLE_COPIES}");
    assert_eq!(listing(&scene, Halo), halo);
    assert_eq!(listing(&scene, HaloRough), rough);
}

fn check_first_lines(model: &Model, first: &str, halo: &str, rough: &str) {
    for (program, second) in [(Halo, halo), (HaloRough, rough)] {
        let listing = listing(&model.bytes(), program);
        let lines: Vec<&str> = listing.lines().collect();
        assert_eq!(lines[..2], [first, second]);
    }
}

#[test]
fn further_listings() {
    let mut overlapping = triangles();
    overlapping.overlap = 1;
    check_first_lines(
        &overlapping,
        "boards 2 overlap 1 kind 2 copies 8 edges 4",
        "turns 12 puts 12 lost 0 accepted 8",
        "turns 16 puts 14 lost 3 accepted 8",
    );
    let mut third_board = triangles();
    third_board.boards = 3;
    check_first_lines(
        &third_board,
        "boards 3 overlap 0 kind 2 copies 6 edges 2",
        "turns 12 puts 7 lost 0 accepted 4",
        "turns 18 puts 10 lost 2 accepted 4",
    );
    let third = listing(&third_board.bytes(), Halo);
    assert!(third.ends_with(&format!("{TRIANGLE_COPIES}2 settled\n")));
    let mut fifth_vertex = triangles();
    fifth_vertex.vertices = 5;
    check_first_lines(
        &fifth_vertex,
        "boards 2 overlap 0 kind 2 copies 6 edges 2",
        "turns 8 puts 7 lost 0 accepted 4",
        "turns 12 puts 10 lost 2 accepted 4",
    );
}

#[test]
fn a_sum_past_the_top_is_printed_unsigned() {
    let mut model = triangles();
    model.kind = 1;
    model.cells[0].contributions[1] = [2_147_483_647, 0, 0];
    model.cells[1].contributions[0] = [1, 0, 0];
    assert!(listing(&model.bytes(), Halo).contains("\n1 1 2147483648 0 0\n"));
}

fn plan_of(model: &Model) -> Plan {
    Plan::lay(&Scene::read(&model.bytes()).unwrap(), Room::UNBOUNDED).unwrap()
}

fn edge([from, to]: [u8; 2], [vertex, leaf, root]: [u16; 3]) -> Edge {
    Edge {
        from,
        to,
        vertex,
        leaf,
        root,
    }
}

#[test]
fn the_plan_without_overlap() {
    let plan = plan_of(&triangles());
    let copies = [(0, 0), (0, 1), (0, 2), (1, 1), (1, 2), (1, 3)];
    assert_eq!(
        plan.copies(),
        copies.map(|(board, vertex)| CopyRecord { board, vertex })
    );
    let edges = [edge([1, 0], [1, 3, 1]), edge([1, 0], [2, 4, 2])];
    assert_eq!(plan.edges(), edges);
    assert_eq!((plan.board_part(0), plan.board_part(1)), (0..3, 3..6));
    assert_eq!(
        (plan.edges_between(1, 0), plan.edges_between(0, 1)),
        (&edges[..], &[][..])
    );
}

#[test]
fn the_plan_with_overlap() {
    let mut model = triangles();
    model.overlap = 1;
    let plan = plan_of(&model);
    let copies = [0, 1].map(|board| [0, 1, 2, 3].map(|vertex| CopyRecord { board, vertex }));
    assert_eq!(plan.copies(), copies.as_flattened());
    let edges = [
        edge([0, 1], [3, 3, 7]),
        edge([1, 0], [0, 4, 0]),
        edge([1, 0], [1, 5, 1]),
        edge([1, 0], [2, 6, 2]),
    ];
    assert_eq!(plan.edges(), edges);
}

#[test]
fn room_is_exact() {
    let scene = Scene::read(&triangles().bytes()).unwrap();
    let lay = |copies, edges| Plan::lay(&scene, Room { copies, edges }).err();
    assert_eq!(lay(6, 2), None);
    assert_eq!(lay(5, 1), Some(Refusal::Copies { needed: 6 }));
    assert_eq!(lay(6, 1), Some(Refusal::Edges { needed: 2 }));
}

/// A strip of triangles; boards take turns in owning a cell.
fn strip(boards: u8, vertices: u16, overlap: u8) -> Model {
    let mut model = triangles();
    let cell = model.cells[0].clone();
    (model.boards, model.vertices, model.overlap) = (boards, vertices, overlap);
    model.cells = (0..vertices - 2)
        .map(|n| common::Triangle {
            board: (n % u16::from(boards)) as u8,
            corners: [n, n + 1, n + 2],
            ..cell.clone()
        })
        .collect();
    model
}

#[test]
fn there_is_room_for_exactly_so_many_copies() {
    // With an overlap of 4 each of four boards keeps all vertices of the strip.
    let full = strip(4, 1_024, 4);
    let counts = Sizes {
        copies: 4_096,
        edges: 3_072,
    };
    assert_eq!(sizes(&full.bytes()), Some(counts));
    assert!(listing(&full.bytes(), Halo).starts_with("boards 4 overlap 4 kind 2 copies 4096 "));
    // Besides the strip there is a triangle that seven boards own: 4 * 1,019 + 7 * 3 copies.
    let mut over = strip(4, 1_019, 4);
    (over.boards, over.vertices) = (7, 1_022);
    for board in 0..7 {
        let mut cell = over.cells[0].clone();
        (cell.board, cell.corners) = (board, [1_019, 1_020, 1_021]);
        over.cells.push(cell);
    }
    check_too_large(&over, 4_097, 1_022);
    check_too_large(&strip(8, 1_024, 4), 8_192, 1_024);
}

fn check_too_large(model: &Model, copies: usize, roots: usize) {
    let edges = copies - roots;
    assert_eq!(sizes(&model.bytes()), Some(Sizes { copies, edges }));
    let line = format!("refused 8 at {copies}\n");
    assert_eq!(listing(&model.bytes(), Halo), line);
    assert_eq!(listing(&model.bytes(), HaloRough), line);
}

/// Makes one turn and checks its four numbers.
fn check_turn<M: Medium>(run: &mut Run<'_, Depth, M>, board: usize, numbers: [usize; 4]) {
    let [taken, accepted, puts, lost] = numbers;
    let turn = Turn {
        taken,
        accepted,
        puts,
        lost,
    };
    assert_eq!(run.turn(board), turn, "after {:?}", run.tally());
}

fn depths<M: Medium>(run: &Run<'_, Depth, M>) -> Vec<u32> {
    run.copies().iter().map(|depth| depth.pack()[0]).collect()
}

#[test]
fn turn_by_turn_over_the_smooth_medium() {
    let scene = Scene::read(&triangles().bytes()).unwrap();
    let plan = Plan::lay(&scene, Room::UNBOUNDED).unwrap();
    let mut run = Run::start(&plan, own_sums::<Depth>(&scene, &plan), media::smooth());
    let turns = [
        ([0, 0, 0, 0], [5, 7, 1, 4, 6, 9]),
        ([0, 0, 1, 0], [5, 7, 1, 4, 6, 9]),
        ([1, 1, 1, 0], [5, 7, 1, 4, 6, 9]),
        ([1, 0, 1, 0], [5, 7, 1, 4, 6, 9]),
        ([1, 1, 1, 0], [5, 7, 6, 4, 6, 9]),
        ([1, 1, 1, 0], [5, 7, 6, 7, 6, 9]),
        ([1, 0, 1, 0], [5, 7, 6, 7, 6, 9]),
        ([1, 1, 1, 0], [5, 7, 6, 7, 6, 9]),
    ];
    for (n, (numbers, copies)) in turns.into_iter().enumerate() {
        assert!(!run.all_settled());
        check_turn(&mut run, n % 2, numbers);
        assert_eq!(depths(&run), copies);
    }
    assert!(run.all_settled());
}

#[test]
fn turn_by_turn_over_the_rough_medium() {
    let scene = Scene::read(&triangles().bytes()).unwrap();
    let plan = Plan::lay(&scene, Room::UNBOUNDED).unwrap();
    let mut run = Run::start(&plan, own_sums::<Depth>(&scene, &plan), media::rough());
    let turns = [
        [0, 0, 0, 0],
        [0, 0, 1, 1],
        [0, 0, 0, 0],
        [0, 0, 1, 0],
        [1, 1, 1, 0],
        [1, 0, 1, 0],
        [2, 1, 1, 0],
        [1, 1, 1, 1],
        [0, 0, 1, 0],
        [1, 0, 1, 0],
        [1, 0, 1, 0],
        [2, 1, 1, 0],
    ];
    for (n, numbers) in turns.into_iter().enumerate() {
        assert!(!run.all_settled());
        check_turn(&mut run, n % 2, numbers);
    }
    assert!(run.all_settled());
    let tally = Tally {
        turns: 12,
        puts: 10,
        lost: 2,
        accepted: 4,
    };
    assert_eq!(run.tally(), tally);
}

/// A medium that loses everything.
struct Void;

impl Medium for Void {
    fn put(&mut self, _from: usize, _to: usize, _frame: Frame) -> usize {
        0
    }

    fn take(&mut self, _from: usize, _to: usize) -> Option<Frame> {
        None
    }

    fn waiting(&self, _from: usize, _to: usize) -> usize {
        0
    }
}

#[test]
fn a_run_that_does_not_settle_is_given_up() {
    let scene = Scene::read(&triangles().bytes()).unwrap();
    let plan = Plan::lay(&scene, Room::UNBOUNDED).unwrap();
    let mut run = Run::start(&plan, own_sums::<Depth>(&scene, &plan), Void);
    run.settle();
    let expected = "boards 2 overlap 0 kind 2 copies 6 edges 2\n\
                    turns 200000 puts 100000 lost 100000 accepted 0\n\
                    0 awaits 1\n0 0 5 0 0\n0 1 7 0 0\n0 2 1 0 0\n\
                    1 awaits 0\n1 1 4 0 0\n1 2 6 0 0\n1 3 9 0 0\n";
    assert_eq!(String::from_utf8(list(&scene, &run)).unwrap(), expected);
}
