//! Sums a surface that is divided among boards, by an exchange over lanes that may lose and
//! double what is sent.

use crate::element::{Depth, Element, Force, Kind, Tags};
use crate::exchange::Run;
use crate::media::Medium;
use crate::plan::{Plan, Room};
use crate::refusal::Refusal;
use crate::scene::Scene;

pub mod element;
pub mod exchange;
pub mod listing;
pub mod media;
pub mod plan;
pub mod refusal;
pub mod scene;
pub mod sums;

/// For how large a plan the programs have room.
pub const ROOM: Room = Room {
    copies: 4_096,
    edges: 4_096,
};

/// The programs differ in their medium alone.
#[derive(Clone, Copy, Debug, PartialEq, Eq)]
pub enum Program {
    Halo,
    HaloRough,
}

impl Program {
    pub fn from_name(name: &str) -> Option<Program> {
        match name {
            "halo" => Some(Program::Halo),
            "halo-rough" => Some(Program::HaloRough),
            _ => None,
        }
    }
}

/// How many copies and edges a plan has.
#[derive(Clone, Copy, Debug, PartialEq, Eq)]
pub struct Sizes {
    pub copies: usize,
    pub edges: usize,
}

/// All that the program prints for these bytes.
pub fn listing(scene: &[u8], program: Program) -> Vec<u8> {
    try_listing(scene, program).unwrap_or_else(listing::refused)
}

/// The sizes of the scene's plan, room or no room; none if the scene is refused.
pub fn sizes(scene: &[u8]) -> Option<Sizes> {
    let scene = Scene::read(scene).ok()?;
    let plan = Plan::lay(&scene, Room::UNBOUNDED).ok()?;
    Some(Sizes {
        copies: plan.copies().len(),
        edges: plan.edges().len(),
    })
}

fn try_listing(bytes: &[u8], program: Program) -> Result<Vec<u8>, Refusal> {
    let scene = Scene::read(bytes)?;
    let plan = Plan::lay(&scene, ROOM)?;
    Ok(match scene.kind {
        Kind::Force => run_program::<Force>(&scene, &plan, program),
        Kind::Depth => run_program::<Depth>(&scene, &plan, program),
        Kind::Tags => run_program::<Tags>(&scene, &plan, program),
    })
}

fn run_program<E: Element>(scene: &Scene, plan: &Plan, program: Program) -> Vec<u8> {
    match program {
        Program::Halo => run_over::<E, _>(scene, plan, media::smooth()),
        Program::HaloRough => run_over::<E, _>(scene, plan, media::rough()),
    }
}

fn run_over<E: Element, M: Medium>(scene: &Scene, plan: &Plan, medium: M) -> Vec<u8> {
    let mut run = Run::<E, M>::start(plan, sums::own_sums(scene, plan), medium);
    run.settle();
    listing::list(scene, &run)
}
