//! Times each stage of a program's work and prints the medians.

use std::hint::black_box;
use std::io::{self, Read, Write};
use std::process::ExitCode;
use std::time::Instant;

use plain::element::{Depth, Element, Force, Kind, Tags};
use plain::exchange::Run;
use plain::media::{self, Medium};
use plain::plan::Plan;
use plain::refusal::Refusal;
use plain::scene::Scene;
use plain::{Program, listing, sums};

const STAGES: [&str; 5] = ["read", "lay", "load", "turns", "list"];

/// One time for each stage, in nanoseconds.
type Times = [u128; STAGES.len()];

fn main() -> ExitCode {
    let arguments: Vec<String> = std::env::args().skip(1).collect();
    let Some((program, repeats)) = parse(&arguments) else {
        eprintln!("usage: stages halo|halo-rough N < scene, with N at least 1");
        return ExitCode::from(2);
    };
    match print_times(program, repeats) {
        Ok(()) => ExitCode::SUCCESS,
        Err(error) => {
            eprintln!("stages: {error}");
            ExitCode::FAILURE
        }
    }
}

fn parse(arguments: &[String]) -> Option<(Program, usize)> {
    let [name, repeats] = arguments else {
        return None;
    };
    let program = Program::from_name(name)?;
    let repeats = repeats.parse().ok().filter(|&repeats| repeats >= 1)?;
    Some((program, repeats))
}

fn print_times(program: Program, repeats: usize) -> io::Result<()> {
    let mut bytes = Vec::new();
    io::stdin().lock().read_to_end(&mut bytes)?;
    let mut out = io::stdout().lock();
    match measure(&bytes, program, repeats) {
        Err(refusal) => out.write_all(&listing::refused(refusal))?,
        Ok((medians, made)) => {
            for (stage, median) in STAGES.iter().zip(medians) {
                writeln!(out, "{stage} {median}")?;
            }
            writeln!(out, "made {made}")?;
        }
    }
    out.flush()
}

/// The median time of each stage, and how many turns were made.
fn measure(bytes: &[u8], program: Program, repeats: usize) -> Result<(Times, usize), Refusal> {
    let mut made = 0;
    let mut all: [Vec<u128>; STAGES.len()] = Default::default();
    for _ in 0..repeats {
        let (times, turns) = work(bytes, program)?;
        made = turns;
        for (stage, time) in all.iter_mut().zip(times) {
            stage.push(time);
        }
    }
    Ok((all.map(median), made))
}

fn median(mut times: Vec<u128>) -> u128 {
    times.sort_unstable();
    let middle = times.len() / 2;
    if times.len() % 2 == 1 {
        times[middle]
    } else {
        (times[middle - 1] + times[middle]) / 2
    }
}

fn work(bytes: &[u8], program: Program) -> Result<(Times, usize), Refusal> {
    let (scene, read) = timed(|| Scene::read(black_box(bytes)));
    let scene = scene?;
    let (plan, lay) = timed(|| Plan::lay(black_box(&scene), plain::ROOM));
    let plan = plan?;
    let ([load, turns, list], made) = match scene.kind {
        Kind::Force => work_in::<Force>(&scene, &plan, program),
        Kind::Depth => work_in::<Depth>(&scene, &plan, program),
        Kind::Tags => work_in::<Tags>(&scene, &plan, program),
    };
    Ok(([read, lay, load, turns, list], made))
}

fn work_in<E: Element>(scene: &Scene, plan: &Plan, program: Program) -> ([u128; 3], usize) {
    match program {
        Program::Halo => work_over::<E, _>(scene, plan, media::smooth),
        Program::HaloRough => work_over::<E, _>(scene, plan, media::rough),
    }
}

fn work_over<E: Element, M: Medium>(
    scene: &Scene,
    plan: &Plan,
    medium: fn() -> M,
) -> ([u128; 3], usize) {
    let medium = medium();
    let (mut run, load) = timed(|| {
        let own_sums = sums::own_sums(black_box(scene), black_box(plan));
        Run::<E, M>::start(plan, own_sums, medium)
    });
    let ((), turns) = timed(|| black_box(&mut run).settle());
    let (_, list) = timed(|| listing::list(black_box(scene), black_box(&run)));
    ([load, turns, list], run.tally().turns)
}

/// Does the work and answers what it gave and how long it took.
fn timed<T>(work: impl FnOnce() -> T) -> (T, u128) {
    let start = Instant::now();
    let result = black_box(work());
    (result, start.elapsed().as_nanos())
}
