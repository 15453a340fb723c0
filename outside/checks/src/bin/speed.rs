//! Times whole processes, proved and plain ones interleaved, on three sizes of one surface and on
//! no input; and, where programs for it are named, the stages inside.

use std::fs::{self, File};
use std::path::{Path, PathBuf};
use std::process::{Command, ExitCode, Stdio};
use std::str::FromStr;
use std::thread;
use std::time::{Duration, Instant};

use checks::bytes::Kind;
use checks::programs::{self, Difference, PROGRAMS, Verdict};
use checks::random::Random;
use checks::surfaces::closed;
use plain::Program;

const USAGE: &str = "speed [--rounds N] [--unmeasured N] [--seed N] [--kind force|depth|tags]
      [--halo PATH] [--halo-rough PATH]
      [--stages-proved PATH] [--stages-rounds N] [--stages-runs N]";

struct Options {
    rounds: usize,
    unmeasured: usize,
    seed: u64,
    kind: Kind,
    proved: [PathBuf; 2],
    stages_proved: Option<PathBuf>,
    stages_rounds: usize,
    stages_runs: usize,
}

impl Options {
    fn parse(mut arguments: impl Iterator<Item = String>) -> Result<Options, String> {
        let mut options = Options {
            rounds: 400,
            unmeasured: 20,
            seed: 1,
            kind: Kind::Force,
            proved: PROGRAMS.map(programs::proved),
            stages_proved: None,
            stages_rounds: 9,
            stages_runs: 31,
        };
        while let Some(option) = arguments.next() {
            let mut value = || arguments.next().ok_or(format!("{option} lacks its value"));
            match option.as_str() {
                "--rounds" => options.rounds = number::<usize>(&value()?)?.max(1),
                "--unmeasured" => options.unmeasured = number(&value()?)?,
                "--seed" => options.seed = number(&value()?)?,
                "--kind" => options.kind = kind(&value()?)?,
                "--halo" => options.proved[0] = value()?.into(),
                "--halo-rough" => options.proved[1] = value()?.into(),
                "--stages-proved" => options.stages_proved = Some(value()?.into()),
                "--stages-rounds" => options.stages_rounds = number::<usize>(&value()?)?.max(1),
                "--stages-runs" => options.stages_runs = number::<usize>(&value()?)?.max(1),
                _ => return Err(format!("{option} is no option\n{USAGE}")),
            }
        }
        Ok(options)
    }
}

fn number<T: FromStr>(text: &str) -> Result<T, String> {
    text.parse()
        .map_err(|_| format!("{text} is no number here"))
}

fn kind(name: &str) -> Result<Kind, String> {
    match name {
        "force" => Ok(Kind::Force),
        "depth" => Ok(Kind::Depth),
        "tags" => Ok(Kind::Tags),
        _ => Err(format!(
            "{name} is no kind; there are force, depth and tags"
        )),
    }
}

/// What the runners read, in a file: a scene, or nothing.
struct Input {
    what: String,
    /// None without a scene.
    cells: usize,
    path: PathBuf,
}

impl Input {
    fn nothing() -> Result<Input, String> {
        Input::written("no input".to_owned(), 0, "speed_nothing", &[])
    }

    fn scene(columns: usize, rows: usize, kind: Kind) -> Result<Input, String> {
        let scene = closed(columns, rows, kind);
        let (cells, bytes) = (scene.cells.len(), scene.bytes());
        let sizes = plain::sizes(&bytes).ok_or("a scene to be timed is not accepted")?;
        let what = format!(
            "{cells} cells, {} copies, {} edges",
            sizes.copies, sizes.edges
        );
        let file = format!("speed_{}_{cells}.scene", kind.number());
        Input::written(what, cells, &file, &bytes)
    }

    fn written(what: String, cells: usize, file: &str, bytes: &[u8]) -> Result<Input, String> {
        let path = programs::beside(file);
        match fs::write(&path, bytes) {
            Ok(()) => Ok(Input { what, cells, path }),
            Err(error) => Err(format!("{}: {error}", path.display())),
        }
    }

    fn bytes(&self) -> Result<Vec<u8>, String> {
        fs::read(&self.path).map_err(|error| format!("{}: {error}", self.path.display()))
    }

    /// Only equal work can be compared, and no timed run's output is looked at.
    fn check(&self, options: &Options) -> Result<(), String> {
        let bytes = self.bytes()?;
        Runner::Idle.output(options, &bytes)?;
        for program in PROGRAMS {
            let name = programs::name(program);
            let proved = Runner::Proved(program).output(options, &bytes)?;
            let plain = Runner::Plain(program).output(options, &bytes)?;
            if let Some(difference) = Difference::of(&proved, &plain) {
                return Err(format!("DIFFERENT: {}, {name}: {difference}", self.what));
            }
            let as_due = match Verdict::of(&proved) {
                Verdict::Listed { .. } => self.cells > 0,
                Verdict::Refused { number, last } => (self.cells, number, last) == (0, 1, 0),
                Verdict::Strange => false,
            };
            if !as_due {
                let printed = String::from_utf8_lossy(&proved);
                let line = printed.lines().next().unwrap_or_default();
                return Err(format!("{}, {name}: prints {line:?}", self.what));
            }
        }
        Ok(())
    }
}

/// Squares in each direction, from the largest scene to the smallest.
const SHAPES: [(usize, usize); 3] = [(32, 16), (16, 8), (8, 4)];

/// What is run; each of them once a round on each input.
#[derive(Clone, Copy, Debug, PartialEq, Eq)]
enum Runner {
    /// A process that does nothing.
    Idle,
    Proved(Program),
    Plain(Program),
}

const RUNNERS: [Runner; 5] = [
    Runner::Idle,
    Runner::Proved(Program::Halo),
    Runner::Plain(Program::Halo),
    Runner::Proved(Program::HaloRough),
    Runner::Plain(Program::HaloRough),
];

impl Runner {
    fn name(self) -> String {
        match self {
            Runner::Idle => "/bin/true".to_owned(),
            Runner::Proved(program) => programs::name(program).to_owned(),
            Runner::Plain(program) => format!("plain {}", programs::name(program)),
        }
    }

    /// The program's path and arguments.
    fn program(self, options: &Options) -> (PathBuf, Vec<&'static str>) {
        match self {
            Runner::Idle => ("/bin/true".into(), vec![]),
            Runner::Proved(Program::Halo) => (options.proved[0].clone(), vec![]),
            Runner::Proved(Program::HaloRough) => (options.proved[1].clone(), vec![]),
            Runner::Plain(program) => (programs::beside("plain"), vec![programs::name(program)]),
        }
    }

    fn output(self, options: &Options, input: &[u8]) -> Result<Vec<u8>, String> {
        let (path, arguments) = self.program(options);
        programs::output(&path, &arguments, input, LIMIT)
    }

    /// Microseconds from before the process is made to after its end.
    fn time(self, options: &Options, input: &Input) -> Result<f64, String> {
        let failed = |error| format!("{}: {error}", self.name());
        let (path, arguments) = self.program(options);
        let mut command = Command::new(path);
        command
            .args(arguments)
            .stdin(File::open(&input.path).map_err(failed)?)
            .stdout(Stdio::null());
        let begun = Instant::now();
        let status = command
            .spawn()
            .and_then(|mut child| child.wait())
            .map_err(failed)?;
        let elapsed = begun.elapsed();
        if status.success() {
            Ok(elapsed.as_secs_f64() * 1e6)
        } else {
            Err(format!("{}: {status}", self.name()))
        }
    }
}

#[derive(Clone, Copy, Debug)]
struct Figures {
    minimum: f64,
    median: f64,
    /// How far the quartiles are apart: the noise.
    spread: f64,
}

impl Figures {
    fn of(times: &[f64]) -> Figures {
        let mut sorted = times.to_vec();
        sorted.sort_unstable_by(f64::total_cmp);
        let at = |quarters: usize| sorted[(sorted.len() - 1) * quarters / 4];
        Figures {
            minimum: at(0),
            median: at(2),
            spread: at(3) - at(1),
        }
    }
}

/// The figures of each runner on one input.
type Row = [Figures; RUNNERS.len()];

/// All runs of all rounds. In each round the order is another one, so that no runner always
/// follows the same one.
fn measure(options: &Options, inputs: &[Input]) -> Result<Vec<Row>, String> {
    let mut times = vec![[(); RUNNERS.len()].map(|()| Vec::new()); inputs.len()];
    let all_runs = |input| (0..RUNNERS.len()).map(move |runner| (input, runner));
    let mut runs: Vec<(usize, usize)> = (0..inputs.len()).flat_map(all_runs).collect();
    let random = &mut Random::new(options.seed);
    for round in 0..options.unmeasured + options.rounds {
        random.shuffle(&mut runs);
        for &(input, runner) in &runs {
            let time = RUNNERS[runner].time(options, &inputs[input])?;
            if round >= options.unmeasured {
                times[input][runner].push(time);
            }
        }
    }
    Ok(times
        .iter()
        .map(|row| row.each_ref().map(|times| Figures::of(times)))
        .collect())
}

fn print_figures(input: &Input, row: &Row) {
    println!("\n{}; microseconds a process", input.what);
    println!("{:18}{:>10}{:>10}{:>10}", "", "minimum", "median", "spread");
    for (runner, figures) in RUNNERS.iter().zip(row) {
        let Figures {
            minimum,
            median,
            spread,
        } = figures;
        println!(
            "{:18}{minimum:>10.1}{median:>10.1}{spread:>10.1}",
            runner.name()
        );
    }
}

/// Each runner's floor is its own time on no input: their start-ups differ.
fn print_ratios(row: &Row, floors: &Row) {
    println!(
        "{:18}{:>10}{:>10}{:>22}",
        "proved / plain", "minimum", "median", "without the floor"
    );
    let ([_, pairs @ ..], [_, floors @ ..]) = (row, floors);
    let pairs = pairs.chunks(2).zip(floors.chunks(2));
    for (program, (pair, floor)) in PROGRAMS.into_iter().zip(pairs) {
        let whole = |figure: fn(&Figures) -> f64| figure(&pair[0]) / figure(&pair[1]);
        let above = |figure: fn(&Figures) -> f64| {
            (figure(&pair[0]) - figure(&floor[0])) / (figure(&pair[1]) - figure(&floor[1]))
        };
        println!(
            "{:18}{:>10.2}{:>10.2}{:>12.2}{:>10.2}",
            programs::name(program),
            whole(|figures| figures.minimum),
            whole(|figures| figures.median),
            above(|figures| figures.minimum),
            above(|figures| figures.median)
        );
    }
}

/// Time a cell, without the floor, and how it compares with that of the largest scene.
fn print_growth(
    (scenes, rows): (&[Input], &[Row]),
    floors: &Row,
    what: &str,
    figure: fn(&Figures) -> f64,
) {
    println!("\nmicroseconds a cell, of {what} without the floor; and over that of most cells");
    let heads: String = scenes
        .iter()
        .map(|scene| format!("{:>20}", scene.cells))
        .collect();
    println!("{:18}{heads}", "cells");
    for (at, runner) in RUNNERS.iter().enumerate().skip(1) {
        let above = |row: &Row| figure(&row[at]) - figure(&floors[at]);
        let times = scenes
            .iter()
            .zip(rows)
            .map(|(scene, row)| above(row) / scene.cells as f64);
        let times: Vec<f64> = times.collect();
        let shown = times
            .iter()
            .map(|time| format!("{time:>12.3}{:>8.2}", time / times[0]));
        println!("{:18}{}", runner.name(), shown.collect::<String>());
    }
}

/// For one process whose output is read, with all its runs inside.
const LIMIT: Duration = Duration::from_secs(600);

const STAGES: [&str; 5] = ["read", "lay", "load", "turns", "list"];

/// Nanoseconds of each stage, and how many turns were made.
#[derive(Clone, Debug)]
struct Stages {
    times: [f64; STAGES.len()],
    made: f64,
}

impl Stages {
    fn run(program: &Path, arguments: &[&str], scene: &[u8]) -> Result<Stages, String> {
        let printed = programs::output(program, arguments, scene, LIMIT)?;
        let printed = String::from_utf8_lossy(&printed);
        let value = |name: &str| {
            let mut lines = printed.lines().map(|line| line.split_whitespace());
            let value =
                lines.find_map(|mut words| (words.next()? == name).then(|| words.next())?);
            let value = value.and_then(|word| word.parse::<f64>().ok());
            value.ok_or(format!("{}: no line `{name}`", program.display()))
        };
        let mut times = [0.0; STAGES.len()];
        for (time, name) in times.iter_mut().zip(STAGES) {
            *time = value(name)?;
        }
        Ok(Stages {
            times,
            made: value("made")?,
        })
    }

    /// Stage by stage the median of several runs, which must have made the same turns.
    fn median(runs: &[Stages]) -> Result<Stages, String> {
        if runs.iter().any(|run| run.made != runs[0].made) {
            return Err("DIFFERENT numbers of turns in the runs of one program".to_owned());
        }
        let stage = |stage: usize| {
            let times: Vec<f64> = runs.iter().map(|run| run.times[stage]).collect();
            Figures::of(&times).median
        };
        Ok(Stages {
            times: std::array::from_fn(stage),
            made: runs[0].made,
        })
    }
}

fn measure_stages(
    options: &Options,
    scene: &Input,
    program: Program,
    proved: &Path,
) -> Result<[Stages; 2], String> {
    let bytes = scene.bytes()?;
    let runs = options.stages_runs.to_string();
    let (mut by_proved, mut by_plain) = (Vec::new(), Vec::new());
    let (plain, name) = (programs::beside("stages"), programs::name(program));
    for round in 0..options.stages_rounds {
        for turn in [round % 2, (round + 1) % 2] {
            if turn == 0 {
                by_proved.push(Stages::run(proved, &[name, &runs], &bytes)?);
            } else {
                by_plain.push(Stages::run(&plain, &[name, &runs], &bytes)?);
            }
        }
    }
    Ok([Stages::median(&by_proved)?, Stages::median(&by_plain)?])
}

fn print_stages(scene: &Input, program: Program, [proved, plain]: &[Stages; 2]) {
    let (name, cells) = (programs::name(program), scene.cells);
    println!("\n{name}, {cells} cells: microseconds inside, medians");
    println!("{:18}{:>12}{:>12}{:>8}", "", "proved", "plain", "ratio");
    for ((stage, proved), plain) in STAGES.iter().zip(proved.times).zip(plain.times) {
        let ratio = proved / plain;
        println!(
            "{stage:18}{:>12.2}{:>12.2}{ratio:>8.2}",
            proved / 1e3,
            plain / 1e3
        );
    }
    let a_turn = |stages: &Stages| stages.times[3] / stages.made / 1e3;
    let (proved_turn, plain_turn) = (a_turn(proved), a_turn(plain));
    let ratio = proved_turn / plain_turn;
    println!(
        "{:18}{proved_turn:>12.4}{plain_turn:>12.4}{ratio:>8.2}",
        "a turn"
    );
    if proved.made == plain.made {
        println!("{} turns", proved.made);
    } else {
        println!(
            "DIFFERENT: {} turns proved, {} plain",
            proved.made, plain.made
        );
    }
}

/// The processors, and how busy they are, as far as that is told.
fn print_machine() {
    let told = |path: &str| fs::read_to_string(path).unwrap_or_default();
    let (information, load) = (told("/proc/cpuinfo"), told("/proc/loadavg"));
    let fields = |name: &'static str| {
        let fields = information.lines().filter_map(|line| line.split_once(':'));
        let named = fields.filter(move |(key, _)| key.trim() == name);
        named.map(|(_, value)| value.trim())
    };
    let usable = thread::available_parallelism().map_or(0, usize::from);
    let (count, name) = (fields("processor").count(), fields("model name").next());
    let load: Vec<&str> = load.split_whitespace().take(3).collect();
    println!(
        "{count} processors, {usable} for this process: {}; load average {}",
        name.unwrap_or("no name"),
        load.join(" ")
    );
}

fn run(options: &Options) -> Result<(), String> {
    programs::present(options.proved.iter().chain(&options.stages_proved))?;
    print_machine();
    println!(
        "closed surfaces on 8 scattered boards, overlap 1, kind {:?}",
        options.kind
    );
    println!(
        "{} rounds after {} unmeasured ones",
        options.rounds, options.unmeasured
    );
    let scenes = SHAPES.map(|(columns, rows)| Input::scene(columns, rows, options.kind));
    let inputs: Vec<Input> = [Input::nothing()]
        .into_iter()
        .chain(scenes)
        .collect::<Result<_, String>>()?;
    inputs.iter().try_for_each(|input| input.check(options))?;
    println!("proved and plain print the same on each");
    time_whole(options, &inputs)?;
    match &options.stages_proved {
        Some(proved) => time_inside(options, &inputs[1..], proved),
        None => Ok(()),
    }
}

/// The first input is nothing, the others are scenes.
fn time_whole(options: &Options, inputs: &[Input]) -> Result<(), String> {
    let rows = measure(options, inputs)?;
    let (floors, timed) = (&rows[0], (&inputs[1..], &rows[1..]));
    print_figures(&inputs[0], floors);
    for (scene, row) in timed.0.iter().zip(timed.1) {
        print_figures(scene, row);
        print_ratios(row, floors);
    }
    print_growth(timed, floors, "medians", |figures| figures.median);
    print_growth(timed, floors, "minimums", |figures| figures.minimum);
    Ok(())
}

fn time_inside(options: &Options, scenes: &[Input], proved: &Path) -> Result<(), String> {
    let mut same = true;
    for program in PROGRAMS {
        for scene in scenes {
            let stages = measure_stages(options, scene, program, proved)?;
            print_stages(scene, program, &stages);
            same &= stages[0].made == stages[1].made;
        }
    }
    if same {
        Ok(())
    } else {
        Err("the numbers of turns are DIFFERENT".to_owned())
    }
}

fn main() -> ExitCode {
    let options = Options::parse(std::env::args().skip(1));
    match options.and_then(|options| run(&options)) {
        Ok(()) => ExitCode::SUCCESS,
        Err(error) => {
            eprintln!("{error}");
            ExitCode::FAILURE
        }
    }
}
