//! Runs both proved programs on many scenes and compares what they print, byte for byte, with
//! what the independent implementation says, and with what the documents say where that is known.

use std::collections::{BTreeMap, BTreeSet};
use std::fmt::Display;
use std::iter;
use std::path::PathBuf;
use std::process::ExitCode;
use std::str::FromStr;
use std::sync::atomic::{AtomicUsize, Ordering};
use std::sync::mpsc;
use std::thread;
use std::time::Duration;

use checks::catalog::{self, Amounts, Case};
use checks::outcome::{self, Outcome, Proved};
use checks::programs::{self, PROGRAMS, Verdict};

const USAGE: &str =
    "compare [--seed N] [--valid N] [--flipped N] [--noise N] [--jobs N] [--seconds N]
        [--halo PATH] [--halo-rough PATH]
        [--only NAME | --save NAME FILE]";

struct Options {
    seed: u64,
    amounts: Amounts,
    jobs: usize,
    proved: Proved,
    only: Option<String>,
    save: Option<(String, PathBuf)>,
}

impl Options {
    fn parse(mut arguments: impl Iterator<Item = String>) -> Result<Options, String> {
        let cores = thread::available_parallelism().map_or(2, usize::from);
        let mut options = Options {
            seed: 1,
            amounts: Amounts {
                valid: 2600,
                flipped: 500,
                noise: 300,
            },
            jobs: cores.min(4),
            proved: Proved {
                paths: PROGRAMS.map(programs::proved),
                limit: Duration::from_secs(10),
            },
            only: None,
            save: None,
        };
        while let Some(option) = arguments.next() {
            let mut value = || arguments.next().ok_or(format!("{option} lacks its value"));
            match option.as_str() {
                "--seed" => options.seed = number(&value()?)?,
                "--valid" => options.amounts.valid = number(&value()?)?,
                "--flipped" => options.amounts.flipped = number(&value()?)?,
                "--noise" => options.amounts.noise = number(&value()?)?,
                "--jobs" => options.jobs = number::<usize>(&value()?)?.max(1),
                "--seconds" => options.proved.limit = seconds(&value()?)?,
                "--halo" => options.proved.paths[0] = value()?.into(),
                "--halo-rough" => options.proved.paths[1] = value()?.into(),
                "--only" => options.only = Some(value()?),
                "--save" => options.save = Some((value()?, value()?.into())),
                _ => return Err(format!("{option} is no option\n{USAGE}")),
            }
        }
        Ok(options)
    }
}

fn number<T: FromStr>(text: &str) -> Result<T, String> {
    text.parse()
        .map_err(|_| format!("{text} is no number here"))
}

fn seconds(text: &str) -> Result<Duration, String> {
    let seconds: u32 = number(text)?;
    Ok(Duration::from_secs(seconds.max(1).into()))
}

fn named(name: &str) -> Result<Case, String> {
    Case::named(name).ok_or(format!("no scene has the name {name}"))
}

/// All cases' outcomes, in the cases' order, by several threads. Faults are told as they are met.
fn compare_all(options: &Options, cases: &[Case]) -> Vec<Outcome> {
    let next = AtomicUsize::new(0);
    let (sender, receiver) = mpsc::channel();
    let mut outcomes: Vec<(usize, Outcome)> = thread::scope(|scope| {
        for sender in iter::repeat_n(sender, options.jobs) {
            let next = &next;
            scope.spawn(move || {
                let numbers = iter::repeat_with(|| next.fetch_add(1, Ordering::Relaxed));
                for (number, case) in numbers.map_while(|at| Some((at, cases.get(at)?))) {
                    let outcome = Outcome::of(&options.proved, case);
                    // If nobody receives, this program is ending.
                    let _ = sender.send((number, outcome));
                }
            });
        }
        let told = receiver.into_iter();
        told.inspect(|(_, outcome)| tell(&outcome.faults)).collect()
    });
    outcomes.sort_unstable_by_key(|(number, _)| *number);
    outcomes.into_iter().map(|(_, outcome)| outcome).collect()
}

fn tell(faults: &[String]) {
    for fault in faults {
        println!("DIFFERENCE {fault}");
    }
}

/// The last refusal number that a program can print.
const NUMBERS: usize = programs::NUMBERS as usize;

#[derive(Clone, Debug, Default)]
struct Counts {
    scenes: usize,
    accepted: usize,
    /// How many listings end with all boards settled, of each program.
    settled: [usize; 2],
    refused: [usize; NUMBERS + 1],
}

impl Counts {
    fn add(&mut self, verdicts: [Option<Verdict>; 2]) {
        self.scenes += 1;
        match verdicts.into_iter().flatten().next() {
            Some(Verdict::Listed { .. }) => self.accepted += 1,
            Some(Verdict::Refused { number, .. }) => {
                if let Some(count) = self.refused.get_mut(number as usize) {
                    *count += 1;
                }
            }
            Some(Verdict::Strange) | None => {}
        }
        for (settled, verdict) in self.settled.iter_mut().zip(verdicts) {
            *settled += usize::from(matches!(
                verdict,
                Some(Verdict::Listed { settled: true, .. })
            ));
        }
    }

    fn row<T: Display>(family: &str, [scenes, listed, settled, rough]: [T; 4]) -> String {
        format!("{family:10}{scenes:>7}{listed:>9}{settled:>9}{rough:>7}")
    }

    fn print(&self, family: &str) {
        let [settled, rough] = self.settled;
        let row = Counts::row(family, [self.scenes, self.accepted, settled, rough]);
        let refused = self.refused[1..].iter();
        let refused: String = refused.map(|count| format!("{count:>6}")).collect();
        println!("{row}{refused}");
    }
}

/// What the accepted scenes met.
#[derive(Debug, Default)]
struct Met {
    heads: BTreeSet<[u8; 3]>,
    vertices: BTreeSet<u16>,
    cells: BTreeSet<u16>,
    copies: BTreeSet<usize>,
}

impl Met {
    fn add(&mut self, head: &[u8], copies: usize) {
        if let &[_, _, _, kind, boards, overlap, v0, v1, c0, c1] = head {
            self.heads.insert([kind, boards, overlap]);
            self.vertices.insert(u16::from_le_bytes([v0, v1]));
            self.cells.insert(u16::from_le_bytes([c0, c1]));
        }
        self.copies.insert(copies);
    }

    fn print(&self) {
        println!(
            "  {} of the 120 kinds, boards and overlaps together",
            self.heads.len()
        );
        println!("  {}", range(&self.vertices, "counts of vertices"));
        println!("  {}", range(&self.cells, "counts of cells"));
        println!("  {}", range(&self.copies, "counts of copies"));
    }
}

fn range<T: Copy + Default + Display + Ord>(met: &BTreeSet<T>, what: &str) -> String {
    let ends = [met.first(), met.last()];
    let [first, last] = ends.map(|end| end.copied().unwrap_or_default());
    format!("{} {what}, from {first} to {last}", met.len())
}

#[derive(Debug, Default)]
struct Summary {
    families: Vec<(&'static str, Counts)>,
    all: Counts,
    met: Met,
    places: BTreeMap<u64, BTreeSet<u64>>,
    hashes: BTreeSet<u64>,
    /// How many scenes carry the answer of the documents.
    answered: usize,
    /// How many outputs were held to it.
    held: usize,
    /// How many outputs of the proved programs were compared.
    outputs: usize,
    faults: usize,
}

impl Summary {
    fn add(&mut self, case: &Case, outcome: &Outcome) {
        self.hashes.extend(outcome.hash);
        self.answered += usize::from(case.answer().is_some());
        self.held += outcome.held;
        self.outputs += outcome.compared;
        self.faults += outcome.faults.len();
        let verdicts = outcome.verdicts;
        match verdicts.into_iter().flatten().next() {
            Some(Verdict::Refused { number, last }) => {
                self.places.entry(number).or_default().insert(last);
            }
            Some(Verdict::Listed { copies, .. }) => self.met.add(&outcome.head, copies),
            Some(Verdict::Strange) | None => {}
        }
        self.all.add(verdicts);
        self.family(case.family).add(verdicts);
    }

    fn family(&mut self, name: &'static str) -> &mut Counts {
        let found = self.families.iter().position(|(family, _)| *family == name);
        let at = found.unwrap_or_else(|| {
            self.families.push((name, Counts::default()));
            self.families.len() - 1
        });
        &mut self.families[at].1
    }

    fn print(&self) {
        let head = Counts::row("family", ["scenes", "listed", "settled", "rough"]);
        let numbers: String = (1..=NUMBERS).map(|number| format!("{number:>6}")).collect();
        println!("{head}{numbers}");
        let rows = self
            .families
            .iter()
            .map(|(family, counts)| (*family, counts));
        for (family, counts) in rows.chain([("all", &self.all)]) {
            counts.print(family);
        }
        let listed = self.all.accepted;
        println!("{listed} scenes were accepted and listed; they met");
        self.met.print();
        for (program, settled) in PROGRAMS.into_iter().zip(self.all.settled) {
            let not = listed - settled;
            println!(
                "{}: {settled} settled at all boards, {not} not",
                programs::name(program)
            );
        }
        for (number, places) in &self.places {
            let refused = self.all.refused.get(*number as usize);
            let count = refused.copied().unwrap_or_default();
            let of = if *number == 8 { "lengths" } else { "places" };
            println!(
                "refused {number}: {count} scenes, {} different {of}",
                places.len()
            );
        }
    }

    /// The refusal numbers that no scene met.
    fn unmet(&self) -> Vec<usize> {
        (1..=NUMBERS)
            .filter(|number| self.all.refused[*number] == 0)
            .collect()
    }
}

/// The program `plain` against its library, on the first scene of each family: how many outputs
/// were compared, and how many faults there are.
fn compare_binary(options: &Options, cases: &[Case]) -> (usize, usize) {
    let plain = programs::beside("plain");
    let mut families = BTreeSet::new();
    let few = cases.iter().filter(|case| families.insert(case.family));
    few.fold((0, 0), |(outputs, faults), case| {
        let (more, found) = outcome::of_plain(&plain, options.proved.limit, case);
        tell(&found);
        (outputs + more, faults + found.len())
    })
}

fn run_all(options: &Options) -> bool {
    let cases = catalog::all(options.seed, options.amounts);
    println!("seed {}, {} scenes", options.seed, cases.len());
    let mut summary = Summary::default();
    for (case, outcome) in cases.iter().zip(compare_all(options, &cases)) {
        summary.add(case, &outcome);
    }
    let (of_plain, faults) = compare_binary(options, &cases);
    summary.faults += faults;
    summary.print();
    let unmet = summary.unmet();
    unmet
        .iter()
        .for_each(|number| println!("no scene was refused with {number}"));
    let (different, outputs) = (summary.hashes.len(), summary.outputs);
    println!("{different} of the scenes are different, byte for byte");
    println!(
        "{} scenes carry the answer of the documents; {} outputs were held to it",
        summary.answered, summary.held
    );
    println!("{outputs} outputs of the proved programs were compared with the library `plain`");
    println!("{of_plain} outputs of the program `plain` were compared with its library");
    println!("{} differences", summary.faults);
    summary.faults == 0 && unmet.is_empty()
}

fn run_only(options: &Options, name: &str) -> Result<bool, String> {
    let case = named(name)?;
    println!("{name}: {} bytes", case.bytes().len());
    if let Some(answer) = case.answer() {
        println!("the documents say: {answer}");
    }
    let outcome = Outcome::of(&options.proved, &case);
    tell(&outcome.faults);
    for (program, verdict) in PROGRAMS.into_iter().zip(outcome.verdicts) {
        if let Some(verdict) = verdict {
            println!("{}: the same, {verdict:?}", programs::name(program));
        }
    }
    let (compared, faults) = (outcome.compared, outcome.faults.len());
    println!("{compared} outputs compared, {faults} differences");
    Ok(faults == 0)
}

fn run(options: &Options) -> Result<bool, String> {
    if let Some((name, file)) = &options.save {
        let written = std::fs::write(file, named(name)?.bytes());
        return written
            .map(|()| true)
            .map_err(|error| format!("{}: {error}", file.display()));
    }
    programs::present(&options.proved.paths)?;
    match &options.only {
        Some(name) => run_only(options, name),
        None => Ok(run_all(options)),
    }
}

fn main() -> ExitCode {
    let options = Options::parse(std::env::args().skip(1));
    match options.and_then(|options| run(&options)) {
        Ok(true) => ExitCode::SUCCESS,
        Ok(false) => ExitCode::FAILURE,
        Err(error) => {
            eprintln!("{error}");
            ExitCode::from(2)
        }
    }
}
