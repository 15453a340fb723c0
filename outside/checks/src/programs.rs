//! Running a program on bytes, and telling its outputs apart.

use std::fmt;
use std::io::{self, ErrorKind, Read, Write};
use std::panic::{self, AssertUnwindSafe};
use std::path::{Path, PathBuf};
use std::process::{Child, Command, ExitStatus, Output, Stdio};
use std::sync::mpsc::{self, Receiver};
use std::thread;
use std::time::{Duration, Instant};

use plain::Program;

pub const PROGRAMS: [Program; 2] = [Program::Halo, Program::HaloRough];

/// The program's name as an argument of `plain` and `stages`.
pub fn name(program: Program) -> &'static str {
    match program {
        Program::Halo => "halo",
        Program::HaloRough => "halo-rough",
    }
}

/// Where the proved programs are, if an option does not say so.
pub fn proved(program: Program) -> PathBuf {
    let folder = match program {
        Program::Halo => "halo",
        Program::HaloRough => "halo_rough",
    };
    repository()
        .join("crates")
        .join(folder)
        .join("out")
        .join(folder)
}

/// The repository that this binary was built in: it lies in `outside/target/release`.
fn repository() -> PathBuf {
    let binary = std::env::current_exe().unwrap_or_default();
    binary
        .ancestors()
        .nth(4)
        .unwrap_or(Path::new(".."))
        .to_path_buf()
}

/// A program that was built together with this one.
pub fn beside(name: &str) -> PathBuf {
    std::env::current_exe()
        .unwrap_or_default()
        .with_file_name(name)
}

/// Says at once what is missing, before each of thousands of runs does.
pub fn present<'a>(programs: impl IntoIterator<Item = &'a PathBuf>) -> Result<(), String> {
    match programs.into_iter().find(|program| !program.is_file()) {
        Some(program) => Err(format!("there is no program {}", program.display())),
        None => Ok(()),
    }
}

/// What the program prints, if it ends well within the limit and complains of nothing.
pub fn output(
    program: &Path,
    arguments: &[&str],
    input: &[u8],
    limit: Duration,
) -> Result<Vec<u8>, String> {
    let failed = |what: &str| Err(format!("{}: {what}", program.display()));
    let output = match run(program, arguments, input, limit) {
        Err(error) if error.kind() == ErrorKind::TimedOut => {
            return failed(&format!("killed, for it had not ended after {limit:?}"));
        }
        Err(error) => return failed(&error.to_string()),
        Ok(output) => output,
    };
    if !output.status.success() {
        return failed(&output.status.to_string());
    }
    if !output.stderr.is_empty() {
        let complaint = String::from_utf8_lossy(&output.stderr);
        return failed(&format!("complains: {}", complaint.trim_end()));
    }
    Ok(output.stdout)
}

fn run(program: &Path, arguments: &[&str], input: &[u8], limit: Duration) -> io::Result<Output> {
    let mut child = Command::new(program)
        .args(arguments)
        .stdin(Stdio::piped())
        .stdout(Stdio::piped())
        .stderr(Stdio::piped())
        .spawn()?;
    let output = collect(&mut child, input, Instant::now() + limit);
    if output.is_err() {
        // It may have ended meanwhile.
        let _ = child.kill();
        child.wait()?;
    }
    output
}

fn collect(child: &mut Child, input: &[u8], deadline: Instant) -> io::Result<Output> {
    // No thread is waited for: what the child itself started may hold its pipes for longer.
    let (stdin, input) = (child.stdin.take(), input.to_vec());
    thread::spawn(move || {
        if let Some(mut stdin) = stdin {
            // A program may stop reading early: a broken pipe is no failure.
            let _ = stdin.write_all(&input);
        }
    });
    let (stdout, stderr) = (read(child.stdout.take()), read(child.stderr.take()));
    Ok(Output {
        stdout: received(&stdout, deadline)?,
        stderr: received(&stderr, deadline)?,
        status: ended(child, deadline)?,
    })
}

/// More bytes than any program has to print, so that an endless output breaks off.
const MOST_PRINTED: u64 = 1 << 24;

fn read(stream: Option<impl Read + Send + 'static>) -> Receiver<io::Result<Vec<u8>>> {
    let (sender, receiver) = mpsc::channel();
    thread::spawn(move || {
        let mut bytes = Vec::new();
        let read = stream.map_or(Ok(0), |stream| {
            stream.take(MOST_PRINTED).read_to_end(&mut bytes)
        });
        // After the limit nobody receives any more.
        let _ = sender.send(read.map(|_| bytes));
    });
    receiver
}

fn received(bytes: &Receiver<io::Result<Vec<u8>>>, deadline: Instant) -> io::Result<Vec<u8>> {
    let left = deadline.saturating_duration_since(Instant::now());
    let late = |_| Err(ErrorKind::TimedOut.into());
    bytes.recv_timeout(left).unwrap_or_else(late)
}

/// The status of a child whose outputs have ended, as its process has or soon will.
fn ended(child: &mut Child, deadline: Instant) -> io::Result<ExitStatus> {
    loop {
        if let Some(status) = child.try_wait()? {
            return Ok(status);
        }
        if Instant::now() >= deadline {
            return Err(ErrorKind::TimedOut.into());
        }
        thread::sleep(Duration::from_micros(50));
    }
}

/// What the work gives, unless it panics.
pub fn guarded<T>(what: &str, work: impl FnOnce() -> T) -> Result<T, String> {
    panic::catch_unwind(AssertUnwindSafe(work)).map_err(|_| format!("{what} panics"))
}

/// What the independent implementation lists, unless it panics.
pub fn listing(scene: &[u8], program: Program) -> Result<Vec<u8>, String> {
    guarded("the library `plain`", || plain::listing(scene, program))
}

/// The last refusal number that a program can print.
pub const NUMBERS: u64 = 8;

/// What a listing says, by its first line and its boards' lines.
#[derive(Clone, Copy, Debug, PartialEq, Eq)]
pub enum Verdict {
    Refused { number: u64, last: u64 },
    Listed { settled: bool, copies: usize },
    Strange,
}

impl Verdict {
    pub fn of(output: &[u8]) -> Verdict {
        let text = String::from_utf8_lossy(output);
        let mut lines = text.lines();
        let words: Vec<&str> = lines.next().unwrap_or_default().split(' ').collect();
        match words[..] {
            ["refused", number, "at", last] => match (number.parse(), last.parse()) {
                (Ok(number @ 1..=NUMBERS), Ok(last)) => Verdict::Refused { number, last },
                _ => Verdict::Strange,
            },
            ["boards", .., "copies", copies, "edges", _] => match copies.parse() {
                Ok(copies) => Verdict::Listed {
                    settled: !lines.any(|line| line.contains(" awaits ")),
                    copies,
                },
                Err(_) => Verdict::Strange,
            },
            _ => Verdict::Strange,
        }
    }
}

/// The first line in which two outputs differ, and what each has there.
#[derive(Clone, Debug, PartialEq, Eq)]
pub struct Difference {
    pub line: usize,
    pub proved: Option<String>,
    pub plain: Option<String>,
}

impl Difference {
    pub fn of(proved: &[u8], plain: &[u8]) -> Option<Difference> {
        if proved == plain {
            return None;
        }
        let lines = |bytes: &[u8]| -> Vec<Vec<u8>> {
            let lines = bytes.split_inclusive(|byte| *byte == b'\n');
            lines.map(<[u8]>::to_vec).collect()
        };
        let (proved, plain) = (lines(proved), lines(plain));
        let both = proved.iter().zip(&plain);
        let same = both.take_while(|(proved, plain)| proved == plain).count();
        let shown = |lines: &[Vec<u8>]| lines.get(same).map(|line| line.escape_ascii().to_string());
        Some(Difference {
            line: same + 1,
            proved: shown(&proved),
            plain: shown(&plain),
        })
    }
}

impl fmt::Display for Difference {
    fn fmt(&self, f: &mut fmt::Formatter<'_>) -> fmt::Result {
        let shown = |line: &Option<String>| line.clone().unwrap_or("(no line)".to_owned());
        let (proved, plain) = (shown(&self.proved), shown(&self.plain));
        write!(f, "line {}\n  proved {proved}\n  plain  {plain}", self.line)
    }
}

#[cfg(test)]
mod tests {
    use super::*;

    #[test]
    fn verdicts_follow_the_listing() {
        let refused = Verdict::Refused {
            number: 5,
            last: 16,
        };
        assert_eq!(Verdict::of(b"refused 5 at 16\n"), refused);
        let listed = |copies, settled| Verdict::Listed { settled, copies };
        let all = b"boards 1 overlap 0 kind 1 copies 0 edges 0\nturns 0\n0 settled\n";
        assert_eq!(Verdict::of(all), listed(0, true));
        let not = b"boards 2 overlap 0 kind 1 copies 12 edges 0\nturns 0\n0 awaits 1\n";
        assert_eq!(Verdict::of(not), listed(12, false));
        assert_eq!(Verdict::of(b""), Verdict::Strange);
        assert_eq!(Verdict::of(b"refused 5 at 1x\n"), Verdict::Strange);
        assert_eq!(Verdict::of(b"refused 9 at 1\n"), Verdict::Strange);
    }

    #[test]
    fn the_first_differing_line_is_named() {
        assert_eq!(Difference::of(b"a\nb\n", b"a\nb\n"), None);
        let longer = Difference::of(b"a\nb\n", b"a\n").expect("they differ");
        let told = "line 2\n  proved b\\n\n  plain  (no line)";
        assert_eq!(longer.to_string(), told);
        assert!(Difference::of(b"a", b"a\n").is_some());
    }

    const LONG: Duration = Duration::from_secs(60);

    #[test]
    fn a_program_that_stops_reading_early_is_no_failure() {
        let input = vec![b'x'; 1 << 20];
        let of = |program: &str| output(Path::new(program), &[], &input, LONG);
        assert_eq!(of("/bin/true"), Ok(Vec::new()));
        assert!(of("/bin/false").is_err());
        assert!(of("/bin/cat").expect("cat") == input);
    }

    #[test]
    fn a_program_that_does_not_end_is_killed() {
        // Asleep; asleep in a child that holds the pipes; asleep behind closed outputs.
        for script in [
            "exec sleep 9",
            "sleep 9; true",
            "exec sleep 9 >/dev/null 2>&1",
        ] {
            let begun = Instant::now();
            let limit = Duration::from_millis(100);
            let printed = output(Path::new("/bin/sh"), &["-c", script], &[], limit);
            assert!(
                printed.is_err_and(|failure| failure.contains("killed")),
                "{script}"
            );
            assert!(begun.elapsed() < Duration::from_secs(8), "{script}");
        }
    }

    #[test]
    fn an_endless_output_breaks_off() {
        let yes = output(Path::new("/usr/bin/yes"), &[], &[], LONG);
        assert!(yes.is_err_and(|failure| failure.contains("signal")));
    }

    #[test]
    fn a_panic_is_told() {
        assert_eq!(guarded("it", || 1), Ok(1));
        assert_eq!(
            guarded("it", || panic!("as intended")),
            Err::<(), _>("it panics".to_owned())
        );
    }
}
