//! One scene run through both proved programs: what is met, and all that is wrong.

use std::hash::{DefaultHasher, Hash, Hasher};
use std::path::{Path, PathBuf};
use std::time::Duration;

use crate::bytes::HEADER;
use crate::catalog::Case;
use crate::damage::Answer;
use crate::programs::{self, Difference, PROGRAMS, Verdict};

/// Where the proved programs are, in the order of `PROGRAMS`, and how long each may run.
#[derive(Clone, Debug)]
pub struct Proved {
    pub paths: [PathBuf; 2],
    pub limit: Duration,
}

#[derive(Clone, Debug, Default, PartialEq, Eq)]
pub struct Outcome {
    /// The scene's first bytes.
    pub head: Vec<u8>,
    /// Tells scenes of different bytes apart; none where the scene could not be made.
    pub hash: Option<u64>,
    /// What each program says, where nothing is wrong with its output.
    pub verdicts: [Option<Verdict>; 2],
    /// How many outputs were compared with the library's.
    pub compared: usize,
    /// How many outputs were held to the answer of the documents.
    pub held: usize,
    pub faults: Vec<String>,
}

impl Outcome {
    /// A panic is a fault of this scene alone.
    pub fn of(proved: &Proved, case: &Case) -> Outcome {
        let outcome = programs::guarded("the comparison", || Outcome::compare(proved, case));
        outcome.unwrap_or_else(|panic| Outcome {
            faults: vec![format!("{}: {panic}", case.name)],
            ..Outcome::default()
        })
    }

    fn compare(proved: &Proved, case: &Case) -> Outcome {
        let scene = case.bytes();
        let mut hasher = DefaultHasher::new();
        scene.hash(&mut hasher);
        let mut outcome = Outcome {
            head: scene.iter().copied().take(HEADER).collect(),
            hash: Some(hasher.finish()),
            ..Outcome::default()
        };
        for (at, program) in PROGRAMS.into_iter().enumerate() {
            let printed = programs::output(&proved.paths[at], &[], &scene, proved.limit);
            let listing = programs::listing(&scene, program);
            outcome.compared += usize::from(printed.is_ok() && listing.is_ok());
            outcome.held += usize::from(printed.is_ok() && case.answer().is_some());
            let name = format!("{} {}", case.name, programs::name(program));
            let faults = faults(&printed, &listing, case.answer());
            if let (Ok(printed), true) = (printed, faults.is_empty()) {
                outcome.verdicts[at] = Some(Verdict::of(&printed));
            }
            let named = faults.iter().map(|fault| format!("{name}: {fault}"));
            outcome.faults.extend(named);
        }
        outcome
    }
}

type Printed = Result<Vec<u8>, String>;

/// All that is wrong with what a proved program printed, beside the library's listing and what
/// the documents say. So what both misread shows too.
fn faults(printed: &Printed, listing: &Printed, answer: Option<Answer>) -> Vec<String> {
    let mut faults: Vec<String> = [printed, listing]
        .into_iter()
        .filter_map(|output| output.as_ref().err().cloned())
        .collect();
    if let (Ok(printed), Ok(listing)) = (printed, listing) {
        faults.extend(Difference::of(printed, listing).map(|difference| difference.to_string()));
    }
    if let Ok(printed) = printed {
        let line = printed.split_inclusive(|byte| *byte == b'\n').next();
        let line = line.unwrap_or_default().escape_ascii();
        if Verdict::of(printed) == Verdict::Strange {
            faults.push(format!("neither a listing nor a refusal\n  proved {line}"));
        }
        if let Some(answer) = answer.filter(|answer| !answer.is_met(printed)) {
            faults.push(format!(
                "not what the documents say\n  proved {line}\n  documents {answer}"
            ));
        }
    }
    faults
}

/// The program `plain` against its library on a scene: how many outputs, and what is wrong.
pub fn of_plain(plain: &Path, limit: Duration, case: &Case) -> (usize, Vec<String>) {
    let compare = || {
        let scene = case.bytes();
        PROGRAMS.map(|program| {
            let name = programs::name(program);
            let printed = programs::output(plain, &[name], &scene, limit)?;
            if printed == programs::listing(&scene, program)? {
                Ok(())
            } else {
                Err(format!("{name}: `plain` differs from its library"))
            }
        })
    };
    match programs::guarded("the comparison", compare) {
        Ok(results) => {
            let faults = results.into_iter().filter_map(Result::err);
            let faults = faults.map(|fault| format!("{} {fault}", case.name));
            (PROGRAMS.len(), faults.collect())
        }
        Err(panic) => (0, vec![format!("{}: {panic}", case.name)]),
    }
}

#[cfg(test)]
mod tests {
    use super::*;

    const FIVE: &[u8] = b"refused 5 at 16\n";

    fn refused(number: u8, last: usize) -> Option<Answer> {
        Some(Answer::Refused { number, last })
    }

    fn count(printed: &[u8], listing: &[u8], answer: Option<Answer>) -> usize {
        faults(&Ok(printed.to_vec()), &Ok(listing.to_vec()), answer).len()
    }

    #[test]
    fn equal_outputs_must_be_listings_or_refusals() {
        assert_eq!(count(FIVE, FIVE, None), 0);
        assert_eq!(count(b"", b"", None), 1);
        assert_eq!(count(b"refused\n", b"refused\n", None), 1);
    }

    #[test]
    fn a_misreading_of_both_shows() {
        assert_eq!(count(FIVE, FIVE, refused(5, 16)), 0);
        assert_eq!(count(FIVE, FIVE, refused(5, 18)), 1);
        assert_eq!(count(FIVE, FIVE, Some(Answer::Accepted)), 1);
        assert_eq!(count(FIVE, b"refused 5 at 18\n", refused(5, 18)), 2);
    }

    #[test]
    fn a_failure_is_a_fault() {
        let (failed, fine) = (Err("killed".to_owned()), Ok(FIVE.to_vec()));
        assert_eq!(faults(&failed, &fine, None), ["killed"]);
        assert_eq!(faults(&fine, &failed, None), ["killed"]);
    }

    #[test]
    fn a_scene_s_faults_bear_its_name() {
        let proved = |path: &str| Proved {
            paths: [path, "/bin/false"].map(PathBuf::from),
            limit: Duration::from_secs(60),
        };
        let case = Case::named("mark/3").expect("a case of that name");
        let outcome = Outcome::of(&proved("/bin/true"), &case);
        assert_eq!((outcome.compared, outcome.held), (1, 1));
        assert_eq!(outcome.verdicts, [None; 2]);
        // Differs, is empty and is not the refusal that is due; and the other one failed.
        assert_eq!(outcome.faults.len(), 4);
        let named = |fault: &String| fault.starts_with("mark/3 halo");
        assert!(outcome.faults.iter().all(named));
    }
}
