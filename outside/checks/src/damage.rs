//! Damaged scenes: for each refusal and each place, the edits that call for it, and the answer
//! that the documents give.

mod drawn;
mod every;
mod limits;
mod single;
mod twofold;

use std::fmt;
use std::sync::Arc;

use crate::bytes::{Kind, MOST, Scene, smallest, two_triangles};
use crate::programs::Verdict;
use crate::surfaces::base;

pub use drawn::{flipped, noise};

#[derive(Clone, Copy, Debug, PartialEq, Eq)]
pub enum Answer {
    Accepted,
    Refused {
        number: u8,
        last: usize,
    },
    /// Nothing is said here; the implementations must agree all the same.
    Open,
}

impl Answer {
    /// Whether a program that printed this answered so.
    pub fn is_met(self, printed: &[u8]) -> bool {
        match self {
            Answer::Accepted => matches!(Verdict::of(printed), Verdict::Listed { .. }),
            Answer::Refused { .. } => printed == format!("{self}\n").as_bytes(),
            Answer::Open => true,
        }
    }
}

impl fmt::Display for Answer {
    fn fmt(&self, f: &mut fmt::Formatter<'_>) -> fmt::Result {
        match self {
            Answer::Accepted => write!(f, "a listing"),
            Answer::Refused { number, last } => write!(f, "refused {number} at {last}"),
            Answer::Open => write!(f, "anything"),
        }
    }
}

fn refused(number: u8, last: usize) -> Answer {
    Answer::Refused { number, last }
}

#[derive(Clone, Copy, Debug, PartialEq, Eq)]
pub enum Edit {
    Byte(usize, u8),
    /// Two bytes, the low one first.
    Half(usize, u16),
    /// So many of this byte, behind all others.
    Behind(usize, u8),
    /// All bytes from this place on are taken away. It comes after the other edits.
    Cut(usize),
}

impl Edit {
    /// The places that the edit writes.
    fn places(self) -> std::ops::Range<usize> {
        match self {
            Edit::Byte(place, _) => place..place + 1,
            Edit::Half(place, _) => place..place + 2,
            Edit::Behind(..) | Edit::Cut(_) => 0..0,
        }
    }

    fn apply(self, bytes: &mut Vec<u8>) {
        match self {
            Edit::Byte(place, byte) => bytes[place] = byte,
            Edit::Half(place, half) => {
                bytes[place..place + 2].copy_from_slice(&half.to_le_bytes());
            }
            Edit::Behind(count, byte) => bytes.resize(bytes.len() + count, byte),
            Edit::Cut(place) => bytes.truncate(place),
        }
    }
}

/// A scene, what is done to its bytes, and what is answered then.
#[derive(Clone, Debug)]
pub struct Recipe {
    scene: Arc<Scene>,
    edits: Vec<Edit>,
    pub answer: Answer,
}

impl Recipe {
    fn new(scene: &Arc<Scene>, edits: impl Into<Vec<Edit>>, answer: Answer) -> Recipe {
        Recipe {
            scene: Arc::clone(scene),
            edits: edits.into(),
            answer,
        }
    }

    pub fn bytes(&self) -> Vec<u8> {
        let mut bytes = self.scene.bytes();
        let (cuts, others): (Vec<Edit>, Vec<Edit>) = self
            .edits
            .iter()
            .partition(|edit| matches!(edit, Edit::Cut(_)));
        others
            .into_iter()
            .chain(cuts)
            .for_each(|edit| edit.apply(&mut bytes));
        bytes
    }
}

type Family = (&'static str, fn() -> Vec<Recipe>);

/// The families of recipes, by name. Each is the same under every seed.
pub const FAMILIES: [Family; 14] = [
    ("room", limits::room),
    ("limits", limits::limits),
    ("short", single::short),
    ("mark", single::mark),
    ("header", single::header),
    ("cell", single::cell),
    ("corners", single::corners),
    ("word", single::word),
    ("behind", single::behind),
    ("count", single::count),
    ("twofold", twofold::twofold),
    ("cut", every::cut),
    ("byte", every::byte),
    ("long", every::long),
];

/// The scenes that are damaged: one of each sort and size.
fn bases() -> Vec<Arc<Scene>> {
    [
        smallest(),
        two_triangles(),
        base(Kind::Force, 1, 0),
        base(Kind::Force, 5, 2),
        base(Kind::Depth, 40, 1),
        base(Kind::Tags, MOST, 1),
    ]
    .map(Arc::new)
    .to_vec()
}

fn bases_of_kinds(cells: usize) -> [Arc<Scene>; 3] {
    Kind::ALL.map(|kind| Arc::new(base(kind, cells, 1)))
}

#[cfg(test)]
mod tests {
    use super::*;
    use crate::bytes::{CELLS_PLACE, VERTICES_PLACE};
    use plain::Program;
    use std::collections::BTreeSet;

    #[test]
    fn every_recipe_is_answered_as_intended() {
        for (family, recipes) in FAMILIES {
            for (number, recipe) in recipes().iter().enumerate() {
                let printed = plain::listing(&recipe.bytes(), Program::Halo);
                assert!(recipe.answer.is_met(&printed), "{family}/{number}");
            }
        }
    }

    #[test]
    fn an_answer_is_met_by_itself_alone() {
        let listed = b"boards 1 overlap 0 kind 1 copies 0 edges 0\nturns 0\n0 settled\n";
        let (five, strange) = (b"refused 5 at 16\n", b"");
        let met = |answer: Answer| {
            [&listed[..], &five[..], &strange[..]].map(|printed| answer.is_met(printed))
        };
        assert_eq!(met(Answer::Accepted), [true, false, false]);
        assert_eq!(met(refused(5, 16)), [false, true, false]);
        assert_eq!(met(refused(5, 18)), [false; 3]);
        assert_eq!(met(refused(4, 16)), [false; 3]);
        assert_eq!(met(Answer::Open), [true; 3]);
    }

    #[test]
    fn every_number_is_intended_at_several_places() {
        let mut met = BTreeSet::new();
        for (_, recipes) in FAMILIES {
            met.extend(recipes().iter().filter_map(|recipe| match recipe.answer {
                Answer::Refused { number, last } => Some((number, last)),
                _ => None,
            }));
        }
        for number in 1..=8 {
            let places = met.iter().filter(|(met, _)| *met == number).count();
            assert!(places >= 5, "number {number} at {places} places");
        }
    }

    #[test]
    fn documented_changes_of_the_two_triangles_are_answered_as_documented() {
        let scene = Arc::new(two_triangles());
        let of = |edit| {
            String::from_utf8(plain::listing(
                &Recipe::new(&scene, [edit], Answer::Open).bytes(),
                Program::HaloRough,
            ))
        };
        assert_eq!(
            of(Edit::Half(VERTICES_PLACE, 3)).as_deref(),
            Ok("refused 4 at 62\n")
        );
        assert_eq!(
            of(Edit::Half(CELLS_PLACE, 3)).as_deref(),
            Ok("refused 1 at 102\n")
        );
        assert_eq!(
            of(Edit::Half(CELLS_PLACE, 1)).as_deref(),
            Ok("refused 2 at 56\n")
        );
        assert_eq!(of(Edit::Cut(56)).as_deref(), Ok("refused 1 at 56\n"));
        assert_eq!(of(Edit::Byte(98, 1)).as_deref(), Ok("refused 6 at 98\n"));
        assert_eq!(of(Edit::Behind(1, 0)).as_deref(), Ok("refused 7 at 104\n"));
    }
}
