//! The list of all scenes. Each has a name of its family and number, drawn ones of their seed
//! too, and can be made again from that name alone.

use crate::damage::{self, Answer, FAMILIES, Recipe};
use crate::surfaces::{self, SIZES, Shape};

#[derive(Clone, Debug)]
pub struct Case {
    pub name: String,
    pub family: &'static str,
    source: Source,
}

#[derive(Clone, Debug)]
enum Source {
    Surface(Shape, u64, usize),
    Sized(usize),
    Near(usize),
    Recipe(Recipe),
    Flipped(u64, usize),
    Noise(u64, usize),
}

/// How many scenes of the drawn families there are.
#[derive(Clone, Copy, Debug, PartialEq, Eq)]
pub struct Amounts {
    pub valid: usize,
    pub flipped: usize,
    pub noise: usize,
}

const SIZED: &str = "sizes";
const NEAR: &str = "near";
const FLIPPED: &str = "flip";
const NOISE: &str = "noise";

/// How many scenes of the family `near` there are.
const NEARS: usize = 60;

impl Case {
    fn numbered(family: &'static str, number: usize, source: Source) -> Case {
        let name = format!("{family}/{number}");
        Case {
            name,
            family,
            source,
        }
    }

    fn drawn(family: &'static str, seed: u64, number: usize, source: Source) -> Case {
        let name = format!("{family}/{seed}/{number}");
        Case {
            name,
            family,
            source,
        }
    }

    fn surface(shape: Shape, seed: u64, number: usize) -> Case {
        Case::drawn(
            shape.name(),
            seed,
            number,
            Source::Surface(shape, seed, number),
        )
    }

    fn flipped(seed: u64, number: usize) -> Case {
        Case::drawn(FLIPPED, seed, number, Source::Flipped(seed, number))
    }

    fn noise(seed: u64, number: usize) -> Case {
        Case::drawn(NOISE, seed, number, Source::Noise(seed, number))
    }

    pub fn bytes(&self) -> Vec<u8> {
        match &self.source {
            Source::Surface(shape, seed, number) => shape.scene(*seed, *number).bytes(),
            Source::Sized(number) => surfaces::sized(*number).bytes(),
            Source::Near(number) => surfaces::near_room(*number).bytes(),
            Source::Recipe(recipe) => recipe.bytes(),
            Source::Flipped(seed, number) => damage::flipped(*seed, *number),
            Source::Noise(seed, number) => damage::noise(*seed, *number),
        }
    }

    /// What the documents say of it, where the scene was made for that.
    pub fn answer(&self) -> Option<Answer> {
        match &self.source {
            Source::Recipe(recipe) => Some(recipe.answer),
            _ => None,
        }
        .filter(|answer| *answer != Answer::Open)
    }

    /// The case of this name, whether or not a list with the default amounts has it.
    pub fn named(name: &str) -> Option<Case> {
        let parts: Vec<&str> = name.split('/').collect();
        match parts[..] {
            [family, number] => {
                let number: usize = number.parse().ok()?;
                numbered(family)?.into_iter().nth(number)
            }
            [family, seed, number] => {
                let (seed, number) = (seed.parse().ok()?, number.parse().ok()?);
                match family {
                    FLIPPED => Some(Case::flipped(seed, number)),
                    NOISE => Some(Case::noise(seed, number)),
                    _ => Some(Case::surface(Shape::named(family)?, seed, number)),
                }
            }
            _ => None,
        }
    }
}

/// All scenes of a family without a seed.
fn numbered(name: &str) -> Option<Vec<Case>> {
    let case = |family, source: fn(usize) -> Source, count| {
        (0..count)
            .map(|number| Case::numbered(family, number, source(number)))
            .collect()
    };
    match name {
        SIZED => Some(case(SIZED, Source::Sized, SIZES)),
        NEAR => Some(case(NEAR, Source::Near, NEARS)),
        _ => {
            let (family, recipes) = FAMILIES.into_iter().find(|(family, _)| *family == name)?;
            let cases = recipes()
                .into_iter()
                .enumerate()
                .map(|(number, recipe)| Case::numbered(family, number, Source::Recipe(recipe)));
            Some(cases.collect())
        }
    }
}

/// All scenes: the drawn ones of this seed, and those that have no seed.
pub fn all(seed: u64, amounts: Amounts) -> Vec<Case> {
    let shapes = Shape::ALL
        .into_iter()
        .enumerate()
        .flat_map(|(place, shape)| {
            let count = (amounts.valid + Shape::ALL.len() - 1 - place) / Shape::ALL.len();
            (0..count).map(move |number| Case::surface(shape, seed, number))
        });
    let families = [SIZED, NEAR]
        .into_iter()
        .chain(FAMILIES.map(|(family, _)| family));
    shapes
        .chain(families.filter_map(numbered).flatten())
        .chain((0..amounts.flipped).map(|number| Case::flipped(seed, number)))
        .chain((0..amounts.noise).map(|number| Case::noise(seed, number)))
        .collect()
}

#[cfg(test)]
mod tests {
    use super::*;
    use std::collections::BTreeSet;

    const FEW: Amounts = Amounts {
        valid: 105,
        flipped: 30,
        noise: 30,
    };

    #[test]
    fn as_many_valid_scenes_are_drawn_as_asked_for() {
        let drawn = |case: &&Case| matches!(case.source, Source::Surface(..));
        assert_eq!(all(1, FEW).iter().filter(drawn).count(), FEW.valid);
    }

    #[test]
    fn a_name_makes_its_scene_again() {
        let cases = all(7, FEW);
        let names: BTreeSet<&str> = cases.iter().map(|case| case.name.as_str()).collect();
        assert_eq!(names.len(), cases.len());
        for case in cases.iter().step_by(37) {
            let again = Case::named(&case.name).expect("a case of that name");
            assert!(again.bytes() == case.bytes(), "{}", case.name);
            assert_eq!(again.family, case.family);
        }
    }

    #[test]
    fn other_names_are_of_no_scene() {
        for name in [
            "",
            "grid",
            "grid/1",
            "grid/1/x",
            "nothing/1",
            "mark/1/1",
            "near/60",
        ] {
            assert!(Case::named(name).is_none(), "{name}");
        }
    }
}
