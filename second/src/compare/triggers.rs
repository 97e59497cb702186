//! Trigger checks, over and over: the program that makes them and counts.
//!
//! The input is that of `rounds`, and all items are Setups. A check takes the
//! next one, and goes through the profile's stored numbers in their order: one
//! of the Setup's nature has its digits compared, until one matches. All else
//! in the profile and the Setup plays no part.

use crate::bench::rounds::Rounds;
use crate::paper::forms::{read_item, read_profile, Body, Number};
use crate::paper::trigger::{compare, compare_from_front, compare_numbers, Compared};
use crate::texts;
use std::fmt;
use std::hint::black_box;

/// Which comparison of digits a check is made with.
pub const LAST_FIRST: u8 = 2;
/// The order before T-03, with its count.
pub const FROM_FRONT: u8 = 3;

/// The list that T-03 is about: ten numbers that share all but the last of
/// their 15 digits.
pub const LONG_LIST: &str = "profile continue 120 enabling \
    4/491512345678900 4/491512345678901 4/491512345678902 4/491512345678903 4/491512345678904 \
    4/491512345678905 4/491512345678906 4/491512345678907 4/491512345678908 4/491512345678909";

/// What is dialled with that list, and how it differs from its numbers.
pub const DIALLED_WITH_LONG_LIST: [(&str, &str); 4] = [
    ("4/49151234567890*", "only the last digit differs from all"),
    ("4/491512345678909", "equal to the tenth"),
    (
        "4/59151234567890*",
        "the first and the last digit differ from all",
    ),
    (
        "4/591512345678905",
        "the first digit differs from all, the last from all but one",
    ),
];

/// The checks to make, read.
pub struct Checks<'a> {
    pub stored: Vec<Number<'a>>,
    pub dialled: Vec<Number<'a>>,
    pub count: u32,
}

/// What the checks have led to.
#[derive(Clone, Copy, PartialEq, Eq, Debug)]
pub struct Sums {
    pub checks: u32,
    /// In how many some stored number matched.
    pub matched: u32,
    /// How many digit pairs were compared.
    pub pairs: u64,
}

impl fmt::Display for Sums {
    fn fmt(&self, formatter: &mut fmt::Formatter) -> fmt::Result {
        let Sums {
            checks,
            matched,
            pairs,
        } = self;
        write!(formatter, "{checks} {matched} {pairs}")
    }
}

impl Checks<'_> {
    pub fn read<'a>(rounds: &Rounds<'a>) -> Result<Checks<'a>, String> {
        let profile = read_profile(rounds.profile).ok_or("the profile is malformed")?;
        let dialled = rounds.items.iter().map(|item| number_of_setup(item));
        let dialled: Option<_> = dialled.collect();
        Ok(Checks {
            stored: profile.numbers,
            dialled: dialled.ok_or("an item is not a Setup")?,
            count: rounds.count,
        })
    }

    /// Makes the checks with this comparison of digits.
    pub fn make(&self, mut compare: impl FnMut(&[u8], &[u8]) -> Compared) -> Sums {
        let mut matched = 0;
        let mut pairs = 0;
        for dialled in self.dialled.iter().cycle().take(self.count as usize) {
            // Else a check of the same Setup need not be made again.
            let compared = compare_numbers(&self.stored, black_box(dialled), &mut compare);
            matched += u32::from(compared.matches);
            pairs += compared.pairs as u64;
        }
        Sums {
            checks: self.count,
            matched,
            pairs,
        }
    }
}

fn number_of_setup(item: &[u8]) -> Option<Number<'_>> {
    match read_item(item)?.body {
        Body::Setup(setup) => Some(setup.number),
        Body::Other(_) => None,
    }
}

/// Makes the checks of an input.
pub fn run(input: &[u8]) -> Result<Sums, String> {
    let rounds = Rounds::read(input)?;
    let checks = Checks::read(&rounds)?;
    match rounds.function {
        LAST_FIRST => Ok(checks.make(compare)),
        FROM_FRONT => Ok(checks.make(compare_from_front)),
        _ => rounds.unknown_function(),
    }
}

/// A profile with Setups of the numbers dialled, all in words.
pub fn round(profile: &str, dialled: &[&str]) -> Result<Vec<u8>, String> {
    let mut text = profile.to_string();
    for number in dialled {
        text += &format!("\n0 call 1 setup {number} service 17");
    }
    Ok(texts::bytes_of(&texts::assemble("trigger checks", &text)?))
}
