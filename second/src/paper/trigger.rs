//! Whether a Setup meets the criteria of a trigger profile.
//!
//! Document 01, section "Triggering (004)"; document 02, T-03 and T-04.

use crate::paper::forms::{CallKind, Number, Profile, Sense, Setup};

/// All present criteria must hold; a terminating call has the services alone.
pub fn triggers(profile: &Profile, setup: &Setup) -> bool {
    match setup.call_kind {
        CallKind::Originating => {
            number_holds(profile, setup)
                && service_holds(profile, setup)
                && forwarding_holds(profile, setup)
        }
        CallKind::Terminating => service_holds(profile, setup),
    }
}

fn number_holds(profile: &Profile, setup: &Setup) -> bool {
    match profile.number_sense {
        Sense::Absent => true,
        Sense::Enabling => number_or_length_matches(profile, &setup.number),
        Sense::Inhibiting => !number_or_length_matches(profile, &setup.number),
    }
}

fn number_or_length_matches(profile: &Profile, dialled: &Number) -> bool {
    // Open in the paper: a length matches a number of exactly so many digits.
    let length = |stored: &u8| usize::from(*stored) == dialled.digits.len();
    compare_numbers(&profile.numbers, dialled, compare).matches
        || profile.lengths.iter().any(length)
}

/// What a comparison with stored digits has shown.
#[derive(Clone, Copy, PartialEq, Eq, Debug)]
pub struct Compared {
    pub matches: bool,
    /// How many digit pairs were compared.
    pub pairs: usize,
}

impl Compared {
    fn matching(pairs: usize) -> Compared {
        let matches = true;
        Compared { matches, pairs }
    }

    fn differing(pairs: usize) -> Compared {
        let matches = false;
        Compared { matches, pairs }
    }
}

/// Goes through the stored numbers until one matches. Where natures differ,
/// digits are not compared.
pub fn compare_numbers(
    numbers: &[Number],
    dialled: &Number,
    mut compare: impl FnMut(&[u8], &[u8]) -> Compared,
) -> Compared {
    let mut pairs = 0;
    let mut digits_match = |stored: &Number| {
        let compared = compare(stored.digits, dialled.digits);
        pairs += compared.pairs;
        compared.matches
    };
    let matches = numbers
        .iter()
        .any(|stored| stored.nature == dialled.nature && digits_match(stored));
    Compared { matches, pairs }
}

/// Whether the stored digits lead the dialled number. The last one is compared
/// first, since operators' lists share their prefixes.
pub fn compare(stored: &[u8], dialled: &[u8]) -> Compared {
    let Some((last, leading)) = stored.split_last() else {
        return Compared::matching(0);
    };
    match dialled.get(leading.len()) {
        None => Compared::differing(0), // the dialled number is shorter
        Some(digit) if digit != last => Compared::differing(1),
        Some(_) => {
            let front = compare_from_front(leading, dialled);
            let pairs = front.pairs + 1;
            Compared { pairs, ..front }
        }
    }
}

/// The same in one run from the front: the order before T-03, with its count.
pub fn compare_from_front(stored: &[u8], dialled: &[u8]) -> Compared {
    let Some(dialled) = dialled.get(..stored.len()) else {
        return Compared::differing(0);
    };
    let differ = |(stored, dialled)| stored != dialled;
    match stored.iter().zip(dialled).position(differ) {
        None => Compared::matching(stored.len()),
        Some(place) => Compared::differing(place + 1),
    }
}

fn service_holds(profile: &Profile, setup: &Setup) -> bool {
    profile.services.is_empty() || profile.services.contains(&setup.service)
}

fn forwarding_holds(profile: &Profile, setup: &Setup) -> bool {
    match profile.forwarding {
        Sense::Absent => true,
        Sense::Enabling => setup.forwarded,
        Sense::Inhibiting => !setup.forwarded,
    }
}
