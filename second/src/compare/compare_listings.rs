//! The listing program and this one on the same generated scenarios, which
//! reach both in the same pieces.

use crate::compare::counts::{self, Counts};
use crate::compare::program::{Program, LONGEST_PIECE};
use crate::compare::random::Random;
use crate::compare::{coverage, generate, shown};
use crate::output;
use crate::paper::forms::read_item;
use crate::paper::listing;
use crate::paper::listing::frames;
use crate::texts;
use std::io::{self, BufReader, Read};
use std::ops::Range;
use std::sync::atomic::{AtomicBool, Ordering};
use std::thread;

const THREADS: usize = 2;

/// What the scenarios of one thread have shown.
struct Found {
    coverage: Counts,
    items: usize,
    differences: u64,
    /// The seed and the text of the first difference.
    first: Option<(u64, String)>,
    /// The seed and the text of the first error.
    error: Option<(u64, String)>,
}

impl Found {
    fn nothing() -> Found {
        Found {
            coverage: Counts::new(coverage::wanted()),
            items: 0,
            differences: 0,
            first: None,
            error: None,
        }
    }

    fn add(&mut self, other: Found) {
        let first = |one: &mut Option<_>, other| *one = one.take().into_iter().chain(other).min();
        self.coverage.add_all(other.coverage);
        self.items += other.items;
        self.differences += other.differences;
        first(&mut self.first, other.first);
        first(&mut self.error, other.error);
    }
}

/// Compares the scenarios of these seeds; true if nothing differs and all was
/// reached.
pub fn run(program: Program, seeds: Range<u64>) -> Result<bool, String> {
    let count = seeds.end - seeds.start;
    let found = compare_all(program, seeds);
    if let Some((_, error)) = found.error {
        return Err(error);
    }
    let missing = found.coverage.print()?;
    if let Some((seed, difference)) = found.first {
        output::line(format_args!(
            "the first difference, seed {seed}:\n{difference}"
        ))?;
    }
    let (items, differences) = (found.items, found.differences);
    let done = format!("{count} scenarios, {items} items, {differences} differences");
    let complete = counts::conclude(&done, missing)?;
    Ok(complete && differences == 0)
}

/// Each thread has every second seed.
fn compare_all(program: Program, seeds: Range<u64>) -> Found {
    let stop = &AtomicBool::new(false);
    let mut found = Found::nothing();
    thread::scope(|scope| {
        let parts = (0..THREADS).map(|part| seeds.clone().skip(part).step_by(THREADS));
        let compare = |seeds| scope.spawn(move || compare_part(program, seeds, stop));
        let threads: Vec<_> = parts.map(compare).collect();
        for thread in threads {
            found.add(thread.join().expect("no panic"));
        }
    });
    found
}

/// After an error all the threads stop, but none before its first scenario: so
/// a program that never works always gives the same message.
fn compare_part(program: Program, seeds: impl Iterator<Item = u64>, stop: &AtomicBool) -> Found {
    let mut found = Found::nothing();
    for seed in seeds {
        compare_scenario(program, seed, &mut found);
        if found.error.is_some() {
            stop.store(true, Ordering::Relaxed);
        }
        if stop.load(Ordering::Relaxed) {
            break;
        }
    }
    found
}

fn compare_scenario(program: Program, seed: u64, found: &mut Found) {
    let scenario = generate::scenario(seed);
    found.items += coverage::count_scenario(&mut found.coverage, &scenario);
    let pieces = cut(&mut Random::new(!seed), &scenario);
    let ours = listing::of_input(BufReader::new(Pieces(&pieces)));
    match program.output_of_pieces(format_args!("seed {seed}"), &pieces) {
        Err(error) => found.error = Some((seed, error)),
        Ok(theirs) if theirs == ours => {}
        Ok(theirs) => {
            found.differences += 1;
            found.first.get_or_insert_with(|| {
                let lengths: Vec<usize> = pieces.iter().map(|piece| piece.len()).collect();
                let difference = difference(&scenario, &theirs, &ours);
                (seed, format!("in pieces of {lengths:?}\n{difference}"))
            });
        }
    }
}

/// Pieces of random lengths, none of them empty; now and then all of one byte,
/// or as long as they may be.
pub fn cut<'a>(random: &mut Random, bytes: &'a [u8]) -> Vec<&'a [u8]> {
    match random.below(40) {
        0 => return bytes.chunks(1).collect(),
        1..=4 => return bytes.chunks(LONGEST_PIECE).collect(),
        _ => {}
    }
    let mut pieces = Vec::new();
    let mut rest = bytes;
    while !rest.is_empty() {
        let longest = random.pick(&[1, 2, 5, 30, 100, 300, 1000]);
        let length = 1 + random.below(longest) as usize;
        let (piece, after) = rest.split_at(length.min(rest.len()));
        pieces.push(piece);
        rest = after;
    }
    pieces
}

/// An input of which each read gives one piece, as `output_of_pieces` gives
/// them; no read has room for less.
pub struct Pieces<'a>(pub &'a [&'a [u8]]);

impl Read for Pieces<'_> {
    fn read(&mut self, buffer: &mut [u8]) -> io::Result<usize> {
        let Some((piece, rest)) = self.0.split_first() else {
            return Ok(0);
        };
        self.0 = rest;
        buffer[..piece.len()].copy_from_slice(piece);
        Ok(piece.len())
    }
}

/// The profile, the items of the differing call up to there, both answers.
fn difference(scenario: &[u8], theirs: &[u8], ours: &[u8]) -> String {
    let (number, their, our) = shown::first_difference(theirs, ours);
    let frames = frames(scenario);
    let call = |frame: &&[u8]| read_item(frame).map(|item| item.call);
    let concerned = frames.get(number).map(call);
    let mut text = texts::explain_profile(frames.first().unwrap_or(&&[][..]));
    for item in frames.iter().take(number + 1).skip(1) {
        if Some(call(item)) == concerned {
            text += &format!("\n{}", texts::explain_item(item));
        }
    }
    let [their, our] = [their, our].map(shown::line);
    format!("{text}\n  theirs: {their}\n  ours:   {our}")
}
