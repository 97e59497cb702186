//! The listing program: one profile, then items, each with its answer.
//!
//! Document 01, section "The listing program".

use crate::paper::answer::{Accepted, Answer, Refusal};
use crate::paper::feeder::{Fed, Feeder};
use crate::paper::forms::{read_profile, Leg, PROFILE_LENGTHS};
use crate::paper::record::Relationship;
use crate::paper::table;
use std::io::{self, BufRead, Read, Write};

/// The size of the buffers for input and output.
pub const BUFFER: usize = 1 << 16;

/// Lists all the answers; the caller lends a buffered input.
pub fn run(input: &mut impl BufRead, output: &mut impl Write) -> io::Result<()> {
    let mut text = b"item answer\n".to_vec();
    let profile = take_profile(input)?;
    if read_profile(&profile).is_none() {
        push_line(&mut text, 0, &Err(Refusal::ProfileMalformed));
        return output.write_all(&text);
    }
    let mut table = table::fresh();
    let mut feeder = Feeder::NEW;
    let mut number = 0;
    // After a length that no item has, no further item can be told.
    while !feeder.stopped {
        let chunk = input.fill_buf()?;
        if chunk.is_empty() {
            break;
        }
        let (used, fed) = feeder.feed(chunk);
        input.consume(used);
        let answer = match fed {
            Fed::Item(_, item) => table::feed_read(&mut table, item, &profile),
            Fed::Refused(refusal) => Err(refusal),
            Fed::UsedUp => continue,
        };
        number += 1;
        push_line(&mut text, number, &answer);
        if text.len() >= BUFFER {
            output.write_all(&text)?;
            text.clear();
        }
    }
    let cut_short = feeder.reset() > 0;
    if cut_short {
        push_line(&mut text, number + 1, &Err(Refusal::ItemMalformed));
    }
    output.write_all(&text)
}

/// The listing of the bytes.
pub fn of(bytes: &[u8]) -> Vec<u8> {
    of_input(bytes)
}

/// The listing of an input that does not fail.
pub fn of_input(mut input: impl BufRead) -> Vec<u8> {
    let mut output = Vec::new();
    run(&mut input, &mut output).expect("nothing fails in memory");
    output
}

/// The bytes of the profile, as many as its length field says. Where it cannot
/// be right, or the input ends before, they are no profile.
fn take_profile(input: &mut impl BufRead) -> io::Result<Vec<u8>> {
    let mut profile = Vec::new();
    input.by_ref().take(2).read_to_end(&mut profile)?;
    if let Some(length) = profile_length(&profile) {
        let rest = length as u64 - 2;
        input.by_ref().take(rest).read_to_end(&mut profile)?;
    }
    Ok(profile)
}

/// What the length field says, if a profile can have that length.
fn profile_length(bytes: &[u8]) -> Option<usize> {
    let length = u16::from_be_bytes(*bytes.first_chunk()?);
    Some(length.into()).filter(|length| PROFILE_LENGTHS.contains(length))
}

/// The parts of an input: the profile, then the items. The last is all the
/// rest, if no length can be told of it.
pub fn frames(bytes: &[u8]) -> Vec<&[u8]> {
    let length = profile_length(bytes).unwrap_or(bytes.len());
    let (profile, mut rest) = bytes.split_at(length.min(bytes.len()));
    let mut frames = vec![profile];
    let mut feeder = Feeder::NEW;
    while !rest.is_empty() {
        let (used, _) = feeder.feed(rest);
        let (item, after) = rest.split_at(if feeder.stopped { rest.len() } else { used });
        frames.push(item);
        rest = after;
    }
    frames.retain(|frame| !frame.is_empty());
    frames
}

/// Appends one line of the listing.
pub fn push_line(text: &mut Vec<u8>, number: u64, answer: &Answer) {
    push_number(text, number);
    match answer {
        Ok(accepted) => push_accepted(text, accepted),
        Err(refusal) => {
            text.extend_from_slice(b" refused ");
            push_number(text, *refusal as u64);
        }
    }
    text.push(b'\n');
}

fn push_accepted(text: &mut Vec<u8>, answer: &Accepted) {
    text.extend_from_slice(match answer.relationship {
        Relationship::None => b" ok none ",
        Relationship::Monitor => b" ok monitor ",
        Relationship::Control => b" ok control ",
    });
    // As in the paper's example: the point alone, without its leg.
    match answer.hold {
        Some(point) => push_number(text, point.number.into()),
        None => text.push(b'-'),
    }
    if let Some((point, mode)) = answer.event_report {
        text.extend_from_slice(&[b' ', mode.mark()]);
        push_number(text, point.number.into());
        text.push(b'/');
        push_number(text, point.leg.number().into());
    }
    for leg in Leg::BOTH {
        if let Some(elapsed) = answer.charge_reports[leg as usize] {
            text.extend_from_slice(b" c");
            push_number(text, leg.number().into());
            text.push(b'=');
            push_number(text, elapsed.0);
        }
    }
    if let Some(deadline) = answer.deadline {
        text.extend_from_slice(b" d");
        push_number(text, deadline.0);
    }
    if answer.over {
        text.extend_from_slice(b" over");
    }
}

/// In decimal.
fn push_number(text: &mut Vec<u8>, number: u64) {
    if number >= 10 {
        push_number(text, number / 10);
    }
    text.push(b'0' + (number % 10) as u8);
}
