//! Feeders handed in with chunks: the form of a case, and the program that
//! answers cases.
//!
//! All numbers are big-endian. A case is its length (2 bytes, these included),
//! the feeder (its 65 bytes; the count, 8; stopped, 1, where 0 is not stopped
//! and all else is), and then steps. A step is a number (2 bytes): 65535 is a
//! reset, any other is followed by a chunk of so many bytes, or of as many as
//! the case still has. A single last byte is ignored. A case that is shorter
//! than its head, or cut short by the end of the input, ends the program.
//!
//! Each chunk is fed, and its rest offered again after each item and each
//! answer 1, until it is used up or the answer is 15. A case gets the line
//! `case N`, and then each call a line, with the feeder as it is afterwards:
//! its count, its bytes if it holds some, and `stopped` if it is.
//!
//! ```text
//! case 1
//! fed 3 used-up left 3 000e01
//! fed 11 item 000e010600000007000000001388 left 0
//! fed 2 refused 1 left 0 stopped
//! fed 0 refused 15 left 0 stopped
//! reset 0 left 0
//! fed 3 used-up left 3 000e01
//! reset 3 left 0
//! ```

use crate::paper::answer::Refusal;
use crate::paper::feeder::{Fed, Feeder, ROOM};
use crate::paper::forms::Reader;
use std::fmt::Write;

/// The step number of a reset.
const RESET: u16 = u16::MAX;

pub struct Case {
    pub feeder: Feeder,
    pub steps: Vec<Step>,
}

pub enum Step {
    Chunk(Vec<u8>),
    Reset,
}

/// One call, with the feeder before and afterwards.
pub struct Call<'a> {
    pub before: Feeder,
    /// The chunk, or its rest; none for a reset.
    pub offered: &'a [u8],
    /// How many bytes were used, or dropped by a reset.
    pub bytes: u64,
    pub outcome: Outcome,
    pub after: Feeder,
}

pub enum Outcome {
    Item(Vec<u8>),
    Refused(Refusal),
    UsedUp,
    Reset,
}

impl Case {
    pub fn bytes(&self) -> Vec<u8> {
        let mut content = self.feeder.bytes.to_vec();
        content.extend(self.feeder.count.to_be_bytes());
        content.push(self.feeder.stopped.into());
        for step in &self.steps {
            match step {
                Step::Chunk(chunk) => {
                    content.extend((chunk.len() as u16).to_be_bytes());
                    content.extend(chunk);
                }
                Step::Reset => content.extend(RESET.to_be_bytes()),
            }
        }
        let length = content.len() as u16 + 2;
        [&length.to_be_bytes(), &content[..]].concat()
    }

    /// Nothing if the bytes are too few for a case.
    pub fn read(bytes: &[u8]) -> Option<Case> {
        let mut reader = Reader(bytes);
        reader.number::<2>()?;
        let feeder = Feeder {
            bytes: reader.bytes(ROOM)?.try_into().ok()?,
            count: reader.number::<8>()?,
            stopped: reader.byte()? != 0,
        };
        let mut steps = Vec::new();
        while let Some(number) = reader.number::<2>() {
            steps.push(match number as u16 {
                RESET => Step::Reset,
                length => {
                    let length = reader.0.len().min(length.into());
                    Step::Chunk(reader.bytes(length)?.to_vec())
                }
            });
        }
        Some(Case { feeder, steps })
    }

    /// All the calls, in their order.
    pub fn calls(&self) -> Vec<Call<'_>> {
        let mut feeder = self.feeder;
        let mut calls = Vec::new();
        for step in &self.steps {
            match step {
                Step::Chunk(chunk) => calls.extend(feed_chunk(&mut feeder, chunk)),
                Step::Reset => calls.push(reset(&mut feeder)),
            }
        }
        calls
    }
}

/// Feeds a chunk, its rest offered again after each item and each answer 1.
pub fn feed_chunk<'a>(feeder: &mut Feeder, chunk: &'a [u8]) -> Vec<Call<'a>> {
    let mut calls = Vec::new();
    let mut rest = chunk;
    loop {
        let before = *feeder;
        let (used, fed) = feeder.feed(rest);
        let (goes_on, outcome) = match fed {
            Fed::Item(bytes, _) => (true, Outcome::Item(bytes.to_vec())),
            Fed::Refused(refusal) => {
                let goes_on = refusal == Refusal::ItemMalformed;
                (goes_on, Outcome::Refused(refusal))
            }
            Fed::UsedUp => (false, Outcome::UsedUp),
        };
        calls.push(Call {
            before,
            offered: rest,
            bytes: used as u64,
            outcome,
            after: *feeder,
        });
        if !goes_on {
            return calls;
        }
        rest = &rest[used..];
    }
}

fn reset(feeder: &mut Feeder) -> Call<'static> {
    let before = *feeder;
    let dropped = feeder.reset();
    Call {
        before,
        offered: &[],
        bytes: dropped,
        outcome: Outcome::Reset,
        after: *feeder,
    }
}

/// The answers to all the cases of an input.
pub fn run(input: &[u8]) -> Vec<u8> {
    let mut output = String::new();
    let mut rest = input;
    for number in 1.. {
        let [high, low, ..] = rest else { break };
        let length = usize::from(u16::from_be_bytes([*high, *low]));
        let Some((case, after)) = rest.split_at_checked(length) else {
            break;
        };
        let Some(case) = Case::read(case) else { break };
        output += &text_of(number, &case.calls());
        rest = after;
    }
    output.into_bytes()
}

/// What is written of case NUMBER.
pub fn text_of(number: u64, calls: &[Call]) -> String {
    let mut text = format!("case {number}\n");
    for call in calls {
        push_call(&mut text, call);
    }
    text
}

fn push_call(text: &mut String, call: &Call) {
    let bytes = call.bytes;
    match &call.outcome {
        Outcome::Item(item) => {
            write!(text, "fed {bytes} item ").unwrap();
            push_hex(text, item);
        }
        Outcome::Refused(refusal) => {
            write!(text, "fed {bytes} refused {}", *refusal as u8).unwrap();
        }
        Outcome::UsedUp => write!(text, "fed {bytes} used-up").unwrap(),
        Outcome::Reset => write!(text, "reset {bytes}").unwrap(),
    }
    *text += " left ";
    push_feeder(text, &call.after);
    text.push('\n');
}

pub fn push_feeder(text: &mut String, feeder: &Feeder) {
    write!(text, "{}", feeder.count).unwrap();
    if !feeder.held().is_empty() {
        text.push(' ');
        push_hex(text, feeder.held());
    }
    if feeder.stopped {
        *text += " stopped";
    }
}

pub fn push_hex(text: &mut String, bytes: &[u8]) {
    let digit = |value: u8| char::from(b"0123456789abcdef"[usize::from(value)]);
    for byte in bytes {
        text.push(digit(byte >> 4));
        text.push(digit(byte & 15));
    }
}
