//! The input of the commands that do the same over and over, to be measured:
//! `feed-items` and `check-triggers`.
//!
//! It is 1 byte (which function it is done with), 4 bytes (how many items to
//! take, big-endian), a profile, and the items. They are taken in their order,
//! and after the last one the first again.

use crate::paper::listing::frames;

const LONGEST_INPUT: usize = 65536;

pub struct Rounds<'a> {
    pub function: u8,
    pub count: u32,
    pub profile: &'a [u8],
    /// There is at least one.
    pub items: Vec<&'a [u8]>,
}

impl Rounds<'_> {
    pub fn read(input: &[u8]) -> Result<Rounds<'_>, String> {
        if input.len() > LONGEST_INPUT {
            return Err(format!("the input has more than {LONGEST_INPUT} bytes"));
        }
        let Some((head, round)) = input.split_first_chunk::<5>() else {
            return Err("the head of five bytes is missing".to_string());
        };
        let [function, count @ ..] = *head;
        let frames = frames(round);
        let Some((profile, items @ [_, ..])) = frames.split_first() else {
            return Err("the profile or the items are missing".to_string());
        };
        Ok(Rounds {
            function,
            count: u32::from_be_bytes(count),
            profile,
            items: items.to_vec(),
        })
    }

    pub fn unknown_function<T>(&self) -> Result<T, String> {
        Err(format!("no function has the number {}", self.function))
    }
}

/// Puts the head before a profile and items.
pub fn write(function: u8, count: u32, round: &[u8]) -> Vec<u8> {
    [&[function], &count.to_be_bytes()[..], round].concat()
}
