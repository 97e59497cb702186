//! Answers, held to those that the text expects behind `->`.

use super::scenario::{at, Line};
use std::ops::Range;

pub const ENDED: &str = "the listing has ended";

/// The profile or an item, with its answer. Without one, the profile is
/// accepted, or the listing has ended before the item.
pub type Answered<'a> = (&'a Line, Option<&'a str>);

/// Items of one line with the same answer; or the profile.
pub struct Group<'a> {
    pub line: &'a Line,
    /// Their numbers in the listing, where the profile is 0.
    pub numbers: Range<usize>,
    /// Their calls, where they are a part of the line's range.
    pub calls: Option<String>,
    pub answer: Option<&'a str>,
    /// The line where the listing ended, if it has ended before the text.
    ended: usize,
}

/// All that is answered, in its order.
pub fn groups<'a>(answered: &[Answered<'a>]) -> Vec<Group<'a>> {
    let ended = last_answered(answered);
    let mut groups = Vec::new();
    let mut first = 0;
    for of_line in answered.chunk_by(|(one, _), (other, _)| one.number == other.number) {
        for alike in of_line.chunk_by(|(_, one), (_, other)| one == other) {
            let is_part = alike.len() < of_line.len();
            let (line, answer) = alike[0];
            let numbers = first..first + alike.len();
            first = numbers.end;
            groups.push(Group {
                line,
                numbers,
                calls: if is_part { calls_of(alike) } else { None },
                answer,
                ended,
            });
        }
    }
    groups
}

/// Those whose answer is not the one that is expected.
pub fn differences<'a>(answered: &[Answered<'a>]) -> Vec<Group<'a>> {
    let mut groups = groups(answered);
    groups.retain(Group::differs);
    groups
}

impl Group<'_> {
    /// A line without `->` expects nothing; but a profile without it is expected
    /// to be accepted.
    pub fn differs(&self) -> bool {
        let expected = self.line.expected.as_deref();
        expected != self.answer && (expected.is_some() || self.is_profile())
    }

    pub fn has_ended(&self) -> bool {
        self.answer.is_none() && !self.is_profile()
    }

    pub fn expected(&self) -> &str {
        self.line.expected.as_deref().unwrap_or("no refusal")
    }

    /// The message about the difference in the text of this name.
    pub fn message(&self, name: &str) -> String {
        at(name, self.line.number, &self.difference())
    }

    /// The message without its place.
    pub fn difference(&self) -> String {
        let answered = match self.answer {
            Some(answer) => answer.to_string(),
            None if self.is_profile() => "nothing: the profile is accepted".to_string(),
            None => format!("nothing: {ENDED} in line {}", self.ended),
        };
        let message = format!("expected {}, answered {answered}", self.expected());
        match &self.calls {
            Some(calls) => format!("call {calls}: {message}"),
            None => message,
        }
    }

    fn is_profile(&self) -> bool {
        self.numbers.start == 0
    }
}

fn last_answered(answered: &[Answered]) -> usize {
    let last = answered.iter().rfind(|(_, answer)| answer.is_some());
    last.map_or(0, |(line, _)| line.number)
}

/// The calls of a group, as they are written.
fn calls_of(group: &[Answered]) -> Option<String> {
    let (first, last) = (group.first()?.0.call?, group.last()?.0.call?);
    Some(match first == last {
        true => first.to_string(),
        false => format!("{first}..{last}"),
    })
}
