//! A scenario, played: what each item gets, and the call's record after it.

use crate::paper::answer::Answer;
use crate::paper::forms::{read_item, read_profile, ITEM_LENGTHS};
use crate::paper::record::Record;
use crate::paper::table::{self, Entry};
use crate::texts::{length_field, Scenario, Written};
use std::iter::Peekable;
use std::vec::IntoIter;

pub struct Played {
    /// The comment before the items.
    pub title: Option<String>,
    pub profile: Vec<u8>,
    profile_line: usize,
    pub steps: Vec<Step>,
    /// Where the listing ends, if something ends it.
    pub end: Option<End>,
}

/// One item with what it gets.
pub struct Step {
    /// Its number in the listing.
    pub number: usize,
    /// Its line in the text.
    pub line: usize,
    /// The comment that stands before it in the text, on lines of its own.
    pub comment: Option<String>,
    /// The call that it names; a malformed one that is written as bytes names
    /// none.
    pub call: Option<u32>,
    pub bytes: Vec<u8>,
    /// What the text says of it after time and call, if it is written in words.
    pub words: String,
    pub answer: Answer,
    /// The call's record afterwards, if it is open.
    pub record: Option<Record>,
}

pub struct End {
    pub cause: Cause,
    /// How many lines of the text follow, which nobody reads.
    pub unread: usize,
}

#[derive(Clone, Copy, PartialEq, Eq, Debug)]
pub enum Cause {
    /// The profile is refused.
    Profile,
    /// The item of this number has a length that none has.
    Length(usize),
    /// The input ends within the item of this number.
    CutShort(usize),
}

impl Played {
    /// Each line of a scenario is one item by itself, after the profile.
    pub fn of(scenario: &Scenario) -> Played {
        let written: Vec<&str> = scenario.text.lines().collect();
        let (profile, profile_line, items) = match &scenario.lines[..] {
            [profile, items @ ..] => (profile.bytes.clone(), profile.number, items),
            [] => (vec![], 0, &[][..]),
        };
        let mut comments = Comments::of(&written);
        let first = items.first().map_or(usize::MAX, |line| line.number);
        let mut played = Played {
            title: comments.before(first),
            profile,
            profile_line,
            steps: Vec::new(),
            end: None,
        };
        if read_profile(&played.profile).is_none() {
            let (cause, unread) = (Cause::Profile, items.len());
            played.end = Some(End { cause, unread });
            return played;
        }
        let mut table = table::fresh();
        for (line, number) in items.iter().zip(1..) {
            let call = read_item(&line.bytes).map(|item| item.call).or(line.call);
            let answer = table::feed_sound(&mut table, &line.bytes, &played.profile);
            played.steps.push(Step {
                number,
                line: line.number,
                comment: comments.before(line.number),
                call,
                bytes: line.bytes.clone(),
                words: words_of(written[line.number - 1]),
                answer,
                record: call.and_then(|call| record_of(call, &table)),
            });
            if let Some(cause) = ends_listing(&line.bytes, number) {
                let unread = items.len() - number;
                played.end = Some(End { cause, unread });
                break;
            }
        }
        played
    }

    /// The line of the text that is answered in this line of the listing, which
    /// begins with a header in line 0. A profile is answered if it is refused.
    pub fn line_of_answer(&self, place: usize) -> Option<usize> {
        let refused = self
            .end
            .as_ref()
            .is_some_and(|end| end.cause == Cause::Profile);
        match place.checked_sub(1)? {
            0 if refused => Some(self.profile_line),
            place => self.steps.get(place).map(|step| step.line),
        }
    }
}

fn record_of(call: u32, table: &[Entry]) -> Option<Record> {
    let owned = table.iter().find(|entry| entry.owner == Some(call));
    owned.map(|entry| entry.record)
}

/// Whether the listing program reads nothing after the item.
fn ends_listing(item: &[u8], number: usize) -> Option<Cause> {
    match length_field(item) {
        Some(length) if !ITEM_LENGTHS.contains(&length) => Some(Cause::Length(number)),
        Some(length) if item.len() == length => None,
        _ => Some(Cause::CutShort(number)),
    }
}

/// What stands in a line after `TIME call CALL`.
fn words_of(line: &str) -> String {
    let words: Vec<&str> = Written::new(line).content.split_whitespace().collect();
    words.get(3..).unwrap_or(&[]).join(" ")
}

/// The comments that have lines of their own, each with the number of its line.
struct Comments {
    left: Peekable<IntoIter<(usize, String)>>,
}

impl Comments {
    fn of(written: &[&str]) -> Comments {
        let comment = |(line, number): (&&str, usize)| {
            let line = Written::new(line);
            let comment = line.comment.filter(|_| line.content.trim().is_empty())?;
            let comment = comment.trim_matches(|c: char| c == '-' || c.is_whitespace());
            (!comment.is_empty()).then(|| (number, comment.to_string()))
        };
        let comments: Vec<_> = written.iter().zip(1..).filter_map(comment).collect();
        Comments {
            left: comments.into_iter().peekable(),
        }
    }

    /// Takes what stands before the line.
    fn before(&mut self, line: usize) -> Option<String> {
        let mut taken = Vec::new();
        while let Some((_, comment)) = self.left.next_if(|(number, _)| *number < line) {
            taken.push(comment);
        }
        (!taken.is_empty()).then(|| taken.join(" "))
    }
}
