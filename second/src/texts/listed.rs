//! A scenario's text with the answers that a program gives, which is a scenario
//! again: written without answers and listed, it can be kept as a test.
//!
//! A listing adds marks, as comments: where an answer differs from the one that
//! was expected, where there is none any more, and at the end what was counted.
//! Marks of an earlier listing are left out, so that the listing of a listing is
//! the same text.

use super::expected::{groups, Answered, Group, ENDED};
use super::scenario::Written;
use std::collections::BTreeMap;

const DIFFERS: &str = "-- DIFFERS, expected: ";
const NO_ANSWER: &str = "-- no answer: ";

/// Where a text has no `->` yet, they stand behind its longest line, but no
/// further to the right than this.
const WIDEST: usize = 72;
/// A column that a text uses is kept up to here.
const WIDEST_OF_TEXT: usize = 200;
const BEFORE_COMMENT: usize = 3;

/// A listed scenario, and a message for each answer that is not as expected.
pub struct Listed {
    pub text: String,
    pub differences: Vec<String>,
}

/// Puts the answers into the text.
pub fn listed(name: &str, text: &str, answered: &[Answered]) -> Listed {
    let groups = groups(answered);
    let mut listing = Listing {
        column: arrow_column(text),
        text: String::new(),
    };
    let mut rest = &groups[..];
    for (number, line) in numbered_lines(name, text) {
        let here = |group: &&Group| group.line.number == number;
        let (rows, behind) = rest.split_at(rest.iter().take_while(here).count());
        rest = behind;
        listing.push_line(line, rows);
    }
    let differing = groups.iter().filter(|group| group.differs());
    let differences: Vec<String> = differing.map(|group| group.message(name)).collect();
    listing.push(&counts_line(answered.len() - 1, differences.len()));
    Listed {
        text: listing.text,
        differences,
    }
}

/// The line that stands before each of several scenarios.
pub fn heading(name: &str) -> String {
    format!("-- == {name}")
}

fn counts_line(items: usize, differences: usize) -> String {
    format!("-- items: {items}, differences: {differences}")
}

fn is_counts_line(line: &str) -> bool {
    let without_digits = line.replace(|letter: char| letter.is_ascii_digit(), "");
    without_digits == counts_line(0, 0).replace('0', "")
}

/// The lines with their numbers, without heading and counts of an earlier
/// listing. Lines may have been added behind the counts since.
fn numbered_lines<'a>(name: &str, text: &'a str) -> impl Iterator<Item = (usize, &'a str)> {
    let heading = heading(name);
    let lines = (1..).zip(text.lines());
    lines.filter(move |(number, line)| {
        let is_heading = *number == 1 && *line == heading;
        !is_heading && !is_counts_line(line)
    })
}

/// The column of most `->` in the text. Those that only stand behind a long line
/// do not count.
fn arrow_column(text: &str) -> usize {
    let written = || text.lines().map(Written::new);
    let mut columns: BTreeMap<usize, usize> = BTreeMap::new();
    for line in written().filter(|line| line.expected.is_some()) {
        let column = width(line.content);
        if line.content.ends_with("  ") && column <= WIDEST_OF_TEXT {
            *columns.entry(column).or_default() += 1;
        }
    }
    if let Some((column, _)) = columns.into_iter().max_by_key(|(_, count)| *count) {
        return column;
    }
    let contents = written().map(|line| width(line.content.trim_end()));
    // The profile has no answer to be lined up.
    let items = contents.filter(|width| *width > 0).skip(1);
    items.max().unwrap_or(0).min(WIDEST) + 1
}

fn width(text: &str) -> usize {
    text.chars().count()
}

/// The listing as it is made, line after line.
struct Listing {
    column: usize,
    text: String,
}

impl Listing {
    fn push(&mut self, line: &str) {
        self.text += line;
        self.text += "\n";
    }

    /// A line with all its items: one row for those with the same answer.
    fn push_line(&mut self, line: &str, rows: &[Group]) {
        if rows.is_empty() {
            return self.push(line);
        }
        let mut comment = user_comment(line);
        for row in rows {
            let content = content_of(row, Written::new(line).content.trim_end());
            self.push_row(content, row, comment.take());
        }
    }

    /// The parts of a row, each in its column.
    fn push_row(&mut self, content: String, row: &Group, comment: Option<(usize, &str)>) {
        let mut text = content;
        if let Some(answer) = row.answer {
            text += &blanks(self.column.saturating_sub(width(&text)).max(1));
            text += &format!("-> {answer}");
        }
        if let Some(mark) = mark_of(row) {
            text += &blanks(BEFORE_COMMENT);
            text += &mark;
        }
        if let Some((column, comment)) = comment {
            let gap = column.saturating_sub(width(&text));
            text += &blanks(if gap > 0 { gap } else { BEFORE_COMMENT });
            text += comment;
        }
        self.push(&text);
    }
}

fn blanks(count: usize) -> String {
    " ".repeat(count)
}

fn mark_of(row: &Group) -> Option<String> {
    match (row.differs(), row.has_ended()) {
        (true, true) => Some(format!("{DIFFERS}{}; {ENDED}", row.expected())),
        (true, false) => Some(format!("{DIFFERS}{}", row.expected())),
        (false, true) => Some(format!("{NO_ANSWER}{ENDED}")),
        (false, false) => None,
    }
}

/// What the line says, of the row's calls alone. The calls are the third word,
/// and the first in which `..` can stand.
fn content_of(row: &Group, whole: &str) -> String {
    match (&row.calls, whole.split_whitespace().nth(2)) {
        (Some(calls), Some(range)) => whole.replacen(range, calls, 1),
        _ => whole.to_string(),
    }
}

/// The comment behind a line and its column, without the mark of an earlier
/// listing.
fn user_comment(line: &str) -> Option<(usize, &str)> {
    let mut comment = Written::new(line).comment?;
    for mark in [DIFFERS, NO_ANSWER] {
        if let Some(behind) = comment.strip_prefix(mark) {
            comment = &behind[behind.find("--")?..];
        }
    }
    let before = &line[..line.len() - comment.len()];
    Some((width(before), comment))
}
