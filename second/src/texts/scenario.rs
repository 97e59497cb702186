//! Reading a scenario: the lines of its text, and the bytes that they stand for.

use super::answers::{self, is_answer, PROFILE_REFUSED};
use super::items::assemble_item;
use super::profile::{self, assemble_profile};
use super::values::{assemble_hex, expected, hex_text, in_small_letters, missing, CALL, TIME};
use crate::output;
use crate::paper::forms::{write_item, ITEM_LENGTHS, PROFILE_LENGTHS};
use std::fs::File;
use std::io::{self, Read};
use std::ops::RangeInclusive;

/// Ceilings, so that a slip of the keyboard asks for no more than there is.
const LONGEST_TEXT: usize = 16 << 20;
const MOST_CALLS: u64 = 1000;
const MOST_ITEMS: usize = 1_000_000;

const LINE_FORM: &str = "TIME call CALL ITEM, or bytes HEX ..";

/// The profile, or one item, as bytes.
pub struct Line {
    /// The number of its line in the text.
    pub number: usize,
    /// The call of an item that is written in words.
    pub call: Option<u32>,
    pub bytes: Vec<u8>,
    /// The answer that the text gives after `->`.
    pub expected: Option<String>,
}

/// A text with its name, and what it stands for: a profile, then items.
pub struct Scenario {
    /// As messages have it.
    pub name: String,
    pub text: String,
    pub lines: Vec<Line>,
}

/// The scenario in a file. A message names the file, and the line if there is
/// one.
pub fn read_file(file: &str) -> Result<Scenario, String> {
    let name = output::visible(file);
    let opened = File::open(file).map_err(|error| unreadable(&name, &error))?;
    let text = read_text(&name, opened)?;
    let lines = assemble(&name, &text)?;
    Ok(Scenario { name, text, lines })
}

/// A scenario with something to be listed: an item, or a profile that is to be
/// refused.
pub fn read_to_list(file: &str) -> Result<Scenario, String> {
    let scenario = read_file(file)?;
    match &scenario.lines[..] {
        [profile] if profile.expected.is_none() => Err(format!(
            "{}: {}",
            scenario.name,
            missing("items", "at least one behind the profile")
        )),
        _ => Ok(scenario),
    }
}

/// The lines of a file.
pub fn assemble_file(file: &str) -> Result<Vec<Line>, String> {
    Ok(read_file(file)?.lines)
}

/// The lines of standard input.
pub fn assemble_input() -> Result<Vec<Line>, String> {
    let name = "standard input";
    assemble(name, &read_text(name, io::stdin().lock())?)
}

/// The bytes of all the lines, as the listing program takes them.
pub fn bytes_of(lines: &[Line]) -> Vec<u8> {
    lines.iter().flat_map(|line| line.bytes.clone()).collect()
}

fn read_text(name: &str, input: impl Read) -> Result<String, String> {
    let mut bytes = Vec::new();
    let read = input.take(LONGEST_TEXT as u64 + 1).read_to_end(&mut bytes);
    read.map_err(|error| unreadable(name, &error))?;
    if bytes.len() > LONGEST_TEXT {
        let most = LONGEST_TEXT >> 20;
        return Err(format!("{name}: too long: expected at most {most} MiB"));
    }
    let mut text = String::from_utf8(bytes).map_err(|error| {
        let good = error.utf8_error().valid_up_to();
        let bytes = error.as_bytes();
        let number = 1 + bytes[..good].iter().filter(|byte| **byte == b'\n').count();
        let byte = hex_text(&bytes[good..=good]);
        at(name, number, &expected("byte", &byte, "text in UTF-8"))
    })?;
    // Some editors put a byte order mark before a text.
    if text.starts_with('\u{FEFF}') {
        text.remove(0);
    }
    // It would be read as one line.
    if !text.contains('\n') && text.trim_end().contains('\r') {
        let fault = expected("line ends", "\r", "\\n or \\r\\n");
        return Err(format!("{name}: {fault}"));
    }
    Ok(text)
}

fn unreadable(name: &str, error: &io::Error) -> String {
    format!("{name}: cannot be read: {error}")
}

/// A message about a line.
pub fn at(name: &str, number: usize, message: &str) -> String {
    format!("{name}:{number}: {message}")
}

/// The profile and the items of a text with this name.
pub fn assemble(name: &str, text: &str) -> Result<Vec<Line>, String> {
    let mut lines: Vec<Line> = Vec::new();
    for (place, line) in text.lines().enumerate() {
        let number = place + 1;
        let assembled = assemble_line(&Written::new(line), lines.is_empty());
        for (call, bytes, expected) in assembled.map_err(|error| at(name, number, &error))? {
            lines.push(Line {
                number,
                call,
                bytes,
                expected,
            });
        }
        if lines.len() > 1 + MOST_ITEMS {
            let error = format!("too many items: expected at most {MOST_ITEMS}");
            return Err(at(name, number, &error));
        }
    }
    if lines.is_empty() {
        return Err(format!("{name}: {}", missing("profile", profile::FORM)));
    }
    check_whole(&lines).map_err(|(number, error)| at(name, number, &error))?;
    Ok(lines)
}

/// A line of the text, taken apart.
pub struct Written<'a> {
    /// What stands before `->` and `--`.
    pub content: &'a str,
    /// What stands behind `->`.
    pub expected: Option<&'a str>,
    /// From `--` on.
    pub comment: Option<&'a str>,
}

impl Written<'_> {
    pub fn new(line: &str) -> Written<'_> {
        let (line, comment) = match line.find("--") {
            Some(place) => (&line[..place], Some(&line[place..])),
            None => (line, None),
        };
        let (content, expected) = match line.split_once("->") {
            Some((content, expected)) => (content, Some(expected)),
            None => (line, None),
        };
        Written {
            content,
            expected,
            comment,
        }
    }
}

/// What a line stands for, each with its call if it is an item in words, and
/// with the answer that is expected: nothing, one, or as many as its range has
/// calls.
type Assembled = Vec<(Option<u32>, Vec<u8>, Option<String>)>;

fn assemble_line(line: &Written, first: bool) -> Result<Assembled, String> {
    let words: Vec<&str> = line.content.split_whitespace().collect();
    if words.is_empty() {
        return match line.expected {
            Some(_) => Err(missing("item", "one before `->`")),
            None => Ok(vec![]),
        };
    }
    let answer = line.expected.map(normal);
    let one = |bytes| Ok(vec![(None, bytes, answer.clone())]);
    let assembled = match &words[..] {
        ["bytes", hex @ ..] => one(assemble_hex(hex)?),
        ["profile", words @ ..] if first => {
            let refused = answer.as_deref() == Some(PROFILE_REFUSED);
            one(assemble_profile(words, refused)?)
        }
        [time, "call", calls, words @ ..] if !first => {
            let time = TIME.number(time)?;
            let calls = read_calls(calls)?;
            let (kind, body) = assemble_item(words)?;
            let item = |call| {
                (
                    Some(call),
                    write_item(kind, call, time, &body),
                    answer.clone(),
                )
            };
            Ok(calls.map(item).collect())
        }
        _ => Err(no_line(&words, first)),
    };
    check_answer(answer.as_deref(), first)?;
    assembled
}

/// With one blank between two words.
fn normal(text: &str) -> String {
    text.split_whitespace().collect::<Vec<_>>().join(" ")
}

/// What stands behind `->` has to be an answer that can be given.
fn check_answer(answer: Option<&str>, first: bool) -> Result<(), String> {
    let form = match first {
        true => "refused 2, the only answer that a profile can get",
        false => answers::FORM,
    };
    match answer {
        None => Ok(()),
        Some("") => Err(missing("answer", form)),
        Some(PROFILE_REFUSED) => Ok(()),
        Some(answer) if !first && is_answer(answer) => Ok(()),
        Some(answer) => Err(expected("answer", answer, form)),
    }
}

/// The message for a line that begins like none.
fn no_line(words: &[&str], first: bool) -> String {
    let text = words.join(" ");
    let small: Vec<String> = words.iter().map(|word| word.to_lowercase()).collect();
    let small: Vec<&str> = small.iter().map(String::as_str).collect();
    let capitals = |word, small| expected("word", word, &in_small_letters(word, small));
    match (words, &small[..]) {
        ([word, ..], ["profile", ..]) if first => capitals(word, "profile"),
        ([word, ..], ["bytes", ..]) => capitals(word, "bytes"),
        _ if first => {
            let what = format!("{}, or bytes HEX ..", profile::FORM);
            expected("first line", &text, &what)
        }
        (_, ["profile", ..]) => expected(
            "line",
            &text,
            "an item: there is one profile, and it is the first line",
        ),
        ([_, word, ..], [_, "call", ..]) if *word != "call" => capitals(word, "call"),
        _ => expected("line", &text, LINE_FORM),
    }
}

/// One call, or the first and the last of several.
fn read_calls(word: &str) -> Result<RangeInclusive<u32>, String> {
    const RANGE: &str = "a range that rises, such as 1..64";
    let (first, last) = word.split_once("..").unwrap_or((word, word));
    if first.is_empty() || last.is_empty() {
        return Err(expected("calls", word, RANGE));
    }
    let (first, last) = (CALL.number(first)?, CALL.number(last)?);
    if first > last {
        return Err(expected("calls", word, RANGE));
    }
    if last - first >= MOST_CALLS {
        let most = format!("at most {MOST_CALLS} calls in a line");
        return Err(expected("calls", word, &most));
    }
    Ok(first as u32..=last as u32)
}

/// Each line is one item by itself: otherwise the items that a listing program
/// finds in the bytes, and its answers, would not be those of the lines.
fn check_whole(lines: &[Line]) -> Result<(), (usize, String)> {
    let mut lengths = PROFILE_LENGTHS;
    for (place, line) in lines.iter().enumerate() {
        let last = place + 1 == lines.len();
        match length_field(&line.bytes) {
            // Nothing behind it is told apart.
            Some(length) if !lengths.contains(&length) => break,
            Some(length) if length == line.bytes.len() => {}
            length if last && line.bytes.len() < length.unwrap_or(2) => {}
            length => return Err((line.number, no_whole(&line.bytes, length))),
        }
        lengths = ITEM_LENGTHS;
    }
    Ok(())
}

/// How many items a listing answers, if the profile is not refused: up to the
/// first with a length that no item has.
pub fn answerable(lines: &[Line]) -> usize {
    let ends = |line: &Line| {
        length_field(&line.bytes).is_some_and(|length| !ITEM_LENGTHS.contains(&length))
    };
    let items = lines.get(1..).unwrap_or_default();
    items
        .iter()
        .position(ends)
        .map_or(items.len(), |place| place + 1)
}

/// What the first two bytes say.
pub fn length_field(bytes: &[u8]) -> Option<usize> {
    bytes
        .first_chunk()
        .map(|field| u16::from_be_bytes(*field).into())
}

fn no_whole(bytes: &[u8], length: Option<usize>) -> String {
    let what = match length {
        Some(length) => format!("{length} bytes, as the first two say, not {}", bytes.len()),
        None => "a length in the first two bytes".to_string(),
    };
    expected("bytes", &hex_text(bytes), &what)
}
