//! Items in words: how each kind is written, the way from words to bytes and
//! back, and the messages for words that are no item.

use super::values::{
    assemble_digit, assemble_number, count, digit_character, expected, in_small_letters, missing,
    number_text, Field, CAUSE, ENTRY_LEG, ENTRY_MODE, ENTRY_POINT, ENTRY_TIMER, LEG, PERIOD,
    SERVICE,
};
use crate::nearest::nearest;
use crate::paper::forms::{kind, Operation, Reader};

/// The kinds and their forms. Words in small letters stand as they are, words
/// in capitals for values, in the order of the body's bytes. What is in brackets
/// may be left out, and is zero then. Before `, ..` stands what is repeated
/// behind the kind's name, with commas between.
const FORMS: [(u8, &str); 18] = [
    (kind::SETUP, "setup NUMBER service SERVICE [forwarded]"),
    (
        kind::TERMINATING_SETUP,
        "terminating-setup NUMBER service SERVICE [forwarded]",
    ),
    (kind::ROUTE_FAILURE, "route-failure cause CAUSE"),
    (kind::BUSY, "busy cause CAUSE"),
    (kind::NO_ANSWER, "no-answer"),
    (kind::SEIZED, "seized"),
    (kind::ANSWER, "answer"),
    (kind::MID_CALL, "mid-call digit DIGIT"),
    (kind::MOVED, "moved"),
    (kind::CLEAR, "clear leg LEG cause CAUSE"),
    (kind::PERIOD_OVER, "period-over leg LEG"),
    (
        kind::REQUEST_REPORT,
        "request-report POINT/LEG MODE [timer TIMER], ..",
    ),
    (kind::CONTINUE, "continue"),
    (kind::CONNECT, "connect NUMBER"),
    (kind::RELEASE, "release"),
    (kind::APPLY_CHARGING, "apply-charging leg LEG period PERIOD"),
    (kind::ACTIVITY_TEST, "activity-test"),
    (kind::ABORT, "abort"),
];

/// The fields that stand in the forms by themselves.
const FIELDS: [(&str, Field); 5] = [
    ("SERVICE", SERVICE),
    ("CAUSE", CAUSE),
    ("LEG", LEG),
    ("PERIOD", PERIOD),
    ("TIMER", ENTRY_TIMER),
];

/// The monitor modes, from 0 on.
const MODES: [&str; 3] = ["interrupted", "notify", "transparent"];

/// The kind and the body of an item that is written without time and call.
pub fn assemble_body(text: &str) -> Result<(u8, Vec<u8>), String> {
    let words: Vec<&str> = text.split_whitespace().collect();
    assemble_item(&words)
}

pub fn assemble_item(words: &[&str]) -> Result<(u8, Vec<u8>), String> {
    let Some((name, behind)) = words.split_first() else {
        return Err(missing("item", &all_names()));
    };
    let row = FORMS.iter().find(|(_, form)| name_in(form) == *name);
    let Some((kind, form)) = row else {
        return Err(unknown_kind(name));
    };
    let mut body = match repeated(form) {
        Some(entry) => assemble_entries(entry, behind)?,
        None => assemble_words("item", form, words)?,
    };
    if is_setup(*kind) {
        service_before_digits(&mut body);
    }
    Ok((*kind, body))
}

/// The text of a well-formed body.
pub fn body_text(kind: u8, body: &[u8]) -> Option<String> {
    let form = form_of(kind)?;
    let mut body = body.to_vec();
    if is_setup(kind) {
        service_after_digits(&mut body);
    }
    let mut reader = Reader(&body);
    match repeated(form) {
        Some(entry) => {
            let count = reader.byte()?;
            let entries = (0..count).map(|_| words_text(entry, &mut reader));
            let entries: Vec<String> = entries.collect::<Option<_>>()?;
            Some(format!("{} {}", name_in(form), entries.join(", ")))
        }
        None => words_text(form, &mut reader),
    }
}

/// The name of an operation's kind.
pub fn operation_name(operation: &Operation) -> &'static str {
    let kind = match operation {
        Operation::RequestReport(_) => kind::REQUEST_REPORT,
        Operation::Continue => kind::CONTINUE,
        Operation::Connect(_) => kind::CONNECT,
        Operation::Release => kind::RELEASE,
        Operation::ApplyCharging { .. } => kind::APPLY_CHARGING,
        Operation::ActivityTest => kind::ACTIVITY_TEST,
        Operation::Abort => kind::ABORT,
    };
    form_of(kind).map_or("", name_in)
}

/// Both kinds have the same body.
fn is_setup(kind: u8) -> bool {
    [kind::SETUP, kind::TERMINATING_SETUP].contains(&kind)
}

fn form_of(kind: u8) -> Option<&'static str> {
    let row = FORMS.iter().find(|(number, _)| *number == kind);
    row.map(|(_, form)| *form)
}

fn name_in(form: &str) -> &str {
    form.split(' ').next().unwrap_or(form)
}

/// The form of what is repeated behind the kind's name.
fn repeated(form: &str) -> Option<&str> {
    let (_name, entry) = form.strip_suffix(", ..")?.split_once(' ')?;
    Some(entry)
}

/// In the text the service follows the number; in the body service and
/// forwarded stand between nature and digits.
fn service_before_digits(body: &mut [u8]) {
    body[1..].rotate_right(2);
}

fn service_after_digits(body: &mut [u8]) {
    body[1..].rotate_left(2);
}

/// The words of a form: those that always stand, and those in brackets.
fn parts(form: &str) -> (Vec<&str>, Vec<&str>) {
    let (always, option) = form.split_once('[').unwrap_or((form, ""));
    let option = option.trim_end_matches(']');
    (
        always.split_whitespace().collect(),
        option.split_whitespace().collect(),
    )
}

/// The bytes of words that are written in the form.
fn assemble_words(what: &str, form: &str, words: &[&str]) -> Result<Vec<u8>, String> {
    let (always, option) = parts(form);
    let (first, given) = words.split_at(words.len().min(always.len()));
    let fits = is_written(&always, first) && (given.is_empty() || is_written(&option, given));
    if !fits {
        return Err(misshapen(what, form, words));
    }
    let mut bytes = Vec::new();
    for (part, word) in always.iter().zip(words).filter(|(part, _)| is_value(part)) {
        bytes.extend(assemble_value(part, word)?);
    }
    match (&option[..], given) {
        ([_flag], given) => bytes.push(u8::from(!given.is_empty())),
        ([_, part], [_, word]) => bytes.extend(assemble_value(part, word)?),
        ([_, part], _) => bytes.extend(assemble_value(part, "0")?),
        _ => {}
    }
    Ok(bytes)
}

/// The words of the form for these bytes.
fn words_text(form: &str, reader: &mut Reader) -> Option<String> {
    let (always, option) = parts(form);
    let mut words = Vec::new();
    for part in always {
        words.push(match is_value(part) {
            true => value_text(part, reader)?,
            false => part.to_string(),
        });
    }
    match option[..] {
        [flag] if reader.byte()? != 0 => words.push(flag.to_string()),
        [name, part] => {
            let value = value_text(part, reader)?;
            if value != "0" {
                words.extend([name.to_string(), value]);
            }
        }
        _ => {}
    }
    Some(words.join(" "))
}

fn is_value(part: &str) -> bool {
    part.starts_with(|first: char| first.is_ascii_uppercase())
}

/// Whether the words are the form's, whatever its values are.
fn is_written(parts: &[&str], words: &[&str]) -> bool {
    let alike = |(part, word): (&&str, &&str)| is_value(part) || part == word;
    parts.len() == words.len() && parts.iter().zip(words).all(alike)
}

/// The count, then the entries.
fn assemble_entries(form: &str, words: &[&str]) -> Result<Vec<u8>, String> {
    let text = words.join(" ");
    let entries: Vec<&str> = match text.as_str() {
        "" => vec![],
        text => text.split(',').collect(),
    };
    let mut body = vec![count("entries", entries.len())?];
    for entry in entries {
        let words: Vec<&str> = entry.split_whitespace().collect();
        body.extend(assemble_words("entry", form, &words)?);
    }
    Ok(body)
}

/// The bytes of a value, which a word in capitals stands for.
fn assemble_value(part: &str, word: &str) -> Result<Vec<u8>, String> {
    match part {
        "NUMBER" => assemble_number(word),
        "DIGIT" => assemble_digit(word),
        "POINT/LEG" => assemble_pair(word),
        "MODE" => assemble_mode(word),
        field => field_in(field).bytes(word),
    }
}

fn value_text(part: &str, reader: &mut Reader) -> Option<String> {
    match part {
        "NUMBER" => {
            let nature = reader.byte()?;
            Some(number_text(nature, reader.counted(0..=u8::MAX)?))
        }
        "DIGIT" => Some(digit_character(reader.byte()?).to_string()),
        "POINT/LEG" => {
            let point = ENTRY_POINT.text(reader)?;
            Some(format!("{point}/{}", ENTRY_LEG.text(reader)?))
        }
        "MODE" => {
            let mode = reader.byte()?;
            let name = MODES.get(usize::from(mode));
            Some(name.map_or(mode.to_string(), |name| name.to_string()))
        }
        field => field_in(field).text(reader),
    }
}

fn field_in(part: &str) -> &'static Field {
    let row = FIELDS.iter().find(|(name, _)| *name == part);
    &row.expect("the forms name no other fields").1
}

fn assemble_pair(word: &str) -> Result<Vec<u8>, String> {
    let (point, leg) = word
        .split_once('/')
        .ok_or_else(|| expected("point and leg", word, "POINT/LEG, such as 7/2"))?;
    Ok([ENTRY_POINT.bytes(point)?, ENTRY_LEG.bytes(leg)?].concat())
}

fn assemble_mode(word: &str) -> Result<Vec<u8>, String> {
    let mode = match MODES.iter().position(|mode| *mode == word) {
        Some(place) => place as u64,
        None => ENTRY_MODE.number_or(word, &MODES.join(", "))?,
    };
    Ok(ENTRY_MODE.bytes_of(mode))
}

/// The message where a kind has other words behind it than its form.
fn misshapen(what: &str, form: &str, words: &[&str]) -> String {
    let text = words.join(" ");
    match text.is_empty() {
        true => missing(what, form),
        false => expected(what, &text, &in_small_letters(&text, form)),
    }
}

fn unknown_kind(word: &str) -> String {
    let names = || FORMS.iter().map(|(_, form)| name_in(form));
    let small = word.to_lowercase();
    if let Some(name) = names().find(|name| *name == small) {
        return expected("item", word, &in_small_letters(word, name));
    }
    match nearest(word, names()) {
        Some(name) => {
            let what = format!("{} (the nearest is {name})", all_names());
            expected("item", word, &what)
        }
        None => expected("item", word, &all_names()),
    }
}

fn all_names() -> String {
    let names: Vec<&str> = FORMS.iter().map(|(_, form)| name_in(form)).collect();
    format!("one of {}", names.join(", "))
}
