//! The values that stand in a text, from words to bytes and back; and the
//! messages for words that are none.

use crate::output;
use crate::paper::forms::{Reader, CAUSES, DEFAULT_TIMERS, DIGIT_COUNTS, NATURES, PERIODS};
use std::ops::RangeInclusive;

/// The digits 0 to 14, as in TBCD-STRING.
const DIGIT_CHARACTERS: &str = "0123456789*#abc";
const DIGIT_RANGE: &str = "0 to 9, *, #, a, b, c";

/// The longest word that a message repeats whole.
const LONGEST_QUOTED: usize = 80;

/// A number in decimal. Its width decides what can be written, and document 01
/// which part of that is well-formed.
pub struct Field {
    name: &'static str,
    width: usize,
    well_formed: Option<RangeInclusive<u64>>,
}

pub const TIME: Field = Field::any("time", 6);
pub const CALL: Field = Field::any("call", 4);
pub const LEG: Field = Field::new("leg", 1, 1..=2);
pub const CAUSE: Field = Field::new("cause", 1, widened(CAUSES));
pub const SERVICE: Field = Field::any("service", 1);
pub const NATURE: Field = Field::new("nature", 1, widened(NATURES));
pub const PERIOD: Field = Field::new("period", 4, PERIODS.start().0..=PERIODS.end().0);

/// The fields of an entry are of any value; refusal 11 judges them.
pub const ENTRY_POINT: Field = Field::any("point", 1);
pub const ENTRY_LEG: Field = Field::any("leg", 1);
pub const ENTRY_MODE: Field = Field::any("monitor mode", 1);
pub const ENTRY_TIMER: Field = Field::any("timer", 2);

pub const DEFAULT_TIMER: Field = Field::new(
    "default timer",
    1,
    DEFAULT_TIMERS.start().0 as u64..=DEFAULT_TIMERS.end().0 as u64,
);
pub const STORED_LENGTH: Field = Field::new("stored length", 1, widened(DIGIT_COUNTS));
pub const STORED_SERVICE: Field = Field::any("stored service", 1);

const fn widened(range: RangeInclusive<u8>) -> RangeInclusive<u64> {
    *range.start() as u64..=*range.end() as u64
}

impl Field {
    const fn new(name: &'static str, width: usize, well_formed: RangeInclusive<u64>) -> Field {
        Field {
            name,
            width,
            well_formed: Some(well_formed),
        }
    }

    /// One of which every value is well-formed.
    const fn any(name: &'static str, width: usize) -> Field {
        Field {
            name,
            width,
            well_formed: None,
        }
    }

    /// The number, if the field is wide enough for it.
    pub fn number(&self, word: &str) -> Result<u64, String> {
        self.number_or(word, "")
    }

    /// The same, where the word may be something else too.
    pub fn number_or(&self, word: &str, others: &str) -> Result<u64, String> {
        let in_digits = word.bytes().all(|byte| byte.is_ascii_digit());
        match word.parse() {
            Ok(number) if in_digits && number <= self.largest() => Ok(number),
            _ => Err(expected(self.name, word, &self.or_number(word, others))),
        }
    }

    pub fn bytes(&self, word: &str) -> Result<Vec<u8>, String> {
        Ok(self.bytes_of(self.number(word)?))
    }

    pub fn bytes_of(&self, number: u64) -> Vec<u8> {
        number.to_be_bytes()[8 - self.width..].to_vec()
    }

    pub fn text(&self, reader: &mut Reader) -> Option<String> {
        let shift_in = |value: u64, byte: &u8| value << 8 | u64::from(*byte);
        let number = reader.bytes(self.width)?.iter().fold(0, shift_in);
        Some(number.to_string())
    }

    /// Holds a word that has a number to what is well-formed.
    pub fn check_well_formed(&self, word: &str) -> Result<(), String> {
        let number = self.number(word)?;
        match &self.well_formed {
            Some(range) if !range.contains(&number) => {
                Err(expected(self.name, word, &number_in(range)))
            }
            _ => Ok(()),
        }
    }

    /// The message where the word is left out.
    pub fn missing(&self) -> String {
        missing(self.name, &self.range_text())
    }

    fn or_number(&self, word: &str, others: &str) -> String {
        match others {
            "" => self.range_text(),
            others => in_small_letters(word, &format!("{others}, or {}", self.range_text())),
        }
    }

    fn range_text(&self) -> String {
        let possible = number_in(&(0..=self.largest()));
        match &self.well_formed {
            Some(range) => format!("{possible} (well-formed: {})", bounds(range)),
            None => possible,
        }
    }

    fn largest(&self) -> u64 {
        (1 << (8 * self.width)) - 1
    }
}

fn number_in(range: &RangeInclusive<u64>) -> String {
    format!("a number from {}", bounds(range))
}

fn bounds(range: &RangeInclusive<u64>) -> String {
    format!("{} to {}", range.start(), range.end())
}

/// A called number: nature, digit count and digits.
pub fn assemble_number(word: &str) -> Result<Vec<u8>, String> {
    let (nature, digits) = split_number(word)?;
    let nature = NATURE.bytes(nature)?;
    let unexpected = || expected("digits", digits, &format!("digits out of {DIGIT_RANGE}"));
    let digits = digits_in(digits).ok_or_else(unexpected)?;
    Ok([nature, vec![count("digits", digits.len())?], digits].concat())
}

/// Holds a number that can be written to what is well-formed.
pub fn check_number(word: &str) -> Result<(), String> {
    let (nature, digits) = split_number(word)?;
    NATURE.check_well_formed(nature)?;
    let count = digits.chars().count();
    let counts = widened(DIGIT_COUNTS);
    match counts.contains(&(count as u64)) {
        true => Ok(()),
        false => {
            let some = format!("{} of them", bounds(&counts));
            Err(expected("digits", digits, &some))
        }
    }
}

fn split_number(word: &str) -> Result<(&str, &str), String> {
    word.split_once('/')
        .ok_or_else(|| expected("number", word, "NATURE/DIGITS, such as 4/49151"))
}

pub fn number_text(nature: u8, digits: &[u8]) -> String {
    let digits: String = digits.iter().copied().map(digit_character).collect();
    format!("{nature}/{digits}")
}

pub fn assemble_digit(word: &str) -> Result<Vec<u8>, String> {
    match digits_in(word) {
        Some(digits) if digits.len() == 1 => Ok(digits),
        _ => Err(expected("digit", word, &format!("one of {DIGIT_RANGE}"))),
    }
}

fn digits_in(word: &str) -> Option<Vec<u8>> {
    word.chars()
        .map(|character| DIGIT_CHARACTERS.find(character).map(|place| place as u8))
        .collect()
}

pub fn digit_character(digit: u8) -> char {
    DIGIT_CHARACTERS.as_bytes()[usize::from(digit)].into()
}

pub fn assemble_hex(words: &[&str]) -> Result<Vec<u8>, String> {
    const EXPECTED: &str = "two hex digits, such as 0E";
    if words.is_empty() {
        return Err(missing("byte", EXPECTED));
    }
    let byte = |word: &&str| {
        let in_hex = word.bytes().all(|byte| byte.is_ascii_hexdigit());
        match u8::from_str_radix(word, 16) {
            Ok(byte) if in_hex && word.len() == 2 => Ok(byte),
            _ => Err(expected("byte", word, EXPECTED)),
        }
    };
    words.iter().map(byte).collect()
}

pub fn hex_text(bytes: &[u8]) -> String {
    let words: Vec<String> = bytes.iter().map(|byte| format!("{byte:02X}")).collect();
    words.join(" ")
}

/// A count is one byte wide.
pub fn count(field: &str, count: usize) -> Result<u8, String> {
    u8::try_from(count).map_err(|_| too_many(field, count, u8::MAX))
}

pub fn too_many(field: &str, count: usize, most: u8) -> String {
    let field = format!("count of {field}");
    expected(&field, &count.to_string(), &format!("at most {most}"))
}

/// The message about a word, as all of them are.
pub fn expected(field: &str, word: &str, what: &str) -> String {
    format!("{field} `{}`: expected {what}", quoted(word))
}

/// Words that are expected, for a message about this one: where it has capitals,
/// they could be all that is wrong.
pub fn in_small_letters(word: &str, words: &str) -> String {
    match word.bytes().any(|byte| byte.is_ascii_uppercase()) {
        true => format!("{words} (words are written in small letters)"),
        false => words.to_string(),
    }
}

/// The message about a word that is left out.
pub fn missing(field: &str, what: &str) -> String {
    format!("{field} missing: expected {what}")
}

/// The word as a message repeats it.
fn quoted(word: &str) -> String {
    let mut text: String = word.chars().take(LONGEST_QUOTED).collect();
    if text.len() < word.len() {
        text += "..";
    }
    output::visible(&text)
}
