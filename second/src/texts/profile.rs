//! A profile in words, from words to bytes and back.

use super::values::{
    assemble_number, check_number, count, expected, in_small_letters, missing, number_text,
    too_many, Field, DEFAULT_TIMER, STORED_LENGTH, STORED_SERVICE,
};
use crate::paper::forms::{
    with_length_and_version, Handling, Profile, Sense, LENGTH_COUNTS, NUMBER_COUNTS, SERVICE_COUNTS,
};

pub const FORM: &str = "profile continue|release TIMER [enabling|inhibiting NUMBER ..] \
    [length LENGTH ..] [service SERVICE ..] [forwarding enabling|inhibiting]";

type WordList<'a> = &'a [&'a str];

/// The words of a profile, each where it belongs.
struct Parts<'a> {
    handling: u8,
    timer: &'a str,
    sense: u8,
    numbers: WordList<'a>,
    lengths: WordList<'a>,
    services: WordList<'a>,
    forwarding: u8,
}

/// The bytes of a profile; of a malformed one only where it is to be refused.
pub fn assemble_profile(words: &[&str], refused: bool) -> Result<Vec<u8>, String> {
    let parts = Parts::split(words)?;
    let bytes = parts.bytes()?;
    if !refused {
        parts.check().map_err(|fault| {
            format!("{fault} (behind a profile that is to be refused stands `-> refused 2`)")
        })?;
    }
    Ok(bytes)
}

impl<'a> Parts<'a> {
    fn split(words: WordList<'a>) -> Result<Parts<'a>, String> {
        const HANDLINGS: &str = "continue or release";
        let (handling, words) = match words {
            ["continue", words @ ..] => (0, words),
            ["release", words @ ..] => (1, words),
            [other, ..] => {
                let handlings = in_small_letters(other, HANDLINGS);
                return Err(expected("default handling", other, &handlings));
            }
            [] => return Err(missing("default handling", HANDLINGS)),
        };
        let [timer, words @ ..] = words else {
            return Err(DEFAULT_TIMER.missing());
        };
        let (sense, words) = match words {
            ["enabling", words @ ..] => (1, words),
            ["inhibiting", words @ ..] => (2, words),
            words => (0, words),
        };
        let (numbers, words) = split_before_keyword(words);
        let (lengths, words) = take_list("length", &STORED_LENGTH, words)?;
        let (services, words) = take_list("service", &STORED_SERVICE, words)?;
        let forwarding = match words {
            [] => 0,
            ["forwarding", "enabling"] => 1,
            ["forwarding", "inhibiting"] => 2,
            _ => {
                let text = words.join(" ");
                let form = in_small_letters(&text, FORM);
                return Err(expected("end of the profile", &text, &form));
            }
        };
        Ok(Parts {
            handling,
            timer,
            sense,
            numbers,
            lengths,
            services,
            forwarding,
        })
    }

    /// Whatever fits into the fields.
    fn bytes(&self) -> Result<Vec<u8>, String> {
        let mut content = vec![self.handling];
        content.extend(DEFAULT_TIMER.bytes(self.timer)?);
        content.push(self.sense);
        content.push(count("stored numbers", self.numbers.len())?);
        for (place, word) in self.numbers.iter().enumerate() {
            content.extend(match word.contains('/') {
                true => assemble_number(word)?,
                false => return Err(self.no_number(place, word)),
            });
        }
        for (name, list, field, behind) in self.lists() {
            content.push(count(name, list.len())?);
            for word in list {
                content.extend(field.bytes_of(field.number_or(word, behind)?));
            }
        }
        content.push(self.forwarding);
        if content.len() > usize::from(u16::MAX) - 3 {
            let length = content.len().to_string();
            return Err(expected("length of the profile", &length, "at most 65532"));
        }
        Ok(with_length_and_version(&content))
    }

    /// What is malformed, by document 01.
    fn check(&self) -> Result<(), String> {
        DEFAULT_TIMER.check_well_formed(self.timer)?;
        for number in self.numbers {
            check_number(number)?;
        }
        for (_, list, field, _) in self.lists() {
            for word in list {
                field.check_well_formed(word)?;
            }
        }
        for (name, list, counts) in [
            ("stored numbers", self.numbers, NUMBER_COUNTS),
            ("stored lengths", self.lengths, LENGTH_COUNTS),
            ("stored services", self.services, SERVICE_COUNTS),
        ] {
            if list.len() > usize::from(*counts.end()) {
                return Err(too_many(name, list.len(), *counts.end()));
            }
        }
        match (self.sense, [self.numbers, self.lengths].concat().first()) {
            (0, Some(word)) => Err(expected(
                "stored number or length",
                word,
                "enabling or inhibiting before it",
            )),
            (1.., None) => Err(missing(
                "stored number or length",
                "one behind enabling or inhibiting",
            )),
            _ => Ok(()),
        }
    }

    /// Each with the words that may stand behind it.
    fn lists(&self) -> [(&'static str, WordList<'a>, Field, &'static str); 2] {
        [
            (
                "stored lengths",
                self.lengths,
                STORED_LENGTH,
                "service, forwarding",
            ),
            (
                "stored services",
                self.services,
                STORED_SERVICE,
                "forwarding",
            ),
        ]
    }

    /// The message for a word in the place of a stored number. It is rather one
    /// of the profile's words with a slip.
    fn no_number(&self, place: usize, word: &str) -> String {
        let words = match (self.sense, place) {
            (0, 0) => "enabling, inhibiting, length, service, or forwarding",
            _ => "length, service, forwarding, or NATURE/DIGITS, such as 4/49151",
        };
        expected("word", word, &in_small_letters(word, words))
    }
}

fn split_before_keyword<'a>(words: WordList<'a>) -> (WordList<'a>, WordList<'a>) {
    let is_keyword = |word: &&str| ["length", "service", "forwarding"].contains(word);
    words.split_at(words.iter().position(is_keyword).unwrap_or(words.len()))
}

/// The list behind its keyword, and the words behind the list.
fn take_list<'a>(
    keyword: &str,
    field: &Field,
    words: WordList<'a>,
) -> Result<(WordList<'a>, WordList<'a>), String> {
    match words {
        [first, rest @ ..] if *first == keyword => match split_before_keyword(rest) {
            ([], _) => Err(field.missing()),
            split => Ok(split),
        },
        _ => Ok((&[], words)),
    }
}

pub fn profile_text(profile: &Profile) -> String {
    let handling = match profile.default_handling {
        Handling::Continue => "continue",
        Handling::Release => "release",
    };
    let mut text = format!("profile {handling} {}", profile.default_timer.0);
    text += sense_text(profile.number_sense);
    for number in &profile.numbers {
        text += &format!(" {}", number_text(number.nature, number.digits));
    }
    for (keyword, list) in [("length", profile.lengths), ("service", profile.services)] {
        if !list.is_empty() {
            text += &format!(" {keyword}");
        }
        for value in list {
            text += &format!(" {value}");
        }
    }
    if profile.forwarding != Sense::Absent {
        text += " forwarding";
        text += sense_text(profile.forwarding);
    }
    text
}

fn sense_text(sense: Sense) -> &'static str {
    match sense {
        Sense::Absent => "",
        Sense::Enabling => " enabling",
        Sense::Inhibiting => " inhibiting",
    }
}
