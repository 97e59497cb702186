//! The form of a listing's answers: what may stand behind `->`. Whether an
//! answer of this form can be given at all is not asked here: an expectation may
//! be wrong.
//!
//! Document 01, sections "Numbered refusals" and "The listing program".

use std::str::FromStr;

/// The only answer that a profile can get.
pub const PROFILE_REFUSED: &str = "refused 2";

pub const FORM: &str = "refused 1 to 14, or ok none|monitor|control POINT|- \
    [rPOINT/LEG|nPOINT/LEG] [c1=TENTHS] [c2=TENTHS] [dTENTHS] [over]";

/// Whether the text has the form of an answer to an item.
pub fn is_answer(text: &str) -> bool {
    let words: Vec<&str> = text.split(' ').collect();
    match words[..] {
        ["refused", number] => (1..=14).any(|refusal: u8| number == refusal.to_string()),
        ["ok", "none" | "monitor" | "control", hold, ref further @ ..] => {
            is_hold(hold) && are_further(further)
        }
        _ => false,
    }
}

fn is_hold(word: &str) -> bool {
    word == "-" || is_number::<u8>(word)
}

/// The parts behind the point, each of which may be left out, in their order.
fn are_further(words: &[&str]) -> bool {
    let parts: [fn(&str) -> bool; 5] = [
        is_report,
        |word| is_tenths(word, "c1="),
        |word| is_tenths(word, "c2="),
        |word| is_tenths(word, "d"),
        |word| word == "over",
    ];
    let mut words = words.iter().peekable();
    for is_part in parts {
        words.next_if(|word| is_part(word));
    }
    words.next().is_none()
}

fn is_report(word: &str) -> bool {
    let point_and_leg = word.strip_prefix(['r', 'n']);
    let point_and_leg = point_and_leg.and_then(|word| word.split_once('/'));
    point_and_leg.is_some_and(|(point, leg)| is_number::<u8>(point) && ["1", "2"].contains(&leg))
}

fn is_tenths(word: &str, name: &str) -> bool {
    word.strip_prefix(name).is_some_and(is_number::<u64>)
}

/// A number as the listing writes it, without a zero before it.
fn is_number<T: FromStr + ToString>(word: &str) -> bool {
    let number: Option<T> = word.parse().ok();
    number.is_some_and(|number| number.to_string() == word)
}
