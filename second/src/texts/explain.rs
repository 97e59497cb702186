//! From bytes to text. What is malformed comes out as bytes.

use super::items::body_text;
use super::profile::profile_text;
use super::values::hex_text;
use crate::paper::forms::{read_item, read_profile};
use crate::paper::listing::frames;

/// An item's body begins behind length, version, kind, call and time.
const KIND: usize = 3;
const BODY: usize = 14;

/// The text of the bytes that a listing program takes.
pub fn explain(bytes: &[u8]) -> String {
    let mut text = String::new();
    for (place, frame) in frames(bytes).into_iter().enumerate() {
        text += &match place {
            0 => explain_profile(frame),
            _ => explain_item(frame),
        };
        text += "\n";
    }
    text
}

pub fn explain_profile(bytes: &[u8]) -> String {
    match read_profile(bytes) {
        Some(profile) => profile_text(&profile),
        None => bytes_text(bytes),
    }
}

pub fn explain_item(bytes: &[u8]) -> String {
    item_text(bytes).unwrap_or_else(|| bytes_text(bytes))
}

fn item_text(bytes: &[u8]) -> Option<String> {
    let item = read_item(bytes)?;
    let body = body_text(bytes[KIND], &bytes[BODY..])?;
    Some(format!("{} call {} {body}", item.time.0, item.call))
}

fn bytes_text(bytes: &[u8]) -> String {
    format!("bytes {}", hex_text(bytes)).trim_end().to_string()
}
