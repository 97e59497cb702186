//! What another program has written, made fit to be read, whatever it is: what
//! is no plain text is escaped, and what is long is cut.

use crate::texts::hex_text;

/// So many bytes are shown of a line.
const LONGEST: usize = 200;
/// And so many in hex.
const LONGEST_HEX: usize = 16;

/// A line of a listing, without its end; or that there is none.
pub fn line(line: Option<&[u8]>) -> String {
    match line {
        None => "nothing".to_string(),
        Some(line) => match line.strip_suffix(b"\n") {
            Some(content) => text(content),
            None => format!("{} (without the end of the line)", text(line)),
        },
    }
}

/// Bytes as text.
pub fn text(bytes: &[u8]) -> String {
    match bytes.get(..LONGEST) {
        Some(start) if bytes.len() > LONGEST => {
            let (start, length) = (start.escape_ascii(), bytes.len());
            format!("{start} .. (cut: {LONGEST} of {length} bytes)")
        }
        _ => bytes.escape_ascii().to_string(),
    }
}

/// Bytes in hex, beside those expected, from the first that differs.
pub fn hex_from_difference(bytes: &[u8], expected: &[u8]) -> String {
    let pairs = bytes.iter().zip(expected);
    let offset = pairs
        .take_while(|(byte, expected)| byte == expected)
        .count();
    let [shown, expected] = [bytes, expected].map(|bytes| hex(&bytes[offset..]));
    let length = bytes.len();
    format!("{length} bytes, from byte {offset} on: {shown}; expected there: {expected}")
}

fn hex(bytes: &[u8]) -> String {
    match bytes.get(..LONGEST_HEX) {
        _ if bytes.is_empty() => "nothing".to_string(),
        Some(start) if bytes.len() > LONGEST_HEX => format!("{} ..", hex_text(start)),
        _ => hex_text(bytes),
    }
}

/// The first lines that are not the same, with their number, counted from 0:
/// theirs and ours. Lines have their ends, and one of them is nothing if there
/// are no more.
pub fn first_difference<'a>(
    theirs: &'a [u8],
    ours: &'a [u8],
) -> (usize, Option<&'a [u8]>, Option<&'a [u8]>) {
    let (mut their, mut our) = (lines(theirs), lines(ours));
    (0..)
        .map(|number| (number, their.next(), our.next()))
        .find(|(_, their, our)| their != our || their.is_none())
        .expect("the lines do not go on for ever")
}

/// Lines with their ends; the last may have none.
pub fn lines(bytes: &[u8]) -> impl Iterator<Item = &[u8]> {
    bytes.split_inclusive(|byte| *byte == b'\n')
}
