//! Writing to standard output and to standard error. Where standard output
//! cannot be written (a full disk, a closed pipe), that is an error with a
//! message; `println!` would panic there.
//!
//! What comes from a user or from another program is made visible first.

use std::fmt::Display;
use std::io::{self, Write};

/// Writes a line.
pub fn line(text: impl Display) -> Result<(), String> {
    write(format!("{text}\n").as_bytes())
}

/// Writes all the bytes; none of them waits in a buffer afterwards, where a
/// failure would be found too late to be told.
pub fn write(bytes: &[u8]) -> Result<(), String> {
    let mut output = io::stdout().lock();
    let written = output.write_all(bytes).and_then(|()| output.flush());
    written.map_err(|error| format!("standard output: cannot be written: {error}"))
}

/// The text with escapes for what cannot be seen or would disturb the terminal,
/// such as U+200B, or a line feed in the name of a file.
pub fn visible(text: &str) -> String {
    let shown = |character: char| match character {
        '\\' | '\'' | '"' => character.to_string(),
        other => other.escape_debug().to_string(),
    };
    text.chars().map(shown).collect()
}

/// Writes a message to standard error. Where that fails, nobody is left to be
/// told.
pub fn complain(message: impl Display) {
    let _ = writeln!(io::stderr(), "{message}");
}
