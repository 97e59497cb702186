//! The second program.
//!
//! It is written from the papers alone (document 01, and document 02's requests
//! as they land), in the most direct way, and run beside the proved program:
//! where the two differ, the papers decide.

// They would panic where they cannot write; `output` does not.
#![deny(clippy::print_stdout, clippy::print_stderr)]

mod bench;
mod chart;
mod commands;
mod compare;
mod nearest;
mod output;
mod paper;
#[cfg(test)]
mod tests;
mod texts;

use std::env;
use std::ffi::OsString;
use std::process::ExitCode;

/// All is well; a difference was found, or something that has to be reached was
/// not; there is an error.
const WELL: u8 = 0;
const DIFFERENCE: u8 = 1;
const ERROR: u8 = 2;

fn main() -> ExitCode {
    let arguments: Result<Vec<String>, OsString> =
        env::args_os().skip(1).map(OsString::into_string).collect();
    let result = match arguments {
        Ok(words) => commands::run(&words.iter().map(String::as_str).collect::<Vec<_>>()),
        Err(word) => Err(format!(
            "argument {word:?}: expected text in UTF-8 (see second --help)"
        )),
    };
    let status = match result {
        Ok(true) => WELL,
        Ok(false) => DIFFERENCE,
        Err(error) => {
            output::complain(error);
            ERROR
        }
    };
    status.into()
}
