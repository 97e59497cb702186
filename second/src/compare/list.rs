//! Scenarios listed with the answers that a program gives to them. This program
//! itself is not asked.

use super::program::Program;
use super::shown;
use crate::output;
use crate::texts::{
    self, heading, is_answer, listed, Answered, Line, Listed, Scenario, PROFILE_REFUSED,
};
use std::str;

/// The first line of every listing.
pub const HEADER: &str = "item answer";

/// Lists all the files; true if every answer is as the texts expect it. Nothing
/// is run before all of them are read.
pub fn run(program: Program, files: &[&str]) -> Result<bool, String> {
    let scenarios = read_all(files)?;
    let mut differences = Vec::new();
    for (place, scenario) in scenarios.iter().enumerate() {
        let listed = match list(program, scenario) {
            Ok(listed) => listed,
            Err(error) => return Err([differences, vec![error]].concat().join("\n")),
        };
        let before = match (scenarios.len(), place) {
            (1, _) => String::new(),
            (_, 0) => heading(&scenario.name) + "\n",
            _ => format!("\n{}\n", heading(&scenario.name)),
        };
        output::write((before + &listed.text).as_bytes())?;
        differences.extend(listed.differences);
    }
    for difference in &differences {
        output::complain(difference);
    }
    Ok(differences.is_empty())
}

/// All the scenarios, or a message for each file that has none.
fn read_all(files: &[&str]) -> Result<Vec<Scenario>, String> {
    let (mut scenarios, mut errors) = (Vec::new(), Vec::new());
    for file in files {
        match texts::read_to_list(file) {
            Ok(scenario) => scenarios.push(scenario),
            Err(error) => errors.push(error),
        }
    }
    match errors.is_empty() {
        true => Ok(scenarios),
        false => Err(errors.join("\n")),
    }
}

fn list(program: Program, scenario: &Scenario) -> Result<Listed, String> {
    let output = program.output_of(&scenario.name, &texts::bytes_of(&scenario.lines))?;
    let listed = list_output(scenario, &output);
    listed.map_err(|error| program.message(&scenario.name, error))
}

/// The scenario with the answers that are in a program's output.
pub fn list_output(scenario: &Scenario, output: &[u8]) -> Result<Listed, String> {
    let answered = answered_in(output, scenario)?;
    Ok(listed(&scenario.name, &scenario.text, &answered))
}

/// The profile and the items, each with its answer in a program's output.
pub fn answered_in<'a>(
    output: &'a [u8],
    scenario: &'a Scenario,
) -> Result<Vec<Answered<'a>>, String> {
    let answers = read_answers(output, &scenario.lines)?;
    Ok(scenario.lines.iter().zip(answers).collect())
}

/// The answers in a program's output: to the profile, if it is refused, and to
/// each item up to the one that ends the listing.
fn read_answers<'a>(output: &'a [u8], lines: &[Line]) -> Result<Vec<Option<&'a str>>, String> {
    let mut output_lines = shown::lines(output).map(whole_line);
    let mut next = || output_lines.next().transpose();
    let header = next()?;
    if header != Some(HEADER.as_bytes()) {
        return Err(unexpected(&format!("the header `{HEADER}`"), header));
    }
    let mut answers = vec![None; lines.len()];
    let mut line = next()?;
    if line == Some(format!("0 {PROFILE_REFUSED}").as_bytes()) {
        answers[0] = Some(PROFILE_REFUSED);
        line = next()?;
    } else {
        for number in 1..=texts::answerable(lines) {
            answers[number] = Some(read_answer(line, number, lines[number].number)?);
            line = next()?;
        }
    }
    match line {
        None => Ok(answers),
        Some(_) => Err(unexpected("the end behind the last answer", line)),
    }
}

/// A line without its end; the last one could be cut short.
fn whole_line(line: &[u8]) -> Result<&[u8], String> {
    line.strip_suffix(b"\n")
        .ok_or_else(|| unexpected("a whole last line", Some(line)))
}

fn read_answer(line: Option<&[u8]>, number: usize, at: usize) -> Result<&str, String> {
    let text = line.and_then(|line| str::from_utf8(line).ok());
    match text.and_then(|text| text.split_once(' ')) {
        Some((word, answer)) if word == number.to_string() && is_answer(answer) => Ok(answer),
        _ => Err(unexpected(
            &format!("the answer to item {number} (line {at})"),
            line,
        )),
    }
}

/// The message about a line of the output, or about its end.
fn unexpected(expected: &str, line: Option<&[u8]>) -> String {
    match line {
        Some(line) => format!("expected {expected}, not `{}`", shown::text(line)),
        None => format!("expected {expected}, not the end of the output"),
    }
}
