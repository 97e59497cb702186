//! Scenarios with their expected answers in the text, held against the
//! listing program and against this one.

use crate::compare::list::HEADER;
use crate::compare::program::Program;
use crate::compare::shown;
use crate::output;
use crate::paper::listing;
use crate::texts::{self, Line, Scenario};

/// Checks all the files; true if every program says what the texts say.
pub fn run(program: Program, files: &[&str]) -> Result<bool, String> {
    let mut items = 0;
    let mut differences = 0;
    for file in files {
        let Scenario { name, lines, .. } = texts::read_file(file)?;
        let input = texts::bytes_of(&lines);
        let theirs = program.output_of(&name, &input)?;
        let ours = listing::of(&input);
        items += lines.len().saturating_sub(1);
        if let Some(difference) = first_difference(&lines, &program.name(), &theirs, &ours) {
            output::line(format_args!("{name}: {difference}"))?;
            differences += 1;
        }
    }
    let scenarios = files.len();
    output::line(format_args!(
        "{scenarios} scenarios, {items} items, {differences} differences"
    ))?;
    Ok(differences == 0)
}

/// The first line that one of the programs gives otherwise than the text says.
fn first_difference(lines: &[Line], program: &str, theirs: &[u8], ours: &[u8]) -> Option<String> {
    let mut theirs = shown::lines(theirs);
    let mut ours = shown::lines(ours);
    for (place, expected) in expected_lines(lines) {
        let listed = [expected.as_deref(), theirs.next(), ours.next()];
        if listed != [listed[0]; 3] {
            let [expected, their, our] = listed.map(shown::line);
            return Some(format!(
                "{place}\n  expected: {expected}\n  {program}: {their}\n  second: {our}"
            ));
        }
    }
    None
}

/// Where a line of the listing belongs to, and what it is; at last, nothing. The
/// profile is number 0 in the listing, the items follow it.
fn expected_lines(lines: &[Line]) -> Vec<(String, Option<Vec<u8>>)> {
    let mut expected = vec![(
        "the header".to_string(),
        Some(format!("{HEADER}\n").into_bytes()),
    )];
    for (number, line) in lines.iter().enumerate() {
        if number == 0 && line.expected.is_none() {
            continue; // a good profile gets no answer
        }
        let answer = line.expected.as_ref();
        let answer = answer.map(|answer| format!("{number} {answer}\n").into_bytes());
        expected.push((place_of(line), answer));
    }
    expected.push(("after the last line".to_string(), None));
    expected
}

/// A line with a range of calls has an answer for each of them.
fn place_of(line: &Line) -> String {
    match line.call {
        Some(call) => format!("line {}, call {call}", line.number),
        None => format!("line {}", line.number),
    }
}
