//! Scenarios as ladder diagrams (message sequence charts), in SVG.
//!
//! The scenario is played item by item; of the answers and of the call's record
//! after each item a chart is made, which says what is drawn; and the chart is
//! drawn. Only the record knows when a charge's clock has started, and the
//! record is this program's: so the other program's answers are held to this
//! one's first. Where the text expects another answer, the item is marked.

// What is drawn.
mod ladder;
mod play;
mod words;

// How it is drawn.
mod describe;
mod drawing;
mod layout;
mod legend;
mod page;
mod signs;
mod svg;

#[cfg(test)]
mod tests;

use crate::compare::list::answered_in;
use crate::compare::program::Program;
use crate::compare::shown;
use crate::output;
use crate::paper::listing;
use crate::texts;
use ladder::Chart;
use play::Played;

/// Draws the scenario of a file; false if the program's answers differ from this
/// program's, or from those that the text expects.
pub fn run(program: Program, file: &str) -> Result<bool, String> {
    let scenario = texts::read_to_list(file)?;
    let input = texts::bytes_of(&scenario.lines);
    let name = &scenario.name;
    let theirs = program.output_of(name, &input)?;
    let ours = listing::of(&input);
    let played = Played::of(&scenario);
    if theirs != ours {
        let difference = difference(&played, &program.name(), &theirs, &ours);
        output::complain(format_args!("{name}{difference}"));
        return Ok(false);
    }
    let differences = texts::differences(&answered_in(&theirs, &scenario)?);
    output::write(page::draw(&Chart::of(&played, &differences)).as_bytes())?;
    for difference in &differences {
        output::complain(difference.message(name));
    }
    Ok(differences.is_empty())
}

/// The first lines of the listings that are not the same, after the line of the
/// file that they answer.
fn difference(played: &Played, program: &str, theirs: &[u8], ours: &[u8]) -> String {
    let (place, their, our) = shown::first_difference(theirs, ours);
    let [their, our] = [their, our].map(shown::line);
    let line = match played.line_of_answer(place) {
        Some(line) => format!(":{line}"),
        None => String::new(),
    };
    format!("{line}: {program} answers {their}; second answers {our}; no chart is drawn")
}
