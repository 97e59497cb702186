//! What stands in no picture: the chart in words, for those who do not see it,
//! and what is not drawn.

use super::ladder::{Arrow, Chart, Ladder, Row};
use super::play::Cause;
use super::words;

/// The whole chart as sentences.
pub fn description(chart: &Chart) -> String {
    let ladders = chart.ladders.iter().flat_map(ladder_sentences);
    let sentences = [chart.profile.clone()].into_iter().chain(ladders);
    let sentences = sentences.chain(notes(chart)).chain(chart.undrawn.clone());
    let sentences: Vec<String> = sentences.collect();
    sentences.join(" ")
}

fn ladder_sentences(ladder: &Ladder) -> Vec<String> {
    let number = |row: usize| ladder.rows[row].number;
    let mut sentences = vec![format!("{}.", ladder.title)];
    sentences.extend(ladder.rows.iter().map(row_sentence));
    for hold in &ladder.holds {
        let (from, held) = (number(hold.from), words::hold(hold.value));
        let to = hold
            .to
            .map_or(String::new(), |row| format!(" to item {}", number(row)));
        sentences.push(format!("The call is {held} from item {from}{to}."));
    }
    for charge in &ladder.charges {
        let leg = charge.leg.number();
        let notes = charge.notes().into_iter();
        let notes = notes.map(|note| {
            let item = number(note.row);
            format!("{} at item {item} ({})", note.name, note.detail)
        });
        let notes: Vec<String> = notes.collect();
        sentences.push(format!("Charge of leg {leg}: {}.", notes.join(", ")));
    }
    sentences
}

fn row_sentence(row: &Row) -> String {
    let mut parts: Vec<String> = row.arrows.iter().map(arrow_words).collect();
    parts.extend(row.refusal.map(words::refusal));
    parts.extend(row.relationship.map(words::relationship).map(String::from));
    if row.over {
        parts.push("call over".to_string());
    }
    parts.extend(row.expected.as_deref().map(words::expected));
    format!(
        "Item {} at {}: {}.",
        row.number,
        row.time.0,
        parts.join("; ")
    )
}

fn arrow_words(arrow: &Arrow) -> String {
    let (from, to) = (arrow.from.name(), arrow.to.name());
    let (name, details) = (&arrow.label.name, arrow.label.details.join(", "));
    format!("{from} to {to}: {name} {details}")
        .trim_end()
        .to_string()
}

/// What is not drawn.
pub fn notes(chart: &Chart) -> Vec<String> {
    let mut notes = Vec::new();
    if chart.ladders.is_empty() && chart.strays.is_empty() && chart.end.is_none() {
        notes.push("The scenario has no items.".to_string());
    }
    if let Some(end) = &chart.end {
        let end_words = match end.cause {
            Cause::Profile => "The listing ends with the profile".to_string(),
            Cause::Length(item) => {
                format!("The listing ends with item {item}: no item has its length")
            }
            Cause::CutShort(item) => {
                format!("The listing ends with item {item}, which is cut short")
            }
        };
        notes.push(match end.unread {
            0 => format!("{end_words}."),
            1 => format!("{end_words}; 1 further line is not read."),
            unread => format!("{end_words}; {unread} further lines are not read."),
        });
    }
    match chart.calls_left_out {
        0 => {}
        1 => notes.push("1 further call is not drawn.".to_string()),
        count => notes.push(format!("{count} further calls are not drawn.")),
    }
    notes
}
