//! The whole page: a title, the ladders one below the other, what has none, and
//! the legend.

use super::describe::{description, notes};
use super::drawing::draw_ladder;
use super::ladder::{Chart, Stray};
use super::layout::{Columns, LINE, MARGIN};
use super::legend::draw_legend;
use super::svg::{Anchor, Font, Svg};
use super::svg::{BYTES, DIFFERS, HEADING, LEAD, PROFILE, REFUSED, TIME, TITLE};
use super::words;
use crate::texts::hex_text;

/// The picture of a chart.
pub fn draw(chart: &Chart) -> String {
    let columns = Columns::of(chart);
    let mut svg = Svg::default();
    let mut y = draw_header(&mut svg, &columns, chart, MARGIN);
    for ladder in &chart.ladders {
        y = draw_ladder(&mut svg, &columns, ladder, y + 14);
    }
    y = draw_strays(&mut svg, &columns, &chart.strays, y);
    for note in notes(chart) {
        y = draw_lines(&mut svg, &LEAD, &columns, &note, y + 10);
    }
    for difference in &chart.undrawn {
        y = draw_lines(&mut svg, &DIFFERS, &columns, difference, y + 10);
    }
    if !chart.ladders.is_empty() {
        y = draw_legend(&mut svg, &columns, chart, y + 22);
    }
    let description = description(chart);
    svg.picture(columns.width, y + MARGIN, chart.title, &description)
}

/// Wrapped text over the whole width; says where it ends.
fn draw_lines(svg: &mut Svg, font: &Font, columns: &Columns, text: &str, top: i32) -> i32 {
    let mut y = top;
    for line in font.wrap(text, columns.width - 2 * MARGIN) {
        y += font.line();
        svg.text(font, Anchor::Start, (MARGIN, y), &line);
    }
    y
}

/// The first sentence of the title is set large.
fn draw_header(svg: &mut Svg, columns: &Columns, chart: &Chart, top: i32) -> i32 {
    let (first, rest) = chart.title.split_once(". ").unwrap_or((chart.title, ""));
    let y = draw_lines(svg, &TITLE, columns, first.trim_end_matches('.'), top);
    let y = draw_lines(svg, &LEAD, columns, rest, y + 6);
    draw_lines(svg, &PROFILE, columns, &chart.profile, y + 8)
}

/// Items without a call have no ladder: their bytes, and what they got.
fn draw_strays(svg: &mut Svg, columns: &Columns, strays: &[Stray], top: i32) -> i32 {
    const MOST_BYTES: usize = 65;
    let mut y = top;
    if strays.is_empty() {
        return y;
    }
    y += 36;
    svg.text(&HEADING, Anchor::Start, (MARGIN, y), "Items of no call");
    for Stray { step, expected } in strays {
        let text = match step.bytes.get(..MOST_BYTES) {
            Some(start) if start.len() < step.bytes.len() => format!("{} ..", hex_text(start)),
            _ => hex_text(&step.bytes),
        };
        let left = columns.time + 24;
        let lines = BYTES.wrap(&text, columns.width - MARGIN - left);
        y += 26;
        let number = step.number.to_string();
        svg.text(&TIME, Anchor::Start, (MARGIN, y), &number);
        for line in lines {
            svg.text(&BYTES, Anchor::Start, (left, y), &line);
            y += LINE;
        }
        if let Err(refusal) = step.answer {
            svg.text(&REFUSED, Anchor::Start, (left, y), &words::refusal(refusal));
        }
        let expected = expected.as_deref().map(words::expected).unwrap_or_default();
        for line in DIFFERS.wrap(&expected, columns.width - MARGIN - left) {
            y += LINE;
            svg.text(&DIFFERS, Anchor::Start, (left, y), &line);
        }
    }
    y
}
