//! What the signs mean.

use super::ladder::{Chart, Form};
use super::layout::{Columns, MARGIN, STRIP_WIDTH};
use super::signs::{draw_break, draw_hold, draw_point, draw_shaft, draw_strip};
use super::svg::{Anchor, Spot, Svg, DIFFERS_BOX, SMALL};
use crate::paper::forms::CallKind;

/// Two columns of signs, and how to read the figures; says where it ends. The
/// mark of a difference is among them only if the ladders have one.
pub fn draw_legend(svg: &mut Svg, columns: &Columns, chart: &Chart, top: i32) -> i32 {
    const STEP: i32 = 28;
    const HALF: i32 = 11;
    type Sample = fn(&mut Svg, Spot);
    const SAMPLES: [(Sample, &str); 10] = [
        (
            |svg, spot| sample_arrow(svg, Form::Full, spot),
            "event, operation, routing, or report",
        ),
        (
            |svg, spot| sample_arrow(svg, Form::Notification, spot),
            "report that only notifies: it does not hold the call",
        ),
        (
            |svg, spot| sample_arrow(svg, Form::Refused, spot),
            "refused, with the number of the refusal: nothing has changed",
        ),
        (
            |svg, (x, y)| draw_hold(svg, x, y - HALF, y + HALF),
            "the switch holds the call at a detection point",
        ),
        (
            |svg, (x, y)| draw_break(svg, x - 12, x + 12, y),
            "a minute or more passes",
        ),
        (
            |svg, (x, y)| draw_strip(svg, "granted", x - STRIP_WIDTH / 2, y - HALF, y + HALF),
            "a charged period is granted; its clock does not run",
        ),
        (
            |svg, (x, y)| draw_strip(svg, "running", x - STRIP_WIDTH / 2, y - HALF, y + HALF),
            "its clock runs, up to the report",
        ),
        (
            |svg, (x, y)| svg.line("thick", (x, y - HALF), (x, y + HALF)),
            "control relationship with the service node",
        ),
        (
            |svg, (x, y)| svg.line("thin", (x, y - HALF), (x, y + HALF)),
            "monitor relationship",
        ),
        (
            |svg, (x, y)| svg.line("absent", (x, y - HALF), (x, y + HALF)),
            "no relationship; no leg; no open call",
        ),
    ];
    const DIFFERENCE: (Sample, &str) = (
        |svg, (x, y)| svg.rect(DIFFERS_BOX, (x - 20, y - 8), (40, 16), 4),
        "the text expects another answer than the one that is given and drawn",
    );
    svg.line("rule", (MARGIN, top), (columns.width - MARGIN, top));
    let half = SAMPLES.len() / 2;
    let mut draw_sample = |column: usize, row: usize, (sample, text): (Sample, &str)| {
        let x = MARGIN + column as i32 * (columns.width * 11 / 20);
        let y = top + 24 + row as i32 * STEP;
        sample(svg, (x + 28, y));
        svg.text(&SMALL, Anchor::Start, (x + 68, y + 4), text);
    };
    for (place, sample) in SAMPLES.into_iter().enumerate() {
        draw_sample(place / half, place % half, sample);
    }
    let has_marks = chart.has_marks();
    if has_marks {
        draw_sample(0, half, DIFFERENCE);
    }
    let rows = half + usize::from(has_marks);
    let y = top + 24 + rows as i32 * STEP + 4;
    let point = sample_point(chart);
    let figures = format!("{point} Times and periods count tenths of a second.");
    svg.text(&SMALL, Anchor::Start, (MARGIN, y), &figures);
    y
}

/// How a point is read that the chart's calls can meet.
fn sample_point(chart: &Chart) -> String {
    let number = match chart.call_kinds[..] {
        [CallKind::Terminating] => 17,
        _ => 9,
    };
    format!("{number}/2 is detection point {number} of leg 2.")
}

fn sample_arrow(svg: &mut Svg, form: Form, (x, y): Spot) {
    draw_shaft(svg, form, x - 28, x + 28, y, None);
    draw_point(svg, form, x + 28, y, 1);
}
