//! The signs of a ladder, each in one place for the ladders and the legend.

use super::ladder::Form;
use super::layout::{BADGE_HEIGHT, HOLD_HALF, LOOP_WIDTH, STRIP_WIDTH};
use super::svg::{Anchor, Font, Spot, Svg};
use crate::paper::record::Relationship;

/// The service node's lifeline tells what it is entitled to.
pub fn relationship_line(relationship: Relationship) -> &'static str {
    match relationship {
        Relationship::None => "absent",
        Relationship::Monitor => "thin",
        Relationship::Control => "thick",
    }
}

pub fn draw_hold(svg: &mut Svg, x: i32, from: i32, to: i32) {
    let size = (2 * HOLD_HALF, to - from);
    svg.rect("hold", (x - HOLD_HALF, from), size, 0);
}

pub fn draw_strip(svg: &mut Svg, class: &str, left: i32, from: i32, to: i32) {
    if from < to {
        svg.rect(class, (left, from), (STRIP_WIDTH, to - from), 0);
    }
}

pub fn draw_break(svg: &mut Svg, left: i32, right: i32, y: i32) {
    let width = right - left;
    let slant = format!("l{width} -6v8l-{width} 6z");
    svg.path("gap", (left, y - 1), &slant);
    svg.path("mark", (left, y - 1), &format!("l{width} -6"));
    svg.path("mark", (left, y + 7), &format!("l{width} -6"));
}

pub fn draw_badge(svg: &mut Svg, class: &str, font: &Font, (x, y): Spot, text: &str) {
    let width = font.width(text) + 16;
    let size = (width, BADGE_HEIGHT);
    let corner = (x - width / 2, y - BADGE_HEIGHT / 2);
    svg.rect(class, corner, size, BADGE_HEIGHT / 2);
    svg.text(font, Anchor::Middle, (x, y + 4), text);
}

fn shaft_class(form: Form) -> &'static str {
    match form {
        Form::Full | Form::Notification => "arrow",
        Form::Refused => "arrow dashed",
    }
}

/// The line of an arrow, with a bridge over a lifeline that it only passes.
pub fn draw_shaft(svg: &mut Svg, form: Form, start: i32, end: i32, y: i32, bridge: Option<i32>) {
    const RADIUS: i32 = 8;
    let way = (end - start).signum();
    let over = bridge.map_or(String::new(), |x| {
        let (near, across) = (x - way * RADIUS, way * 2 * RADIUS);
        let sweep = i32::from(way > 0);
        format!("H{near}a{RADIUS} {RADIUS} 0 0 {sweep} {across} 0")
    });
    svg.path(shaft_class(form), (start, y), &format!("{over}H{end}"));
}

/// What an arrow ends with; `way` is 1 to the right and -1 to the left.
pub fn draw_point(svg: &mut Svg, form: Form, x: i32, y: i32, way: i32) {
    let back = -10 * way;
    let triangle = format!("l{back} -5v10z");
    match form {
        Form::Full => svg.path("point", (x, y), &triangle),
        Form::Notification => svg.path("open", (x, y), &triangle),
        Form::Refused => {
            let x = x - 9 * way;
            svg.path("cross", (x - 5, y - 5), "l10 10");
            svg.path("cross", (x - 5, y + 5), "l10 -10");
        }
    }
}

/// What the switch's own clock says comes back to the switch.
pub fn draw_loop(svg: &mut Svg, form: Form, x: i32, y: i32) {
    let steps = format!("h{LOOP_WIDTH}v14H{x}");
    svg.path(shaft_class(form), (x, y - 14), &steps);
    draw_point(svg, form, x, y, -1);
}
