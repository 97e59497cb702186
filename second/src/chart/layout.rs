//! Where everything stands on the page.
//!
//! Time runs down, and is not to scale: a row has as much room as its labels
//! take.

use super::ladder::{Arrow, Chart, Party, Row};
use super::svg::{Font, COMMENT, DETAIL, DIFFERS, NAME, REFUSED, SMALL, SPACE, TIME};
use super::words::{self, Label};
use crate::paper::forms::Leg;

pub const MARGIN: i32 = 20;
/// From one line of a label to the next.
pub const LINE: i32 = 16;
/// The gaps between the lifelines, from left to right.
const GAPS: [i32; 3] = [194, 290, 190];
/// A label keeps off the lifelines.
pub const LABEL_MARGIN: i32 = 12;
/// Outside of an outer lifeline: half a head, or a charge's strip and its words.
const OUTER: i32 = 76;
const OUTER_WITH_STRIP: i32 = 146;
pub const STRIP_WIDTH: i32 = 12;
pub const STRIP_DISTANCE: i32 = 12;
/// The room for the words beside it.
pub const STRIP_WORDS: i32 = 120;
pub const HOLD_HALF: i32 = 7;
pub const LOOP_WIDTH: i32 = 30;
pub const HEAD_WIDTH: i32 = 132;
pub const HEAD_HEIGHT: i32 = 42;
pub const BADGE_HEIGHT: i32 = 20;
const PAUSE_HEIGHT: i32 = 30;
/// Between the parts of a row.
const PAD: i32 = 6;
/// A label with more lines than this is cut.
const LABEL_LINES: usize = 14;

/// The places from left to right; the same for all the ladders of a page.
pub struct Columns {
    /// Where the times end.
    pub time: i32,
    pub parties: [i32; 4],
    pub width: i32,
}

impl Columns {
    pub fn of(chart: &Chart) -> Columns {
        let rows = || chart.ladders.iter().flat_map(|ladder| &ladder.rows);
        let number = |row: &Row| TIME.width(&row.number.to_string());
        let time = |row: &Row| {
            let clock = SMALL.width(&words::clock(row.time));
            clock.max(TIME.width(&row.time.0.to_string()))
        };
        let numbers = rows().map(number).fold(SMALL.width("item"), i32::max);
        let times = rows().map(time).fold(SMALL.width("h:min:s"), i32::max);
        let time = MARGIN + numbers + 12 + times;
        let [left, right] = Leg::BOTH.map(|leg| outer(chart, leg));
        // A pause is named beside everything that it breaks.
        let pause = |row: &Row| Some(SMALL.width(&words::pause(row.pause?)));
        let pauses = rows().filter_map(pause).fold(0, i32::max);
        let caller = (time + 14 + left).max(MARGIN + pauses + 48);
        let [first, second, third] = GAPS;
        let switch = caller + first;
        let service_node = switch + second;
        let called = service_node + third;
        Columns {
            time,
            parties: [caller, switch, service_node, called],
            width: called + right + MARGIN,
        }
    }

    pub fn of_party(&self, party: Party) -> i32 {
        self.parties[party as usize]
    }

    /// Where an arrow's label may stand. One that passes the service node has
    /// it at the side where it comes from.
    pub fn label_room(&self, arrow: &Arrow) -> (i32, i32) {
        let [caller, switch, service_node, called] = self.parties;
        let (left, right) = match (arrow.from, arrow.to) {
            (Party::Caller, _) => (caller, switch),
            (Party::Called, _) => (service_node, called),
            (from, to) if from == to => (switch + LOOP_WIDTH, service_node),
            _ => (switch, service_node),
        };
        (left + LABEL_MARGIN, right - LABEL_MARGIN)
    }
}

/// The room outside of the lifeline of a leg's party.
fn outer(chart: &Chart, leg: Leg) -> i32 {
    let mut charges = chart.ladders.iter().flat_map(|ladder| &ladder.charges);
    match charges.any(|charge| charge.leg == leg) {
        true => OUTER_WITH_STRIP,
        false => OUTER,
    }
}

/// A line of a label: its name, and what says more, of which one may be empty.
pub type LabelLine = (String, String);

/// A box with text across the lifelines: its top and its lines.
pub type TextBox = (i32, Vec<String>);

/// The heights of a row's parts.
pub struct Placed {
    pub pause: Option<i32>,
    pub comment: Option<TextBox>,
    /// The top of what belongs to the item.
    pub top: i32,
    pub arrows: Vec<(i32, Vec<LabelLine>)>,
    /// The refusal in lines, and where the first stands.
    pub refusal: (i32, Vec<String>),
    /// Where the badges stand: the relationship, and that the call is over.
    pub badges: i32,
    /// What the text expects instead.
    pub expected: Option<TextBox>,
    pub bottom: i32,
}

impl Placed {
    /// The height of the item itself: things begin and end there.
    pub fn item(&self) -> i32 {
        self.arrows[0].0
    }

    /// The height of the first thing that the answer says.
    pub fn answer(&self) -> i32 {
        self.arrows.get(1).map_or(self.item(), |(y, _)| *y)
    }
}

pub fn place_rows(columns: &Columns, rows: &[Row], top: i32) -> Vec<Placed> {
    let mut y = top;
    let mut places = Vec::new();
    for row in rows {
        let placed = place_row(columns, row, y);
        y = placed.bottom;
        places.push(placed);
    }
    places
}

fn place_row(columns: &Columns, row: &Row, top: i32) -> Placed {
    let mut y = top;
    let pause = row.pause.map(|_| {
        y += PAUSE_HEIGHT;
        y - PAUSE_HEIGHT / 2
    });
    let comment = row.comment.as_ref();
    let comment = comment.map(|text| place_box(columns, &COMMENT, text, &mut y));
    let row_top = y;
    let mut arrows = Vec::new();
    for arrow in &row.arrows {
        let (left, right) = columns.label_room(arrow);
        let lines = label_lines(&arrow.label, right - left);
        y += PAD + LINE * lines.len() as i32 + PAD;
        arrows.push((y, lines));
    }
    let refusal = refusal_lines(row);
    let refusal_top = y + LINE + 2;
    y += LINE * refusal.len() as i32;
    if row.relationship.is_some() || row.over {
        y += PAD + 2 + BADGE_HEIGHT;
    }
    let badges = y - BADGE_HEIGHT / 2;
    let expected = row.expected.as_deref().map(words::expected);
    let expected = expected.map(|text| {
        y += PAD;
        place_box(columns, &DIFFERS, &text, &mut y)
    });
    // At the item stand two lines of time, and as many of a charge.
    let bottom = (y + PAD + 4).max(arrows[0].0 + 2 * LINE - 4);
    Placed {
        pause,
        comment,
        top: row_top,
        arrows,
        refusal: (refusal_top, refusal),
        badges,
        expected,
        bottom,
    }
}

/// A box from `y` on, which then is where the box ends.
fn place_box(columns: &Columns, font: &Font, text: &str, y: &mut i32) -> TextBox {
    let lines = font.wrap(text, box_width(columns) - 24);
    let top = *y + PAD;
    *y = top + box_height(&lines) + PAD;
    (top, lines)
}

/// A refusal stands between the switch and its neighbour on the item's side.
fn refusal_lines(row: &Row) -> Vec<String> {
    let [left, right, _] = GAPS;
    let gap = match row.arrows[0].from {
        Party::Caller => left,
        _ => right,
    };
    let text = row.refusal.map(words::refusal).unwrap_or_default();
    REFUSED.wrap(&text, gap - LABEL_MARGIN - PAD)
}

fn box_width(columns: &Columns) -> i32 {
    let [caller, .., called] = columns.parties;
    called - caller - 28
}

pub fn box_height(lines: &[String]) -> i32 {
    12 + LINE * lines.len() as i32
}

/// The name, and beside it the first detail if there is room; the other details
/// below.
fn label_lines(label: &Label, width: i32) -> Vec<LabelLine> {
    let mut details = label.details.as_slice();
    let mut first = (label.name.clone(), String::new());
    if let [detail, rest @ ..] = details {
        if NAME.width(&label.name) + SPACE + DETAIL.width(detail) <= width {
            first.1 = detail.clone();
            details = rest;
        }
    }
    let mut lines = vec![first];
    let wrapped = details.iter().flat_map(|detail| DETAIL.wrap(detail, width));
    lines.extend(wrapped.map(|line| (String::new(), line)));
    if lines.len() > LABEL_LINES {
        lines.truncate(LABEL_LINES - 1);
        lines.push((String::new(), "...".to_string()));
    }
    lines
}
