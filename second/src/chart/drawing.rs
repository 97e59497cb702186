//! One ladder, drawn.

use super::ladder::{Arrow, Charge, Form, Ladder, Note, Party, Row, Run};
use super::layout::{
    box_height, place_rows, Columns, LabelLine, Placed, TextBox, HEAD_HEIGHT, HEAD_WIDTH,
    HOLD_HALF, LABEL_MARGIN, LINE, MARGIN, STRIP_DISTANCE, STRIP_WIDTH, STRIP_WORDS,
};
use super::signs::{
    draw_badge, draw_break, draw_hold, draw_loop, draw_point, draw_shaft, draw_strip,
    relationship_line,
};
use super::svg::{Anchor, Font, Svg};
use super::svg::{
    BADGE, CHARGE, CHARGE_NAME, COMMENT, DETAIL, DIFFERS, DIFFERS_BOX, HEADING, NAME, OVER,
    PALE_DETAIL, PALE_NAME, PARTY, REFUSED, ROLE, SMALL, TIME,
};
use super::words;
use crate::paper::forms::{Leg, Tenths};
use crate::paper::record::Relationship;

/// Says where it ends.
pub fn draw_ladder(svg: &mut Svg, columns: &Columns, ladder: &Ladder, top: i32) -> i32 {
    let y = top + 24;
    svg.text(&HEADING, Anchor::Start, (MARGIN, y), &ladder.title);
    let heads = y + 10;
    let rows = place_rows(columns, &ladder.rows, heads + HEAD_HEIGHT + 4);
    let bottom = rows.last().map_or(heads, |row| row.bottom) + 8;
    let drawing = Drawing {
        columns,
        ladder,
        rows: &rows,
        top: heads + HEAD_HEIGHT,
        bottom,
    };
    drawing.draw_bands(svg);
    drawing.draw_lifelines(svg);
    drawing.draw_holds(svg);
    drawing.draw_charges(svg);
    drawing.draw_heads(svg, heads);
    for (row, placed) in ladder.rows.iter().zip(&rows) {
        drawing.draw_row(svg, row, placed);
    }
    bottom
}

/// One ladder with its places.
struct Drawing<'a> {
    columns: &'a Columns,
    ladder: &'a Ladder,
    rows: &'a [Placed],
    /// The ends of the lifelines.
    top: i32,
    bottom: i32,
}

impl Drawing<'_> {
    fn x(&self, party: Party) -> i32 {
        self.columns.of_party(party)
    }

    /// From the item of one row to that of another, or to the end.
    fn span(&self, from: usize, to: Option<usize>) -> (i32, i32) {
        let item = |row: usize| self.rows[row].item();
        (item(from), to.map_or(self.bottom, item))
    }

    fn extent<T>(&self, run: &Run<T>) -> (i32, i32) {
        self.span(run.from, run.to)
    }

    fn charge_extent(&self, charge: &Charge) -> (i32, i32) {
        self.span(charge.granted, charge.ended)
    }

    /// By the badges that name a relationship.
    fn badge_extent(&self, run: &Run<Relationship>) -> (i32, i32) {
        let badge = |row: usize| self.rows[row].badges;
        (badge(run.from), run.to.map_or(self.bottom, badge))
    }

    /// Every second row has a ground, so that the eye keeps the row.
    fn draw_bands(&self, svg: &mut Svg) {
        let left = MARGIN - 8;
        for row in self.rows.iter().skip(1).step_by(2) {
            let size = (self.columns.width - 2 * left, row.bottom - row.top);
            svg.rect("band", (left, row.top), size, 4);
        }
    }

    fn draw_heads(&self, svg: &mut Svg, top: i32) {
        for party in Party::ALL {
            let x = self.x(party);
            let size = (HEAD_WIDTH, HEAD_HEIGHT);
            svg.rect("head", (x - HEAD_WIDTH / 2, top), size, 6);
            svg.text(&PARTY, Anchor::Middle, (x, top + 18), party.name());
            svg.text(&ROLE, Anchor::Middle, (x, top + 34), party.role());
        }
        let time = self.columns.time;
        svg.text(&SMALL, Anchor::Start, (MARGIN, top + 18), "item");
        svg.text(&SMALL, Anchor::End, (time, top + 18), "tenths");
        svg.text(&SMALL, Anchor::End, (time, top + 34), "h:min:s");
    }

    fn draw_lifelines(&self, svg: &mut Svg) {
        let Ladder { open, legs, .. } = self.ladder;
        let lines = [
            (Party::Caller, &legs[0]),
            (Party::Switch, open),
            (Party::Called, &legs[1]),
        ];
        for (party, runs) in lines {
            let extents = runs.iter().map(|run| (self.extent(run), "line"));
            self.draw_lifeline(svg, party, extents);
        }
        let relationships = self.ladder.relationships.iter();
        let extents =
            relationships.map(|run| (self.badge_extent(run), relationship_line(run.value)));
        self.draw_lifeline(svg, Party::ServiceNode, extents);
    }

    /// Where nothing is said of a lifeline, it is dotted.
    fn draw_lifeline(
        &self,
        svg: &mut Svg,
        party: Party,
        extents: impl Iterator<Item = ((i32, i32), &'static str)>,
    ) {
        let x = self.x(party);
        let mut y = self.top;
        for ((from, to), class) in extents {
            svg.line("absent", (x, y), (x, from));
            svg.line(class, (x, from), (x, to));
            y = to;
        }
        if y < self.bottom {
            svg.line("absent", (x, y), (x, self.bottom));
        }
    }

    fn draw_holds(&self, svg: &mut Svg) {
        let x = self.x(Party::Switch);
        for run in &self.ladder.holds {
            let (from, to) = self.extent(run);
            draw_hold(svg, x, from, to);
            let spot = (x - HOLD_HALF - 6, self.rows[run.from].answer() + 4);
            svg.text(&BADGE, Anchor::End, spot, &words::hold(run.value));
        }
    }

    /// The last hold that has begun by there, since one follows another.
    fn is_held_at(&self, y: i32) -> bool {
        let holds = &self.ladder.holds;
        let begun = holds.partition_point(|run| self.extent(run).0 <= y);
        let last = holds[..begun].last();
        last.is_some_and(|run| y <= self.extent(run).1)
    }

    fn draw_charges(&self, svg: &mut Svg) {
        for charge in &self.ladder.charges {
            let (grant, end) = self.charge_extent(charge);
            let start = charge.started.map_or(end, |row| self.rows[row].item());
            let left = self.strip_left(charge.leg);
            draw_strip(svg, "granted", left, grant, start);
            draw_strip(svg, "running", left, start, end);
            for note in charge.notes() {
                self.draw_note(svg, charge.leg, &note);
            }
        }
    }

    fn strip_left(&self, leg: Leg) -> i32 {
        let x = self.x(Party::of_leg(leg));
        match leg {
            Leg::One => x - STRIP_DISTANCE - STRIP_WIDTH,
            Leg::Two => x + STRIP_DISTANCE,
        }
    }

    fn draw_note(&self, svg: &mut Svg, leg: Leg, note: &Note) {
        let left = self.strip_left(leg);
        let (anchor, x) = match leg {
            Leg::One => (Anchor::End, left - 6),
            Leg::Two => (Anchor::Start, left + STRIP_WIDTH + 6),
        };
        let mut y = self.rows[note.row].item() + 4;
        svg.text(&CHARGE_NAME, anchor, (x, y), &note.name);
        for line in CHARGE.wrap(&note.detail, STRIP_WORDS) {
            y += LINE - 2;
            svg.text(&CHARGE, anchor, (x, y), &line);
        }
    }

    fn draw_row(&self, svg: &mut Svg, row: &Row, placed: &Placed) {
        if let (Some(length), Some(y)) = (row.pause, placed.pause) {
            self.draw_pause(svg, length, y);
        }
        if let Some(comment) = &placed.comment {
            self.draw_box(svg, "comment-box", &COMMENT, comment);
        }
        self.draw_time(svg, row, placed.item());
        for (arrow, (y, lines)) in row.arrows.iter().zip(&placed.arrows) {
            self.draw_arrow(svg, arrow, *y);
            self.draw_label(svg, arrow, *y, lines);
        }
        self.draw_refusal(svg, &row.arrows[0], &placed.refusal);
        if row.over {
            self.draw_over(svg, placed.badges);
        }
        if let Some(relationship) = row.relationship {
            let spot = (self.x(Party::ServiceNode), placed.badges);
            let text = words::relationship(relationship);
            draw_badge(svg, "badge-box", &BADGE, spot, text);
        }
        if let Some(expected) = &placed.expected {
            self.draw_box(svg, DIFFERS_BOX, &DIFFERS, expected);
        }
    }

    fn draw_time(&self, svg: &mut Svg, row: &Row, y: i32) {
        let time = self.columns.time;
        let number = row.number.to_string();
        svg.text(&SMALL, Anchor::Start, (MARGIN, y + 4), &number);
        svg.text(&TIME, Anchor::End, (time, y + 4), &row.time.0.to_string());
        let clock = words::clock(row.time);
        svg.text(&SMALL, Anchor::End, (time, y + LINE + 2), &clock);
    }

    /// A break in everything that runs down; a strip and the lifeline beside it
    /// have one together.
    fn draw_pause(&self, svg: &mut Svg, length: Tenths, y: i32) {
        const HALF: i32 = 12;
        let [caller, switch, service_node, called] = self.columns.parties;
        let [beside_caller, beside_called] =
            Leg::BOTH.map(|leg| match self.is_charged_at(leg, y) {
                true => STRIP_DISTANCE + STRIP_WIDTH,
                false => 0,
            });
        for (left, right) in [
            (caller - beside_caller, caller),
            (switch, switch),
            (service_node, service_node),
            (called, called + beside_called),
        ] {
            draw_break(svg, left - HALF, right + HALF, y);
        }
        let text = words::pause(length);
        svg.text(&SMALL, Anchor::Start, (MARGIN, y + 4), &text);
    }

    fn is_charged_at(&self, leg: Leg, y: i32) -> bool {
        let covers = |charge: &Charge| {
            let (from, to) = self.charge_extent(charge);
            charge.leg == leg && (from..=to).contains(&y)
        };
        self.ladder.charges.iter().any(covers)
    }

    fn draw_box(&self, svg: &mut Svg, class: &str, font: &Font, (top, lines): &TextBox) {
        let left = self.x(Party::Caller) + 14;
        let widths = lines.iter().map(|line| font.width(line));
        let size = (widths.max().unwrap_or(0) + 24, box_height(lines));
        svg.rect(class, (left, *top), size, 4);
        for (place, line) in lines.iter().enumerate() {
            let y = top + 19 + LINE * place as i32;
            svg.text(font, Anchor::Start, (left + 12, y), line);
        }
    }

    fn draw_label(&self, svg: &mut Svg, arrow: &Arrow, y: i32, lines: &[LabelLine]) {
        let (left, right) = self.columns.label_room(arrow);
        let own = arrow.from == arrow.to;
        let (anchor, x) = match own {
            true => (Anchor::Start, left),
            false => (Anchor::Middle, (left + right) / 2),
        };
        let [name_font, detail_font] = match arrow.form {
            Form::Refused => [&PALE_NAME, &PALE_DETAIL],
            Form::Full | Form::Notification => [&NAME, &DETAIL],
        };
        for (place, (name, detail)) in lines.iter().rev().enumerate() {
            let y = y - 6 - LINE * place as i32;
            let parts = [(name_font, name.as_str()), (detail_font, detail.as_str())];
            svg.texts(anchor, (x, y), &parts);
        }
    }

    fn draw_arrow(&self, svg: &mut Svg, arrow: &Arrow, y: i32) {
        let edge = |party: Party| match party {
            Party::Switch if self.is_held_at(y) => HOLD_HALF,
            Party::ServiceNode => 3,
            _ => 1,
        };
        let (from, to) = (self.x(arrow.from), self.x(arrow.to));
        if arrow.from == arrow.to {
            return draw_loop(svg, arrow.form, from + edge(arrow.from), y);
        }
        let way = (to - from).signum();
        let start = from + way * edge(arrow.from);
        let end = to - way * edge(arrow.to);
        let bridge = self.x(Party::ServiceNode);
        let passes = (from - bridge).signum() * (to - bridge).signum() < 0;
        draw_shaft(svg, arrow.form, start, end, y, passes.then_some(bridge));
        draw_point(svg, arrow.form, end, y, way);
    }

    /// Beside the switch, on the side where the item comes from.
    fn draw_refusal(&self, svg: &mut Svg, item: &Arrow, (top, lines): &(i32, Vec<String>)) {
        let x = self.x(Party::Switch);
        let (anchor, x) = match item.from {
            Party::Caller => (Anchor::End, x - LABEL_MARGIN),
            _ => (Anchor::Start, x + LABEL_MARGIN),
        };
        for (place, line) in lines.iter().enumerate() {
            let y = top + LINE * place as i32;
            svg.text(&REFUSED, anchor, (x, y), line);
        }
    }

    fn draw_over(&self, svg: &mut Svg, y: i32) {
        let [caller, switch, .., called] = self.columns.parties;
        svg.line("end", (caller, y), (called, y));
        draw_badge(svg, "over-box", &OVER, (switch, y), "call over");
    }
}
