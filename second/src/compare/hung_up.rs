//! The called party hangs up while the call is held: what has to come up of it,
//! in scenarios and in tables.
//!
//! Document 02, T-05.

use crate::compare::counts::Counts;
use crate::compare::coverage::{mode_name, of_kind, pair, refusal_form, MODES};
use crate::paper::answer::{Answer, Refusal};
use crate::paper::forms::{CallKind, Event, Leg, Other};
use crate::paper::record::{Hold, Mode, Part, Point, Record, Stage};

/// Where a run can hold an active call that has its leg 2, and where only a table
/// can.
pub const HELD_IN_RUNS: &[Hold] = &[
    Hold::At(Part::Answer),
    Hold::At(Part::MidCall),
    Hold::At(Part::Disconnect1),
];
pub const HELD_IN_TABLES: &[Hold] = &[Hold::Trigger];

/// Accepted in every mode, with leg 1 and without it; leaving the call held at
/// each of these points; and refused for every stage and leg that 12 is for.
pub fn wanted(call_kind: CallKind, holds: &[Hold]) -> Vec<String> {
    let presences = [true, false];
    let met = MODES
        .into_iter()
        .flat_map(|mode| presences.map(|leg_1| met_form(call_kind, mode, leg_1)));
    let points = holds.iter().filter_map(|hold| hold.point(call_kind));
    let stays = points.map(|point| stays_form(call_kind, point));
    let not_possible = Stage::ALL
        .into_iter()
        .flat_map(|stage| presences.map(|leg_2| (stage, leg_2)))
        .filter(|place| *place != (Stage::Active, true))
        .map(|(stage, leg_2)| not_possible_form(call_kind, stage, leg_2));
    met.chain(stays).chain(not_possible).collect()
}

/// Counts an item for an open call, if it is such a Clear.
pub fn count(counts: &mut Counts, before: &Record, item: &Other, answer: &Answer) {
    let Other::Event(Event::Clear { leg: Leg::Two, .. }) = item else {
        return;
    };
    let Some(hold) = before.hold_point() else {
        return;
    };
    let call_kind = before.call_kind;
    match answer {
        Ok(_) => {
            let mode = before.armings.get(Part::Disconnect2);
            counts.count(met_form(call_kind, mode, before.is_present(Leg::One)));
            if mode != Some(Mode::Interrupted) {
                counts.count(stays_form(call_kind, hold));
            }
        }
        Err(Refusal::NotPossible) => {
            let leg_2 = before.is_present(Leg::Two);
            counts.count(not_possible_form(call_kind, before.stage, leg_2));
        }
        Err(_) => {}
    }
}

fn met_form(call_kind: CallKind, mode: Option<Mode>, leg_1: bool) -> String {
    let form = format!("hung up {}, {}", mode_name(mode), leg_form(Leg::One, leg_1));
    of_kind(call_kind, &form)
}

fn stays_form(call_kind: CallKind, hold: Point) -> String {
    of_kind(call_kind, &format!("hung up, stays held at {}", pair(hold)))
}

fn not_possible_form(call_kind: CallKind, stage: Stage, leg_2: bool) -> String {
    let refused = refusal_form(Refusal::NotPossible as u8);
    let leg_2 = leg_form(Leg::Two, leg_2);
    of_kind(call_kind, &format!("hung up {stage:?}, {leg_2}, {refused}"))
}

fn leg_form(leg: Leg, present: bool) -> String {
    let presence = if present { "present" } else { "absent" };
    format!("leg {} {presence}", leg.number())
}
