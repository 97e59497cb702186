//! Which forms of document 01 the generated scenarios reach, counted from this
//! program's own answers.

use crate::compare::counts::{self, Counts};
use crate::compare::{generate, hung_up};
use crate::paper::answer::{Accepted, Answer, Refusal};
use crate::paper::call::{occurs_at, part_met};
use crate::paper::forms::{
    kind, read_item, read_profile, Body, CallKind, Event, Operation, Other, Profile, Setup,
};
use crate::paper::listing::frames;
use crate::paper::record::{Mode, Part, Point, Record, Relationship, Stage};
use crate::paper::table::{self, Entry};
use crate::paper::trigger::triggers;
use crate::texts;
use std::ops::Range;

pub const MODES: [Option<Mode>; 3] = [None, Some(Mode::Interrupted), Some(Mode::Notify)];
const OPERATIONS: [&str; 7] = [
    "request-report",
    "continue",
    "connect",
    "release",
    "apply-charging",
    "activity-test",
    "abort",
];

/// Counts what the scenarios of these seeds reach; true if that is every form.
pub fn run(seeds: Range<u64>) -> Result<bool, String> {
    let count = seeds.end - seeds.start;
    let mut counts = Counts::new(wanted());
    let mut items = 0;
    for seed in seeds {
        items += count_scenario(&mut counts, &generate::scenario(seed));
    }
    let missing = counts.print()?;
    counts::conclude(&format!("{count} scenarios, {items} items"), missing)
}

/// The forms that have to be reached, in groups, by the rules of document 01,
/// and T-04 and T-05 of document 02.
pub fn wanted() -> Vec<(&'static str, Vec<String>)> {
    let of_both = |forms: fn(CallKind) -> Vec<String>| {
        let forms = CallKind::BOTH.into_iter().flat_map(forms);
        forms.collect::<Vec<String>>()
    };
    let mut refusals: Vec<String> = [1, 2, 4].map(refusal_form).to_vec();
    refusals.push(malformed_form(kind::TERMINATING_SETUP));
    refusals.extend(of_both(wanted_refusals));
    vec![
        ("refusals", refusals),
        ("Setups", of_both(wanted_setups)),
        ("other kind's pairs, refused 11", of_both(wanted_pairs)),
        ("reports", of_both(wanted_reports)),
        ("further", of_both(wanted_further)),
        ("tables", [FULL, MIXED].map(String::from).to_vec()),
        (
            "relationship and point of suspension",
            of_both(wanted_holds),
        ),
        ("events by point, mode and stage", of_both(wanted_events)),
        ("Clear of leg 2 while held", of_both(wanted_hung_up)),
        ("operations by stage", of_both(wanted_operations)),
    ]
}

/// Of the refusals for an open call, and for room.
fn wanted_refusals(call_kind: CallKind) -> Vec<String> {
    let for_setup = CallKind::BOTH.map(|setup| already_open_form(setup, call_kind));
    let for_open = (7..=14).map(|number| of_kind(call_kind, &refusal_form(number)));
    let for_room = of_kind(call_kind, &refusal_form(6));
    let forms = for_setup.into_iter().chain([for_room]).chain(for_open);
    let route_failures = match call_kind.point(Part::RouteFailure) {
        Some(_) => vec![],
        None => Stage::ALL.map(out_of_place_form).to_vec(),
    };
    forms.chain(route_failures).collect()
}

fn wanted_setups(call_kind: CallKind) -> Vec<String> {
    let forms = [true, false].map(|triggered| setup_form(call_kind, triggered));
    let by_services_alone = match call_kind {
        CallKind::Originating => None,
        CallKind::Terminating => Some(BY_SERVICES_ALONE.to_string()),
    };
    forms.into_iter().chain(by_services_alone).collect()
}

fn wanted_pairs(call_kind: CallKind) -> Vec<String> {
    let others = CallKind::BOTH.into_iter().filter(|kind| *kind != call_kind);
    let points = others.flat_map(|other| Part::ALL.map(|part| other.point(part)));
    let points = points.flatten();
    points
        .map(|point| other_pair_form(call_kind, point))
        .collect()
}

fn wanted_reports(call_kind: CallKind) -> Vec<String> {
    let mut forms = vec![report_form(call_kind.trigger(), Mode::Interrupted)];
    for (part, point) in points(call_kind) {
        let modes = Mode::BOTH.into_iter().filter(|mode| part.takes(*mode));
        forms.extend(modes.map(|mode| report_form(point, mode)));
    }
    forms
}

fn wanted_further(call_kind: CallKind) -> Vec<String> {
    let forms = ["c1", "c2", "event c1 c2", "deadline", "over"];
    forms.map(|form| of_kind(call_kind, form)).to_vec()
}

fn wanted_holds(call_kind: CallKind) -> Vec<String> {
    let form = |relationship, hold| relationship_form(call_kind, relationship, hold);
    let mut forms = vec![
        form(Relationship::None, None),
        form(Relationship::Monitor, None),
        form(Relationship::Control, None),
        form(Relationship::Control, Some(call_kind.trigger())),
    ];
    for (part, point) in points(call_kind) {
        if part.takes(Mode::Interrupted) {
            forms.push(form(Relationship::Control, Some(point)));
        }
    }
    forms
}

fn wanted_events(call_kind: CallKind) -> Vec<String> {
    let mut forms = Vec::new();
    for (part, point) in points(call_kind) {
        let taken = |mode: &Option<Mode>| mode.is_none_or(|mode| part.takes(mode));
        for mode in MODES.into_iter().filter(taken) {
            for stage in Stage::ALL
                .into_iter()
                .filter(|stage| occurs_at(*stage, part))
            {
                forms.push(event_form(point, mode, stage, false));
                // While held, only a Clear is accepted; that of leg 2 is counted by
                // itself.
                if matches!(part, Part::Abandon | Part::Disconnect1) {
                    forms.push(event_form(point, mode, stage, true));
                }
            }
        }
    }
    forms
}

fn wanted_hung_up(call_kind: CallKind) -> Vec<String> {
    hung_up::wanted(call_kind, hung_up::HELD_IN_RUNS)
}

fn wanted_operations(call_kind: CallKind) -> Vec<String> {
    let of_stages = |name| Stage::ALL.map(|stage| operation_form(call_kind, name, stage));
    OPERATIONS.into_iter().flat_map(of_stages).collect()
}

/// The armable points of a kind of call, with their parts.
fn points(call_kind: CallKind) -> impl Iterator<Item = (Part, Point)> {
    let with_point = move |part| Some((part, call_kind.point(part)?));
    Part::ALL.into_iter().filter_map(with_point)
}

/// The table has no free slot; calls of both kinds are open.
const FULL: &str = "64 open";
const MIXED: &str = "both kinds open";

/// A terminating call that would not be triggered as an originating one.
const BY_SERVICES_ALONE: &str = "terminating triggered by services alone";

fn kind_name(call_kind: CallKind) -> &'static str {
    match call_kind {
        CallKind::Originating => "originating",
        CallKind::Terminating => "terminating",
    }
}

pub fn of_kind(call_kind: CallKind, form: &str) -> String {
    format!("{} {form}", kind_name(call_kind))
}

pub fn refusal_form(number: u8) -> String {
    format!("refused {number}")
}

fn malformed_form(kind: u8) -> String {
    format!("kind {kind} refused 1")
}

fn already_open_form(setup: CallKind, open: CallKind) -> String {
    let (setup, open) = (kind_name(setup), kind_name(open));
    format!("{setup} Setup for open {open} refused 5")
}

/// Route failure for a terminating call that is not held.
fn out_of_place_form(stage: Stage) -> String {
    format!("terminating Route failure {stage:?} refused 12")
}

fn setup_form(call_kind: CallKind, triggered: bool) -> String {
    let triggered = if triggered {
        "triggered"
    } else {
        "not triggered"
    };
    of_kind(call_kind, triggered)
}

fn other_pair_form(call_kind: CallKind, point: Point) -> String {
    of_kind(call_kind, &format!("names {}", pair(point)))
}

pub fn pair(point: Point) -> String {
    format!("{}/{}", point.number, point.leg.number())
}

fn report_form(point: Point, mode: Mode) -> String {
    format!("{}{}", char::from(mode.mark()), pair(point))
}

/// A point says itself which kind of call has it.
fn relationship_form(
    call_kind: CallKind,
    relationship: Relationship,
    hold: Option<Point>,
) -> String {
    match hold {
        Some(point) => format!("{relationship:?} {}", pair(point)),
        None => of_kind(call_kind, &format!("{relationship:?} -")),
    }
}

fn event_form(point: Point, mode: Option<Mode>, stage: Stage, held: bool) -> String {
    let held = if held { " held" } else { "" };
    format!("{} {} {stage:?}{held}", pair(point), mode_name(mode))
}

pub fn mode_name(mode: Option<Mode>) -> String {
    mode.map_or("unarmed".to_string(), |mode| format!("{mode:?}"))
}

fn operation_form(call_kind: CallKind, name: &str, stage: Stage) -> String {
    of_kind(call_kind, &format!("{name} {stage:?}"))
}

/// Counts what a scenario reaches, and gives the number of its items.
pub fn count_scenario(counts: &mut Counts, scenario: &[u8]) -> usize {
    let frames = frames(scenario);
    let Some((profile_bytes, items)) = frames.split_first() else {
        return 0;
    };
    let Some(profile) = read_profile(profile_bytes) else {
        counts.count(refusal_form(2));
        return 0;
    };
    let mut table = table::fresh();
    for bytes in items {
        let Some(item) = read_item(bytes) else {
            count_malformed(counts, bytes);
            continue;
        };
        let owned = table.iter().find(|entry| entry.owner == Some(item.call));
        let before = owned.map(|entry| entry.record);
        let answer = table::feed_sound(&mut table, bytes, profile_bytes);
        match (&item.body, before) {
            (Body::Setup(setup), before) => {
                count_setup(counts, setup, &profile, before.as_ref(), &answer)
            }
            (Body::Other(other), Some(before)) => count_item(counts, &before, other, &answer),
            (Body::Other(_), None) => counts.count(refusal_form(Refusal::CallNotOpen as u8)),
        }
        count_table(counts, &table);
    }
    items.len()
}

fn count_malformed(counts: &mut Counts, item: &[u8]) {
    counts.count(refusal_form(Refusal::ItemMalformed as u8));
    if let Some(kind) = item.get(3) {
        counts.count(malformed_form(*kind));
    }
}

fn count_table(counts: &mut Counts, table: &[Entry]) {
    if table.iter().all(|entry| entry.owner.is_some()) {
        counts.count(FULL.to_string());
    }
    let has_open = |kind: &CallKind| {
        let mut open = table.iter().filter(|entry| entry.owner.is_some());
        open.any(|entry| entry.record.call_kind == *kind)
    };
    if CallKind::BOTH.iter().all(has_open) {
        counts.count(MIXED.to_string());
    }
}

fn count_setup(
    counts: &mut Counts,
    setup: &Setup,
    profile: &Profile,
    before: Option<&Record>,
    answer: &Answer,
) {
    let call_kind = setup.call_kind;
    match (answer, before) {
        (Ok(answer), _) => {
            let triggered = answer.hold.is_some();
            counts.count(setup_form(call_kind, triggered));
            let as_originating = Setup {
                call_kind: CallKind::Originating,
                ..*setup
            };
            if triggered && !triggers(profile, &as_originating) {
                counts.count(BY_SERVICES_ALONE.to_string());
            }
            count_answer(counts, call_kind, answer);
        }
        (Err(_), Some(open)) => counts.count(already_open_form(call_kind, open.call_kind)),
        (Err(refusal), None) => {
            counts.count(of_kind(call_kind, &refusal_form(*refusal as u8)));
        }
    }
}

/// An item for an open call.
fn count_item(counts: &mut Counts, before: &Record, item: &Other, answer: &Answer) {
    let call_kind = before.call_kind;
    hung_up::count(counts, before, item, answer);
    match answer {
        Ok(answer) => {
            count_answer(counts, call_kind, answer);
            count_role(counts, before, item);
        }
        Err(refusal) => {
            counts.count(of_kind(call_kind, &refusal_form(*refusal as u8)));
            count_other_kind(counts, before, item, *refusal);
        }
    }
}

/// What is refused since it belongs to the other kind of call.
fn count_other_kind(counts: &mut Counts, before: &Record, item: &Other, refusal: Refusal) {
    let call_kind = before.call_kind;
    match (item, refusal) {
        (Other::Operation(Operation::RequestReport(entries)), Refusal::BadEntry) => {
            for entry in entries.iter() {
                let others = CallKind::BOTH.into_iter().filter(|kind| *kind != call_kind);
                let point = |kind: CallKind| kind.point(kind.part(entry.point, entry.leg)?);
                for point in others.filter_map(point) {
                    counts.count(other_pair_form(call_kind, point));
                }
            }
        }
        (Other::Event(Event::RouteFailure { .. }), Refusal::NotPossible)
            if call_kind == CallKind::Terminating =>
        {
            counts.count(out_of_place_form(before.stage));
        }
        _ => {}
    }
}

fn count_answer(counts: &mut Counts, call_kind: CallKind, answer: &Accepted) {
    let relationship = answer.relationship;
    counts.count(relationship_form(call_kind, relationship, answer.hold));
    if let Some((point, mode)) = answer.event_report {
        counts.count(report_form(point, mode));
    }
    let [charge_1, charge_2] = answer.charge_reports.map(|report| report.is_some());
    let forms = [
        (charge_1, "c1"),
        (charge_2, "c2"),
        (
            charge_1 && charge_2 && answer.event_report.is_some(),
            "event c1 c2",
        ),
        (answer.deadline.is_some(), "deadline"),
        (answer.over, "over"),
    ];
    for (_, form) in forms.into_iter().filter(|(reached, _)| *reached) {
        counts.count(of_kind(call_kind, form));
    }
}

/// Counts which point an event met, or which operation it was, and when.
fn count_role(counts: &mut Counts, before: &Record, item: &Other) {
    let stage = before.stage;
    match item {
        Other::Event(event) => {
            let part = part_met(event, stage);
            let mode = before.armings.get(part);
            if let Some(point) = before.call_kind.point(part) {
                counts.count(event_form(point, mode, stage, before.hold.is_some()));
            }
        }
        Other::Operation(operation) => {
            let name = texts::operation_name(operation);
            counts.count(operation_form(before.call_kind, name, stage));
        }
        Other::PeriodOver(_) => {}
    }
}
