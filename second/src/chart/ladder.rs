//! What is drawn: rows with arrows, and what lasts from one row to another. No
//! coordinates here.

use super::play::{End, Played, Step};
use super::words::{self, Label};
use crate::paper::answer::{Accepted, Refusal};
use crate::paper::forms::{kind, read_item, read_profile, Body, CallKind, Leg, Tenths};
use crate::paper::record::{Mode, Part, Point, Record, Relationship};
use crate::texts::Group;
use std::collections::BTreeSet;

/// More calls than this are not drawn.
pub const CALLS: usize = 16;

/// From so long on, a gap between two items is worth a mark.
const PAUSE: Tenths = Tenths(600);

pub struct Chart<'a> {
    pub title: &'a str,
    /// The profile in words, or that it is refused.
    pub profile: String,
    /// The kinds of call that Setups ask for.
    pub call_kinds: Vec<CallKind>,
    /// One for each call, in the order of their first items.
    pub ladders: Vec<Ladder>,
    pub calls_left_out: usize,
    /// Malformed items that name no call.
    pub strays: Vec<Stray<'a>>,
    pub end: Option<&'a End>,
    /// Messages about differences where not all the items are drawn.
    pub undrawn: Vec<String>,
}

/// An item without a ladder.
pub struct Stray<'a> {
    pub step: &'a Step,
    /// As in a row.
    pub expected: Option<String>,
}

pub struct Ladder {
    pub title: String,
    pub rows: Vec<Row>,
    /// When the call is open.
    pub open: Vec<Run<()>>,
    /// The point is the one of suspension.
    pub holds: Vec<Run<Point>>,
    pub relationships: Vec<Run<Relationship>>,
    /// When each leg is present.
    pub legs: [Vec<Run<()>>; 2],
    pub charges: Vec<Charge>,
}

/// One item, and what its answer says.
pub struct Row {
    pub number: usize,
    pub time: Tenths,
    /// How long nothing happened before, if that was long.
    pub pause: Option<Tenths>,
    pub comment: Option<String>,
    /// The item first.
    pub arrows: Vec<Arrow>,
    pub refusal: Option<Refusal>,
    /// The answer that the text expects, if it is another one.
    pub expected: Option<String>,
    /// The relationship, where it changes.
    pub relationship: Option<Relationship>,
    pub over: bool,
}

#[derive(Clone, Copy, PartialEq, Eq, Debug)]
pub enum Party {
    Caller,
    Switch,
    ServiceNode,
    Called,
}

impl Party {
    pub const ALL: [Party; 4] = [
        Party::Caller,
        Party::Switch,
        Party::ServiceNode,
        Party::Called,
    ];

    pub fn of_leg(leg: Leg) -> Party {
        match leg {
            Leg::One => Party::Caller,
            Leg::Two => Party::Called,
        }
    }

    pub fn name(self) -> &'static str {
        match self {
            Party::Caller => "caller",
            Party::Switch => "switch",
            Party::ServiceNode => "service node",
            Party::Called => "called party",
        }
    }

    /// What it is in the call.
    pub fn role(self) -> &'static str {
        match self {
            Party::Caller => "leg 1",
            Party::Switch => "gsmSSF",
            Party::ServiceNode => "gsmSCF",
            Party::Called => "leg 2",
        }
    }
}

/// From the switch to itself goes what its own clock says.
pub struct Arrow {
    pub from: Party,
    pub to: Party,
    pub form: Form,
    pub label: Label,
}

#[derive(Clone, Copy, PartialEq, Eq, Debug)]
pub enum Form {
    /// An item, a routing, a report that interrupts or one of a charge.
    Full,
    /// A report that only notifies.
    Notification,
    /// A refused item.
    Refused,
}

/// What holds from the row that began it to the row that ended it, if one did.
#[derive(Clone, Copy, PartialEq, Eq, Debug)]
pub struct Run<T> {
    pub value: T,
    pub from: usize,
    pub to: Option<usize>,
}

/// A charged period: granted in a row, its clock started in that or a later
/// one, and gone in another.
#[derive(Clone, Copy, PartialEq, Eq, Debug)]
pub struct Charge {
    pub leg: Leg,
    pub period: Tenths,
    pub granted: usize,
    pub started: Option<usize>,
    pub ended: Option<usize>,
    /// What was reported at the end; nothing if it was dropped.
    pub reported: Option<Tenths>,
}

/// What stands beside a charge's strip, at the item of a row.
#[derive(Clone, PartialEq, Eq, Debug)]
pub struct Note {
    pub row: usize,
    pub name: String,
    pub detail: String,
}

impl Charge {
    /// What became of it, row by row.
    pub fn notes(&self) -> Vec<Note> {
        let note = |row, name: &str, detail: &str| Note {
            row,
            name: name.to_string(),
            detail: detail.to_string(),
        };
        let granted = format!("{} granted", self.period.0);
        let mut notes = match self.started {
            Some(row) if row == self.granted => vec![note(row, &granted, "clock starts")],
            Some(row) => vec![
                note(self.granted, &granted, "not running"),
                note(row, "clock starts", "at the answer"),
            ],
            None => vec![note(self.granted, &granted, "not running")],
        };
        notes.extend(self.ended.map(|row| match self.reported {
            Some(elapsed) => {
                let figure = format!("{} elapsed", elapsed.0);
                note(row, &figure, &words::duration(elapsed))
            }
            None => note(row, "dropped", "unreported"),
        }));
        notes
    }
}

impl<'a> Chart<'a> {
    /// With a mark at every item whose answer differs from the expected one.
    pub fn of(played: &'a Played, differences: &[Group]) -> Chart<'a> {
        let mut calls: Vec<u32> = Vec::new();
        for call in played.steps.iter().filter_map(|step| step.call) {
            if !calls.contains(&call) {
                calls.push(call);
            }
        }
        let steps = &played.steps;
        let calls_left_out = calls.len().saturating_sub(CALLS);
        calls.truncate(CALLS);
        let strays = steps.iter().filter(|step| step.call.is_none());
        let strays = strays.map(|step| Stray {
            step,
            expected: expected_of(step, differences),
        });
        let call_kinds = call_kinds(steps.iter().filter_map(call_kind_of_setup));
        Chart {
            title: played.title.as_deref().unwrap_or("A scenario"),
            profile: match read_profile(&played.profile) {
                Some(profile) => {
                    format!("Profile: {}", words::profile(&profile, &call_kinds))
                }
                None => format!("Profile: {}.", words::refusal(Refusal::ProfileMalformed)),
            },
            call_kinds,
            ladders: calls
                .iter()
                .map(|call| Ladder::of(*call, steps, differences))
                .collect(),
            calls_left_out,
            strays: strays.collect(),
            end: played.end.as_ref(),
            undrawn: undrawn(differences, steps, &calls),
        }
    }

    /// Whether a row has a mark.
    pub fn has_marks(&self) -> bool {
        let mut rows = self.ladders.iter().flat_map(|ladder| &ladder.rows);
        rows.any(|row| row.expected.is_some())
    }
}

/// Those that occur, in their order.
fn call_kinds(occurring: impl Iterator<Item = CallKind>) -> Vec<CallKind> {
    let occurring: Vec<CallKind> = occurring.collect();
    let kinds = CallKind::BOTH.into_iter();
    kinds.filter(|kind| occurring.contains(kind)).collect()
}

fn call_kind_of_setup(step: &Step) -> Option<CallKind> {
    match read_item(&step.bytes)?.body {
        Body::Setup(setup) => Some(setup.call_kind),
        Body::Other(_) => None,
    }
}

/// The answer that is expected of an item, if it has another one.
fn expected_of(step: &Step, differences: &[Group]) -> Option<String> {
    let place = differences.partition_point(|group| group.numbers.end <= step.number);
    let group = differences.get(place)?;
    let is_here = group.numbers.contains(&step.number);
    is_here.then(|| group.expected().to_string())
}

/// What is said of the profile, of items behind the end and of calls left out.
fn undrawn(differences: &[Group], steps: &[Step], calls: &[u32]) -> Vec<String> {
    let has_place = |step: &&Step| step.call.is_none_or(|call| calls.contains(&call));
    let drawn = steps.iter().filter(has_place).map(|step| step.number);
    let drawn: BTreeSet<usize> = drawn.collect();
    let undrawn = |group: &&Group| !group.numbers.clone().all(|number| drawn.contains(&number));
    let message = |group: &Group| format!("Line {}: {}.", group.line.number, group.difference());
    differences.iter().filter(undrawn).map(message).collect()
}

impl Ladder {
    /// The call's own items; those of others are left out.
    fn of(call: u32, steps: &[Step], differences: &[Group]) -> Ladder {
        let steps: Vec<&Step> = steps
            .iter()
            .filter(|step| step.call == Some(call))
            .collect();
        let relationship = |step: &&Step| Some(relationship_after(step));
        let present = |leg: Leg| {
            let is_present = move |record: Record| record.is_present(leg).then_some(());
            runs(steps.iter().map(|step| step.record.and_then(is_present)))
        };
        let records = steps.iter().filter_map(|step| step.record);
        let call_kinds = call_kinds(records.map(|record| record.call_kind));
        Ladder {
            title: words::call(call, &call_kinds),
            rows: rows(&steps, differences),
            open: runs(steps.iter().map(|step| step.record.map(|_| ()))),
            holds: runs(steps.iter().map(|step| step.record?.hold_point())),
            relationships: runs(steps.iter().map(relationship)),
            legs: Leg::BOTH.map(present),
            charges: Leg::BOTH.map(|leg| charges(leg, &steps)).concat(),
        }
    }
}

fn relationship_after(step: &Step) -> Relationship {
    let record = step.record.as_ref();
    record.map_or(Relationship::None, Record::relationship)
}

fn rows(steps: &[&Step], differences: &[Group]) -> Vec<Row> {
    let mut last_time = None;
    let mut last_relationship = Relationship::None;
    let mut rows = Vec::new();
    for step in steps {
        let time = time_of(step);
        let relationship = relationship_after(step);
        let gap = last_time.and_then(|last: Tenths| time.0.checked_sub(last.0));
        let changed = relationship != last_relationship;
        rows.push(Row {
            number: step.number,
            time,
            pause: gap.map(Tenths).filter(|gap| *gap >= PAUSE),
            comment: step.comment.clone(),
            arrows: arrows(step, time),
            refusal: step.answer.err(),
            expected: expected_of(step, differences),
            relationship: changed.then_some(relationship),
            over: step.answer.is_ok_and(|answer| answer.over),
        });
        last_time = Some(time);
        last_relationship = relationship;
    }
    rows
}

/// Its place in the item is the same for every kind, so a malformed item that
/// is written in words has one too.
fn time_of(step: &Step) -> Tenths {
    let field = step.bytes.get(8..14).unwrap_or(&[]);
    Tenths(
        field
            .iter()
            .fold(0, |time, byte| time << 8 | u64::from(*byte)),
    )
}

fn arrows(step: &Step, time: Tenths) -> Vec<Arrow> {
    let mut arrows = vec![item_arrow(step)];
    if let Ok(answer) = &step.answer {
        arrows.extend(answer_arrows(answer, step.record.as_ref(), time));
    }
    arrows
}

fn item_arrow(step: &Step) -> Arrow {
    Arrow {
        from: sender(step),
        to: Party::Switch,
        form: match step.answer {
            Ok(_) => Form::Full,
            Err(_) => Form::Refused,
        },
        label: match read_item(&step.bytes) {
            Some(item) => words::item(&item.body),
            None => words::malformed(&step.words),
        },
    }
}

/// Where an item comes from: its kind says it, of a Clear the leg, and of what
/// is either party's the kind of call.
fn sender(step: &Step) -> Party {
    let field = |place: usize| step.bytes.get(place).copied().unwrap_or(0);
    match field(3) {
        kind::SETUP | kind::TERMINATING_SETUP => Party::Caller,
        kind::MID_CALL => party_of(Part::MidCall, step),
        kind::MOVED => party_of(Part::Moved, step),
        kind::CLEAR if field(14) == Leg::Two.number() => Party::Called,
        kind::CLEAR => Party::Caller,
        kind::PERIOD_OVER => Party::Switch,
        kind::ROUTE_FAILURE..=kind::ANSWER => Party::Called,
        _ => Party::ServiceNode,
    }
}

/// Whose point it is; where no call is open, as if it were an originating one.
fn party_of(part: Part, step: &Step) -> Party {
    let call_kind = step
        .record
        .map_or(CallKind::Originating, |record| record.call_kind);
    let point = call_kind.point(part);
    point.map_or(Party::Caller, |point| Party::of_leg(point.leg))
}

/// Reports in their order, then the routing.
fn answer_arrows(answer: &Accepted, record: Option<&Record>, time: Tenths) -> Vec<Arrow> {
    let report = |form, label| Arrow {
        from: Party::Switch,
        to: Party::ServiceNode,
        form,
        label,
    };
    let mut arrows = Vec::new();
    if let Some((point, mode)) = answer.event_report {
        let form = match mode {
            Mode::Interrupted => Form::Full,
            Mode::Notify => Form::Notification,
        };
        arrows.push(report(form, words::event_report(point, mode)));
    }
    for leg in Leg::BOTH {
        if let Some(elapsed) = answer.charge_reports[leg as usize] {
            let label = words::charge_report(leg.number(), elapsed);
            arrows.push(report(Form::Full, label));
        }
    }
    if let Some(deadline) = answer.deadline {
        let called = record.map(|record| &record.called);
        arrows.push(Arrow {
            from: Party::Switch,
            to: Party::Called,
            form: Form::Full,
            label: words::routing(called, time, deadline),
        });
    }
    arrows
}

/// Where the values after the rows stay the same.
fn runs<T: Copy + PartialEq>(values: impl Iterator<Item = Option<T>>) -> Vec<Run<T>> {
    let mut runs = Vec::new();
    let mut open: Option<Run<T>> = None;
    for (row, value) in values.enumerate() {
        if value == open.map(|run| run.value) {
            continue;
        }
        let to = Some(row);
        runs.extend(open.map(|run| Run { to, ..run }));
        open = value.map(|value| Run {
            value,
            from: row,
            to: None,
        });
    }
    runs.extend(open);
    runs
}

/// No item removes a charge and grants another, so charges are told apart by
/// the rows between them.
fn charges(leg: Leg, steps: &[&Step]) -> Vec<Charge> {
    let pending = |step: &&Step| step.record.and_then(|record| record.charge(leg));
    let has_started = |row: &usize| pending(&steps[*row]).is_some_and(|c| c.start.is_some());
    let reported = |row: usize| steps[row].answer.ok()?.charge_reports[leg as usize];
    runs(steps.iter().map(|step| Some(pending(step)?.period)))
        .into_iter()
        .map(|run| Charge {
            leg,
            period: run.value,
            granted: run.from,
            started: (run.from..run.to.unwrap_or(steps.len())).find(has_started),
            ended: run.to,
            reported: run.to.and_then(reported),
        })
        .collect()
}
