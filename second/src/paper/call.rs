//! The behaviour of one call: its answers and its next record.
//!
//! Document 01, sections "One call" and "A call by itself", and the rows 7 to
//! 14 of "Numbered refusals"; document 02, T-01, T-04 and T-05. The rules speak of
//! the parts that points have; which points these are is the call's kind's.

use crate::paper::answer::{Accepted, Answer, Refusal};
use crate::paper::forms::{
    CallKind, Entries, Entry, Event, Handling, Leg, Operation, Other, Profile, Seconds, Setup,
    Tenths, LONGEST_TIMER,
};
use crate::paper::record::{
    Armings, CalledNumber, Charge, Hold, Mode, Part, Record, Relationship, Stage,
};
use crate::paper::trigger::triggers;

/// The first record of a call, and the answer to its Setup.
pub fn set_up(setup: &Setup, time: Tenths, profile: &Profile) -> (Record, Accepted) {
    let mut record = Record {
        call_kind: setup.call_kind,
        stage: Stage::Analysing,
        present: [true; 2],
        hold: None,
        last: time,
        armings: Armings::NONE,
        charges: [None; 2],
        kept_timer: Seconds(0),
        default_timer: profile.default_timer,
        default_handling: profile.default_handling,
        called: CalledNumber::of(&setup.number),
    };
    let mut answer = Accepted::PLAIN;
    if triggers(profile, setup) {
        record.hold = Some(Hold::Trigger);
        answer.event_report = Some((setup.call_kind.trigger(), Mode::Interrupted));
    } else {
        start_routing(&mut record, &mut answer);
    }
    answer.relationship = record.relationship();
    answer.hold = record.hold_point();
    (record, answer)
}

/// Any other item. The record becomes the next one, unless the item is
/// refused; what a call that is over leaves in it is for the table to blank.
pub fn step(record: &mut Record, time: Tenths, item: &Other) -> Answer {
    check(record, time, item)?;
    record.last = time;
    let mut answer = Accepted::PLAIN;
    match item {
        Other::Event(event) => meet(record, part_met(event, record.stage), &mut answer),
        Other::PeriodOver(leg) => report_charge(record, *leg, &mut answer),
        Other::Operation(operation) => perform(record, operation, &mut answer),
    }
    if answer.over {
        report_charge(record, Leg::One, &mut answer);
        report_charge(record, Leg::Two, &mut answer);
        return Ok(answer);
    }
    Ok(Accepted {
        relationship: record.relationship(),
        hold: record.hold_point(),
        ..answer
    })
}

/// The rows 7 to 14; the first that applies is given.
fn check(record: &Record, time: Tenths, item: &Other) -> Result<(), Refusal> {
    refuse_if(time < record.last, Refusal::TimeBeforeLast)?;
    refuse_if(lacks_relationship(record, item), Refusal::NoControl)?;
    refuse_if(is_event_while_held(record, item), Refusal::EventWhileHeld)?;
    refuse_if(lacks_hold(record, item), Refusal::NotHeld)?;
    refuse_if(has_bad_entry(record, item), Refusal::BadEntry)?;
    refuse_if(!is_possible(record, item), Refusal::NotPossible)?;
    refuse_if(is_second_charge(record, item), Refusal::ChargePending)?;
    refuse_if(is_too_early(record, time, item), Refusal::PeriodNotOver)
}

fn refuse_if(applies: bool, refusal: Refusal) -> Result<(), Refusal> {
    if applies {
        Err(refusal)
    } else {
        Ok(())
    }
}

/// Row 8.
fn lacks_relationship(record: &Record, item: &Other) -> bool {
    match item {
        Other::Event(_) | Other::PeriodOver(_) => false,
        Other::Operation(Operation::ActivityTest | Operation::Abort) => {
            record.relationship() == Relationship::None
        }
        Other::Operation(_) => record.relationship() != Relationship::Control,
    }
}

/// Row 9. By T-05 it excepts a Clear of either leg, at any stage and with any legs:
/// where the Clear is not possible, that is row 12's.
fn is_event_while_held(record: &Record, item: &Other) -> bool {
    match item {
        Other::Event(Event::Clear { .. }) => false,
        Other::Event(_) => record.hold.is_some(),
        Other::PeriodOver(_) | Other::Operation(_) => false,
    }
}

/// Row 10.
fn lacks_hold(record: &Record, item: &Other) -> bool {
    match item {
        Other::Operation(Operation::Continue | Operation::Connect(_)) => record.hold.is_none(),
        _ => false,
    }
}

/// Row 11.
fn has_bad_entry(record: &Record, item: &Other) -> bool {
    let Other::Operation(Operation::RequestReport(entries)) = item else {
        return false;
    };
    let mut named = [false; Part::ALL.len()];
    for entry in entries.iter() {
        let Some(Arming { part, .. }) = read_entry(record.call_kind, &entry) else {
            return true;
        };
        if named[part as usize] {
            return true;
        }
        named[part as usize] = true;
    }
    false
}

/// Row 12.
fn is_possible(record: &Record, item: &Other) -> bool {
    match item {
        Other::Event(event) => occurs_now(record, part_met(event, record.stage)),
        Other::PeriodOver(leg) => end_of_period(record, *leg).is_some(),
        Other::Operation(Operation::RequestReport(entries)) => armings(record.call_kind, *entries)
            .all(|arming| arming.mode.is_none() || can_still_occur(record, arming.part)),
        // Open in the paper: a hold at 2 (or 12) is enough, whatever the legs.
        Other::Operation(Operation::Connect(_)) => {
            record.hold == Some(Hold::Trigger) || record.present == [true, false]
        }
        Other::Operation(Operation::ApplyCharging { leg, .. }) => {
            record.is_present(*leg) && record.is_present(Leg::One)
        }
        Other::Operation(_) => true,
    }
}

/// Row 13.
fn is_second_charge(record: &Record, item: &Other) -> bool {
    match item {
        Other::Operation(Operation::ApplyCharging { leg, .. }) => record.charge(*leg).is_some(),
        _ => false,
    }
}

/// Row 14.
fn is_too_early(record: &Record, time: Tenths, item: &Other) -> bool {
    match item {
        Other::PeriodOver(leg) => end_of_period(record, *leg).is_some_and(|end| time < end),
        _ => false,
    }
}

/// When the period of the leg's charge is over, if its clock has started.
fn end_of_period(record: &Record, leg: Leg) -> Option<Tenths> {
    let charge = record.charge(leg)?;
    Some(charge.start? + charge.period)
}

/// The part of the point that an event meets.
pub fn part_met(event: &Event, stage: Stage) -> Part {
    match event {
        Event::RouteFailure { .. } => Part::RouteFailure,
        Event::Busy { .. } => Part::Busy,
        Event::NoAnswer => Part::NoAnswer,
        Event::Seized => Part::Seized,
        Event::Answer => Part::Answer,
        Event::MidCall { .. } => Part::MidCall,
        Event::Moved => Part::Moved,
        Event::Clear { leg: Leg::One, .. } if stage == Stage::Active => Part::Disconnect1,
        Event::Clear { leg: Leg::One, .. } => Part::Abandon,
        Event::Clear { leg: Leg::Two, .. } => Part::Disconnect2,
    }
}

/// Whether the part's event is possible in this call, at this stage and with
/// these legs.
fn occurs_now(record: &Record, part: Part) -> bool {
    let point = record.call_kind.point(part);
    point.is_some_and(|point| record.is_present(point.leg)) && occurs_at(record.stage, part)
}

/// The stages of each part's event.
pub fn occurs_at(stage: Stage, part: Part) -> bool {
    match part {
        Part::RouteFailure | Part::Seized => stage == Stage::Analysing,
        Part::Busy | Part::NoAnswer | Part::Answer | Part::Abandon => stage != Stage::Active,
        Part::MidCall | Part::Disconnect1 | Part::Disconnect2 => stage == Stage::Active,
        Part::Moved => stage != Stage::Analysing,
    }
}

/// Whether a point of the call may be armed, since it can occur now or later.
fn can_still_occur(record: &Record, part: Part) -> bool {
    if !record.is_present(Leg::One) {
        return false;
    }
    if !record.is_present(Leg::Two) {
        return true; // a Connect may follow
    }
    match part {
        Part::RouteFailure | Part::Seized => record.stage == Stage::Analysing,
        Part::Busy | Part::NoAnswer | Part::Answer | Part::Abandon => record.stage != Stage::Active,
        _ => true,
    }
}

/// A met point: report, disarm, and what becomes of leg, stage and hold.
fn meet(record: &mut Record, part: Part, answer: &mut Accepted) {
    let Some(point) = record.call_kind.point(part) else {
        return; // row 12 has refused it
    };
    let mode = record.armings.get(part);
    answer.event_report = mode.map(|mode| (point, mode));
    record.hold = hold_after(record.hold, part, mode);
    match row(part) {
        Row::AllOfLeg => {
            disarm_leg(record, point.leg);
            record.present[point.leg as usize] = false;
            report_charge(record, point.leg, answer);
            answer.over = record.hold.is_none();
        }
        Row::UntilAnswer => {
            for part in UNTIL_ANSWER {
                record.armings.set(part, None);
            }
        }
        Row::Itself => record.armings.set(part, None),
    }
    match part {
        Part::Seized => record.stage = Stage::Alerting,
        Part::Answer => {
            record.stage = Stage::Active;
            start_charges(record);
        }
        _ => {}
    }
}

/// Where a met point leaves the call held: at the point itself if that interrupts.
/// Else nowhere; but the called party hanging up does not end a hold (T-05).
fn hold_after(hold: Option<Hold>, met: Part, mode: Option<Mode>) -> Option<Hold> {
    match (met, mode) {
        (_, Some(Mode::Interrupted)) => Some(Hold::At(met)),
        (Part::Disconnect2, _) => hold,
        _ => None,
    }
}

/// What a met point disarms.
enum Row {
    /// The first row and the last one, which make the leg absent too.
    AllOfLeg,
    /// That of Answer: what cannot be met after it.
    UntilAnswer,
    Itself,
}

const UNTIL_ANSWER: [Part; 6] = [
    Part::RouteFailure,
    Part::Busy,
    Part::NoAnswer,
    Part::Answer,
    Part::Abandon,
    Part::Seized,
];

/// Document 01's table, its row of 7 as T-01 of document 02 has it.
fn row(met: Part) -> Row {
    match met {
        Part::RouteFailure | Part::Busy | Part::NoAnswer | Part::Disconnect2 => Row::AllOfLeg,
        Part::Answer => Row::UntilAnswer,
        Part::MidCall | Part::Seized | Part::Moved => Row::Itself,
        Part::Abandon | Part::Disconnect1 => Row::AllOfLeg,
    }
}

fn disarm_leg(record: &mut Record, leg: Leg) {
    for part in Part::ALL {
        if record
            .call_kind
            .point(part)
            .is_some_and(|point| point.leg == leg)
        {
            record.armings.set(part, None);
        }
    }
}

fn perform(record: &mut Record, operation: &Operation, answer: &mut Accepted) {
    match operation {
        Operation::RequestReport(entries) => request_report(record, *entries),
        Operation::Continue => resume(record, answer),
        Operation::Connect(number) => {
            record.present[Leg::Two as usize] = true;
            record.stage = Stage::Analysing;
            record.called = CalledNumber::of(number);
            record.hold = None;
            start_routing(record, answer);
        }
        Operation::Release => answer.over = true,
        Operation::ApplyCharging { leg, period } => {
            record.charges[*leg as usize] = Some(Charge {
                period: *period,
                start: (record.stage == Stage::Active).then_some(record.last),
            });
        }
        Operation::ActivityTest => {}
        Operation::Abort => abort(record, answer),
    }
}

/// What a good entry asks for: the mode of its point (none disarms), and a
/// no-answer timer (zero for none).
struct Arming {
    part: Part,
    mode: Option<Mode>,
    timer: Seconds,
}

/// Nothing if the entry is bad by refusal 11.
fn read_entry(call_kind: CallKind, entry: &Entry) -> Option<Arming> {
    let part = call_kind.part(entry.point, entry.leg)?;
    let mode = match entry.mode {
        0 => Some(Mode::Interrupted),
        1 => Some(Mode::Notify),
        2 => None,
        _ => return None,
    };
    let timer = Seconds(entry.timer.into());
    let longest = match part {
        Part::NoAnswer if mode.is_some() => LONGEST_TIMER,
        _ => Seconds(0),
    };
    let good = mode.is_none_or(|mode| part.takes(mode)) && timer <= longest;
    good.then_some(Arming { part, mode, timer })
}

/// The armings of entries that refusal 11 has found good.
fn armings(call_kind: CallKind, entries: Entries<'_>) -> impl Iterator<Item = Arming> + '_ {
    let arming = move |entry| read_entry(call_kind, &entry);
    entries.iter().filter_map(arming)
}

fn request_report(record: &mut Record, entries: Entries) {
    for arming in armings(record.call_kind, entries) {
        record.armings.set(arming.part, arming.mode);
        if arming.timer != Seconds(0) {
            record.kept_timer = arming.timer;
        }
    }
}

/// Continue, and an Abort that goes on from a hold.
fn resume(record: &mut Record, answer: &mut Accepted) {
    if record.present != [true, true] {
        answer.over = true;
        return;
    }
    if record.hold == Some(Hold::Trigger) {
        start_routing(record, answer);
    }
    record.hold = None;
}

fn abort(record: &mut Record, answer: &mut Accepted) {
    record.armings = Armings::NONE;
    record.charges = [None; 2];
    record.kept_timer = Seconds(0);
    match record.default_handling {
        Handling::Release => answer.over = true,
        Handling::Continue if record.hold.is_some() => resume(record, answer),
        Handling::Continue => {}
    }
}

/// Gives the deadline for the answer; a kept timer is used up by it.
fn start_routing(record: &mut Record, answer: &mut Accepted) {
    let timer = match record.kept_timer {
        Seconds(0) => record.default_timer,
        kept => kept,
    };
    record.kept_timer = Seconds(0);
    answer.deadline = Some(record.last + timer.tenths());
}

/// An Answer starts the clocks that wait for one; none restarts.
fn start_charges(record: &mut Record) {
    for charge in record.charges.iter_mut().flatten() {
        charge.start.get_or_insert(record.last);
    }
}

/// Reports the leg's charge, if one is pending, and removes it.
fn report_charge(record: &mut Record, leg: Leg, answer: &mut Accepted) {
    if let Some(charge) = record.charges[leg as usize].take() {
        answer.charge_reports[leg as usize] = Some(charge.elapsed(record.last));
    }
}
