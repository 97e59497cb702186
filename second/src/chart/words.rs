//! What items, answers and profiles are called in a chart.

use crate::paper::answer::Refusal;
use crate::paper::forms::{
    Body, CallKind, Entry, Event, Handling, Number, Operation, Other, Profile, Sense, Setup, Tenths,
};
use crate::paper::record::{CalledNumber, Mode, Point, Relationship};
use crate::texts::digit_character;

/// What stands at an arrow: a name, and lines that say more.
#[derive(Clone, PartialEq, Eq, Debug)]
pub struct Label {
    pub name: String,
    pub details: Vec<String>,
}

impl Label {
    fn new(name: &str, details: Vec<String>) -> Label {
        Label {
            name: name.to_string(),
            details,
        }
    }
}

/// A clock reading: minutes and seconds, after an hour with the hours.
pub fn clock(time: Tenths) -> String {
    let (minutes, tenths) = (time.0 / 600, time.0 % 600);
    let seconds = format!("{:02}.{}", tenths / 10, tenths % 10);
    match minutes {
        0..60 => format!("{minutes}:{seconds}"),
        _ => format!("{}:{:02}:{seconds}", minutes / 60, minutes % 60),
    }
}

/// A length of time, without the parts that are zero.
pub fn duration(length: Tenths) -> String {
    let (hours, minutes) = (length.0 / 36_000, length.0 / 600 % 60);
    let (seconds, tenths) = (length.0 / 10 % 60, length.0 % 10);
    let mut parts = Vec::new();
    if hours > 0 {
        parts.push(format!("{hours} h"));
    }
    if minutes > 0 {
        parts.push(format!("{minutes} min"));
    }
    if tenths > 0 {
        parts.push(format!("{seconds}.{tenths} s"));
    } else if seconds > 0 || parts.is_empty() {
        parts.push(format!("{seconds} s"));
    }
    parts.join(" ")
}

/// How long nothing has happened.
pub fn pause(length: Tenths) -> String {
    format!("{} later", duration(length))
}

/// Tenths, and what they are in words.
fn tenths(length: Tenths) -> String {
    format!("{} ({})", length.0, duration(length))
}

pub fn item(body: &Body) -> Label {
    match body {
        Body::Setup(setup) => self::setup(setup),
        Body::Other(Other::Event(event)) => self::event(event),
        Body::Other(Other::PeriodOver(leg)) => {
            Label::new("Period over", vec![format!("leg {}", leg.number())])
        }
        Body::Other(Other::Operation(operation)) => self::operation(operation),
    }
}

fn setup(setup: &Setup) -> Label {
    let forwarded = if setup.forwarded { ", forwarded" } else { "" };
    let criteria = format!(
        "nature {}, service {}{forwarded}",
        setup.number.nature, setup.service
    );
    let number = format!("to {}", digits(setup.number.digits));
    let name = match setup.call_kind {
        CallKind::Originating => "Setup",
        CallKind::Terminating => "Terminating setup",
    };
    Label::new(name, vec![number, criteria])
}

fn event(event: &Event) -> Label {
    let (name, detail) = match event {
        Event::RouteFailure { cause } => ("Route failure", Some(format!("cause {cause}"))),
        Event::Busy { cause } => ("Busy", Some(format!("cause {cause}"))),
        Event::NoAnswer => ("No answer", None),
        Event::Seized => ("Seized", None),
        Event::Answer => ("Answer", None),
        Event::MidCall { digit } => (
            "Mid-call",
            Some(format!("digit {}", digit_character(*digit))),
        ),
        Event::Moved => ("Moved", None),
        Event::Clear { cause, .. } => ("Clear", Some(format!("cause {cause}"))),
    };
    Label::new(name, detail.into_iter().collect())
}

/// The operations have their names of TS 29.078; an abort is none there.
fn operation(operation: &Operation) -> Label {
    let (name, details) = match operation {
        Operation::RequestReport(entries) => (
            "RequestReportBCSMEvent",
            entries.iter().map(|e| entry(&e)).collect(),
        ),
        Operation::Continue => ("Continue", vec![]),
        Operation::Connect(Number { nature, digits }) => {
            let number = format!("to {}", self::digits(digits));
            ("Connect", vec![number, format!("nature {nature}")])
        }
        Operation::Release => ("ReleaseCall", vec![]),
        Operation::ApplyCharging { leg, period } => {
            let leg = format!("leg {}", leg.number());
            let period = format!("period {}", tenths(*period));
            ("ApplyCharging", vec![leg, period])
        }
        Operation::ActivityTest => ("ActivityTest", vec![]),
        Operation::Abort => ("Abort", vec!["of the dialogue".to_string()]),
    };
    Label::new(name, details)
}

fn entry(entry: &Entry) -> String {
    let name = named_point(entry).map_or("unknown", point_name);
    let mode = match entry.mode {
        0 => "interrupt".to_string(),
        1 => "notify".to_string(),
        2 => "transparent".to_string(),
        other => format!("mode {other}"),
    };
    let timer = match entry.timer {
        0 => String::new(),
        timer => format!(", timer {timer} s"),
    };
    format!("{}/{} {name}: {mode}{timer}", entry.point, entry.leg)
}

/// The point that an entry names, in a call of one kind or the other; so one
/// that is refused as the other kind's has its name too.
fn named_point(entry: &Entry) -> Option<Point> {
    let point = |kind: CallKind| kind.point(kind.part(entry.point, entry.leg)?);
    CallKind::BOTH.into_iter().find_map(point)
}

/// An item that is malformed, in the text's own words.
pub fn malformed(words: &str) -> Label {
    let (name, detail) = words.split_once(' ').unwrap_or((words, ""));
    Label::new(name, vec![detail.to_string()])
}

pub fn event_report(point: Point, mode: Mode) -> Label {
    let is_trigger = CallKind::BOTH.iter().any(|kind| kind.trigger() == point);
    let name = match is_trigger {
        true => "InitialDP",
        false => "EventReportBCSM",
    };
    let mode = match mode {
        Mode::Interrupted => "interrupts",
        Mode::Notify => "notifies",
    };
    let (number, leg) = (point.number, point.leg.number());
    let detail = format!("{number}/{leg} {}: {mode}", point_name(point));
    Label::new(name, vec![detail])
}

pub fn charge_report(leg: u8, elapsed: Tenths) -> Label {
    let elapsed = format!("elapsed {}", tenths(elapsed));
    Label::new("ApplyChargingReport", vec![format!("leg {leg}"), elapsed])
}

pub fn routing(called: Option<&CalledNumber>, time: Tenths, deadline: Tenths) -> Label {
    let number = called.map(|called| {
        let places = &called.places[..usize::from(called.count)];
        format!("to {}", digits(places))
    });
    let left = duration(deadline - time);
    let deadline = format!("answer due by {} (in {left})", deadline.0);
    Label::new("Routing", number.into_iter().chain([deadline]).collect())
}

/// The points of an originating call, and then those of a terminating one.
const POINT_NAMES: [(u8, &str); 19] = [
    (2, "Collected_Info"),
    (4, "Route failure"),
    (5, "Busy"),
    (6, "No answer"),
    (7, "Answer"),
    (8, "Mid-call"),
    (9, "Disconnect"),
    (10, "Abandon"),
    (19, "Seized"),
    (50, "Moved"),
    (12, "Terminating_Attempt_Authorised"),
    (13, "T_Busy"),
    (14, "T_No_Answer"),
    (15, "T_Answer"),
    (16, "T_Mid_Call"),
    (17, "T_Disconnect"),
    (18, "T_Abandon"),
    (27, "Call_Accepted"),
    (51, "T_Change_Of_Position"),
];

pub fn point_name(point: Point) -> &'static str {
    let row = POINT_NAMES
        .iter()
        .find(|(number, _)| *number == point.number);
    row.map_or("unknown", |(_, name)| name)
}

pub fn hold(point: Point) -> String {
    format!("held at {}", point.number)
}

pub fn relationship(relationship: Relationship) -> &'static str {
    match relationship {
        Relationship::None => "no relationship",
        Relationship::Monitor => "monitor relationship",
        Relationship::Control => "control relationship",
    }
}

/// Beside an answer that the text does not expect.
pub fn expected(answer: &str) -> String {
    format!("expected {answer}")
}

pub fn refusal(refusal: Refusal) -> String {
    let reason = match refusal {
        Refusal::ItemMalformed => "malformed",
        Refusal::ProfileMalformed => "profile malformed",
        Refusal::TableUnsound => "table damaged",
        Refusal::CallNotOpen => "call not open",
        Refusal::CallAlreadyOpen => "call already open",
        Refusal::NoRoom => "64 calls are open",
        Refusal::TimeBeforeLast => "time goes back",
        Refusal::NoControl => "relationship missing",
        Refusal::EventWhileHeld => "event while held",
        Refusal::NotHeld => "not held",
        Refusal::BadEntry => "bad entry",
        Refusal::NotPossible => "not possible here",
        Refusal::ChargePending => "charge pending",
        Refusal::PeriodNotOver => "period not over",
        Refusal::FeederStopped => "feeder stopped",
    };
    format!("refused {}: {reason}", refusal as u8)
}

/// The heading of a call that was of these kinds, one after the other.
pub fn call(call: u32, call_kinds: &[CallKind]) -> String {
    match call_kinds {
        [CallKind::Terminating] => format!("Call {call}, terminating"),
        _ => format!("Call {call}"),
    }
}

/// The profile as sentences, for these kinds of call.
pub fn profile(profile: &Profile, call_kinds: &[CallKind]) -> String {
    let handling = match profile.default_handling {
        Handling::Continue => "If the service node aborts, the call goes on.",
        Handling::Release => "If the service node aborts, the call is released.",
    };
    let timer = profile.default_timer.0;
    let triggers = match call_kinds {
        [] | [CallKind::Originating] => originating_triggers(profile, ["A call", "call"]),
        [CallKind::Terminating] => terminating_triggers(profile),
        _ => format!(
            "{}. {}",
            originating_triggers(profile, ["An originating call", "originating call"]),
            terminating_triggers(profile)
        ),
    };
    format!("{triggers}. {handling} The default no-answer timer is {timer} s.")
}

/// All criteria must hold; an inhibiting one reads best as an exception.
fn originating_triggers(profile: &Profile, names: [&str; 2]) -> String {
    let number = number_criteria(profile);
    let mut conditions = Vec::new();
    let mut exception = String::new();
    match profile.number_sense {
        Sense::Absent => {}
        Sense::Enabling => conditions.push(number),
        Sense::Inhibiting => exception = format!(", unless {number}"),
    }
    conditions.extend(service_criterion(profile));
    match profile.forwarding {
        Sense::Absent => {}
        Sense::Enabling => conditions.push("it is forwarded".to_string()),
        Sense::Inhibiting => conditions.push("it is not forwarded".to_string()),
    }
    format!("{}{exception}", triggers_if(names, &conditions))
}

fn terminating_triggers(profile: &Profile) -> String {
    let names = ["A terminating call", "terminating call"];
    let conditions: Vec<String> = service_criterion(profile).into_iter().collect();
    triggers_if(names, &conditions)
}

/// Such a call is named with its article, and without it.
fn triggers_if([one, every]: [&str; 2], conditions: &[String]) -> String {
    match conditions.is_empty() {
        true => format!("Every {every} triggers"),
        false => format!("{one} triggers if {}", conditions.join(", and ")),
    }
}

fn service_criterion(profile: &Profile) -> Option<String> {
    let services: Vec<String> = profile.services.iter().map(u8::to_string).collect();
    (!services.is_empty()).then(|| format!("its service is {}", services.join(" or ")))
}

fn number_criteria(profile: &Profile) -> String {
    let number = |number: &Number| format!("{} (nature {})", digits(number.digits), number.nature);
    let numbers: Vec<String> = profile.numbers.iter().map(number).collect();
    let lengths: Vec<String> = profile.lengths.iter().map(u8::to_string).collect();
    let begins = format!("begins with {}", numbers.join(" or "));
    let has = format!("has {} digits", lengths.join(" or "));
    match (numbers.is_empty(), lengths.is_empty()) {
        (false, false) => format!("its number {begins} or {has}"),
        (false, true) => format!("its number {begins}"),
        (true, _) => format!("its number {has}"),
    }
}

fn digits(digits: &[u8]) -> String {
    digits.iter().map(|digit| digit_character(*digit)).collect()
}
