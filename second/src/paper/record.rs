//! What is kept of one call.
//!
//! Document 01, section "One call": the fields, the armable points, the
//! relationship; document 02, T-04: the points of a terminating call. What is in
//! range of them is in `table.rs`.

use crate::paper::forms::{CallKind, Handling, Leg, Number, Seconds, Tenths};

#[derive(Clone, Copy, PartialEq, Eq, Debug)]
pub enum Stage {
    Analysing,
    Alerting,
    Active,
}

impl Stage {
    pub const ALL: [Stage; 3] = [Stage::Analysing, Stage::Alerting, Stage::Active];
}

/// What a detection point is there for, in a call of either kind; the armings
/// lie in this order.
#[derive(Clone, Copy, PartialEq, Eq, Debug)]
pub enum Part {
    MidCall,
    Disconnect1,
    Abandon,
    Moved,
    RouteFailure,
    Busy,
    NoAnswer,
    Answer,
    Disconnect2,
    Seized,
}

impl Part {
    pub const ALL: [Part; 10] = [
        Part::MidCall,
        Part::Disconnect1,
        Part::Abandon,
        Part::Moved,
        Part::RouteFailure,
        Part::Busy,
        Part::NoAnswer,
        Part::Answer,
        Part::Disconnect2,
        Part::Seized,
    ];

    /// Moved never interrupts.
    pub fn takes(self, mode: Mode) -> bool {
        self != Part::Moved || mode == Mode::Notify
    }
}

/// A detection point as the papers name it: its number in TS 29.078, and its
/// leg.
#[derive(Clone, Copy, PartialEq, Eq, Debug)]
pub struct Point {
    pub number: u8,
    pub leg: Leg,
}

/// The detection points of a kind of call.
struct PointSet {
    /// Where a triggered call is held.
    trigger: Point,
    /// In the order of `Part::ALL`; none where the call has no such point.
    parts: [Option<Point>; 10],
}

const ORIGINATING: PointSet = PointSet {
    trigger: leg_1(2),
    parts: [
        Some(leg_1(8)),
        Some(leg_1(9)),
        Some(leg_1(10)),
        Some(leg_1(50)),
        Some(leg_2(4)),
        Some(leg_2(5)),
        Some(leg_2(6)),
        Some(leg_2(7)),
        Some(leg_2(9)),
        Some(leg_2(19)),
    ],
};

const TERMINATING: PointSet = PointSet {
    trigger: leg_1(12),
    parts: [
        Some(leg_2(16)),
        Some(leg_1(17)),
        Some(leg_1(18)),
        Some(leg_2(51)),
        None, // Route failure is out of place
        Some(leg_2(13)),
        Some(leg_2(14)),
        Some(leg_2(15)),
        Some(leg_2(17)),
        Some(leg_2(27)),
    ],
};

const fn leg_1(number: u8) -> Point {
    let leg = Leg::One;
    Point { number, leg }
}

const fn leg_2(number: u8) -> Point {
    let leg = Leg::Two;
    Point { number, leg }
}

/// The parts by the legs and the numbers of their points, to be looked up; made
/// of the sets, for each kind of call.
static BY_POINT: [PartsByPoint; 2] = [by_point(&ORIGINATING), by_point(&TERMINATING)];

/// In the places of the leg's number and of the point's; the highest is 51.
type PartsByPoint = [[Option<Part>; 52]; 3];

const fn by_point(points: &PointSet) -> PartsByPoint {
    let mut parts = [[None; 52]; 3];
    let mut place = 0;
    while place < Part::ALL.len() {
        if let Some(Point { number, leg }) = points.parts[place] {
            parts[leg.number() as usize][number as usize] = Some(Part::ALL[place]);
        }
        place += 1;
    }
    parts
}

impl CallKind {
    fn points(self) -> &'static PointSet {
        match self {
            CallKind::Originating => &ORIGINATING,
            CallKind::Terminating => &TERMINATING,
        }
    }

    pub fn trigger(self) -> Point {
        self.points().trigger
    }

    /// None if such a call has no point for the part.
    pub fn point(self, part: Part) -> Option<Point> {
        self.points().parts[part as usize]
    }

    /// The part of an armable point; none if such a call has no such point.
    pub fn part(self, number: u8, leg: u8) -> Option<Part> {
        let of_leg = BY_POINT[self as usize].get(usize::from(leg))?;
        *of_leg.get(usize::from(number))?
    }

    pub fn can_arm(self, part: Part, mode: Mode) -> bool {
        self.point(part).is_some() && part.takes(mode)
    }
}

/// Where a call is held: where it was triggered, or at a point that it met.
#[derive(Clone, Copy, PartialEq, Eq, Debug)]
pub enum Hold {
    Trigger,
    At(Part),
}

impl Hold {
    /// None if such a call has no point for the part.
    pub fn point(self, call_kind: CallKind) -> Option<Point> {
        match self {
            Hold::Trigger => Some(call_kind.trigger()),
            Hold::At(part) => call_kind.point(part),
        }
    }
}

/// The mode of an armed point; an unarmed (transparent) one has none.
#[derive(Clone, Copy, PartialEq, Eq, Debug)]
pub enum Mode {
    Interrupted,
    Notify,
}

impl Mode {
    pub const BOTH: [Mode; 2] = [Mode::Interrupted, Mode::Notify];

    /// How the listing marks a report: interrupting, or a notification.
    pub fn mark(self) -> u8 {
        match self {
            Mode::Interrupted => b'r',
            Mode::Notify => b'n',
        }
    }
}

/// The modes of the points, each in the place of its part.
#[derive(Clone, Copy, PartialEq, Eq, Debug)]
pub struct Armings([Option<Mode>; 10]);

impl Armings {
    pub const NONE: Armings = Armings([None; 10]);

    pub fn get(&self, part: Part) -> Option<Mode> {
        self.0[part as usize]
    }

    pub fn set(&mut self, part: Part, mode: Option<Mode>) {
        self.0[part as usize] = mode;
    }

    pub fn any(&self, mode: Mode) -> bool {
        self.0.contains(&Some(mode))
    }
}

/// A charge that is pending on a leg; its clock has a start once it runs.
#[derive(Clone, Copy, PartialEq, Eq, Debug)]
pub struct Charge {
    pub period: Tenths,
    pub start: Option<Tenths>,
}

impl Charge {
    pub fn elapsed(&self, now: Tenths) -> Tenths {
        match self.start {
            Some(start) => self.period.min(now - start),
            None => Tenths(0),
        }
    }
}

/// The places past the count are zero.
#[derive(Clone, Copy, PartialEq, Eq, Debug)]
pub struct CalledNumber {
    pub nature: u8,
    pub count: u8,
    pub places: [u8; 15],
}

impl CalledNumber {
    pub fn of(number: &Number) -> CalledNumber {
        let count = number.digits.len();
        let mut places = [0; 15];
        places[..count].copy_from_slice(number.digits);
        CalledNumber {
            nature: number.nature,
            count: count as u8,
            places,
        }
    }
}

/// What is with a leg stands in the place `leg as usize`.
#[derive(Clone, Copy, PartialEq, Eq, Debug)]
pub struct Record {
    pub call_kind: CallKind,
    pub stage: Stage,
    pub present: [bool; 2],
    /// None if the call is not held.
    pub hold: Option<Hold>,
    pub last: Tenths,
    pub armings: Armings,
    pub charges: [Option<Charge>; 2],
    /// Zero if none is kept.
    pub kept_timer: Seconds,
    pub default_timer: Seconds,
    pub default_handling: Handling,
    pub called: CalledNumber,
}

#[derive(Clone, Copy, PartialEq, Eq, Debug)]
pub enum Relationship {
    None,
    Monitor,
    Control,
}

impl Record {
    /// The record of a free entry: every field zero or none.
    pub const BLANK: Record = Record {
        call_kind: CallKind::Originating,
        stage: Stage::Analysing,
        present: [false; 2],
        hold: None,
        last: Tenths(0),
        armings: Armings::NONE,
        charges: [None; 2],
        kept_timer: Seconds(0),
        default_timer: Seconds(0),
        default_handling: Handling::Continue,
        called: CalledNumber {
            nature: 0,
            count: 0,
            places: [0; 15],
        },
    };

    pub fn is_present(&self, leg: Leg) -> bool {
        self.present[leg as usize]
    }

    pub fn charge(&self, leg: Leg) -> Option<Charge> {
        self.charges[leg as usize]
    }

    /// The point of suspension, if the call is held.
    pub fn hold_point(&self) -> Option<Point> {
        self.hold?.point(self.call_kind)
    }

    pub fn relationship(&self) -> Relationship {
        if self.hold.is_some() || self.armings.any(Mode::Interrupted) {
            Relationship::Control
        } else if self.armings.any(Mode::Notify) || self.charges.iter().any(Option::is_some) {
            Relationship::Monitor
        } else {
            Relationship::None
        }
    }
}
