//! What an item gets: an answer, or a numbered refusal.
//!
//! Document 01, sections "A call by itself" (what an answer is) and "Numbered
//! refusals".

use crate::paper::forms::Tenths;
use crate::paper::record::{Mode, Point, Relationship};

pub type Answer = Result<Accepted, Refusal>;

#[derive(Clone, Copy, PartialEq, Eq, Debug)]
pub struct Accepted {
    pub relationship: Relationship,
    /// The point of suspension, if the call is held.
    pub hold: Option<Point>,
    /// The reports, in their order: of the event, then of each leg's charge.
    pub event_report: Option<(Point, Mode)>,
    pub charge_reports: [Option<Tenths>; 2],
    pub deadline: Option<Tenths>,
    pub over: bool,
}

impl Accepted {
    /// No relationship, no hold, nothing to tell.
    pub const PLAIN: Accepted = Accepted {
        relationship: Relationship::None,
        hold: None,
        event_report: None,
        charge_reports: [None; 2],
        deadline: None,
        over: false,
    };
}

/// The rows of the table, in the order in which they are checked; and document
/// 02's, which says of each where it is checked.
#[derive(Clone, Copy, PartialEq, Eq, Debug)]
pub enum Refusal {
    ItemMalformed = 1,
    ProfileMalformed = 2,
    TableUnsound = 3,
    CallNotOpen = 4,
    CallAlreadyOpen = 5,
    NoRoom = 6,
    TimeBeforeLast = 7,
    NoControl = 8,
    EventWhileHeld = 9,
    NotHeld = 10,
    BadEntry = 11,
    NotPossible = 12,
    ChargePending = 13,
    PeriodNotOver = 14,
    /// T-02, before row 1.
    FeederStopped = 15,
}
