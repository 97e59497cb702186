//! Random scenarios: interleaved calls, boundary values, malformed inputs.
//!
//! Purely random items are mostly refused. So this program's own engine runs
//! along, and an item is mostly one that is possible now.

use crate::compare::random::Random;
use crate::paper::answer::{Accepted, Answer, Refusal};
use crate::paper::call;
use crate::paper::forms::{
    kind, read_item, read_profile, with_length_and_version, write_item, Body, CallKind, Leg,
    TIME_END,
};
use crate::paper::record::{Hold, Part, Record, Relationship};
use crate::paper::table::{self, Entry, ENTRIES};

/// The kinds of items, and how often each is tried.
pub const KINDS: [(u8, u64); 18] = [
    (kind::SETUP, 1),
    (kind::TERMINATING_SETUP, 1),
    (kind::ROUTE_FAILURE, 2),
    (kind::BUSY, 2),
    (kind::NO_ANSWER, 2),
    (kind::SEIZED, 4),
    (kind::ANSWER, 4),
    (kind::MID_CALL, 2),
    (kind::MOVED, 2),
    (kind::CLEAR, 5),
    (kind::PERIOD_OVER, 4),
    (kind::REQUEST_REPORT, 9),
    (kind::CONTINUE, 4),
    (kind::CONNECT, 3),
    (kind::RELEASE, 1),
    (kind::APPLY_CHARGING, 6),
    (kind::ACTIVITY_TEST, 2),
    (kind::ABORT, 1),
];

/// Few items are refused for these, so that they are not left out.
const RARE_REFUSALS: [Refusal; 3] = [
    Refusal::BadEntry,
    Refusal::ChargePending,
    Refusal::PeriodNotOver,
];

/// In so many percent the called party hangs up next, if the call is held at a
/// point that it met.
const HANGS_UP: u64 = 20;

/// One scenario: a profile, then items, as the listing program takes them.
pub fn scenario(seed: u64) -> Vec<u8> {
    let mut random = Random::new(seed);
    let full = random.chance(4);
    let (calls, items) = match random.below(10) {
        _ if full => (65 + random.below(10), 150 + random.below(300)),
        0..=3 => (1, 10 + random.below(45)),
        4..=8 => (2 + random.below(3), 20 + random.below(45)),
        _ => (2 + random.below(64), 30 + random.below(120)),
    };
    let mut generator = Generator::new(random, calls as usize);
    let mut bytes = generator.profile.clone();
    for place in 0..items as usize {
        let item = match generator.calls.get(place) {
            Some(call) if full => generator.setup(*call),
            _ => generator.next_item(),
        };
        bytes.extend(generator.feed(item));
    }
    generator.end(&mut bytes);
    bytes
}

pub struct Generator {
    pub random: Random,
    pub profile: Vec<u8>,
    table: [Entry; ENTRIES],
    calls: Vec<u32>,
    clock: u64,
    /// Whether this item may still get a bad value. It gets one at most: two
    /// would hide each other.
    bad_value: bool,
}

impl Generator {
    pub fn new(mut random: Random, calls: usize) -> Generator {
        let calls = (0..calls as u32)
            .map(|place| match place {
                0 => random.pick(&[0, 7, u32::MAX]),
                1 => u32::MAX - 1,
                _ => 100 + place,
            })
            .collect();
        let clock = match random.below(10) {
            0 => 0,
            1 => TIME_END.0 - 1 - random.below(20_000),
            2 => random.below(TIME_END.0),
            _ => 1000,
        };
        let mut generator = Generator {
            random,
            profile: Vec::new(),
            table: table::fresh(),
            calls,
            clock,
            bad_value: false,
        };
        generator.profile = generator.new_profile();
        generator
    }

    /// A profile: often one that always triggers, seldom a malformed one.
    fn new_profile(&mut self) -> Vec<u8> {
        self.bad_value = self.random.chance(5);
        let handling = self.field(&[0, 1], &[2, 255]);
        let timer = self.field(&[10, 11, 120, 179, 180], &[0, 9, 181, 255]);
        let mut content = vec![handling, timer];
        match self.random.chance(50) {
            true => content.extend([0, 0, 0, 0, 0]),
            false => content.extend(self.criteria()),
        }
        let mut profile = with_length_and_version(&content);
        if self.bad_value {
            match self.random.chance(50) {
                true => spoil(&mut self.random, &mut profile),
                false => profile.truncate(self.random.below(profile.len() as u64) as usize),
            }
        }
        profile
    }

    /// The criteria of a profile, from the number sense on.
    fn criteria(&mut self) -> Vec<u8> {
        let longest = self.random.chance(5);
        let (numbers, lengths, services) = match longest {
            true => (10, 3, 5),
            false => (
                self.random.pick(&[0, 1, 2, 3, 10]),
                self.random.pick(&[0, 0, 1, 3]),
                self.random.pick(&[0, 0, 1, 5]),
            ),
        };
        let numbers = self.field(&[numbers], &[11]);
        let lengths = self.field(&[lengths], &[4]);
        let services = self.field(&[services], &[6]);
        let sense = match numbers + lengths {
            0 => self.field(&[0], &[1, 2, 3]),
            _ => self.field(&[1, 2], &[0, 3]),
        };
        let mut criteria = vec![sense, numbers];
        for _ in 0..numbers {
            let (nature, mut digits) = number(&mut self.random);
            match longest {
                true => digits.resize(15, 0),
                false => digits.truncate(self.random.pick(&[1, 2, 15])),
            }
            digits[0] = self.field(&[digits[0]], &[15, 255]);
            criteria.push(self.field(&[nature], &[128, 255]));
            criteria.extend(self.counted(digits));
        }
        criteria.push(lengths);
        criteria.extend((0..lengths).map(|_| self.field(&[1, 2, 11, 14, 15], &[0, 16])));
        criteria.push(services);
        criteria.extend((0..services).map(|_| self.random.pick(&[0, 17, 20, 255])));
        criteria.push(self.field(&[0, 0, 0, 1, 2], &[3, 255]));
        criteria
    }

    /// The next item of a scenario, for one of its calls.
    fn next_item(&mut self) -> Vec<u8> {
        let call = self.random.pick(&self.calls);
        let owned = self.table.iter().find(|entry| entry.owner == Some(call));
        match owned.map(|entry| entry.record) {
            Some(record) => self.possible_item(call, &record),
            None if self.random.chance(90) => self.setup(call),
            None => self.any_item(call, None),
        }
    }

    /// A Setup of either kind.
    pub fn setup(&mut self, call: u32) -> Vec<u8> {
        let kind = self.random.pick(&[kind::SETUP, kind::TERMINATING_SETUP]);
        self.item(kind, call, None)
    }

    /// An item that the call mostly accepts, and that mostly leaves a
    /// relationship if there was one; but for a Clear while the call is held, and
    /// what is reported at the end of a call, which both are rare as it is. Of a call
    /// held at a met point the called party often hangs up, possible or not.
    pub fn possible_item(&mut self, call: u32, record: &Record) -> Vec<u8> {
        if is_held_at_met_point(record) && self.random.chance(HANGS_UP) {
            return self.hang_up(call, record);
        }
        loop {
            let item = self.any_item(call, Some(record));
            let percent = match try_item(record, &item) {
                Some(Ok(answer)) if answer.over && is_rare(record, &item, &answer) => 60,
                Some(Ok(answer)) if loses_relationship(record, &answer) => 15,
                Some(Ok(_)) => 100,
                Some(Err(refusal)) if RARE_REFUSALS.contains(&refusal) => 50,
                Some(Err(_)) | None => 3,
            };
            if self.random.chance(percent) {
                return item;
            }
        }
    }

    /// The called party hangs up, whether that is possible now or not.
    pub fn hang_up(&mut self, call: u32, record: &Record) -> Vec<u8> {
        self.bad_value = false;
        let body = [Leg::Two.number(), self.cause()];
        write_item(kind::CLEAR, call, self.time(Some(record)), &body)
    }

    /// An item of any kind.
    pub fn any_item(&mut self, call: u32, record: Option<&Record>) -> Vec<u8> {
        let sum = KINDS.iter().map(|(_, weight)| weight).sum();
        let mut place = self.random.below(sum);
        for (kind, weight) in KINDS {
            if place < weight {
                return self.item(kind, call, record);
            }
            place -= weight;
        }
        unreachable!("the place is below the sum of the weights")
    }

    /// An item of this kind, with boundary values.
    pub fn item(&mut self, kind: u8, call: u32, record: Option<&Record>) -> Vec<u8> {
        self.bad_value = self.random.chance(12);
        let mut time = self.time(record);
        let body = match kind {
            kind::SETUP | kind::TERMINATING_SETUP => {
                let (nature, digits) = self.number();
                let service = self.random.pick(&[0, 17, 17, 20, 255]);
                let forwarded = self.field(&[0, 1], &[2, 255]);
                [vec![nature, service, forwarded], self.counted(digits)].concat()
            }
            kind::ROUTE_FAILURE | kind::BUSY => vec![self.cause()],
            kind::MID_CALL => vec![self.field(&[0, 1, 9, 14], &[15, 255])],
            kind::CLEAR => vec![self.leg(), self.cause()],
            kind::PERIOD_OVER => {
                let leg = self.leg();
                time = self.time_of_period_over(record, leg).unwrap_or(time);
                vec![leg]
            }
            kind::REQUEST_REPORT => {
                let either = self.random.pick(&CallKind::BOTH);
                self.entries(record.map_or(either, |record| record.call_kind))
            }
            kind::CONNECT => {
                let (nature, digits) = self.number();
                [vec![nature], self.counted(digits)].concat()
            }
            kind::APPLY_CHARGING => {
                let periods = [1, 2, 10, 600, 863_999, 864_000];
                let period = self.field(&periods, &[0, 864_001, u32::MAX]);
                [&[self.leg()], &period.to_be_bytes()[..]].concat()
            }
            _ => vec![],
        };
        let mut item = write_item(kind, call, time, &body);
        if self.bad_value && self.random.chance(30) {
            spoil(&mut self.random, &mut item);
        }
        item
    }

    /// Mostly the call's last time or a little later, sometimes before it.
    fn time(&mut self, record: Option<&Record>) -> u64 {
        let last = record.map_or(self.clock, |record| record.last.0);
        let time = match self.random.below(40) {
            0 => last.saturating_sub(1),
            1 => self.clock,
            2 => self.random.below(TIME_END.0),
            _ => last + self.random.pick(&[0, 0, 1, 7, 10, 300, 599, 601]),
        };
        time.min(TIME_END.0 - 1)
    }

    /// Around the end of the period, if the charge runs.
    fn time_of_period_over(&mut self, record: Option<&Record>, leg: u8) -> Option<u64> {
        let record = record?;
        let [charge_1, charge_2] = record.charges;
        let charge = if leg == 1 { charge_1? } else { charge_2? };
        let end = charge.start?.0 + charge.period.0;
        let time = self.random.pick(&[end - 1, end, end, end + 1]);
        Some(time.max(record.last.0).min(TIME_END.0 - 1))
    }

    /// A value of a field, mostly a good one.
    fn field<T: Copy>(&mut self, good: &[T], bad: &[T]) -> T {
        if self.bad_value && self.random.chance(20) {
            self.bad_value = false;
            self.random.pick(bad)
        } else {
            self.random.pick(good)
        }
    }

    fn leg(&mut self) -> u8 {
        self.field(&[1, 2], &[0, 3, 255])
    }

    fn cause(&mut self) -> u8 {
        self.field(&[0, 16, 127], &[128, 255])
    }

    /// A number: often one that a stored number of the profile nearly matches.
    fn number(&mut self) -> (u8, Vec<u8>) {
        let stored = read_profile(&self.profile).map_or(vec![], |profile| profile.numbers);
        let (nature, mut digits) = if !stored.is_empty() && self.random.chance(70) {
            let stored = self.random.pick(&stored);
            (stored.nature, stored.digits.to_vec())
        } else {
            number(&mut self.random)
        };
        match self.random.below(6) {
            0 if digits.len() > 1 => drop(digits.pop()),
            1 => digits[0] = self.random.below(15) as u8,
            2 => digits.resize(15, 5),
            3 if digits.len() < 15 => digits.push(14),
            _ => {}
        }
        let nature = self.field(&[nature, nature, nature, 1, 127], &[128, 255]);
        digits[0] = self.field(&[digits[0]], &[15, 255]);
        (nature, digits)
    }

    /// The count and the digits; a bad count may still go with its digits.
    fn counted(&mut self, mut digits: Vec<u8>) -> Vec<u8> {
        let count = digits.len() as u8;
        let count = self.field(&[count], &[0, 16, count - 1, count + 1]);
        if self.random.chance(50) {
            digits.resize(count.into(), 1);
        }
        [&[count], &digits[..]].concat()
    }

    /// The count and the entries of a Request report for a call of this kind.
    fn entries(&mut self, call_kind: CallKind) -> Vec<u8> {
        let mut armable = Part::ALL.to_vec();
        armable.retain(|part| call_kind.point(*part).is_some());
        let count = match self.random.below(10) {
            0 => armable.len() as u8,
            _ => 1 + self.random.below(5) as u8,
        };
        let count = self.field(&[count], &[0, 10, 11]);
        let first = self.random.below(armable.len() as u64) as usize;
        // These steps go through all the pairs, nine or ten; the bad ones name one
        // twice.
        let step = self.field(&[1, 7, 11, 13], &[0, 15]);
        let mut body = vec![count];
        for place in 0..usize::from(count) {
            let part = armable[(first + place * step) % armable.len()];
            body.extend(self.entry(call_kind, part));
        }
        body
    }

    fn entry(&mut self, call_kind: CallKind, part: Part) -> Vec<u8> {
        let (number, leg) = self.pair(call_kind, part);
        let mode = match part {
            Part::Moved => self.field(&[1, 1, 2], &[0, 3]),
            _ => self.field(&[0, 0, 1, 1, 2], &[3, 255]),
        };
        let timer: u16 = match part {
            Part::NoAnswer if mode < 2 => self.field(&[0, 1, 30, 2046, 2047], &[2048, 65535]),
            _ => self.field(&[0], &[1, 2047, 65535]),
        };
        let number = self.field(&[number], &[0, 2, 3, 12, 20, 255]);
        let leg = self.field(&[leg], &[0, 1, 2, 3]);
        [&[number, leg, mode], &timer.to_be_bytes()[..]].concat()
    }

    /// The part's point and leg; a bad value is any pair of the other kind of
    /// call.
    fn pair(&mut self, call_kind: CallKind, part: Part) -> (u8, u8) {
        let pairs = |kind: CallKind, parts: &[Part]| -> Vec<(u8, u8)> {
            let points = parts.iter().filter_map(|part| kind.point(*part));
            points
                .map(|point| (point.number, point.leg.number()))
                .collect()
        };
        let other = match call_kind {
            CallKind::Originating => CallKind::Terminating,
            CallKind::Terminating => CallKind::Originating,
        };
        self.field(&pairs(call_kind, &[part]), &pairs(other, &Part::ALL))
    }

    /// Lets the engine run along.
    fn feed(&mut self, item: Vec<u8>) -> Vec<u8> {
        let answer = table::feed_sound(&mut self.table, &item, &self.profile);
        if let (Ok(_), Some(item)) = (answer, read_item(&item)) {
            self.clock = item.time.0;
        }
        item
    }

    /// The end of the input: now and then cut, or with a bad length field.
    fn end(&mut self, bytes: &mut Vec<u8>) {
        match self.random.below(12) {
            0 => bytes.truncate(bytes.len() - 1 - self.random.below(13) as usize),
            1 => {
                let length: u16 = self.random.pick(&[0, 1, 2, 13, 66, 255, 256 + 14, 65535]);
                bytes.extend(length.to_be_bytes());
                bytes.extend(vec![1; self.random.below(80) as usize]);
            }
            2 => bytes.push(0),
            _ => {}
        }
    }
}

/// The answer of the call by itself, if the item is one for an open call.
fn try_item(record: &Record, item: &[u8]) -> Option<Answer> {
    let item = read_item(item)?;
    match item.body {
        Body::Setup(_) => None,
        Body::Other(other) => Some(call::step(&mut record.clone(), item.time, &other)),
    }
}

/// An event that is reported, or a Clear that finds the call held at a point that
/// it met.
fn is_rare(record: &Record, item: &[u8], answer: &Accepted) -> bool {
    answer.event_report.is_some() || is_held_at_met_point(record) && item[3] == kind::CLEAR
}

fn is_held_at_met_point(record: &Record) -> bool {
    matches!(record.hold, Some(Hold::At(_)))
}

fn loses_relationship(record: &Record, answer: &Accepted) -> bool {
    record.relationship() != Relationship::None && answer.relationship == Relationship::None
}

fn number(random: &mut Random) -> (u8, Vec<u8>) {
    let nature = random.pick(&[0, 1, 4, 4, 127]);
    let count = random.pick(&[1, 2, 3, 5, 11, 14, 15]);
    let digits = (0..count).map(|_| random.below(15) as u8).collect();
    (nature, digits)
}

/// Makes an item or a profile malformed, or at least another one.
fn spoil(random: &mut Random, bytes: &mut Vec<u8>) {
    let place = 2 + random.below(bytes.len() as u64 - 2) as usize;
    match random.below(5) {
        0 => bytes[2] = random.pick(&[0, 2, 255]),
        1 => bytes[3] = random.pick(&[0, 2, 11, 12, 19, 27, 255]),
        2 => bytes[place] = random.pick(&[0, 1, 2, 3, 9, 10, 11, 15, 16, 128, 181, 255]),
        3 => bytes.push(random.below(2) as u8),
        _ => drop(bytes.pop()),
    }
    // Mostly the length field goes with it, so that the next item is found.
    if random.chance(90) {
        let length = bytes.len() as u16;
        bytes[..2].copy_from_slice(&length.to_be_bytes());
    }
}
