//! Items and profiles as bytes: what is well-formed, and what it says.
//!
//! Document 01, sections "Units" and "Forms"; document 02, T-04 (kind 11).

use std::ops::{Add, RangeInclusive, Sub};

/// Clock readings, charged periods and elapsed times.
#[derive(Clone, Copy, PartialEq, Eq, PartialOrd, Ord, Debug)]
pub struct Tenths(pub u64);

/// The no-answer timer.
#[derive(Clone, Copy, PartialEq, Eq, PartialOrd, Ord, Debug)]
pub struct Seconds(pub u32);

/// Times are below this: an item has six bytes for one.
pub const TIME_END: Tenths = Tenths(1 << 48);
pub const PERIODS: RangeInclusive<Tenths> = Tenths(1)..=Tenths(864_000);
pub const LONGEST_TIMER: Seconds = Seconds(2047);
pub const DEFAULT_TIMERS: RangeInclusive<Seconds> = Seconds(10)..=Seconds(180);

impl Seconds {
    /// The only way from one unit to the other.
    pub fn tenths(self) -> Tenths {
        Tenths(u64::from(self.0) * 10)
    }
}

impl Add for Tenths {
    type Output = Tenths;
    fn add(self, other: Tenths) -> Tenths {
        Tenths(self.0 + other.0)
    }
}

impl Sub for Tenths {
    type Output = Tenths;
    fn sub(self, other: Tenths) -> Tenths {
        Tenths(self.0 - other.0)
    }
}

/// The kinds of items.
pub mod kind {
    pub const SETUP: u8 = 1;
    pub const ROUTE_FAILURE: u8 = 2;
    pub const BUSY: u8 = 3;
    pub const NO_ANSWER: u8 = 4;
    pub const SEIZED: u8 = 5;
    pub const ANSWER: u8 = 6;
    pub const MID_CALL: u8 = 7;
    pub const MOVED: u8 = 8;
    pub const CLEAR: u8 = 9;
    pub const PERIOD_OVER: u8 = 10;
    pub const TERMINATING_SETUP: u8 = 11;
    pub const REQUEST_REPORT: u8 = 20;
    pub const CONTINUE: u8 = 21;
    pub const CONNECT: u8 = 22;
    pub const RELEASE: u8 = 23;
    pub const APPLY_CHARGING: u8 = 24;
    pub const ACTIVITY_TEST: u8 = 25;
    pub const ABORT: u8 = 26;
}

/// What a length field can say. The paper names the item's range; the profile's
/// lies between no criteria at all and as many as the form takes.
pub const ITEM_LENGTHS: RangeInclusive<usize> = 14..=65;
pub const PROFILE_LENGTHS: RangeInclusive<usize> = 10..=188;

const VERSION: u8 = 1;
pub const NATURES: RangeInclusive<u8> = 0..=127;
pub const DIGIT_COUNTS: RangeInclusive<u8> = 1..=15;
pub const DIGITS: RangeInclusive<u8> = 0..=14;
pub const CAUSES: RangeInclusive<u8> = 0..=127;
const ENTRY_COUNTS: RangeInclusive<u8> = 1..=10;
pub const ENTRY_BYTES: usize = 5;
pub const NUMBER_COUNTS: RangeInclusive<u8> = 0..=10;
pub const LENGTH_COUNTS: RangeInclusive<u8> = 0..=3;
pub const SERVICE_COUNTS: RangeInclusive<u8> = 0..=5;

pub struct Item<'a> {
    pub call: u32,
    pub time: Tenths,
    pub body: Body<'a>,
}

pub enum Body<'a> {
    Setup(Setup<'a>),
    Other(Other<'a>),
}

/// Whose service it is: the caller's or the called party's.
#[derive(Clone, Copy, PartialEq, Eq, Debug)]
pub enum CallKind {
    Originating,
    Terminating,
}

impl CallKind {
    pub const BOTH: [CallKind; 2] = [CallKind::Originating, CallKind::Terminating];
}

pub struct Setup<'a> {
    pub call_kind: CallKind,
    pub number: Number<'a>,
    pub service: u8,
    pub forwarded: bool,
}

/// The items for a call that is open.
pub enum Other<'a> {
    Event(Event),
    PeriodOver(Leg),
    Operation(Operation<'a>),
}

#[allow(dead_code, reason = "no rule asks for causes and digits")]
pub enum Event {
    RouteFailure { cause: u8 },
    Busy { cause: u8 },
    NoAnswer,
    Seized,
    Answer,
    MidCall { digit: u8 },
    Moved,
    Clear { leg: Leg, cause: u8 },
}

pub enum Operation<'a> {
    RequestReport(Entries<'a>),
    Continue,
    Connect(Number<'a>),
    Release,
    ApplyCharging { leg: Leg, period: Tenths },
    ActivityTest,
    Abort,
}

#[derive(Clone, Copy, PartialEq, Eq, Debug)]
pub enum Leg {
    One,
    Two,
}

impl Leg {
    pub const BOTH: [Leg; 2] = [Leg::One, Leg::Two];

    pub const fn number(self) -> u8 {
        self as u8 + 1
    }
}

#[derive(Clone, Copy)]
pub struct Number<'a> {
    pub nature: u8,
    pub digits: &'a [u8],
}

/// The entries of a Request report, as they lie in the item.
#[derive(Clone, Copy)]
pub struct Entries<'a>(&'a [u8]);

/// One entry; its fields are of any value, and refusal 11 judges them.
#[derive(Clone, Copy)]
pub struct Entry {
    pub point: u8,
    pub leg: u8,
    pub mode: u8,
    pub timer: u16,
}

impl<'a> Entries<'a> {
    pub fn iter(self) -> impl Iterator<Item = Entry> + 'a {
        self.0.chunks_exact(ENTRY_BYTES).map(|bytes| Entry {
            point: bytes[0],
            leg: bytes[1],
            mode: bytes[2],
            timer: u16::from_be_bytes([bytes[3], bytes[4]]),
        })
    }
}

pub struct Profile<'a> {
    pub default_handling: Handling,
    pub default_timer: Seconds,
    pub number_sense: Sense,
    pub numbers: Vec<Number<'a>>,
    pub lengths: &'a [u8],
    pub services: &'a [u8],
    pub forwarding: Sense,
}

/// What becomes of the call when the service node aborts.
#[derive(Clone, Copy, PartialEq, Eq, Debug)]
pub enum Handling {
    Continue,
    Release,
}

#[derive(Clone, Copy, PartialEq, Eq, Debug)]
pub enum Sense {
    Absent,
    Enabling,
    Inhibiting,
}

/// The item that the bytes are, or nothing if they are malformed.
pub fn read_item(bytes: &[u8]) -> Option<Item<'_>> {
    let mut reader = Reader::open(bytes)?;
    let kind = reader.byte()?;
    let call = reader.number::<4>()? as u32;
    let time = Tenths(reader.number::<6>()?);
    let body = read_body(kind, &mut reader)?;
    reader.close()?;
    Some(Item { call, time, body })
}

/// The body of each kind.
fn read_body<'a>(kind: u8, reader: &mut Reader<'a>) -> Option<Body<'a>> {
    let event = |event| Body::Other(Other::Event(event));
    let operation = |operation| Body::Other(Other::Operation(operation));
    Some(match kind {
        kind::SETUP => Body::Setup(reader.setup(CallKind::Originating)?),
        kind::TERMINATING_SETUP => Body::Setup(reader.setup(CallKind::Terminating)?),
        kind::ROUTE_FAILURE => {
            let cause = reader.byte_in(CAUSES)?;
            event(Event::RouteFailure { cause })
        }
        kind::BUSY => {
            let cause = reader.byte_in(CAUSES)?;
            event(Event::Busy { cause })
        }
        kind::NO_ANSWER => event(Event::NoAnswer),
        kind::SEIZED => event(Event::Seized),
        kind::ANSWER => event(Event::Answer),
        kind::MID_CALL => {
            let digit = reader.byte_in(DIGITS)?;
            event(Event::MidCall { digit })
        }
        kind::MOVED => event(Event::Moved),
        kind::CLEAR => {
            let leg = reader.leg()?;
            let cause = reader.byte_in(CAUSES)?;
            event(Event::Clear { leg, cause })
        }
        kind::PERIOD_OVER => Body::Other(Other::PeriodOver(reader.leg()?)),
        kind::REQUEST_REPORT => operation(Operation::RequestReport(reader.entries()?)),
        kind::CONTINUE => operation(Operation::Continue),
        kind::CONNECT => operation(Operation::Connect(reader.called_number()?)),
        kind::RELEASE => operation(Operation::Release),
        kind::APPLY_CHARGING => {
            let leg = reader.leg()?;
            let period = reader.period()?;
            operation(Operation::ApplyCharging { leg, period })
        }
        kind::ACTIVITY_TEST => operation(Operation::ActivityTest),
        kind::ABORT => operation(Operation::Abort),
        _ => return None,
    })
}

/// The profile that the bytes are, or nothing if they are malformed.
pub fn read_profile(bytes: &[u8]) -> Option<Profile<'_>> {
    let mut reader = Reader::open(bytes)?;
    let profile = Profile {
        default_handling: reader.handling()?,
        default_timer: Seconds(reader.byte()?.into()),
        number_sense: reader.sense()?,
        numbers: reader.numbers()?,
        lengths: reader.counted(LENGTH_COUNTS)?,
        services: reader.counted(SERVICE_COUNTS)?,
        forwarding: reader.sense()?,
    };
    reader.close()?;
    let lengths_in_range = profile
        .lengths
        .iter()
        .all(|length| DIGIT_COUNTS.contains(length));
    let has_sense = profile.number_sense != Sense::Absent;
    let has_criteria = !profile.numbers.is_empty() || !profile.lengths.is_empty();
    let well_formed = DEFAULT_TIMERS.contains(&profile.default_timer)
        && lengths_in_range
        && has_sense == has_criteria;
    well_formed.then_some(profile)
}

/// The bytes not yet read.
pub struct Reader<'a>(pub &'a [u8]);

impl<'a> Reader<'a> {
    /// Items and profiles begin with their length and the version.
    fn open(bytes: &'a [u8]) -> Option<Reader<'a>> {
        let mut reader = Reader(bytes);
        let length = reader.number::<2>()?;
        let version = reader.byte()?;
        (length == bytes.len() as u64 && version == VERSION).then_some(reader)
    }

    /// Nothing may be left over.
    fn close(self) -> Option<()> {
        self.0.is_empty().then_some(())
    }

    pub fn bytes(&mut self, count: usize) -> Option<&'a [u8]> {
        let (bytes, rest) = self.0.split_at_checked(count)?;
        self.0 = rest;
        Some(bytes)
    }

    pub fn number<const WIDTH: usize>(&mut self) -> Option<u64> {
        let shift_in = |value: u64, byte: &u8| value << 8 | u64::from(*byte);
        Some(self.bytes(WIDTH)?.iter().fold(0, shift_in))
    }

    pub fn byte(&mut self) -> Option<u8> {
        self.bytes(1).map(|bytes| bytes[0])
    }

    fn byte_in(&mut self, range: RangeInclusive<u8>) -> Option<u8> {
        self.byte().filter(|byte| range.contains(byte))
    }

    /// A count and as many bytes.
    pub fn counted(&mut self, counts: RangeInclusive<u8>) -> Option<&'a [u8]> {
        let count = self.byte_in(counts)?;
        self.bytes(count.into())
    }

    fn setup(&mut self, call_kind: CallKind) -> Option<Setup<'a>> {
        let nature = self.byte_in(NATURES)?;
        let service = self.byte()?;
        let forwarded = self.byte_in(0..=1)? == 1;
        let digits = self.digits()?;
        Some(Setup {
            call_kind,
            number: Number { nature, digits },
            service,
            forwarded,
        })
    }

    fn digits(&mut self) -> Option<&'a [u8]> {
        let digits = self.counted(DIGIT_COUNTS)?;
        let in_range = digits.iter().all(|digit| DIGITS.contains(digit));
        in_range.then_some(digits)
    }

    fn called_number(&mut self) -> Option<Number<'a>> {
        let nature = self.byte_in(NATURES)?;
        let digits = self.digits()?;
        Some(Number { nature, digits })
    }

    fn numbers(&mut self) -> Option<Vec<Number<'a>>> {
        let count = self.byte_in(NUMBER_COUNTS)?;
        (0..count).map(|_| self.called_number()).collect()
    }

    fn leg(&mut self) -> Option<Leg> {
        match self.byte()? {
            1 => Some(Leg::One),
            2 => Some(Leg::Two),
            _ => None,
        }
    }

    fn entries(&mut self) -> Option<Entries<'a>> {
        let count = usize::from(self.byte_in(ENTRY_COUNTS)?);
        self.bytes(count * ENTRY_BYTES).map(Entries)
    }

    fn period(&mut self) -> Option<Tenths> {
        let period = Tenths(self.number::<4>()?);
        PERIODS.contains(&period).then_some(period)
    }

    fn handling(&mut self) -> Option<Handling> {
        match self.byte()? {
            0 => Some(Handling::Continue),
            1 => Some(Handling::Release),
            _ => None,
        }
    }

    fn sense(&mut self) -> Option<Sense> {
        match self.byte()? {
            0 => Some(Sense::Absent),
            1 => Some(Sense::Enabling),
            2 => Some(Sense::Inhibiting),
            _ => None,
        }
    }
}

/// An item with this head and body, whether well-formed or not: the test
/// commands write both sorts.
pub fn write_item(kind: u8, call: u32, time: u64, body: &[u8]) -> Vec<u8> {
    let mut content = vec![kind];
    content.extend(call.to_be_bytes());
    content.extend(&time.to_be_bytes()[2..]);
    content.extend(body);
    with_length_and_version(&content)
}

/// Puts length and version before the content of an item or a profile.
pub fn with_length_and_version(content: &[u8]) -> Vec<u8> {
    let mut bytes = Vec::with_capacity(content.len() + 3);
    bytes.extend((content.len() as u16 + 3).to_be_bytes());
    bytes.push(VERSION);
    bytes.extend(content);
    bytes
}
