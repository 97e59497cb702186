//! The call table, and feeding an item to it.
//!
//! Document 01, section "The call table", and the rows 1 to 6 of "Numbered
//! refusals"; document 02, T-04: the point pairs of row 3.

use crate::paper::answer::{Answer, Refusal};
use crate::paper::call;
use crate::paper::forms::{
    read_item, read_profile, Body, Item, Other, Profile, Setup, Tenths, DEFAULT_TIMERS, DIGITS,
    DIGIT_COUNTS, LONGEST_TIMER, NATURES, PERIODS, TIME_END,
};
use crate::paper::record::{CalledNumber, Charge, Hold, Mode, Part, Record};

pub const ENTRIES: usize = 64;

#[derive(Clone, Copy, PartialEq, Eq, Debug)]
pub struct Entry {
    /// The call that owns the entry, or none if it is free.
    pub owner: Option<u32>,
    pub record: Record,
}

impl Entry {
    pub const FREE: Entry = Entry {
        owner: None,
        record: Record::BLANK,
    };
}

pub fn fresh() -> [Entry; ENTRIES] {
    [Entry::FREE; ENTRIES]
}

/// Feeds any item to any table, a Setup with any profile.
pub fn feed(table: &mut [Entry], item: &[u8], profile: &[u8]) -> Answer {
    let request = request(read(item)?, profile)?;
    if !is_sound(table) {
        return Err(Refusal::TableUnsound);
    }
    serve(table, request)
}

/// The same for a table that is known to be sound.
pub fn feed_sound(table: &mut [Entry], item: &[u8], profile: &[u8]) -> Answer {
    feed_read(table, read(item)?, profile)
}

/// The same for an item that has been read.
pub fn feed_read(table: &mut [Entry], item: Item, profile: &[u8]) -> Answer {
    serve(table, request(item, profile)?)
}

/// A well-formed item; a Setup with its well-formed profile.
struct Request<'a> {
    call: u32,
    time: Tenths,
    body: RequestBody<'a>,
}

enum RequestBody<'a> {
    Setup(Setup<'a>, Profile<'a>),
    Other(Other<'a>),
}

/// Row 1.
fn read(item: &[u8]) -> Result<Item<'_>, Refusal> {
    read_item(item).ok_or(Refusal::ItemMalformed)
}

/// Row 2.
fn request<'a>(item: Item<'a>, profile: &'a [u8]) -> Result<Request<'a>, Refusal> {
    let body = match item.body {
        Body::Setup(setup) => {
            let profile = read_profile(profile).ok_or(Refusal::ProfileMalformed)?;
            RequestBody::Setup(setup, profile)
        }
        Body::Other(other) => RequestBody::Other(other),
    };
    Ok(Request {
        call: item.call,
        time: item.time,
        body,
    })
}

/// Rows 4 to 6, and then the one call.
fn serve(table: &mut [Entry], request: Request) -> Answer {
    let open = table
        .iter_mut()
        .find(|entry| entry.owner == Some(request.call));
    match request.body {
        RequestBody::Setup(setup, profile) => {
            if open.is_some() {
                return Err(Refusal::CallAlreadyOpen);
            }
            let lowest_free = table.iter_mut().find(|entry| entry.owner.is_none());
            let entry = lowest_free.ok_or(Refusal::NoRoom)?;
            let (record, answer) = call::set_up(&setup, request.time, &profile);
            entry.owner = Some(request.call);
            entry.record = record;
            Ok(answer)
        }
        RequestBody::Other(other) => {
            let entry = open.ok_or(Refusal::CallNotOpen)?;
            let answer = call::step(&mut entry.record, request.time, &other)?;
            if answer.over {
                *entry = Entry::FREE;
            }
            Ok(answer)
        }
    }
}

/// Row 3.
fn is_sound(table: &[Entry]) -> bool {
    let Ok(table) = <&[Entry; ENTRIES]>::try_from(table) else {
        return false;
    };
    table.iter().all(entry_is_sound) && !has_call_twice(table)
}

fn has_call_twice(table: &[Entry; ENTRIES]) -> bool {
    let mut calls = [0; ENTRIES];
    let mut count = 0;
    for call in table.iter().filter_map(|entry| entry.owner) {
        calls[count] = call;
        count += 1;
    }
    let calls = &mut calls[..count];
    calls.sort_unstable();
    calls.windows(2).any(|pair| pair[0] == pair[1])
}

fn entry_is_sound(entry: &Entry) -> bool {
    match entry.owner {
        None => is_blank(&entry.record),
        Some(_) => record_is_in_range(&entry.record),
    }
}

/// The same as `Record::BLANK`, field by field: the compiler calls the comparison
/// of whole records as a function, and most of a table is free.
fn is_blank(record: &Record) -> bool {
    let Record {
        call_kind,
        stage,
        present,
        hold,
        last,
        armings,
        charges,
        kept_timer,
        default_timer,
        default_handling,
        called,
    } = record;
    let blank = Record::BLANK;
    *call_kind == blank.call_kind
        && *stage == blank.stage
        && *present == blank.present
        && hold.is_none()
        && *last == blank.last
        && *armings == blank.armings
        && charges.iter().all(Option::is_none)
        && *kept_timer == blank.kept_timer
        && *default_timer == blank.default_timer
        && *default_handling == blank.default_handling
        && *called == blank.called
}

fn record_is_in_range(record: &Record) -> bool {
    hold_is_in_range(record)
        && record.last < TIME_END
        && armings_are_in_range(record)
        && record
            .charges
            .iter()
            .flatten()
            .all(|charge| charge_is_in_range(charge, record.last))
        && record.kept_timer <= LONGEST_TIMER
        && DEFAULT_TIMERS.contains(&record.default_timer)
        && number_is_in_range(&record.called)
}

/// A call is held where it was triggered, or at a point that can interrupt it.
fn hold_is_in_range(record: &Record) -> bool {
    match record.hold {
        None | Some(Hold::Trigger) => true,
        Some(Hold::At(part)) => record.call_kind.can_arm(part, Mode::Interrupted),
    }
}

fn armings_are_in_range(record: &Record) -> bool {
    let can_arm = |part, mode| record.call_kind.can_arm(part, mode);
    Part::ALL.into_iter().all(|part| {
        record
            .armings
            .get(part)
            .is_none_or(|mode| can_arm(part, mode))
    })
}

/// The start is not later than the last time, so it is below 2^48 too.
fn charge_is_in_range(charge: &Charge, last: Tenths) -> bool {
    PERIODS.contains(&charge.period) && charge.start.is_none_or(|start| start <= last)
}

fn number_is_in_range(number: &CalledNumber) -> bool {
    let Some((digits, past)) = number.places.split_at_checked(number.count.into()) else {
        return false;
    };
    NATURES.contains(&number.nature)
        && DIGIT_COUNTS.contains(&number.count)
        && digits.iter().all(|digit| DIGITS.contains(digit))
        && past.iter().all(|place| *place == 0)
}
