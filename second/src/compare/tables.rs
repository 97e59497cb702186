//! Whole tables handed in: the form of a case, and the program that answers
//! cases.
//!
//! A case is its length (2 bytes), the number of entries (1), the entries (88
//! each), the length of a profile (1), the profile, and an item. The answer is
//! a line of the listing and then the entries as they are afterwards.
//!
//! The armings and the hold are those of parts, in the same places whatever the
//! kind of call, and a terminating call's bytes have a place for Route failure
//! too. The last byte is the kind of call: 0 originating, 1 terminating.

use crate::paper::answer::Answer;
use crate::paper::forms::{CallKind, Handling, Reader, Seconds, Tenths};
use crate::paper::listing;
use crate::paper::record::{Armings, CalledNumber, Charge, Hold, Mode, Part, Record, Stage};
use crate::paper::table::{self, Entry};

pub const ENTRY_BYTES: usize = 88;

pub struct Case {
    pub table: Vec<Entry>,
    pub profile: Vec<u8>,
    pub item: Vec<u8>,
}

impl Case {
    pub fn bytes(&self) -> Vec<u8> {
        let mut content = vec![self.table.len() as u8];
        write_entries(&self.table, &mut content);
        content.push(self.profile.len() as u8);
        content.extend(&self.profile);
        content.extend(&self.item);
        let length = content.len() as u16 + 2;
        [&length.to_be_bytes(), &content[..]].concat()
    }

    fn read(bytes: &[u8]) -> Option<Case> {
        let mut reader = Reader(bytes);
        reader.number::<2>()?;
        let count = reader.byte()?;
        let entries = (0..count).map(|_| read_entry(reader.bytes(ENTRY_BYTES)?));
        let table = entries.collect::<Option<Vec<Entry>>>()?;
        let profile = reader.counted(0..=u8::MAX)?.to_vec();
        let item = reader.0.to_vec();
        Some(Case {
            table,
            profile,
            item,
        })
    }
}

/// What is written of case NUMBER: the line, and the table afterwards.
pub fn output_of(number: u64, answer: &Answer, table: &[Entry]) -> Vec<u8> {
    let mut output = Vec::new();
    listing::push_line(&mut output, number, answer);
    write_entries(table, &mut output);
    output
}

/// The answers to all the cases of an input.
pub fn run(input: &[u8]) -> Result<Vec<u8>, String> {
    let mut output = Vec::new();
    let mut rest = input;
    for number in 1.. {
        let [high, low, ..] = rest else { break };
        let length = usize::from(u16::from_be_bytes([*high, *low]));
        let (case, after) = rest.split_at_checked(length).unwrap_or_default();
        let mut case = Case::read(case).ok_or(format!("case {number} cannot be read"))?;
        let answer = table::feed(&mut case.table, &case.item, &case.profile);
        output.extend(output_of(number, &answer, &case.table));
        rest = after;
    }
    Ok(output)
}

fn write_entries(table: &[Entry], bytes: &mut Vec<u8>) {
    for entry in table {
        write_entry(entry, bytes);
    }
}

fn write_entry(entry: &Entry, bytes: &mut Vec<u8>) {
    let record = &entry.record;
    bytes.push(entry.owner.is_some().into());
    bytes.extend(entry.owner.unwrap_or(0).to_be_bytes());
    bytes.push(record.stage as u8);
    for (present, charge) in record.present.into_iter().zip(record.charges) {
        bytes.push(present.into());
        write_charge(charge, bytes);
    }
    bytes.push(match record.hold {
        None => 0,
        Some(Hold::Trigger) => 1,
        Some(Hold::At(part)) => part as u8 + 2,
    });
    bytes.extend(record.last.0.to_be_bytes());
    for part in Part::ALL {
        bytes.push(record.armings.get(part).map_or(0, |mode| mode as u8 + 1));
    }
    bytes.extend(record.kept_timer.0.to_be_bytes());
    bytes.extend(record.default_timer.0.to_be_bytes());
    bytes.push(record.default_handling as u8);
    bytes.extend([record.called.nature, record.called.count]);
    bytes.extend(record.called.places);
    bytes.push(record.call_kind as u8);
}

fn write_charge(charge: Option<Charge>, bytes: &mut Vec<u8>) {
    let (state, period, start) = match charge {
        None => (0, Tenths(0), Tenths(0)),
        Some(Charge {
            period,
            start: None,
        }) => (1, period, Tenths(0)),
        Some(Charge {
            period,
            start: Some(start),
        }) => (2, period, start),
    };
    bytes.push(state);
    bytes.extend(period.0.to_be_bytes());
    bytes.extend(start.0.to_be_bytes());
}

/// Nothing if a byte is out of its enumeration.
pub fn read_entry(bytes: &[u8]) -> Option<Entry> {
    let reader = &mut Reader(bytes);
    let owned = read_flag(reader)?;
    let call = reader.number::<4>()? as u32;
    let stage = match reader.byte()? {
        0 => Stage::Analysing,
        1 => Stage::Alerting,
        2 => Stage::Active,
        _ => return None,
    };
    let (present_1, charge_1) = (read_flag(reader)?, read_charge(reader)?);
    let (present_2, charge_2) = (read_flag(reader)?, read_charge(reader)?);
    let hold = match reader.byte()? {
        0 => None,
        1 => Some(Hold::Trigger),
        place => Some(Hold::At(*Part::ALL.get(usize::from(place) - 2)?)),
    };
    let last = Tenths(reader.number::<8>()?);
    let mut armings = Armings::NONE;
    for part in Part::ALL {
        let mode = match reader.byte()? {
            0 => None,
            1 => Some(Mode::Interrupted),
            2 => Some(Mode::Notify),
            _ => return None,
        };
        armings.set(part, mode);
    }
    let kept_timer = Seconds(reader.number::<4>()? as u32);
    let default_timer = Seconds(reader.number::<4>()? as u32);
    let default_handling = match reader.byte()? {
        0 => Handling::Continue,
        1 => Handling::Release,
        _ => return None,
    };
    let called = CalledNumber {
        nature: reader.byte()?,
        count: reader.byte()?,
        places: reader.bytes(15)?.try_into().ok()?,
    };
    let call_kind = match reader.byte()? {
        0 => CallKind::Originating,
        1 => CallKind::Terminating,
        _ => return None,
    };
    Some(Entry {
        owner: owned.then_some(call),
        record: Record {
            call_kind,
            stage,
            present: [present_1, present_2],
            hold,
            last,
            armings,
            charges: [charge_1, charge_2],
            kept_timer,
            default_timer,
            default_handling,
            called,
        },
    })
}

fn read_flag(reader: &mut Reader) -> Option<bool> {
    match reader.byte()? {
        0 => Some(false),
        1 => Some(true),
        _ => None,
    }
}

/// Nothing if the state is out of its enumeration; else a charge or none.
fn read_charge(reader: &mut Reader) -> Option<Option<Charge>> {
    let state = reader.byte()?;
    let period = Tenths(reader.number::<8>()?);
    let start = Tenths(reader.number::<8>()?);
    match state {
        0 => Some(None),
        1 => Some(Some(Charge {
            period,
            start: None,
        })),
        2 => Some(Some(Charge {
            period,
            start: Some(start),
        })),
        _ => None,
    }
}
