//! A program that is handed whole tables, and this one, on the same cases:
//! sound tables with any records in range, and tables that refusal 3 is for.
//!
//! Document 01, section "The call table", and row 3 of "Numbered refusals";
//! document 02, T-04: tables that mix both kinds of call; T-05: called parties that
//! hang up where no run holds the call.

use crate::compare::counts::{self, Counts};
use crate::compare::coverage::{of_kind, refusal_form, MODES};
use crate::compare::generate::{Generator, KINDS};
use crate::compare::hung_up;
use crate::compare::program::{Answers, Input, Program};
use crate::compare::random::Random;
use crate::compare::shown;
use crate::compare::tables::{self, read_entry, Case, ENTRY_BYTES};
use crate::output;
use crate::paper::answer::{Answer, Refusal};
use crate::paper::forms::{
    kind, read_item, Body, CallKind, Handling, Item, Leg, Seconds, Tenths, TIME_END,
};
use crate::paper::record::{Armings, CalledNumber, Charge, Hold, Mode, Part, Record, Stage};
use crate::paper::table::{self, Entry, ENTRIES};
use crate::texts;
use std::io::Write;
use std::ops::Range;

/// Tables of a wrong number of records.
const WRONG_COUNTS: [(&str, &[usize]); 5] = [
    ("0 records", &[0]),
    ("1 record", &[1]),
    ("63 records", &[63]),
    ("65 records", &[65]),
    ("other number of records", &[2, 32, 62, 66, 99, 100]),
];

/// What can be wrong with one record.
type Damage = (&'static str, fn(&mut Random, &mut Record));

/// A record that a call owns, with one field out of range.
const OUT_OF_RANGE: [Damage; 23] = [
    ("hold at 50", |_, record| {
        hold_wrongly(record, CallKind::Originating, Part::Moved)
    }),
    ("hold at 51", |_, record| {
        hold_wrongly(record, CallKind::Terminating, Part::Moved)
    }),
    ("terminating hold at Route failure", |_, record| {
        hold_wrongly(record, CallKind::Terminating, Part::RouteFailure)
    }),
    ("50 armed in mode 0", |_, record| {
        become_kind(record, CallKind::Originating);
        record.armings.set(Part::Moved, Some(Mode::Interrupted));
    }),
    ("51 armed in mode 0", |_, record| {
        become_kind(record, CallKind::Terminating);
        record.armings.set(Part::Moved, Some(Mode::Interrupted));
    }),
    ("terminating Route failure armed in mode 0", |_, record| {
        become_kind(record, CallKind::Terminating);
        let mode = Some(Mode::Interrupted);
        record.armings.set(Part::RouteFailure, mode);
    }),
    ("terminating Route failure armed in mode 1", |_, record| {
        become_kind(record, CallKind::Terminating);
        record.armings.set(Part::RouteFailure, Some(Mode::Notify));
    }),
    ("last time too late", |random, record| {
        record.last = Tenths(random.pick(&[TIME_END.0, u64::MAX]));
    }),
    ("leg 1's period 0", |_, record| {
        pending(record, Leg::One).period = Tenths(0)
    }),
    ("leg 2's period 0", |_, record| {
        pending(record, Leg::Two).period = Tenths(0)
    }),
    ("leg 1's period too long", |random, record| {
        pending(record, Leg::One).period = too_long(random);
    }),
    ("leg 2's period too long", |random, record| {
        pending(record, Leg::Two).period = too_long(random);
    }),
    ("leg 1's start too late", |random, record| {
        pending(record, Leg::One).start = Some(later(random, record.last));
    }),
    ("leg 2's start too late", |random, record| {
        pending(record, Leg::Two).start = Some(later(random, record.last));
    }),
    ("kept timer too long", |random, record| {
        record.kept_timer = Seconds(random.pick(&[2048, u32::MAX]));
    }),
    ("default timer too short", |random, record| {
        record.default_timer = Seconds(random.pick(&[0, 9]));
    }),
    ("default timer too long", |random, record| {
        record.default_timer = Seconds(random.pick(&[181, 256 + 120, u32::MAX]));
    }),
    ("nature too large", |random, record| {
        record.called.nature = random.pick(&[128, 255])
    }),
    ("digit count 0", |_, record| {
        record.called.count = 0;
        record.called.places = [0; 15];
    }),
    ("digit count too large", |random, record| {
        record.called.count = random.pick(&[16, 255])
    }),
    ("first digit too large", |random, record| {
        record.called.places[0] = random.pick(&[15, 255])
    }),
    ("last digit too large", |random, record| {
        record.called.places[usize::from(record.called.count) - 1] = random.pick(&[15, 255]);
    }),
    ("digit past the count", |random, record| {
        let count = record.called.count.min(14);
        record.called.count = count;
        record.called.places[usize::from(count)..].fill(0);
        let place = u64::from(count) + random.below(15 - u64::from(count));
        record.called.places[place as usize] = random.pick(&[1, 14, 255]);
    }),
];

/// A free record with one field not blank.
const NOT_BLANK: [Damage; 15] = [
    ("free and terminating", |_, record| {
        record.call_kind = CallKind::Terminating
    }),
    ("free with a stage", |random, record| {
        record.stage = random.pick(&[Stage::Alerting, Stage::Active]);
    }),
    ("free with leg 1", |_, record| record.present[0] = true),
    ("free with leg 2", |_, record| record.present[1] = true),
    ("free with a hold", |random, record| {
        record.hold = Some(Hold::At(random.pick(&Part::ALL)))
    }),
    ("free with a last time", |random, record| {
        record.last = Tenths(random.pick(&[1, u64::MAX]))
    }),
    ("free with an arming", |random, record| {
        record
            .armings
            .set(random.pick(&Part::ALL), Some(random.pick(&Mode::BOTH)));
    }),
    ("free with leg 1's charge", |random, record| {
        pending(record, Leg::One).period = Tenths(random.below(2));
    }),
    ("free with leg 2's charge", |random, record| {
        pending(record, Leg::Two).period = Tenths(random.below(2));
    }),
    ("free with a kept timer", |_, record| {
        record.kept_timer = Seconds(1)
    }),
    ("free with a default timer", |random, record| {
        record.default_timer = Seconds(random.pick(&[1, 120]));
    }),
    ("free with a default handling", |_, record| {
        record.default_handling = Handling::Release
    }),
    ("free with a nature", |_, record| record.called.nature = 1),
    ("free with a digit count", |_, record| {
        record.called.count = 1
    }),
    ("free with a digit", |random, record| {
        record.called.places[random.below(15) as usize] = 1;
    }),
];

const ONE_CALL_TWICE: &str = "one call twice";
/// So many percent of the calls are terminating.
const EITHER_KIND: u64 = 50;

/// Makes the record one of the other kind of call, if it is none, and leaves it
/// in range.
fn become_kind(record: &mut Record, call_kind: CallKind) {
    record.call_kind = call_kind;
    if call_kind == CallKind::Terminating {
        record.armings.set(Part::RouteFailure, None);
        record.hold = record
            .hold
            .filter(|hold| *hold != Hold::At(Part::RouteFailure));
    }
}

fn hold_wrongly(record: &mut Record, call_kind: CallKind, part: Part) {
    become_kind(record, call_kind);
    record.hold = Some(Hold::At(part));
}

/// The charge of the leg; one is put there if none is pending.
fn pending(record: &mut Record, leg: Leg) -> &mut Charge {
    record.charges[leg as usize].get_or_insert(Charge {
        period: Tenths(600),
        start: None,
    })
}

fn too_long(random: &mut Random) -> Tenths {
    Tenths(random.pick(&[864_001, u64::MAX]))
}

fn later(random: &mut Random, last: Tenths) -> Tenths {
    Tenths(random.pick(&[last.0 + 1, u64::MAX]))
}

/// A case, and the names of what is wrong with its table.
fn generate(seed: u64) -> (Case, Vec<&'static str>) {
    let mut random = Random::new(seed);
    let mut table = sound_table(&mut random);
    let item_call = call_of_item(&mut random, &table);
    let mut generator = Generator::new(random, 1);
    let mut entries = table.iter_mut();
    let item = match entries.find(|entry| entry.owner == Some(item_call)) {
        Some(entry) => item_for(&mut generator, item_call, &mut entry.record),
        None if generator.random.chance(10) => generator.any_item(item_call, None),
        None => generator.setup(item_call),
    };
    let item = match generator.random.below(40) {
        0 => item[..generator.random.below(item.len() as u64) as usize].to_vec(),
        1 => [&item[..], &[0]].concat(),
        _ => item,
    };
    let damages = match generator.random.below(20) {
        0..=16 => 0,
        17 | 18 => 1,
        _ => 3,
    };
    let mut names = Vec::new();
    while names.len() < damages && table.len() == ENTRIES {
        names.push(damage(&mut generator.random, &mut table));
    }
    let case = Case {
        table,
        profile: generator.profile,
        item,
    };
    (case, names)
}

/// Those whose own refusals are rare.
const RARELY_REFUSED: [u8; 8] = [
    kind::PERIOD_OVER,
    kind::PERIOD_OVER,
    kind::PERIOD_OVER,
    kind::REQUEST_REPORT,
    kind::REQUEST_REPORT,
    kind::REQUEST_REPORT,
    kind::CONTINUE,
    kind::APPLY_CHARGING,
];

/// Often one that is possible now, or a called party that hangs up while the call
/// is held; else of any kind, be it rare in a scenario.
fn item_for(generator: &mut Generator, call: u32, record: &mut Record) -> Vec<u8> {
    let kind = match generator.random.below(20) {
        0..=2 => return generator.possible_item(call, record),
        3..=6 => {
            become_held(&mut generator.random, record);
            return generator.hang_up(call, record);
        }
        7..=13 => generator.random.pick(&KINDS).0,
        _ => generator.random.pick(&RARELY_REFUSED),
    };
    generator.item(kind, call, Some(record))
}

/// Any records in range, also such as no run reaches.
fn sound_table(random: &mut Random) -> Vec<Entry> {
    let percent = random.pick(&[0, 5, 50, 98, 100, 100]);
    let terminating = random.pick(&[0, 50, 50, 50, 100]);
    let mut table = table::fresh().to_vec();
    for slot in 0..ENTRIES {
        if random.chance(percent) {
            own(random, &mut table, slot, terminating);
        }
    }
    table
}

/// Distinct calls, the smallest and the largest number among them.
fn call_of_slot(slot: usize) -> u32 {
    match slot {
        0 => 0,
        63 => u32::MAX,
        _ => 1000 - slot as u32,
    }
}

/// Mostly a call that is in the table, if there is one.
fn call_of_item(random: &mut Random, table: &[Entry]) -> u32 {
    let calls: Vec<u32> = table.iter().filter_map(|entry| entry.owner).collect();
    match calls[..] {
        [_, ..] if random.chance(85) => random.pick(&calls),
        _ => random.pick(&[1, 2000, u32::MAX - 1]),
    }
}

/// Terminating in so many percent.
fn record_in_range(random: &mut Random, terminating: u64) -> Record {
    let call_kind = match random.chance(terminating) {
        true => CallKind::Terminating,
        false => CallKind::Originating,
    };
    let last = Tenths(random.pick(&[0, 1, 1000, 1000, 90_000_000, TIME_END.0 - 1]));
    Record {
        call_kind,
        stage: random.pick(&Stage::ALL),
        present: [random.chance(80), random.chance(70)],
        hold: hold_in_range(random, call_kind),
        last,
        armings: armings_in_range(random, call_kind),
        charges: [(); 2].map(|()| charge_in_range(random, last)),
        kept_timer: Seconds(random.pick(&[0, 0, 1, 30, 2047])),
        default_timer: Seconds(random.pick(&[10, 120, 180])),
        default_handling: random.pick(&[Handling::Continue, Handling::Release]),
        called: number_in_range(random),
    }
}

fn hold_in_range(random: &mut Random, call_kind: CallKind) -> Option<Hold> {
    random.chance(50).then(|| any_hold(random, call_kind))
}

fn any_hold(random: &mut Random, call_kind: CallKind) -> Hold {
    if random.chance(50) {
        return Hold::Trigger;
    }
    let mut parts = Part::ALL.to_vec();
    parts.retain(|part| call_kind.can_arm(*part, Mode::Interrupted));
    Hold::At(random.pick(&parts))
}

/// Makes the record one of a call that is held, mostly active, with leg 1 or
/// without it; whose called party can mostly hang up, and is heard of or not.
fn become_held(random: &mut Random, record: &mut Record) {
    record.hold = Some(any_hold(random, record.call_kind));
    record.stage = match random.chance(60) {
        true => Stage::Active,
        false => random.pick(&[Stage::Analysing, Stage::Alerting]),
    };
    record.present = [random.chance(50), random.chance(70)];
    record.armings.set(Part::Disconnect2, random.pick(&MODES));
}

fn armings_in_range(random: &mut Random, call_kind: CallKind) -> Armings {
    let mut armings = Armings::NONE;
    let modes = random.pick(&[&Mode::BOTH[..], &[Mode::Notify]]);
    let percent = random.pick(&[0, 10, 50, 100]);
    for part in Part::ALL {
        if random.chance(percent) {
            let mode = match part {
                Part::Moved => Mode::Notify,
                _ => random.pick(modes),
            };
            let mode = Some(mode).filter(|mode| call_kind.can_arm(part, *mode));
            armings.set(part, mode);
        }
    }
    armings
}

fn charge_in_range(random: &mut Random, last: Tenths) -> Option<Charge> {
    let start = Tenths(random.pick(&[0, last.0 / 2, last.0.saturating_sub(600), last.0]));
    let charge = Charge {
        period: Tenths(random.pick(&[1, 600, 864_000])),
        start: random.chance(60).then_some(start),
    };
    random.chance(60).then_some(charge)
}

fn number_in_range(random: &mut Random) -> CalledNumber {
    let count = random.pick(&[1, 2, 11, 14, 15]);
    let mut places = [0; 15];
    places[..usize::from(count)].fill_with(|| random.below(15) as u8);
    CalledNumber {
        nature: random.pick(&[0, 4, 127]),
        count,
        places,
    }
}

/// Damages the table in one way, and names it.
fn damage(random: &mut Random, table: &mut Vec<Entry>) -> &'static str {
    let slot = random.below(ENTRIES as u64) as usize;
    match random.below(20) {
        0 | 1 => {
            let (name, counts) = random.pick(&WRONG_COUNTS);
            table.resize(random.pick(counts), Entry::FREE);
            name
        }
        2 => {
            let other = (slot + 1 + random.below(ENTRIES as u64 - 1) as usize) % ENTRIES;
            own(random, table, slot, EITHER_KIND);
            own(random, table, other, EITHER_KIND);
            table[other].owner = table[slot].owner;
            ONE_CALL_TWICE
        }
        3..=12 => {
            let (name, damage) = random.pick(&OUT_OF_RANGE);
            own(random, table, slot, EITHER_KIND);
            damage(random, &mut table[slot].record);
            name
        }
        _ => {
            let (name, damage) = random.pick(&NOT_BLANK);
            table[slot] = Entry::FREE;
            damage(random, &mut table[slot].record);
            name
        }
    }
}

/// Gives the slot to a call, terminating in so many percent, with a record in
/// range.
fn own(random: &mut Random, table: &mut [Entry], slot: usize, terminating: u64) {
    table[slot] = Entry {
        owner: Some(call_of_slot(slot)),
        record: record_in_range(random, terminating),
    };
}

/// Compares the cases of these seeds; true if nothing differs and every kind
/// came up.
pub fn run(program: Program, seeds: Range<u64>) -> Result<bool, String> {
    let write = |input: &mut Input| {
        let mut cases = seeds.clone().map(|seed| generate(seed).0.bytes());
        cases.try_for_each(|case| input.write_all(&case))
    };
    program.run_beside(write, |answers| compare(answers, seeds.clone()))
}

fn compare(answers: &mut Answers, seeds: Range<u64>) -> Result<bool, String> {
    let count = seeds.end - seeds.start;
    let mut counts = Counts::new(wanted());
    let mut differences = 0;
    for (number, seed) in (1..).zip(seeds) {
        let (mut case, damages) = generate(seed);
        let before = case.table.clone();
        let answer = table::feed(&mut case.table, &case.item, &case.profile);
        let ours = tables::output_of(number, &answer, &case.table);
        let theirs = read_answer(answers, number, before.len())?;
        if ours != theirs {
            differences += 1;
            if differences == 1 {
                let difference = difference(&before, &case, &theirs, &ours);
                output::line(format_args!("damage: {damages:?}\n{difference}"))?;
            }
        }
        count_case(&mut counts, &before, &case.item, &answer);
        for damage in damages {
            counts.count(damage.to_string());
        }
    }
    if !answers.is_at_end()? {
        output::line("more is answered than was asked")?;
        differences += 1;
    }
    let missing = counts.print()?;
    let done = format!("{count} tables, {differences} differences");
    let complete = counts::conclude(&done, missing)?;
    Ok(complete && differences == 0)
}

/// A line and so many entries.
fn read_answer(answers: &mut Answers, number: u64, entries: usize) -> Result<Vec<u8>, String> {
    let mut bytes = Vec::new();
    answers.begin(number);
    answers.line(&mut bytes)?;
    answers.bytes(entries * ENTRY_BYTES, &mut bytes)?;
    Ok(bytes)
}

/// All the answers have to come up, those of an open call for both kinds of
/// call, all mixtures of both, all kinds of damage; and for records of both that no
/// run reaches, items of all kinds and all that T-05 is about.
fn wanted() -> Vec<(&'static str, Vec<String>)> {
    let answers = [1, 2, 3, 4, 6].map(refusal_form).into_iter();
    let of_open = [ACCEPTED.to_string()].into_iter();
    let of_open = of_open.chain([5].into_iter().chain(7..=14).map(refusal_form));
    let of_open = of_open.flat_map(|form| CallKind::BOTH.map(|kind| of_kind(kind, &form)));
    let unreached = CallKind::BOTH.into_iter();
    let unreached =
        unreached.flat_map(|call_kind| KINDS.map(|(kind, _)| unreached_form(call_kind, kind)));
    let hung_up = CallKind::BOTH.into_iter();
    let hung_up = hung_up.flat_map(|kind| hung_up::wanted(kind, hung_up::HELD_IN_TABLES));
    let wrong_counts = WRONG_COUNTS.iter().map(|(name, _)| *name);
    let damages = OUT_OF_RANGE.iter().chain(&NOT_BLANK).map(|(name, _)| *name);
    let names = wrong_counts.chain(damages).chain([ONE_CALL_TWICE]);
    vec![
        ("answers", answers.chain(of_open).collect()),
        ("sound tables", MIXTURES.map(String::from).to_vec()),
        ("records that no run reaches", unreached.collect()),
        ("Clear of leg 2 while held, for these", hung_up.collect()),
        ("damage", names.map(String::from).collect()),
    ]
}

const ACCEPTED: &str = "ok";
const MIXTURES: [&str; 4] = [
    "no open calls",
    "only originating calls",
    "only terminating calls",
    "both kinds of call",
];

fn answer_form(answer: &Answer) -> String {
    match answer {
        Ok(_) => ACCEPTED.to_string(),
        Err(refusal) => refusal_form(*refusal as u8),
    }
}

fn unreached_form(call_kind: CallKind, kind: u8) -> String {
    of_kind(call_kind, &format!("fed kind {kind}"))
}

fn mixture_form(table: &[Entry]) -> &'static str {
    let has = |kind: CallKind| {
        let mut open = table.iter().filter(|entry| entry.owner.is_some());
        open.any(|entry| entry.record.call_kind == kind)
    };
    let [originating, terminating] = CallKind::BOTH.map(has);
    MIXTURES[usize::from(originating) + 2 * usize::from(terminating)]
}

/// The answer by the call's kind, if it is open; and what the table was, if it
/// was sound and the item was read.
fn count_case(counts: &mut Counts, table: &[Entry], item: &[u8], answer: &Answer) {
    let early = [
        Refusal::ItemMalformed,
        Refusal::ProfileMalformed,
        Refusal::TableUnsound,
    ];
    if answer.is_err_and(|refusal| early.contains(&refusal)) {
        return counts.count(answer_form(answer));
    }
    counts.count(mixture_form(table).to_string());
    let Some(Item { call, body, .. }) = read_item(item) else {
        return; // refused as malformed, and counted
    };
    let open = table.iter().find(|entry| entry.owner == Some(call));
    let Some(record) = open.map(|entry| &entry.record) else {
        return counts.count(answer_form(answer));
    };
    counts.count(of_kind(record.call_kind, &answer_form(answer)));
    if no_run_reaches(record) {
        counts.count(unreached_form(record.call_kind, item[3]));
        if let Body::Other(other) = &body {
            hung_up::count(counts, record, other, answer);
        }
    }
}

/// A sure sign of it: legs or a stage that do not go with the hold.
pub fn no_run_reaches(record: &Record) -> bool {
    let [leg_1, leg_2] = record.present;
    let is_active = record.stage == Stage::Active;
    let goes_with_hold = match record.hold {
        None => leg_1 && leg_2,
        Some(Hold::Trigger) => leg_1 && leg_2 && record.stage == Stage::Analysing,
        Some(Hold::At(part)) => match part {
            Part::Seized => leg_1 && leg_2 && record.stage == Stage::Alerting,
            Part::RouteFailure | Part::Busy | Part::NoAnswer => leg_1 && !leg_2 && !is_active,
            Part::Abandon => !leg_1 && !is_active,
            // Leg 2 may have gone since (T-05). At a Disconnect the other leg may have
            // gone before.
            Part::Answer | Part::MidCall => leg_1 && is_active,
            Part::Disconnect1 => !leg_1 && is_active,
            Part::Disconnect2 => !leg_2 && is_active,
            Part::Moved => false,
        },
    };
    !goes_with_hold
}

/// The item, both answers, and the entry concerned before and afterwards: the
/// first that differs, or else the one of the item's call.
fn difference(before: &[Entry], case: &Case, theirs: &[u8], ours: &[u8]) -> String {
    let (their_line, their_entries) = split_answer(theirs);
    let (our_line, our_entries) = split_answer(ours);
    let differs = |slot: &usize| their_entries.get(*slot) != our_entries.get(*slot);
    let call = read_item(&case.item).map(|item| item.call);
    let slot_of_call = || before.iter().position(|entry| entry.owner == call);
    let slot = (0..before.len()).find(differs).or_else(slot_of_call);
    let mut text = format!(
        "{}\n{}\n  theirs: {}\n  ours:   {}\n  {} entries",
        texts::explain_profile(&case.profile),
        texts::explain_item(&case.item),
        shown::line(their_line),
        shown::line(our_line),
        before.len()
    );
    if let Some(slot) = slot {
        let their_entry = their_entries.get(slot).copied().unwrap_or_default();
        let their_entry = entry_text(their_entry, our_entries[slot]);
        text += &format!("\n  entry {slot} before: {:?}", before[slot]);
        text += &format!("\n  theirs after:   {their_entry}");
        text += &format!("\n  ours after:     {:?}", case.table[slot]);
    }
    text
}

/// An entry in words; in hex if it is none, or is not the one that its words say.
fn entry_text(their: &[u8], our: &[u8]) -> String {
    match read_entry(their) {
        Some(entry) if their == our || Some(entry) != read_entry(our) => format!("{entry:?}"),
        _ => shown::hex_from_difference(their, our),
    }
}

/// The line, if there is one, and what follows it, in entries.
fn split_answer(answer: &[u8]) -> (Option<&[u8]>, Vec<&[u8]>) {
    let line = shown::lines(answer).next();
    let entries = &answer[line.map_or(0, <[u8]>::len)..];
    (line, entries.chunks(ENTRY_BYTES).collect())
}
