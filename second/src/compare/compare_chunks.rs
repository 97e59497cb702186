//! A program that is handed feeders with chunks, and this one, on the same
//! cases: fixed ones, then random ones. And T-02's sentence about cuts, by this
//! program's feeder itself.
//!
//! Document 02, T-02.

use crate::compare::chunks::{self, feed_chunk, push_feeder, push_hex, Call, Case, Outcome, Step};
use crate::compare::counts::{self, Counts};
use crate::compare::generate::Generator;
use crate::compare::program::{Answers, Input, Program};
use crate::compare::random::Random;
use crate::compare::shown;
use crate::output;
use crate::paper::answer::Refusal;
use crate::paper::feeder::{Feeder, ROOM};
use crate::paper::forms::{write_item, ITEM_LENGTHS};
use crate::texts;
use std::io::Write;
use std::mem;
use std::ops::Range;

/// Items of 23, 14, 20 and 65 bytes.
const SETUP: &str = "setup 4/49151 service 17";
const ANSWER: &str = "answer";
const ONE_ENTRY: &str = "request-report 6/2 interrupted timer 30";
const TEN_ENTRIES: &str = "request-report 8/1 notify, 9/1 notify, 10/1 notify, 50/1 notify, \
    4/2 notify, 5/2 notify, 6/2 interrupted timer 2047, 7/2 notify, 9/2 notify, 19/2 notify";

/// Length fields on both sides of each edge, and of each of their two bytes.
const LENGTHS: [u16; 10] = [0, 1, 13, 14, 20, 65, 66, 255, 256 + 14, 65535];

/// How many bytes a feeder that is handed in says it holds.
const HELD_COUNTS: [u64; 14] = [
    0,
    1,
    2,
    3,
    13,
    14,
    15,
    64,
    65,
    66,
    255,
    256,
    1 << 32,
    u64::MAX,
];

fn item(text: &str) -> Vec<u8> {
    let (kind, body) = texts::assemble_body(text).expect("it is an item");
    write_item(kind, 7, 1000, &body)
}

/// The item with a version that no item has.
fn malformed(mut item: Vec<u8>) -> Vec<u8> {
    item[2] = 2;
    item
}

fn chunk(bytes: &[u8]) -> Step {
    Step::Chunk(bytes.to_vec())
}

/// The run in chunks, cut at these places, which do not fall.
fn cut_at(run: &[u8], places: &[usize]) -> Vec<Step> {
    let begins = [&[0], places].concat();
    let ends = [places, &[run.len()]].concat();
    let ranges = begins.into_iter().zip(ends);
    ranges.map(|(begin, end)| chunk(&run[begin..end])).collect()
}

fn byte_by_byte(run: &[u8]) -> Vec<Step> {
    run.chunks(1).map(chunk).collect()
}

/// The cases that are always run, as bytes.
fn fixed_cases() -> Vec<Vec<u8>> {
    let mut cases = Vec::new();
    let [setup, answer, report] = [SETUP, ANSWER, TEN_ENTRIES].map(item);
    cut_everywhere(&[&setup[..], &answer, &report].concat(), &mut cases);
    let run = [&setup[..], &malformed(answer), &report].concat();
    cut_everywhere(&run, &mut cases);
    all_lengths(&mut cases);
    handed_in(&mut cases);
    let mut cases: Vec<Vec<u8>> = cases.iter().map(Case::bytes).collect();
    cases.extend(edges_of_the_form());
    cases
}

fn with_new_feeder(steps: Vec<Step>) -> Case {
    Case {
        feeder: Feeder::NEW,
        steps,
    }
}

/// Whole, with each cut and each two cuts, byte by byte, and so with a chunk of
/// no bytes before each.
fn cut_everywhere(run: &[u8], cases: &mut Vec<Case>) {
    let mut ways = vec![vec![chunk(run)], byte_by_byte(run)];
    let with_empty = |byte| [chunk(&[]), byte];
    ways.push(byte_by_byte(run).into_iter().flat_map(with_empty).collect());
    for second in 0..=run.len() {
        ways.push(cut_at(run, &[second]));
        ways.extend((0..=second).map(|first| cut_at(run, &[first, second])));
    }
    cases.extend(ways.into_iter().map(with_new_feeder));
}

/// The bytes of an item with this length field: well-formed if it can be one.
fn item_of_length(length: u16) -> Vec<u8> {
    match length {
        14 => item(ANSWER),
        20 => item(ONE_ENTRY),
        65 => item(TEN_ENTRIES),
        _ => [&length.to_be_bytes(), &[1; ROOM][..]].concat(),
    }
}

/// Each length field with bytes behind it, cut in some ways; then a reset and a
/// good item.
fn all_lengths(cases: &mut Vec<Case>) {
    for bytes in LENGTHS.map(item_of_length) {
        for first in [bytes.clone(), malformed(bytes)] {
            let run = [&first[..], &item(SETUP)].concat();
            let ways = [
                vec![chunk(&run)],
                cut_at(&run, &[1]),
                cut_at(&run, &[2]),
                byte_by_byte(&run),
            ];
            for mut steps in ways {
                steps.extend([Step::Reset, Step::Chunk(item(ANSWER))]);
                cases.push(with_new_feeder(steps));
            }
        }
    }
}

/// Feeders of many sorts: each gets a chunk, a reset and a good item.
fn handed_in(cases: &mut Vec<Case>) {
    for stopped in [false, true] {
        for count in HELD_COUNTS {
            for bytes in LENGTHS.map(item_of_length) {
                let rest = bytes.get(count as usize..).unwrap_or_default();
                let run = [rest, &item(ANSWER)].concat();
                for first in [&run[..], &run[..run.len().min(3)], &[]] {
                    cases.push(Case {
                        feeder: feeder_with(&bytes, count, stopped),
                        steps: vec![chunk(first), Step::Reset, Step::Chunk(item(SETUP))],
                    });
                }
            }
        }
    }
}

/// What lies behind the bytes means nothing, and is not zero here.
fn feeder_with(bytes: &[u8], count: u64, stopped: bool) -> Feeder {
    let mut places = [0xAA; ROOM];
    let end = bytes.len().min(ROOM);
    places[..end].copy_from_slice(&bytes[..end]);
    Feeder {
        bytes: places,
        count,
        stopped,
    }
}

/// No step; a single last byte; a chunk of fewer bytes than said, and of none;
/// other values for stopped; and the longest case.
fn edges_of_the_form() -> Vec<Vec<u8>> {
    let without_steps = with_new_feeder(vec![]).bytes();
    let with_end = |end: &[u8]| with_bytes_behind(&without_steps, end);
    let longest = usize::from(u16::MAX) - without_steps.len() - 2;
    let run = item(ONE_ENTRY).into_iter().cycle().take(longest);
    let mut cases = vec![
        without_steps.clone(),
        with_end(&[0]),
        with_end(&[0, 3, 0, 14, 1, 255]),
        with_end(&[0, 3, 0, 14]),
        with_end(&[0, 3]),
        with_end(&[255, 254, 0, 14]),
        with_end(&[255, 255, 255]),
        with_new_feeder(vec![Step::Chunk(run.collect())]).bytes(),
    ];
    for stopped in [2, 255] {
        let mut case = with_end(&[0, 2, 0, 14]);
        case[without_steps.len() - 1] = stopped;
        cases.push(case);
    }
    cases
}

/// The case with its length put right.
fn with_bytes_behind(case: &[u8], end: &[u8]) -> Vec<u8> {
    let mut case = [case, end].concat();
    let length = case.len() as u16;
    case[..2].copy_from_slice(&length.to_be_bytes());
    case
}

/// A random case: runs of items, cut at random, mostly with resets between.
fn generate(seed: u64) -> Case {
    let mut generator = Generator::new(Random::new(seed), 1);
    let (feeder, mut run) = match generator.random.below(8) {
        0 => damaged_feeder(&mut generator.random),
        1 => unfinished_item(&mut generator),
        _ => (Feeder::NEW, vec![]),
    };
    let mut steps = Vec::new();
    for _ in 0..=generator.random.below(3) {
        add_items(&mut generator, &mut run);
        cut_at_random(&mut generator.random, &run, &mut steps);
        let resets = generator.random.pick(&[0, 1, 1, 1, 2]);
        steps.extend((0..resets).map(|_| Step::Reset));
        run.clear();
    }
    Case { feeder, steps }
}

/// A feeder with any count, and a length field that is mostly on an edge; and
/// with nothing to feed first.
fn damaged_feeder(random: &mut Random) -> (Feeder, Vec<u8>) {
    let mut bytes: Vec<u8> = (0..ROOM).map(|_| random.next() as u8).collect();
    if random.chance(80) {
        bytes[..2].copy_from_slice(&random.pick(&LENGTHS).to_be_bytes());
    }
    let count = match random.below(3) {
        0 => random.next(),
        1 => random.below(ROOM as u64 + 2),
        _ => random.pick(&HELD_COUNTS),
    };
    (feeder_with(&bytes, count, random.chance(20)), vec![])
}

/// A feeder that holds a part of an item, and the other part, to be fed first.
fn unfinished_item(generator: &mut Generator) -> (Feeder, Vec<u8>) {
    let item = generator.any_item(7, None);
    let count = generator.random.below(item.len().min(ROOM) as u64);
    let rest = item[count as usize..].to_vec();
    (feeder_with(&item, count, false), rest)
}

/// Adds items, some malformed; and at the end now and then one with a bad
/// length field, one cut short, or noise.
fn add_items(generator: &mut Generator, run: &mut Vec<u8>) {
    let items = generator.random.pick(&[0, 1, 2, 3, 4, 5, 20]);
    for _ in 0..items {
        let mut item = generator.any_item(7, None);
        if generator.random.chance(7) {
            item[2] = generator.random.pick(&[0, 2, 255]);
        }
        run.extend(item);
    }
    let mut last = generator.any_item(7, None);
    let random = &mut generator.random;
    match random.below(8) {
        0 => last[..2].copy_from_slice(&random.pick(&LENGTHS).to_be_bytes()),
        1 | 2 => last.truncate(random.below(last.len() as u64) as usize),
        3 => last.fill_with(|| random.below(80) as u8),
        _ => return,
    }
    run.extend(last);
    if random.chance(30) {
        run.extend(generator.any_item(7, None));
    }
}

/// Small pieces often, if that does not make too many of them, and chunks of no
/// bytes here and there.
fn cut_at_random(random: &mut Random, run: &[u8], steps: &mut Vec<Step>) {
    let longest = random
        .pick(&[1, 2, 3, 10, 30, 100, 2000])
        .max(run.len() / 20);
    let empty = random.pick(&[0, 0, 10, 40]);
    let mut rest = run;
    while !rest.is_empty() {
        if random.chance(empty) {
            steps.push(chunk(&[]));
        }
        let length = 1 + random.below(longest as u64) as usize;
        let (piece, after) = rest.split_at(length.min(rest.len()));
        steps.push(chunk(piece));
        rest = after;
    }
    if random.chance(empty) {
        steps.push(chunk(&[]));
    }
}

/// All the cases, as bytes: the fixed ones, and those of these seeds.
pub fn cases(seeds: Range<u64>) -> impl Iterator<Item = Vec<u8>> {
    let random = seeds.map(|seed| generate(seed).bytes());
    fixed_cases().into_iter().chain(random)
}

/// Compares the fixed cases and those of these seeds; true if nothing differs
/// and every form came up.
pub fn run(program: Program, seeds: Range<u64>) -> Result<bool, String> {
    let write = |input: &mut Input| {
        cases(seeds.clone()).try_for_each(|case| input.write_all(&case))?;
        // The input ends before a case is whole: nothing is answered to it.
        let last = with_new_feeder(vec![Step::Chunk(item(ANSWER))]).bytes();
        input.write_all(&last[..last.len() - 1])
    };
    program.run_beside(write, |answers| compare(answers, seeds.clone()))
}

fn compare(answers: &mut Answers, seeds: Range<u64>) -> Result<bool, String> {
    let mut ahead = Vec::new();
    let mut counts = Counts::new(wanted());
    let mut numbers = 0;
    let mut call_count = 0;
    let mut differences = 0;
    for (number, bytes) in (1..).zip(cases(seeds)) {
        let case = Case::read(&bytes).expect("it is a case");
        let calls = case.calls();
        let ours = chunks::text_of(number, &calls);
        let theirs = read_answer(answers, number, &mut ahead)?;
        let cut = cut_matters(&case);
        if ours.as_bytes() != theirs || cut {
            differences += 1;
            if differences == 1 {
                output::line(difference(&case, &theirs, &ours, cut))?;
            }
        }
        for call in &calls {
            count_call(&mut counts, call);
        }
        numbers = number;
        call_count += calls.len();
    }
    if !ahead.is_empty() || !answers.is_at_end()? {
        output::line("more is answered than was asked")?;
        differences += 1;
    }
    let missing = counts.print()?;
    let done = format!("{numbers} cases, {call_count} calls, {differences} differences");
    let complete = counts::conclude(&done, missing)?;
    Ok(complete && differences == 0)
}

/// The lines of a case: up to the next one that begins a case, which is left in
/// `ahead`.
fn read_answer(answers: &mut Answers, number: u64, ahead: &mut Vec<u8>) -> Result<Vec<u8>, String> {
    answers.begin(number);
    let mut answer = mem::take(ahead);
    if answer.is_empty() {
        answers.line(&mut answer)?;
    }
    loop {
        answers.line(ahead)?;
        if ahead.is_empty() || ahead.starts_with(b"case ") {
            return Ok(answer);
        }
        answer.append(ahead);
    }
}

/// Whether a run that is fed after a reset leads to something else than in one
/// chunk. T-02 says that it does not.
pub fn cut_matters(case: &Case) -> bool {
    let mut feeder = case.feeder;
    let mut is_new = feeder.count == 0 && !feeder.stopped;
    for run in case.steps.split(|step| matches!(step, Step::Reset)) {
        let chunks: Vec<&[u8]> = run.iter().filter_map(chunk_of).collect();
        let cut = led_to(&mut feeder, &chunks);
        let whole = led_to(&mut Feeder::NEW.clone(), &[&chunks.concat()]);
        if is_new && cut != whole {
            return true;
        }
        feeder.reset();
        is_new = true;
    }
    false
}

fn chunk_of(step: &Step) -> Option<&[u8]> {
    match step {
        Step::Chunk(chunk) => Some(chunk),
        Step::Reset => None,
    }
}

/// The items, the answers 1, and the feeder that is left.
#[derive(PartialEq, Eq)]
struct LedTo {
    /// With their ends in the run; an answer 1 has no item.
    answers: Vec<(u64, Option<Vec<u8>>)>,
    held: Vec<u8>,
    stopped: bool,
}

fn led_to(feeder: &mut Feeder, chunks: &[&[u8]]) -> LedTo {
    let mut answers = Vec::new();
    let mut place = 0;
    for call in chunks.iter().flat_map(|chunk| feed_chunk(feeder, chunk)) {
        place += call.bytes;
        match call.outcome {
            Outcome::Item(item) => answers.push((place, Some(item))),
            Outcome::Refused(Refusal::ItemMalformed) => answers.push((place, None)),
            _ => {}
        }
    }
    LedTo {
        answers,
        held: feeder.held().to_vec(),
        stopped: feeder.stopped,
    }
}

/// All that can lead to an answer has to come up.
const WANTED: [(&str, &[&str]); 6] = [
    (
        "items",
        &[
            "item in one chunk",
            "item cut in the length field",
            "item cut behind it",
        ],
    ),
    (
        "answers 1",
        &[
            "malformed in one chunk",
            "malformed cut in the length field",
            "malformed cut behind it",
            "length too small in one chunk",
            "length too small cut in the length field",
            "length too large in one chunk",
            "length too large cut in the length field",
        ],
    ),
    (
        "lengths of these",
        &[
            "length 0",
            "length 1",
            "length 13",
            "length 14",
            "length 65",
            "length 66",
            "length 255",
            "length 270",
            "length 65535",
        ],
    ),
    (
        "chunks used up",
        &[
            "part of a length field held",
            "part of an item held",
            "no bytes, nothing held",
            "no bytes, part of a length field held",
            "no bytes, part of an item held",
        ],
    ),
    (
        "answers 15",
        &[
            "stopped",
            "length too small held",
            "length too large held",
            "whole item held",
            "more than an item held",
        ],
    ),
    (
        "resets",
        &[
            "reset when new",
            "reset in a length field",
            "reset in an item",
            "reset when stopped",
            "reset when damaged",
        ],
    ),
];

fn wanted() -> Vec<(&'static str, Vec<String>)> {
    let strings = |forms: &[&str]| forms.iter().map(|form| form.to_string()).collect();
    WANTED.map(|(title, forms)| (title, strings(forms))).into()
}

/// Counts what led to the answer.
fn count_call(counts: &mut Counts, call: &Call) {
    let before = &call.before;
    let cut = match before.count {
        0 => "in one chunk",
        1 => "cut in the length field",
        _ => "cut behind it",
    };
    counts.count(match call.outcome {
        Outcome::Item(_) => format!("item {cut}"),
        Outcome::Refused(Refusal::ItemMalformed) if call.after.stopped => {
            format!("{} {cut}", bad_length(length_met(call)))
        }
        Outcome::Refused(Refusal::ItemMalformed) => format!("malformed {cut}"),
        Outcome::Refused(_) => reason(before),
        Outcome::UsedUp => {
            let no_bytes = if call.offered.is_empty() {
                "no bytes, "
            } else {
                ""
            };
            format!("{no_bytes}{} held", held(&call.after))
        }
        Outcome::Reset => reset_form(call),
    });
    if matches!(
        call.outcome,
        Outcome::Item(_) | Outcome::Refused(Refusal::ItemMalformed)
    ) {
        counts.count(format!("length {}", length_met(call)));
    }
}

/// The length field of the bytes held and used.
fn length_met(call: &Call) -> usize {
    let used = &call.offered[..call.bytes as usize];
    let bytes = [call.before.held(), used].concat();
    usize::from(u16::from_be_bytes([bytes[0], bytes[1]]))
}

fn bad_length(length: usize) -> &'static str {
    match length < *ITEM_LENGTHS.start() {
        true => "length too small",
        false => "length too large",
    }
}

fn held(feeder: &Feeder) -> &'static str {
    match feeder.count {
        0 => "nothing",
        1 => "part of a length field",
        _ => "part of an item",
    }
}

/// Why the answer is 15.
fn reason(feeder: &Feeder) -> String {
    let length = feeder.length().unwrap_or_default();
    if feeder.stopped {
        "stopped".to_string()
    } else if !ITEM_LENGTHS.contains(&length) {
        format!("{} held", bad_length(length))
    } else if feeder.count == length as u64 {
        "whole item held".to_string()
    } else {
        "more than an item held".to_string()
    }
}

fn reset_form(call: &Call) -> String {
    let form = match (call.before.count, call.bytes) {
        _ if call.before.stopped => "when stopped",
        (0, _) => "when new",
        (1, _) => "in a length field",
        (_, 0) => "when damaged",
        _ => "in an item",
    };
    format!("reset {form}")
}

/// The case, and the first lines that differ.
fn difference(case: &Case, theirs: &[u8], ours: &str, cut: bool) -> String {
    let mut text = "the first difference, handed in: ".to_string();
    push_feeder(&mut text, &case.feeder);
    text += "\nsteps:";
    for step in &case.steps {
        text.push(' ');
        match step {
            Step::Chunk(chunk) if chunk.is_empty() => text.push('-'),
            Step::Chunk(chunk) => push_hex(&mut text, chunk),
            Step::Reset => text += "reset",
        }
    }
    if cut {
        text += "\n  ours is not the same in one chunk";
    }
    let (number, their, our) = shown::first_difference(theirs, ours.as_bytes());
    for line in ours.lines().take(number) {
        text += &format!("\n  {line}");
    }
    if their != our {
        let [their, our] = [their, our].map(shown::line);
        text += &format!("\n  theirs: {their}\n  ours:   {our}");
    }
    text
}
