//! A program that makes trigger checks and counts, and this one, on the same
//! cases: fixed ones, then random ones; each with the last digit first, and from
//! the front. And T-03's sentence that every answer stays as it is, by this
//! program itself.
//!
//! Most cases make a single check, so that no sum hides a difference.
//!
//! Document 02, T-03.

use crate::bench::rounds::{self, Rounds};
use crate::compare::counts::{self, Counts};
use crate::compare::program::Program;
use crate::compare::random::Random;
use crate::compare::shown;
use crate::compare::triggers::{
    self, Checks, DIALLED_WITH_LONG_LIST, FROM_FRONT, LAST_FIRST, LONG_LIST,
};
use crate::output;
use crate::paper::forms::{kind, with_length_and_version, write_item, Number, TIME_END};
use crate::paper::trigger::{compare, compare_from_front, Compared};
use crate::texts;
use std::ops::Range;

/// The stored number of P6, and what is dialled.
const P6: &str = "profile continue 120 enabling 4/491";
const DIALLED_WITH_P6: [&str; 3] = ["4/4915", "4/491", "4/49"];

const LONGEST: usize = 15;

struct Case {
    /// A profile and Setups.
    round: Vec<u8>,
    checks: u32,
}

impl Case {
    fn input(&self, function: u8) -> Vec<u8> {
        rounds::write(function, self.checks, &self.round)
    }
}

/// In which order digits are compared.
struct Order {
    name: &'static str,
    /// Its number in the input.
    function: u8,
    compare: fn(stored: &[u8], dialled: &[u8]) -> Compared,
}

const ORDERS: [Order; 2] = [
    Order {
        name: "last first",
        function: LAST_FIRST,
        compare,
    },
    Order {
        name: "from front",
        function: FROM_FRONT,
        compare: compare_from_front,
    },
];

/// The cases that are always run.
fn fixed_cases() -> Vec<Case> {
    let long_list = DIALLED_WITH_LONG_LIST.map(|(dialled, _)| dialled);
    let mut cases = Vec::new();
    each_and_all(P6, &DIALLED_WITH_P6, &mut cases);
    each_and_all(LONG_LIST, &long_list, &mut cases);
    cases
}

/// A check of each number dialled, and checks of all of them in turn that end
/// within the third turn.
fn each_and_all(profile: &str, dialled: &[&str], cases: &mut Vec<Case>) {
    let round = |dialled| triggers::round(profile, dialled).expect("it is in words");
    cases.extend(dialled.chunks(1).map(|one| Case {
        round: round(one),
        checks: 1,
    }));
    cases.push(Case {
        round: round(dialled),
        checks: 2 * dialled.len() as u32 + 1,
    });
}

/// A random case.
fn generate(seed: u64) -> Case {
    let mut random = Random::new(seed);
    let numbers = match random.below(5) {
        0 | 1 => 1,
        2 => 10,
        _ => 1 + random.below(10),
    };
    let setups = match random.below(5) {
        0 => 1 + random.below(4),
        _ => 1,
    };
    let checks = match random.below(5) {
        0 => setups + random.below(10),
        _ => setups,
    };
    let stored = stored_numbers(&mut random, numbers);
    let mut round = profile(&mut random, &stored);
    for _ in 0..setups {
        let dialled = dialled_number(&mut random, &stored);
        round.extend(setup(&mut random, &dialled));
    }
    Case {
        round,
        checks: checks as u32,
    }
}

/// Nature and digits.
type OwnNumber = (u8, Vec<u8>);

fn digits(random: &mut Random, count: usize) -> Vec<u8> {
    (0..count).map(|_| random.below(15) as u8).collect()
}

/// Mostly of one nature, and with digits that many share from the front.
fn stored_numbers(random: &mut Random, count: u64) -> Vec<OwnNumber> {
    let natures = random.pick(&[[4, 4, 4], [4, 4, 3], [0, 127, 1]]);
    let shared = digits(random, LONGEST);
    let stored = |_| {
        let length = some_length(random);
        let own = random.pick(&[0, 1, 1, 2, LONGEST]).min(length);
        let leading = &shared[..length - own];
        let digits = [leading, &digits(random, own)].concat();
        (random.pick(&natures), digits)
    };
    (0..count).map(stored).collect()
}

/// The longest more often than the others.
fn some_length(random: &mut Random) -> usize {
    match random.below(5) {
        0 => LONGEST,
        _ => 1 + random.below(LONGEST as u64) as usize,
    }
}

/// Mostly one that a stored number matches, or nearly.
fn dialled_number(random: &mut Random, stored: &[OwnNumber]) -> OwnNumber {
    let place = random.below(stored.len() as u64) as usize;
    let (nature, mut digits) = stored[place].clone();
    match random.below(16) {
        0 | 1 => {}
        2 | 3 => lengthen(random, &mut digits),
        4 | 5 => shorten(random, &mut digits),
        6..=10 => change(random, &mut digits),
        11 | 12 => {
            change(random, &mut digits);
            lengthen(random, &mut digits);
        }
        13 => {
            change(random, &mut digits);
            change(random, &mut digits);
        }
        14 => return (random.pick(&[0, 3, 4, 126, 127]), digits),
        _ => return (nature, unrelated(random)),
    }
    (nature, digits)
}

fn unrelated(random: &mut Random) -> Vec<u8> {
    let length = some_length(random);
    digits(random, length)
}

/// By some digits, if there is room.
fn lengthen(random: &mut Random, number: &mut Vec<u8>) {
    let room = LONGEST - number.len();
    let count = random.pick(&[1, 1, 2, LONGEST]).min(room);
    number.extend(digits(random, count));
}

/// By one digit or more; one is left.
fn shorten(random: &mut Random, number: &mut Vec<u8>) {
    let any = 1 + random.below(LONGEST as u64) as usize;
    let left = number.len().saturating_sub(random.pick(&[1, 1, any]));
    number.truncate(left.max(1));
}

/// Changes a digit: often the last, or the last but one.
fn change(random: &mut Random, number: &mut [u8]) {
    let length = number.len();
    let any = random.below(length as u64) as usize;
    let place = random.pick(&[any, any, length - 1, length.saturating_sub(2)]);
    let step = 1 + random.below(14) as u8;
    number[place] = (number[place] + step) % 15;
}

fn counted(digits: &[u8]) -> Vec<u8> {
    [&[digits.len() as u8], digits].concat()
}

/// With any other criteria, since they play no part.
fn profile(random: &mut Random, stored: &[OwnNumber]) -> Vec<u8> {
    let handling = random.pick(&[0, 1]);
    let timer = random.pick(&[10, 120, 180]);
    let sense = random.pick(&[1, 2]);
    let mut content = vec![handling, timer, sense, stored.len() as u8];
    for (nature, digits) in stored {
        content.push(*nature);
        content.extend(counted(digits));
    }
    content.extend(random.pick(&[&[0][..], &[1, 15], &[3, 1, 2, 14]]));
    content.extend(random.pick(&[&[0][..], &[1, 17], &[5, 0, 1, 2, 17, 255]]));
    content.push(random.pick(&[0, 1, 2]));
    with_length_and_version(&content)
}

fn setup(random: &mut Random, (nature, digits): &OwnNumber) -> Vec<u8> {
    let service = random.pick(&[0, 17, 255]);
    let forwarded = random.pick(&[0, 1]);
    let body = [vec![*nature, service, forwarded], counted(digits)].concat();
    let call = random.next() as u32;
    write_item(kind::SETUP, call, random.below(TIME_END.0), &body)
}

/// Compares the fixed cases and those of these seeds; true if nothing differs
/// and every form came up.
pub fn run(program: Program, seeds: Range<u64>) -> Result<bool, String> {
    let cases = fixed_cases().into_iter().chain(seeds.map(generate));
    let mut counts = Counts::new(wanted());
    let mut numbers = 0;
    let mut comparisons = 0;
    let mut differences = 0;
    for (number, case) in (1..).zip(cases) {
        if let Some(difference) = compare_case(program, number, &case)? {
            differences += 1;
            if differences == 1 {
                let (checks, round) = (case.checks, texts::explain(&case.round));
                output::line(format_args!(
                    "the first difference, case {number}, {checks} checks:\n{round}{difference}"
                ))?;
            }
        }
        for order in ORDERS {
            comparisons += count_case(&mut counts, &case, &order)?;
        }
        numbers = number;
    }
    let missing = counts.print()?;
    let done =
        format!("{numbers} cases, {comparisons} comparisons of digits, {differences} differences");
    let complete = counts::conclude(&done, missing)?;
    Ok(complete && differences == 0)
}

/// What differs in a case, if something does.
fn compare_case(program: Program, number: u64, case: &Case) -> Result<Option<String>, String> {
    let mut matched = Vec::new();
    for Order { name, function, .. } in ORDERS {
        let input = case.input(function);
        let sums = triggers::run(&input)?;
        let ours = format!("{sums}\n").into_bytes();
        let theirs = program.output_of(format_args!("case {number}, {name}"), &input)?;
        if theirs != ours {
            let [theirs, ours] = [theirs, ours].map(|output| shown::text(&output));
            let difference = format!("{name}\n  theirs: \"{theirs}\"\n  ours:   \"{ours}\"");
            return Ok(Some(difference));
        }
        matched.push(sums.matched);
    }
    let stays = matched[0] == matched[1];
    Ok((!stays).then(|| format!("ours does not match as often in both orders: {matched:?}")))
}

const LENGTHS: [&str; 5] = [
    "dialled shorter",
    "dialled equal",
    "dialled longer, match",
    "dialled as long, no match",
    "dialled longer, no match",
];

const LISTS: [&str; 7] = [
    "one number",
    "ten numbers",
    "none of the nature",
    "some of another nature",
    "match behind others",
    "match before others",
    "Setups taken again",
];

/// What has to come up: how long a dialled number is beside a stored one; each
/// answer by itself, as a single comparison shows it; and sorts of lists.
fn wanted() -> Vec<(&'static str, Vec<String>)> {
    let strings = |forms: &[&str]| forms.iter().map(|form| form.to_string()).collect();
    let answers = ORDERS.iter().flat_map(|order| single_forms(order.name));
    vec![
        ("lengths", strings(&LENGTHS)),
        ("digit pairs of a single comparison", answers.collect()),
        ("lists", strings(&LISTS)),
    ]
}

/// Without a pair there is no match; with up to 15 there can be one or not.
fn single_forms(order: &str) -> Vec<String> {
    let form = |matches, pairs| single_form(order, Compared { matches, pairs });
    let without = (0..=LONGEST).map(|pairs| form(false, pairs));
    let with = (1..=LONGEST).map(|pairs| form(true, pairs));
    without.chain(with).collect()
}

fn single_form(order: &str, compared: Compared) -> String {
    let Compared { matches, pairs } = compared;
    let matches = if matches { " match" } else { "" };
    format!("{order} {pairs}{matches}")
}

/// Counts what a case reaches, and gives the number of its comparisons.
fn count_case(counts: &mut Counts, case: &Case, order: &Order) -> Result<usize, String> {
    let input = case.input(order.function);
    let rounds = Rounds::read(&input)?;
    let checks = Checks::read(&rounds)?;
    let mut made = Vec::new();
    checks.make(|stored, dialled| {
        let compared = (order.compare)(stored, dialled);
        counts.count(length_form(stored, dialled, compared));
        made.push(compared);
        compared
    });
    if let ([dialled], 1) = (&checks.dialled[..], checks.count) {
        if let [single] = made[..] {
            counts.count(single_form(order.name, single));
        }
        count_list(counts, &checks.stored, dialled, &made);
    }
    if checks.count as usize > checks.dialled.len() {
        counts.count("Setups taken again".to_string());
    }
    Ok(made.len())
}

fn length_form(stored: &[u8], dialled: &[u8], compared: Compared) -> String {
    let form = match (stored.len(), dialled.len()) {
        (stored, dialled) if dialled < stored => "shorter",
        (stored, dialled) if dialled == stored && compared.matches => "equal",
        (stored, dialled) if dialled == stored => "as long, no match",
        _ if compared.matches => "longer, match",
        _ => "longer, no match",
    };
    format!("dialled {form}")
}

/// Counts what a single check has met in a list.
fn count_list(counts: &mut Counts, stored: &[Number], dialled: &Number, made: &[Compared]) {
    let has_nature = |stored: &&Number| stored.nature == dialled.nature;
    let of_nature = stored.iter().filter(has_nature).count();
    let matched = made.last().is_some_and(|last| last.matches);
    let forms = [
        (stored.len() == 1, "one number"),
        (stored.len() == 10, "ten numbers"),
        (of_nature == 0, "none of the nature"),
        (
            of_nature > 0 && of_nature < stored.len(),
            "some of another nature",
        ),
        (matched && made.len() > 1, "match behind others"),
        (matched && made.len() < of_nature, "match before others"),
    ];
    for (_, form) in forms.into_iter().filter(|(reached, _)| *reached) {
        counts.count(form.to_string());
    }
}
