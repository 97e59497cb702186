//! The paper's own examples, the feeder, the comparison of digits, and what the
//! test commands rely on: that every input survives being explained, the ranges
//! of the text, the rounds of bench.
//!
//! Document 01, sections "The listing program" and "Both sides of each edge";
//! document 02, T-02 and T-03.

mod hung_up;
mod terminating;

use crate::bench::measure;
use crate::bench::rounds;
use crate::compare::chunks::{self, Case, Step};
use crate::compare::compare_chunks;
use crate::compare::compare_listings::{self, Pieces};
use crate::compare::generate;
use crate::compare::random::Random;
use crate::compare::triggers::{self, DIALLED_WITH_LONG_LIST, FROM_FRONT, LAST_FIRST, LONG_LIST};
use crate::paper::answer::{Accepted, Answer};
use crate::paper::feeder::Feeder;
use crate::paper::forms::CallKind;
use crate::paper::listing::{self, frames};
use crate::paper::table::{self, Entry, ENTRIES};
use crate::paper::trigger::{compare, compare_from_front, Compared};
use crate::texts;
use std::io::BufReader;
use std::iter;

/// Every line gets the answer that stands in it.
fn check(scenario: &str) {
    let lines = texts::assemble("test", scenario).unwrap();
    let mut expected = "item answer\n".to_string();
    for (number, line) in lines.iter().enumerate() {
        if let Some(answer) = &line.expected {
            expected += &format!("{number} {answer}\n");
        }
    }
    let listing = listing::of(&texts::bytes_of(&lines));
    assert_eq!(String::from_utf8(listing).unwrap(), expected);
}

/// The item is written in these bytes, and reads back the same.
fn check_bytes(item: &str, bytes: &str) {
    let lines = texts::assemble(
        "test",
        &format!("profile continue 120\n{item}\nbytes {bytes}"),
    )
    .unwrap();
    assert_eq!(lines[1].bytes, lines[2].bytes);
    assert_eq!(texts::explain_item(&lines[1].bytes), item);
}

#[test]
fn example_of_the_listing() {
    check(
        "bytes 00 0A 01 00 78 00 00 00 00 00
        1000 call 7 setup 4/49151 service 17                 -> ok control 2 r2/1
        1000 call 7 request-report 6/2 interrupted timer 30  -> ok control 2
        1000 call 7 continue                                 -> ok control - d1300
        1300 call 7 no-answer                                -> ok control 6 r6/2
        1310 call 7 release                                  -> ok none - over
        1310 call 7 continue                                 -> refused 4",
    );
}

#[test]
fn p1_answer() {
    check_bytes(
        "5000 call 7 answer",
        "00 0E 01 06 00 00 00 07 00 00 00 00 13 88",
    );
}

#[test]
fn p2_request_report() {
    check_bytes(
        "1000 call 7 request-report 6/2 interrupted timer 30",
        "00 14 01 14 00 00 00 07 00 00 00 00 03 E8 01 06 02 00 00 1E",
    );
}

#[test]
fn p3_seconds_to_tenths() {
    check(
        "profile continue 30 inhibiting length 15
        1000 call 1 setup 4/491515151515151 service 17 -> ok none - d1300",
    );
}

/// A charge of leg 2 whose clock starts at the Answer, not at the grant.
const CHARGED: &str = "profile continue 120
    4000 call 7 setup 4/4915 service 17          -> ok control 2 r2/1
    4000 call 7 apply-charging leg 2 period 600  -> ok control 2
    4000 call 7 continue                         -> ok monitor - d5200
    5000 call 7 answer                           -> ok monitor -\n";

#[test]
fn p4_period_over() {
    check(&format!(
        "{CHARGED}
        5599 call 7 period-over leg 2 -> refused 14
        5600 call 7 period-over leg 2 -> ok none - c2=600"
    ));
}

#[test]
fn p5_elapsed() {
    check(&format!(
        "{CHARGED} 5123 call 7 clear leg 2 cause 16 -> ok none - c2=123 over"
    ));
    check(&format!(
        "{CHARGED} 5700 call 7 clear leg 2 cause 16 -> ok none - c2=600 over"
    ));
}

#[test]
fn p6_stored_number() {
    check(
        "profile continue 120 enabling 4/491
        0 call 1 setup 4/4915 service 17 -> ok control 2 r2/1
        0 call 2 setup 4/491 service 17  -> ok control 2 r2/1
        0 call 3 setup 4/49 service 17   -> ok none - d1200",
    );
}

#[test]
fn p7_period() {
    check(
        "profile continue 120
        0 call 1 setup 4/4915 service 17            -> ok control 2 r2/1
        0 call 1 apply-charging leg 1 period 864000 -> ok control 2
        0 call 1 apply-charging leg 2 period 864001 -> refused 1
        0 call 1 apply-charging leg 2 period 0      -> refused 1",
    );
}

#[test]
fn p8_full_table() {
    check(
        "profile continue 120
        0 call 1..64 setup 4/1 service 17 -> ok control 2 r2/1
        0 call 65 setup 4/1 service 17    -> refused 6
        0 call 64 setup 4/1 service 17    -> refused 5",
    );
}

#[test]
fn p9_busy_leaves_abandon() {
    check(
        "profile continue 120
        0 call 1 setup 4/1 service 17                           -> ok control 2 r2/1
        0 call 1 request-report 5/2 interrupted, 10/1 notify    -> ok control 2
        0 call 1 continue                                       -> ok control - d1200
        9 call 1 busy cause 17                                  -> ok control 5 r5/2
        9 call 1 clear leg 1 cause 16                           -> ok none - n10/1 over",
    );
}

#[test]
fn p10_timer() {
    check(
        "profile continue 120
        0 call 1 setup 4/1 service 17                       -> ok control 2 r2/1
        0 call 1 request-report 6/2 interrupted timer 2048  -> refused 11
        0 call 1 request-report 6/2 interrupted timer 2047  -> ok control 2
        0 call 1 continue                                   -> ok control - d20470",
    );
}

/// A feeder that holds these bytes, and the lines that the steps get: chunks in
/// hex, `-` for one of no bytes, and resets.
fn check_feeder(held: &str, count: u64, stopped: bool, steps: &str, expected: &[&str]) {
    let mut feeder = Feeder {
        count,
        stopped,
        ..Feeder::NEW
    };
    let held = hex(held);
    feeder.bytes[..held.len()].copy_from_slice(&held);
    let steps = steps.split_whitespace().map(|word| match word {
        "reset" => Step::Reset,
        "-" => Step::Chunk(vec![]),
        word => Step::Chunk(hex(word)),
    });
    let case = Case {
        feeder,
        steps: steps.collect(),
    };
    let output = String::from_utf8(chunks::run(&case.bytes())).unwrap();
    let lines: Vec<&str> = output.lines().skip(1).collect();
    assert_eq!(lines, expected);
}

fn hex(word: &str) -> Vec<u8> {
    let byte = |place| u8::from_str_radix(&word[place..place + 2], 16).unwrap();
    (0..word.len()).step_by(2).map(byte).collect()
}

/// P1's item in bits; a length that no item has; resets.
#[test]
fn feeder_with_chunks() {
    check_feeder(
        "",
        0,
        false,
        "000e01 06000000070000000013 88000d05 reset 00 - reset",
        &[
            "fed 3 used-up left 3 000e01",
            "fed 10 used-up left 13 000e0106000000070000000013",
            "fed 1 item 000e010600000007000000001388 left 0",
            "fed 2 refused 1 left 0 stopped",
            "fed 0 refused 15 left 0 stopped",
            "reset 0 left 0",
            "fed 1 used-up left 1 00",
            "fed 0 used-up left 1 00",
            "reset 1 left 0",
        ],
    );
}

/// A malformed item is answered 1, and the next one is handed out.
#[test]
fn feeder_goes_on_after_a_malformed_item() {
    check_feeder(
        "000e02060000000700000000",
        12,
        false,
        "1388000e010600000007000000001388",
        &[
            "fed 2 refused 1 left 0",
            "fed 14 item 000e010600000007000000001388 left 0",
            "fed 0 used-up left 0",
        ],
    );
}

/// The length field's second byte comes in another chunk than its first.
#[test]
fn feeder_stops_at_a_cut_length_field() {
    for low in ["0d", "42"] {
        check_feeder(
            "",
            0,
            false,
            &format!("00 {low}00 00 reset"),
            &[
                "fed 1 used-up left 1 00",
                "fed 1 refused 1 left 0 stopped",
                "fed 0 refused 15 left 0 stopped",
                "fed 0 refused 15 left 0 stopped",
                "reset 0 left 0",
            ],
        );
    }
}

/// Each cause of 15 by itself: nothing is used and nothing changes.
#[test]
fn feeder_handed_in_damaged() {
    let whole = "000e010600000007000000001388";
    for (held, count, stopped, left) in [
        ("", 0, true, "0 stopped".to_string()),
        ("000e01", 3, true, "3 000e01 stopped".to_string()),
        ("000d", 2, false, "2 000d".to_string()),
        ("0042", 2, false, "2 0042".to_string()),
        ("010e", 2, false, "2 010e".to_string()),
        (whole, 14, false, format!("14 {whole}")),
        (whole, 15, false, format!("15 {whole}00")),
        (
            whole,
            u64::MAX,
            false,
            format!("{} {whole:0<130}", u64::MAX),
        ),
    ] {
        let refused = format!("fed 0 refused 15 left {left}");
        let expected = [&refused[..], &refused, "reset 0 left 0"];
        check_feeder(held, count, stopped, "00 - reset", &expected);
    }
}

/// T-02's sentence about cuts.
#[test]
fn cuts_do_not_matter() {
    for (number, bytes) in compare_chunks::cases(1..501).enumerate() {
        let case = Case::read(&bytes).unwrap();
        assert!(!compare_chunks::cut_matters(&case), "case {}", number + 1);
    }
}

fn check_digits(stored: &[u8], dialled: &[u8], matches: bool, pairs: usize) {
    let expected = Compared { matches, pairs };
    assert_eq!(compare(stored, dialled), expected, "{stored:?} {dialled:?}");
}

/// P6 with its counts.
#[test]
fn digits_of_p6() {
    check_digits(&[4, 9, 1], &[4, 9, 1, 5], true, 3);
    check_digits(&[4, 9, 1], &[4, 9, 1], true, 3);
    check_digits(&[4, 9, 1], &[4, 9], false, 0);
}

#[test]
fn digits_of_one_place_or_none() {
    check_digits(&[4], &[4], true, 1);
    check_digits(&[4], &[4, 9], true, 1);
    check_digits(&[4], &[9], false, 1);
    check_digits(&[4], &[9, 4], false, 1);
    check_digits(&[4], &[], false, 0);
    check_digits(&[], &[], true, 0);
    check_digits(&[], &[4], true, 0);
}

/// One digit differs, or two: the last one is compared first, and the others up
/// to the first that differs. It makes no difference what follows.
#[test]
fn digits_that_differ() {
    const STORED: [u8; 15] = [4, 9, 1, 5, 14, 0, 3, 4, 5, 6, 7, 8, 9, 0, 1];
    for length in 1..=15 {
        let last = length - 1;
        for place in 0..length {
            let mut dialled = STORED;
            dialled[place] += 1;
            let pairs = if place == last { 1 } else { place + 2 };
            check_digits(&STORED[..length], &dialled[..length], false, pairs);
            check_digits(&STORED[..length], &dialled, false, pairs);
            check_digits(&STORED[..length], &dialled[..last], false, 0);
            dialled[last] = 13;
            check_digits(&STORED[..length], &dialled, false, 1);
        }
    }
}

/// All numbers of up to four digits, of three sorts.
fn small_numbers() -> Vec<Vec<u8>> {
    let longer = |numbers: &Vec<Vec<u8>>| {
        let with_digit =
            |number: &Vec<u8>| [0, 1, 14].map(|digit| [&number[..], &[digit]].concat());
        Some(numbers.iter().flat_map(with_digit).collect())
    };
    let lengths = iter::successors(Some(vec![vec![]]), longer);
    lengths.take(5).flatten().collect()
}

/// The answer is the same as ever, and the count has its bounds.
#[test]
fn digits_of_all_small_numbers() {
    let numbers = small_numbers();
    assert_eq!(numbers.len(), 1 + 3 + 9 + 27 + 81);
    for stored in &numbers {
        for dialled in &numbers {
            let compared = compare(stored, dialled);
            let Compared { matches, pairs } = compared;
            let case = format!("{stored:?} {dialled:?} {compared:?}");
            assert_eq!(matches, dialled.starts_with(stored), "{case}");
            assert_eq!(
                matches,
                compare_from_front(stored, dialled).matches,
                "{case}"
            );
            assert!(pairs <= stored.len(), "{case}");
            if matches {
                assert_eq!(pairs, stored.len(), "{case}");
            } else if dialled.len() < stored.len() {
                assert_eq!(pairs, 0, "{case}");
            } else if stored.last() != dialled[..stored.len()].last() {
                assert_eq!(pairs, 1, "{case}");
            } else {
                assert!(pairs > 1, "{case}");
            }
        }
    }
}

/// As it was before T-03: the last digit comes last.
#[test]
fn digits_from_the_front() {
    for (stored, dialled, matches, pairs) in [
        (&[4, 9, 1][..], &[4, 9, 1, 5][..], true, 3),
        (&[4, 9, 1], &[4, 9], false, 0),
        (&[4, 9, 1], &[5, 9, 1], false, 1),
        (&[4, 9, 1], &[4, 8, 1], false, 2),
        (&[4, 9, 1], &[4, 9, 2], false, 3),
        (&[], &[], true, 0),
    ] {
        let expected = Compared { matches, pairs };
        assert_eq!(compare_from_front(stored, dialled), expected);
    }
}

/// So many checks of a profile and what is dialled print these lines: the last
/// digit first, and from the front.
fn check_triggers(profile: &str, dialled: &[&str], checks: u32, expected: [&str; 2]) {
    let round = triggers::round(profile, dialled).unwrap();
    let sums = [LAST_FIRST, FROM_FRONT]
        .map(|function| triggers::run(&rounds::write(function, checks, &round)).unwrap());
    assert_eq!(sums.map(|sums| sums.to_string()), expected);
}

/// Only numbers of the nature are compared, and none after one that matches;
/// the Setups are taken again from the first.
#[test]
fn trigger_checks() {
    let profile = "profile continue 120 inhibiting 4/492 3/491 4/491 4/49 length 4 service 1";
    check_triggers(profile, &["4/4915"], 1, ["1 1 4", "1 1 6"]);
    check_triggers(profile, &["3/4915"], 2, ["2 2 6", "2 2 6"]);
    check_triggers(profile, &["5/4915"], 1, ["1 0 0", "1 0 0"]);
    check_triggers(profile, &["4/4815", "4/4"], 3, ["3 0 10", "3 0 12"]);
    check_triggers(profile, &["4/4915"], 0, ["0 0 0", "0 0 0"]);
}

#[test]
fn trigger_checks_of_the_long_list() {
    let expected = [
        ["1 0 10", "1 0 150"],
        ["1 1 24", "1 1 150"],
        ["1 0 10", "1 0 10"],
        ["1 0 11", "1 0 10"],
    ];
    for ((dialled, _), expected) in DIALLED_WITH_LONG_LIST.into_iter().zip(expected) {
        check_triggers(LONG_LIST, &[dialled], 1, expected);
    }
}

#[test]
fn trigger_checks_of_a_wrong_input() {
    let profile = "profile continue 120 enabling 4/491";
    let assemble = |text: String| texts::bytes_of(&texts::assemble("test", &text).unwrap());
    let round = triggers::round(profile, &["4/491"]).unwrap();
    for (function, round) in [
        (0, round.clone()),
        (4, round.clone()),
        (LAST_FIRST, round[..round.len() - 1].to_vec()),
        (LAST_FIRST, assemble(profile.to_string())),
        (LAST_FIRST, assemble(format!("{profile}\n0 call 1 answer"))),
        (LAST_FIRST, round.repeat(2000)),
    ] {
        assert!(triggers::run(&rounds::write(function, 1, &round)).is_err());
    }
    assert!(triggers::run(&[LAST_FIRST, 0, 0, 0]).is_err());
}

#[test]
fn listing_of_pieces() {
    for seed in 0..500 {
        let scenario = generate::scenario(seed);
        let pieces = compare_listings::cut(&mut Random::new(seed), &scenario);
        let listing = listing::of_input(BufReader::new(Pieces(&pieces)));
        assert_eq!(listing, listing::of(&scenario), "seed {seed}");
    }
}

#[test]
fn explained_input_assembles_to_itself() {
    let mut random = Random::new(1);
    for seed in 0..500 {
        let scenario = generate::scenario(seed);
        let cut = random.below(scenario.len() as u64 + 1) as usize;
        let noise: Vec<u8> = (0..cut).map(|_| random.below(16) as u8).collect();
        let inputs = [&scenario[..], &scenario[..cut], &scenario[cut..], &noise];
        for bytes in inputs.into_iter().filter(|bytes| !bytes.is_empty()) {
            let lines = texts::assemble("test", &texts::explain(bytes)).unwrap();
            assert_eq!(texts::bytes_of(&lines), bytes);
        }
    }
}

#[test]
fn range_of_calls() {
    let assemble = |text: &str| texts::assemble("test", text).map(|lines| texts::bytes_of(&lines));
    assert_eq!(
        assemble("profile continue 120\n5 call 9..11 answer"),
        assemble("profile continue 120\n5 call 9 answer\n5 call 10 answer\n5 call 11 answer")
    );
    for range in ["2..1", "1..", "..1", "..", "1..2..3", "0..4294967296"] {
        let error = assemble(&format!("profile continue 120\n5 call {range} answer")).unwrap_err();
        assert!(error.starts_with("test:2: call"), "{error}");
    }
}

/// The answers to a run of `bench`, and the table that it leaves.
fn feed_bench_input(call_kind: CallKind, open: u32) -> (Vec<Answer>, [Entry; ENTRIES]) {
    let input = measure::input(call_kind, open, 2500).unwrap();
    let frames = frames(&input);
    let mut table = table::fresh();
    let feed = |item: &&[u8]| table::feed_sound(&mut table, item, frames[0]);
    (frames[1..].iter().map(feed).collect(), table)
}

/// So that `bench` can feed the same items round after round.
#[test]
fn bench_input_ends_with_an_empty_table() {
    for call_kind in CallKind::BOTH {
        for open in [1, 32, 64] {
            let (_, table) = feed_bench_input(call_kind, open);
            assert_eq!(table, table::fresh());
        }
    }
}

/// So that both kinds of call can be held to each other: only the points are
/// others.
#[test]
fn bench_input_of_both_kinds() {
    let without_points = |answer: Answer| {
        answer.map(|accepted| Accepted {
            hold: None,
            event_report: None,
            ..accepted
        })
    };
    let reported = |answer: &Answer| answer.ok().and_then(|answer| answer.event_report);
    for open in [1, 32, 64] {
        let [originating, terminating] =
            CallKind::BOTH.map(|call_kind| feed_bench_input(call_kind, open).0);
        assert_eq!(originating.len(), terminating.len());
        for (one, other) in originating.into_iter().zip(terminating) {
            assert_eq!(reported(&one).is_some(), reported(&other).is_some());
            assert_eq!(without_points(one), without_points(other));
        }
    }
}
