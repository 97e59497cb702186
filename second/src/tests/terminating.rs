//! Terminating calls: their points, their rules beside those of originating
//! calls, and their records in the table.
//!
//! Document 02, T-04.

use super::{check, check_bytes};
use crate::compare::tables::{self, Case};
use crate::paper::answer::Refusal;
use crate::paper::forms::CallKind;
use crate::paper::record::{Hold, Mode, Part, Record};
use crate::paper::table::{self, Entry};
use crate::texts;

/// The pairs of document 02.
const PAIRS: [(u8, u8); 9] = [
    (13, 2),
    (14, 2),
    (15, 2),
    (16, 2),
    (17, 1),
    (17, 2),
    (18, 1),
    (27, 2),
    (51, 2),
];

/// Call 1, held at 12 with these entries armed.
fn armed(entries: &str) -> String {
    format!(
        "profile continue 60
        0 call 1 terminating-setup 4/1 service 17 -> ok control 12 r12/1
        0 call 1 request-report {entries} -> ok control 12\n"
    )
}

#[test]
fn kind_11_in_bytes() {
    check_bytes(
        "1000 call 7 terminating-setup 4/49151 service 17 forwarded",
        "00 17 01 0B 00 00 00 07 00 00 00 00 03 E8 04 11 01 05 04 09 01 05 01",
    );
}

#[test]
fn parts_and_points_go_both_ways() {
    for call_kind in CallKind::BOTH {
        for number in 0..=u8::MAX {
            for leg in 0..=u8::MAX {
                let is_point = |part: &Part| {
                    let point = call_kind.point(*part);
                    point.is_some_and(|point| (point.number, point.leg.number()) == (number, leg))
                };
                let expected = Part::ALL.into_iter().find(is_point);
                assert_eq!(call_kind.part(number, leg), expected, "{number}/{leg}");
                if call_kind == CallKind::Terminating {
                    assert_eq!(expected.is_some(), PAIRS.contains(&(number, leg)));
                }
            }
        }
    }
}

/// Neither the number nor the forwarding plays a part.
#[test]
fn services_alone_trigger() {
    check(
        "profile continue 60 enabling 4/491 length 7 service 17 20 forwarding inhibiting
        0 call 1 terminating-setup 4/39 service 17           -> ok control 12 r12/1
        0 call 2 terminating-setup 4/39 service 20 forwarded -> ok control 12 r12/1
        0 call 3 terminating-setup 4/491 service 18          -> ok none - d600
        0 call 4 setup 4/39 service 17                       -> ok none - d600",
    );
    check(
        "profile continue 60 inhibiting 4/491 forwarding enabling
        0 call 1 terminating-setup 4/491 service 255 -> ok control 12 r12/1
        0 call 2 setup 4/491 service 255             -> ok none - d600",
    );
}

/// At 12 as at 2; the kept timer is used once.
#[test]
fn continue_connect_and_abort_at_12() {
    let armed = armed("14/2 notify timer 30");
    check(&format!(
        "{armed} 10 call 1 continue -> ok monitor - d310
        20 call 1 continue -> refused 8"
    ));
    check(&format!(
        "{armed} 10 call 1 connect 4/2 -> ok monitor - d310
        10 call 1 seized -> ok monitor -"
    ));
    check(&format!("{armed} 10 call 1 abort -> ok none - d610"));
    check(&format!("{armed} 10 call 1 release -> ok none - over"));
    check(&format!(
        "{armed} 10 call 1 clear leg 2 cause 16 -> refused 12
        10 call 1 route-failure cause 3 -> refused 9
        10 call 1 clear leg 1 cause 16 -> ok none - over"
    ));
}

/// A hold at another point is no place for Connect while both legs are there.
#[test]
fn connect_needs_12_or_leg_2_absent() {
    let armed = armed("27/2 interrupted, 14/2 interrupted");
    check(&format!(
        "{armed} 0 call 1 continue -> ok control - d600
        10 call 1 connect 4/2      -> refused 10
        10 call 1 seized           -> ok control 27 r27/2
        10 call 1 connect 4/2      -> refused 12
        10 call 1 continue         -> ok control -
        20 call 1 no-answer        -> ok control 14 r14/2
        20 call 1 connect 4/2      -> ok none - d620"
    ));
}

/// Not held it is out of place at every stage; held it is refused as any event.
#[test]
fn route_failure_is_out_of_place() {
    let armed = armed("15/2 notify, 16/2 interrupted");
    check(&format!(
        "{armed} 0 call 1 route-failure cause 3 -> refused 9
        0 call 1 continue            -> ok control - d600
        1 call 1 route-failure cause 3 -> refused 12
        2 call 1 seized              -> ok control -
        2 call 1 route-failure cause 3 -> refused 12
        3 call 1 answer              -> ok control - n15/2
        3 call 1 route-failure cause 3 -> refused 12
        4 call 1 mid-call digit 1    -> ok control 16 r16/2
        4 call 1 route-failure cause 3 -> refused 9"
    ));
}

/// Each kind of call refuses the other's pairs, whatever the mode.
#[test]
fn pairs_of_the_other_kind() {
    for [setup, other] in [
        CallKind::BOTH,
        [CallKind::Terminating, CallKind::Originating],
    ] {
        let (word, point) = match setup {
            CallKind::Originating => ("setup", 2),
            CallKind::Terminating => ("terminating-setup", 12),
        };
        for point_of_other in Part::ALL.into_iter().filter_map(|part| other.point(part)) {
            let pair = format!("{}/{}", point_of_other.number, point_of_other.leg.number());
            for mode in ["interrupted", "notify", "transparent"] {
                check(&format!(
                    "profile continue 60
                    0 call 1 {word} 4/1 service 17 -> ok control {point} r{point}/1
                    0 call 1 request-report {pair} {mode} -> refused 11"
                ));
            }
        }
    }
}

#[test]
fn entries_of_terminating_calls() {
    for (entries, answer) in [
        ("51/2 interrupted", "refused 11"),
        ("51/2 notify", "ok control 12"),
        ("51/1 notify", "refused 11"),
        ("16/1 notify", "refused 11"),
        ("12/1 notify", "refused 11"),
        ("14/2 interrupted timer 2047", "ok control 12"),
        ("14/2 notify timer 2048", "refused 11"),
        ("14/2 transparent timer 1", "refused 11"),
        ("13/2 notify timer 1", "refused 11"),
        ("17/1 notify, 17/2 notify", "ok control 12"),
        ("17/2 notify, 17/2 notify", "refused 11"),
        (
            "13/2 notify, 14/2 notify, 15/2 notify, 16/2 notify, 17/1 notify, 17/2 notify, \
             18/1 notify, 27/2 notify, 51/2 notify",
            "ok control 12",
        ),
    ] {
        check(&format!(
            "profile continue 60
            0 call 1 terminating-setup 4/1 service 17 -> ok control 12 r12/1
            0 call 1 request-report {entries} -> {answer}"
        ));
    }
}

/// What can still occur may be armed: 27 before it rings, 13, 14, 15 and 18
/// before the answer, the rest always.
#[test]
fn arming_by_stage() {
    let mut text = armed("16/2 interrupted") + "0 call 1 continue -> ok control - d600\n";
    let stages = [
        ("1 call 1 seized -> ok control -", vec![27]),
        ("2 call 1 answer -> ok control -", vec![27, 13, 14, 15, 18]),
    ];
    for (event, gone) in stages {
        text += &format!("{event}\n");
        for (number, leg) in PAIRS.into_iter().filter(|(number, _)| *number != 16) {
            let refused = gone.contains(&number);
            let answer = if refused {
                "refused 12"
            } else {
                "ok control -"
            };
            text += &format!("2 call 1 request-report {number}/{leg} notify -> {answer}\n");
            text +=
                &format!("2 call 1 request-report {number}/{leg} transparent -> ok control -\n");
        }
    }
    check(&text);
}

/// All nine armed for notification, both legs present, at the stage.
fn all_armed(stage: &str) -> String {
    let mut text = armed(
        "13/2 notify, 14/2 notify, 15/2 notify, 16/2 notify, 17/1 notify, 17/2 notify, \
         18/1 notify, 27/2 notify, 51/2 notify",
    );
    text += "0 call 1 continue -> ok monitor - d600\n";
    text + stage
}

/// What the record has armed after a scenario.
fn armed_after(text: &str) -> Vec<(u8, u8)> {
    let lines = texts::assemble("test", text).unwrap();
    let mut table = table::fresh();
    for line in &lines[1..] {
        table::feed_sound(&mut table, &line.bytes, &lines[0].bytes).unwrap();
    }
    let Record {
        call_kind, armings, ..
    } = table[0].record;
    let armed = Part::ALL
        .into_iter()
        .filter(|part| armings.get(*part).is_some());
    let points = armed.filter_map(|part| call_kind.point(part));
    let mut pairs: Vec<(u8, u8)> = points
        .map(|point| (point.number, point.leg.number()))
        .collect();
    pairs.sort();
    pairs
}

#[test]
fn rows_of_terminating_calls() {
    let without = |gone: &[(u8, u8)]| -> Vec<(u8, u8)> {
        PAIRS
            .into_iter()
            .filter(|pair| !gone.contains(pair))
            .collect()
    };
    let alerting = "1 call 1 seized\n";
    let until_answer = [(13, 2), (14, 2), (15, 2), (18, 1), (27, 2)];
    assert_eq!(armed_after(&all_armed("")), PAIRS);
    assert_eq!(armed_after(&all_armed(alerting)), without(&[(27, 2)]));
    assert_eq!(
        armed_after(&all_armed("1 call 1 answer")),
        without(&until_answer)
    );
    let moved = format!("{alerting} 1 call 1 moved");
    assert_eq!(
        armed_after(&all_armed(&moved)),
        without(&[(27, 2), (51, 2)])
    );
    let mid_call = "1 call 1 answer\n1 call 1 mid-call digit 0";
    assert_eq!(
        armed_after(&all_armed(mid_call)),
        without(&[&until_answer[..], &[(16, 2)]].concat())
    );
}

/// The events that end leg 2 take all its points, those of leg 1 all of leg 1.
#[test]
fn rows_that_end_a_leg() {
    let of_leg_1 = vec![(17, 1), (18, 1)];
    for (number, event) in [(13, "busy cause 17"), (14, "no-answer")] {
        let interrupted = armed(&format!(
            "{number}/2 interrupted, 15/2 notify, 16/2 notify, 17/1 notify, 17/2 notify, \
             18/1 notify, 27/2 notify, 51/2 notify"
        ));
        let text = format!("{interrupted} 0 call 1 continue\n1 call 1 {event}");
        assert_eq!(armed_after(&text), of_leg_1, "{event}");
    }
    let clear_2 = armed("17/2 interrupted, 16/2 notify, 51/2 notify, 17/1 notify")
        + "0 call 1 continue\n1 call 1 answer\n2 call 1 clear leg 2 cause 16";
    assert_eq!(armed_after(&clear_2), [(17, 1)]);
    let clear_1 = armed("17/1 interrupted, 16/2 notify, 51/2 notify, 17/2 notify")
        + "0 call 1 continue\n1 call 1 answer\n2 call 1 clear leg 1 cause 16";
    assert_eq!(armed_after(&clear_1), [(16, 2), (17, 2), (51, 2)]);
    let abandon = armed("18/1 interrupted, 17/1 notify, 13/2 notify")
        + "0 call 1 continue\n1 call 1 clear leg 1 cause 16";
    assert_eq!(armed_after(&abandon), [(13, 2)]);
}

/// Mid-call and Moved are the called party's: both need leg 2.
#[test]
fn mid_call_and_moved_need_leg_2() {
    check(
        &(armed("17/2 interrupted, 17/1 notify")
            + "0 call 1 continue             -> ok control - d600
               1 call 1 answer               -> ok control -
               1 call 1 mid-call digit 1     -> ok control -
               1 call 1 moved                -> ok control -
               2 call 1 clear leg 2 cause 16 -> ok control 17 r17/2
               2 call 1 mid-call digit 1     -> refused 9
               3 call 1 continue             -> ok none - over"),
    );
    // Such a record is in range, though no run reaches it.
    let mut entry = entry();
    entry.record.present = [false, true];
    assert!(feed(entry, "1 call 1 moved").is_ok());
    assert!(feed(entry, "1 call 1 mid-call digit 1").is_ok());
    entry.record.present = [true, false];
    for item in ["1 call 1 moved", "1 call 1 mid-call digit 1"] {
        assert_eq!(feed(entry, item), Err(Refusal::NotPossible));
    }
    entry.record.call_kind = CallKind::Originating;
    assert!(feed(entry, "1 call 1 moved").is_ok());
}

#[test]
fn setups_for_open_calls_and_for_room() {
    check(
        "profile continue 60
        0 call 1 setup 4/1 service 17                 -> ok control 2 r2/1
        0 call 2 terminating-setup 4/1 service 17     -> ok control 12 r12/1
        0 call 1..2 setup 4/1 service 17              -> refused 5
        0 call 1..2 terminating-setup 4/1 service 17  -> refused 5
        0 call 3..64 terminating-setup 4/1 service 17 -> ok control 12 r12/1
        0 call 65 terminating-setup 4/1 service 17    -> refused 6
        0 call 65 setup 4/1 service 17                -> refused 6
        0 call 2 terminating-setup 4/1 service 17     -> refused 5
        0 call 2 release                              -> ok none - over
        0 call 2 setup 4/1 service 17                 -> ok control 2 r2/1",
    );
}

/// A charge runs from the answer, as ever.
#[test]
fn charges_of_terminating_calls() {
    check(
        &(armed("13/2 notify")
            + "0 call 1 apply-charging leg 2 period 600 -> ok control 12
               0 call 1 continue                        -> ok monitor - d600
               1000 call 1 answer                       -> ok monitor -
               1599 call 1 period-over leg 2            -> refused 14
               1600 call 1 period-over leg 2            -> ok none - c2=600"),
    );
}

/// An active terminating call 1.
fn entry() -> Entry {
    let text = "profile continue 60
        0 call 1 terminating-setup 4/1 service 17
        0 call 1 continue
        0 call 1 answer";
    let lines = texts::assemble("test", text).unwrap();
    let mut table = table::fresh();
    for line in &lines[1..] {
        table::feed(&mut table, &line.bytes, &lines[0].bytes).unwrap();
    }
    table[0]
}

/// The item's refusal, fed to a table with this entry.
fn feed(entry: Entry, item: &str) -> Result<(), Refusal> {
    let lines = texts::assemble("test", &format!("profile continue 60\n{item}")).unwrap();
    let mut table = table::fresh();
    table[0] = entry;
    let before = table;
    let answer = table::feed(&mut table, &lines[1].bytes, &lines[0].bytes);
    assert!(answer.is_ok() || table == before);
    answer.map(|_| ())
}

/// Row 3: the place of Route failure is no armable pair of a terminating call,
/// and 51 is as 50.
#[test]
fn terminating_records_out_of_range() {
    let answer = |change: &dyn Fn(&mut Record)| {
        let mut entry = entry();
        change(&mut entry.record);
        feed(entry, "1 call 1 clear leg 1 cause 16")
    };
    assert_eq!(answer(&|_| ()), Ok(()));
    for mode in Mode::BOTH {
        for part in Part::ALL {
            let arm = |record: &mut Record| record.armings.set(part, Some(mode));
            let out =
                part == Part::RouteFailure || part == Part::Moved && mode == Mode::Interrupted;
            let expected = if out {
                Err(Refusal::TableUnsound)
            } else {
                Ok(())
            };
            assert_eq!(answer(&arm), expected, "{part:?} {mode:?}");
            let arm_originating = |record: &mut Record| {
                record.call_kind = CallKind::Originating;
                arm(record);
            };
            let out = part == Part::Moved && mode == Mode::Interrupted;
            assert_eq!(answer(&arm_originating).is_err(), out, "{part:?} {mode:?}");
        }
    }
    for part in Part::ALL {
        let hold = |record: &mut Record| record.hold = Some(Hold::At(part));
        let out = [Part::RouteFailure, Part::Moved].contains(&part);
        assert_eq!(answer(&hold).is_err(), out, "{part:?}");
    }
    assert_eq!(answer(&|record| record.hold = Some(Hold::Trigger)), Ok(()));
}

/// A free record is originating, the zero.
#[test]
fn free_records_are_not_terminating() {
    let mut entry = Entry::FREE;
    assert_eq!(feed(entry, "0 call 1 setup 4/1 service 17"), Ok(()));
    entry.record.call_kind = CallKind::Terminating;
    for item in ["0 call 1 setup 4/1 service 17", "0 call 1 answer"] {
        assert_eq!(feed(entry, item), Err(Refusal::TableUnsound));
    }
}

/// The form of whole tables: 88 bytes, parts in their places, the kind last.
#[test]
fn entries_in_bytes() {
    let mut entry = entry();
    entry.record.hold = Some(Hold::At(Part::Busy));
    entry
        .record
        .armings
        .set(Part::RouteFailure, Some(Mode::Notify));
    entry
        .record
        .armings
        .set(Part::Seized, Some(Mode::Interrupted));
    let case = Case {
        table: vec![entry, Entry::FREE],
        profile: vec![],
        item: vec![],
    };
    let bytes = case.bytes();
    let entries = &bytes[3..3 + 2 * 88];
    assert_eq!(bytes.len(), 3 + 2 * 88 + 1);
    assert_eq!((entries[87], entries[2 * 88 - 1]), (1, 0));
    let hold = 1 + 4 + 1 + 2 * 18;
    assert_eq!(entries[hold], 2 + Part::Busy as u8);
    assert_eq!(entries[hold + 9..hold + 19], [0, 0, 0, 0, 2, 0, 0, 0, 0, 1]);
    assert_eq!(tables::read_entry(&entries[..88]), Some(entry));
    let mut unknown = entries[..88].to_vec();
    unknown[87] = 2;
    assert_eq!(tables::read_entry(&unknown), None);
}
