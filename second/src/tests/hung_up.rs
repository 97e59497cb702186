//! The called party hangs up while the call is held, in calls of both kinds.
//!
//! Document 02, T-05.

use super::check;
use crate::paper::answer::{Accepted, Answer, Refusal};
use crate::paper::forms::{CallKind, Handling, Leg, Seconds, Tenths};
use crate::paper::record::{
    Armings, CalledNumber, Charge, Hold, Mode, Part, Record, Relationship, Stage,
};
use crate::paper::table::{self, Entry};
use crate::texts;

/// What the texts name: in an originating call, and in a terminating one.
const NAMES: [(&str, [&str; 2]); 6] = [
    ("<setup>", ["setup", "terminating-setup"]),
    ("<trigger>", ["2", "12"]),
    ("<busy>", ["5", "13"]),
    ("<answer>", ["7", "15"]),
    ("<disconnect>", ["9", "17"]),
    ("<seized>", ["19", "27"]),
];

/// Checks the text with the names of each kind of call.
fn check_both(text: &str) {
    for call_kind in CallKind::BOTH {
        let named = NAMES.iter().fold(text.to_string(), |text, (name, words)| {
            text.replace(name, words[call_kind as usize])
        });
        check(&named);
    }
}

/// How Disconnect leg 2 is armed, its report, and whether the hold moves there.
const ARMINGS: [(&str, &str, bool); 3] = [
    (", <disconnect>/2 interrupted", "r<disconnect>/2", true),
    (", <disconnect>/2 notify", "n<disconnect>/2", false),
    ("", "", false),
];

/// Call 1 with the first point armed to interrupt, and Disconnect leg 2 as it is
/// said; both legs are charged, and it rings.
fn charged(first: &str, disconnect: &str) -> String {
    format!(
        "profile continue 60
        0 call 1 <setup> 4/1 service 17                           -> ok control <trigger> r<trigger>/1
        0 call 1 request-report {first} interrupted{disconnect}   -> ok control <trigger>
        0 call 1 apply-charging leg 1 period 600                  -> ok control <trigger>
        0 call 1 apply-charging leg 2 period 900                  -> ok control <trigger>
        0 call 1 continue                                         -> ok control - d600\n"
    )
}

/// Each way to hang up at 150 in a call that is held at its Answer, answered at
/// 100; and where it is held then.
fn hung_up() -> impl Iterator<Item = (String, &'static str)> {
    ARMINGS.into_iter().map(|(disconnect, report, moves)| {
        let hold = if moves { "<disconnect>" } else { "<answer>" };
        let text = charged("<answer>/2", disconnect)
            + &format!(
                "100 call 1 answer              -> ok control <answer> r<answer>/2
                150 call 1 clear leg 2 cause 16 -> ok control {hold} {report} c2=50\n"
            );
        (text, hold)
    })
}

/// The same after the caller has hung up at 120: held at Disconnect of one leg or
/// the other, which have the same number.
fn hung_up_without_leg_1() -> impl Iterator<Item = String> {
    ARMINGS.into_iter().map(|(disconnect, report, _)| {
        charged("<disconnect>/1", disconnect)
            + &format!(
                "100 call 1 answer              -> ok control -
                120 call 1 clear leg 1 cause 16 -> ok control <disconnect> r<disconnect>/1 c1=20
                150 call 1 clear leg 2 cause 16 -> ok control <disconnect> {report} c2=50\n"
            )
    })
}

/// Leg 1's charge runs on and is reported at the end, but for an Abort.
#[test]
fn after_the_called_party_has_hung_up() {
    for (hung_up, hold) in hung_up() {
        for (item, answer) in [
            ("200 call 1 continue", "ok none - c1=100 over"),
            ("200 call 1 release", "ok none - c1=100 over"),
            ("200 call 1 clear leg 1 cause 16", "ok none - c1=100 over"),
            ("200 call 1 abort", "ok none - over"),
            ("200 call 1 connect 4/2", "ok monitor - d800"),
            (
                "200 call 1 request-report <busy>/2 interrupted",
                "ok control <hold>",
            ),
            ("200 call 1 activity-test", "ok control <hold>"),
            ("700 call 1 period-over leg 1", "ok control <hold> c1=600"),
            ("699 call 1 period-over leg 1", "refused 14"),
            ("149 call 1 clear leg 2 cause 16", "refused 7"),
            ("200 call 1 clear leg 2 cause 16", "refused 12"),
            ("200 call 1 period-over leg 2", "refused 12"),
            ("200 call 1 apply-charging leg 2 period 1", "refused 12"),
            ("200 call 1 apply-charging leg 1 period 1", "refused 13"),
            ("200 call 1 answer", "refused 9"),
        ] {
            let answer = answer.replace("<hold>", hold);
            check_both(&format!("{hung_up} {item} -> {answer}"));
        }
        let released = hung_up.replace("profile continue", "profile release");
        check_both(&format!("{released} 200 call 1 abort -> ok none - over"));
    }
}

#[test]
fn after_both_parties_have_hung_up() {
    for hung_up in hung_up_without_leg_1() {
        for (item, answer) in [
            ("200 call 1 continue", "ok none - over"),
            ("200 call 1 release", "ok none - over"),
            ("200 call 1 abort", "ok none - over"),
            ("200 call 1 activity-test", "ok control <disconnect>"),
            ("200 call 1 connect 4/2", "refused 12"),
            ("200 call 1 clear leg 1 cause 16", "refused 12"),
            ("200 call 1 clear leg 2 cause 16", "refused 12"),
            ("200 call 1 period-over leg 1", "refused 12"),
            ("200 call 1 period-over leg 2", "refused 12"),
            ("200 call 1 apply-charging leg 1 period 1", "refused 12"),
            ("200 call 1 apply-charging leg 2 period 1", "refused 12"),
            ("200 call 1 request-report <busy>/2 notify", "refused 12"),
            ("200 call 1 answer", "refused 9"),
        ] {
            check_both(&format!("{hung_up} {item} -> {answer}"));
        }
    }
}

/// The caller is connected to another party, who hangs up while nothing is held.
/// Leg 1's clock never restarts.
#[test]
fn connected_to_another_party() {
    for (hung_up, hold) in hung_up() {
        check_both(&format!(
            "{hung_up}
            200 call 1 request-report <disconnect>/2 notify -> ok control {hold}
            200 call 1 connect 4/2                          -> ok monitor - d800
            210 call 1 clear leg 2 cause 16                 -> refused 12
            220 call 1 seized                               -> ok monitor -
            250 call 1 answer                               -> ok monitor -
            250 call 1 apply-charging leg 2 period 900      -> refused 8
            300 call 1 clear leg 2 cause 16                 -> ok none - n<disconnect>/2 c1=200 over"
        ));
    }
}

/// Held before the answer there is nobody who could hang up, and once leg 2 is
/// gone there is nobody either: 12, no longer 9.
#[test]
fn nobody_to_hang_up() {
    check_both(
        "profile continue 60
        0 call 1 <setup> 4/1 service 17  -> ok control <trigger> r<trigger>/1
        0 call 1 clear leg 2 cause 16    -> refused 12
        0 call 1 request-report <seized>/2 interrupted, <busy>/2 interrupted -> ok control <trigger>
        0 call 1 continue                -> ok control - d600
        1 call 1 seized                  -> ok control <seized> r<seized>/2
        1 call 1 clear leg 2 cause 16    -> refused 12
        1 call 1 continue                -> ok control -
        2 call 1 busy cause 17           -> ok control <busy> r<busy>/2
        2 call 1 clear leg 2 cause 16    -> refused 12",
    );
}

/// Where a call of this kind can be held.
fn holds(call_kind: CallKind) -> impl Iterator<Item = Hold> {
    let parts = Part::ALL.into_iter();
    let interrupting = parts.filter(move |part| call_kind.can_arm(*part, Mode::Interrupted));
    [Hold::Trigger]
        .into_iter()
        .chain(interrupting.map(Hold::At))
}

/// An active call, answered at 100, charged on both legs, and with all armed but
/// Disconnect leg 2.
fn active(call_kind: CallKind) -> Record {
    let mut armings = Armings::NONE;
    for part in Part::ALL {
        let mode = Some(Mode::Notify).filter(|mode| call_kind.can_arm(part, *mode));
        armings.set(part, mode);
    }
    armings.set(Part::Disconnect2, None);
    let running = |period| Charge {
        period: Tenths(period),
        start: Some(Tenths(100)),
    };
    Record {
        call_kind,
        stage: Stage::Active,
        present: [true; 2],
        hold: None,
        last: Tenths(140),
        armings,
        charges: [600, 900].map(|period| Some(running(period))),
        kept_timer: Seconds(30),
        default_timer: Seconds(60),
        default_handling: Handling::Continue,
        called: CalledNumber {
            nature: 4,
            count: 1,
            places: [0; 15],
        },
    }
}

/// Such calls of both kinds, held wherever they can be, with and without leg 1;
/// also as no run reaches them.
fn held_records() -> impl Iterator<Item = Record> {
    let of_kind = |call_kind| {
        holds(call_kind).flat_map(move |hold| {
            [true, false].map(|leg_1| Record {
                present: [leg_1, true],
                hold: Some(hold),
                ..active(call_kind)
            })
        })
    };
    CallKind::BOTH.into_iter().flat_map(of_kind)
}

/// The answer to an item for call 1 with this record, and the entry afterwards.
fn feed(record: Record, item: &str) -> (Answer, Entry) {
    let lines = texts::assemble("test", &format!("profile continue 60\n{item}")).unwrap();
    let mut table = table::fresh();
    table[0] = Entry {
        owner: Some(1),
        record,
    };
    let answer = table::feed(&mut table, &lines[1].bytes, &lines[0].bytes);
    (answer, table[0])
}

/// What is armed once leg 2 is gone.
fn of_leg_1(call_kind: CallKind) -> Armings {
    let parts: &[Part] = match call_kind {
        CallKind::Originating => &[Part::MidCall, Part::Disconnect1, Part::Abandon, Part::Moved],
        CallKind::Terminating => &[Part::Disconnect1, Part::Abandon],
    };
    let mut armings = Armings::NONE;
    for part in parts {
        armings.set(*part, Some(Mode::Notify));
    }
    armings
}

/// The whole answer and the whole next record: nothing else changes, and a hold
/// that stays does so at the very point that it had.
#[test]
fn hanging_up_wherever_it_is_held() {
    for before in held_records() {
        for mode in [Some(Mode::Interrupted), Some(Mode::Notify), None] {
            let mut before = before;
            before.armings.set(Part::Disconnect2, mode);
            let hold = match mode {
                Some(Mode::Interrupted) => Some(Hold::At(Part::Disconnect2)),
                _ => before.hold,
            };
            let after = Record {
                present: [before.is_present(Leg::One), false],
                hold,
                last: Tenths(150),
                armings: of_leg_1(before.call_kind),
                charges: [before.charge(Leg::One), None],
                ..before
            };
            let point = before.call_kind.point(Part::Disconnect2).unwrap();
            let expected = Accepted {
                relationship: Relationship::Control,
                hold: after.hold_point(),
                event_report: mode.map(|mode| (point, mode)),
                charge_reports: [None, Some(Tenths(50))],
                deadline: None,
                over: false,
            };
            let (answer, entry) = feed(before, "150 call 1 clear leg 2 cause 16");
            assert_eq!(answer, Ok(expected), "{before:?}");
            assert_eq!(entry.owner, Some(1), "{before:?}");
            assert_eq!(entry.record, after, "{before:?}");
            // Leg 2 is absent now, so nothing is routed, not even from the trigger.
            let (answer, entry) = feed(after, "200 call 1 continue");
            let over = Accepted {
                charge_reports: [Some(Tenths(100)), None],
                over: true,
                ..Accepted::PLAIN
            };
            assert_eq!(answer, Ok(over), "{after:?}");
            assert_eq!(entry, Entry::FREE, "{after:?}");
        }
    }
}

/// Wherever it is held: not before the answer, and not without leg 2. All other
/// events but the caller's Clear are still refused for the hold.
#[test]
fn what_is_refused_wherever_it_is_held() {
    for held in held_records() {
        for stage in Stage::ALL {
            for leg_2 in [true, false] {
                let mut record = Record { stage, ..held };
                record.present[Leg::Two as usize] = leg_2;
                if !(leg_2 && stage == Stage::Active) {
                    let (answer, _) = feed(record, "150 call 1 clear leg 2 cause 16");
                    assert_eq!(answer, Err(Refusal::NotPossible), "{record:?}");
                }
                for event in [
                    "route-failure cause 3",
                    "busy cause 17",
                    "no-answer",
                    "seized",
                    "answer",
                    "mid-call digit 1",
                    "moved",
                ] {
                    let (answer, _) = feed(record, &format!("150 call 1 {event}"));
                    assert_eq!(answer, Err(Refusal::EventWhileHeld), "{event} {record:?}");
                }
            }
        }
    }
}

/// The caller's Clear still ends a call that is held, unless it interrupts.
#[test]
fn the_caller_hangs_up_while_held() {
    for held in held_records().filter(|record| record.is_present(Leg::One)) {
        for mode in [Some(Mode::Interrupted), Some(Mode::Notify), None] {
            let mut record = held;
            record.armings.set(Part::Disconnect1, mode);
            let (answer, entry) = feed(record, "150 call 1 clear leg 1 cause 16");
            let over = mode != Some(Mode::Interrupted);
            assert_eq!(answer.map(|answer| answer.over), Ok(over), "{record:?}");
            let hold = (!over).then_some(Hold::At(Part::Disconnect1));
            assert_eq!(entry.record.hold, hold, "{record:?}");
        }
    }
}
