//! What is drawn of some scenarios; and of every scenario, that the page keeps
//! its order: no text runs into another one or over the edge.

use super::ladder::{Charge, Chart, Form, Ladder, Party, Row, Run, CALLS};
use super::page;
use super::play::{Cause, Played};
use super::svg::{Font, FONTS, SPACE};
use super::words;
use crate::compare::generate;
use crate::compare::list::answered_in;
use crate::paper::forms::{CallKind, Leg, Tenths};
use crate::paper::listing;
use crate::paper::record::{Part, Point, Relationship};
use crate::texts::{self, Scenario};

/// The scenario that the README shows.
const PREPAID: &str = "\
-- A prepaid call with an hour granted. The hour runs from the answer.
profile release 120
    0 call 1 setup 4/4915112345 service 17
    5 call 1 request-report 7/2 notify, 9/1 interrupted, 9/2 interrupted
    5 call 1 apply-charging leg 1 period 36000
    6 call 1 continue
   30 call 1 seized
  130 call 1 answer
-- An hour after the grant nothing is over; an hour after the answer it is.
36005 call 1 period-over leg 1
36129 call 1 period-over leg 1
36130 call 1 period-over leg 1
36135 call 1 apply-charging leg 1 period 36000
40135 call 1 clear leg 1 cause 16
40136 call 1 release";

fn scenario(text: &str) -> Scenario {
    Scenario {
        name: "test".to_string(),
        text: text.to_string(),
        lines: texts::assemble("test", text).expect("the text is good"),
    }
}

fn played(text: &str) -> Played {
    Played::of(&scenario(text))
}

/// The picture of a scenario, with what differs from its expectations.
fn picture(text: &str) -> String {
    let scenario = scenario(text);
    let listed = listing::of(&texts::bytes_of(&scenario.lines));
    let answered = answered_in(&listed, &scenario).expect("it is a listing");
    let differences = texts::differences(&answered);
    page::draw(&Chart::of(&Played::of(&scenario), &differences))
}

/// The only ladder of a scenario.
fn ladder(text: &str) -> Ladder {
    let played = played(text);
    let mut ladders = Chart::of(&played, &[]).ladders;
    assert_eq!(ladders.len(), 1);
    ladders.remove(0)
}

fn run<T>(value: T, from: usize, to: Option<usize>) -> Run<T> {
    Run { value, from, to }
}

fn point(number: u8, leg: Leg) -> Point {
    Point { number, leg }
}

/// Each arrow of a row in short.
fn arrows(row: &Row) -> Vec<(Party, Party, Form, String)> {
    let label = |label: &words::Label| {
        let details = label.details.join(", ");
        format!("{} {details}", label.name).trim_end().to_string()
    };
    let arrows = row.arrows.iter();
    let short = arrows.map(|arrow| (arrow.from, arrow.to, arrow.form, label(&arrow.label)));
    short.collect()
}

/// The strip is hollow from the grant to the answer, and filled from there to
/// the report; a second one is filled from the grant on.
#[test]
fn prepaid_charges() {
    let charge = |granted, started, ended, reported| Charge {
        leg: Leg::One,
        period: Tenths(36000),
        granted,
        started: Some(started),
        ended: Some(ended),
        reported: Some(Tenths(reported)),
    };
    let expected = [charge(2, 5, 8, 36000), charge(9, 9, 10, 4000)];
    assert_eq!(ladder(PREPAID).charges, expected);
}

#[test]
fn prepaid_notes() {
    let notes: Vec<String> = ladder(PREPAID)
        .charges
        .iter()
        .flat_map(Charge::notes)
        .map(|note| format!("{} {}, {}", note.row, note.name, note.detail))
        .collect();
    let expected = [
        "2 36000 granted, not running",
        "5 clock starts, at the answer",
        "8 36000 elapsed, 1 h",
        "9 36000 granted, clock starts",
        "10 4000 elapsed, 6 min 40 s",
    ];
    assert_eq!(notes, expected);
}

/// The bars begin where an item interrupts, and end where the call goes on or
/// is over.
#[test]
fn prepaid_holds() {
    let expected = [
        run(point(2, Leg::One), 0, Some(3)),
        run(point(9, Leg::One), 10, Some(11)),
    ];
    assert_eq!(ladder(PREPAID).holds, expected);
}

#[test]
fn prepaid_rows() {
    let ladder = ladder(PREPAID);
    let rows = &ladder.rows;
    assert_eq!(
        arrows(&rows[3]),
        [
            (
                Party::ServiceNode,
                Party::Switch,
                Form::Full,
                "Continue".to_string()
            ),
            (
                Party::Switch,
                Party::Called,
                Form::Full,
                "Routing to 4915112345, answer due by 1206 (in 2 min)".to_string()
            ),
        ]
    );
    assert_eq!(
        arrows(&rows[5]),
        [
            (
                Party::Called,
                Party::Switch,
                Form::Full,
                "Answer".to_string()
            ),
            (
                Party::Switch,
                Party::ServiceNode,
                Form::Notification,
                "EventReportBCSM 7/2 Answer: notifies".to_string()
            ),
        ]
    );
    assert_eq!(
        arrows(&rows[6]),
        [(
            Party::Switch,
            Party::Switch,
            Form::Refused,
            "Period over leg 1".to_string()
        )]
    );
    assert_eq!(rows[6].refusal.map(|refusal| refusal as u8), Some(14));
    assert_eq!(rows[6].pause, Some(Tenths(35875)));
    assert!(rows[6].comment.is_some());
    assert!(rows.iter().all(|row| row.over == (row.number == 12)));
    let changes = rows.iter().map(|row| row.relationship);
    let changes: Vec<_> = changes
        .enumerate()
        .filter(|(_, now)| now.is_some())
        .collect();
    assert_eq!(
        changes,
        [
            (0, Some(Relationship::Control)),
            (11, Some(Relationship::None))
        ]
    );
}

/// Leg 2 is gone from the busy to the connect, and a hold gives way to another.
#[test]
fn legs_and_holds_of_a_follow_on_call() {
    let ladder = ladder(
        "profile continue 60
        0 call 1 setup 4/49151 service 17
        0 call 1 request-report 5/2 interrupted
        0 call 1 continue
        50 call 1 busy cause 17
        60 call 1 request-report 9/1 interrupted, 9/2 interrupted
        60 call 1 connect 4/49152
        100 call 1 answer
        500 call 1 clear leg 2 cause 16
        510 call 1 clear leg 1 cause 16",
    );
    assert_eq!(ladder.open, [run((), 0, None)]);
    assert_eq!(ladder.legs[0], [run((), 0, Some(8))]);
    assert_eq!(ladder.legs[1], [run((), 0, Some(3)), run((), 5, Some(7))]);
    let expected = [
        run(point(2, Leg::One), 0, Some(2)),
        run(point(5, Leg::Two), 3, Some(5)),
        run(point(9, Leg::Two), 7, Some(8)),
        run(point(9, Leg::One), 8, None),
    ];
    assert_eq!(ladder.holds, expected);
}

/// Leg 2 and its charge end where the called party hangs up; the hold and leg 1's
/// charge last on.
#[test]
fn hung_up_while_held() {
    let ladder = ladder(
        "profile continue 60
        0 call 1 setup 4/49151 service 17
        0 call 1 request-report 7/2 interrupted, 9/2 notify
        0 call 1 apply-charging leg 1 period 600
        0 call 1 apply-charging leg 2 period 600
        0 call 1 continue
        40 call 1 answer
        50 call 1 clear leg 2 cause 16
        60 call 1 continue",
    );
    assert_eq!(ladder.legs[0], [run((), 0, Some(7))]);
    assert_eq!(ladder.legs[1], [run((), 0, Some(6))]);
    let expected = [
        run(point(2, Leg::One), 0, Some(4)),
        run(point(7, Leg::Two), 5, Some(7)),
    ];
    assert_eq!(ladder.holds, expected);
    let ended = |charge: &Charge| (charge.ended, charge.reported);
    let expected = [(Some(7), Some(Tenths(20))), (Some(6), Some(Tenths(10)))];
    assert_eq!(
        ladder.charges.iter().map(ended).collect::<Vec<_>>(),
        expected
    );
}

/// In a terminating call Mid-call and Moved come from the called party, and the
/// points have their own names.
#[test]
fn terminating_call() {
    let ladder = ladder(
        "profile continue 60
        0 call 1 terminating-setup 4/49151 service 17
        0 call 1 request-report 16/2 interrupted, 51/2 notify, 5/2 notify
        0 call 1 request-report 16/2 interrupted, 51/2 notify
        0 call 1 continue
        10 call 1 seized
        20 call 1 moved
        30 call 1 answer
        40 call 1 mid-call digit 5",
    );
    assert_eq!(ladder.title, "Call 1, terminating");
    let setup = "Terminating setup to 49151, nature 4, service 17";
    let initial = "InitialDP 12/1 Terminating_Attempt_Authorised: interrupts";
    let from = |party, label: &str| (party, Party::Switch, Form::Full, label.to_string());
    let report = |form, label: &str| (Party::Switch, Party::ServiceNode, form, label.to_string());
    assert_eq!(
        arrows(&ladder.rows[0]),
        [from(Party::Caller, setup), report(Form::Full, initial)]
    );
    assert_eq!(
        arrows(&ladder.rows[1])[0].3,
        "RequestReportBCSMEvent 16/2 T_Mid_Call: interrupt, \
         51/2 T_Change_Of_Position: notify, 5/2 Busy: notify"
    );
    assert_eq!(
        arrows(&ladder.rows[5]),
        [
            from(Party::Called, "Moved"),
            report(
                Form::Notification,
                "EventReportBCSM 51/2 T_Change_Of_Position: notifies"
            )
        ]
    );
    assert_eq!(
        arrows(&ladder.rows[7]),
        [
            from(Party::Called, "Mid-call digit 5"),
            report(Form::Full, "EventReportBCSM 16/2 T_Mid_Call: interrupts")
        ]
    );
    let expected = [
        run(point(12, Leg::One), 0, Some(3)),
        run(point(16, Leg::Two), 7, None),
    ];
    assert_eq!(ladder.holds, expected);
}

/// Every point that a call can have has a name.
#[test]
fn names_of_points() {
    for call_kind in CallKind::BOTH {
        let parts = Part::ALL.into_iter();
        let points = parts.filter_map(|part| call_kind.point(part));
        for point in points.chain([call_kind.trigger()]) {
            assert_ne!(words::point_name(point), "unknown", "{point:?}");
        }
    }
}

/// Only services trigger a terminating call; the profile says so where one is
/// set up.
#[test]
fn profile_for_both_kinds_of_call() {
    let profile = "profile continue 60 enabling 4/491 service 17 forwarding inhibiting";
    let originating = "0 call 1 setup 4/491 service 17";
    let terminating = "0 call 2 terminating-setup 4/491 service 17";
    let criteria = "triggers if its number begins with 491 (nature 4), and its service is 17, \
                    and it is not forwarded.";
    let service = "A terminating call triggers if its service is 17.";
    for (text, expected) in [
        (
            format!("{profile}\n{originating}"),
            format!("A call {criteria}"),
        ),
        (format!("{profile}\n{terminating}"), service.to_string()),
        (
            format!("{profile}\n{originating}\n{terminating}"),
            format!("An originating call {criteria} {service}"),
        ),
        (
            format!("profile continue 60\n{terminating}"),
            "Every terminating call triggers.".to_string(),
        ),
    ] {
        let played = played(&text);
        let said = Chart::of(&played, &[]).profile;
        assert!(
            said.starts_with(&format!("Profile: {expected} If ")),
            "{said}"
        );
    }
}

/// A charge that an abort drops has no figure, and one that is never reported
/// has no end.
#[test]
fn charges_without_a_report() {
    let granted = "profile continue 60
        0 call 1 setup 4/49151 service 17
        0 call 1 apply-charging leg 2 period 600\n";
    let charge = |ended| Charge {
        leg: Leg::Two,
        period: Tenths(600),
        granted: 1,
        started: None,
        ended,
        reported: None,
    };
    assert_eq!(ladder(granted).charges, [charge(None)]);
    let dropped = format!("{granted} 0 call 1 abort");
    assert_eq!(ladder(&dropped).charges, [charge(Some(2))]);
}

/// Each call has its own ladder, in the order of the first items.
#[test]
fn ladders_of_two_calls() {
    let played = played(
        "profile release 60
        0 call 9 setup 4/49151 service 17
        0 call 2 setup 4/49152 service 17
        1 call 9 continue
        1 call 2 apply-charging leg 2 period 900
        2 call 9 answer",
    );
    let ladders = Chart::of(&played, &[]).ladders;
    let numbers = |ladder: &Ladder| ladder.rows.iter().map(|row| row.number).collect::<Vec<_>>();
    assert_eq!(ladders[0].title, "Call 9");
    assert_eq!(numbers(&ladders[0]), [1, 3, 5]);
    assert!(ladders[0].charges.is_empty());
    assert_eq!(ladders[1].title, "Call 2");
    assert_eq!(numbers(&ladders[1]), [2, 4]);
}

#[test]
fn more_calls_than_are_drawn() {
    let played = played("profile continue 60\n0 call 1..20 setup 4/49151 service 17");
    let chart = Chart::of(&played, &[]);
    assert_eq!(chart.ladders.len(), CALLS);
    assert_eq!(chart.calls_left_out, 20 - CALLS);
    assert!(page::draw(&chart).contains("4 further calls are not drawn."));
}

/// Words name the call even of a malformed item; bytes do not, and a length that
/// no item has is the end.
#[test]
fn malformed_items() {
    let played = played(
        "profile continue 120
        0 call 1 clear leg 3 cause 16
        bytes 00 0E 02 15 00 00 00 01 00 00 00 00 00 00
        bytes 00 0D
        0 call 1 continue",
    );
    let chart = Chart::of(&played, &[]);
    assert_eq!(
        arrows(&chart.ladders[0].rows[0]),
        [(
            Party::Caller,
            Party::Switch,
            Form::Refused,
            "clear leg 3 cause 16".to_string()
        )]
    );
    let strays: Vec<usize> = chart.strays.iter().map(|stray| stray.step.number).collect();
    assert_eq!(strays, [2, 3]);
    let end = chart.end.expect("the listing ends");
    assert_eq!((end.cause, end.unread), (Cause::Length(3), 1));
}

#[test]
fn refused_profile() {
    let played = played("profile continue 9 -> refused 2\n0 call 1 setup 4/1 service 1");
    let chart = Chart::of(&played, &[]);
    assert!(chart.ladders.is_empty());
    assert_eq!(chart.profile, "Profile: refused 2: profile malformed.");
    let end = chart.end.expect("the listing ends");
    assert_eq!((end.cause, end.unread), (Cause::Profile, 1));
}

/// What differs is marked once: at its item, or below where it has no place.
#[test]
fn marks_of_differences() {
    let picture = picture(
        "profile continue 120 -> refused 2
        0 call 1 setup 4/49151 service 17 -> ok control 2 r2/1
        0 call 1 continue -> ok none - d1
        bytes 00 0D -> refused 4
        0 call 1 answer -> refused 5",
    );
    let marks = picture.lines().filter(|line| line.contains("\"differs\""));
    let marks: Vec<&str> = marks
        .filter_map(|line| line.split(['<', '>']).nth(4))
        .collect();
    let expected = [
        "expected ok none - d1",
        "expected refused 4",
        "Line 1: expected refused 2, answered nothing: the profile is accepted.",
        "Line 5: expected refused 5, answered nothing: the listing has ended in line 4.",
    ];
    assert_eq!(marks, expected);
    assert!(picture.contains(">the text expects another answer than"));
}

/// No text of a scenario can break the picture.
#[test]
fn text_is_escaped() {
    let text = "-- <b> & \"q\" \u{1}\u{ffff}\nprofile continue 60";
    let picture = picture(text);
    assert!(picture.contains("<title id=\"title\">&lt;b&gt; &amp; &quot;q&quot; \u{fffd}\u{fffd}"));
}

/// Random scenarios as text; the first of them are the longest labels there are.
fn texts_to_draw() -> Vec<String> {
    let numbers = "127/591512345678901";
    let entries = ["255/255 255 timer 65535"; 10].join(", ");
    let longest = format!(
        "-- {}
        profile release 180 inhibiting 127/{} length 14 13 12 service 255 forwarding inhibiting
        0 call 4294967295 setup {numbers} service 255
        0 call 4294967295 setup {numbers} service 255 forwarded
        0 call 4294967295 request-report {entries}
        0 call 4294967295 apply-charging leg 1 period 863999
        0 call 4294967295 apply-charging leg 2 period 863999
        1 call 4294967295 connect {numbers}
        4 call 4294967295 answer
        4 call 4294967294 terminating-setup {numbers} service 255 forwarded
        4 call 4294967294 request-report 51/2 transparent timer 65535, 27/2 interrupted
        -- {}
        281474976710651 call 4294967295 period-over leg 3
        281474976710651 call 4294967295 period-over leg 1
        281474976710655 call 4294967295 clear leg 2 cause 127",
        "word".repeat(100),
        "4".repeat(15),
        "a long comment ".repeat(30),
    );
    let expecting = "profile release 120 -> refused 2
        0 call 1 setup 4/49151 service 17 -> refused 14
        0 call 1 apply-charging leg 2 period 600 -> ok none -
        -- A comment below what differs.
        1 call 1 moved -> ok control 2 r2/1 c1=863999 c2=863999 d281474976710655 over
        2 call 1 release -> refused 1
        2 call 3..20 continue -> refused 5
        bytes 00 0E 02 15 00 00 00 01 00 00 00 00 00 00 -> refused 2
        bytes 00 0D -> ok control 2 r2/1 c1=863999 c2=863999 d281474976710655 over
        0 call 1 continue -> refused 4";
    let random = (0..200).map(|seed| texts::explain(&generate::scenario(seed)));
    let written = [longest, expecting.to_string()];
    written.into_iter().chain(random).collect()
}

/// What is played is what this program lists.
#[test]
fn played_answers_are_the_listing() {
    for text in texts_to_draw() {
        let scenario = scenario(&text);
        let mut answers = b"item answer\n".to_vec();
        for step in &Played::of(&scenario).steps {
            listing::push_line(&mut answers, step.number as u64, &step.answer);
        }
        let listed = listing::of(&texts::bytes_of(&scenario.lines));
        let listed_profile = b"item answer\n0 refused 2\n";
        assert!(answers == listed || listed == listed_profile, "{text}");
    }
}

/// A text on the page: its edges, and what it says.
struct Room {
    left: i32,
    right: i32,
    top: i32,
    bottom: i32,
    text: String,
}

/// The texts of a picture, with the room that each may take.
fn rooms(picture: &str) -> Vec<Room> {
    picture.lines().filter_map(read_room).collect()
}

fn read_room(line: &str) -> Option<Room> {
    let rest = line.strip_prefix("<text ")?;
    let (head, content) = rest.split_once('>')?;
    let number = |name: &str| attribute(head, name)?.parse::<i32>().ok();
    let (mut width, mut size, mut text) = (-SPACE, 0, String::new());
    for part in content.split("<tspan ").skip(1) {
        let (head, part) = part.split_once('>')?;
        let (part, _) = part.split_once("</tspan>")?;
        let class = attribute(head, "class")?;
        let font: &Font = FONTS.into_iter().find(|font| font.class == class)?;
        width += SPACE + font.width(part);
        size = size.max(font.size);
        text += part;
    }
    let (x, y) = (number("x")?, number("y")?);
    let left = match attribute(head, "text-anchor") {
        Some("middle") => x - width / 2,
        Some("end") => x - width,
        _ => x,
    };
    Some(Room {
        left,
        right: left + width,
        top: y - size * 3 / 4,
        bottom: y + size / 5,
        text,
    })
}

fn attribute<'a>(head: &'a str, name: &str) -> Option<&'a str> {
    let (_, value) = head.split_once(&format!("{name}=\""))?;
    value.split('"').next()
}

fn overlap(a: &Room, b: &Room) -> bool {
    a.left < b.right && b.left < a.right && a.top < b.bottom && b.top < a.bottom
}

#[test]
fn texts_keep_off_each_other() {
    for scenario in texts_to_draw() {
        let picture = picture(&scenario);
        let head = picture.lines().next().unwrap_or_default();
        let size =
            ["width", "height"].map(|name| attribute(head, name).and_then(|n| n.parse().ok()));
        let [Some(width), Some(height)]: [Option<i32>; 2] = size else {
            panic!("a picture has a size: {head}");
        };
        let rooms = rooms(&picture);
        assert!(rooms.len() > 2, "{picture}");
        for (place, a) in rooms.iter().enumerate() {
            let on_page = a.left >= 0 && a.right <= width && a.top >= 0 && a.bottom <= height;
            assert!(on_page, "`{}` leaves the page of\n{scenario}", a.text);
            if let Some(b) = rooms[place + 1..].iter().find(|b| overlap(a, b)) {
                panic!("`{}` meets `{}` in\n{scenario}", a.text, b.text);
            }
        }
    }
}
