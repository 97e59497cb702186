//! The messages that depend on a rule rather than on a table, and the way there
//! and back of every kind.

use super::answers::is_answer;
use super::{assemble, bytes_of, explain};
use crate::paper::forms::read_profile;

/// The message for a text with this line behind a profile.
fn message(line: &str) -> String {
    let text = format!("profile release 120\n{line}\n");
    match assemble("x.txt", &text) {
        Ok(_) => "none".to_string(),
        Err(message) => message,
    }
}

/// Every kind with every part of its form, as it is written and as it is read.
#[test]
fn kinds_there_and_back() {
    let text = "profile continue 120 inhibiting 4/491 length 7 8 service 17 forwarding enabling
0 call 0 setup 0/0123456789*#abc service 255
1 call 1 setup 127/1 service 0 forwarded
1 call 1 terminating-setup 0/0123456789*#abc service 255
1 call 1 terminating-setup 127/1 service 0 forwarded
2 call 2 route-failure cause 0
3 call 3 busy cause 127
4 call 4 no-answer
5 call 5 seized
6 call 6 answer
7 call 7 mid-call digit #
8 call 8 moved
9 call 9 clear leg 2 cause 16
10 call 10 period-over leg 1
11 call 11 request-report 6/2 interrupted timer 30, 7/2 notify, 8/1 transparent, 255/255 3 timer 65535
12 call 12 continue
13 call 13 connect 3/49
14 call 14 release
15 call 15 apply-charging leg 2 period 864000
16 call 4294967295 activity-test
281474976710655 call 17 abort
";
    assert_eq!(explain(&bytes_of(&assemble("x.txt", text).unwrap())), text);
}

/// What is malformed but fits can be written.
#[test]
fn malformed_items_can_be_written() {
    for line in [
        "0 call 1 clear leg 3 cause 200",
        "0 call 1 apply-charging leg 0 period 0",
        "0 call 1 setup 200/ service 1",
        "0 call 1 terminating-setup 200/ service 1",
        "0 call 1 connect 4/0123456789012345",
        "0 call 1 request-report",
    ] {
        assert_eq!(message(line), "none");
    }
}

/// A profile in words is refused a place exactly where it is malformed, and is
/// given one where it is to be refused.
#[test]
fn malformed_profiles() {
    let numbers = |count: usize| " 4/1".repeat(count);
    for profile in [
        "profile continue 9".to_string(),
        "profile continue 10".to_string(),
        "profile continue 180".to_string(),
        "profile continue 181".to_string(),
        "profile continue 60 4/1".to_string(),
        "profile continue 60 length 7".to_string(),
        "profile continue 60 enabling".to_string(),
        "profile continue 60 enabling service 7".to_string(),
        format!("profile continue 60 enabling{}", numbers(10)),
        format!("profile continue 60 enabling{}", numbers(11)),
        "profile continue 60 enabling 127/1".to_string(),
        "profile continue 60 enabling 128/1".to_string(),
        "profile continue 60 enabling 4/".to_string(),
        "profile continue 60 enabling 4/012345678901234".to_string(),
        "profile continue 60 enabling 4/0123456789012345".to_string(),
        "profile continue 60 enabling length 0".to_string(),
        "profile continue 60 enabling length 1 15 15".to_string(),
        "profile continue 60 enabling length 16".to_string(),
        "profile continue 60 enabling length 1 2 3 4".to_string(),
        "profile continue 60 service 0 1 2 3 255".to_string(),
        "profile continue 60 service 0 1 2 3 4 5".to_string(),
    ] {
        let refused = assemble("x.txt", &format!("{profile} -> refused 2")).unwrap();
        let is_malformed = read_profile(&refused[0].bytes).is_none();
        assert_eq!(
            assemble("x.txt", &profile).is_err(),
            is_malformed,
            "{profile}"
        );
    }
}

#[test]
fn nearest_kind() {
    for (word, nearest) in [
        ("settup", "(the nearest is setup)"),
        ("terminating-settup", "(the nearest is terminating-setup)"),
        ("terminatingsetup", "(the nearest is terminating-setup)"),
        ("anwser", "(the nearest is answer)"),
        ("noanswer", "(the nearest is no-answer)"),
        ("moved.", "(the nearest is moved)"),
        ("frobnicate", "activity-test, abort"),
        ("äöü", "activity-test, abort"),
    ] {
        let message = message(&format!("0 call 1 {word}"));
        assert!(message.ends_with(nearest), "{message}");
    }
}

/// Each line is one item; the last may be cut short, and nothing is told apart
/// behind a length that no item has.
#[test]
fn bytes_of_one_item() {
    let answer = "00 0E 01 06 00 00 00 07 00 00 00 00 13 88";
    for (lines, expected) in [
        (format!("bytes {answer}\nbytes 00 0E 01"), "none"),
        (format!("bytes {answer}\nbytes 00"), "none"),
        (format!("bytes {answer} 00"), "x.txt:2: bytes"),
        (format!("bytes {answer} {answer}"), "x.txt:2: bytes"),
        (format!("bytes 00 0E\nbytes {answer}"), "x.txt:2: bytes"),
        (format!("bytes 00\nbytes {answer}"), "x.txt:2: bytes"),
        (format!("bytes 00 0D 00\nbytes {answer} 00"), "none"),
    ] {
        let message = message(&lines);
        assert!(message.starts_with(expected), "{lines}: {message}");
    }
}

#[test]
fn form_of_answers() {
    for answer in [
        "refused 1",
        "refused 14",
        "ok none -",
        "ok monitor - n50/1",
        "ok control 2 r2/1",
        "ok control 19 r19/2 c1=0 c2=864000",
        "ok none - n9/1 c1=1 c2=2 over",
        "ok none - d281474976731125",
        // No call is ever answered so, but a text may expect it.
        "ok control - n7/1",
        "ok control 50",
        "ok control 255 r0/2",
        "ok control 2 r2/2",
        "ok none - c1=18446744073709551615",
    ] {
        assert!(is_answer(answer), "{answer}");
    }
    for answer in [
        "",
        "ok",
        "ok none",
        "ok contrl 2",
        "ok  none -",
        "ok control 02",
        "ok control 256",
        "ok control +2",
        "ok control 2 r2/3",
        "ok control 2 r2",
        "ok control 2 x2/1",
        "ok control 2 r9/1 n9/2",
        "ok none - c2=1 c1=1",
        "ok none - c1=01",
        "ok none - c1=",
        "ok none - c1=18446744073709551616",
        "ok none - over d1",
        "ok none - over over",
        "refused",
        "refused 0",
        "refused 01",
        "refused 15",
        "refused 4 over",
    ] {
        assert!(!is_answer(answer), "{answer}");
    }
}

#[test]
fn line_ends_of_either_sort() {
    let bytes = |text: &str| assemble("x.txt", text).map(|lines| bytes_of(&lines));
    assert_eq!(
        bytes("profile release 120\r\n0 call 1 answer -> refused 4\r\n"),
        bytes("profile release 120\n0 call 1 answer\n")
    );
}
