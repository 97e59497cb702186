//! Listings: with a difference, with a range, of a listing; and what is said of
//! a program whose output is none. Records that no run reaches.

use super::compare_tables::no_run_reaches;
use super::generate;
use super::list::list_output;
use crate::paper::listing::{self, frames};
use crate::paper::table;
use crate::texts::{assemble, bytes_of, explain, Listed, Scenario};

fn scenario(text: &str) -> Scenario {
    Scenario {
        name: "x.txt".to_string(),
        text: text.to_string(),
        lines: assemble("x.txt", text).unwrap(),
    }
}

/// The text, listed with this program's own answers.
fn list(text: &str) -> Listed {
    let scenario = scenario(text);
    let output = listing::of(&bytes_of(&scenario.lines));
    list_output(&scenario, &output).unwrap()
}

fn check(text: &str, expected: &str, differences: &[&str]) {
    let listed = list(text);
    assert_eq!(listed.text, expected);
    assert_eq!(listed.differences, differences);
}

/// Text without answers gets them, and keeps its bytes; listed again, nothing
/// differs, and it stays as it is.
#[test]
fn listing_of_a_listing() {
    for seed in 0..300 {
        let bytes = generate::scenario(seed);
        let once = list(&explain(&bytes));
        let again = list(&once.text);
        assert!(again.differences.is_empty(), "seed {seed}");
        assert_eq!(bytes_of(&scenario(&again.text).lines), bytes, "seed {seed}");
        assert_eq!(list(&again.text).text, again.text, "seed {seed}");
        // Only a profile that is refused was marked, and is no longer.
        if once.differences.is_empty() {
            assert_eq!(again.text, once.text, "seed {seed}");
        }
    }
}

/// Blank lines and comments stay, and the answers stand in one column; a line
/// that is too long sticks out.
#[test]
fn columns() {
    let long = "0 call 1 request-report 4/2 notify, 5/2 notify, 6/2 notify, 7/2 notify, 9/2 notify";
    check(
        &format!(
            "-- first\n\nprofile continue 120 -- p\n0 call 1 setup 4/1 service 17 -- s\n{long}\n"
        ),
        &format!(
            "-- first\n\nprofile continue 120 -- p\n\
            0 call 1 setup 4/1 service 17{:44}-> ok control 2 r2/1   -- s\n\
            {long} -> ok control 2\n-- items: 2, differences: 0\n",
            ""
        ),
        &[],
    );
}

/// The column that the text uses, and a comment's column where it still fits.
#[test]
fn columns_of_the_text() {
    check(
        "profile continue 120
0 call 1 setup 4/1 service 17   -> ok control 2 r2/1   -- s
0 call 1 continue               -> ok none -           -- c
9 call 1 busy cause 17
9 call 1 answer -> refused 4",
        "profile continue 120
0 call 1 setup 4/1 service 17   -> ok control 2 r2/1   -- s
0 call 1 continue               -> ok none - d1200   -- DIFFERS, expected: ok none -   -- c
9 call 1 busy cause 17          -> ok none - over
9 call 1 answer                 -> refused 4
-- items: 4, differences: 1
",
        &["x.txt:3: expected ok none -, answered ok none - d1200"],
    );
}

/// A range is split where its answers differ.
#[test]
fn ranges() {
    check(
        "profile continue 120
0 call 1..63 setup 4/1 service 17  -> ok control 2 r2/1
 1  call  60..66  setup 4/1 service 17  -> refused 5  -- c
2 call 64..66 release",
        "profile continue 120
0 call 1..63 setup 4/1 service 17       -> ok control 2 r2/1
 1  call  60..63  setup 4/1 service 17  -> refused 5  -- c
 1  call  64  setup 4/1 service 17      -> ok control 2 r2/1   -- DIFFERS, expected: refused 5
 1  call  65..66  setup 4/1 service 17  -> refused 6   -- DIFFERS, expected: refused 5
2 call 64 release                       -> ok none - over
2 call 65..66 release                   -> refused 4
-- items: 73, differences: 2
",
        &[
            "x.txt:3: call 64: expected refused 5, answered ok control 2 r2/1",
            "x.txt:3: call 65..66: expected refused 5, answered refused 6",
        ],
    );
}

/// Behind the item that ends the listing there is no answer.
#[test]
fn behind_the_end() {
    check(
        "profile continue 120
bytes 00 0D
0 call 1..2 abort -- c
0 call 1 abort -> refused 4",
        "profile continue 120
bytes 00 0D       -> refused 1
0 call 1..2 abort   -- no answer: the listing has ended   -- c
0 call 1 abort   -- DIFFERS, expected: refused 4; the listing has ended
-- items: 4, differences: 1
",
        &["x.txt:4: expected refused 4, answered nothing: the listing has ended in line 2"],
    );
}

#[test]
fn refused_profiles() {
    check(
        "profile continue 9 -> refused 2\n0 call 1 abort\n",
        "profile continue 9 -> refused 2
0 call 1 abort   -- no answer: the listing has ended
-- items: 1, differences: 0
",
        &[],
    );
    check(
        "bytes 00 09\n0 call 1 abort\n",
        "bytes 00 09    -> refused 2   -- DIFFERS, expected: no refusal
0 call 1 abort   -- no answer: the listing has ended
-- items: 1, differences: 1
",
        &["x.txt:1: expected no refusal, answered refused 2"],
    );
    check(
        "profile continue 10 -> refused 2\n0 call 1 abort\n",
        "profile continue 10   -- DIFFERS, expected: refused 2
0 call 1 abort -> refused 4
-- items: 1, differences: 1
",
        &["x.txt:1: expected refused 2, answered nothing: the profile is accepted"],
    );
}

/// Counts of an earlier listing are left out, also before lines that were added.
#[test]
fn earlier_counts() {
    let listing = "profile continue 10\n0 call 1 abort -> refused 4\n-- items: 1, differences: 0\n";
    let longer = format!("{listing}0 call 2 abort\n");
    check(
        &longer,
        "profile continue 10
0 call 1 abort -> refused 4
0 call 2 abort -> refused 4
-- items: 2, differences: 0
",
        &[],
    );
}

#[test]
fn outputs_that_are_no_listing() {
    let scenario = scenario("profile continue 120\n0 call 1 abort\nbytes 00 0D\n0 call 1 abort\n");
    for (output, message) in [
        (
            "",
            "expected the header `item answer`, not the end of the output",
        ),
        (
            "1 refused 4\n",
            "expected the header `item answer`, not `1 refused 4`",
        ),
        (
            "item answer\n1 refused 4\n",
            "expected the answer to item 2 (line 3), not the end of the output",
        ),
        (
            "item answer\n1 refused 4\n2 refused 1\n3 refused 4\n",
            "expected the end behind the last answer, not `3 refused 4`",
        ),
        (
            "item answer\n1 refused 4\n2 hm\n",
            "expected the answer to item 2 (line 3), not `2 hm`",
        ),
        (
            "item answer\n1 refused 4\n2 refused 1",
            "expected a whole last line, not `2 refused 1`",
        ),
        (
            "item answer\n0 refused 2\n1 refused 4\n",
            "expected the end behind the last answer, not `1 refused 4`",
        ),
    ] {
        assert_eq!(
            list_output(&scenario, output.as_bytes()).err().as_deref(),
            Some(message)
        );
    }
}

/// So that what is counted for records that no run reaches is not a run's.
#[test]
fn records_of_runs() {
    for seed in 0..500 {
        let scenario = generate::scenario(seed);
        let frames = frames(&scenario);
        let mut table = table::fresh();
        for item in frames.iter().skip(1) {
            let _ = table::feed_sound(&mut table, item, frames[0]);
            for entry in table.iter().filter(|entry| entry.owner.is_some()) {
                assert!(!no_run_reaches(&entry.record), "seed {seed}: {entry:?}");
            }
        }
    }
}
