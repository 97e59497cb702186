//! The usage in its width, what is near to a word, and what is read of words.

use super::arguments::{read, Takes};
use super::{all, usage, COUNT, FILE, LIMIT, PROGRAM, QUICK, SEED};
use crate::nearest::nearest;
use Takes::{Choice, Maybe, One, Several};

const TAKES: [Takes; 4] = [One(PROGRAM), One(COUNT), Maybe(SEED), Choice(LIMIT)];

#[test]
fn usage_fits_into_its_width() {
    for line in usage::whole().lines() {
        assert!(line.len() <= 80, "{line}");
    }
}

#[test]
fn usage_of_a_command_stands_in_the_whole() {
    let whole = usage::whole();
    for command in all() {
        let part = usage::of(command);
        let head = part.lines().next().unwrap();
        assert!(whole.contains(head), "{head}");
    }
}

#[test]
fn close_words() {
    let names = || all().map(|command| command.name);
    for (word, expected) in [
        ("comapre", Some("compare")),
        ("Compare", Some("compare")),
        ("chek", Some("check")),
        ("lists", Some("list")),
        ("compare-tabels", Some("compare-tables")),
        ("frobnicate", None),
        ("x", None),
        ("", None),
    ] {
        assert_eq!(nearest(word, names()), expected, "{word}");
    }
}

#[test]
fn words_by_their_names() {
    let given = read(&TAKES, &["p", "--limit", "5", "10"]).ok().unwrap();
    assert_eq!(given.word(PROGRAM.name), Some("p"));
    assert_eq!(given.number(COUNT.name), Some(10));
    assert_eq!(given.number(SEED.name), None);
    assert_eq!(given.number(LIMIT.name), Some(5));
    let takes = [One(PROGRAM), Several(FILE), Choice(QUICK)];
    let given = read(&takes, &["p", "a", "--quick", "b"]).ok().unwrap();
    assert_eq!(given.words(FILE.name), ["a", "b"]);
    assert_eq!(given.word(QUICK.name), Some("--quick"));
}

#[test]
fn words_that_do_not_fit() {
    for (words, expected) in [
        (&[][..], "PROGRAM is missing"),
        (&["p"], "COUNT is missing"),
        (&["p", "--limit", "1"], "COUNT is missing"),
        (&["p", "1", "2", "3"], "`3` is one argument too many"),
        (&["p", "1", "--limit"], "--limit: SECONDS is missing"),
        (&["p", "1", "--quick"], "option `--quick`: expected --limit"),
        (
            &["p", "+1"],
            "COUNT `+1`: expected a number from 0 to 1000000000",
        ),
        (
            &["p", ""],
            "COUNT ``: expected a number from 0 to 1000000000",
        ),
        (
            &["p", "1", "18446744073709551616"],
            "SEED `18446744073709551616`: expected a number from 0 to 18446744073709551615",
        ),
    ] {
        assert_eq!(read(&TAKES, words).err().as_deref(), Some(expected));
    }
}
