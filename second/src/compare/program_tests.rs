//! Programs of the system, run within limits: what they write, in one piece and
//! in many; and what is shown of it.

use super::program::{Input, Program};
use super::shown;
use std::io::Write;
use std::time::Duration;

fn program(path: &str) -> Program<'_> {
    Program {
        path,
        limit: Duration::from_secs(20),
    }
}

/// More than the sockets hold, in both directions.
#[test]
fn long_output() {
    let bytes: Vec<u8> = (0..5_000_000u32).map(|place| place as u8).collect();
    assert_eq!(program("cat").output_of("it", &bytes), Ok(bytes));
}

#[test]
fn pieces() {
    let pieces: Vec<&[u8]> = vec![b"a", b"bc", &[7; 4096]];
    let output = program("cat").output_of_pieces("it", &pieces);
    assert_eq!(output, Ok(pieces.concat()));
}

/// A million lines go through while they are read.
#[test]
fn many_answers() {
    let lines = 1..=1_000_000;
    let write = |input: &mut Input| lines.clone().try_for_each(|line| writeln!(input, "{line}"));
    let result = program("cat").run_beside(write, |answers| {
        for number in lines.clone() {
            let mut line = Vec::new();
            answers.begin(number);
            answers.line(&mut line)?;
            assert_eq!(line, format!("{number}\n").into_bytes());
        }
        answers.is_at_end()
    });
    assert_eq!(result, Ok(true));
}

/// A program that reads all before it answers has the limit for each part of its
/// input, not for the whole.
#[test]
fn slow_input() {
    let quick = Program {
        path: "wc",
        limit: Duration::from_secs(1),
    };
    let write = |input: &mut Input| {
        for _ in 0..5 {
            std::thread::sleep(Duration::from_millis(500));
            input.write_all(b"x\n")?;
            input.flush()?;
        }
        Ok(())
    };
    let result = quick.run_beside(write, |answers| {
        let mut line = Vec::new();
        answers.begin(1);
        answers.line(&mut line)?;
        Ok(line)
    });
    let line = result.map(|line| String::from_utf8(line).unwrap());
    let counts = line.map(|line| line.split_whitespace().collect::<Vec<_>>().join(" "));
    assert_eq!(counts.as_deref(), Ok("5 5 10"));
}

#[test]
fn statuses() {
    let failed = program("false").output_of("it", b"");
    assert_eq!(failed, Err("false: it: exit status: 1".to_string()));
    let failed = program("false").run_beside(
        |_| Ok(()),
        |answers| {
            answers.begin(3);
            answers.line(&mut Vec::new())
        },
    );
    assert_eq!(failed, Err("false: case 3: exit status: 1".to_string()));
}

#[test]
fn bytes_shown() {
    assert_eq!(shown::line(None), "nothing");
    assert_eq!(shown::line(Some(b"1 ok\n")), "1 ok");
    assert_eq!(shown::line(Some(b"1 \x1b\xff\r\n")), "1 \\x1b\\xff\\r");
    assert_eq!(
        shown::line(Some(b"1 ok")),
        "1 ok (without the end of the line)"
    );
    let cut = format!("{} .. (cut: 200 of 201 bytes)", "a".repeat(200));
    assert_eq!(shown::text(&[b'a'; 201]), cut);
    assert_eq!(shown::text(&[b'a'; 200]), "a".repeat(200));
    assert_eq!(
        shown::hex_from_difference(&[1, 2, 3], &[1, 2]),
        "3 bytes, from byte 2 on: 03; expected there: nothing"
    );
}

#[test]
fn first_differences() {
    let difference = |theirs, ours| shown::first_difference(theirs, ours);
    assert_eq!(
        difference(b"a\nb\n", b"a\nc\n"),
        (1, Some(&b"b\n"[..]), Some(&b"c\n"[..]))
    );
    assert_eq!(
        difference(b"a", b"a\n"),
        (0, Some(&b"a"[..]), Some(&b"a\n"[..]))
    );
    assert_eq!(difference(b"", b"a\n"), (0, None, Some(&b"a\n"[..])));
    assert_eq!(difference(b"a\n", b"a\n"), (1, None, None));
}
