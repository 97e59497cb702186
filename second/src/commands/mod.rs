//! The commands: one table says of each what it is called, what it takes, what
//! it does, and which function that is. The usage, the messages about arguments
//! and the running of commands are all made of this table.

mod arguments;
#[cfg(test)]
mod tests;
mod usage;

use crate::bench::measure;
use crate::chart;
use crate::compare::program::Program;
use crate::compare::{
    check, chunks, compare_chunks, compare_listings, compare_tables, compare_triggers, coverage,
    generate, list, tables, triggers,
};
use crate::nearest::nearest;
use crate::output;
use crate::paper::forms::CallKind;
use crate::paper::listing;
use crate::texts::{self, Line};
use arguments::Takes::{Choice, Maybe, One, Several};
use arguments::{Argument, Expected, Given, Takes};
use std::io::{self, BufReader, Read};
use std::ops::Range;
use std::time::Duration;

pub struct Command {
    name: &'static str,
    takes: &'static [Takes],
    /// What it reads or writes besides, for the usage.
    streams: &'static str,
    does: &'static str,
    /// False if it has found a difference, or something that was not reached.
    run: fn(&Given) -> Result<bool, String>,
}

const fn file(name: &'static str) -> Argument {
    Argument {
        name,
        expected: Expected::Anything,
    }
}

const fn number(name: &'static str, first: u64, last: u64) -> Argument {
    Argument {
        name,
        expected: Expected::Number(first, last),
    }
}

const PROGRAM: Argument = file("PROGRAM");
const LISTING: Argument = file("LISTING");
const BENCH: Argument = file("BENCH");
const FILE: Argument = file("FILE");
const COUNT: Argument = number("COUNT", 0, 1_000_000_000);
const SEED: Argument = number("SEED", 0, u64::MAX);
const ITEMS: Argument = number("ITEMS", 0, 100_000_000);
const OPEN: Argument = Argument {
    name: "OPEN",
    expected: Expected::OneOf(&["1", "32", "64"]),
};

const COVERAGE_COUNT: u64 = 20_000;
const FIRST_SEED: u64 = 1;

/// A gate on a busy machine must never meet it: a run takes some milliseconds.
const LIMIT_SECONDS: u64 = 60;
const LIMIT: arguments::Choice = arguments::Choice {
    name: "--limit",
    value: Some(number("SECONDS", 1, 86_400)),
    does: "how long PROGRAM may take for a scenario or a trigger check, or may go \
        without reading on or giving the next answer; then it is killed. 60 if \
        left out",
};
const QUICK: arguments::Choice = arguments::Choice {
    name: "--quick",
    value: None,
    does: "measures less, and takes less time for it",
};

const BEFORE: arguments::Choice = arguments::Choice {
    name: "--before",
    value: Some(file("DIR")),
    does: "measures the programs of another checkout too, in turn with these: \
        DIR/target/bin/listing and DIR/target/bin/bench, which are built already; if \
        they do not know terminating calls, these are left out",
};

const TERMINATING: arguments::Choice = arguments::Choice {
    name: "--terminating",
    value: None,
    does: "the calls are terminating ones, and get the same items otherwise",
};

const GROUPS: [(&str, &[Command]); 7] = [
    (
        "The program of document 01",
        &[Command {
            name: "listing",
            takes: &[],
            streams: "< BYTES",
            does: "reads a profile and items, and lists an answer to each item",
            run: |_| run_listing(),
        }],
    ),
    (
        "Scenarios as text: a profile and items in words (docs/SCENARIOS.md has the form)",
        &[
            Command {
                name: "assemble",
                takes: &[Maybe(FILE)],
                streams: "> BYTES",
                does: "makes of the text (FILE or standard input) the bytes that a listing \
                    program reads",
                run: |given| write(&texts::bytes_of(&assemble(given)?)),
            },
            Command {
                name: "explain",
                takes: &[],
                streams: "< BYTES",
                does: "makes text of such bytes; what is malformed comes out as a line of \
                    bytes in hex",
                run: |_| write(texts::explain(&read_input()?).as_bytes()),
            },
            Command {
                name: "list",
                takes: &[One(PROGRAM), Several(FILE), Choice(LIMIT)],
                streams: "",
                does: "prints scenarios with the answers that the listing program PROGRAM \
                    gives; where the text expects others, the line is marked",
                run: |given| list::run(program(given), &given.words(FILE.name)),
            },
            Command {
                name: "check",
                takes: &[One(PROGRAM), Several(FILE), Choice(LIMIT)],
                streams: "",
                does: "runs the listing program PROGRAM and this one on scenarios, and \
                    holds both to the answers that stand in the text",
                run: |given| check::run(program(given), &given.words(FILE.name)),
            },
            Command {
                name: "chart",
                takes: &[One(PROGRAM), One(FILE), Choice(LIMIT)],
                streams: "> SVG",
                does: "draws a scenario as a ladder diagram, with the answers that the \
                    listing program PROGRAM gives; this program has to give the same; where \
                    the text expects others, the item is marked",
                run: |given| chart::run(program(given), given.word(FILE.name).unwrap_or_default()),
            },
        ],
    ),
    (
        "Random scenarios; the same SEED (1 if left out) gives the same ones",
        &[
            Command {
                name: "generate",
                takes: &[One(SEED)],
                streams: "> BYTES",
                does: "writes one scenario",
                run: |given| write(&generate::scenario(seed(given))),
            },
            Command {
                name: "coverage",
                takes: &[Maybe(COUNT), Maybe(SEED)],
                streams: "",
                does: "counts what COUNT scenarios (20000 if left out) reach, of the forms \
                    that have to be reached",
                run: |given| coverage::run(seeds(given)?),
            },
            Command {
                name: "compare",
                takes: &[One(PROGRAM), One(COUNT), Maybe(SEED), Choice(LIMIT)],
                streams: "",
                does: "runs the listing program PROGRAM and this one on COUNT scenarios, \
                    which both read in the same random pieces, and compares the listings; \
                    prints the coverage too",
                run: |given| compare_listings::run(program(given), seeds(given)?),
            },
        ],
    ),
    (
        "Tables handed in whole, sound and damaged (src/compare/tables.rs has the form)",
        &[
            Command {
                name: "tables",
                takes: &[],
                streams: "< CASES",
                does: "answers cases, each a table with one item, and gives each table as \
                    it is afterwards",
                run: |_| write(&tables::run(&read_input()?)?),
            },
            Command {
                name: "compare-tables",
                takes: &[One(PROGRAM), One(COUNT), Maybe(SEED), Choice(LIMIT)],
                streams: "",
                does: "runs PROGRAM, which does the same, and this one on COUNT random \
                    cases, and compares",
                run: |given| compare_tables::run(program(given), seeds(given)?),
            },
        ],
    ),
    (
        "Items that arrive in bits (src/compare/chunks.rs has the form)",
        &[
            Command {
                name: "chunks",
                takes: &[],
                streams: "< CASES",
                does: "answers cases, each a feeder handed in with chunks and resets",
                run: |_| write(&chunks::run(&read_input()?)),
            },
            Command {
                name: "compare-chunks",
                takes: &[One(PROGRAM), One(COUNT), Maybe(SEED), Choice(LIMIT)],
                streams: "",
                does: "runs PROGRAM, which does the same, and this one on fixed cases and \
                    COUNT random ones, and compares; and holds this program's feeder to \
                    T-02's sentence about cuts",
                run: |given| compare_chunks::run(program(given), seeds(given)?),
            },
        ],
    ),
    (
        "Trigger checks, over and over (src/compare/triggers.rs says what one is)",
        &[
            Command {
                name: "check-triggers",
                takes: &[],
                streams: "< BYTES",
                does: "checks Setups against a profile's stored numbers, over and over: \
                    reads 1 byte (2: the last digit first, 3: from the front), 4 bytes \
                    (how many checks to make), a profile and Setups; prints how many were \
                    made, how many matched, how many digit pairs were compared",
                run: |_| write_line(&triggers::run(&read_input()?)?.to_string()),
            },
            Command {
                name: "compare-triggers",
                takes: &[One(PROGRAM), One(COUNT), Maybe(SEED), Choice(LIMIT)],
                streams: "",
                does: "runs PROGRAM, which does the same, and this one on fixed cases and \
                    COUNT random ones, each in both orders of digits, and compares; and \
                    holds this program to T-03's sentence that every answer stays as it is",
                run: |given| compare_triggers::run(program(given), seeds(given)?),
            },
        ],
    ),
    (
        "Measuring",
        &[
            Command {
                name: "feed-items",
                takes: &[],
                streams: "< BYTES",
                does: "feeds items to one table, over and over: reads 1 byte (0: feed, 1: \
                    feed_sound), 4 bytes (how many items to feed), a profile and items; \
                    prints how many were fed, how many refused",
                run: |_| write_line(&measure::feed_items(&read_input()?)?),
            },
            Command {
                name: "bench-input",
                takes: &[One(OPEN), One(ITEMS), Choice(TERMINATING)],
                streams: "> BYTES",
                does: "writes a profile and about ITEMS items of OPEN (1, 32 or 64) open \
                    calls, which are over at the end",
                run: |given| write(&bench_input(given)?),
            },
            Command {
                name: "bench",
                takes: &[One(LISTING), One(BENCH), Choice(BEFORE), Choice(QUICK)],
                streams: "",
                does: "times this program beside the proved ones: `listing` beside LISTING, \
                    `feed-items`, with terminating calls too, and `check-triggers` \
                    beside BENCH; and counts the instructions of both, where valgrind is \
                    on the path",
                run: bench,
            },
        ],
    ),
];

fn all() -> impl Iterator<Item = &'static Command> {
    GROUPS.iter().flat_map(|(_, commands)| *commands)
}

/// Runs the command that the words name. False if it has found a difference, or
/// something that was not reached.
pub fn run(words: &[&str]) -> Result<bool, String> {
    let Some((name, words)) = words.split_first() else {
        return Err("a command is missing (see second --help)".to_string());
    };
    match (*name, words) {
        ("help" | "--help" | "-h", []) => write(usage::whole().as_bytes()),
        ("help" | "--help" | "-h", [name]) => help(find(name)?),
        ("help" | "--help" | "-h", [_, word, ..]) => {
            let error = arguments::too_many(word);
            Err(format!("{name}: {error} (see second --help)"))
        }
        (name, ["help"]) => help(find(name)?),
        (name, words) if words.iter().any(|word| ["--help", "-h"].contains(word)) => {
            help(find(name)?)
        }
        (name, words) => {
            let command = find(name)?;
            let given = arguments::read(command.takes, words)
                .map_err(|error| format!("{name}: {error} (see second --help {name})"))?;
            (command.run)(&given)
        }
    }
}

fn find(name: &str) -> Result<&'static Command, String> {
    let names = || all().map(|command| command.name);
    all().find(|command| command.name == name).ok_or_else(|| {
        let nearest = nearest(name, names());
        let nearest = nearest.map_or(String::new(), |name| format!(", but `{name}`"));
        let name = output::visible(name);
        format!("there is no command `{name}`{nearest} (see second --help)")
    })
}

fn help(command: &Command) -> Result<bool, String> {
    write(usage::of(command).as_bytes())
}

fn write(bytes: &[u8]) -> Result<bool, String> {
    output::write(bytes).map(|()| true)
}

fn write_line(text: &str) -> Result<bool, String> {
    output::line(text).map(|()| true)
}

fn program<'a>(given: &Given<'a>) -> Program<'a> {
    let seconds = given.number(LIMIT.name).unwrap_or(LIMIT_SECONDS);
    Program {
        path: given.word(PROGRAM.name).unwrap_or_default(),
        limit: Duration::from_secs(seconds),
    }
}

fn seed(given: &Given) -> u64 {
    given.number(SEED.name).unwrap_or(FIRST_SEED)
}

/// COUNT seeds, from SEED on.
fn seeds(given: &Given) -> Result<Range<u64>, String> {
    let count = given.number(COUNT.name).unwrap_or(COVERAGE_COUNT);
    let first = seed(given);
    let end = first.checked_add(count).ok_or_else(|| {
        format!(
            "SEED `{first}` with COUNT `{count}`: expected a sum up to {} (see second --help)",
            u64::MAX
        )
    })?;
    Ok(first..end)
}

fn run_listing() -> Result<bool, String> {
    let mut input = BufReader::with_capacity(listing::BUFFER, io::stdin().lock());
    let mut output = io::stdout().lock();
    let listed = listing::run(&mut input, &mut output);
    listed
        .map(|()| true)
        .map_err(|error| format!("listing: {error}"))
}

fn assemble(given: &Given) -> Result<Vec<Line>, String> {
    match given.word(FILE.name) {
        Some(file) => texts::assemble_file(file),
        None => texts::assemble_input(),
    }
}

fn bench_input(given: &Given) -> Result<Vec<u8>, String> {
    let [open, items] = [OPEN, ITEMS].map(|argument| given.number(argument.name).unwrap_or(0));
    let call_kind = match given.word(TERMINATING.name) {
        Some(_) => CallKind::Terminating,
        None => CallKind::Originating,
    };
    measure::input(call_kind, open as u32, items as usize)
}

fn bench(given: &Given) -> Result<bool, String> {
    let [listing, bench] =
        [LISTING, BENCH].map(|argument| given.word(argument.name).unwrap_or_default());
    let paths = measure::Paths {
        listing,
        bench,
        before: given.word(BEFORE.name),
    };
    let measured = measure::run(&paths, given.word(QUICK.name).is_some());
    measured.map(|()| true).map_err(|error| error.to_string())
}

fn read_input() -> Result<Vec<u8>, String> {
    let mut bytes = Vec::new();
    let read = io::stdin().lock().read_to_end(&mut bytes);
    read.map_err(|error| format!("standard input: {error}"))?;
    Ok(bytes)
}
