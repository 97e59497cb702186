//! Measuring this program beside the proved one: the listing programs on one
//! long input; feeding a table, item for item, with originating calls and with
//! terminating ones; trigger checks with a long list, as they were before T-03
//! and as they are; and the instructions of both.

use crate::bench::programs::{self, Program};
use crate::bench::rounds::{self, Rounds};
use crate::compare::triggers::{self, DIALLED_WITH_LONG_LIST, FROM_FRONT, LAST_FIRST, LONG_LIST};
use crate::output;
use crate::paper::forms::{kind, write_item, CallKind, ENTRY_BYTES};
use crate::paper::listing::frames;
use crate::paper::record::{Part, Point};
use crate::paper::table::{self, Entry, ENTRIES};
use crate::texts;
use std::path::Path;
use std::process::{self, Stdio};
use std::time::Duration;
use std::{env, fs, io, iter};

/// Which function is fed with: the first byte of the input of `feed-items`.
const FEED: u8 = 0;
const FEED_SOUND: u8 = 1;

/// What is measured of feeding: with which function, and which kind of call.
const FEEDINGS: [(u8, CallKind, &str); 4] = [
    (FEED, CallKind::Originating, "feed"),
    (FEED_SOUND, CallKind::Originating, "feed_sound"),
    (FEED, CallKind::Terminating, "feed, terminating"),
    (FEED_SOUND, CallKind::Terminating, "feed_sound, terminating"),
];

/// About so many items make a round; they stay below the longest input.
const ROUND_ITEMS: usize = 2500;

/// Feeds items to a fresh table, as many as the input says: `FED REFUSED`.
pub fn feed_items(input: &[u8]) -> Result<String, String> {
    let rounds = Rounds::read(input)?;
    let feed = match rounds.function {
        FEED => table::feed,
        FEED_SOUND => table::feed_sound,
        _ => return rounds.unknown_function(),
    };
    let count = rounds.count;
    let mut table = table::fresh();
    let mut refused = 0;
    for item in rounds.items.iter().cycle().take(count as usize) {
        refused += u32::from(feed(&mut table, item, rounds.profile).is_err());
    }
    Ok(format!("{count} {refused}"))
}

/// Without criteria: every Setup triggers.
const PROFILE: &str = "profile continue 120";

fn setup(call_kind: CallKind) -> &'static str {
    match call_kind {
        CallKind::Originating => "setup 4/491512345 service 17",
        CallKind::Terminating => "terminating-setup 4/491512345 service 17",
    }
}

/// What happens to a call in its turns, ten seconds apart: it is answered,
/// charged, cleared by the called party, connected anew, and busy. The points are
/// those of an originating call.
const LIFE: [&str; 23] = [
    "request-report 5/2 interrupted, 6/2 interrupted timer 30, 7/2 notify",
    "request-report 9/2 interrupted, 10/1 notify",
    "apply-charging leg 2 period 300",
    "continue",
    "seized",
    "activity-test",
    "moved",
    "continue", // refused: not held
    "answer",
    "mid-call digit 5",
    "period-over leg 2", // refused: too early
    "request-report 8/1 interrupted, 50/1 notify",
    "period-over leg 2",
    "apply-charging leg 2 period 864000",
    "mid-call digit #",
    "apply-charging leg 1 period 864000",
    "continue",
    "moved",
    "clear leg 2 cause 16",
    "request-report 4/2 notify, 7/2 notify",
    "connect 4/491512346",
    "seized",
    "busy cause 17", // the call is over
];

/// An item of `LIFE` as a call of this kind gets it: a Request report names the
/// points of the same parts. Where the call has none, No answer stands in for
/// it: it is not met either, and goes with its leg.
fn item_for(call_kind: CallKind, (kind, mut body): KindAndBody) -> KindAndBody {
    if kind == kind::REQUEST_REPORT {
        for entry in body[1..].chunks_exact_mut(ENTRY_BYTES) {
            let part = CallKind::Originating.part(entry[0], entry[1]);
            let point = part.and_then(|part| call_kind.point(part));
            let point = point.or_else(|| call_kind.point(Part::NoAnswer));
            if let Some(Point { number, leg }) = point {
                entry[..2].copy_from_slice(&[number, leg.number()]);
            }
        }
    }
    (kind, body)
}

/// A run with so many calls of this kind open: they are set up, about so many
/// items follow over them in turn, and at the end all are released.
pub fn input(call_kind: CallKind, open: u32, items: usize) -> Result<Vec<u8>, String> {
    let mut run = Run::new()?;
    let setup = texts::assemble_body(setup(call_kind))?;
    let release = texts::assemble_body("release")?;
    let clear = texts::assemble_body("clear leg 1 cause 16")?;
    let mut life = Vec::new();
    for item in LIFE {
        life.push(item_for(call_kind, texts::assemble_body(item)?));
    }
    for call in 0..open {
        run.feed(&setup, call);
    }
    for turn in 0..items / open as usize {
        run.time += 100;
        for call in 0..open {
            if run.feed(&life[turn % life.len()], call) {
                run.feed(&setup, call);
            }
        }
    }
    for call in 0..open {
        // A call that is not under control has nothing that interrupts it.
        if !run.feed(&release, call) {
            run.feed(&clear, call);
        }
    }
    Ok(run.bytes)
}

/// An item without time and call.
type KindAndBody = (u8, Vec<u8>);

/// The input so far, and the table that it leaves.
struct Run {
    profile: Vec<u8>,
    bytes: Vec<u8>,
    table: [Entry; ENTRIES],
    time: u64,
}

impl Run {
    fn new() -> Result<Run, String> {
        let profile = texts::bytes_of(&texts::assemble("profile", PROFILE)?);
        Ok(Run {
            bytes: profile.clone(),
            profile,
            table: table::fresh(),
            time: 1000,
        })
    }

    /// True if the call is over by the item of this kind and body.
    fn feed(&mut self, (kind, body): &KindAndBody, call: u32) -> bool {
        let item = write_item(*kind, call, self.time, body);
        self.bytes.extend(&item);
        let answer = table::feed_sound(&mut self.table, &item, &self.profile);
        answer.is_ok_and(|accepted| accepted.over)
    }
}

const OPEN: [u32; 3] = [1, 32, 64];
/// Where a checkout has its programs.
const BUILT: &str = "target/bin";

/// How much is measured.
struct Extent {
    listing_items: usize,
    /// The shortest time that this program shall go on with a function.
    function_time: Duration,
    /// The programs run in turn, so often, and the best time of each counts.
    repeats: usize,
}

const QUICK: Extent = Extent {
    listing_items: 500_000,
    function_time: Duration::from_millis(60),
    repeats: 3,
};

const WHOLE: Extent = Extent {
    listing_items: 2_500_000,
    function_time: Duration::from_millis(150),
    repeats: 7,
};

/// The proved programs, and a checkout whose programs are measured too.
pub struct Paths<'a> {
    pub listing: &'a str,
    pub bench: &'a str,
    pub before: Option<&'a str>,
}

/// Measures, and prints tables in Markdown.
pub fn run(paths: &Paths, quick: bool) -> io::Result<()> {
    let before = |name| Some(Path::new(paths.before?).join(BUILT).join(name));
    let listings = programs::with_task(paths.listing, before("listing"), "listing")?;
    let feeders = programs::with_task(paths.bench, before("bench"), "feed-items")?;
    let checkers = programs::with_task(paths.bench, None, "check-triggers")?;
    let extent = if quick { QUICK } else { WHOLE };
    let file = env::temp_dir().join(format!("second-bench-{}", process::id()));
    let measured = measure_listings(&listings, &file, &extent)
        .and_then(|()| measure_feeding(&feeders, &file, &extent))
        .and_then(|()| measure_triggers(&checkers, &file, &extent))
        .and_then(|()| count_instructions(&listings, &feeders, &file));
    let removed = fs::remove_file(&file);
    measured.and(removed)
}

fn print(line: &str) -> io::Result<()> {
    output::line(line).map_err(io::Error::other)
}

/// What is measured of each program, and how the ratio is read.
struct Quantity {
    unit: &'static str,
    ratio: &'static str,
    good: &'static str,
    /// Of what is measured, and of the ratio.
    decimals: [usize; 2],
}

const SPEED: Quantity = Quantity {
    unit: "items/s",
    ratio: "SPEED",
    good: "1.0 or more: at least as fast",
    decimals: [0, 2],
};

const TIME: Quantity = Quantity {
    unit: "ns/item",
    ratio: "TIME",
    good: "1.0 or less: at least as fast",
    decimals: [1, 2],
};

const INSTRUCTIONS: Quantity = Quantity {
    unit: "instructions/item",
    ratio: "INSTRUCTIONS",
    good: "1.0 or less: no more",
    decimals: [1, 3],
};

impl Quantity {
    /// Behind two columns of the table's own the proved program's, and for each
    /// program that it is held to that one's and the ratio.
    fn print_head(&self, [first, next]: [&str; 2], programs: &[Program]) -> io::Result<()> {
        let (unit, ratio, good) = (self.unit, self.ratio, self.good);
        let proved = programs[0].name;
        let mut head = format!("| {first} | {next} | {proved}, {unit} |");
        for Program { name, .. } in &programs[1..] {
            head += &format!(" {name}, {unit} | {ratio} {proved}/{name} ({good}) |");
        }
        print(&head)?;
        print(&format!("|---|{}", "---:|".repeat(2 * programs.len())))
    }

    fn print_row(&self, first: &str, next: u32, values: &[f64]) -> io::Result<()> {
        let ([decimals, finer], proved) = (self.decimals, values[0]);
        let mut row = format!("| {first} | {next} | {proved:.decimals$} |");
        for value in &values[1..] {
            row += &format!(" {value:.decimals$} | {:.finer$} |", proved / value);
        }
        print(&row)
    }
}

fn keep_best(best: &mut [Duration], times: &[Duration]) {
    for (best, time) in best.iter_mut().zip(times) {
        *best = *time.min(best);
    }
}

/// Items a second: the ratio is one of speeds.
fn measure_listings(programs: &[Program], file: &Path, extent: &Extent) -> io::Result<()> {
    SPEED.print_head(["listing: open calls", "items"], programs)?;
    for open in OPEN {
        for items in [extent.listing_items / 4, extent.listing_items] {
            let input = input(CallKind::Originating, open, items).map_err(io::Error::other)?;
            let items = item_count(&input);
            fs::write(file, &input)?;
            let mut best = vec![Duration::MAX; programs.len()];
            for _ in 0..extent.repeats {
                for (best, program) in best.iter_mut().zip(programs) {
                    let (time, _) = program.time(file, Stdio::null())?;
                    *best = time.min(*best);
                }
            }
            let speed = |time: Duration| f64::from(items) / time.as_secs_f64();
            let speeds: Vec<f64> = best.into_iter().map(speed).collect();
            SPEED.print_row(&open.to_string(), items, &speeds)?;
        }
    }
    Ok(())
}

/// All that follows the profile.
fn item_count(input: &[u8]) -> u32 {
    frames(input).len() as u32 - 1
}

/// Nanoseconds an item: the ratio is one of times.
fn measure_feeding(programs: &[Program], file: &Path, extent: &Extent) -> io::Result<()> {
    print("")?;
    TIME.print_head(["function", "open calls"], programs)?;
    let feedings = feedings_known_to(programs, file)?;
    for &(function, call_kind, name) in &feedings {
        for open in OPEN {
            let round = round(call_kind, open)?;
            let feeding = Repeated {
                function: Some(function),
                name,
                round: &round,
                file,
            };
            let [measured] = measure_in_turn([feeding], programs, extent)?;
            TIME.print_row(name, open, &measured.nanoseconds)?;
        }
    }
    if feedings.len() < FEEDINGS.len() {
        print("")?;
        print("Terminating calls were not measured: the other checkout does not know them.")?;
    }
    Ok(())
}

fn round(call_kind: CallKind, open: u32) -> io::Result<Vec<u8>> {
    input(call_kind, open, ROUND_ITEMS).map_err(io::Error::other)
}

/// All of them; but another checkout may be from before terminating calls, and
/// then nothing is held to it with them.
fn feedings_known_to(
    programs: &[Program],
    file: &Path,
) -> io::Result<Vec<(u8, CallKind, &'static str)>> {
    let mut feedings = FEEDINGS.to_vec();
    let round = round(CallKind::Terminating, OPEN[0])?;
    let input = rounds::write(FEED, item_count(&round), &round);
    let expected = feed_items(&input).map_err(io::Error::other)?;
    fs::write(file, &input)?;
    for program in programs.iter().filter(|program| program.is_before()) {
        let (_, said) = program.time(file, Stdio::piped())?;
        if said != expected {
            feedings.retain(|(_, call_kind, _)| *call_kind == CallKind::Originating);
        }
    }
    Ok(feedings)
}

/// Nanoseconds a trigger check, and digit pairs, with T-03's long list: the
/// ratios are those of what was to what is.
fn measure_triggers(programs: &[Program], file: &Path, extent: &Extent) -> io::Result<()> {
    print("")?;
    print(
        "| trigger check: dialled, beside ten stored numbers of 15 digits that share 14 \
         | pairs/check before T-03 | pairs/check after \
         | PAIRS before/after (1.0 or more: no more after) \
         | proved, ns/check before | proved, ns/check after \
         | TIME proved before/after (1.0 or more: at least as fast after) \
         | second, ns/check before | second, ns/check after \
         | TIME second before/after (1.0 or more: at least as fast after) |",
    )?;
    print("|---|---:|---:|---:|---:|---:|---:|---:|---:|---:|")?;
    for (dialled, name) in DIALLED_WITH_LONG_LIST {
        let round = triggers::round(LONG_LIST, &[dialled]).map_err(io::Error::other)?;
        let checks = [FROM_FRONT, LAST_FIRST].map(|function| Repeated {
            function: Some(function),
            name,
            round: &round,
            file,
        });
        let [before, after] = measure_in_turn(checks, programs, extent)?;
        let pairs = [before.pairs_per_check()?, after.pairs_per_check()?];
        let mut line = format!("| {name} |{}", ratio_cells(pairs, 0));
        for (before, after) in before.nanoseconds.into_iter().zip(after.nanoseconds) {
            line += &ratio_cells([before, after], 1);
        }
        print(&line)?;
    }
    Ok(())
}

/// Instructions an item, of what is timed above. Where they cannot be counted,
/// that is said instead.
fn count_instructions(listings: &[Program], feeders: &[Program], file: &Path) -> io::Result<()> {
    print("")?;
    if let Err(error) = programs::try_to_count() {
        return print(&format!("Instructions were not counted: {error}"));
    }
    INSTRUCTIONS.print_head(["program or function", "open calls"], listings)?;
    let listing = (None, CallKind::Originating, "listing", listings);
    let feedings = feedings_known_to(feeders, file)?.into_iter();
    let feedings =
        feedings.map(|(function, call_kind, name)| (Some(function), call_kind, name, feeders));
    for (function, call_kind, name, programs) in iter::once(listing).chain(feedings) {
        for open in OPEN {
            let round = round(call_kind, open)?;
            let work = Repeated {
                function,
                name,
                round: &round,
                file,
            };
            INSTRUCTIONS.print_row(name, open, &work.instructions(programs)?)?;
        }
    }
    Ok(())
}

/// What was, what is, and their ratio.
fn ratio_cells([before, after]: [f64; 2], decimals: usize) -> String {
    let ratio = before / after;
    format!(" {before:.decimals$} | {after:.decimals$} | {ratio:.2} |")
}

/// Whole rounds of the same items, over and over. Each round ends as it began,
/// so the next one finds what the first has found.
struct Repeated<'a> {
    /// None for a listing, which gets the items themselves over and over.
    function: Option<u8>,
    name: &'static str,
    /// A profile and items.
    round: &'a [u8],
    file: &'a Path,
}

/// What the programs took and said.
struct Measured {
    /// For one item.
    nanoseconds: Vec<f64>,
    said: String,
}

impl Measured {
    /// From what check-triggers says: `CHECKS MATCHED PAIRS`.
    fn pairs_per_check(&self) -> io::Result<f64> {
        let numbers: Result<Vec<f64>, _> = self.said.split(' ').map(str::parse).collect();
        match numbers.as_deref() {
            Ok([checks, _, pairs]) => Ok(pairs / checks),
            _ => Err(io::Error::other(format!(
                "no count of pairs: {}",
                self.said
            ))),
        }
    }
}

impl Repeated<'_> {
    /// So many rounds, as the programs read them.
    fn input(&self, rounds: u32) -> Vec<u8> {
        let Some(function) = self.function else {
            let (profile, items) = self.round.split_at(frames(self.round)[0].len());
            return [profile, &items.repeat(rounds as usize)].concat();
        };
        rounds::write(function, rounds * item_count(self.round), self.round)
    }

    /// What each program takes for so many rounds, and what it says. All have to
    /// say the same: else they have not done the same.
    fn take<T>(
        &self,
        programs: &[Program],
        rounds: u32,
        run: impl Fn(&Program, &Path) -> io::Result<(T, String)>,
    ) -> io::Result<(Vec<T>, String)> {
        fs::write(self.file, self.input(rounds))?;
        let mut taken = Vec::new();
        let mut said = Vec::new();
        for program in programs {
            let (took, says) = run(program, self.file)?;
            taken.push(took);
            said.push(says);
        }
        if said.iter().any(|says| *says != said[0]) {
            let items = rounds * item_count(self.round);
            let name = self.name;
            let mut error = format!("{name}, {items} items: what is said is not the same");
            for (program, says) in programs.iter().zip(&said) {
                error += &format!("\n  {}: {says}", program.path.display());
            }
            return Err(io::Error::other(error));
        }
        Ok((taken, said.swap_remove(0)))
    }

    fn time(&self, programs: &[Program], rounds: u32) -> io::Result<(Vec<Duration>, String)> {
        let time = |program: &Program, file: &Path| program.time(file, Stdio::piped());
        self.take(programs, rounds, time)
    }

    /// For one item. One run is longer by two rounds, so that start-up does not
    /// count.
    fn instructions(&self, programs: &[Program]) -> io::Result<Vec<f64>> {
        let (short, _) = self.take(programs, 1, Program::instructions)?;
        let (long, _) = self.take(programs, 3, Program::instructions)?;
        let items = f64::from(2 * item_count(self.round));
        let counts = long.iter().zip(short);
        Ok(counts
            .map(|(long, short)| long.saturating_sub(short) as f64 / items)
            .collect())
    }

    /// So many rounds that this program takes long enough; a multiple of four.
    fn enough_rounds(&self, programs: &[Program], extent: &Extent) -> io::Result<u32> {
        let long_enough = |rounds| {
            let (times, _) = self.time(programs, rounds)?;
            io::Result::Ok(times.last() >= Some(&extent.function_time))
        };
        let mut rounds = 4;
        // Twice, since something else may have held up a single run.
        while !(long_enough(rounds)? && long_enough(rounds)?) {
            rounds *= 2;
        }
        Ok(rounds)
    }
}

/// The best times so far. Runs of two lengths, so that start-up does not count.
struct Measuring<'a> {
    work: Repeated<'a>,
    long: u32,
    long_times: Vec<Duration>,
    short_times: Vec<Duration>,
    said: String,
}

impl Measuring<'_> {
    fn short(&self) -> u32 {
        self.long / 4
    }

    fn repeat(&mut self, programs: &[Program]) -> io::Result<()> {
        let (times, said) = self.work.time(programs, self.long)?;
        keep_best(&mut self.long_times, &times);
        let (times, _) = self.work.time(programs, self.short())?;
        keep_best(&mut self.short_times, &times);
        self.said = said;
        Ok(())
    }

    fn measured(self) -> Measured {
        let items = f64::from((self.long - self.short()) * item_count(self.work.round));
        let times = self.long_times.iter().zip(self.short_times);
        let times = times.map(|(long, short)| long.saturating_sub(short));
        Measured {
            nanoseconds: times.map(|time| time.as_secs_f64() * 1e9 / items).collect(),
            said: self.said,
        }
    }
}

/// All of them in turn, so that a slower minute of the machine does not fall on
/// one of them alone.
fn measure_in_turn<const N: usize>(
    works: [Repeated; N],
    programs: &[Program],
    extent: &Extent,
) -> io::Result<[Measured; N]> {
    let mut measurings = Vec::new();
    for work in works {
        measurings.push(Measuring {
            long: work.enough_rounds(programs, extent)?,
            work,
            long_times: vec![Duration::MAX; programs.len()],
            short_times: vec![Duration::MAX; programs.len()],
            said: String::new(),
        });
    }
    for _ in 0..extent.repeats {
        for measuring in &mut measurings {
            measuring.repeat(programs)?;
        }
    }
    let measured: Vec<_> = measurings.into_iter().map(Measuring::measured).collect();
    Ok(measured.try_into().ok().expect("one each"))
}
