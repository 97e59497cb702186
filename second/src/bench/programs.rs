//! The programs that are measured: how long one takes for an input, and how many
//! instructions. Valgrind counts these; they do not depend on what else the
//! machine does.

use crate::output;
use std::fs::File;
use std::path::{Path, PathBuf};
use std::process::{Child, Command, Output, Stdio};
use std::time::{Duration, Instant};
use std::{env, io};

const VALGRIND: &str = "valgrind";
/// The sum stands among callgrind's messages, so nothing else is kept.
const COUNTING: [&str; 2] = ["--tool=callgrind", "--callgrind-out-file=/dev/null"];

const BEFORE: &str = "before";

pub struct Program {
    /// What the tables call it.
    pub name: &'static str,
    pub path: PathBuf,
    arguments: Vec<&'static str>,
}

/// The proved program, and then what it is held to: that of another checkout, if
/// there is one, and this one with the same task.
pub fn with_task(
    proved: &str,
    before: Option<PathBuf>,
    task: &'static str,
) -> io::Result<Vec<Program>> {
    let name = before.as_ref().map_or("proved", |_| "after");
    let mut named = vec![(name, PathBuf::from(proved))];
    named.extend(before.map(|path| (BEFORE, path)));
    let mut programs = Vec::new();
    for (name, path) in named {
        try_to_start(&path)?;
        programs.push(Program {
            name,
            path,
            arguments: vec![],
        });
    }
    programs.push(Program {
        name: "second",
        path: env::current_exe()?,
        arguments: vec![task],
    });
    Ok(programs)
}

/// Starts a program and ends it: that it is not there is found before anything
/// is printed.
fn try_to_start(path: &Path) -> io::Result<()> {
    let mut command = Command::new(path);
    let command = command.stdin(Stdio::null()).stdout(Stdio::null());
    let started = command.stderr(Stdio::null()).spawn();
    let mut child = started.map_err(|error| {
        let path = output::visible(&path.to_string_lossy());
        io::Error::other(format!("{path}: cannot be run: {error}"))
    })?;
    child.kill()?;
    child.wait().map(|_| ())
}

/// Why instructions cannot be counted, if so.
pub fn try_to_count() -> io::Result<()> {
    try_to_start(Path::new(VALGRIND))
}

impl Program {
    /// Whether it is that of another checkout.
    pub fn is_before(&self) -> bool {
        self.name == BEFORE
    }

    /// How long it takes for the input, and what it says.
    pub fn time(&self, input: &Path, stdout: Stdio) -> io::Result<(Duration, String)> {
        let mut command = Command::new(&self.path);
        command.args(&self.arguments);
        let (time, output) = run(&mut command, input, stdout)?;
        Ok((time, said(&output)))
    }

    /// How many instructions it takes for the input, and what it says.
    pub fn instructions(&self, input: &Path) -> io::Result<(u64, String)> {
        let mut command = Command::new(VALGRIND);
        command.args(COUNTING).arg(&self.path).args(&self.arguments);
        command.stderr(Stdio::piped());
        let (_, output) = run(&mut command, input, Stdio::piped())?;
        let count = collected(&String::from_utf8_lossy(&output.stderr));
        let count = count.ok_or_else(|| failed(&command, "no count", &output.stderr))?;
        Ok((count, said(&output)))
    }
}

fn run(command: &mut Command, input: &Path, stdout: Stdio) -> io::Result<(Duration, Output)> {
    command.stdin(File::open(input)?).stdout(stdout);
    let start = Instant::now();
    let output = command
        .spawn()
        .and_then(Child::wait_with_output)
        .map_err(|error| failed(command, &error.to_string(), &[]))?;
    let time = start.elapsed();
    match output.status.success() {
        true => Ok((time, output)),
        false => Err(failed(command, &output.status.to_string(), &output.stderr)),
    }
}

/// Names what was run, and shows what it complained of, if that was kept.
fn failed(command: &Command, error: &str, complaints: &[u8]) -> io::Error {
    let words = [command.get_program()].into_iter();
    let words = words.chain(command.get_args());
    let words: Vec<_> = words.map(|word| word.to_string_lossy()).collect();
    let mut message = format!("{}: {error}", output::visible(&words.join(" ")));
    for line in String::from_utf8_lossy(complaints).lines() {
        message += &format!("\n  {}", output::visible(line));
    }
    io::Error::other(message)
}

/// The last line: of a listing the others need not be kept.
fn said(output: &Output) -> String {
    let said = String::from_utf8_lossy(&output.stdout);
    said.lines().last().unwrap_or_default().to_string()
}

/// The sum of instructions, from callgrind's messages: `==PID== Collected : SUM`,
/// and behind it the sums of whatever else it was told to count.
pub fn collected(messages: &str) -> Option<u64> {
    let sums = messages.lines().find_map(|line| {
        let (_, message) = line.strip_prefix("==")?.split_once("== ")?;
        message.strip_prefix("Collected :")
    })?;
    sums.split_whitespace().next()?.parse().ok()
}
