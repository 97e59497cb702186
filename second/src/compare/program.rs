//! Running another program on given bytes, within limits: it has to end in time,
//! and may not write for ever. A program that does not keep to that is killed.
//!
//! Input and output are written to and read from sockets. A read or a write there
//! can be given up after some time, which a pipe does not allow. So no thread has
//! to keep watch, and nothing that the program has started can hold this one up
//! by keeping the program's input or output open.

use crate::output;
use std::fmt::Display;
use std::io::{self, BufRead, BufReader, BufWriter, ErrorKind, Read, Write};
use std::os::fd::OwnedFd;
use std::os::unix::net::{UnixDatagram, UnixStream};
use std::process::{Child, Command, ExitStatus, Stdio};
use std::sync::atomic::{AtomicBool, AtomicU64, Ordering};
use std::sync::Arc;
use std::time::{Duration, Instant};
use std::{fs, thread};

/// The longest piece for `output_of_pieces`. Of a datagram that is longer than
/// the room of its read, the rest is lost. The listing programs have more room
/// at each read; and what were lost would show as a difference.
pub const LONGEST_PIECE: usize = 4096;

/// The most that a program may write, as one of many answers or all in all: no
/// answer to a case comes near it. To a long input it may write so many times its
/// length: the shortest item has 14 bytes, and no answer has a hundred.
const LONGEST_OUTPUT: usize = 16 << 20;
const OUTPUT_FOR_INPUT: usize = 8;

/// How often a thread that writes a long input looks whether all is over.
const LOOK: Duration = Duration::from_millis(200);

/// So often it is looked without a pause whether a program has ended.
const SOON: u32 = 100;

const DID_NOT_END: &str = "did not end";
const GAVE_NO_ANSWER: &str = "gave no answer";

/// A program to be run.
#[derive(Clone, Copy)]
pub struct Program<'a> {
    pub path: &'a str,
    /// How long it may take; where it gives many answers to a long input: how
    /// long it may neither read on nor come to the end of an answer.
    pub limit: Duration,
}

impl Program<'_> {
    /// What the program writes when it is handed the input; `on` names the input
    /// in messages. A thread of its own writes the input, so that the output
    /// can be read meanwhile.
    pub fn output_of(&self, on: impl Display, input: &[u8]) -> Result<Vec<u8>, String> {
        let (socket, mut running) = self.start_with_stream(self.limit, Self::start)?;
        running.most = LONGEST_OUTPUT.max(OUTPUT_FOR_INPUT * input.len());
        let output = thread::scope(|scope| {
            // A program may end before it has read everything: no error.
            scope.spawn(move || (&socket).write_all(input));
            running.whole_output()
        });
        output.map_err(|fault| self.message(on, fault))
    }

    /// The same for an input that comes in pieces: one read of the program gives
    /// one of them, since they are sent as datagrams. None of them is empty.
    pub fn output_of_pieces(&self, on: impl Display, pieces: &[&[u8]]) -> Result<Vec<u8>, String> {
        let (socket, mut running) = self.start_with_datagrams()?;
        let output = thread::scope(|scope| {
            // The same here.
            scope.spawn(|| send(&socket, pieces));
            running.whole_output()
        });
        output.map_err(|fault| self.message(on, fault))
    }

    /// Runs the program while one thread writes its input and this one reads its
    /// answers: for more of both than is kept at once.
    pub fn run_beside<T>(
        &self,
        write: impl FnOnce(&mut Input) -> io::Result<()> + Send,
        read: impl FnOnce(&mut Answers) -> Result<T, String>,
    ) -> Result<T, String> {
        let (socket, running) = self.start_with_stream(LOOK, Self::start_with_pipe)?;
        let flow = running.flow.clone();
        let mut answers = Answers::new(*self, running);
        thread::scope(|scope| {
            scope.spawn(|| {
                let mut input = Input::new(Watched { socket, flow });
                // The same here; it shows in the answers.
                write(&mut input).and_then(|()| input.flush())
            });
            let result = read(&mut answers);
            // It may go on, if more was answered than was read.
            answers.running().kill();
            answers.running().flow.over.store(true, Ordering::Relaxed);
            result
        })
    }

    /// A write of the input is given up after some time: something that the
    /// program has started may keep it open, and not read it.
    fn start_with_stream(
        &self,
        timeout: Duration,
        start: fn(&Self, OwnedFd) -> io::Result<Running>,
    ) -> Result<(UnixStream, Running), String> {
        let start = || {
            let (ours, theirs) = UnixStream::pair()?;
            ours.set_write_timeout(Some(timeout))?;
            Ok((ours, start(self, theirs.into())?))
        };
        start().map_err(|error| self.cannot_be_run(error))
    }

    fn start_with_datagrams(&self) -> Result<(UnixDatagram, Running), String> {
        let start = || {
            let (ours, theirs) = UnixDatagram::pair()?;
            ours.set_write_timeout(Some(self.limit))?;
            Ok((ours, self.start(theirs.into())?))
        };
        start().map_err(|error| self.cannot_be_run(error))
    }

    fn start(&self, input: OwnedFd) -> io::Result<Running> {
        let (ours, theirs) = UnixStream::pair()?;
        self.spawn(input, OwnedFd::from(theirs).into(), ours)
    }

    /// A pipe takes many small writes in much less time than a socket does; a
    /// thread hands on what comes. It is left to itself if something keeps the
    /// pipe open.
    fn start_with_pipe(&self, input: OwnedFd) -> io::Result<Running> {
        let (ours, mut theirs) = UnixStream::pair()?;
        let mut running = self.spawn(input, Stdio::piped(), ours)?;
        if let Some(mut pipe) = running.child.stdout.take() {
            thread::spawn(move || io::copy(&mut pipe, &mut theirs));
        }
        Ok(running)
    }

    fn spawn(&self, input: OwnedFd, output: Stdio, ours: UnixStream) -> io::Result<Running> {
        let child = Command::new(self.path)
            .stdin(input)
            .stdout(output)
            .spawn()?;
        Ok(Running {
            child,
            output: ours,
            limit: self.limit,
            deadline: Instant::now() + self.limit,
            most: LONGEST_OUTPUT,
            count: 0,
            flow: Arc::default(),
            taken_before: 0,
        })
    }

    fn cannot_be_run(&self, error: io::Error) -> String {
        format!("{}: cannot be run: {error}", self.name())
    }

    /// What is said of the program when it was run on this.
    pub fn message(&self, on: impl Display, fault: String) -> String {
        format!("{}: {on}: {fault}", self.name())
    }

    /// As messages have it.
    pub fn name(&self) -> String {
        output::visible(self.path)
    }
}

/// Sends the pieces, and then empty ones: they are read as the end of the input,
/// which a program may ask for again.
fn send(socket: &UnixDatagram, pieces: &[&[u8]]) -> io::Result<()> {
    let ends: [&[u8]; 3] = [&[]; 3];
    for piece in pieces.iter().chain(&ends) {
        while let Err(error) = socket.send(piece) {
            if error.kind() != ErrorKind::Interrupted {
                return Err(error);
            }
        }
    }
    Ok(())
}

/// The input of a program, where it is too much to be kept at once.
pub type Input = BufWriter<Watched>;

/// What the thread that writes an input and the one that reads the answers know
/// of each other.
#[derive(Default)]
struct Flow {
    /// How many bytes of the input the program has taken.
    taken: AtomicU64,
    /// Nothing more is read.
    over: AtomicBool,
}

pub struct Watched {
    socket: UnixStream,
    flow: Arc<Flow>,
}

impl Write for Watched {
    /// Tries again until all is over: how long a program may take is for the
    /// reading thread to say.
    fn write(&mut self, bytes: &[u8]) -> io::Result<usize> {
        loop {
            match self.socket.write(bytes) {
                Err(error) if is_timeout(&error) && !self.flow.over.load(Ordering::Relaxed) => {}
                written => {
                    let count = *written.as_ref().unwrap_or(&0);
                    self.flow.taken.fetch_add(count as u64, Ordering::Relaxed);
                    return written;
                }
            }
        }
    }

    fn flush(&mut self) -> io::Result<()> {
        self.socket.flush()
    }
}

/// A program that has been started. Reading gives its output, or an error once
/// it is too late or too much.
struct Running {
    child: Child,
    output: UnixStream,
    limit: Duration,
    deadline: Instant,
    /// How many bytes may come, and how many have come.
    most: usize,
    count: usize,
    flow: Arc<Flow>,
    /// How many bytes of the input were taken when the deadline was last set.
    taken_before: u64,
}

impl Read for Running {
    fn read(&mut self, buffer: &mut [u8]) -> io::Result<usize> {
        loop {
            self.output.set_read_timeout(Some(self.time_left()))?;
            match self.output.read(buffer) {
                Ok(count) => {
                    self.count += count;
                    let is_too_much = self.count > self.most;
                    return match is_too_much {
                        true => Err(ErrorKind::FileTooLarge.into()),
                        false => Ok(count),
                    };
                }
                Err(error) if !is_timeout(&error) => return Err(error),
                Err(_) if self.has_taken_more() => self.set_deadline(),
                Err(_) => return Err(ErrorKind::TimedOut.into()),
            }
        }
    }
}

/// Systems call it by one or the other name.
fn is_timeout(error: &io::Error) -> bool {
    matches!(error.kind(), ErrorKind::WouldBlock | ErrorKind::TimedOut)
}

impl Running {
    fn set_deadline(&mut self) {
        self.deadline = Instant::now() + self.limit;
        self.taken_before = self.flow.taken.load(Ordering::Relaxed);
    }

    fn has_taken_more(&self) -> bool {
        self.flow.taken.load(Ordering::Relaxed) > self.taken_before
    }

    /// At least a moment: what has come already is read, however late it is.
    fn time_left(&self) -> Duration {
        let left = self.deadline.saturating_duration_since(Instant::now());
        left.max(Duration::from_millis(1))
    }

    fn whole_output(&mut self) -> Result<Vec<u8>, String> {
        let mut output = Vec::new();
        match self.read_to_end(&mut output).and_then(|_| self.wait()) {
            Ok(status) if status.success() => Ok(output),
            Ok(status) => Err(status.to_string()),
            Err(error) => Err(self.give_up(error, DID_NOT_END)),
        }
    }

    /// Waits for the end of the program, after that of its output: mostly there
    /// is little between them.
    fn wait(&mut self) -> io::Result<ExitStatus> {
        for looks in 0.. {
            if let Some(status) = self.child.try_wait()? {
                return Ok(status);
            }
            if looks < SOON {
                thread::yield_now();
            } else if Instant::now() < self.deadline {
                thread::sleep(Duration::from_millis(1));
            } else {
                break;
            }
        }
        Err(ErrorKind::TimedOut.into())
    }

    /// Kills the program, and says why; `late` says what it has not done in time.
    fn give_up(&mut self, error: io::Error, late: &str) -> String {
        let killed = self.kill();
        let (limit, most) = (self.limit.as_secs(), self.most);
        match error.kind() {
            ErrorKind::TimedOut if killed => {
                format!("{late} within {limit} s (--limit), and was killed")
            }
            ErrorKind::TimedOut => format!(
                "has ended, but something that it started \
                 kept its output open for {limit} s (--limit)"
            ),
            ErrorKind::FileTooLarge if killed => {
                format!("has written more than {most} bytes, and was killed")
            }
            ErrorKind::FileTooLarge => format!("has written more than {most} bytes"),
            _ => error.to_string(),
        }
    }

    /// Kills the program and what it has started; false if it had ended already.
    /// It could be made the leader of a group, which is killed more surely; but
    /// then an interrupt from the terminal would end this program alone.
    fn kill(&mut self) -> bool {
        if let Ok(Some(_)) = self.child.try_wait() {
            return false;
        }
        let started = started_by(self.child.id());
        let _ = self.child.kill();
        if !started.is_empty() {
            kill_all(&started);
        }
        self.set_deadline();
        let _ = self.wait();
        true
    }
}

/// The processes that a process has started, those that they have started, and
/// so on; none where the system does not tell.
fn started_by(process: u32) -> Vec<u32> {
    let list = fs::read_to_string(format!("/proc/{process}/task/{process}/children"));
    let list = list.unwrap_or_default();
    let children = list.split_whitespace().filter_map(|word| word.parse().ok());
    children
        .flat_map(|child| [vec![child], started_by(child)].concat())
        .collect()
}

/// The standard library kills only what it has started itself; a shell kills any.
fn kill_all(processes: &[u32]) {
    let processes: Vec<String> = processes.iter().map(u32::to_string).collect();
    let command = format!("kill -KILL {}", processes.join(" "));
    let _ = Command::new("sh")
        .args(["-c", &command])
        .stdin(Stdio::null())
        .stdout(Stdio::null())
        .stderr(Stdio::null())
        .status();
}

/// The answers of a program that gives many.
pub struct Answers<'a> {
    program: Program<'a>,
    output: BufReader<Running>,
    /// The case whose answer is read, or was read last.
    case: u64,
}

impl<'a> Answers<'a> {
    fn new(program: Program<'a>, running: Running) -> Answers<'a> {
        Answers {
            program,
            output: BufReader::new(running),
            case: 0,
        }
    }

    /// What is read from now on is the answer to this case. It has its own time,
    /// and its own room.
    pub fn begin(&mut self, case: u64) {
        self.case = case;
        self.running().set_deadline();
        self.running().count = 0;
    }

    /// Reads a line with its end, or what is left of the output. If that is
    /// nothing, the program has to have ended well.
    pub fn line(&mut self, bytes: &mut Vec<u8>) -> Result<(), String> {
        match self.output.read_until(b'\n', bytes) {
            Ok(0) => self.wait("case"),
            Ok(_) => Ok(()),
            Err(error) => Err(self.give_up("case", error, GAVE_NO_ANSWER)),
        }
    }

    /// Reads so many bytes, or what is left of the output.
    pub fn bytes(&mut self, count: usize, bytes: &mut Vec<u8>) -> Result<(), String> {
        let read = self.output.by_ref().take(count as u64).read_to_end(bytes);
        read.map(drop)
            .map_err(|error| self.give_up("case", error, GAVE_NO_ANSWER))
    }

    /// Whether the last answer was all; then the program has to end well.
    pub fn is_at_end(&mut self) -> Result<bool, String> {
        self.running().set_deadline();
        match self.output.fill_buf().map(<[u8]>::is_empty) {
            Ok(true) => self.wait("after case").map(|()| true),
            Ok(false) => Ok(false),
            Err(error) => Err(self.give_up("after case", error, DID_NOT_END)),
        }
    }

    fn wait(&mut self, place: &str) -> Result<(), String> {
        match self.running().wait() {
            Ok(status) if status.success() => Ok(()),
            Ok(status) => Err(self.message(place, status.to_string())),
            Err(error) => Err(self.give_up(place, error, DID_NOT_END)),
        }
    }

    fn give_up(&mut self, place: &str, error: io::Error, late: &str) -> String {
        let fault = self.running().give_up(error, late);
        self.message(place, fault)
    }

    fn message(&self, place: &str, fault: String) -> String {
        let place = format_args!("{place} {}", self.case);
        self.program.message(place, fault)
    }

    fn running(&mut self) -> &mut Running {
        self.output.get_mut()
    }
}
