//! What the commands say: on standard output, to files, and how far long work is, on standard error.
use crate::fault::Fault;
use std::fs;
use std::io::{self, Write};
use std::path::Path;
use std::time::{Duration, Instant};

/// How a command ends.
#[derive(Clone, Copy, Debug, PartialEq, Eq)]
pub enum Status {
    /// It is done, or accepted.
    Good,
    /// It is refused.
    Refused,
    /// The input is bad.
    Bad,
}

impl Status {
    /// The exit status.
    pub fn code(self) -> u8 {
        match self {
            Status::Good => 0,
            Status::Refused => 1,
            Status::Bad => 2,
        }
    }
}

/// Why a command ends before its end.
pub enum Stop {
    /// An input is bad: what is said on standard error.
    Faults(Vec<Fault>),
    /// An input is refused: what is said on standard error.
    Refused(String),
    /// A configuration is refused that was to be run: what is said on standard error.
    Unfit(String),
    /// The reader of standard output is gone, which is no fault.
    Gone,
}

impl From<Fault> for Stop {
    fn from(fault: Fault) -> Stop {
        Stop::Faults(vec![fault])
    }
}

impl From<Vec<Fault>> for Stop {
    fn from(faults: Vec<Fault>) -> Stop {
        Stop::Faults(faults)
    }
}

/// Writes a text to standard output.
pub fn say(text: &str) -> Result<(), Stop> {
    let mut out = io::stdout().lock();
    out.write_all(text.as_bytes()).and_then(|()| out.flush()).map_err(|error| match error.kind() {
        io::ErrorKind::BrokenPipe => Stop::Gone,
        _ => Stop::from(Fault::of("standard output", format!("cannot be written: {error}"))),
    })
}

/// Writes a text to standard error, as well as that can be done.
pub fn warn(text: &str) {
    let _ = write!(io::stderr(), "replayframes: {text}");
}

/// Ends a command: says what is to be said on standard error.
pub fn end(stop: Stop) -> Status {
    match stop {
        Stop::Gone => Status::Good,
        Stop::Faults(faults) => {
            faults.iter().for_each(|fault| warn(&format!("{fault}\n")));
            Status::Bad
        }
        Stop::Refused(text) => {
            warn(&text);
            Status::Refused
        }
        Stop::Unfit(text) => {
            warn(&text);
            Status::Bad
        }
    }
}

/// Writes a file.
pub fn write(path: &Path, bytes: &[u8]) -> Result<(), Stop> {
    fs::write(path, bytes).map_err(|error| {
        Stop::from(Fault::of(&path.display().to_string(), format!("cannot be written: {error}")))
    })
}

/// How often progress is told.
const INTERVAL: Duration = Duration::from_millis(500);

/// How far long work is, on standard error.
pub struct Progress {
    told: Option<Instant>,
    shown: bool,
}

impl Progress {
    /// Progress that is shown on a terminal, or wherever it is asked for.
    pub fn new(asked: bool) -> Progress {
        Progress { told: None, shown: asked || is_terminal() }
    }

    /// Tells how far the work is, the first time and then now and then.
    pub fn tell(&mut self, what: impl FnOnce() -> String) {
        let due = self.told.map_or(true, |told| told.elapsed() >= INTERVAL);
        if self.shown && due {
            self.told = Some(Instant::now());
            warn(&format!("{}\n", what()));
        }
    }
}

/// Whether standard error is a terminal, as Linux names it.
fn is_terminal() -> bool {
    let target = fs::read_link("/proc/self/fd/2").unwrap_or_default();
    target.starts_with("/dev/pts") || target.starts_with("/dev/tty")
}
