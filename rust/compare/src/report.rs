//! Runs named comparisons, says what each compared, and counts them in the last line.
use std::panic::{self, AssertUnwindSafe};
use std::time::{Duration, Instant};

/// How often a long comparison says how far it is.
const EVERY: Duration = Duration::from_secs(10);

/// A number with a comma before every three digits.
pub fn grouped(number: u64) -> String {
    let digits = number.to_string();
    let groups: Vec<&str> =
        (0..digits.len()).rev().step_by(3).map(|end| &digits[end.saturating_sub(2)..=end]).collect();
    groups.into_iter().rev().collect::<Vec<_>>().join(",")
}

/// What passed and what failed so far.
#[derive(Default)]
pub struct Report {
    passed: usize,
    failed: usize,
}

impl Report {
    /// Runs one comparison: it says what it compared, or what differs.
    pub fn run(&mut self, name: &str, comparison: impl FnOnce() -> Result<String, String>) {
        let began = Instant::now();
        let outcome = quietly(comparison).unwrap_or_else(|said| Err(format!("panicked: {said}")));
        let seconds = began.elapsed().as_secs_f64();
        match outcome {
            Ok(said) => {
                self.passed += 1;
                println!("ok: {name}: {said} ({seconds:.1} s)");
            }
            Err(fault) => {
                self.failed += 1;
                println!("FAILED: {name}: {fault}");
            }
        }
    }

    /// The last line, and whether nothing failed.
    pub fn end(self) -> bool {
        println!("{} passed, {} failed", self.passed, self.failed);
        self.failed == 0
    }
}

/// What a function answers, or what it panicked with, which nobody prints.
pub fn quietly<A>(function: impl FnOnce() -> A) -> Result<A, String> {
    let hook = panic::take_hook();
    panic::set_hook(Box::new(|_| {}));
    let outcome = panic::catch_unwind(AssertUnwindSafe(function));
    panic::set_hook(hook);
    outcome.map_err(|cause| match (cause.downcast_ref::<String>(), cause.downcast_ref::<&str>()) {
        (Some(said), _) => said.clone(),
        (_, Some(said)) => said.to_string(),
        _ => String::from("something that is no text"),
    })
}

/// Says now and then on standard error how far a long comparison is.
pub struct Progress {
    name: String,
    total: usize,
    said: Instant,
}

impl Progress {
    pub fn new(name: &str, total: usize) -> Progress {
        Progress { name: name.to_string(), total, said: Instant::now() }
    }

    /// So many of the whole are done.
    pub fn at(&mut self, done: usize) {
        if self.said.elapsed() >= EVERY {
            self.said = Instant::now();
            eprintln!("{}: {} of {}", self.name, grouped(done as u64), grouped(self.total as u64));
        }
    }
}
