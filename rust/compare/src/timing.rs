//! Times the columns of the benchmark on the same work, interleaved, and prints a line for each row.
use crate::columns::{Column, Ours};
use crate::rival::Rival;
use crate::stack::Stack;
use crate::upstream::{self, BitAlloc16M, BitAlloc1M, BitAlloc64K};
use crate::work::{Digest, Work};
use std::rc::Rc;
use std::time::Instant;

/// How often each column is timed.
pub const ROUNDS: usize = 9;
/// How many operations upstream does at 16 million frames, a size that it does not have itself.
const UPSTREAM_AT_16M: usize = 20_000;
/// What ours may take of the rival's time.
const ALLOWED: f64 = 1.25;

/// A row's first state, in the words of its tree.
pub type State = Rc<Vec<u16>>;

/// One timed run.
pub struct Measured {
    pub nanoseconds: f64,
    digest: Digest,
    free: usize,
}

/// Runs a row's work on one column, at most so many operations of it.
pub type Timer = Box<dyn FnMut(usize) -> Measured>;

/// Times work on a column, which begins in this state each time.
pub fn timer<C: Column + 'static, W: Work<C> + 'static>(mut column: C, state: &State, work: &Rc<W>) -> Timer {
    let (state, work) = (Rc::clone(state), Rc::clone(work));
    Box::new(move |limit| {
        column.load(&state);
        let mut digest = Digest::default();
        let began = Instant::now();
        let operations = work.run(&mut column, limit, &mut digest);
        let nanoseconds = began.elapsed().as_nanos() as f64 / operations as f64;
        Measured { nanoseconds, digest, free: column.count_free() }
    })
}

/// Work that every tree can do, upstream's of each size too.
pub trait OnTrees:
    Work<Ours> + Work<Rival> + Work<Box<BitAlloc64K>> + Work<Box<BitAlloc1M>> + Work<Box<BitAlloc16M>> + 'static
{
}

impl<W> OnTrees for W where
    W: Work<Ours>
        + Work<Rival>
        + Work<Box<BitAlloc64K>>
        + Work<Box<BitAlloc1M>>
        + Work<Box<BitAlloc16M>>
        + 'static
{
}

/// Times upstream at the size of a tree.
fn upstream_timer<W: OnTrees>(depth: u32, state: &State, work: &Rc<W>) -> Timer {
    match depth {
        4 => timer(upstream::new::<BitAlloc64K>(), state, work),
        5 => timer(upstream::new::<BitAlloc1M>(), state, work),
        _ => timer(upstream::new::<BitAlloc16M>(), state, work),
    }
}

/// The columns of a row. Upstream has a limit of operations, and has no part in some rows, nor has the stack.
struct Row {
    upstream: Option<(Timer, usize)>,
    rival: Timer,
    stack: Option<Timer>,
    ours: Timer,
}

impl Row {
    /// The row's columns without upstream and the stack.
    fn new<W: Work<Ours> + Work<Rival> + 'static>(depth: u32, state: &State, work: &Rc<W>) -> Row {
        let rival = timer(Rival::new(depth), state, work);
        Row { upstream: None, rival, stack: None, ours: timer(Ours::new(depth), state, work) }
    }

    /// The same with upstream.
    fn with_upstream<W: OnTrees>(depth: u32, state: &State, work: &Rc<W>) -> Row {
        let limit = if depth == 6 { UPSTREAM_AT_16M } else { usize::MAX };
        Row { upstream: Some((upstream_timer(depth, state, work), limit)), ..Row::new(depth, state, work) }
    }

    /// The least of some rounds for upstream, the rival, the stack and ours.
    fn time(&mut self, name: &str) -> [Option<f64>; 4] {
        let mut least = [None; 4];
        for _ in 0..ROUNDS {
            for (least, time) in least.iter_mut().zip(self.round(name)) {
                *least = time.map(|time: f64| time.min(least.unwrap_or(f64::MAX)));
            }
        }
        least
    }

    /// One round, in which the columns must agree.
    fn round(&mut self, name: &str) -> [Option<f64>; 4] {
        let ours = (self.ours)(usize::MAX);
        let rival = (self.rival)(usize::MAX);
        same(name, "the rival", &rival, &ours);
        let stack = self.stack.as_mut().map(|timer| timer(usize::MAX));
        if let Some(stack) = &stack {
            assert_eq!(stack.free, ours.free, "{name}: the stack leaves another number of frames free");
        }
        let upstream = self.upstream.as_mut().map(|(timer, limit)| (timer(*limit), *limit));
        if let Some((upstream, limit)) = &upstream {
            same(name, "upstream", upstream, &(self.rival)(*limit));
        }
        let time = |measured: Measured| measured.nanoseconds;
        [upstream.map(|(upstream, _)| time(upstream)), Some(time(rival)), stack.map(time), Some(time(ours))]
    }
}

/// Breaks off if a column answers otherwise than another.
pub fn same(row: &str, column: &str, is: &Measured, should: &Measured) {
    assert_eq!(is.digest, should.digest, "{row}: {column} gives other answers");
    assert_eq!(is.free, should.free, "{row}: {column} leaves another number of frames free");
}

/// Prints the rows whose name has some part, and keeps what is slower than it should be.
pub struct Bench {
    part: String,
    slow: Vec<String>,
}

impl Bench {
    pub fn new(part: &str) -> Bench {
        println!("| row | upstream | rival | stack | ours | ours/rival | ours/upstream |");
        println!("|---|---:|---:|---:|---:|---:|---:|");
        Bench { part: part.to_string(), slow: Vec::new() }
    }

    /// A row of work on single frames.
    pub fn singles<W: OnTrees + Work<Stack>>(
        &mut self,
        name: &str,
        depth: u32,
        state: impl FnOnce() -> State,
        work: impl FnOnce(&State) -> W,
    ) {
        self.row(name, state, |state| {
            let work = Rc::new(work(state));
            Row {
                stack: Some(timer(Stack::new(0..0), state, &work)),
                ..Row::with_upstream(depth, state, &work)
            }
        });
    }

    /// A row of work on runs and ranges, which a stack has not.
    pub fn runs<W: OnTrees>(&mut self, name: &str, depth: u32, state: impl FnOnce() -> State, work: W) {
        self.row(name, state, |state| Row::with_upstream(depth, state, &Rc::new(work)));
    }

    /// A row of work that upstream has no function for.
    pub fn looks<W: Work<Ours> + Work<Rival> + 'static>(
        &mut self,
        name: &str,
        depth: u32,
        state: impl FnOnce() -> State,
        work: W,
    ) {
        self.row(name, state, |state| Row::new(depth, state, &Rc::new(work)));
    }

    /// Times a row and prints its line, if its name has the part that was asked for.
    fn row(&mut self, name: &str, state: impl FnOnce() -> State, row: impl FnOnce(&State) -> Row) {
        if !name.contains(&self.part) {
            return;
        }
        let [upstream, rival, stack, ours] = row(&state()).time(name);
        let ratio = |of: Option<f64>| of.zip(ours).map(|(of, ours)| ours / of);
        let (to_rival, to_upstream) = (ratio(rival), ratio(upstream));
        let time = |time: Option<f64>| time.map_or(String::new(), |time| format!("{time:.1}"));
        let share = |share: Option<f64>| share.map_or(String::new(), |share| format!("{share:.2}"));
        let cells =
            [time(upstream), time(rival), time(stack), time(ours), share(to_rival), share(to_upstream)];
        println!("| {name} | {} |", cells.join(" | "));
        if to_rival > Some(ALLOWED) || to_upstream >= Some(1.0) {
            self.slow.push(name.to_string());
        }
    }

    /// Says how the figures were taken, and which rows are slower than they should be.
    pub fn end(self) {
        let slow = if self.slow.is_empty() { "none".to_string() } else { self.slow.join("; ") };
        println!();
        println!("Nanoseconds for one operation of the row, the least of {ROUNDS} interleaved rounds.");
        println!("The trees gave the same answers; the stack has no order and leaves as many frames free.");
        println!(
            "Upstream ends at 1M: at 16M it is its own type once more, on {UPSTREAM_AT_16M} operations."
        );
        println!("Not quicker than upstream, or more than {ALLOWED} times the rival: {slow}.");
    }
}
