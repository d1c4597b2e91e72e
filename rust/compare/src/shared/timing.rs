//! Times the shared allocator on the same work as the bitmap alone and as a rival with owners, interleaved,
//! and prints a line for each row.
use super::columns::Shared;
use super::rival::OwnedRival;
use crate::columns::Ours;
use crate::timing::{same, timer, Measured, State, Timer, ROUNDS};
use crate::work::Work;
use std::rc::Rc;

/// What a row may take of the bitmap's time.
const ALLOWED: f64 = 1.5;

/// The columns of a row. The bitmap has no part in what needs owners.
struct Row {
    bitmap: Option<Timer>,
    rival: Timer,
    shared: Timer,
}

impl Row {
    /// The least of some rounds for the bitmap, the rival and the shared allocator.
    fn time(&mut self, name: &str) -> [Option<f64>; 3] {
        let mut least = [None; 3];
        for _ in 0..ROUNDS {
            for (least, time) in least.iter_mut().zip(self.round(name)) {
                *least = time.map(|time: f64| time.min(least.unwrap_or(f64::MAX)));
            }
        }
        least
    }

    /// One round, in which the columns must agree.
    fn round(&mut self, name: &str) -> [Option<f64>; 3] {
        let shared = (self.shared)(usize::MAX);
        let rival = (self.rival)(usize::MAX);
        same(name, "the rival with owners", &rival, &shared);
        let bitmap = self.bitmap.as_mut().map(|timer| timer(usize::MAX));
        if let Some(bitmap) = &bitmap {
            same(name, "the bitmap", bitmap, &shared);
        }
        let time = |measured: Measured| measured.nanoseconds;
        [bitmap.map(time), Some(time(rival)), Some(time(shared))]
    }
}

/// Prints the rows whose name has some part, and keeps what is slower than it should be.
pub struct Layers {
    part: String,
    slow: Vec<String>,
}

impl Layers {
    pub fn new(part: &str) -> Layers {
        println!();
        println!("| row | bitmap alone | rival with owners | shared | shared/bitmap | shared/rival |");
        println!("|---|---:|---:|---:|---:|---:|");
        Layers { part: part.to_string(), slow: Vec::new() }
    }

    /// A row of work that the bitmap can do too.
    pub fn both<W: Work<Ours> + Work<OwnedRival> + Work<Shared> + 'static>(
        &mut self,
        name: &str,
        depth: u32,
        state: impl FnOnce() -> State,
        work: impl FnOnce(&State) -> W,
    ) {
        self.row(name, state, |state| {
            let work = Rc::new(work(state));
            Row { bitmap: Some(timer(Ours::new(depth), state, &work)), ..columns(depth, state, &work) }
        });
    }

    /// A row of work that needs owners.
    pub fn owners<W: Work<OwnedRival> + Work<Shared> + 'static>(
        &mut self,
        name: &str,
        depth: u32,
        state: impl FnOnce() -> State,
        work: W,
    ) {
        self.row(name, state, |state| columns(depth, state, &Rc::new(work)));
    }

    /// Times a row and prints its line, if its name has the part that was asked for.
    fn row(&mut self, name: &str, state: impl FnOnce() -> State, row: impl FnOnce(&State) -> Row) {
        if !name.contains(&self.part) {
            return;
        }
        let [bitmap, rival, shared] = row(&state()).time(name);
        let ratio = |of: Option<f64>| of.zip(shared).map(|(of, shared)| shared / of);
        let time = |time: Option<f64>| time.map_or(String::new(), |time| format!("{time:.1}"));
        let share = |share: Option<f64>| share.map_or(String::new(), |share| format!("{share:.2}"));
        let cells = [time(bitmap), time(rival), time(shared), share(ratio(bitmap)), share(ratio(rival))];
        println!("| {name} | {} |", cells.join(" | "));
        if ratio(bitmap) > Some(ALLOWED) {
            self.slow.push(name.to_string());
        }
    }

    /// Says which rows are slower than they should be.
    pub fn end(self) {
        let slow = if self.slow.is_empty() { "none".to_string() } else { self.slow.join("; ") };
        println!();
        println!("More than {ALLOWED} times the bitmap alone: {slow}.");
    }
}

/// The row's columns without the bitmap.
fn columns<W: Work<OwnedRival> + Work<Shared> + 'static>(depth: u32, state: &State, work: &Rc<W>) -> Row {
    let rival = timer(OwnedRival::new(depth), state, work);
    Row { bitmap: None, rival, shared: timer(Shared::new(depth), state, work) }
}
