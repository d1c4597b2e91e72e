//! A plain array of booleans that answers as the documents say: the judge of everything.
use crate::report::grouped;
use crate::request::{Answer, Reason, Request};

/// Which frames are free.
#[derive(Clone)]
pub struct Model {
    pub free: Vec<bool>,
}

impl Model {
    /// So many frames, all taken.
    pub fn new(frames: usize) -> Model {
        Model { free: vec![false; frames] }
    }

    /// Answers a request, and changes the frames as the answer says.
    pub fn ask(&mut self, request: Request) -> Answer {
        let answer = self.answer(request);
        if let Some(change) = request.change(answer) {
            self.free[change.from..change.to].fill(change.free);
        }
        answer
    }

    /// The answer to a request, which changes nothing yet.
    pub fn answer(&self, request: Request) -> Answer {
        match request {
            Request::Alloc => self.next(0).into(),
            Request::Next(k) if k >= self.free.len() => Answer::Refused(Reason::Outside),
            Request::Next(k) => self.next(k).into(),
            Request::Run { size: 0, .. } => Answer::Refused(Reason::Empty),
            Request::Run { size, align_log2 } => self.run(size, align_log2).ok_or(Reason::NoRoom).into(),
            Request::Dealloc(k) => self.dealloc(k).into(),
            Request::Insert(from, to) | Request::Remove(from, to) => self.range(from, to).into(),
        }
    }

    /// The lowest free frame from k on.
    fn next(&self, k: usize) -> Result<usize, Reason> {
        let found = self.free[k..].iter().position(|&free| free);
        found.map(|away| k + away).ok_or(Reason::NoRoom)
    }

    /// The lowest run of free frames.
    fn run(&self, size: usize, align_log2: usize) -> Option<usize> {
        lowest_run(self.free.iter().copied(), size, align_log2)
    }

    /// Whether frame k can be freed.
    fn dealloc(&self, k: usize) -> Result<(), Reason> {
        match self.free.get(k) {
            None => Err(Reason::Outside),
            Some(true) => Err(Reason::NotTaken),
            Some(false) => Ok(()),
        }
    }

    /// Whether there is such a range.
    fn range(&self, from: usize, to: usize) -> Result<(), Reason> {
        if from == to {
            Err(Reason::Empty)
        } else if to < from {
            Err(Reason::Reversed)
        } else if to > self.free.len() {
            Err(Reason::Outside)
        } else {
            Ok(())
        }
    }
}

/// The lowest run of frames that are free. After one that is not it goes on at the next multiple.
pub fn lowest_run(free: impl Iterator<Item = bool>, size: usize, align_log2: usize) -> Option<usize> {
    let mut base = 0;
    for (k, free) in free.enumerate() {
        if !free {
            base = multiple_above(k, align_log2)?;
        } else if base <= k && k - base + 1 == size {
            return Some(base);
        }
    }
    None
}

/// The lowest multiple of 2 to the power of `align_log2` above k, if 64 bits hold it.
fn multiple_above(k: usize, align_log2: usize) -> Option<usize> {
    if align_log2 >= 64 {
        return None;
    }
    Some(((k >> align_log2) + 1) << align_log2)
}

/// The lowest run by its definition: of the multiples the first from which on all frames are free.
fn defined_run(free: &[bool], size: usize, align_log2: usize) -> Option<usize> {
    let aligned = |base: usize| base % 2_usize.pow(align_log2.min(62) as u32) == 0;
    let is_run = |base: usize| free.get(base..base + size).map_or(false, |run| run.iter().all(|&f| f));
    (0..free.len()).find(|&base| aligned(base) && is_run(base))
}

/// Compares the model's way to a run with the definition, for every state of nine frames.
pub fn compare_with_definition() -> Result<String, String> {
    let mut count = 0;
    for state in 0..1 << 9 {
        let model = Model { free: (0..9).map(|k| state >> k & 1 == 1).collect() };
        for size in 1..=10 {
            for align_log2 in (0..6).chain([60, 63, 64, 1000]) {
                let (way, rule) = (model.run(size, align_log2), defined_run(&model.free, size, align_log2));
                if way != rule {
                    return Err(format!("{size} at {align_log2} of {state:#b}: {way:?}, not {rule:?}"));
                }
                count += 1;
            }
        }
    }
    Ok(format!("{} runs", grouped(count)))
}
