//! Ours, upstream and the model side by side: each request is put to all of them, and after it every
//! answer and every frame is compared.
use crate::model::Model;
use crate::report::grouped;
use crate::request::{Answer, Change, Reason, Request};
use crate::upstream::{self, BitAlloc, Leaves};
use crate::{damage, ours, tree};
use std::fmt;
use std::ops::Range;

/// Up to so many words of frames, upstream's are all compared after each step; above, those around the change.
const ALL_LEAVES: usize = 256;
/// How many words of frames are looked at on both sides of a change.
const AROUND: usize = 4;

/// What was compared.
#[derive(Default)]
pub struct Tally {
    pub requests: u64,
    pub refused: u64,
    pub upstream: u64,
    pub f1: u64,
}

impl fmt::Display for Tally {
    fn fmt(&self, f: &mut fmt::Formatter) -> fmt::Result {
        let [requests, refused, upstream, f1] =
            [self.requests, self.refused, self.upstream, self.f1].map(grouped);
        write!(f, "{requests} requests, {refused} of them refused")?;
        if self.upstream == 0 {
            return Ok(());
        }
        match self.f1 {
            0 => write!(f, "; {upstream} put to upstream too, which never differs"),
            _ => write!(f, "; {upstream} put to upstream too, which differs in {f1}, each of them F1"),
        }
    }
}

/// The three, in the same state.
pub struct Trial<T> {
    model: Model,
    /// The words that the model's frames make.
    expected: Vec<u16>,
    ours: Vec<u16>,
    upstream: Option<Box<T>>,
}

impl<T: Leaves> Trial<T> {
    /// So many frames, all taken. Upstream takes part if it has that size.
    pub fn new(frames: usize) -> Trial<T> {
        let ours = ours::new(frames);
        Trial {
            model: Model::new(frames),
            expected: vec![0; ours.len()],
            ours,
            upstream: (T::cap() == frames).then(upstream::new),
        }
    }

    /// Puts the three into the state of another trial of the same size.
    pub fn copy_from(&mut self, other: &Trial<T>) {
        self.model.free.copy_from_slice(&other.model.free);
        self.expected.copy_from_slice(&other.expected);
        self.ours.copy_from_slice(&other.ours);
        if let (Some(mine), Some(theirs)) = (&mut self.upstream, &other.upstream) {
            **mine = **theirs;
        }
    }

    /// One request, and the comparison after it.
    pub fn step(&mut self, request: Request, tally: &mut Tally) -> Result<(), String> {
        self.compare(request, tally).map_err(|fault| format!("{request:?}: {fault}"))
    }

    /// Puts a request to all, and compares the answers and the frames after it.
    fn compare(&mut self, request: Request, tally: &mut Tally) -> Result<(), String> {
        let covered = upstream::covers(request, &self.model);
        let answer = self.model.ask(request);
        tally.requests += 1;
        tally.refused += u64::from(matches!(answer, Answer::Refused(_)));
        let told = ours::ask(&mut self.ours, request);
        if told != answer {
            return Err(format!("ours answers {told:?}, and the model {answer:?}"));
        }
        let change = request.change(answer);
        if let Some(change) = change {
            tree::renew(&mut self.expected, &self.model.free, change.from, change.to);
        }
        self.same_words()?;
        self.step_upstream(request, answer, covered, tally)?;
        self.same_upstream(around(change, T::LEAVES))
    }

    /// Asks upstream what its contract covers, and brings it along where it was not asked or differs.
    fn step_upstream(
        &mut self,
        request: Request,
        answer: Answer,
        covered: bool,
        tally: &mut Tally,
    ) -> Result<(), String> {
        let bitmap = match &mut self.upstream {
            Some(bitmap) => &mut **bitmap,
            None => return Ok(()),
        };
        if covered {
            tally.upstream += 1;
            let told = upstream::ask(bitmap, request);
            if told == answer {
                return Ok(());
            }
            if !upstream::is_f1(request, T::cap()) || told != Answer::Refused(Reason::NoRoom) {
                return Err(format!("upstream answers {told:?}, and the model {answer:?}"));
            }
            tally.f1 += 1;
        }
        if let Some(change) = request.change(answer) {
            upstream::ask(bitmap, change.request());
        }
        Ok(())
    }

    /// Ours has exactly the words that the model's frames make: every frame, and every summary.
    fn same_words(&self) -> Result<(), String> {
        if self.ours == self.expected {
            return Ok(());
        }
        let at = (0..self.ours.len()).find(|&p| self.ours[p] != self.expected[p]);
        let p = at.ok_or("ours has another number of words")?;
        Err(format!("word {p} of ours is {:#06x}, and should be {:#06x}", self.ours[p], self.expected[p]))
    }

    /// Upstream has the model's frames, in these words of frames.
    fn same_upstream(&self, leaves: Range<usize>) -> Result<(), String> {
        if let Some(bitmap) = &self.upstream {
            let expected = &self.expected[tree::leaves(self.expected.len())];
            for p in leaves {
                if bitmap.leaf(p) != expected[p] {
                    return Err(format!(
                        "upstream's frames from {} on are {:#06x}, and should be {:#06x}",
                        16 * p,
                        bitmap.leaf(p),
                        expected[p]
                    ));
                }
            }
        }
        Ok(())
    }

    /// Compares all frames of all three anew, by every function that only looks.
    pub fn look(&mut self) -> Result<(), String> {
        let free = &self.model.free;
        tree::renew(&mut self.expected, free, 0, free.len());
        self.same_words()?;
        self.same_upstream(0..T::LEAVES)?;
        damage::looks(&self.ours, free)?;
        match self.upstream.as_ref().and_then(|bitmap| wrong_look(&**bitmap, free)) {
            None => Ok(()),
            Some(what) => Err(format!("upstream's {what} is wrong")),
        }
    }
}

/// What upstream says wrongly of frames, if anything.
fn wrong_look<T: BitAlloc>(bitmap: &T, free: &[bool]) -> Option<String> {
    if bitmap.any() != free.contains(&true) {
        return Some("any".to_string());
    }
    let wrong = (0..free.len()).find(|&k| bitmap.test(k) != free[k]);
    wrong.map(|k| format!("test of frame {k}"))
}

/// The words of frames to compare after a change.
fn around(change: Option<Change>, leaves: usize) -> Range<usize> {
    match change {
        _ if leaves <= ALL_LEAVES => 0..leaves,
        Some(change) => (change.from / 16).saturating_sub(AROUND)..leaves.min(change.to / 16 + AROUND),
        None => 0..0,
    }
}
