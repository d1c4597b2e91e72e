//! What the benchmark's rows do, for any column that can.
use crate::columns::{Column, Looks, Ranges, Runs};
use crate::rng::Rng;

/// Answers, folded into one number that depends on their order.
#[derive(Clone, Copy, Default, PartialEq, Eq, Debug)]
pub struct Digest(usize);

impl Digest {
    /// One answer more; none counts too.
    #[inline]
    pub fn add(&mut self, answer: Option<usize>) {
        self.0 = self.0.rotate_left(5) ^ answer.unwrap_or(usize::MAX);
    }
}

/// One row's work, on a column in the row's first state.
pub trait Work<C> {
    /// Does at most `limit` operations, and says how many they were.
    fn run(&self, column: &mut C, limit: usize, digest: &mut Digest) -> usize;
}

/// Allocates until there is none.
pub struct AllocAll;

impl<C: Column> Work<C> for AllocAll {
    fn run(&self, column: &mut C, limit: usize, digest: &mut Digest) -> usize {
        for done in 0..limit {
            let frame = column.alloc();
            digest.add(frame);
            if frame.is_none() {
                return done + 1;
            }
        }
        limit
    }
}

/// Frees the frames in an order.
pub struct FreeAll(Vec<u32>);

impl FreeAll {
    pub fn in_order(frames: usize) -> FreeAll {
        FreeAll((0..frames as u32).collect())
    }

    pub fn shuffled(frames: usize) -> FreeAll {
        let mut work = FreeAll::in_order(frames);
        Rng::new(2).shuffle(&mut work.0);
        work
    }
}

impl<C: Column> Work<C> for FreeAll {
    fn run(&self, column: &mut C, limit: usize, _: &mut Digest) -> usize {
        let order = &self.0[..limit.min(self.0.len())];
        for &k in order {
            column.dealloc(k as usize);
        }
        order.len()
    }
}

/// Allocates and frees by turns: the frames to free, one after each allocation, were chosen before.
pub struct Mixed(Vec<u32>);

impl Mixed {
    /// So many pairs, each freeing one of all frames that are taken then. `free` is the first state.
    pub fn new(free: &[bool], pairs: usize, mut lowest: impl Column) -> Mixed {
        let mut taken: Vec<u32> = (0..free.len() as u32).filter(|&k| !free[k as usize]).collect();
        let mut rng = Rng::new(3);
        let mut given_back = |_| {
            taken.push(lowest.alloc().expect("a free frame") as u32);
            let k = taken.swap_remove(rng.below(taken.len()));
            lowest.dealloc(k as usize);
            k
        };
        Mixed((0..pairs).map(&mut given_back).collect())
    }
}

impl<C: Column> Work<C> for Mixed {
    fn run(&self, column: &mut C, limit: usize, digest: &mut Digest) -> usize {
        let frees = &self.0[..self.0.len().min(limit / 2)];
        for &k in frees {
            digest.add(column.alloc());
            column.dealloc(k as usize);
        }
        2 * frees.len()
    }
}

/// Makes every frame free, or taken, so many times.
pub struct Whole {
    pub frames: usize,
    pub free: bool,
    pub times: usize,
}

impl<C: Ranges> Work<C> for Whole {
    fn run(&self, column: &mut C, limit: usize, _: &mut Digest) -> usize {
        let times = self.times.min(limit);
        for _ in 0..times {
            if self.free {
                column.insert(0, self.frames);
            } else {
                column.remove(0, self.frames);
            }
        }
        times
    }
}

/// Takes a run and gives it back, so many times; a time is one operation, with a run or with none.
pub struct Once {
    pub size: usize,
    pub align_log2: usize,
    pub times: usize,
}

impl<C: Runs> Work<C> for Once {
    fn run(&self, column: &mut C, limit: usize, digest: &mut Digest) -> usize {
        let times = self.times.min(limit);
        for _ in 0..times {
            let base = column.alloc_contiguous(self.size, self.align_log2);
            digest.add(base);
            if let Some(base) = base {
                column.give_back(base, base + self.size);
            }
        }
        times
    }
}

/// Takes runs until there is none, and gives them all back, so many times; a time is one operation.
pub struct UntilNone {
    pub size: usize,
    pub align_log2: usize,
    pub times: usize,
}

impl<C: Runs> Work<C> for UntilNone {
    fn run(&self, column: &mut C, limit: usize, digest: &mut Digest) -> usize {
        let times = self.times.min(limit);
        let mut bases = Vec::new();
        for _ in 0..times {
            while let Some(base) = column.alloc_contiguous(self.size, self.align_log2) {
                digest.add(Some(base));
                bases.push(base);
            }
            for base in bases.drain(..) {
                column.give_back(base, base + self.size);
            }
        }
        times
    }
}

/// Checks the summaries so many times.
pub struct Check(pub usize);

impl<C: Looks> Work<C> for Check {
    fn run(&self, column: &mut C, _: usize, digest: &mut Digest) -> usize {
        for _ in 0..self.0 {
            digest.add(Some(usize::from(column.check())));
        }
        self.0
    }
}

/// Counts the free frames so many times.
pub struct Count(pub usize);

impl<C: Looks> Work<C> for Count {
    fn run(&self, column: &mut C, _: usize, digest: &mut Digest) -> usize {
        for _ in 0..self.0 {
            digest.add(Some(column.count_free()));
        }
        self.0
    }
}
