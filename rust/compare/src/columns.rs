//! The columns of the benchmark: ours, upstream, the rival and the stack, asked alike. Every request is
//! a call that is not inlined, since those of the proved archive cannot be.
use crate::rival::Rival;
use crate::stack::Stack;
use crate::upstream::Leaves;
use crate::{ours, tree};

/// Single frames.
pub trait Column {
    /// Takes over the state of a tree, given in its words.
    fn load(&mut self, words: &[u16]);
    fn alloc(&mut self) -> Option<usize>;
    fn dealloc(&mut self, k: usize);
    fn count_free(&self) -> usize;
}

/// Runs.
pub trait Runs: Column {
    fn alloc_contiguous(&mut self, size: usize, align_log2: usize) -> Option<usize>;
    /// Gives back frames that were taken.
    fn give_back(&mut self, from: usize, to: usize);
}

/// Ranges, whatever their frames were.
pub trait Ranges: Column {
    fn insert(&mut self, from: usize, to: usize);
    fn remove(&mut self, from: usize, to: usize);
}

/// The functions that look at the whole.
pub trait Looks: Column {
    fn check(&self) -> bool;
}

/// The proved library.
pub struct Ours(Vec<u16>);

impl Ours {
    pub fn new(depth: u32) -> Ours {
        Ours(ours::new(16_usize.pow(depth)))
    }
}

impl Column for Ours {
    fn load(&mut self, words: &[u16]) {
        self.0.copy_from_slice(words);
    }
    #[inline]
    fn alloc(&mut self) -> Option<usize> {
        ours::alloc(&mut self.0).ok()
    }
    #[inline]
    fn dealloc(&mut self, k: usize) {
        ours::dealloc(&mut self.0, k).expect("a taken frame");
    }
    #[inline]
    fn count_free(&self) -> usize {
        ours::count_free(&self.0).expect("a full tree")
    }
}

impl Runs for Ours {
    #[inline]
    fn alloc_contiguous(&mut self, size: usize, align_log2: usize) -> Option<usize> {
        ours::alloc_contiguous(&mut self.0, size, align_log2).ok()
    }
    #[inline]
    fn give_back(&mut self, from: usize, to: usize) {
        self.insert(from, to);
    }
}

impl Ranges for Ours {
    #[inline]
    fn insert(&mut self, from: usize, to: usize) {
        ours::insert(&mut self.0, from, to).expect("a range of the tree");
    }
    #[inline]
    fn remove(&mut self, from: usize, to: usize) {
        ours::remove(&mut self.0, from, to).expect("a range of the tree");
    }
}

impl Looks for Ours {
    #[inline]
    fn check(&self) -> bool {
        ours::check(&self.0) == Ok(None)
    }
}

impl Column for Rival {
    fn load(&mut self, words: &[u16]) {
        self.words.copy_from_slice(words);
    }
    #[inline]
    fn alloc(&mut self) -> Option<usize> {
        Rival::alloc(self)
    }
    #[inline]
    fn dealloc(&mut self, k: usize) {
        assert!(Rival::dealloc(self, k), "a taken frame");
    }
    #[inline]
    fn count_free(&self) -> usize {
        Rival::count_free(self)
    }
}

impl Runs for Rival {
    #[inline]
    fn alloc_contiguous(&mut self, size: usize, align_log2: usize) -> Option<usize> {
        Rival::alloc_contiguous(self, size, align_log2)
    }
    #[inline]
    fn give_back(&mut self, from: usize, to: usize) {
        Ranges::insert(self, from, to);
    }
}

impl Ranges for Rival {
    #[inline]
    fn insert(&mut self, from: usize, to: usize) {
        assert!(Rival::insert(self, from, to), "a range of the tree");
    }
    #[inline]
    fn remove(&mut self, from: usize, to: usize) {
        assert!(Rival::remove(self, from, to), "a range of the tree");
    }
}

impl Looks for Rival {
    #[inline]
    fn check(&self) -> bool {
        Rival::check(self).is_none()
    }
}

impl Column for Stack {
    fn load(&mut self, words: &[u16]) {
        let free = tree::free_frames(words);
        *self = Stack::new((0..free.len() as u32).filter(|&k| free[k as usize]));
    }
    #[inline]
    fn alloc(&mut self) -> Option<usize> {
        Stack::alloc(self)
    }
    #[inline]
    fn dealloc(&mut self, k: usize) {
        Stack::dealloc(self, k);
    }
    #[inline]
    fn count_free(&self) -> usize {
        Stack::count_free(self)
    }
}

impl<T: Leaves> Column for Box<T> {
    fn load(&mut self, words: &[u16]) {
        self.load_leaves(&words[tree::leaves(words.len())]);
    }
    #[inline(never)]
    fn alloc(&mut self) -> Option<usize> {
        T::alloc(self)
    }
    #[inline(never)]
    fn dealloc(&mut self, k: usize) {
        T::dealloc(self, k);
    }
    #[inline]
    fn count_free(&self) -> usize {
        (0..T::LEAVES).map(|p| self.leaf(p).count_ones() as usize).sum()
    }
}

impl<T: Leaves> Runs for Box<T> {
    #[inline(never)]
    fn alloc_contiguous(&mut self, size: usize, align_log2: usize) -> Option<usize> {
        T::alloc_contiguous(self, size, align_log2)
    }
    #[inline]
    fn give_back(&mut self, from: usize, to: usize) {
        Ranges::insert(self, from, to);
    }
}

impl<T: Leaves> Ranges for Box<T> {
    #[inline(never)]
    fn insert(&mut self, from: usize, to: usize) {
        T::insert(self, from..to);
    }
    #[inline(never)]
    fn remove(&mut self, from: usize, to: usize) {
        T::remove(self, from..to);
    }
}
