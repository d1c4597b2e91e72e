//! The columns of the shared allocator's benchmark, asked as the bitmap's are: one client takes every frame
//! and gives it back, by its address.
use super::request::{FRAME, NOBODY};
use super::rival::OwnedRival;
use crate::columns::{Column, Looks, Runs};
use crate::ours::{self, allocator};
use crate::rival::Rival;
use crate::tree;

/// Where the frames begin, and the client that asks.
pub const BASE: usize = 1 << 32;
pub const CLIENT: u8 = 7;
/// What only an allocator with owners has.
pub trait Owners: Column {
    fn release_all(&mut self);
    fn owned_count(&self) -> usize;
}

/// The number of the frame at an address.
#[inline]
fn number(addr: usize) -> usize {
    (addr - BASE) / FRAME
}

/// Gives every frame that is taken to the client.
fn load_owners(owners: &mut [u8], words: &[u16]) {
    for (owner, free) in owners.iter_mut().zip(tree::free_frames(words)) {
        *owner = if free { NOBODY } else { CLIENT };
    }
}

/// The proved shared allocator.
pub struct Shared {
    tree: Vec<u16>,
    owners: Vec<u8>,
}

impl Shared {
    pub fn new(depth: u32) -> Shared {
        let frames = 16_usize.pow(depth);
        Shared { tree: ours::new(frames), owners: vec![NOBODY; frames] }
    }
}

impl Column for Shared {
    fn load(&mut self, words: &[u16]) {
        self.tree.copy_from_slice(words);
        load_owners(&mut self.owners, words);
    }
    #[inline]
    fn alloc(&mut self) -> Option<usize> {
        allocator::alloc(&mut self.tree, &mut self.owners, BASE, CLIENT).ok().flatten().map(number)
    }
    #[inline]
    fn dealloc(&mut self, k: usize) {
        let done = allocator::dealloc(&mut self.tree, &mut self.owners, BASE, CLIENT, BASE + FRAME * k);
        done.expect("the client's frame");
    }
    #[inline]
    fn count_free(&self) -> usize {
        ours::count_free(&self.tree).expect("a full tree")
    }
}

impl Runs for Shared {
    #[inline]
    fn alloc_contiguous(&mut self, size: usize, align_log2: usize) -> Option<usize> {
        let (tree, owners) = (&mut self.tree, &mut self.owners);
        allocator::alloc_contiguous(tree, owners, BASE, CLIENT, size, align_log2).ok().flatten().map(number)
    }
    #[inline]
    fn give_back(&mut self, from: usize, to: usize) {
        let (tree, owners) = (&mut self.tree, &mut self.owners);
        let done = allocator::dealloc_contiguous(tree, owners, BASE, CLIENT, BASE + FRAME * from, to - from);
        done.expect("the client's run");
    }
}

impl Looks for Shared {
    #[inline]
    fn check(&self) -> bool {
        allocator::check(&self.tree, &self.owners, BASE) == Ok(None)
    }
}

impl Owners for Shared {
    #[inline]
    fn release_all(&mut self) {
        allocator::release_all(&mut self.tree, &mut self.owners, BASE, CLIENT).expect("a client");
    }
    #[inline]
    fn owned_count(&self) -> usize {
        let count = allocator::owned_count(&self.tree, &self.owners, BASE, CLIENT);
        count.ok().flatten().expect("a client")
    }
}

impl Column for OwnedRival {
    fn load(&mut self, words: &[u16]) {
        self.tree.words.copy_from_slice(words);
        load_owners(&mut self.owners, words);
    }
    #[inline]
    fn alloc(&mut self) -> Option<usize> {
        OwnedRival::alloc(self, BASE, CLIENT).map(number)
    }
    #[inline]
    fn dealloc(&mut self, k: usize) {
        assert!(OwnedRival::dealloc(self, BASE, CLIENT, BASE + FRAME * k), "the client's frame");
    }
    #[inline]
    fn count_free(&self) -> usize {
        Rival::count_free(&self.tree)
    }
}

impl Runs for OwnedRival {
    #[inline]
    fn alloc_contiguous(&mut self, size: usize, align_log2: usize) -> Option<usize> {
        OwnedRival::alloc_contiguous(self, BASE, CLIENT, size, align_log2).map(number)
    }
    #[inline]
    fn give_back(&mut self, from: usize, to: usize) {
        let done = OwnedRival::dealloc_contiguous(self, BASE, CLIENT, BASE + FRAME * from, to - from);
        assert!(done, "the client's run");
    }
}

impl Looks for OwnedRival {
    #[inline]
    fn check(&self) -> bool {
        OwnedRival::check(self, BASE)
    }
}

impl Owners for OwnedRival {
    #[inline]
    fn release_all(&mut self) {
        assert!(OwnedRival::release_all(self, BASE, CLIENT), "a client");
    }
    #[inline]
    fn owned_count(&self) -> usize {
        OwnedRival::owned_count(self, CLIENT)
    }
}
