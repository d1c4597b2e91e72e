//! The proved shared allocator with contents, through its exported functions.
use super::allocator::answer;
use super::UNWRITTEN;
use crate::shared::request::{Answer, Request};

extern "C" {
    fn rf_frames_init(
        tree: *mut u16,
        nodes: usize,
        owners: *mut u8,
        bytes: usize,
        words: *mut u64,
        len: usize,
        base: usize,
    ) -> u32;
    fn rf_frames_alloc(
        tree: *mut u16,
        nodes: usize,
        owners: *mut u8,
        bytes: usize,
        words: *const u64,
        len: usize,
        base: usize,
        client: u8,
        addr: *mut usize,
    ) -> u32;
    fn rf_frames_alloc_contiguous(
        tree: *mut u16,
        nodes: usize,
        owners: *mut u8,
        bytes: usize,
        words: *const u64,
        len: usize,
        base: usize,
        client: u8,
        size: usize,
        align_log2: usize,
        addr: *mut usize,
    ) -> u32;
    fn rf_frames_dealloc(
        tree: *mut u16,
        nodes: usize,
        owners: *mut u8,
        bytes: usize,
        words: *mut u64,
        len: usize,
        base: usize,
        client: u8,
        addr: usize,
    ) -> u32;
    fn rf_frames_dealloc_contiguous(
        tree: *mut u16,
        nodes: usize,
        owners: *mut u8,
        bytes: usize,
        words: *mut u64,
        len: usize,
        base: usize,
        client: u8,
        addr: usize,
        count: usize,
        frame: *mut usize,
    ) -> u32;
    fn rf_frames_insert(
        tree: *mut u16,
        nodes: usize,
        owners: *mut u8,
        bytes: usize,
        words: *mut u64,
        len: usize,
        base: usize,
        from: usize,
        to: usize,
        frame: *mut usize,
    ) -> u32;
    fn rf_frames_remove(
        tree: *mut u16,
        nodes: usize,
        owners: *mut u8,
        bytes: usize,
        words: *const u64,
        len: usize,
        base: usize,
        from: usize,
        to: usize,
        frame: *mut usize,
    ) -> u32;
    fn rf_frames_release_all(
        tree: *mut u16,
        nodes: usize,
        owners: *mut u8,
        bytes: usize,
        words: *mut u64,
        len: usize,
        base: usize,
        client: u8,
    ) -> u32;
    fn rf_frames_check(
        tree: *const u16,
        nodes: usize,
        owners: *const u8,
        bytes: usize,
        words: *const u64,
        len: usize,
        base: usize,
        at: *mut usize,
    ) -> u32;
}

/// The three memories and the base of one call.
pub struct Frames<'a> {
    pub tree: &'a mut [u16],
    pub owners: &'a mut [u8],
    pub words: &'a mut [u64],
    pub base: usize,
}

impl Frames<'_> {
    /// Makes the frames with contents free and empty, and all others reserved, whatever the memories held.
    pub fn init(&mut self) -> Answer {
        let (nodes, bytes, len) = (self.tree.len(), self.owners.len(), self.words.len());
        let (tree, owners, words) =
            (self.tree.as_mut_ptr(), self.owners.as_mut_ptr(), self.words.as_mut_ptr());
        // SAFETY: each pointer and length are those of one slice, which is lent exclusively.
        let code = unsafe { rf_frames_init(tree, nodes, owners, bytes, words, len, self.base) };
        answer(code, UNWRITTEN)
    }

    /// Gives the client the lowest free frame.
    #[inline]
    pub fn alloc(&mut self, client: u8) -> Answer {
        let (nodes, bytes, len) = (self.tree.len(), self.owners.len(), self.words.len());
        let (tree, owners, words) = (self.tree.as_mut_ptr(), self.owners.as_mut_ptr(), self.words.as_ptr());
        let mut addr = UNWRITTEN;
        // SAFETY: each pointer and length are those of one slice, which is lent exclusively; the other pointer is a local's.
        let code =
            unsafe { rf_frames_alloc(tree, nodes, owners, bytes, words, len, self.base, client, &mut addr) };
        answer(code, addr)
    }

    /// Gives the client the lowest run of `size` free frames whose first is a multiple of 2 to the power of `align_log2`.
    pub fn alloc_contiguous(&mut self, client: u8, size: usize, align_log2: usize) -> Answer {
        let (nodes, bytes, len) = (self.tree.len(), self.owners.len(), self.words.len());
        let (tree, owners, words) = (self.tree.as_mut_ptr(), self.owners.as_mut_ptr(), self.words.as_ptr());
        let mut addr = UNWRITTEN;
        // SAFETY: each pointer and length are those of one slice, which is lent exclusively; the other pointer is a local's.
        let code = unsafe {
            rf_frames_alloc_contiguous(
                tree, nodes, owners, bytes, words, len, self.base, client, size, align_log2, &mut addr,
            )
        };
        answer(code, addr)
    }

    /// The client gives back the frame at an address, which is cleared first.
    #[inline]
    pub fn dealloc(&mut self, client: u8, addr: usize) -> Answer {
        let (nodes, bytes, len) = (self.tree.len(), self.owners.len(), self.words.len());
        let (tree, owners, words) =
            (self.tree.as_mut_ptr(), self.owners.as_mut_ptr(), self.words.as_mut_ptr());
        // SAFETY: each pointer and length are those of one slice, which is lent exclusively.
        let code =
            unsafe { rf_frames_dealloc(tree, nodes, owners, bytes, words, len, self.base, client, addr) };
        answer(code, UNWRITTEN)
    }

    /// The client gives back the `count` frames from an address on, all or none, cleared first.
    pub fn dealloc_contiguous(&mut self, client: u8, addr: usize, count: usize) -> Answer {
        let (nodes, bytes, len) = (self.tree.len(), self.owners.len(), self.words.len());
        let (tree, owners, words) =
            (self.tree.as_mut_ptr(), self.owners.as_mut_ptr(), self.words.as_mut_ptr());
        let mut frame = UNWRITTEN;
        // SAFETY: each pointer and length are those of one slice, which is lent exclusively; the other pointer is a local's.
        let code = unsafe {
            rf_frames_dealloc_contiguous(
                tree, nodes, owners, bytes, words, len, self.base, client, addr, count, &mut frame,
            )
        };
        answer(code, frame)
    }

    /// Makes the frames from `from` up to `to` free and empty, if no client owns one.
    pub fn insert(&mut self, from: usize, to: usize) -> Answer {
        let (nodes, bytes, len) = (self.tree.len(), self.owners.len(), self.words.len());
        let (tree, owners, words) =
            (self.tree.as_mut_ptr(), self.owners.as_mut_ptr(), self.words.as_mut_ptr());
        let mut frame = UNWRITTEN;
        // SAFETY: each pointer and length are those of one slice, which is lent exclusively; the other pointer is a local's.
        let code = unsafe {
            rf_frames_insert(tree, nodes, owners, bytes, words, len, self.base, from, to, &mut frame)
        };
        answer(code, frame)
    }

    /// Reserves the frames from `from` up to `to`, if no client owns one.
    pub fn remove(&mut self, from: usize, to: usize) -> Answer {
        let (nodes, bytes, len) = (self.tree.len(), self.owners.len(), self.words.len());
        let (tree, owners, words) = (self.tree.as_mut_ptr(), self.owners.as_mut_ptr(), self.words.as_ptr());
        let mut frame = UNWRITTEN;
        // SAFETY: each pointer and length are those of one slice, which is lent exclusively; the other pointer is a local's.
        let code = unsafe {
            rf_frames_remove(tree, nodes, owners, bytes, words, len, self.base, from, to, &mut frame)
        };
        answer(code, frame)
    }

    /// Makes every frame of the client free, cleared first.
    pub fn release_all(&mut self, client: u8) -> Answer {
        let (nodes, bytes, len) = (self.tree.len(), self.owners.len(), self.words.len());
        let (tree, owners, words) =
            (self.tree.as_mut_ptr(), self.owners.as_mut_ptr(), self.words.as_mut_ptr());
        // SAFETY: each pointer and length are those of one slice, which is lent exclusively.
        let code =
            unsafe { rf_frames_release_all(tree, nodes, owners, bytes, words, len, self.base, client) };
        answer(code, UNWRITTEN)
    }

    /// Whether the memories are an allocator's and clean, and where not.
    pub fn check(&self) -> Answer {
        let (nodes, bytes, len) = (self.tree.len(), self.owners.len(), self.words.len());
        let (tree, owners, words) = (self.tree.as_ptr(), self.owners.as_ptr(), self.words.as_ptr());
        let mut at = UNWRITTEN;
        // SAFETY: each pointer and length are those of one slice, which is only read; the other pointer is a local's.
        let code = unsafe { rf_frames_check(tree, nodes, owners, bytes, words, len, self.base, &mut at) };
        answer(code, at)
    }

    /// The answer to a request. The number of frames that `Init` names is that of the contents here.
    pub fn ask(&mut self, request: Request) -> Answer {
        match request {
            Request::Init { .. } => self.init(),
            Request::Alloc { client } => self.alloc(client),
            Request::Run { client, size, align_log2 } => self.alloc_contiguous(client, size, align_log2),
            Request::Dealloc { client, addr } => self.dealloc(client, addr),
            Request::DeallocRun { client, addr, count } => self.dealloc_contiguous(client, addr, count),
            Request::Insert { from, to } => self.insert(from, to),
            Request::Remove { from, to } => self.remove(from, to),
            Request::ReleaseAll { client } => self.release_all(client),
            Request::Check => self.check(),
        }
    }
}
