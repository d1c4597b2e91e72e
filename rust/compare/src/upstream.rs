//! Upstream's bitmap, asked as the others are.
use crate::model::Model;
use crate::request::{Answer, Reason, Request};
pub use oracle::bitmap_allocator::bitmap_impl::{
    BitAlloc, BitAlloc16, BitAlloc1M, BitAlloc256, BitAlloc4K, BitAlloc64K, BitAllocCascade16, BitAllocView,
};

/// One level more than upstream has: 16 million frames.
pub type BitAlloc16M = BitAllocCascade16<BitAlloc1M>;

/// Reading the frames of upstream's bitmap a word at a time.
pub trait Leaves: BitAlloc + Copy {
    /// How many words have frames.
    const LEAVES: usize;
    /// The word of the frames from 16 p on.
    fn leaf(&self, p: usize) -> u16;
    /// Takes over the frames of so many words, and makes the summaries agree.
    fn load_leaves(&mut self, leaves: &[u16]);
}

impl Leaves for BitAlloc16 {
    const LEAVES: usize = 1;
    fn leaf(&self, _: usize) -> u16 {
        self.bits
    }
    fn load_leaves(&mut self, leaves: &[u16]) {
        self.bits = leaves[0];
    }
}

impl<T: Leaves> Leaves for BitAllocCascade16<T> {
    const LEAVES: usize = 16 * T::LEAVES;
    fn leaf(&self, p: usize) -> u16 {
        self.sub[p / T::LEAVES].leaf(p % T::LEAVES)
    }
    fn load_leaves(&mut self, leaves: &[u16]) {
        self.bitset.bits = 0;
        for (i, part) in leaves.chunks_exact(T::LEAVES).enumerate() {
            self.sub[i].load_leaves(part);
            self.bitset.bits |= u16::from(self.sub[i].any()) << i;
        }
    }
}

/// A bitmap with every frame taken, on the heap.
pub fn new<T: BitAlloc>() -> Box<T> {
    Box::new(T::default())
}

/// Whether upstream's contract covers a request, given which frames are free.
pub fn covers(request: Request, model: &Model) -> bool {
    let cap = model.free.len();
    match request {
        Request::Alloc => true,
        Request::Next(k) => k < cap,
        Request::Run { size, align_log2 } => 0 < size && size <= cap && align_log2 < 64,
        Request::Dealloc(k) => k < cap && !model.free[k],
        Request::Insert(from, to) | Request::Remove(from, to) => from < to && to <= cap,
    }
}

/// Whether a request may meet finding F1: upstream refuses an alignment beyond the capacity, though 0 is
/// a multiple of everything.
pub fn is_f1(request: Request, cap: usize) -> bool {
    matches!(request, Request::Run { align_log2, .. } if align_log2 < 64 && cap < 1 << align_log2)
}

/// The answer to a request.
pub fn ask<T: BitAlloc>(bitmap: &mut T, request: Request) -> Answer {
    let frame = |found: Option<usize>| found.ok_or(Reason::NoRoom).into();
    match request {
        Request::Alloc => frame(bitmap.alloc()),
        Request::Next(k) => frame(bitmap.next(k)),
        Request::Run { size, align_log2 } => frame(bitmap.alloc_contiguous(size, align_log2)),
        Request::Dealloc(k) => {
            bitmap.dealloc(k);
            Answer::Done
        }
        Request::Insert(from, to) => {
            bitmap.insert(from..to);
            Answer::Done
        }
        Request::Remove(from, to) => {
            bitmap.remove(from..to);
            Answer::Done
        }
    }
}
