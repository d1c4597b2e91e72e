use core::ops::Range;
use core::option::Option;
use core::marker::Sized;

/// Allocator that uses a bitmap to track resource usage (0: allocated, 1: free).
pub trait BitmapAllocator {
    /// The bitmap has a total of CAP bits, numbered from 0 to CAP-1 inclusively.
    fn cap() -> usize;

    // cap_not_overflow
    /// The default value. Workaround for `const fn new() -> Self`.
    fn default() -> Self where Self: Sized;

    /// Allocate a free bit.
    fn alloc(&mut self) -> Option<usize>;

    /// Allocates a contiguous block of `size` bits with specified `align_log2` alignment.
    /// Returns `Some(base_index)` if successful, `None` if no suitable block is found.
    fn alloc_contiguous(&mut self, size: usize, align_log2: usize) -> Option<usize>;

    /// Free an allocated bit.
    fn dealloc(&mut self, key: usize);

    /// Mark a range as free.
    fn insert(&mut self, range: Range<usize>);
}
