//! The limit of speed: free frames on a stack, with no order, no runs and no test of what is given back.

pub struct Stack {
    free: Vec<u32>,
}

impl Stack {
    /// These frames, of which the first is taken first.
    pub fn new(free: impl DoubleEndedIterator<Item = u32>) -> Stack {
        Stack { free: free.rev().collect() }
    }

    #[inline(never)]
    pub fn alloc(&mut self) -> Option<usize> {
        self.free.pop().map(|frame| frame as usize)
    }

    #[inline(never)]
    pub fn dealloc(&mut self, k: usize) {
        self.free.push(k as u32);
    }

    pub fn count_free(&self) -> usize {
        self.free.len()
    }
}
