//! The same tree in good plain Rust: sixteen children to a word, all words in one slice, changed in
//! place. It is what the proved library is held to for speed, and it has no proof.
//!
//! Bits are found by counting zeros; a run's window is probed from its end, and left behind its last
//! taken frame; runs of at most sixteen frames are found in a word, all starts at once.
//!
//! No function is inlined into its caller, as none of the proved archive can be.

use std::ops::DerefMut;

/// A tree of a size that it was made with, in words that are its own or lent.
pub struct Rival<W = Vec<u16>> {
    pub words: W,
}

impl Rival {
    /// A tree of 16 to the power of `depth` frames, at most 7, all taken.
    pub fn new(depth: u32) -> Rival {
        Rival { words: vec![0; (16_usize.pow(depth) - 1) / 15] }
    }
}

impl<W: DerefMut<Target = [u16]>> Rival<W> {
    fn cap(&self) -> usize {
        15 * self.words.len() + 1
    }

    /// The words whose bits are frames.
    fn leaves(&self) -> &[u16] {
        &self.words[(self.words.len() - 1) / 16..]
    }

    /// Takes the lowest free frame.
    #[inline(never)]
    pub fn alloc(&mut self) -> Option<usize> {
        self.take_lowest()
    }

    /// The same, for a caller that is one call itself.
    #[inline(always)]
    pub fn take_lowest(&mut self) -> Option<usize> {
        let words = &mut self.words[..];
        let (mut node, mut word) = (0, words[0]);
        if word == 0 {
            return None;
        }
        loop {
            let child = 16 * node + 1 + word.trailing_zeros() as usize;
            if child >= words.len() {
                words[node] = word & (word - 1);
                if words[node] == 0 {
                    self.clear_above(node);
                }
                return Some(child - self.words.len());
            }
            node = child;
            word = words[node];
        }
    }

    /// Clears the bit of a word that became 0, and those above whose words become 0 by that.
    fn clear_above(&mut self, mut node: usize) {
        while node > 0 {
            let bit = node - 1;
            node = bit / 16;
            self.words[node] &= !(1 << (bit % 16));
            if self.words[node] != 0 {
                return;
            }
        }
    }

    /// Frees frame k; false if it is free or there is none.
    #[inline(never)]
    pub fn dealloc(&mut self, k: usize) -> bool {
        self.set_free(k)
    }

    /// The same, for a caller that is one call itself.
    #[inline(always)]
    pub fn set_free(&mut self, k: usize) -> bool {
        if k >= self.cap() {
            return false;
        }
        let bit = self.words.len() + k - 1;
        let word = self.words[bit / 16];
        if word >> (bit % 16) & 1 == 1 {
            return false;
        }
        self.words[bit / 16] = word | 1 << (bit % 16);
        if word == 0 {
            self.set_above(bit / 16);
        }
        true
    }

    /// Sets the bit of a word that was 0, and those above whose words were 0.
    fn set_above(&mut self, mut node: usize) {
        while node > 0 {
            let bit = node - 1;
            node = bit / 16;
            let word = self.words[node];
            self.words[node] = word | 1 << (bit % 16);
            if word != 0 {
                return;
            }
        }
    }

    /// The lowest free frame's node below a node that has one.
    fn descend(&self, mut node: usize) -> usize {
        while let Some(word) = self.words.get(node) {
            node = 16 * node + 1 + word.trailing_zeros() as usize;
        }
        node
    }

    /// The lowest free frame from k on: up until a word has a bit behind the way, and down from there.
    fn next(&self, k: usize) -> Option<usize> {
        let mut node = self.words.len() + k;
        let mut end = 16 * self.words.len() + 1;
        while node < end {
            let bit = node - 1;
            let rest = self.words[bit / 16] >> (bit % 16);
            if rest != 0 {
                let found = self.descend(node + rest.trailing_zeros() as usize);
                return Some(found - self.words.len());
            }
            node = bit / 16 + 1;
            end = (end - 1) / 16;
        }
        None
    }

    /// Takes the lowest run of `size` free frames at a multiple of 2 to the power of `align_log2`.
    #[inline(never)]
    pub fn alloc_contiguous(&mut self, size: usize, align_log2: usize) -> Option<usize> {
        let base = match size {
            0 => None,
            1..=16 => self.short_run(size, align_log2),
            _ => self.long_run(size, align_log2),
        }?;
        self.change(base, base + size, false);
        Some(base)
    }

    /// A run of more than sixteen frames, a window at a time.
    fn long_run(&self, size: usize, align_log2: usize) -> Option<usize> {
        let align = 1 << align_log2.min(60);
        let mut k = 0;
        while k < self.cap() {
            let free = self.next(k)?;
            let base = (free + align - 1) & !(align - 1);
            if size > self.cap() || base > self.cap() - size {
                return None;
            }
            match self.last_taken(base, base + size) {
                None => return Some(base),
                Some(taken) => k = taken + 1,
            }
        }
        None
    }

    /// The last taken frame of a window of more than sixteen, a word at a time from its end.
    fn last_taken(&self, from: usize, to: usize) -> Option<usize> {
        let (low, high) = (from / 16, (to - 1) / 16);
        let leaves = &self.leaves()[low..=high];
        let place = |p: usize, taken: u16| 16 * (low + p) + 15 - taken.leading_zeros() as usize;
        let last = high - low;
        let behind = !leaves[last] & (u16::MAX >> (15 - (to - 1) % 16));
        if behind != 0 {
            return Some(place(last, behind));
        }
        if let Some(p) = last_not_full(&leaves[1..last]) {
            return Some(place(p + 1, !leaves[p + 1]));
        }
        let before = !leaves[0] & (u16::MAX << (from % 16));
        (before != 0).then(|| place(0, before))
    }

    /// A run of at most sixteen frames: all its starts in a word at once, for each word with a free frame.
    fn short_run(&self, size: usize, align_log2: usize) -> Option<usize> {
        let leaves = self.leaves();
        let starts = aligned_starts(align_log2);
        let step = 1 << (align_log2.clamp(4, 60) - 4);
        let mut p = 0;
        while p < leaves.len() {
            if leaves[p] == 0 {
                p = (self.next(16 * p)? / 16 + step - 1) & !(step - 1);
                continue;
            }
            let behind = leaves.get(p + 1).map_or(0, |&word| u32::from(word));
            let found = run_starts(u32::from(leaves[p]) | behind << 16, size) & starts;
            if found != 0 {
                return Some(16 * p + found.trailing_zeros() as usize);
            }
            p += step;
        }
        None
    }

    /// Makes the frames from `from` up to `to` free; false if there are none such.
    #[inline(never)]
    pub fn insert(&mut self, from: usize, to: usize) -> bool {
        from < to && to <= self.cap() && self.change(from, to, true)
    }

    /// Makes the frames from `from` up to `to` taken; false if there are none such.
    #[inline(never)]
    pub fn remove(&mut self, from: usize, to: usize) -> bool {
        from < to && to <= self.cap() && self.change(from, to, false)
    }

    /// Changes frames, and then the summaries level by level: only the words at both ends need a look.
    fn change(&mut self, from: usize, to: usize, free: bool) -> bool {
        let (mut low, mut high) = (self.words.len() + from, self.words.len() + to - 1);
        self.paint(low, high, free);
        loop {
            low = (low - 1) / 16;
            high = (high - 1) / 16;
            if high == 0 {
                return true;
            }
            if high - low > 1 {
                self.paint(low + 1, high - 1, free);
            }
            self.note(low);
            self.note(high);
        }
    }

    /// Gives one value to the bits of the nodes from `low` to `high`.
    fn paint(&mut self, low: usize, high: usize, free: bool) {
        let (first, last) = ((low - 1) / 16, (high - 1) / 16);
        let (from, to) = (u16::MAX << ((low - 1) % 16), u16::MAX >> (15 - (high - 1) % 16));
        if first == last {
            return self.mask(first, from & to, free);
        }
        self.mask(first, from, free);
        self.words[first + 1..last].fill(if free { u16::MAX } else { 0 });
        self.mask(last, to, free);
    }

    /// Sets or clears the bits of a mask in a word.
    fn mask(&mut self, p: usize, mask: u16, free: bool) {
        let word = &mut self.words[p];
        *word = if free { *word | mask } else { *word & !mask };
    }

    /// Makes the bit of a word tell whether the word is 0.
    fn note(&mut self, p: usize) {
        let free = self.words[p] != 0;
        self.mask((p - 1) / 16, 1 << ((p - 1) % 16), free);
    }

    /// How many frames are free.
    #[inline(never)]
    pub fn count_free(&self) -> usize {
        self.leaves().iter().map(|word| word.count_ones()).sum::<u32>() as usize
    }

    /// The lowest word with a bit that does not tell whether the word below it is 0.
    #[inline(never)]
    pub fn check(&self) -> Option<usize> {
        let summaries = &self.words[..(self.words.len() - 1) / 16];
        let children = self.words[1..].chunks_exact(16);
        summaries.iter().zip(children).position(|(&word, children)| word != summary(children))
    }
}

/// The last word that is not full. Inlined, its loop would lack registers.
#[inline(never)]
fn last_not_full(words: &[u16]) -> Option<usize> {
    words.iter().rposition(|&word| word != u16::MAX)
}

/// The bits that tell which of sixteen words are not 0.
fn summary(children: &[u16]) -> u16 {
    children.iter().enumerate().fold(0, |word, (i, &child)| word | u16::from(child != 0) << i)
}

/// The places of a word that are multiples of an alignment, if the word itself stands at one.
fn aligned_starts(align_log2: usize) -> u32 {
    [0xffff, 0x5555, 0x1111, 0x0101, 0x0001][align_log2.min(4)]
}

/// The bits from which on `size` bits are set, by doubling the length that is known of each.
fn run_starts(bits: u32, size: usize) -> u32 {
    let (mut starts, mut known) = (bits, 1);
    while known < size {
        let more = known.min(size - known);
        starts &= starts >> more;
        known += more;
    }
    starts
}

#[cfg(test)]
mod tests {
    use super::Rival;
    use crate::model::Model;
    use crate::request::{Answer, Request};
    use crate::rng::Rng;
    use crate::{random, tree};

    /// Asks the rival, with no reason where it refuses.
    fn ask(rival: &mut Rival, request: Request) -> Option<Answer> {
        let done = |is: bool| is.then_some(Answer::Done);
        match request {
            Request::Alloc => rival.alloc().map(Answer::Frame),
            Request::Next(k) => (k < rival.cap()).then(|| rival.next(k)).flatten().map(Answer::Frame),
            Request::Run { size, align_log2 } => rival.alloc_contiguous(size, align_log2).map(Answer::Frame),
            Request::Dealloc(k) => done(rival.dealloc(k)),
            Request::Insert(from, to) => done(rival.insert(from, to)),
            Request::Remove(from, to) => done(rival.remove(from, to)),
        }
    }

    #[test]
    fn answers_as_the_model() {
        for depth in 1..=3 {
            let mut rng = Rng::new(u64::from(depth));
            let (mut rival, mut model) = (Rival::new(depth), Model::new(16_usize.pow(depth)));
            let mut expected = vec![0; rival.words.len()];
            for _ in 0..20_000 {
                let request = random::request(&mut rng, model.free.len());
                let answer = Some(model.ask(request)).filter(|answer| !matches!(answer, Answer::Refused(_)));
                assert_eq!(ask(&mut rival, request), answer, "{request:?}");
                tree::renew(&mut expected, &model.free, 0, model.free.len());
                assert_eq!(rival.words, expected, "{request:?}");
            }
            assert_eq!(rival.count_free(), model.free.iter().filter(|&&free| free).count());
            assert_eq!(rival.check(), None);
            rival.words[0] ^= 1;
            assert_eq!(rival.check(), if depth > 1 { Some(0) } else { None });
        }
    }
}
