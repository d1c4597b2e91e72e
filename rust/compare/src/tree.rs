//! The layout of a tree in its words, read and written plainly: bit i of word n speaks for node
//! 16 n + 1 + i; a node is a word, or, from the number of words on, a frame.
use std::ops::Range;

/// The words whose bits are frames.
pub fn leaves(words: usize) -> Range<usize> {
    (words - 1) / 16..words
}

/// How many frames so many words have, if they are a full tree.
pub fn frames(words: usize) -> Option<usize> {
    (1..=15).map(|depth| 16_usize.pow(depth)).find(|&frames| (frames - 1) / 15 == words)
}

/// Sixteen bits as a word.
fn pack(bits: impl Iterator<Item = bool>) -> u16 {
    bits.take(16).enumerate().fold(0, |word, (i, bit)| word | u16::from(bit) << i)
}

/// Writes the words of the frames from `from` up to `to`, and all summaries above them.
pub fn renew(words: &mut [u16], free: &[bool], from: usize, to: usize) {
    let first = leaves(words.len()).start;
    let (mut low, mut high) = (first + from / 16, first + (to - 1) / 16);
    for p in low..=high {
        words[p] = pack(free[16 * (p - first)..].iter().copied());
    }
    while high > 0 {
        low = (low - 1) / 16;
        high = (high - 1) / 16;
        for p in low..=high {
            words[p] = pack(words[16 * p + 1..].iter().map(|&word| word != 0));
        }
    }
}

/// Which frames are free, by the words alone.
pub fn free_frames(words: &[u16]) -> Vec<bool> {
    let bits = |word: u16| (0..16).map(move |i| word >> i & 1 == 1);
    words[leaves(words.len())].iter().copied().flat_map(bits).collect()
}

/// The lowest word with a bit that does not tell whether the word below it is 0.
pub fn first_lie(words: &[u16]) -> Option<usize> {
    let lies = |n: usize| (words[(n - 1) / 16] >> ((n - 1) % 16) & 1 == 1) != (words[n] != 0);
    (1..words.len()).find(|&n| lies(n)).map(|n| (n - 1) / 16)
}
