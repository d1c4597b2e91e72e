//! Memory that is lent to the proved functions, with something on both sides that must not change.
use crate::rng::Rng;

/// How many words or bytes stand on each side.
pub const GUARD: usize = 8;

/// What a memory is made of.
pub trait Cell: Copy + PartialEq {
    /// Any one, of so many bits as it has.
    fn of_bits(bits: u64) -> Self;
}

impl Cell for u8 {
    fn of_bits(bits: u64) -> u8 {
        bits as u8
    }
}

impl Cell for u16 {
    fn of_bits(bits: u64) -> u16 {
        bits as u16
    }
}

impl Cell for u64 {
    fn of_bits(bits: u64) -> u64 {
        bits
    }
}

/// Words or bytes with something on both sides.
#[derive(Clone)]
pub struct Lent<T> {
    memory: Vec<T>,
    guards: Vec<T>,
}

impl<T: Cell> Lent<T> {
    /// These words, between others that are chosen at random.
    pub fn new(words: &[T], rng: &mut Rng) -> Lent<T> {
        let guards: Vec<T> = (0..2 * GUARD).map(|_| T::of_bits(rng.bits())).collect();
        Lent { memory: [&guards[..GUARD], words, &guards[GUARD..]].concat(), guards }
    }

    /// The lent words.
    pub fn words(&self) -> &[T] {
        &self.memory[GUARD..self.memory.len() - GUARD]
    }

    /// The lent words, to be changed.
    pub fn words_mut(&mut self) -> &mut [T] {
        let end = self.memory.len() - GUARD;
        &mut self.memory[GUARD..end]
    }

    /// So many words from the first lent one on: fewer than are lent, or some of those behind them too.
    pub fn sized(&self, len: usize) -> &[T] {
        &self.memory[GUARD..GUARD + len]
    }

    /// The same, to be changed.
    pub fn sized_mut(&mut self, len: usize) -> &mut [T] {
        &mut self.memory[GUARD..GUARD + len]
    }

    /// What stands around the words is as it was.
    pub fn is_kept_around(&self) -> Result<(), String> {
        let (before, after) = (&self.memory[..GUARD], &self.memory[self.memory.len() - GUARD..]);
        if before == &self.guards[..GUARD] && after == &self.guards[GUARD..] {
            return Ok(());
        }
        Err("memory was changed that was not lent".to_string())
    }

    /// The words are these, and what stands around them is as it was.
    pub fn same_as(&self, words: &[T]) -> Result<(), String> {
        self.is_kept_around()?;
        if self.words() == words {
            return Ok(());
        }
        match (0..words.len()).find(|&p| self.words()[p] != words[p]) {
            None => Err(format!("{} words are lent, and not {}", self.words().len(), words.len())),
            Some(p) => Err(format!("word {p} changed")),
        }
    }
}
