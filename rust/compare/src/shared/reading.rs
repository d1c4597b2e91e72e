//! Any memories read plainly: what each frame is by its bit and its byte, and what is not in order.
use super::memory::Memory;
use super::model::{contents_fit, fits, has_place, CLIENTS};
use super::request::{Answer, Call, Refusal, Request, State, NOBODY, WORDS};
use crate::request::Reason;
use crate::tree;

/// What every frame is.
pub fn states(tree: &[u16], owners: &[u8]) -> Vec<State> {
    let state = |(free, &byte): (bool, &u8)| match (free, byte) {
        (true, _) => State::Free,
        (false, client) if client < CLIENTS => State::Owned(client),
        _ => State::Reserved,
    };
    tree::free_frames(tree).into_iter().zip(owners).map(state).collect()
}

/// The first frame that is not in order: its byte is no client and not nobody, it is free and not
/// nobody's, or it is not reserved and has no place.
fn first_wrong(states: &[State], owners: &[u8], base: usize) -> Option<usize> {
    (0..states.len()).find(|&k| match states[k] {
        State::Reserved => owners[k] != NOBODY,
        State::Free => owners[k] != NOBODY || !has_place(base, k + 1),
        State::Owned(_) => !has_place(base, k + 1),
    })
}

/// The first frame without contents that is not reserved.
fn first_beyond(states: &[State], words: &[u64]) -> Option<usize> {
    (words.len() / WORDS..states.len()).find(|&k| states[k] != State::Reserved)
}

/// The first frame that is free and not empty.
fn first_dirty(states: &[State], words: &[u64]) -> Option<usize> {
    let contents = words.chunks_exact(WORDS).zip(states);
    contents
        .into_iter()
        .position(|(words, &state)| state == State::Free && words.iter().any(|&word| word != 0))
}

/// What the check answers: of the things that are not in order the first, and where it is.
pub fn check(memory: &Memory, call: &Call<Request>) -> Answer {
    let words = memory.words.as_ref().map(|words| words.words());
    if words.is_some() {
        contents_fit(call.sizes)?;
    }
    fits(call.sizes, call.base)?;
    let (tree, owners) = (memory.tree.words(), memory.owners.words());
    let states = states(tree, owners);
    let found = |reason, at: Option<usize>| at.map_or(Ok(()), |_| Err(Refusal { reason, at }));
    found(Reason::Corrupt, tree::first_lie(tree))?;
    found(Reason::Wrong, first_wrong(&states, owners, call.base))?;
    if let Some(words) = words {
        found(Reason::Beyond, first_beyond(&states, words))?;
        found(Reason::Dirty, first_dirty(&states, words))?;
    }
    Ok(None)
}
