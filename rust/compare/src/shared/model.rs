//! A plain list of what each frame is, and a plain list of the words in them, which answer as the
//! documents say. The first reason that applies is the answer: memories that do not fit, the base, the
//! client, the numbers, and then what the frames are.
use super::request::{Answer, Call, Change, Look, Refusal, Request, Sizes, State, FRAME, WORDS};
use crate::model::lowest_run;
use crate::request::Reason;
use crate::tree;
use std::ops::Range;

/// Clients are numbered from 0 up to this.
pub const CLIENTS: u8 = 64;
/// What `owner` says of a frame that no client owns.
const SAYS_FREE: usize = 64;
const SAYS_RESERVED: usize = 65;

/// What every frame is, and the contents of the first ones, where contents are kept.
#[derive(Clone)]
pub struct Model {
    pub frames: Vec<State>,
    pub contents: Option<Vec<u64>>,
}

impl Model {
    /// How many frames have contents: all, where none are kept.
    pub fn backed(&self) -> usize {
        self.contents.as_ref().map_or(self.frames.len(), |words| words.len() / WORDS)
    }

    /// The answer to a request, which changes nothing yet.
    pub fn answer(&self, call: &Call<Request>) -> Answer {
        if self.contents.is_some() {
            contents_fit(call.sizes)?;
        }
        fits(call.sizes, call.base)?;
        call.request.client().map_or(Ok(()), known)?;
        let base = call.base;
        match call.request {
            Request::Init { n } => self.init(base, n),
            Request::Alloc { .. } => self.run(base, 1, 0),
            Request::Run { size: 0, .. } => Err(Reason::Empty.into()),
            Request::Run { size, align_log2, .. } => self.run(base, size, align_log2),
            Request::Dealloc { client, addr } => self.dealloc(client, number(base, addr)?),
            Request::DeallocRun { client, addr, count } => {
                self.dealloc_run(client, number(base, addr)?, count)
            }
            Request::Insert { from, to } => self.insert(base, from, to),
            Request::Remove { from, to } => self.range(from, to),
            Request::ReleaseAll { client } => self.release(client),
            Request::Check => Ok(None),
        }
    }

    /// The answer to a question.
    pub fn look(&self, call: &Call<Look>) -> Answer {
        let base = call.base;
        match call.request {
            Look::Fid { addr } => aligned(base).and_then(|()| number(base, addr)).map(Some),
            Look::Paddr { k } => aligned(base).and_then(|()| address(base, k)).map(Some),
            Look::Owner { k } => {
                fits(call.sizes, base)?;
                self.frames.get(k).map(|&state| Some(says(state))).ok_or_else(|| Reason::Outside.into())
            }
            Look::OwnedCount { client } => {
                fits(call.sizes, base)?;
                known(client)?;
                Ok(Some(self.frames.iter().filter(|&&state| state == State::Owned(client)).count()))
            }
        }
    }

    /// Makes a change, clears what becomes free, and says between which frames all of it lies.
    pub fn apply(&mut self, change: Change) -> Range<usize> {
        match change {
            Change::Start(n) => {
                let (n, all) = (self.started(n), self.frames.len());
                self.set(0..n, State::Free);
                self.set(n..all, State::Reserved);
                0..all
            }
            Change::Range { from, to, state } => {
                self.set(from..to, state);
                from..to
            }
            Change::Release(client) => self.set_free_all_of(client),
        }
    }

    /// Makes frames this, and clears them if they become free.
    fn set(&mut self, frames: Range<usize>, state: State) {
        self.frames[frames.clone()].fill(state);
        if let (Some(words), State::Free) = (&mut self.contents, state) {
            words[WORDS * frames.start..WORDS * frames.end].fill(0);
        }
    }

    /// Makes every frame of a client free.
    fn set_free_all_of(&mut self, client: u8) -> Range<usize> {
        let is_its = |state: &State| *state == State::Owned(client);
        let first = match self.frames.iter().position(is_its) {
            Some(first) => first,
            None => return 0..0,
        };
        let last = self.frames.iter().rposition(is_its).unwrap_or(first);
        for k in first..=last {
            if is_its(&self.frames[k]) {
                self.set(k..k + 1, State::Free);
            }
        }
        first..last + 1
    }

    /// How many frames are free at the start: as many as are asked for, or as have contents.
    fn started(&self, n: usize) -> usize {
        if self.contents.is_some() {
            self.backed()
        } else {
            n
        }
    }

    /// Whether so many frames can be free at the start.
    fn init(&self, base: usize, n: usize) -> Answer {
        let n = self.started(n);
        if n > self.frames.len() {
            Err(Reason::TooMany.into())
        } else if !has_place(base, n) {
            Err(Reason::TooHigh.into())
        } else {
            Ok(None)
        }
    }

    /// The address of the lowest run of free frames. A free frame without a place is none that an allocator has.
    fn run(&self, base: usize, size: usize, align_log2: usize) -> Answer {
        let free = self.frames.iter().map(|&state| state == State::Free);
        let from = lowest_run(free, size, align_log2).ok_or(Reason::NoRoom)?;
        if !has_place(base, from + size) {
            return Err(Reason::Corrupt.into());
        }
        Ok(Some(base + FRAME * from))
    }

    /// Whether the client may give back frame k.
    fn dealloc(&self, client: u8, k: usize) -> Answer {
        let state = *self.frames.get(k).ok_or(Reason::Outside)?;
        self.may_free(client, k, state).map_err(|reason| reason.into())
    }

    /// Whether the client may give back the frames from k on; the first that it may not is named.
    fn dealloc_run(&self, client: u8, k: usize, count: usize) -> Answer {
        if count == 0 {
            return Err(Reason::Empty.into());
        }
        let end = k.checked_add(count).ok_or(Reason::Outside)?;
        let frames = self.frames.get(k..end).ok_or(Reason::Outside)?;
        let owned = frames.iter().position(|&state| state != State::Owned(client));
        match owned {
            Some(away) => {
                let reason = self.may_free(client, k + away, frames[away]).err();
                Err(Refusal { reason: reason.expect("not the client's"), at: Some(k + away) })
            }
            None => self.may_free(client, end - 1, frames[count - 1]).map_err(|reason| reason.into()),
        }
    }

    /// Whether the client may give back frame k, which is in this state.
    fn may_free(&self, client: u8, k: usize, state: State) -> Result<Option<usize>, Reason> {
        match state {
            State::Free => Err(Reason::NotTaken),
            State::Owned(owner) if owner == client && k < self.backed() => Ok(None),
            State::Owned(owner) if owner == client => Err(Reason::Corrupt),
            _ => Err(Reason::NotYours),
        }
    }

    /// Whether there is such a range, in which no client owns a frame.
    fn range(&self, from: usize, to: usize) -> Answer {
        if from == to {
            return Err(Reason::Empty.into());
        }
        if to < from {
            return Err(Reason::Reversed.into());
        }
        let frames = self.frames.get(from..to).ok_or(Reason::Outside)?;
        match frames.iter().position(|state| matches!(state, State::Owned(_))) {
            Some(away) => Err(Refusal { reason: Reason::Taken, at: Some(from + away) }),
            None => Ok(None),
        }
    }

    /// Whether such a range can be made free.
    fn insert(&self, base: usize, from: usize, to: usize) -> Answer {
        self.range(from, to)?;
        if !has_place(base, to) {
            Err(Reason::TooHigh.into())
        } else if to > self.backed() {
            Err(Reason::Beyond.into())
        } else {
            Ok(None)
        }
    }

    /// Whether all frames of a client can be made free.
    fn release(&self, client: u8) -> Answer {
        if self.frames[self.backed()..].contains(&State::Owned(client)) {
            return Err(Reason::Corrupt.into());
        }
        Ok(None)
    }
}

/// What `owner` says of a frame in this state.
pub fn says(state: State) -> usize {
    match state {
        State::Free => SAYS_FREE,
        State::Reserved => SAYS_RESERVED,
        State::Owned(client) => usize::from(client),
    }
}

/// The contents are those of whole frames, of as many as there are bytes of owners at most.
pub fn contents_fit(sizes: Sizes) -> Result<(), Refusal> {
    if sizes.words % WORDS != 0 || sizes.words / WORDS > sizes.owners {
        return Err(Reason::Unbacked.into());
    }
    Ok(())
}

/// The words are a full tree, there is a byte for each frame, and the base is one.
pub fn fits(sizes: Sizes, base: usize) -> Result<(), Refusal> {
    let frames = tree::frames(sizes.tree).ok_or(Reason::NotFull)?;
    if sizes.owners != frames {
        return Err(Reason::Unmatched.into());
    }
    aligned(base)
}

/// The base is a multiple of a frame.
fn aligned(base: usize) -> Result<(), Refusal> {
    if base % FRAME != 0 {
        return Err(Reason::BadBase.into());
    }
    Ok(())
}

/// There is such a client.
fn known(client: u8) -> Result<(), Refusal> {
    if client >= CLIENTS {
        return Err(Reason::NoClient.into());
    }
    Ok(())
}

/// The number of the frame at an address.
fn number(base: usize, addr: usize) -> Result<usize, Refusal> {
    let away = addr.checked_sub(base).ok_or(Reason::Below)?;
    if away % FRAME != 0 {
        return Err(Reason::NotAtFrame.into());
    }
    Ok(away / FRAME)
}

/// Where frame k would begin, in numbers without a bound.
fn begins(base: usize, k: usize) -> u128 {
    base as u128 + FRAME as u128 * k as u128
}

/// The address of frame k.
fn address(base: usize, k: usize) -> Result<usize, Refusal> {
    usize::try_from(begins(base, k)).map_err(|_| Reason::TooHigh.into())
}

/// The frames below `end` end at 2^64 - 1 or before.
pub fn has_place(base: usize, end: usize) -> bool {
    begins(base, end) <= usize::MAX as u128
}

/// How many frames have a place from a base on.
pub fn places(base: usize) -> usize {
    ((usize::MAX as u128 - base as u128) / FRAME as u128) as usize
}
