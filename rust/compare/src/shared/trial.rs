//! Ours and the model side by side: each request is put to both, and after it the answers, the memories,
//! what each frame is and what clients own are compared.
use super::memory::Memory;
use super::model::{says, Model, CLIENTS};
use super::request::{Answer, Call, Change, Look, Request, State, FRAME, NOBODY, WORDS};
use crate::report::grouped;
use crate::rng::Rng;
use crate::tree;
use std::fmt;
use std::ops::Range;

/// Up to so many frames all of them are looked at after each request; above, those around the change.
const ALL_FRAMES: usize = 256;
/// How many frames are looked at on both sides of a change.
const AROUND: usize = 40;
/// Up to so many frames the check is run after each request; above, now and then.
const CHECKED: usize = 4096;
/// What was compared.
#[derive(Default)]
pub struct Tally {
    requests: u64,
    refused: u64,
    /// Bit i is 1 if the reason of code i was met.
    reasons: u32,
}

impl Tally {
    /// One answer more.
    pub fn add(&mut self, answer: Answer) {
        self.requests += 1;
        if let Err(refusal) = answer {
            self.refused += 1;
            self.reasons |= 1 << refusal.reason as u32;
        }
    }
}

impl fmt::Display for Tally {
    fn fmt(&self, f: &mut fmt::Formatter) -> fmt::Result {
        let [requests, refused] = [self.requests, self.refused].map(grouped);
        write!(f, "{requests} requests, {refused} of them refused")?;
        match self.reasons.count_ones() {
            0 => Ok(()),
            1 => write!(f, ", all for one reason"),
            reasons => write!(f, ", for {reasons} reasons"),
        }
    }
}

/// The memories that the model's frames make.
#[derive(Clone)]
struct Expected {
    free: Vec<bool>,
    tree: Vec<u16>,
    owners: Vec<u8>,
}

impl Expected {
    /// Brings some frames along.
    fn renew(&mut self, frames: &[State], changed: Range<usize>) {
        if changed.is_empty() {
            return;
        }
        for k in changed.clone() {
            self.free[k] = frames[k] == State::Free;
            self.owners[k] = if let State::Owned(client) = frames[k] { client } else { NOBODY };
        }
        tree::renew(&mut self.tree, &self.free, changed.start, changed.end);
    }
}

/// The two, in the same state.
#[derive(Clone)]
pub struct Trial {
    pub base: usize,
    pub model: Model,
    memory: Memory,
    expected: Expected,
}

impl Trial {
    /// So many frames, of which the first are free: as many as are asked for, or as there are contents of,
    /// all made in memories that held something else.
    pub fn new(frames: usize, base: usize, n: usize, contents: bool, rng: &mut Rng) -> Result<Trial, String> {
        let tree: Vec<u16> = (0..(frames - 1) / 15).map(|_| rng.bits() as u16).collect();
        let owners: Vec<u8> = (0..frames).map(|_| rng.bits() as u8).collect();
        let words: Option<Vec<u64>> =
            if contents { Some((0..WORDS * n).map(|_| rng.bits()).collect()) } else { None };
        let mut trial = Trial {
            base,
            memory: Memory::new(&tree, &owners, words.as_deref(), rng),
            expected: Expected { free: vec![false; frames], tree: vec![0; tree.len()], owners },
            model: Model { frames: vec![State::Reserved; frames], contents: words },
        };
        trial.ask(Request::Init { n }, &mut Tally::default())?;
        Ok(trial)
    }

    /// Puts the two into the state of another trial of the same size, without contents.
    pub fn copy_from(&mut self, other: &Trial) {
        self.model.frames.copy_from_slice(&other.model.frames);
        self.expected.free.copy_from_slice(&other.expected.free);
        self.expected.tree.copy_from_slice(&other.expected.tree);
        self.expected.owners.copy_from_slice(&other.expected.owners);
        self.memory.tree.words_mut().copy_from_slice(other.memory.tree.words());
        self.memory.owners.words_mut().copy_from_slice(other.memory.owners.words());
    }

    /// The address of frame k, whatever k is.
    pub fn addr(&self, k: usize) -> usize {
        self.base.wrapping_add(FRAME.wrapping_mul(k))
    }

    /// A call with the memories as they are.
    pub fn call<R>(&self, request: R) -> Call<R> {
        self.memory.call(self.base, request)
    }

    /// One request with the memories as they are, and the comparison after it.
    pub fn ask(&mut self, request: Request, tally: &mut Tally) -> Result<Option<Change>, String> {
        self.step(&self.call(request), tally)
    }

    /// One call, and the comparison after it; it says what changed.
    pub fn step(&mut self, call: &Call<Request>, tally: &mut Tally) -> Result<Option<Change>, String> {
        self.compare(call, tally).map_err(|fault| format!("{call:?}: {fault}"))
    }

    /// Puts a request to both, and compares the answers and all that may have changed.
    fn compare(&mut self, call: &Call<Request>, tally: &mut Tally) -> Result<Option<Change>, String> {
        let answer = self.model.answer(call);
        tally.add(answer);
        let told = self.memory.ask(call);
        if told != answer {
            return Err(format!("ours answers {told:?}, and the model {answer:?}"));
        }
        let change = call.change(answer);
        if let Some(Change::Range { from, to, state: State::Owned(_) }) = change {
            self.are_empty(from..to)?;
        }
        let changed = change.map_or(0..0, |change| self.model.apply(change));
        self.expected.renew(&self.model.frames, changed.clone());
        self.memory.same_as(&self.expected.tree, &self.expected.owners)?;
        let around = self.around(&changed);
        self.same_contents(around.clone())?;
        self.same_owners(around)?;
        if self.model.frames.len() <= CHECKED {
            self.same_count(call.request.client().unwrap_or(0))?;
            self.in_order()?;
        }
        Ok(change)
    }

    /// The frames to compare after a change.
    fn around(&self, changed: &Range<usize>) -> Range<usize> {
        let all = self.model.frames.len();
        if all <= ALL_FRAMES {
            0..all
        } else if changed.is_empty() {
            0..0
        } else {
            changed.start.saturating_sub(AROUND)..all.min(changed.end + AROUND)
        }
    }

    /// The words of these frames, as ours has them.
    fn words(&self, frames: Range<usize>) -> &[u64] {
        match &self.memory.words {
            None => &[],
            Some(words) => &words.words()[WORDS * frames.start..WORDS * frames.end],
        }
    }

    /// Frames that are handed out are all zero.
    fn are_empty(&self, frames: Range<usize>) -> Result<(), String> {
        if self.words(frames).iter().all(|&word| word == 0) {
            return Ok(());
        }
        Err("a frame is handed out that is not empty".to_string())
    }

    /// Ours has the model's words in these frames.
    fn same_contents(&self, frames: Range<usize>) -> Result<(), String> {
        if let Some(contents) = &self.model.contents {
            let backed = self.model.backed();
            let frames = frames.start.min(backed)..frames.end.min(backed);
            if self.words(frames.clone()) != &contents[WORDS * frames.start..WORDS * frames.end] {
                return Err(format!("the words of the frames {frames:?} are not the model's"));
            }
        }
        Ok(())
    }

    /// Ours says of these frames what the model has.
    fn same_owners(&self, frames: Range<usize>) -> Result<(), String> {
        for k in frames {
            let told = self.memory.look(&self.call(Look::Owner { k }));
            if told != Ok(Some(says(self.model.frames[k]))) {
                return Err(format!("ours says of frame {k} {told:?}, and it is {:?}", self.model.frames[k]));
            }
        }
        Ok(())
    }

    /// Ours counts the frames of a client as the model does.
    fn same_count(&self, client: u8) -> Result<(), String> {
        self.look(&self.call(Look::OwnedCount { client }))
    }

    /// Puts a question to both.
    pub fn look(&self, call: &Call<Look>) -> Result<(), String> {
        let (answer, told) = (self.model.look(call), self.memory.look(call));
        if told == answer {
            return Ok(());
        }
        Err(format!("{call:?}: ours answers {told:?}, and the model {answer:?}"))
    }

    /// The check says that the memories are an allocator's, and clean.
    fn in_order(&mut self) -> Result<(), String> {
        match self.memory.ask(&self.call(Request::Check)) {
            Ok(None) => Ok(()),
            told => Err(format!("the check answers {told:?}")),
        }
    }

    /// Compares all frames, all contents and all clients anew, and runs the check.
    pub fn look_at_all(&mut self) -> Result<(), String> {
        let all = self.model.frames.len();
        self.expected.renew(&self.model.frames, 0..all);
        self.memory.same_as(&self.expected.tree, &self.expected.owners)?;
        self.same_contents(0..all)?;
        self.same_owners(0..all)?;
        for client in 0..=CLIENTS {
            self.same_count(client)?;
        }
        self.in_order()
    }

    /// A client writes into a frame that it owns.
    pub fn write(&mut self, k: usize, rng: &mut Rng) {
        if let (Some(ours), Some(models)) = (&mut self.memory.words, &mut self.model.contents) {
            for _ in 0..1 + rng.below(4) {
                let (anywhere, word) = (rng.below(WORDS), rng.bits());
                let at = WORDS * k + rng.pick(&[0, WORDS - 1, anywhere]);
                ours.words_mut()[at] = word;
                models[at] = word;
            }
        }
    }
}
