//! A subject and the model side by side: each request or call is put to both, and after it the answers and
//! what the memories mean are compared, and no page is reached by whom it should not.
use super::bytes::{self, Call};
use super::calls::Reply;
use super::memory::{Memory, Sizes, Spare};
use super::model::{Model, Plan};
use super::request::{said, Answer, Request};
use super::subject::{Calls, Machines};
use super::{reach, reading};
use crate::config_plain;
use crate::report::grouped;
use crate::rng::Rng;
use crate::shared::request::{State, FRAME, WORDS};
use std::collections::BTreeMap;
use std::fmt;
use std::marker::PhantomData;
use std::ops::Range;

/// Up to so many usable frames all contents are compared after each request; above, those around the change
/// are, and all now and then.
const ALL_FRAMES: usize = 24;
/// After so many requests the check is run.
const CHECK_EVERY: u64 = 8;
/// How many frames are looked at on both sides of a change.
const AROUND: usize = 2;

/// What was compared.
#[derive(Default)]
pub struct Tally {
    requests: u64,
    refused: u64,
    /// How often each answer was met: 0, or the number of a reason.
    pub answers: BTreeMap<u32, u64>,
    frames: u64,
    writes: u64,
    checks: u64,
}

impl Tally {
    /// One answer more.
    fn add(&mut self, answer: Answer) {
        self.requests += 1;
        self.refused += u64::from(answer.is_err());
        *self.answers.entry(answer.err().unwrap_or(0)).or_default() += 1;
    }
}

impl fmt::Display for Tally {
    fn fmt(&self, f: &mut fmt::Formatter) -> fmt::Result {
        let [requests, refused, frames, writes, checks] =
            [self.requests, self.refused, self.frames, self.writes, self.checks].map(grouped);
        let reasons = self.answers.keys().filter(|&&answer| answer != 0).count();
        write!(f, "{requests} requests, {refused} of them refused for {reasons} reasons; ")?;
        write!(f, "{frames} frames handed out, {writes} written to, {checks} checks")
    }
}

/// The two, in the same state.
pub struct Trial<S> {
    pub model: Model,
    pub memory: Memory,
    pub spare: Spare,
    /// The words of the configuration's table, which no request changes.
    table: Vec<u64>,
    subject: PhantomData<S>,
}

impl<S: Machines> Trial<S> {
    /// The start of a plan, made in memories that held something else.
    pub fn new(plan: &Plan, rng: &mut Rng) -> Result<Trial<S>, String> {
        let mut trial = Trial {
            model: Model::new(plan),
            memory: Memory::any(Sizes::of(plan), rng),
            spare: Spare::any(Sizes::of(plan), rng),
            table: reading::table(&plan.config),
            subject: PhantomData,
        };
        match trial.memory.start::<S>(&config_plain::bytes(&plan.config)) {
            0 => trial.look_at_all(&mut Tally::default()).map(|()| trial),
            code => Err(format!("the start is refused with {code}")),
        }
    }

    /// The request of the machine that has a number, and the comparison after it.
    pub fn step(&mut self, number: u64, request: Request, tally: &mut Tally) -> Result<Answer, String> {
        self.compare(number, request, tally).map_err(|fault| format!("{number} asks {request:x?}: {fault}"))
    }

    /// Puts a request to both, and compares the answers and all that may have changed.
    fn compare(&mut self, number: u64, request: Request, tally: &mut Tally) -> Result<Answer, String> {
        let answer = self.model.ask(number, request);
        tally.add(answer);
        let told = self.memory.ask::<S>(number, request);
        if told != answer {
            return Err(format!("{} is {}, and the model {}", S::NAME, said(told), said(answer)));
        }
        let changed = self.changed(request, answer);
        if matches!(request, Request::Alloc | Request::Run { .. }) {
            tally.frames += changed.len() as u64;
            self.are_empty(changed.clone())?;
        }
        self.same_meaning()?;
        reach::isolated(self.memory.view())?;
        if self.model.plan.usable <= ALL_FRAMES {
            self.same_contents(0..self.model.plan.usable)?;
        } else if !changed.is_empty() {
            self.same_contents(changed.start.saturating_sub(AROUND)..changed.end + AROUND)?;
        }
        if tally.requests % CHECK_EVERY == 0 {
            self.is_sound(tally)?;
        }
        Ok(answer)
    }

    /// The frames that a request was answered with, or gave back; all, where a machine went with its own.
    fn changed(&self, request: Request, answer: Answer) -> Range<usize> {
        let run = |addr: u64, count: usize| {
            let from = (addr - self.model.pool()) as usize / FRAME;
            from..from + count
        };
        match (request, answer) {
            (Request::Alloc, Ok(Some(addr))) => run(addr, 1),
            (Request::Run { size, .. }, Ok(Some(addr))) => run(addr, size),
            (Request::Dealloc { addr }, Ok(_)) => run(addr as u64, 1),
            (Request::DeallocRun { addr, count }, Ok(_)) => run(addr as u64, count),
            (Request::RemoveZoneWhole, Ok(_)) => 0..self.model.plan.usable,
            _ => 0..0,
        }
    }

    /// The words of these frames, as the subject has them.
    fn words(&self, frames: Range<usize>) -> &[u64] {
        &self.memory.words.words()[WORDS * frames.start..WORDS * frames.end]
    }

    /// Frames that are handed out are all zero.
    fn are_empty(&self, frames: Range<usize>) -> Result<(), String> {
        if self.words(frames).iter().all(|&word| word == 0) {
            return Ok(());
        }
        Err("a frame is handed out that is not empty".to_string())
    }

    /// The table is the configuration's, and the other memories mean what the model has: who is there, both
    /// sets of each machine, and what each frame is.
    fn same_meaning(&self) -> Result<(), String> {
        self.memory.is_kept_around()?;
        self.memory.table.same_as(&self.table).map_err(|fault| format!("the table: {fault}"))?;
        let view = self.memory.view();
        let zones = reading::zones(view.zones, self.model.zones.len(), self.model.plan.slots)?;
        if zones != self.model.zones {
            return Err(format!("{} has {zones:x?}, and the model {:x?}", S::NAME, self.model.zones));
        }
        let frames = reading::frames(view.tree, view.owners)?;
        match (0..frames.len()).find(|&k| frames[k] != self.model.frames[k]) {
            None => Ok(()),
            Some(k) => Err(format!("frame {k} is {:?}, and should be {:?}", frames[k], self.model.frames[k])),
        }
    }

    /// The subject has the model's words in these frames.
    fn same_contents(&self, frames: Range<usize>) -> Result<(), String> {
        let usable = self.model.plan.usable;
        let frames = frames.start.min(usable)..frames.end.min(usable);
        if self.words(frames.clone()) == &self.model.contents[WORDS * frames.start..WORDS * frames.end] {
            return Ok(());
        }
        Err(format!("the words of the frames {frames:?} are not the model's"))
    }

    /// The check says that the memories are sound.
    fn is_sound(&self, tally: &mut Tally) -> Result<(), String> {
        tally.checks += 1;
        match self.memory.check::<S>() {
            0 => Ok(()),
            code => Err(format!("the check answers {code}")),
        }
    }

    /// Compares everything, all contents too, and runs the check and a plain reading.
    pub fn look_at_all(&self, tally: &mut Tally) -> Result<(), String> {
        self.same_meaning()?;
        self.same_contents(0..self.model.plan.usable)?;
        reading::sound(self.memory.view())?;
        reach::isolated(self.memory.view())?;
        self.is_sound(tally)
    }

    /// A machine writes into frame k, if a machine owns it.
    pub fn write(&mut self, k: usize, rng: &mut Rng, tally: &mut Tally) {
        if !matches!(self.model.frames[k], State::Owned(_)) {
            return;
        }
        tally.writes += 1;
        for _ in 0..1 + rng.below(4) {
            let (anywhere, word) = (rng.below(WORDS), rng.bits());
            let at = WORDS * k + rng.pick(&[0, WORDS - 1, anywhere]);
            self.memory.words.words_mut()[at] = word;
            self.model.contents[at] = word;
        }
    }
}

impl<S: Calls> Trial<S> {
    /// A call of the machine that has a number, and the comparison after it: where it is refused, every word
    /// and byte is as before.
    pub fn call(&mut self, number: u64, bytes: &[u8], tally: &mut Tally) -> Result<Reply, String> {
        let before = self.memory.clone();
        let meant = self.model.serve(number, bytes);
        tally.add(if meant.code == 0 { Ok(meant.address) } else { Err(meant.code) });
        let told = self.memory.serve::<S>(&mut self.spare, number, bytes)?;
        if told != meant {
            return Err(format!("{} replies {told:x?}, and the model {meant:x?}", S::NAME));
        }
        if told.code != 0 {
            return self.memory.same_as(&before).map(|()| told);
        }
        tally.frames += taken(bytes);
        self.same_meaning()?;
        self.same_contents(0..self.model.plan.usable)?;
        reach::isolated(self.memory.view())?;
        if tally.requests % CHECK_EVERY == 0 {
            self.is_sound(tally)?;
        }
        Ok(told)
    }
}

/// How many frames a call takes that is done.
fn taken(bytes: &[u8]) -> u64 {
    let by_one = |request| match request {
        Request::Alloc => 1,
        Request::Run { size, .. } => size as u64,
        _ => 0,
    };
    match bytes::call(bytes) {
        Ok(Call::One(request)) => by_one(request),
        Ok(Call::List(requests)) => requests.into_iter().map(by_one).sum(),
        Err(_) => 0,
    }
}
