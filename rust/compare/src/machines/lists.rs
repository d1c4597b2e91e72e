//! Random lists of requests in bytes: many that are done, many that are refused late, some by an allocator
//! that has no frame left; frames that are given back and taken again, and machines that go whole and come
//! back in one list; and some with a member that is malformed. Between them machines ask single requests, and
//! write into their frames.
use super::bytes::{self, of_list, of_request, LIST, REQUEST};
use super::calls::Reply;
use super::configs;
use super::model::{is_readable, Model};
use super::random::{asker, give_all_back, its_frame, question, request, Extent, Mood};
use super::request::{Request, MALFORMED, NO_ROOM};
use super::subject::Calls;
use super::trial::{Tally, Trial};
use crate::report::{grouped, Progress};
use crate::rng::Rng;
use crate::shared::request::{State, FRAME};

/// The members of a list at most.
const MOST: usize = 40;
/// How often a request is looked for that is met or refused.
const TRIES: usize = 8;
/// From this member on a refusal is late.
const LATE: u64 = 10;
/// How many frames are written to between the calls at most.
const WRITES: usize = 6;

/// What became of lists.
#[derive(Default)]
struct Lists {
    done: u64,
    refused: u64,
    late: u64,
    exhausted: u64,
    malformed: u64,
    members: u64,
}

impl Lists {
    /// One list more.
    fn add(&mut self, bytes: &[u8], reply: &Reply) {
        self.members += (bytes.len() / REQUEST) as u64;
        let is_late = reply.index >= Some(LATE);
        match reply.code {
            0 => self.done += 1,
            MALFORMED => self.malformed += 1,
            code => {
                self.refused += 1;
                self.late += u64::from(is_late);
                self.exhausted += u64::from(is_late && code == NO_ROOM);
            }
        }
    }

    /// What became of them, if everything that there is was met.
    fn said(&self) -> Result<String, String> {
        let all = [self.done, self.refused, self.late, self.exhausted, self.malformed, self.members];
        let [done, refused, late, exhausted, malformed, members] = all.map(grouped);
        let said = format!(
            "lists of {members} members: {done} done, {refused} refused, {late} of them behind the tenth member \
             and {exhausted} by an exhausted allocator, {malformed} malformed"
        );
        if all.contains(&0) {
            Err(said)
        } else {
            Ok(said)
        }
    }
}

/// Runs so many sequences of calls.
pub fn run<S: Calls>(extent: Extent) -> Result<String, String> {
    let (mut tally, mut lists) = (Tally::default(), Lists::default());
    let mut progress = Progress::new(&format!("lists at {}", extent.frames), extent.sequences);
    for seed in 0..extent.sequences {
        progress.at(seed);
        let mut rng = Rng::new(seed as u64 ^ (extent.frames as u64) << 32);
        sequence::<S>(extent, &mut rng, &mut tally, &mut lists)
            .map_err(|fault| format!("seed {seed}, {fault}"))?;
    }
    let sequences = grouped(extent.sequences as u64);
    Ok(format!("{sequences} configurations: {tally}; {}", lists.said()?))
}

/// One sequence of calls with its own configuration.
fn sequence<S: Calls>(
    extent: Extent,
    rng: &mut Rng,
    tally: &mut Tally,
    lists: &mut Lists,
) -> Result<(), String> {
    let plan = configs::plan(rng, extent.frames);
    let mut trial = Trial::<S>::new(&plan, rng)?;
    for step in 1..=extent.length {
        let (number, call) = call(rng, &trial.model);
        let reply = trial.call(number, &call, tally).map_err(|fault| {
            format!("call {step}: {number} calls {:x?}: {fault}; {plan:x?}", bytes::call(&call))
        })?;
        if call.first() == Some(&LIST) {
            lists.add(&call, &reply);
        }
        for _ in 0..rng.below(WRITES + 1) {
            trial.write(rng.below(plan.usable.max(1)), rng, tally);
        }
    }
    trial.look_at_all(tally)?;
    give_all_back(&mut trial, rng, tally).map_err(|fault| format!("at the end: {fault}"))
}

/// Some call of some machine: a list, or now and then a single request.
pub fn call(rng: &mut Rng, model: &Model) -> (u64, Vec<u8>) {
    let mood = rng.pick(&[Mood::Anything, Mood::More, Mood::Less]);
    if rng.once_in(3) {
        let (number, request) = question(rng, model, mood);
        return (number, of_request(request));
    }
    let (number, m) = asker(rng, model);
    (number, list(rng, model, number, m))
}

/// Some list of machine m.
fn list(rng: &mut Rng, model: &Model, number: u64, m: usize) -> Vec<u8> {
    let mut draft = Draft { model: model.clone(), number, m, members: Vec::new() };
    let length = rng.below(MOST + 1);
    match rng.below(12) {
        0..=3 => draft.all_met(rng, length),
        4 | 5 => draft.refused_at(rng, length),
        6 => draft.exhausting(rng, length),
        7 | 8 => draft.taken_again(rng, length),
        9 => draft.come_back(rng, length),
        10 => (0..length).for_each(|_| draft.add_any(rng)),
        _ => {
            draft.all_met(rng, length);
            return spoilt(rng, of_list(&draft.members));
        }
    }
    of_list(&draft.members)
}

/// A list that is being written, and the model as it is behind its last member.
struct Draft {
    model: Model,
    number: u64,
    m: usize,
    members: Vec<Request>,
}

impl Draft {
    /// One member more. Says whether it is met.
    fn add(&mut self, request: Request) -> bool {
        self.members.push(request);
        self.model.ask(self.number, request).is_ok()
    }

    /// Any member.
    fn add_any(&mut self, rng: &mut Rng) {
        let request = request(rng, &self.model, self.m, Mood::Anything);
        self.add(request);
    }

    /// A member that is met, if one is found.
    fn add_met(&mut self, rng: &mut Rng) {
        let mood = rng.pick(&[Mood::Anything, Mood::More, Mood::Less]);
        for _ in 0..TRIES {
            if self.add(request(rng, &self.model, self.m, mood)) {
                return;
            }
            self.members.pop();
        }
    }

    /// A member that is refused and not malformed, if one is found, and those before it that are met.
    fn add_refused(&mut self, rng: &mut Rng) {
        for _ in 0..TRIES {
            let request = request(rng, &self.model, self.m, Mood::Anything);
            if is_readable(request).is_ok() && !self.add(request) {
                return;
            }
        }
    }

    /// So many members that are met.
    fn all_met(&mut self, rng: &mut Rng, length: usize) {
        (0..length).for_each(|_| self.add_met(rng));
    }

    /// Members that are met, then one that is refused, and some behind it.
    fn refused_at(&mut self, rng: &mut Rng, length: usize) {
        self.all_met(rng, length);
        self.add_refused(rng);
        (0..rng.below(4)).for_each(|_| self.add_any(rng));
    }

    /// The machine is there, if it is one.
    fn be_there(&mut self) {
        let is_there = self.model.zones.get(self.m).map_or(true, |zone| zone.present);
        if !is_there {
            self.add(Request::AddZone);
        }
    }

    /// Members that are met, and then frames are taken until there is none.
    fn exhausting(&mut self, rng: &mut Rng, length: usize) {
        self.be_there();
        self.all_met(rng, length / 2);
        while self.members.len() <= MOST && self.add(Request::Alloc) {}
    }

    /// Frames are given back and taken, one by one.
    fn taken_again(&mut self, rng: &mut Rng, length: usize) {
        self.be_there();
        for _ in 0..length / 2 {
            let k = its_frame(rng, &self.model, self.m);
            let addr = (self.model.pool() as usize).wrapping_add(FRAME.wrapping_mul(k));
            if self.model.frames.get(k) == Some(&State::Owned(self.m as u8)) {
                self.add(Request::Dealloc { addr });
            }
            self.add(Request::Alloc);
        }
    }

    /// The machine goes with all it has and comes back, and takes regions and frames.
    fn come_back(&mut self, rng: &mut Rng, length: usize) {
        self.be_there();
        self.all_met(rng, length / 4);
        self.be_there();
        self.add(Request::RemoveZoneWhole);
        self.add(Request::AddZone);
        for _ in 0..rng.below(4) {
            self.add(Request::Alloc);
        }
        self.all_met(rng, length / 2);
    }
}

/// The same list with a member that is malformed: another operation, a list, a number where there is none, or
/// one that is cut off.
fn spoilt(rng: &mut Rng, mut bytes: Vec<u8>) -> Vec<u8> {
    let members = bytes.len() / REQUEST;
    let at = 1 + REQUEST * rng.below(members.max(1));
    match rng.below(4) {
        _ if members == 0 => bytes.extend(vec![0; 1 + rng.below(REQUEST - 1)]),
        0 => bytes[at] = rng.pick(&[12, 13, 128, 254]),
        1 => bytes[at] = LIST,
        2 => bytes[at + REQUEST - 1] |= 128,
        _ => bytes.truncate(bytes.len() - 1 - rng.below(REQUEST - 1)),
    }
    bytes
}
