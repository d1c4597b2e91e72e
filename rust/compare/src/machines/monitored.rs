//! The crate `replayframes` beside the plain model: random requests, calls and sequences go through its `Monitor`, and
//! after each the answer is the model's, and so is what the monitor shows: machines, their regions, and every frame.
use super::bytes::{self, of_items, LIST};
use super::calls::{same, Ran, Reply};
use super::configs;
use super::lists::call;
use super::memory::{Memory, Sizes, Spare};
use super::model::{Model, Plan};
use super::random::{question, Extent, Mood};
use super::request::{Answer, Region, Request, Which, BOTH};
use super::runs::calls;
use crate::config_plain;
use crate::report::{grouped, Progress};
use crate::rng::Rng;
use crate::shared::request::{State, FRAME, WORDS};
use replayframes::config::Pool;
use replayframes::{
    answers_for, replies_for, Call, CallRefusal, Frame, Kind, Machine, Memories, Monitor, Refusal, Replies,
    RunRefusal,
};

/// After so many steps the monitor is left, and another goes on with its memories.
const RESUME_EVERY: usize = 25;

/// What was met.
#[derive(Default)]
struct Tally {
    requests: u64,
    calls: u64,
    sequences: u64,
    refused: u64,
    frames: u64,
}

/// Runs so many sequences of steps.
pub fn run(extent: Extent) -> Result<String, String> {
    let mut tally = Tally::default();
    let mut progress = Progress::new(&format!("monitors at {}", extent.frames), extent.sequences);
    for seed in 0..extent.sequences {
        progress.at(seed);
        let mut rng = Rng::new(seed as u64 ^ (extent.frames as u64) << 32);
        let plan = configs::plan(&mut rng, extent.frames);
        let mut memory = Memory::any(Sizes::of(&plan), &mut rng);
        steps(&plan, extent.length, &mut memory, &mut rng, &mut tally)
            .and_then(|()| memory.is_kept_around())
            .map_err(|fault| format!("seed {seed}: {fault}; {plan:x?}"))?;
    }
    let Tally { requests, calls, sequences, refused, frames } = tally;
    let [requests, calls, sequences, refused, frames] =
        [requests, calls, sequences, refused, frames].map(grouped);
    Ok(format!(
        "{requests} requests, {calls} calls, {sequences} sequences; {refused} refused; {frames} frames shown"
    ))
}

/// The memories, to be lent to a monitor.
fn lent(memory: &mut Memory) -> Memories<'_> {
    Memories {
        table: memory.table.words_mut(),
        zones: memory.zones.words_mut(),
        tree: memory.tree.words_mut(),
        owners: memory.owners.words_mut(),
        words: memory.words.words_mut(),
    }
}

/// A monitor and the model, in the same state.
struct Pair<'a> {
    monitor: Monitor<'a>,
    model: Model,
    spare: Spare,
}

/// So many steps of one plan in these memories.
fn steps(
    plan: &Plan,
    length: usize,
    memory: &mut Memory,
    rng: &mut Rng,
    tally: &mut Tally,
) -> Result<(), String> {
    let started = Monitor::start(&config_plain::bytes(&plan.config), lent(memory));
    let monitor = started.map_err(|refusal| format!("the start is refused: {refusal}"))?;
    let spare = Spare::any(Sizes::of(plan), rng);
    let mut pair = Pair { monitor, model: Model::new(plan), spare };
    for step in 1..=length {
        pair.step(rng, tally).and_then(|()| pair.shows_the_same(tally))?;
        if step % RESUME_EVERY == 0 {
            pair.monitor =
                Monitor::resume(pair.monitor.into_memories()).map_err(|refusal| refusal.to_string())?;
        }
    }
    Ok(())
}

impl Pair<'_> {
    /// One request, call or sequence, or a write of a machine.
    fn step(&mut self, rng: &mut Rng, tally: &mut Tally) -> Result<(), String> {
        match rng.below(8) {
            0 => self.sequence(rng, tally),
            1 | 2 => self.call(rng, tally),
            3 => self.write(rng),
            _ => self.request(rng, tally),
        }
    }

    /// One request, if the crate's types can say it.
    fn request(&mut self, rng: &mut Rng, tally: &mut Tally) -> Result<(), String> {
        let mood = rng.pick(&[Mood::Anything, Mood::More, Mood::Less]);
        let (number, request) = question(rng, &self.model, mood);
        let typed = match typed(request) {
            Some(typed) => typed,
            None => return Ok(()),
        };
        let told: Answer = self.monitor.ask(number, typed).map_err(Refusal::code);
        tally.requests += 1;
        tally.refused += u64::from(told.is_err());
        let meant = self.model.ask(number, request);
        same(&told, &meant).map_err(|fault| format!("{number} asks {request:x?}: {fault}"))
    }

    /// One call in bytes.
    fn call(&mut self, rng: &mut Rng, tally: &mut Tally) -> Result<(), String> {
        let (number, bytes) = call(rng, &self.model);
        is_written(number, &bytes)?;
        let mut answers = vec![7; answers_for(bytes.len())];
        let told =
            reply_of(self.monitor.serve(&mut lent_spare(&mut self.spare), number, &bytes, &mut answers));
        tally.calls += 1;
        tally.refused += u64::from(told.code != 0);
        let meant = in_crate(&bytes, self.model.serve(number, &bytes));
        same(&told, &meant).map_err(|fault| format!("{number} calls {:x?}: {fault}", bytes::call(&bytes)))
    }

    /// A sequence of calls, now and then one that is cut off.
    fn sequence(&mut self, rng: &mut Rng, tally: &mut Tally) -> Result<(), String> {
        let mut items = of_items(&calls(rng, &self.model));
        if rng.once_in(8) {
            items.truncate(rng.below(items.len() + 1));
        }
        let (mut replies, mut answers) =
            (vec![7; replies_for(items.len())], vec![7; answers_for(items.len())]);
        let ran = self.monitor.run(&mut lent_spare(&mut self.spare), &items, &mut replies, &mut answers);
        let (told, meant) = (ran_of(ran), meant_of(&items, &mut self.model));
        tally.sequences += 1;
        tally.refused += u64::from(told.1.code != 0);
        same(&told, &meant).map_err(|fault| format!("a sequence {items:x?}: {fault}"))
    }

    /// A machine writes into some frame of the allocator's region, if it owns it.
    fn write(&mut self, rng: &mut Rng) -> Result<(), String> {
        let (k, at, word) =
            (rng.small_below(self.model.plan.config.pool.1 as usize), rng.below(WORDS), rng.bits());
        let machines = &self.model.plan.config.machines;
        let m = rng.small_below(machines.len().max(1));
        let number = machines.get(m).map_or(0, |machine| u64::from(machine.number));
        let written = self.monitor.frame_words(number, self.model.pool() + (FRAME * k) as u64);
        match (written, self.model.frames[k]) {
            (Ok(words), State::Owned(owner)) if usize::from(owner) == m => {
                words[at] = word;
                self.model.contents[WORDS * k + at] = word;
                Ok(())
            }
            (Err(Refusal::NotTaken), State::Free) => Ok(()),
            (Err(Refusal::NotYours), State::Owned(owner)) if usize::from(owner) != m => Ok(()),
            (Err(Refusal::NotYours), State::Reserved) => Ok(()),
            (written, state) => Err(format!("machine {m} and frame {k}, {state:?}: {written:x?}")),
        }
    }

    /// The monitor shows what the model has.
    fn shows_the_same(&self, tally: &mut Tally) -> Result<(), String> {
        self.shows_machines()?;
        self.shows_frames(tally)?;
        if self.monitor.memories().words == &self.model.contents[..] {
            return Ok(());
        }
        Err("the words of the frames are not the model's".to_string())
    }

    /// All machines and no other.
    fn shows_machines(&self) -> Result<(), String> {
        let machines: Vec<_> = all(self.monitor.machines())?;
        same(&machines.len(), &self.model.zones.len())?;
        for (m, machine) in machines.into_iter().enumerate() {
            self.shows_machine(m, machine)?;
        }
        self.knows_no_other()
    }

    /// A machine, whether it is there, what it is given, and both its sets.
    fn shows_machine(&self, m: usize, machine: Machine) -> Result<(), String> {
        let (zone, number) = (&self.model.zones[m], self.number(m));
        same(&machine, &Machine { place: m, number, is_there: zone.present })?;
        same(&plain(all(self.monitor.given(number))?), &self.model.given(m).collect())?;
        for which in BOTH {
            let shown = plain(all(self.monitor.regions(number, in_types(which)))?);
            same(&shown, &zone.sets[which as usize])?;
            same(&self.monitor.region_count(number, in_types(which)), &Ok(shown.len()))?;
        }
        Ok(())
    }

    /// The number of machine m.
    fn number(&self, m: usize) -> u64 {
        u64::from(self.model.plan.config.machines[m].number)
    }

    /// A number that is none's is refused by every look.
    fn knows_no_other(&self) -> Result<(), String> {
        let machines = &self.model.plan.config.machines;
        let is_free = |number: &u16| machines.iter().all(|machine| machine.number != *number);
        let number = u64::from((0..=u16::MAX).find(is_free).expect("at most 64 machines"));
        let no = Err(Refusal::NoMachine);
        same(&self.monitor.is_there(number), &no)?;
        same(&self.monitor.given(number).collect::<Vec<_>>(), &vec![Err(Refusal::NoMachine)])?;
        let set = self.monitor.regions(number, replayframes::Which::Devices);
        same(&set.collect::<Vec<_>>(), &vec![Err(Refusal::NoMachine)])?;
        same(&self.monitor.frames_of(number).collect::<Vec<_>>(), &vec![Err(Refusal::NoMachine)])
    }

    /// Frame k as the crate must show it.
    fn meant(&self, k: usize) -> Frame {
        let state = match self.model.frames[k] {
            State::Free => replayframes::State::Free,
            State::Reserved => replayframes::State::Reserved,
            State::Owned(m) => replayframes::State::Owned(self.number(usize::from(m))),
        };
        Frame { address: self.model.pool() + (FRAME * k) as u64, state }
    }

    /// Every frame of the allocator's region, and those of one machine after the other.
    fn shows_frames(&self, tally: &mut Tally) -> Result<(), String> {
        let (host, pages) = self.model.plan.config.pool;
        same(&self.monitor.pool(), &Ok(Pool { host, pages }))?;
        let meant: Vec<Frame> = (0..pages as usize).map(|k| self.meant(k)).collect();
        same(&all(self.monitor.frames())?, &meant)?;
        tally.frames += pages;
        match tally.frames.checked_rem(self.model.zones.len() as u64) {
            Some(m) => self.shows_frames_of(self.number(m as usize), &meant),
            None => Ok(()),
        }
    }

    /// Those of all frames that a machine owns.
    fn shows_frames_of(&self, number: u64, frames: &[Frame]) -> Result<(), String> {
        let is_its = |frame: &&Frame| frame.state == replayframes::State::Owned(number);
        let its: Vec<u64> = frames.iter().filter(is_its).map(|frame| frame.address).collect();
        same(&all(self.monitor.frames_of(number))?, &its)
    }
}

/// All that an iterator shows, if it refuses nothing.
fn all<T>(shown: impl Iterator<Item = Result<T, Refusal>>) -> Result<Vec<T>, String> {
    shown.collect::<Result<_, _>>().map_err(|refusal| format!("a look is refused: {refusal}"))
}

/// Regions in plain words.
fn plain(regions: Vec<replayframes::Region>) -> Vec<Region> {
    let plain = |replayframes::Region { guest, host, pages, kind }| Region {
        guest,
        host,
        pages,
        kind: kind.number(),
    };
    regions.into_iter().map(plain).collect()
}

/// The set in the crate's types.
fn in_types(which: Which) -> replayframes::Which {
    replayframes::Which::BOTH[which as usize]
}

/// The region in the crate's types, if its kind is one.
fn typed_region(region: Region) -> Option<replayframes::Region> {
    let Region { guest, host, pages, kind } = region;
    Some(replayframes::Region { guest, host, pages, kind: Kind::from_number(kind)? })
}

/// The request in the crate's types, if its kind and its set are ones.
fn typed(request: Request) -> Option<replayframes::Request> {
    use replayframes::Request as Typed;
    Some(match request {
        Request::AddZone => Typed::AddZone,
        Request::RemoveZone => Typed::RemoveZone,
        Request::RemoveZoneWhole => Typed::RemoveZoneWhole,
        Request::Insert(which, region) => Typed::Insert(in_types(which), typed_region(region)?),
        Request::Remove(which, region) => Typed::Remove(in_types(which), typed_region(region)?),
        Request::Translate { which, addr } => {
            Typed::Translate { which: *replayframes::Which::BOTH.get(which as usize)?, address: addr }
        }
        Request::Alloc => Typed::Alloc,
        Request::Run { size, align_log2 } => {
            Typed::AllocContiguous { size: size as u64, align_log2: align_log2 as u64 }
        }
        Request::Dealloc { addr } => Typed::Dealloc { address: addr as u64 },
        Request::DeallocRun { addr, count } => {
            Typed::DeallocContiguous { address: addr as u64, count: count as u64 }
        }
    })
}

/// The crate writes the same bytes for the call, alone and as an item, if they are one.
fn is_written(number: u64, bytes: &[u8]) -> Result<(), String> {
    let all_typed = |requests: Vec<Request>| requests.into_iter().map(typed).collect::<Option<Vec<_>>>();
    let (list, typed) = match bytes::call(bytes) {
        Ok(bytes::Call::One(request)) => (false, all_typed(vec![request])),
        Ok(bytes::Call::List(requests)) => (true, all_typed(requests)),
        Err(_) => return Ok(()),
    };
    let requests = typed.ok_or("a request was read that the crate's types cannot say")?;
    let call = if list { Call::List(&requests) } else { Call::One(requests[0]) };
    let item = of_items(&[(number, bytes.to_vec())]);
    let (mut alone, mut within) = (vec![7; bytes.len() + 1], vec![7; item.len()]);
    same(&call.encode(&mut alone), &Ok(bytes))?;
    same(&call.encode_item(number, &mut within), &Ok(&item[..]))
}

/// The spare memories, to be lent with a call.
fn lent_spare(spare: &mut Spare) -> replayframes::Spare<'_> {
    replayframes::Spare {
        zones: spare.zones.words_mut(),
        tree: spare.tree.words_mut(),
        owners: spare.owners.words_mut(),
    }
}

/// What the crate replies, as the model says it.
fn reply_of(reply: Result<replayframes::Reply, CallRefusal>) -> Reply {
    match reply {
        Ok(replayframes::Reply::One(address)) => Reply::one(Ok(address)),
        Ok(replayframes::Reply::List(answers)) => Reply::done(&answers.collect::<Vec<_>>()),
        Err(CallRefusal { refusal, member: Some(member) }) => Reply::no(refusal.code(), member),
        Err(CallRefusal { refusal, member: None }) => Reply::one(Err(refusal.code())),
    }
}

/// The model's reply to a call as the crate says it: no member is named where the call is no list.
fn in_crate(call: &[u8], reply: Reply) -> Reply {
    let is_list = call.first() == Some(&LIST);
    Reply { index: reply.index.filter(|_| is_list), ..reply }
}

/// The numbers of those who asked in a sequence, and what they are answered.
type Told = (Vec<u64>, Ran);

/// What these are answered in a sequence that was run.
fn told(replies: impl Iterator<Item = (u64, Reply)>) -> Told {
    let (numbers, replies): (Vec<u64>, Vec<Reply>) = replies.unzip();
    (numbers, Ran { code: 0, offset: Some(replies.len() as u64), replies })
}

/// What the crate answers to a sequence, as the model says it.
fn ran_of(ran: Result<Replies, RunRefusal>) -> Told {
    match ran {
        Ok(replies) => told(replies.map(|(number, reply)| (number, reply_of(reply)))),
        Err(RunRefusal { refusal, offset }) => {
            let offset = offset.map(|at| at as u64);
            (Vec::new(), Ran { code: refusal.code(), offset, replies: Vec::new() })
        }
    }
}

/// What the model answers to a sequence, as the crate says it.
fn meant_of(items: &[u8], model: &mut Model) -> Told {
    match bytes::items(items) {
        Ok(items) => {
            told(items.iter().map(|&(number, call)| (number, in_crate(call, model.serve(number, call)))))
        }
        Err(_) => (Vec::new(), model.run(items)),
    }
}
