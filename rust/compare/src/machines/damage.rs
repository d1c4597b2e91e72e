//! Memories that hold anything: random bytes, sound memories of which one word is changed, and lengths that do
//! not go together. Every request is answered and in bounds, a refusal changes nothing, and a success only
//! what its function may write; where the memories are sound, answer and change are the model's. The check
//! says exactly whether they are.
use super::configs;
use super::memory::{Memory, Sizes};
use super::model::{Model, Plan};
use super::random::{question, Mood};
use super::reading::sound;
use super::request::{said, Answer, Region, Request, BOTH, CORRUPT};
use super::starts;
use super::subject::Machines;
use crate::config_plain::bytes;
use crate::lent::{Cell, Lent};
use crate::report::{grouped, Progress};
use crate::rng::Rng;
use crate::shared::request::{State, WORDS};

/// How many requests lead to a sound memory at most, and how many each memory is asked.
const BEFORE: usize = 40;
const REQUESTS: usize = 12;

/// What was met.
#[derive(Default)]
struct Tally {
    sound: u64,
    corrupt: u64,
    changes: u64,
}

/// Runs on so many memories of so many frames.
pub fn run<S: Machines>(frames: usize, memories: usize) -> Result<String, String> {
    let mut progress = Progress::new(&format!("damaged machines at {frames}"), memories);
    let mut tally = Tally::default();
    for seed in 0..memories {
        progress.at(seed);
        let mut rng = Rng::new(seed as u64 ^ (frames as u64) << 32);
        one::<S>(frames, &mut rng, &mut tally).map_err(|fault| format!("seed {seed}, {fault}"))?;
    }
    let [memories, sound, corrupt, changes] =
        [memories as u64, tally.sound, tally.corrupt, tally.changes].map(grouped);
    Ok(format!(
        "{memories} memories, {sound} of them sound at first, {REQUESTS} requests each; {changes} met, \
         corrupt was answered {corrupt} times"
    ))
}

/// Some requests to one damaged memory, and a start in whatever is left.
fn one<S: Machines>(frames: usize, rng: &mut Rng, tally: &mut Tally) -> Result<(), String> {
    let plan = configs::plan(rng, frames);
    let (mut memory, model) = reached::<S>(&plan, rng)?;
    damage(&mut memory, &plan, rng);
    tally.sound += u64::from(sound(memory.view()).is_ok());
    for _ in 0..REQUESTS {
        let (number, request) =
            if rng.once_in(4) { anything(rng) } else { question(rng, &model, Mood::Anything) };
        step::<S>(&mut memory, number, request, tally)
            .map_err(|fault| format!("{number} asks {request:x?}: {fault}"))?;
    }
    start::<S>(&mut memory, &bytes(&plan.config)).map_err(|fault| format!("the start: {fault}"))
}

/// Sound memories that some requests led to, something in every frame that is owned, and a model of who has what.
pub fn reached<S: Machines>(plan: &Plan, rng: &mut Rng) -> Result<(Memory, Model), String> {
    let mut memory = Memory::any(Sizes::of(plan), rng);
    let mut model = Model::new(plan);
    if memory.start::<S>(&bytes(&plan.config)) != 0 {
        return Err("the start of a sound memory is refused".to_string());
    }
    for _ in 0..rng.below(BEFORE + 1) {
        let (number, request) = question(rng, &model, Mood::Anything);
        if memory.ask::<S>(number, request) != model.ask(number, request) {
            return Err(format!("{request:x?} of a sound memory is answered otherwise"));
        }
    }
    for (k, _) in model.frames.iter().enumerate().filter(|(_, state)| matches!(state, State::Owned(_))) {
        memory.words.words_mut()[WORDS * k + rng.below(WORDS)] = rng.bits();
    }
    Ok((memory, model))
}

/// Any request, with any numbers.
fn anything(rng: &mut Rng) -> (u64, Request) {
    let mut any = || if rng.once_in(3) { rng.below(5) as u64 } else { rng.bits() };
    let region = Region { guest: any(), host: any(), pages: any(), kind: any() };
    let (number, which, a, b) = (any(), any(), any() as usize, any() as usize);
    let set = rng.pick(&BOTH);
    let request = match rng.below(10) {
        0 => Request::AddZone,
        1 => Request::RemoveZone,
        2 => Request::RemoveZoneWhole,
        3 => Request::Insert(set, region),
        4 => Request::Remove(set, region),
        5 => Request::Translate { which, addr: a as u64 },
        6 => Request::Alloc,
        7 => Request::Run { size: a, align_log2: b },
        8 => Request::Dealloc { addr: a },
        _ => Request::DeallocRun { addr: a, count: b },
    };
    (number, request)
}

/// Random bytes everywhere or in one memory, one of another length, or some words changed.
pub fn damage(memory: &mut Memory, plan: &Plan, rng: &mut Rng) {
    match rng.below(8) {
        0 => *memory = Memory::any(Sizes::of(plan), rng),
        1 => {
            let other = Memory::any(Sizes::of(plan), rng);
            match rng.below(5) {
                0 => memory.table = other.table,
                1 => memory.zones = other.zones,
                2 => memory.tree = other.tree,
                3 => memory.owners = other.owners,
                _ => memory.words = other.words,
            }
        }
        2 => match rng.below(5) {
            0 => resize(&mut memory.table, 1, rng),
            1 => resize(&mut memory.zones, 8, rng),
            2 => resize(&mut memory.tree, 16, rng),
            3 => resize(&mut memory.owners, 240, rng),
            _ => resize(&mut memory.words, WORDS, rng),
        },
        _ => (0..rng.pick(&[0, 1, 1, 1, 2, 8])).for_each(|_| change_a_word(memory, rng)),
    }
}

/// Takes words away from the end, or adds some that are zero.
fn resize<T: Cell>(memory: &mut Lent<T>, step: usize, rng: &mut Rng) {
    let mut words = memory.words().to_vec();
    let len = words.len();
    let some = [0, len / 2, len.saturating_sub(1), len + 1, len.saturating_sub(step), len + step];
    words.resize(rng.pick(&some), T::of_bits(0));
    *memory = Lent::new(&words, rng);
}

/// Changes a word or a byte of some memory, or a bit of one.
fn change_a_word(memory: &mut Memory, rng: &mut Rng) {
    match rng.below(6) {
        0 | 1 => change_one(&mut memory.zones, rng),
        2 => change_one(&mut memory.tree, rng),
        3 => change_one(&mut memory.owners, rng),
        4 => change_one(&mut memory.words, rng),
        _ => change_one(&mut memory.table, rng),
    }
}

/// Changes one word or byte.
fn change_one<T: Cell>(memory: &mut Lent<T>, rng: &mut Rng) {
    let words = memory.words_mut();
    if !words.is_empty() {
        let at = if rng.once_in(2) { rng.small_below(words.len()) } else { rng.below(words.len()) };
        let (any, few) = (rng.bits(), rng.below(5) as u64);
        words[at] = T::of_bits(rng.pick(&[any, few, 255, u64::MAX, 1 << (any % 64)]));
    }
}

/// One request: where the memories are sound the model says all, and else a refusal keeps every byte.
fn step<S: Machines>(
    memory: &mut Memory,
    number: u64,
    request: Request,
    tally: &mut Tally,
) -> Result<(), String> {
    let before = memory.clone();
    let meant = sound(before.view());
    checks::<S>(memory, meant.is_ok())?;
    let told = memory.ask::<S>(number, request);
    memory.is_kept_around()?;
    memory.same_as(&only_written(request, memory, &before))?;
    tally.corrupt += u64::from(told == Err(CORRUPT));
    tally.changes += u64::from(told.is_ok());
    if told.is_err() {
        memory.same_as(&before).map_err(|fault| format!("{}, and {fault}", said(told)))?;
    }
    match meant {
        Ok(model) => as_the_model(memory, model, number, request, told),
        Err(_) => Ok(()),
    }
}

/// The memories before a request, but for those that its function may write, which are as after it.
fn only_written(request: Request, after: &Memory, before: &Memory) -> Memory {
    let (mut memory, after) = (before.clone(), after.clone());
    match request {
        Request::Translate { .. } => {}
        Request::AddZone | Request::RemoveZone | Request::Insert(..) | Request::Remove(..) => {
            memory.zones = after.zones;
        }
        Request::RemoveZoneWhole => memory = Memory { table: memory.table, ..after },
        Request::Alloc | Request::Run { .. } => {
            memory = Memory { tree: after.tree, owners: after.owners, ..memory };
        }
        Request::Dealloc { .. } | Request::DeallocRun { .. } => {
            memory = Memory { tree: after.tree, owners: after.owners, words: after.words, ..memory };
        }
    }
    memory
}

/// The check says whether the memories are sound.
fn checks<S: Machines>(memory: &Memory, is_sound: bool) -> Result<(), String> {
    match memory.check::<S>() {
        code if (code == 0) == is_sound => Ok(()),
        code => Err(format!("the check answers {code}; {:?}", sound(memory.view()).err())),
    }
}

/// The answer, and what the memories mean after it, are the model's.
fn as_the_model(
    memory: &Memory,
    mut model: Model,
    number: u64,
    request: Request,
    told: Answer,
) -> Result<(), String> {
    let answer = model.ask(number, request);
    if told != answer {
        return Err(format!("{}, and the model {}", said(told), said(answer)));
    }
    if !sound(memory.view())?.same_as(&model) {
        return Err(format!("{}, and something else changed", said(told)));
    }
    Ok(())
}

/// A start makes them sound, whatever they held, or is refused for their lengths and keeps every byte.
fn start<S: Machines>(memory: &mut Memory, bytes: &[u8]) -> Result<(), String> {
    let before = memory.clone();
    let (told, wanted) = (memory.start::<S>(bytes), starts::code(bytes, before.sizes()));
    if told != wanted {
        return Err(format!("{told}, and not {wanted}"));
    }
    match told {
        0 => {
            memory.is_kept_around()?;
            sound(memory.view())?;
            checks::<S>(memory, true)
        }
        code => memory.same_as(&before).map_err(|fault| format!("{code}, and {fault}")),
    }
}
