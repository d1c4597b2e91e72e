//! Memories that hold anything: every request is answered, in bounds; a refusal changes nothing, and a
//! success exactly the frames that it names. What is exact holds where the summaries agree.
use super::memory::Memory;
use super::model::{has_place, places, Model};
use super::random;
use super::reading::{check, states};
use super::request::{Answer, Call, Request, State, FRAME, WORDS};
use crate::report::{grouped, Progress};
use crate::request::Reason;
use crate::rng::Rng;
use crate::{damage, tree};

/// How many requests each memory is asked.
const REQUESTS: usize = 24;
/// Bytes of owners that are chosen often.
const BYTES: [u8; 8] = [255, 0, 1, 2, 63, 64, 254, 255];

/// What was met.
#[derive(Default)]
struct Tally {
    accounted: u64,
    corrupt: u64,
    changes: u64,
}

/// Runs on so many allocators whose trees have so many words.
pub fn run(words: usize, contents: bool, memories: usize) -> Result<String, String> {
    let mut progress = Progress::new(&format!("damaged allocators of {words} words"), memories);
    let mut tally = Tally::default();
    for seed in 0..memories {
        progress.at(seed);
        let mut rng = Rng::new(seed as u64 ^ (words as u64) << 32);
        one(words, contents, &mut rng, &mut tally).map_err(|fault| format!("seed {seed}, {fault}"))?;
    }
    let [memories, accounted, corrupt, changes] =
        [memories as u64, tally.accounted, tally.corrupt, tally.changes].map(grouped);
    Ok(format!("{memories} allocators, {accounted} of them in order at first, {REQUESTS} requests each; {changes} met, corrupt was answered {corrupt} times"))
}

/// Some requests to one allocator, each at some base, and a start from whatever is left.
fn one(words: usize, contents: bool, rng: &mut Rng, tally: &mut Tally) -> Result<(), String> {
    let mut memory = damaged(words, contents, rng);
    let frames = 15 * words + 1;
    let base = random::base(rng, frames);
    tally.accounted += u64::from(check(&memory, &memory.call(base, Request::Check)) == Ok(None));
    for _ in 0..REQUESTS {
        let base = if rng.once_in(8) { random::base(rng, frames) } else { base };
        let call = memory.call(base, random::request(rng, &model(&memory), base));
        step(&mut memory, &call, tally).map_err(|fault| format!("{call:?}: {fault}"))?;
    }
    start(&mut memory, base)
}

/// Memories of any bits and bytes: the tree as damaged as a bitmap's, and each byte in order or any.
fn damaged(words: usize, contents: bool, rng: &mut Rng) -> Memory {
    let tree = damage::damaged(rng, words);
    let wrong = rng.pick(&[0, 0, 1, 8]);
    let byte = |free: bool, rng: &mut Rng| match rng.below(64) {
        odd if odd < wrong => rng.bits() as u8,
        _ if free => 255,
        _ => rng.pick(&BYTES[..if wrong == 0 { 5 } else { 8 }]),
    };
    let owners: Vec<u8> = tree::free_frames(&tree).into_iter().map(|free| byte(free, rng)).collect();
    let backed = if contents { rng.pick(&[0, owners.len() / 2, owners.len(), owners.len()]) } else { 0 };
    let dirt = rng.pick(&[0, 0, 1, 100]);
    let mut contents_of = vec![0; WORDS * backed];
    for _ in 0..dirt.min(contents_of.len()) {
        let at = rng.below(contents_of.len());
        contents_of[at] = rng.bits();
    }
    Memory::new(&tree, &owners, if contents { Some(&contents_of) } else { None }, rng)
}

/// What memories mean, whatever they hold.
fn model(memory: &Memory) -> Model {
    Model {
        frames: states(memory.tree.words(), memory.owners.words()),
        contents: memory.words.as_ref().map(|words| words.words().to_vec()),
    }
}

/// One request: the answer and all memories after it are as the memories before it allow.
fn step(memory: &mut Memory, call: &Call<Request>, tally: &mut Tally) -> Result<(), String> {
    let before = memory.clone();
    let mut model = model(memory);
    let in_order = check(memory, &memory.call(call.base, Request::Check));
    let exact = if call.request == Request::Check { in_order } else { model.answer(call) };
    let told = memory.ask(call);
    if told != exact && !allowed(call, told, exact, &before, &model) {
        return Err(format!("{told:?}, exact is {exact:?}, the check says {in_order:?}"));
    }
    memory.is_kept_around()?;
    tally.corrupt += u64::from(matches!(told, Err(refusal) if refusal.reason == Reason::Corrupt));
    let change = match call.change(told) {
        None => return same(memory, &before),
        Some(change) => change,
    };
    tally.changes += 1;
    model.apply(change);
    if states(memory.tree.words(), memory.owners.words()) != model.frames {
        return Err(format!("{told:?} changed other frames than {change:?}"));
    }
    if let (Some(words), Some(contents)) = (&memory.words, &model.contents) {
        words.same_as(contents).map_err(|fault| format!("{change:?}: {fault} wrongly"))?;
    }
    match check(memory, &memory.call(call.base, Request::Check)) {
        after if in_order == Ok(None) && after != Ok(None) => Err(format!("not in order then: {after:?}")),
        _ => Ok(()),
    }
}

/// Every word and byte is as it was.
fn same(memory: &Memory, before: &Memory) -> Result<(), String> {
    memory.same_as(before.tree.words(), before.owners.words())?;
    match (&memory.words, &before.words) {
        (Some(words), Some(before)) => words.same_as(before.words()),
        _ => Ok(()),
    }
}

/// What a search may answer beside the exact: "corrupt" where the memories are not an allocator's, and,
/// where a summary lies, nothing or something that is free indeed and has its place.
fn allowed(call: &Call<Request>, told: Answer, exact: Answer, before: &Memory, model: &Model) -> bool {
    let (size, align_log2) = match call.request {
        Request::Alloc { .. } => (1, 0),
        Request::Run { size, align_log2, .. } => (size, align_log2),
        _ => return false,
    };
    let reason = |answer: Answer| answer.err().map(|refusal| refusal.reason);
    if !matches!(reason(exact), None | Some(Reason::NoRoom | Reason::Corrupt)) {
        return false;
    }
    let lies = tree::first_lie(before.tree.words()).is_some();
    let single = matches!(call.request, Request::Alloc { .. });
    match (told, reason(told)) {
        (_, Some(Reason::Corrupt)) => allocators_only(before, call) != Ok(None),
        (_, Some(Reason::NoRoom)) => lies && (!single || before.tree.words()[0] == 0),
        (Ok(Some(addr)), _) => lies && is_run(model, call.base, addr, size, align_log2),
        _ => false,
    }
}

/// What the check of the tree and the owners alone says.
fn allocators_only(before: &Memory, call: &Call<Request>) -> Answer {
    let plain = Memory { words: None, ..before.clone() };
    check(&plain, &plain.call(call.base, Request::Check))
}

/// The frames from an address on are a free run, aligned and with its place.
fn is_run(model: &Model, base: usize, addr: usize, size: usize, align_log2: usize) -> bool {
    let away = addr.wrapping_sub(base);
    let from = away / FRAME;
    let aligned = from == 0 || from.trailing_zeros() as usize >= align_log2;
    let run = from.checked_add(size).and_then(|end| model.frames.get(from..end));
    away % FRAME == 0
        && aligned
        && has_place(base, from.saturating_add(size))
        && run.map_or(false, |run| run.iter().all(|&state| state == State::Free))
}

/// A start makes them an allocator's, whatever they held.
fn start(memory: &mut Memory, base: usize) -> Result<(), String> {
    let n = memory.words.as_ref().map_or(memory.owners.words().len(), |words| words.words().len() / WORDS);
    let n = if memory.words.is_some() { n } else { n.min(places(base)) };
    let call = memory.call(base, Request::Init { n });
    step(memory, &call, &mut Tally::default()).map_err(|fault| format!("{call:?}: {fault}"))?;
    let after = check(memory, &memory.call(base, Request::Check));
    if has_place(base, n) && after != Ok(None) {
        return Err(format!("{call:?}: not in order then: {after:?}"));
    }
    Ok(())
}
