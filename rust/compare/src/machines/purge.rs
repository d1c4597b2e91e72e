//! What a machine is told that asks nothing of the allocator does not depend on the others: in a sequence of
//! all machines' calls it gets the replies that it gets in its own calls alone.
use super::bytes::{self, of_items, of_list, of_request, Call};
use super::calls::Reply;
use super::configs;
use super::lists;
use super::memory::{Memory, Sizes, Spare};
use super::model::{Model, Plan};
use super::random::{request, Mood};
use super::request::Request;
use super::subject::Calls;
use crate::config_plain;
use crate::report::{grouped, Progress};
use crate::rng::Rng;

/// The calls of a sequence.
const CALLS: usize = 40;
/// How many requests are tried for a list at most, and one of how many that are refused stays.
const TRIES: usize = 24;
const REFUSED: usize = 40;

/// Runs so many pairs of sequences with so many frames.
pub fn run<S: Calls>(frames: usize, pairs: usize) -> Result<String, String> {
    let mut progress = Progress::new(&format!("pairs of sequences at {frames}"), pairs);
    let (mut replies, mut done) = (0, 0);
    for seed in 0..pairs {
        progress.at(seed);
        let mut rng = Rng::new(seed as u64 ^ (frames as u64) << 32);
        let told = pair::<S>(frames, &mut rng).map_err(|fault| format!("seed {seed}, {fault}"))?;
        replies += told.len() as u64;
        done += told.iter().filter(|reply| reply.code == 0).count() as u64;
    }
    let [pairs, replies, done] = [pairs as u64, replies, done].map(grouped);
    Ok(format!(
        "{pairs} pairs of sequences, {replies} replies that are the same in both, {done} of them done"
    ))
}

/// One pair: the replies of the machine that asks nothing of the allocator.
fn pair<S: Calls>(frames: usize, rng: &mut Rng) -> Result<Vec<Reply>, String> {
    let plan = configs::plan(rng, frames);
    let quiet = rng.below(plan.config.machines.len().max(1));
    let number = plan.config.machines.get(quiet).map_or(0, |machine| u64::from(machine.number));
    let items = calls(rng, &plan, quiet, number);
    let mut told = replies::<S>(&plan, rng, &items)?.into_iter().zip(&items);
    let own: Vec<_> = items.iter().filter(|(asker, _)| *asker == number).cloned().collect();
    let alone = replies::<S>(&plan, rng, &own)?;
    for (reply, (_, call)) in alone.iter().zip(own) {
        match told.find(|(_, (asker, _))| *asker == number) {
            Some((same, _)) if same == *reply => {}
            other => return Err(format!("{number} calls {call:x?}: {other:x?}, and alone {reply:x?}")),
        }
    }
    Ok(alone)
}

/// Calls of all machines, of which the one at `quiet` asks nothing of the allocator.
fn calls(rng: &mut Rng, plan: &Plan, quiet: usize, number: u64) -> Vec<(u64, Vec<u8>)> {
    let mut model = Model::new(plan);
    let mut items = Vec::new();
    while items.len() < CALLS {
        let (asker, call) = match rng.below(2) {
            0 => (number, quiet_call(rng, &model, quiet, number)),
            _ => lists::call(rng, &model),
        };
        let is_loud = asker == number && asks_the_allocator(&call);
        if !is_loud {
            model.serve(asker, &call);
            items.push((asker, call));
        }
    }
    items
}

/// Whether a request is one for frames.
fn is_for_frames(request: Request) -> bool {
    use Request::{Alloc, Dealloc, DeallocRun, Run};
    matches!(request, Alloc | Run { .. } | Dealloc { .. } | DeallocRun { .. })
}

/// Whether a call has a request for frames.
fn asks_the_allocator(call: &[u8]) -> bool {
    match bytes::call(call) {
        Ok(Call::One(request)) => is_for_frames(request),
        Ok(Call::List(requests)) => requests.into_iter().any(is_for_frames),
        Err(_) => false,
    }
}

/// A request of machine m that is not for frames.
fn quiet_request(rng: &mut Rng, model: &Model, m: usize) -> Request {
    loop {
        let request = request(rng, model, m, Mood::Anything);
        if !is_for_frames(request) {
            return request;
        }
    }
}

/// A single request or a list of machine m, whose members are mostly met and never for frames.
fn quiet_call(rng: &mut Rng, model: &Model, m: usize, number: u64) -> Vec<u8> {
    if rng.once_in(2) {
        return of_request(quiet_request(rng, model, m));
    }
    let mut model = model.clone();
    let mut members = Vec::new();
    for _ in 0..rng.below(TRIES) {
        let request = quiet_request(rng, &model, m);
        if model.ask(number, request).is_ok() || rng.once_in(REFUSED) {
            members.push(request);
        }
    }
    of_list(&members)
}

/// The replies to calls, from a start on.
fn replies<S: Calls>(plan: &Plan, rng: &mut Rng, items: &[(u64, Vec<u8>)]) -> Result<Vec<Reply>, String> {
    let mut memory = Memory::any(Sizes::of(plan), rng);
    let mut spare = Spare::any(Sizes::of(plan), rng);
    if memory.start::<S>(&config_plain::bytes(&plan.config)) != 0 {
        return Err("the start of a sound memory is refused".to_string());
    }
    let ran = memory.run::<S>(&mut spare, &of_items(items))?;
    match ran.code {
        0 => Ok(ran.replies),
        code => Err(format!("a sequence is refused with {code}")),
    }
}
