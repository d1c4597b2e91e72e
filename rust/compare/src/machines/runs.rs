//! Random sequences of calls: each is run whole, and its calls are served one by one in a copy of the
//! memories; the replies and every word and byte are the same, and the model's. A sequence that is broken is
//! refused at the first item that is not whole, and changes nothing.
use super::bytes::{of_items, HEADER};
use super::calls::Ran;
use super::configs;
use super::damage::reached;
use super::lists::call;
use super::memory::{Memory, Sizes, Spare};
use super::model::Model;
use super::reach;
use super::reading::sound;
use super::request::BROKEN;
use super::subject::Calls;
use crate::report::{grouped, Progress};
use crate::rng::Rng;

/// The calls of a sequence at most.
const CALLS: usize = 12;

/// What was met.
#[derive(Default)]
struct Tally {
    calls: u64,
    done: u64,
}

/// Runs so many sequences with so many frames.
pub fn run<S: Calls>(frames: usize, sequences: usize) -> Result<String, String> {
    let mut progress = Progress::new(&format!("sequences of calls at {frames}"), sequences);
    let mut tally = Tally::default();
    for seed in 0..sequences {
        progress.at(seed);
        let mut rng = Rng::new(seed as u64 ^ (frames as u64) << 32);
        one::<S>(frames, &mut rng, &mut tally).map_err(|fault| format!("seed {seed}, {fault}"))?;
    }
    let [sequences, calls, done] = [sequences as u64, tally.calls, tally.done].map(grouped);
    Ok(format!("{sequences} sequences, broken and whole, of {calls} calls, {done} of them done"))
}

/// One sequence in memories that some requests led to, first broken and then whole.
fn one<S: Calls>(frames: usize, rng: &mut Rng, tally: &mut Tally) -> Result<(), String> {
    let plan = configs::plan(rng, frames);
    let (mut memory, _) = reached::<S>(&plan, rng)?;
    let mut spare = Spare::any(Sizes::of(&plan), rng);
    let model = sound(memory.view())?;
    let items = calls(rng, &model);
    let bytes = of_items(&items);
    broken::<S>(rng, &mut memory, &mut spare, &bytes)?;
    let (mut meant, mut copy) = (model, memory.clone());
    let (ran, wanted) = (memory.run::<S>(&mut spare, &bytes)?, meant.run(&bytes));
    if ran != wanted {
        return Err(format!("{} runs {items:x?}: {ran:x?}, and the model {wanted:x?}", S::NAME));
    }
    one_by_one::<S>(&mut copy, &mut spare, &items, &ran)?;
    memory.same_as(&copy).map_err(|fault| format!("the sequence and its calls one by one: {fault}"))?;
    reach::isolated(memory.view())?;
    if !sound(memory.view())?.same_as(&meant) {
        return Err(format!("{} runs {items:x?}, and something else changed", S::NAME));
    }
    tally.calls += items.len() as u64;
    tally.done += ran.replies.iter().filter(|reply| reply.code == 0).count() as u64;
    Ok(())
}

/// Some calls, each of which finds what those before it left; now and then one that is malformed.
pub fn calls(rng: &mut Rng, model: &Model) -> Vec<(u64, Vec<u8>)> {
    let mut model = model.clone();
    let mut items = Vec::new();
    for _ in 0..rng.below(CALLS + 1) {
        let (number, mut call) = call(rng, &model);
        if rng.once_in(12) {
            call.truncate(rng.below(call.len() + 1));
        }
        model.serve(number, &call);
        items.push((number, call));
    }
    items
}

/// The calls are served one by one, and are answered as in the sequence.
fn one_by_one<S: Calls>(
    memory: &mut Memory,
    spare: &mut Spare,
    items: &[(u64, Vec<u8>)],
    ran: &Ran,
) -> Result<(), String> {
    for ((number, call), reply) in items.iter().zip(&ran.replies) {
        let told = memory.serve::<S>(spare, *number, call)?.in_sequence();
        if told != *reply {
            return Err(format!("{number} calls {call:x?}: {told:x?}, and {reply:x?} in a sequence"));
        }
    }
    Ok(())
}

/// The sequence with an item at its end that is not whole is refused there, and changes nothing.
fn broken<S: Calls>(
    rng: &mut Rng,
    memory: &mut Memory,
    spare: &mut Spare,
    bytes: &[u8],
) -> Result<(), String> {
    let len = rng.below(40);
    let long = rng.pick(&[len as u64 + 1, 1 << 32, u64::MAX, u64::MAX - 15, u64::MAX - 16, 1 << 63]);
    let mut item = [1_u64.to_le_bytes(), long.to_le_bytes()].concat();
    item.extend(vec![0; len]);
    if rng.once_in(2) {
        item.truncate(1 + rng.below(HEADER - 1));
    }
    let (before, all) = (memory.clone(), [bytes, &item].concat());
    let wanted = Ran { code: BROKEN, offset: Some(bytes.len() as u64), replies: Vec::new() };
    let ran = memory.run::<S>(spare, &all)?;
    if ran != wanted {
        return Err(format!("{item:x?} behind {} bytes: {ran:x?}, and not {wanted:x?}", bytes.len()));
    }
    memory.same_as(&before).map_err(|fault| format!("a broken sequence: {fault}"))
}
