//! Calls and sequences that are any bytes, random or changed a little, in memories that are sound or damaged.
//! Each is answered and in bounds, and a refusal leaves every word and byte; where the memories are sound,
//! the replies and what they mean are the model's.
use super::bytes::of_items;
use super::calls::same;
use super::configs;
use super::damage::{damage, reached};
use super::lists::call;
use super::memory::{Memory, Spare};
use super::model::Model;
use super::reading::sound;
use super::request::MALFORMED;
use super::runs::calls;
use super::subject::Calls;
use crate::report::{grouped, Progress};
use crate::rng::Rng;

/// How often each memory is called.
const TIMES: usize = 6;

/// What was met.
#[derive(Default)]
struct Tally {
    sound: u64,
    malformed: u64,
    done: u64,
}

/// Runs on so many memories of so many frames.
pub fn run<S: Calls>(frames: usize, memories: usize) -> Result<String, String> {
    let mut progress = Progress::new(&format!("any bytes at {frames}"), memories);
    let mut tally = Tally::default();
    for seed in 0..memories {
        progress.at(seed);
        let mut rng = Rng::new(seed as u64 ^ (frames as u64) << 32);
        one::<S>(frames, &mut rng, &mut tally).map_err(|fault| format!("seed {seed}, {fault}"))?;
    }
    let [memories, sound, malformed, done] =
        [memories as u64, tally.sound, tally.malformed, tally.done].map(grouped);
    Ok(format!(
        "{memories} memories, {sound} of them sound at first, {TIMES} calls and sequences each; {malformed} \
         malformed, {done} done"
    ))
}

/// Some calls and sequences in one memory, which is damaged every second time.
fn one<S: Calls>(frames: usize, rng: &mut Rng, tally: &mut Tally) -> Result<(), String> {
    let plan = configs::plan(rng, frames);
    let (mut memory, model) = reached::<S>(&plan, rng)?;
    if rng.once_in(2) {
        damage(&mut memory, &plan, rng);
    }
    let mut spare = Spare::any(memory.sizes(), rng);
    tally.sound += u64::from(sound(memory.view()).is_ok());
    for _ in 0..TIMES {
        if rng.once_in(3) {
            let bytes = of_items(&calls(rng, &model));
            sequence::<S>(&mut memory, &mut spare, &changed(rng, bytes), tally)?;
        } else {
            let (number, bytes) = call(rng, &model);
            single::<S>(&mut memory, &mut spare, number, &changed(rng, bytes), tally)?;
        }
    }
    Ok(())
}

/// The same bytes, some of them changed, taken away or added; or random ones.
fn changed(rng: &mut Rng, mut bytes: Vec<u8>) -> Vec<u8> {
    match rng.below(6) {
        0 => (0..rng.small_below(400)).map(|_| rng.pick(&[0, 1, 8, 255, 33, 16]) ^ rare(rng)).collect(),
        1 | 2 => bytes,
        3 => {
            bytes.truncate(rng.below(bytes.len() + 1));
            bytes
        }
        4 => {
            bytes.insert(rng.below(bytes.len() + 1), rng.bits() as u8);
            bytes
        }
        _ => {
            for _ in 0..1 + rng.below(3) {
                let at = rng.below(bytes.len().max(1));
                let byte = rng.pick(&[0, 1, 255, 128]) ^ rare(rng);
                bytes.get_mut(at).into_iter().for_each(|changed| *changed = byte);
            }
            bytes
        }
    }
}

/// Any byte once in four times, and else 0.
fn rare(rng: &mut Rng) -> u8 {
    let any = rng.bits() as u8;
    if rng.once_in(4) {
        any
    } else {
        0
    }
}

/// One call.
fn single<S: Calls>(
    memory: &mut Memory,
    spare: &mut Spare,
    number: u64,
    bytes: &[u8],
    tally: &mut Tally,
) -> Result<(), String> {
    let before = memory.clone();
    let named = |fault: String| format!("{number} calls {bytes:x?}: {fault}");
    let reply = memory.serve::<S>(spare, number, bytes).map_err(named)?;
    tally.malformed += u64::from(reply.code == MALFORMED);
    tally.done += u64::from(reply.code == 0);
    kept(memory, &before, reply.code != 0).map_err(named)?;
    match sound(before.view()) {
        Ok(mut model) => {
            same(&reply, &model.serve(number, bytes)).and_then(|()| same_state(memory, &model)).map_err(named)
        }
        Err(_) => Ok(()),
    }
}

/// One sequence: it is refused whole, or each of its calls is.
fn sequence<S: Calls>(
    memory: &mut Memory,
    spare: &mut Spare,
    bytes: &[u8],
    tally: &mut Tally,
) -> Result<(), String> {
    let before = memory.clone();
    let named = |fault: String| format!("the sequence {bytes:x?}: {fault}");
    let ran = memory.run::<S>(spare, bytes).map_err(named)?;
    let is_refused = ran.code != 0 || ran.replies.iter().all(|reply| reply.code != 0);
    tally.malformed += ran.replies.iter().filter(|reply| reply.code == MALFORMED).count() as u64;
    tally.done += u64::from(!is_refused);
    kept(memory, &before, is_refused).map_err(named)?;
    match sound(before.view()) {
        Ok(mut model) => {
            same(&ran, &model.run(bytes)).and_then(|()| same_state(memory, &model)).map_err(named)
        }
        Err(_) => Ok(()),
    }
}

/// Every word and byte is kept where all is refused, and the table in any case.
fn kept(memory: &Memory, before: &Memory, is_refused: bool) -> Result<(), String> {
    memory.table.same_as(before.table.words()).map_err(|fault| format!("the table: {fault}"))?;
    if is_refused {
        memory.same_as(before).map_err(|fault| format!("a refusal, and {fault}"))?;
    }
    Ok(())
}

/// What the memories mean is what the model has.
fn same_state(memory: &Memory, model: &Model) -> Result<(), String> {
    if sound(memory.view())?.same_as(model) {
        return Ok(());
    }
    Err("something else changed".to_string())
}
