//! Sets that are out of order: two regions of a machine's set with their slots swapped. A request that meets a
//! slot which does not follow the one before it is answered with "corrupt", by its function, as a call and in a
//! list, and changes nothing: the region in it leaves the set, an address in it is translated.
use super::bytes::{of_list, of_request};
use super::calls::Reply;
use super::configs;
use super::memory::{Memory, Sizes, Spare};
use super::model::{Model, Plan};
use super::request::{said, Region, Request, BOTH, CORRUPT};
use super::subject::Calls;
use crate::config_plain::bytes;
use crate::report::grouped;
use crate::rng::Rng;
use crate::shared::request::FRAME;
use std::ops::Range;

/// A machine with so many regions has two that can be swapped.
const TWO: usize = 2;

/// Damages so many sets.
pub fn run<S: Calls>(times: usize) -> Result<String, String> {
    let mut requests = 0;
    for seed in 0..times {
        let mut rng = Rng::new(seed as u64);
        requests += one::<S>(&mut rng).map_err(|fault| format!("seed {seed}, {fault}"))?;
    }
    let [times, requests] = [times as u64, requests].map(grouped);
    Ok(format!("{times} sets, {requests} requests, each by its function, as a call and in a list"))
}

/// One set of one machine is damaged. Says how many requests were answered.
fn one<S: Calls>(rng: &mut Rng) -> Result<u64, String> {
    let (plan, m) = plan_of_two(rng);
    let number = u64::from(plan.config.machines[m].number);
    let mut memory = filled::<S>(&plan, m, rng)?;
    let mut spare = Spare::any(Sizes::of(&plan), rng);
    let which = rng.below(2);
    let words = &mut memory.zones.words_mut()[set(&plan, m, which)];
    let requests = disorder(words, rng).flat_map(|slot| requests(words, which, slot)).collect::<Vec<_>>();
    for &request in &requests {
        refused::<S>(&mut memory, &mut spare, number, request)
            .map_err(|fault| format!("set {which}, {number} asks {request:x?}: {fault}; {plan:x?}"))?;
    }
    Ok(requests.len() as u64)
}

/// A plan with a machine that has two regions or more, and its place.
fn plan_of_two(rng: &mut Rng) -> (Plan, usize) {
    loop {
        let plan = configs::plan(rng, 16);
        let machines = &plan.config.machines;
        if let Some(m) = machines.iter().position(|machine| machine.regions.len() >= TWO) {
            return (plan, m);
        }
    }
}

/// The memories after machine m was added, and all it is given entered both sets.
fn filled<S: Calls>(plan: &Plan, m: usize, rng: &mut Rng) -> Result<Memory, String> {
    let mut memory = Memory::any(Sizes::of(plan), rng);
    let model = Model::new(plan);
    let number = u64::from(plan.config.machines[m].number);
    let inserts = BOTH.into_iter().flat_map(|which| {
        model.given(m).map(move |region| Request::Insert(which, region)).collect::<Vec<_>>()
    });
    match memory.start::<S>(&bytes(&plan.config)) {
        0 => {}
        code => return Err(format!("the start is refused with {code}")),
    }
    for request in [Request::AddZone].into_iter().chain(inserts) {
        memory.ask::<S>(number, request).map_err(|code| format!("{request:x?} is refused with {code}"))?;
    }
    Ok(memory)
}

/// Where the words of a set of machine m are.
fn set(plan: &Plan, m: usize, which: usize) -> Range<usize> {
    let half = 1 + 4 * plan.slots;
    let start = m * (1 + 2 * half) + 1 + which * half;
    start..start + half
}

/// Swaps the regions in two slots of a set. Answers the slots that do not follow the ones before them then.
fn disorder(set: &mut [u64], rng: &mut Rng) -> impl Iterator<Item = usize> {
    let count = set[0] as usize;
    let i = rng.below(count - 1);
    let j = i + 1 + rng.below(count - 1 - i);
    (0..4).for_each(|word| set.swap(1 + 4 * i + word, 1 + 4 * j + word));
    [i + 1, j].into_iter()
}

/// The region in a slot leaves the set, and its first and last addresses are looked for.
fn requests(set: &[u64], which: usize, slot: usize) -> [Request; 3] {
    let at = 1 + 4 * slot;
    let region = Region { guest: set[at], host: set[at + 1], pages: set[at + 2], kind: set[at + 3] };
    let translate = |addr| Request::Translate { which: which as u64, addr };
    let end = region.guest + FRAME as u64 * region.pages;
    [Request::Remove(BOTH[which], region), translate(region.guest), translate(end - 1)]
}

/// A request is answered with "corrupt" by its function, as a call and in a list, and changes nothing.
fn refused<S: Calls>(
    memory: &mut Memory,
    spare: &mut Spare,
    number: u64,
    request: Request,
) -> Result<(), String> {
    let before = memory.clone();
    let answer = memory.ask::<S>(number, request);
    if answer != Err(CORRUPT) {
        return Err(said(answer));
    }
    memory.same_as(&before)?;
    let single = Reply::one(Err(CORRUPT));
    for (call, wanted) in [(of_request(request), single), (of_list(&[request]), Reply::no(CORRUPT, 0))] {
        let reply = memory.serve::<S>(spare, number, &call)?;
        if reply != wanted {
            return Err(format!("in a call {reply:x?}"));
        }
        memory.same_as(&before)?;
    }
    Ok(())
}
