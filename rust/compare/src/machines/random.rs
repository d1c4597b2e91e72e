//! Random sequences of requests of every kind, by random machines of random configurations, with regions and
//! addresses that are right, slightly wrong or another machine's. Between the requests machines write into
//! their frames; in the end all is given back, and nothing is lost.
use super::configs;
use super::model::{Model, Zone};
use super::request::{Region, Request, Which, BOTH};
use super::subject::Machines;
use super::trial::{Tally, Trial};
use crate::random::{align_log2, frame, size};
use crate::report::{grouped, Progress};
use crate::rng::Rng;
use crate::shared::request::{State, FRAME};

/// How many requests of a failed sequence are shown.
const SHOWN: usize = 8;
/// After so many requests all is compared.
const LOOK_EVERY: usize = 50;
/// After so many requests machines want something else.
const MOOD: usize = 40;

/// How much is run with so many frames.
#[derive(Clone, Copy)]
pub struct Extent {
    pub frames: usize,
    pub sequences: usize,
    pub length: usize,
}

/// What machines mostly want for a while.
#[derive(Clone, Copy)]
pub enum Mood {
    Anything,
    /// Frames, until there are none.
    More,
    /// To give back what they have.
    Less,
}

/// Runs so many sequences.
pub fn run<S: Machines>(extent: Extent) -> Result<String, String> {
    let mut tally = Tally::default();
    let mut progress = Progress::new(&format!("machines at {}", extent.frames), extent.sequences);
    for seed in 0..extent.sequences {
        progress.at(seed);
        let mut rng = Rng::new(seed as u64 ^ (extent.frames as u64) << 32);
        sequence::<S>(extent, &mut rng, &mut tally).map_err(|fault| format!("seed {seed}, {fault}"))?;
    }
    Ok(format!("{} configurations: {tally}", grouped(extent.sequences as u64)))
}

/// One sequence with its own configuration.
fn sequence<S: Machines>(extent: Extent, rng: &mut Rng, tally: &mut Tally) -> Result<(), String> {
    let plan = configs::plan(rng, extent.frames);
    let mut trial = Trial::<S>::new(&plan, rng)?;
    let mut asked = Vec::new();
    let mut mood = Mood::Anything;
    for step in 1..=extent.length {
        if step % MOOD == 0 {
            mood = rng.pick(&[Mood::Anything, Mood::More, Mood::Less]);
        }
        let (number, request) = question(rng, &trial.model, mood);
        asked.push((number, request));
        let compared = trial.step(number, request, tally).map(|_| ());
        let looked = if step % LOOK_EVERY == 0 { trial.look_at_all(tally) } else { Ok(()) };
        compared.and(looked).map_err(|fault| {
            let shown = &asked[asked.len().saturating_sub(SHOWN)..];
            format!("request {step}: {fault}; the last requests: {shown:x?}; {plan:x?}")
        })?;
        trial.write(rng.small_below(extent.frames), rng, tally);
    }
    give_all_back(&mut trial, rng, tally).map_err(|fault| format!("at the end: {fault}"))
}

/// Some request of some machine: mostly one that can be met.
pub fn question(rng: &mut Rng, model: &Model, mood: Mood) -> (u64, Request) {
    let (number, m) = asker(rng, model);
    (number, request(rng, model, m, mood))
}

/// The number of some machine, now and then one that is none's, and the machine's place.
pub fn asker(rng: &mut Rng, model: &Model) -> (u64, usize) {
    let machines = &model.plan.config.machines;
    let m = rng.small_below(machines.len().max(1));
    let number = machines.get(m).map_or(0, |machine| u64::from(machine.number));
    let number = match rng.below(24) {
        0 => rng.pick(&[number + 1, number + 65536, number | 1 << 63, u64::MAX, 65535]),
        _ => number,
    };
    (number, m)
}

/// Some request of machine m, which there may not be.
pub fn request(rng: &mut Rng, model: &Model, m: usize, mood: Mood) -> Request {
    let is_present = model.zones.get(m).map_or(false, |zone| zone.present);
    if !is_present && rng.once_in(2) {
        return Request::AddZone;
    }
    let which = rng.pick(&BOTH);
    let wish = match mood {
        Mood::More if rng.once_in(2) => 12 + rng.below(7),
        Mood::Less if rng.once_in(2) => 19 + rng.below(13),
        _ => rng.below(32),
    };
    match wish {
        0 => Request::AddZone,
        1..=7 => Request::Insert(which, region(rng, model, m, None)),
        8..=11 => translation(rng, model, m),
        12..=15 => Request::Alloc,
        16..=18 => run_of_frames(rng, model),
        19 if rng.once_in(4) => Request::RemoveZoneWhole,
        19 => Request::RemoveZone,
        20..=23 => Request::Remove(which, region(rng, model, m, Some(which))),
        24..=27 => {
            let k = its_frame(rng, model, m);
            Request::Dealloc { addr: address(rng, model, k) }
        }
        _ => {
            let k = its_frame(rng, model, m);
            Request::DeallocRun { addr: address(rng, model, k), count: count(rng, model, m, k) }
        }
    }
}

/// A run: mostly one that the usable frames could have.
fn run_of_frames(rng: &mut Rng, model: &Model) -> Request {
    let cap = model.frames.len();
    if rng.once_in(4) {
        return Request::Run { size: size(rng, cap), align_log2: align_log2(rng, cap) };
    }
    Request::Run { size: 1 + rng.small_below(model.plan.usable.max(1)), align_log2: rng.below(4) }
}

/// A region that machine m is given or, where one is named, that is in its set; now and then another
/// machine's, or one that is wrong in one field.
fn region(rng: &mut Rng, model: &Model, m: usize, set: Option<Which>) -> Region {
    let m = if rng.once_in(10) { rng.below(model.zones.len().max(1)) } else { m };
    let regions: Vec<Region> = match (model.zones.get(m), set) {
        (Some(zone), Some(which)) if !rng.once_in(8) => zone.sets[which as usize].clone(),
        (Some(_), _) => model.given(m).collect(),
        (None, _) => Vec::new(),
    };
    let region = match regions.len() {
        0 => Region { guest: 0, host: FRAME as u64, pages: 1, kind: 0 },
        some => regions[rng.below(some)],
    };
    if rng.once_in(8) {
        wrong(rng, region)
    } else {
        region
    }
}

/// The same region but for one field.
fn wrong(rng: &mut Rng, region: Region) -> Region {
    let Region { guest, host, pages, kind } = region;
    let page = FRAME as u64;
    match rng.below(6) {
        0 => Region { guest: near(rng, guest, page), ..region },
        1 => Region { host: near(rng, host, page), ..region },
        2 => Region { pages: near(rng, pages, 1), ..region },
        3 => Region { pages: rng.pick(&[0, u64::MAX, 1 << 52]), ..region },
        4 => Region { kind: (kind + 1 + rng.below(2) as u64) % 3, ..region },
        _ => Region { kind: rng.pick(&[3, 255, kind + 256, kind + (1 << 32), u64::MAX]), ..region },
    }
}

/// A number a little above or below.
fn near(rng: &mut Rng, number: u64, step: u64) -> u64 {
    rng.pick(&[number.wrapping_add(step), number.wrapping_sub(step), number ^ 1])
}

/// A guest address in a region of machine m or at its ends, or any; now and then in a set that is none.
fn translation(rng: &mut Rng, model: &Model, m: usize) -> Request {
    let which = rng.pick(&BOTH);
    let Region { guest, pages, .. } = region(rng, model, m, Some(which));
    let end = guest.wrapping_add(pages.wrapping_mul(FRAME as u64));
    let inside = guest.wrapping_add(rng.bits() % (FRAME as u64 * pages.clamp(1, 1 << 40)));
    let addr = rng.pick(&[guest, inside, inside, end.wrapping_sub(1), end, guest.wrapping_sub(1)]);
    let which = match rng.below(24) {
        0 => rng.pick(&[2, 3, 256, 1 << 32, u64::MAX]),
        _ => which as u64,
    };
    Request::Translate { which, addr: if rng.once_in(16) { rng.bits() } else { addr } }
}

/// A frame that machine m owns, if it has one and mostly, or any.
pub fn its_frame(rng: &mut Rng, model: &Model, m: usize) -> usize {
    let (from, all) = (rng.small_below(model.plan.usable.max(1)), model.frames.len());
    let its = |k: &usize| model.frames[*k] == State::Owned(m as u8);
    match (from..all).chain(0..from).find(its) {
        Some(k) if !rng.once_in(8) => k,
        _ => frame(rng, all),
    }
}

/// The address of frame k, now and then one between frames, below the first or behind the last.
fn address(rng: &mut Rng, model: &Model, k: usize) -> usize {
    let pool = model.pool() as usize;
    let addr = pool.wrapping_add(FRAME.wrapping_mul(k));
    match rng.below(24) {
        0 => pool.wrapping_sub(rng.pick(&[1, FRAME, 2 * FRAME])),
        1 => addr.wrapping_add(rng.pick(&[1, 8, FRAME / 2, FRAME - 1])),
        2 => rng.pick(&[0, usize::MAX, FRAME.wrapping_neg()]),
        _ => addr,
    }
}

/// A number of frames from k on: mostly as many as machine m owns there or fewer, else any.
fn count(rng: &mut Rng, model: &Model, m: usize, k: usize) -> usize {
    let rest = model.frames.get(k..).unwrap_or(&[]);
    let its = rest.iter().take_while(|&&state| state == State::Owned(m as u8)).count();
    match rng.below(16) {
        0 => size(rng, model.frames.len()),
        1 | 2 => its + 1,
        3..=5 => rng.small_below(its + 1),
        _ => its.max(1),
    }
}

/// Every machine gives back all it has and goes, and everything is as at the start.
pub fn give_all_back<S: Machines>(
    trial: &mut Trial<S>,
    rng: &mut Rng,
    tally: &mut Tally,
) -> Result<(), String> {
    let is_present = |m: &usize| trial.model.zones[*m].present;
    let mut machines: Vec<usize> = (0..trial.model.zones.len()).filter(is_present).collect();
    rng.shuffle(&mut machines);
    for m in machines {
        let number = u64::from(trial.model.plan.config.machines[m].number);
        for request in all_of(&trial.model, m) {
            trial.step(number, request, tally)?.map_err(|code| format!("{request:x?}: {code}"))?;
        }
    }
    let fresh = Model::new(&trial.model.plan);
    if trial.model.zones != fresh.zones || trial.model.frames != fresh.frames {
        return Err("something was not given back".to_string());
    }
    trial.look_at_all(tally)
}

/// The requests by which machine m gives back all it has, and goes.
fn all_of(model: &Model, m: usize) -> Vec<Request> {
    let Zone { sets, .. } = &model.zones[m];
    let regions = BOTH
        .into_iter()
        .flat_map(|which| sets[which as usize].iter().map(move |&region| Request::Remove(which, region)));
    let its = |k: &usize| model.frames[*k] == State::Owned(m as u8);
    let frames = (0..model.frames.len()).filter(its);
    let frames = frames.map(|k| Request::Dealloc { addr: model.pool() as usize + FRAME * k });
    regions.chain(frames).chain([Request::RemoveZone]).collect()
}
