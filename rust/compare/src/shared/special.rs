//! What random sequences seldom meet: no frame left in the middle of a sequence, and all frames of a
//! client given back at once.
use super::model::CLIENTS;
use super::random;
use super::request::{Change, Request, State};
use super::trial::{Tally, Trial};
use crate::report::grouped;
use crate::request::Reason;
use crate::rng::Rng;

/// How many requests stand between one exhaustion and the next.
const BETWEEN: usize = 20;
/// How often frames are dealt out at most.
const DEALT: usize = 300;
/// Runs that are refused where no frame is left: size and alignment.
const NO_RUNS: [(usize, usize); 4] = [(1, 0), (2, 0), (16, 4), (usize::MAX, 0)];

/// Allocators that are emptied twice, each time by several clients and in the middle of other requests.
pub fn exhaustion(frames: usize, contents: bool, times: usize) -> Result<String, String> {
    let mut tally = Tally::default();
    for seed in 0..times {
        let mut rng = Rng::new(seed as u64);
        exhaust_twice(frames, contents, &mut rng, &mut tally)
            .map_err(|fault| format!("seed {seed}: {fault}"))?;
    }
    Ok(format!("{} allocators exhausted twice: {tally}", grouped(times as u64)))
}

/// Random requests, until none is left, more of them, and until none is left again.
fn exhaust_twice(frames: usize, contents: bool, rng: &mut Rng, tally: &mut Tally) -> Result<(), String> {
    let mut trial = random::begin(frames, contents, rng)?;
    for _ in 0..2 {
        for _ in 0..BETWEEN {
            trial.step(&random::call(rng, &trial), tally)?;
        }
        take_all(&mut trial, rng, tally)?;
        refuses_all(&mut trial, tally)?;
        trial.look_at_all()?;
        trial.ask(Request::ReleaseAll { client: random::client(rng) }, tally)?;
    }
    trial.look_at_all()
}

/// Clients take runs as long as there are, ever smaller ones, and then single frames.
fn take_all(trial: &mut Trial, rng: &mut Rng, tally: &mut Tally) -> Result<(), String> {
    let mut size = trial.model.frames.len();
    loop {
        let client = rng.below(usize::from(CLIENTS)) as u8;
        let request = match size {
            1 => Request::Alloc { client },
            _ => Request::Run { client, size, align_log2: rng.below(3) },
        };
        match (trial.ask(request, tally)?, size) {
            (Some(_), _) => {}
            (None, 1) => return Ok(()),
            (None, _) => size /= 2,
        }
    }
}

/// Where no frame is left, every allocation is refused, for every client.
fn refuses_all(trial: &mut Trial, tally: &mut Tally) -> Result<(), String> {
    let singles = (0..CLIENTS).map(|client| Request::Alloc { client });
    let runs = NO_RUNS.into_iter().map(|(size, align_log2)| Request::Run { client: 0, size, align_log2 });
    for request in singles.chain(runs) {
        let call = trial.call(request);
        if trial.model.answer(&call) != Err(Reason::NoRoom.into()) {
            return Err(format!("{request:?} has room where no frame is left"));
        }
        trial.step(&call, tally)?;
    }
    Ok(())
}

/// Clients own frames in many patterns and give all back, one after the other; nothing is lost by it.
pub fn releases(frames: usize, contents: bool, times: usize) -> Result<String, String> {
    let mut tally = Tally::default();
    for seed in 0..times {
        let mut rng = Rng::new(seed as u64);
        release_each(frames, contents, &mut rng, &mut tally)
            .map_err(|fault| format!("seed {seed}: {fault}"))?;
    }
    Ok(format!("{} allocators, all clients of each released: {tally}", grouped(times as u64)))
}

/// Frames are dealt out by a pattern, and then every client is released, in a random order.
fn release_each(frames: usize, contents: bool, rng: &mut Rng, tally: &mut Tally) -> Result<(), String> {
    let mut trial = random::begin(frames, contents, rng)?;
    let free = trial.model.frames.iter().filter(|&&state| state == State::Free).count();
    deal_out(&mut trial, rng, tally)?;
    let mut clients: Vec<u8> = (0..=CLIENTS).collect();
    rng.shuffle(&mut clients);
    for client in clients {
        trial.ask(Request::ReleaseAll { client }, tally)?;
    }
    trial.look_at_all()?;
    match trial.model.frames.iter().filter(|&&state| state == State::Free).count() {
        left if left == free => Ok(()),
        left => Err(format!("{free} frames were free, and {left} are when all is given back")),
    }
}

/// Gives frames to clients by turns, in stretches of any length up to one: all, some or none.
fn deal_out(trial: &mut Trial, rng: &mut Rng, tally: &mut Tally) -> Result<(), String> {
    let frames = trial.model.frames.len();
    let (clients, longest) = (rng.pick(&[1, 2, 5, 64]), rng.pick(&[1, 2, frames / 8, frames]));
    for turn in 0..rng.pick(&[0, 10, DEALT]) {
        let size = if rng.once_in(4) { longest } else { 1 + rng.below(longest) };
        let request = Request::Run { client: (turn % clients) as u8, size, align_log2: 0 };
        if let Some(Change::Range { from, .. }) = trial.ask(request, tally)? {
            trial.write(from, rng);
        }
    }
    Ok(())
}
