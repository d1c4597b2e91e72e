//! Random sequences of requests of every kind, by random clients and with arguments around every
//! boundary. Where contents are kept, clients write into their frames between the requests.
use super::model::{places, Model};
use super::request::{Call, Look, Request, Sizes, State, FRAME};
use super::trial::{Tally, Trial};
use crate::lent::GUARD;
use crate::random::{align_log2, frame, range, size, Extent};
use crate::report::{grouped, Progress};
use crate::rng::Rng;

/// How many requests of a failed sequence are shown.
const SHOWN: usize = 12;
/// Clients that are often asked for, and numbers that are no client's.
const OFTEN: [u8; 4] = [0, 1, 2, 63];
const NO_CLIENTS: [u8; 5] = [64, 65, 128, 254, 255];

/// Runs so many sequences, with contents or without.
pub fn run(extent: Extent, contents: bool) -> Result<String, String> {
    let mut tally = Tally::default();
    let mut progress = Progress::new(&format!("shared sequences at {}", extent.frames), extent.sequences);
    for seed in 0..extent.sequences {
        progress.at(seed);
        sequence(extent, contents, seed, &mut tally).map_err(|fault| format!("seed {seed}, {fault}"))?;
    }
    Ok(format!("{} sequences of {}: {tally}", grouped(extent.sequences as u64), extent.length))
}

/// One sequence, which its seed determines.
fn sequence(extent: Extent, contents: bool, seed: usize, tally: &mut Tally) -> Result<(), String> {
    let mut rng = Rng::new(seed as u64 ^ (extent.frames as u64) << 32);
    let mut trial = begin(extent.frames, contents, &mut rng)?;
    let mut requests = Vec::new();
    for step in 1..=extent.length {
        let call = call(&mut rng, &trial);
        requests.push(call.request);
        let compared = round(&mut trial, &call, &mut rng, tally);
        let looked = if step % extent.look_every == 0 { trial.look_at_all() } else { Ok(()) };
        compared.and(looked).map_err(|fault| {
            let shown = &requests[requests.len().saturating_sub(SHOWN)..];
            format!("request {step}: {fault}; the last requests: {shown:?}")
        })?;
    }
    trial.look_at_all().map_err(|fault| format!("at the end: {fault}"))
}

/// One request and one question, and perhaps a write of some client into a frame that it owns.
fn round(trial: &mut Trial, call: &Call<Request>, rng: &mut Rng, tally: &mut Tally) -> Result<(), String> {
    trial.step(call, tally)?;
    trial.look(&question(rng, trial))?;
    let all = trial.model.frames.len();
    let k = if rng.once_in(2) { rng.below(all) } else { rng.small_below(all) };
    if matches!(trial.model.frames[k], State::Owned(_)) {
        trial.write(k, rng);
    }
    Ok(())
}

/// An allocator at some base, of which most frames are free where they have a place.
pub fn begin(frames: usize, contents: bool, rng: &mut Rng) -> Result<Trial, String> {
    let base = base(rng, frames);
    let most = frames.min(places(base));
    let n = match rng.below(8) {
        0 => 0,
        1 => rng.small_below(most + 1),
        2 => rng.below(most + 1),
        _ => most,
    };
    Trial::new(frames, base, n, contents, rng)
}

/// A base: low, anywhere, or so near the end of all addresses that some frames have no place.
pub fn base(rng: &mut Rng, cap: usize) -> usize {
    let pages = match rng.below(8) {
        0 => 0,
        1 => 1,
        2 => rng.bits() as usize,
        3 => 0_usize.wrapping_sub(rng.pick(&[1, 2, 3, cap / 2, cap, cap + 1, cap + 2])),
        _ => 1 << rng.below(40),
    };
    FRAME.wrapping_mul(pages)
}

/// Some call: mostly one that can be met, now and then one on or beyond a boundary.
pub fn call(rng: &mut Rng, trial: &Trial) -> Call<Request> {
    let request = request(rng, &trial.model, trial.base);
    spoilt(rng, trial.call(request))
}

/// Some question, likewise.
fn question(rng: &mut Rng, trial: &Trial) -> Call<Look> {
    let cap = trial.model.frames.len();
    let look = match rng.below(4) {
        0 => Look::Fid { addr: address(rng, cap, trial.base) },
        1 if rng.once_in(2) => Look::Paddr { k: places(trial.base).wrapping_add(rng.below(3)) },
        1 => Look::Paddr { k: frame(rng, cap) },
        // Counting goes over all frames.
        2 if cap <= 4096 || rng.once_in(16) => Look::OwnedCount { client: client(rng) },
        _ => Look::Owner { k: frame(rng, cap) },
    };
    spoilt(rng, trial.call(look))
}

/// The same call, now and then with a base that is none or with memories of a wrong length.
fn spoilt<R>(rng: &mut Rng, mut call: Call<R>) -> Call<R> {
    match rng.below(64) {
        0 => call.base = call.base.wrapping_add(rng.pick(&[1, 8, FRAME / 2, FRAME - 1])),
        1 | 2 => call.sizes = wrong_sizes(rng, call.sizes),
        _ => {}
    }
    call
}

/// Lengths of which one at least is wrong.
fn wrong_sizes(rng: &mut Rng, right: Sizes) -> Sizes {
    let mut sizes = right;
    while sizes == right {
        if rng.once_in(2) {
            sizes.tree = rng.pick(&[0, 1, 2, 16, 17, right.tree - 1, right.tree + 1]).min(right.tree + GUARD);
        }
        if rng.once_in(2) {
            sizes.owners = rng.pick(&[0, 1, right.owners - 1, right.owners + 1, right.owners + GUARD]);
        }
        if rng.once_in(2) && right.words > 0 {
            sizes.words = rng.pick(&[1, right.words - 1, right.words + 1]);
        }
    }
    sizes
}

/// Some request to an allocator in this state, at this base.
pub fn request(rng: &mut Rng, model: &Model, base: usize) -> Request {
    let cap = model.frames.len();
    match rng.below(32) {
        0 if rng.once_in(8) => Request::Init { n: number_to_start(rng, cap, base) },
        0..=6 => Request::Alloc { client: client(rng) },
        7..=12 => {
            let (size, align_log2) = (size(rng, cap), align_log2(rng, cap));
            Request::Run { client: client(rng), size, align_log2 }
        }
        13..=17 => {
            let addr = address(rng, cap, base);
            Request::Dealloc { client: owner_or_any(rng, model, base, addr), addr }
        }
        18..=22 => {
            let addr = address(rng, cap, base);
            let client = owner_or_any(rng, model, base, addr);
            let from = frame_at(model, base, addr).unwrap_or(cap);
            Request::DeallocRun { client, addr, count: count(rng, model, client, from) }
        }
        23..=25 => {
            let (from, to) = range(rng, cap);
            Request::Insert { from, to }
        }
        26..=28 => {
            let (from, to) = range(rng, cap);
            Request::Remove { from, to }
        }
        29 | 30 => Request::ReleaseAll { client: client(rng) },
        _ => Request::Check,
    }
}

/// How many frames are to be free at the start: mostly as many as there are and have a place.
fn number_to_start(rng: &mut Rng, cap: usize, base: usize) -> usize {
    let most = places(base);
    match rng.below(3) {
        0 => rng.pick(&[0, 1, cap, cap + 1, usize::MAX, most, most.saturating_add(1)]),
        1 => rng.below(cap + 1),
        _ => cap.min(most),
    }
}

/// A client: mostly one of a few, now and then any, and a number that is none.
pub fn client(rng: &mut Rng) -> u8 {
    match rng.below(32) {
        0 => rng.pick(&NO_CLIENTS),
        1..=4 => rng.below(64) as u8,
        _ => rng.pick(&OFTEN),
    }
}

/// The address of frame k, whatever k is.
fn addr(base: usize, k: usize) -> usize {
    base.wrapping_add(FRAME.wrapping_mul(k))
}

/// An address: mostly that of a frame, now and then one between frames, below the base or at the end.
fn address(rng: &mut Rng, cap: usize, base: usize) -> usize {
    let some = addr(base, frame(rng, cap));
    match rng.below(32) {
        0 => rng.pick(&[0, usize::MAX, FRAME.wrapping_neg(), addr(base, cap), addr(base, cap - 1)]),
        1 => base.wrapping_sub(rng.pick(&[1, FRAME, 2 * FRAME])),
        2 => some.wrapping_add(rng.pick(&[1, 8, FRAME / 2, FRAME - 1])),
        _ => some,
    }
}

/// The number of the frame at an address, if there is one.
fn frame_at(model: &Model, base: usize, addr: usize) -> Option<usize> {
    Some(addr.wrapping_sub(base) / FRAME).filter(|&k| k < model.frames.len())
}

/// Mostly the client that owns the frame at an address, else any.
fn owner_or_any(rng: &mut Rng, model: &Model, base: usize, addr: usize) -> u8 {
    match frame_at(model, base, addr).map(|k| model.frames[k]) {
        Some(State::Owned(client)) if !rng.once_in(8) => client,
        _ => client(rng),
    }
}

/// A number of frames from one on: mostly as many as the client owns there or fewer, else any.
fn count(rng: &mut Rng, model: &Model, client: u8, from: usize) -> usize {
    let its = model.frames[from..].iter().take_while(|&&state| state == State::Owned(client)).count();
    match rng.below(8) {
        0 => size(rng, model.frames.len()),
        1 => its + 1,
        2 | 3 => rng.small_below(its + 1),
        _ => its,
    }
}
