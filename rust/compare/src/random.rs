//! Random sequences of requests, of every kind and with arguments around every boundary.
use crate::report::{grouped, Progress};
use crate::request::Request;
use crate::rng::Rng;
use crate::trial::{Tally, Trial};
use crate::upstream::Leaves;

/// How many requests of a failed sequence are shown.
const SHOWN: usize = 12;

/// How much is run at one capacity.
#[derive(Clone, Copy)]
pub struct Extent {
    pub frames: usize,
    pub sequences: usize,
    pub length: usize,
    /// After so many requests all frames are compared by every function that looks.
    pub look_every: usize,
}

/// Runs so many sequences; upstream takes part if T has the capacity.
pub fn run<T: Leaves>(extent: Extent) -> Result<String, String> {
    let mut tally = Tally::default();
    let mut progress = Progress::new(&format!("random sequences at {}", extent.frames), extent.sequences);
    for seed in 0..extent.sequences {
        progress.at(seed);
        sequence::<T>(extent, seed, &mut tally)?;
    }
    Ok(format!("{} sequences of {}: {tally}", grouped(extent.sequences as u64), extent.length))
}

/// One sequence, which its seed determines.
fn sequence<T: Leaves>(extent: Extent, seed: usize, tally: &mut Tally) -> Result<(), String> {
    let mut rng = Rng::new(seed as u64 ^ (extent.frames as u64) << 32);
    let mut trial = Trial::<T>::new(extent.frames);
    let mut requests = Vec::new();
    if rng.once_in(2) {
        trial.step(Request::Insert(0, extent.frames), tally)?;
    }
    for step in 1..=extent.length {
        let request = request(&mut rng, extent.frames);
        requests.push(request);
        let compared = trial.step(request, tally);
        let looked = if step % extent.look_every == 0 { trial.look() } else { Ok(()) };
        compared.and(looked).map_err(|fault| {
            let shown = &requests[requests.len().saturating_sub(SHOWN)..];
            format!("seed {seed}, request {step}: {fault}; the last requests: {shown:?}")
        })?;
    }
    trial.look().map_err(|fault| format!("seed {seed}, at the end: {fault}"))
}

/// Some request: mostly one that can be met, now and then one on or beyond a boundary.
pub fn request(rng: &mut Rng, cap: usize) -> Request {
    match rng.below(10) {
        0 | 1 => Request::Alloc,
        2 => Request::Next(frame(rng, cap)),
        3 | 4 => Request::Run { size: size(rng, cap), align_log2: align_log2(rng, cap) },
        5 | 6 => Request::Dealloc(frame(rng, cap)),
        7 | 8 => {
            let (from, to) = range(rng, cap);
            Request::Insert(from, to)
        }
        _ => {
            let (from, to) = range(rng, cap);
            Request::Remove(from, to)
        }
    }
}

/// A frame's number: anywhere, low, or at and beyond the end.
pub fn frame(rng: &mut Rng, cap: usize) -> usize {
    match rng.below(16) {
        0 => rng.pick(&[0, cap - 1, cap, cap + 1, cap + 65536, usize::MAX]),
        1..=7 => rng.small_below(cap),
        _ => rng.below(cap),
    }
}

/// A run's size: small ones and powers of two as often as any.
pub fn size(rng: &mut Rng, cap: usize) -> usize {
    match rng.below(16) {
        0 => rng.pick(&[0, cap, cap + 1, usize::MAX]),
        1..=4 => 1 << rng.below(cap.trailing_zeros() as usize + 1),
        _ => 1 + rng.small_below(cap),
    }
}

/// An alignment: each up to two beyond the capacity, and some far beyond.
pub fn align_log2(rng: &mut Rng, cap: usize) -> usize {
    let beyond = cap.trailing_zeros() as usize + 3;
    match rng.below(16) {
        0 => rng.pick(&[60, 63, 64, 1000, usize::MAX]),
        1..=7 => 0,
        _ => rng.below(beyond),
    }
}

/// A range: mostly one that exists, short ones as often as long ones.
pub fn range(rng: &mut Rng, cap: usize) -> (usize, usize) {
    let (from, length) = (rng.below(cap), rng.small_below(cap));
    match rng.below(16) {
        0 => rng.pick(&[
            (0, 0),
            (0, cap),
            (0, cap + 1),
            (from, from),
            (from + 1, from),
            (cap, cap),
            (cap, 2 * cap),
            (from, usize::MAX),
        ]),
        _ => (from, cap.min(from + 1 + length)),
    }
}
