//! Every sequence of a few requests by a few clients, at sixteen frames.
use super::request::Request;
use super::trial::{Tally, Trial};
use crate::report::Progress;
use crate::rng::Rng;

/// How many requests a sequence has.
const LENGTH: usize = 4;
const FRAMES: usize = 16;
/// Clients that ask: three, and a number that is none.
const CLIENTS: [u8; 3] = [0, 1, 63];
const NO_CLIENT: u8 = 64;

/// Runs: client, size and alignment.
const RUNS: [(u8, usize, usize); 6] = [(0, 2, 0), (1, 3, 1), (1, 1, 64), (63, 16, 4), (0, 17, 0), (0, 0, 0)];
/// Frames to be given back: client and frame.
const FREED: [(u8, usize); 6] = [(0, 0), (1, 0), (1, 2), (63, 15), (0, 16), (NO_CLIENT, 0)];
/// Runs to be given back: client, first frame and count.
const FREED_RUNS: [(u8, usize, usize); 8] =
    [(0, 0, 2), (1, 0, 2), (1, 2, 3), (0, 0, 1), (63, 0, 16), (0, 1, 0), (0, 15, 2), (0, 1, usize::MAX)];
/// Ranges: from and to.
const RANGES: [(usize, usize); 6] = [(0, 1), (1, 4), (0, 16), (5, 5), (6, 5), (3, 17)];
/// How many frames are to be free at a start.
const STARTS: [usize; 3] = [0, 3, 17];

/// The requests that sequences are made of, for frames at this trial's base.
fn alphabet(trial: &Trial) -> Vec<Request> {
    let mut requests = vec![Request::Alloc { client: NO_CLIENT }, Request::ReleaseAll { client: NO_CLIENT }];
    requests.extend(CLIENTS.map(|client| Request::Alloc { client }));
    requests.extend(CLIENTS.map(|client| Request::ReleaseAll { client }));
    requests.extend(RUNS.map(|(client, size, align_log2)| Request::Run { client, size, align_log2 }));
    requests.extend(FREED.map(|(client, k)| Request::Dealloc { client, addr: trial.addr(k) }));
    requests.push(Request::Dealloc { client: 0, addr: trial.addr(0) + 8 });
    requests.push(Request::Dealloc { client: 0, addr: trial.addr(0) - 4096 });
    requests.extend(FREED_RUNS.map(|(client, k, count)| {
        let addr = trial.addr(k);
        Request::DeallocRun { client, addr, count }
    }));
    requests.extend(RANGES.map(|(from, to)| Request::Insert { from, to }));
    requests.extend(RANGES.map(|(from, to)| Request::Remove { from, to }));
    requests.extend(STARTS.map(|n| Request::Init { n }));
    requests
}

/// All sequences from an allocator at this base whose first n frames are free.
pub fn all(base: usize, n: usize) -> Result<String, String> {
    let mut tally = Tally::default();
    let first = Trial::new(FRAMES, base, n, false, &mut Rng::new(1))?;
    let alphabet = alphabet(&first);
    let mut states = vec![first; LENGTH + 1];
    let mut progress = Progress::new("shared sequences at 16", alphabet.len());
    for (done, &request) in alphabet.iter().enumerate() {
        progress.at(done);
        follow(&mut states, request, &alphabet, &mut tally)?;
    }
    Ok(format!("all sequences of {LENGTH} out of {}: {tally}", alphabet.len()))
}

/// Puts a request to the first state, and every longer sequence to the states behind it.
fn follow(
    states: &mut [Trial],
    request: Request,
    alphabet: &[Request],
    tally: &mut Tally,
) -> Result<(), String> {
    let (state, rest) = states.split_first_mut().expect("a state for each request");
    rest[0].copy_from(state);
    rest[0].ask(request, tally)?;
    if rest.len() == 1 {
        return Ok(());
    }
    for &then in alphabet {
        follow(rest, then, alphabet, tally).map_err(|fault| format!("{request:?}, {fault}"))?;
    }
    Ok(())
}
