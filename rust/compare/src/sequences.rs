//! Every sequence of requests with small arguments, and every state of the smallest tree.
use crate::report::Progress;
use crate::request::Request;
use crate::trial::{Tally, Trial};
use crate::upstream::{BitAlloc16, Leaves};

/// How many requests a sequence has.
const LENGTH: usize = 4;

/// Single frames to ask for, beside those that depend on the capacity.
const FRAMES: [usize; 4] = [0, 1, 2, 65536];
/// Runs: size and alignment.
const RUNS: [(usize, usize); 10] =
    [(0, 0), (1, 0), (2, 0), (3, 0), (2, 1), (3, 2), (1, 63), (1, 64), (2, 1000), (usize::MAX, 0)];
/// Ranges: from and to.
const RANGES: [(usize, usize); 6] = [(0, 1), (0, 2), (1, 3), (5, 5), (6, 5), (3, 9)];

/// The requests that sequences are made of, at one capacity.
fn alphabet(cap: usize) -> Vec<Request> {
    let log2 = cap.trailing_zeros() as usize;
    let mut requests = vec![Request::Alloc];
    requests.extend([0, 1, cap - 1, cap].map(Request::Next));
    requests.extend(FRAMES.map(Request::Dealloc));
    requests.extend([cap - 1, cap].map(Request::Dealloc));
    let wide = [(cap, log2), (1, log2 + 1), (cap, log2 + 2), (cap + 1, 0), (cap / 2, log2 - 1)];
    requests.extend(RUNS.iter().chain(&wide).map(|&(size, align_log2)| Request::Run { size, align_log2 }));
    let mut ranges = RANGES.to_vec();
    ranges.extend([(0, cap), (0, cap + 1), (cap - 2, cap)]);
    if cap > 16 {
        ranges.extend([(15, 17), (0, 16)]);
    }
    requests.extend(ranges.iter().map(|&(from, to)| Request::Insert(from, to)));
    requests.extend(ranges.iter().map(|&(from, to)| Request::Remove(from, to)));
    requests
}

/// All sequences at the capacity of T, from a tree with every frame taken or every frame free.
pub fn all<T: Leaves>(free: bool) -> Result<String, String> {
    let alphabet = alphabet(T::cap());
    let mut tally = Tally::default();
    let mut states: Vec<Trial<T>> = (0..=LENGTH).map(|_| Trial::new(T::cap())).collect();
    if free {
        states[0].step(Request::Insert(0, T::cap()), &mut tally)?;
    }
    let mut progress = Progress::new(&format!("sequences at {}", T::cap()), alphabet.len());
    for (done, &request) in alphabet.iter().enumerate() {
        progress.at(done);
        follow(&mut states, request, &alphabet, &mut tally)?;
    }
    Ok(format!("all sequences of {LENGTH} out of {}: {tally}", alphabet.len()))
}

/// Puts a request to the first state, and every longer sequence to the states behind it.
fn follow<T: Leaves>(
    states: &mut [Trial<T>],
    request: Request,
    alphabet: &[Request],
    tally: &mut Tally,
) -> Result<(), String> {
    let (state, rest) = states.split_first_mut().expect("a state for each request");
    rest[0].copy_from(state);
    rest[0].step(request, tally)?;
    if rest.len() == 1 {
        return Ok(());
    }
    for &then in alphabet {
        follow(rest, then, alphabet, tally).map_err(|fault| format!("{request:?}, {fault}"))?;
    }
    Ok(())
}

/// Every request that makes a difference, in every state of sixteen frames.
pub fn every_state() -> Result<String, String> {
    let requests = every_request();
    let mut tally = Tally::default();
    let mut progress = Progress::new("states of 16 frames", 1 << 16);
    let mut next = Trial::<BitAlloc16>::new(16);
    for bits in 0..1_usize << 16 {
        progress.at(bits);
        let mut state = Trial::new(16);
        for k in (0..16).filter(|k| bits >> k & 1 == 1) {
            state.step(Request::Dealloc(k), &mut tally)?;
        }
        state.look()?;
        for &request in &requests {
            next.copy_from(&state);
            next.step(request, &mut tally).map_err(|fault| format!("state {bits:#06x}: {fault}"))?;
        }
    }
    Ok(format!("{} requests in each of 65,536 states: {tally}", requests.len()))
}

/// Every request with arguments up to one beyond sixteen frames, and some far beyond.
fn every_request() -> Vec<Request> {
    let mut requests = vec![Request::Alloc];
    let frames = || (0..=17).chain([65536, usize::MAX]);
    requests.extend(frames().map(Request::Next));
    requests.extend(frames().map(Request::Dealloc));
    for size in frames() {
        requests
            .extend((0..=6).chain([60, 63, 64, 1000]).map(|align_log2| Request::Run { size, align_log2 }));
    }
    for from in 0..=17 {
        requests.extend((0..=17).map(|to| Request::Insert(from, to)));
        requests.extend((0..=17).map(|to| Request::Remove(from, to)));
    }
    requests
}
