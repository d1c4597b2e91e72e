//! The states in which the benchmark's rows begin.
use crate::columns::Column;
use crate::rival::Rival;
use crate::rng::Rng;
use crate::timing::State;
use crate::tree;
use crate::work::Mixed;
use std::rc::Rc;

/// How many pairs a mix of allocating and freeing has.
const PAIRS: usize = 50_000;
/// How many frames are taken where runs are sought between holes.
pub const HOLES: usize = 200;

/// The state in which these frames are free.
pub fn state(depth: u32, is_free: impl FnMut(usize) -> bool) -> State {
    let free: Vec<bool> = (0..16_usize.pow(depth)).map(is_free).collect();
    let mut words = vec![0; (free.len() - 1) / 15];
    tree::renew(&mut words, &free, 0, free.len());
    Rc::new(words)
}

/// The state in which so many of a hundred frames are taken, at random.
pub fn taken(depth: u32, percent: usize) -> State {
    let mut rng = Rng::new(5);
    state(depth, |_| rng.below(100) >= percent)
}

/// The state of 65536 frames with some holes.
pub fn holes() -> State {
    let mut rng = Rng::new(7);
    let holes: Vec<usize> = (0..HOLES).map(|_| rng.below(1 << 16)).collect();
    state(4, |k| !holes.contains(&k))
}

/// A mix of allocating and freeing that begins in this state.
pub fn mixed(depth: u32, state: &State) -> Mixed {
    let mut lowest = Rival::new(depth);
    lowest.load(state);
    Mixed::new(&tree::free_frames(state), PAIRS, lowest)
}
