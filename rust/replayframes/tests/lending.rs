//! How much is to be lent, beside a plain count of it.
use replayframes::{to_lend, Refusal, Sizes, FRAME_WORDS, TABLE_WORDS};

/// What is to be lent by the documents: as many owners as the smallest power of 16 that has room for the frames, and
/// one word of the tree for every sixteen of them, for every sixteen of those words, and so on.
fn counted(machines: u64, slots: u64, frames: u64) -> Result<Sizes, Refusal> {
    if machines > 64 {
        return Err(Refusal::ManyMachines);
    }
    if slots > 32 {
        return Err(Refusal::ManySlots);
    }
    if frames > 1 << 52 {
        return Err(Refusal::NoSize);
    }
    let (mut owners, mut tree) = (16, 1);
    while owners < frames {
        tree += owners;
        owners *= 16;
    }
    Ok(Sizes {
        table: TABLE_WORDS,
        zones: (machines * (3 + 8 * slots)) as usize,
        tree: tree as usize,
        owners: owners as usize,
        words: FRAME_WORDS * frames as usize,
    })
}

/// Numbers of frames around those that trees have, and beyond all.
const FRAMES: [u64; 12] =
    [0, 1, 16, 17, 255, 256, 257, 1 << 20, (1 << 20) + 1, 1 << 52, (1 << 52) + 1, u64::MAX];
/// Numbers of machines up to the most that there are, and beyond.
const MACHINES: [u64; 6] = [0, 1, 4, 64, 65, u64::MAX];
/// Numbers of slots up to the most that there are, and beyond.
const SLOTS: [u64; 5] = [0, 1, 32, 33, u64::MAX];

#[test]
fn as_much_is_lent_as_is_counted() {
    let sets = MACHINES.into_iter().flat_map(|machines| SLOTS.map(|slots| (machines, slots)));
    for (machines, slots, frames) in
        sets.flat_map(|(machines, slots)| FRAMES.map(|frames| (machines, slots, frames)))
    {
        let (lent, meant) = (to_lend(machines, slots, frames), counted(machines, slots, frames));
        assert_eq!(lent, meant, "{machines} machines, {slots} slots, {frames} frames");
    }
}
