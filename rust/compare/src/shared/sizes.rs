//! Memories whose lengths do not go together, and numbers around every boundary of addresses.
use super::memory::Memory;
use super::model::{Model, CLIENTS};
use super::request::{Look, Request, Sizes, State, FRAME, WORDS};
use super::trial::Tally;
use crate::report::grouped;
use crate::rng::Rng;

/// Lengths of a tree's words, of the owners' bytes and of the frames' words.
const TREES: [usize; 9] = [0, 1, 2, 15, 16, 17, 18, 272, 273];
const OWNERS: [usize; 10] = [0, 1, 15, 16, 17, 255, 256, 257, 4095, 4096];
const CONTENTS: [usize; 9] = [0, 1, 511, 512, 513, 16 * WORDS, 17 * WORDS, 256 * WORDS, 256 * WORDS + 8];
/// Bases: two that are, and two that are none.
const BASES: [usize; 4] = [0, 1 << 20, 1, (1 << 20) + 2048];

/// Every request, with arguments that could be met.
fn requests(base: usize) -> Vec<Request> {
    let client = CLIENTS - 1;
    vec![
        Request::Init { n: 16 },
        Request::Alloc { client },
        Request::Alloc { client: CLIENTS },
        Request::Run { client, size: 2, align_log2: 1 },
        Request::Dealloc { client, addr: base },
        Request::DeallocRun { client, addr: base, count: 2 },
        Request::Insert { from: 0, to: 1 },
        Request::Remove { from: 0, to: 1 },
        Request::ReleaseAll { client },
        Request::Check,
    ]
}

/// Every combination of lengths that is no allocator's: each request is refused with its reason, and no
/// word or byte changes.
pub fn lengths(contents: bool) -> Result<String, String> {
    let mut tally = Tally::default();
    let mut rng = Rng::new(1);
    for tree in TREES {
        for owners in OWNERS {
            for &words in if contents { &CONTENTS[..] } else { &[0] } {
                let sizes = Sizes { tree, owners, words };
                refused(sizes, contents, &mut rng, &mut tally)
                    .map_err(|fault| format!("{sizes:?}: {fault}"))?;
            }
        }
    }
    Ok(tally.to_string())
}

/// All requests at all bases, of which those are put that are refused for the lengths or for the base.
fn refused(sizes: Sizes, contents: bool, rng: &mut Rng, tally: &mut Tally) -> Result<(), String> {
    let tree: Vec<u16> = (0..sizes.tree).map(|_| rng.bits() as u16).collect();
    let owners: Vec<u8> = (0..sizes.owners).map(|_| rng.bits() as u8).collect();
    let words: Vec<u64> = (0..sizes.words).map(|_| rng.bits()).collect();
    let mut memory = Memory::new(&tree, &owners, if contents { Some(&words) } else { None }, rng);
    let model = Model { frames: Vec::new(), contents: if contents { Some(Vec::new()) } else { None } };
    for base in BASES {
        if model.answer(&memory.call(base, Request::Check)) == Ok(None) {
            continue;
        }
        for request in requests(base) {
            let call = memory.call(base, request);
            let (answer, told) = (model.answer(&call), memory.ask(&call));
            tally.add(answer);
            if told != answer {
                return Err(format!("{call:?}: ours answers {told:?}, and the model {answer:?}"));
            }
        }
        memory.same_as(&tree, &owners)?;
    }
    memory.words.as_ref().map_or(Ok(()), |lent| lent.same_as(&words))
}

/// Frames at addresses and addresses of frames, for numbers around every boundary.
pub fn addresses() -> Result<String, String> {
    let mut count = 0;
    let memory = Memory::new(&[0], &[255; 16], None, &mut Rng::new(1));
    let model = Model { frames: vec![State::Reserved; 16], contents: None };
    let numbers = numbers();
    for &base in &numbers {
        for &number in &numbers {
            for look in
                [Look::Fid { addr: number }, Look::Paddr { k: number }, Look::Paddr { k: number / FRAME }]
            {
                let call = memory.call(base, look);
                let (answer, told) = (model.look(&call), memory.look(&call));
                if told != answer {
                    return Err(format!("{call:?}: ours answers {told:?}, and the model {answer:?}"));
                }
                count += 1;
            }
        }
    }
    Ok(format!("{} questions", grouped(count)))
}

/// Numbers around each power of two, and around multiples of a frame near both ends.
fn numbers() -> Vec<usize> {
    let powers = (0..64).map(|log2| 1_usize << log2);
    let pages = (0..8).flat_map(|page| [FRAME * page, (FRAME * page).wrapping_neg()]);
    powers.chain(pages).flat_map(|number| [number.wrapping_sub(1), number, number.wrapping_add(1)]).collect()
}
