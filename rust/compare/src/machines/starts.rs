//! Starts that are refused, each for its reason and with every word and byte kept, and starts that are not:
//! lengths around every boundary, several of them wrong at once, and configurations that break each rule.
use super::configs::{self, truck};
use super::memory::{Memory, Sizes, TABLE};
use super::model::Model;
use super::reading::{self, slots};
use super::request::{FEW_FRAMES, FEW_PAGES, FEW_SLOTS, NOT_FULL, NO_TABLE, NO_ZONES, UNBACKED, UNMATCHED};
use super::subject::Machines;
use crate::config_cases::smallest_cases;
use crate::config_plain::{accepted, bytes};
use crate::report::grouped;
use crate::rng::Rng;
use crate::shared::request::WORDS;
use crate::tree;
use std::collections::BTreeSet;
use std::ops::RangeInclusive;

/// Memories for one machine with two slots in a set, 16 frames, and one of them usable.
const SMALL: Sizes = Sizes { table: TABLE, zones: 19, tree: 1, owners: 16, words: WORDS };
/// The numbers of the reasons that a configuration is refused for.
const OF_CONFIGURATIONS: RangeInclusive<u32> = 32..=44;
/// The reasons that lengths are refused for.
const OF_LENGTHS: [u32; 8] =
    [NO_TABLE, NO_ZONES, FEW_SLOTS, NOT_FULL, UNMATCHED, UNBACKED, FEW_FRAMES, FEW_PAGES];

/// What a start must answer: the table, the configuration, the zones, the allocator's memories, and the
/// allocator's region against them.
pub fn code(bytes: &[u8], sizes: Sizes) -> u32 {
    if sizes.table != TABLE {
        return NO_TABLE;
    }
    let config = match accepted(bytes) {
        Ok(config) => config,
        Err(answer) => return answer[0] as u32,
    };
    let most = config.machines.iter().map(|machine| machine.regions.len()).max().unwrap_or(0);
    match slots(config.machines.len(), sizes.zones) {
        None => return NO_ZONES,
        Some(slots) if slots < most => return FEW_SLOTS,
        Some(_) => {}
    }
    let (usable, pages) = (sizes.words / WORDS, config.pool.1);
    if tree::frames(sizes.tree).is_none() {
        NOT_FULL
    } else if tree::frames(sizes.tree) != Some(sizes.owners) {
        UNMATCHED
    } else if sizes.words % WORDS != 0 || usable > sizes.owners {
        UNBACKED
    } else if pages > sizes.owners as u64 {
        FEW_FRAMES
    } else if usable as u64 > pages {
        FEW_PAGES
    } else {
        0
    }
}

/// Configurations that break each rule, and many starts with lengths of which some are wrong.
pub fn run<S: Machines>(times: usize) -> Result<String, String> {
    let mut rng = Rng::new(7);
    let mut met = BTreeSet::new();
    for bytes in smallest_cases() {
        met.insert(one::<S>(&bytes, SMALL, &mut rng)?);
    }
    for _ in 0..times {
        let frames = rng.pick(&[16, 16, 256]);
        let plan = configs::plan(&mut rng, frames);
        let sizes = spoilt(&mut rng, Sizes::of(&plan));
        met.insert(one::<S>(&bytes(&plan.config), sizes, &mut rng)?);
    }
    let wanted: BTreeSet<u32> = [0].into_iter().chain(OF_CONFIGURATIONS).chain(OF_LENGTHS).collect();
    if met != wanted {
        return Err(format!("the answers are {met:?}, and should be {wanted:?}"));
    }
    let truck = truck();
    match one::<S>(&bytes(&truck.config), Sizes::of(&truck), &mut rng)? {
        0 => Ok(format!("{} starts, {} answers", grouped(times as u64), met.len())),
        code => Err(format!("the truck's start is refused with {code}")),
    }
}

/// One start in memories that hold anything, and what must be true after it.
fn one<S: Machines>(bytes: &[u8], sizes: Sizes, rng: &mut Rng) -> Result<u32, String> {
    let mut memory = Memory::any(sizes, rng);
    let before = memory.clone();
    let (told, wanted) = (memory.start::<S>(bytes), code(bytes, sizes));
    let named = |fault: String| format!("{sizes:?}, {bytes:?}: {fault}");
    if told != wanted {
        return Err(named(format!("{} answers {told}, and should {wanted}", S::NAME)));
    }
    if told != 0 {
        return memory.same_as(&before).map(|()| told).map_err(named);
    }
    memory.is_kept_around().map_err(named)?;
    let model = reading::sound(memory.view()).map_err(named)?;
    if !model.same_as(&Model::new(&model.plan)) {
        return Err(named("a start that is not the start".to_string()));
    }
    Ok(told)
}

/// The same lengths, or with some of them changed a little.
fn spoilt(rng: &mut Rng, right: Sizes) -> Sizes {
    let mut sizes = right;
    for _ in 0..rng.below(4) {
        match rng.below(13) {
            0 => sizes.table = rng.pick(&[0, TABLE - 1, TABLE + 1, TABLE]),
            1 | 2 => sizes.zones = near(rng, right.zones, 1),
            3 | 4 => sizes.zones = near(rng, right.zones, 8),
            5 | 6 => sizes.tree = rng.pick(&[0, 1, 2, 16, 17, 18]),
            7 | 8 => sizes.owners = near(rng, right.owners, 1),
            9 => sizes.words = near(rng, right.words, 1),
            10 => sizes.words = rng.pick(&[0, 16, 17, 40]) * WORDS,
            11 => {
                let words = right.words.min(16 * WORDS);
                sizes = Sizes { tree: 1, owners: 16, words, ..sizes };
            }
            _ => sizes.words = near(rng, right.words, WORDS),
        }
    }
    sizes
}

/// A length, or one that is a little more or less.
fn near(rng: &mut Rng, length: usize, by: usize) -> usize {
    rng.pick(&[length.saturating_sub(by), length + by, length, 0])
}
