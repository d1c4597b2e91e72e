//! Any memories read plainly: the configuration in the table, what each machine has, what each frame is,
//! and the first thing that is not in order.
use super::memory::{View, TABLE};
use super::model::{Model, Plan, Zone};
use super::request::Region;
use crate::config_plain::{self, bytes, Config, Machine};
use crate::shared::reading::states;
use crate::shared::request::{State, FRAME, NOBODY, WORDS};
use crate::tree;

/// Where the table has the number of machines, and behind it the allocator's region.
pub const MACHINES: usize = 8320;
/// How many words of the table a machine has, and at most how many regions.
pub const STRIDE: usize = 130;
const REGIONS: usize = 32;

/// The words of a configuration's table.
pub fn table(config: &Config) -> Vec<u64> {
    let mut words = vec![0; TABLE];
    for (machine, words) in config.machines.iter().zip(words.chunks_exact_mut(STRIDE)) {
        words[0] = u64::from(machine.number);
        words[1] = machine.regions.len() as u64;
        for (&region, words) in machine.regions.iter().zip(words[2..].chunks_exact_mut(4)) {
            words.copy_from_slice(&Region::from(region).words());
        }
    }
    words[MACHINES] = config.machines.len() as u64;
    words[MACHINES + 2] = config.pool.0;
    words[MACHINES + 3] = config.pool.1;
    words
}

/// The configuration whose table the words are, if it is right and no word says anything else.
fn config(words: &[u64]) -> Result<Config, String> {
    if words.len() != TABLE {
        return Err(format!("a table of {} words", words.len()));
    }
    let region = |words: &[u64]| config_plain::Region {
        guest: words[0],
        host: words[1],
        pages: words[2],
        kind: words[3] as u8,
    };
    let machine = |words: &[u64]| Machine {
        number: words[0] as u16,
        regions: words[2..].chunks_exact(4).take(words[1].min(REGIONS as u64) as usize).map(region).collect(),
    };
    let machines = words[..MACHINES].chunks_exact(STRIDE).take(words[MACHINES].min(64) as usize);
    let config = Config {
        machines: machines.map(machine).collect(),
        pool: (words[MACHINES + 2], words[MACHINES + 3]),
    };
    if table(&config) != words {
        return Err("the table has a word that is no configuration's".to_string());
    }
    match config_plain::check(&bytes(&config))[0] {
        0 => Ok(config),
        code => Err(format!("the configuration is refused with {code}")),
    }
}

/// How many slots a set has, if so many words are the sets of so many machines.
pub fn slots(machines: usize, words: usize) -> Option<usize> {
    match words.checked_div(machines) {
        None => Some(0).filter(|_| words == 0),
        Some(each) if words % machines != 0 || each < 3 || (each - 3) % 8 != 0 => None,
        Some(each) => Some((each - 3) / 8),
    }
}

/// What each machine has.
pub fn zones(words: &[u64], machines: usize, slots: usize) -> Result<Vec<Zone>, String> {
    let zone = |(m, words): (usize, &[u64])| {
        let (processors, devices) = words[1..].split_at(1 + 4 * slots);
        let sets = set(processors).and_then(|processors| Ok([processors, set(devices)?]));
        match words[0] {
            0 | 1 => Ok(Zone {
                present: words[0] == 1,
                sets: sets.map_err(|fault| format!("machine {m}: {fault}"))?,
            }),
            word => Err(format!("machine {m}: its presence is {word}")),
        }
    };
    words.chunks_exact(3 + 8 * slots).take(machines).enumerate().map(zone).collect()
}

/// The regions of a set: a count, and slots of which those behind the count are zero.
fn set(words: &[u64]) -> Result<Vec<Region>, String> {
    let (count, slots) = (words[0], &words[1..]);
    if count > slots.len() as u64 / 4 {
        return Err(format!("{count} regions in a set"));
    }
    let (used, unused) = slots.split_at(4 * count as usize);
    if unused.iter().any(|&word| word != 0) {
        return Err("something behind the last region of a set".to_string());
    }
    Ok(used.chunks_exact(4).map(Region::of).collect())
}

/// What each frame is, if the summaries agree and every byte is in order.
pub fn frames(tree: &[u16], owners: &[u8]) -> Result<Vec<State>, String> {
    if tree::frames(tree.len()) != Some(owners.len()) {
        return Err(format!("a tree of {} words for {} frames", tree.len(), owners.len()));
    }
    if let Some(p) = tree::first_lie(tree) {
        return Err(format!("word {p} of the tree lies"));
    }
    let states = states(tree, owners);
    let is_wrong = |(&state, &byte): (&State, &u8)| !matches!(state, State::Owned(_)) && byte != NOBODY;
    match states.iter().zip(owners).position(is_wrong) {
        Some(k) => Err(format!("frame {k} is nobody's, and its byte is {}", owners[k])),
        None => Ok(states),
    }
}

/// What sound memories mean, or what is not in order.
pub fn sound(view: View) -> Result<Model, String> {
    let config = config(view.table)?;
    let slots = slots(config.machines.len(), view.zones.len()).ok_or("no zones' length")?;
    let zones = zones(view.zones, config.machines.len(), slots)?;
    for (m, zone) in zones.iter().enumerate() {
        zone_is_good(&config.machines[m], zone, slots).map_err(|fault| format!("machine {m}: {fault}"))?;
    }
    let frames = frames(view.tree, view.owners)?;
    let (usable, pages) = (view.words.len() / WORDS, config.pool.1);
    if view.words.len() % WORDS != 0 || usable as u64 > pages || pages > frames.len() as u64 {
        return Err(format!("{} words for {pages} of {} frames", view.words.len(), frames.len()));
    }
    frames_are_good(&frames, usable, &zones)?;
    is_cleared(&frames, view.words)?;
    let plan = Plan { config, slots, frames: frames.len(), usable };
    Ok(Model { plan, zones, frames, contents: view.words.to_vec() })
}

/// A machine has room for what it is given; its sets are in order, have nothing else, and nothing at all where
/// it is not there.
fn zone_is_good(machine: &Machine, zone: &Zone, slots: usize) -> Result<(), String> {
    let given: Vec<Region> = machine.regions.iter().map(|&region| region.into()).collect();
    if given.len() > slots {
        return Err(format!("{} regions for {slots} slots", given.len()));
    }
    for set in &zone.sets {
        if set.iter().any(|region| !given.contains(region)) {
            return Err("a region that it is not given".to_string());
        }
        let end = |region: &Region| region.guest + FRAME as u64 * region.pages;
        if set.windows(2).any(|pair| end(&pair[0]) > pair[1].guest) {
            return Err("a set that is not in order".to_string());
        }
        if !zone.present && !set.is_empty() {
            return Err("a region, and it is not there".to_string());
        }
    }
    Ok(())
}

/// Exactly the frames that are not usable are reserved, and who owns one is there.
fn frames_are_good(frames: &[State], usable: usize, zones: &[Zone]) -> Result<(), String> {
    let is_good = |k: usize| match frames[k] {
        State::Reserved => k >= usable,
        State::Free => k < usable,
        State::Owned(m) => k < usable && zones.get(usize::from(m)).map_or(false, |zone| zone.present),
    };
    match (0..frames.len()).find(|&k| !is_good(k)) {
        Some(k) => Err(format!("frame {k} is {:?}", frames[k])),
        None => Ok(()),
    }
}

/// Every free frame is all zero.
fn is_cleared(frames: &[State], words: &[u64]) -> Result<(), String> {
    let is_dirty =
        |(&state, words): (&State, &[u64])| state == State::Free && words.iter().any(|&word| word != 0);
    match frames.iter().zip(words.chunks_exact(WORDS)).position(is_dirty) {
        Some(k) => Err(format!("frame {k} is free and not empty")),
        None => Ok(()),
    }
}
