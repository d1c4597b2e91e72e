//! Configurations that are right: the truck's, and random ones.
use super::model::Plan;
use crate::config_plain::{Config, Machine, Region};
use crate::rng::Rng;

/// The kinds of regions.
pub const ORDINARY: u8 = 0;
pub const DEVICE: u8 = 1;
pub const SHARED: u8 = 2;
/// Pages end below this one: no address is above 2^64 - 1, nor is an end.
const LAST_PAGE: u64 = (1 << 52) - 1;
/// Up to so many usable frames are usual, so that their contents stay small.
const USUAL: usize = 24;

/// A region by the numbers of its pages.
fn region(guest: u64, host: u64, pages: u64, kind: u8) -> Region {
    Region { guest: guest << 12, host: host << 12, pages, kind }
}

/// The truck: replay, graphics, sound and commentary. Each has its memory, replay and sound a device, and all
/// but sound the pictures, which are shared; of the allocator's 12 pages 10 have frames that machines can own.
pub fn truck() -> Plan {
    let machine = |number, regions| Machine { number, regions };
    let pictures = |guest| region(guest, 0x900, 8, SHARED);
    let machines = vec![
        machine(1, vec![region(0, 0x100, 64, ORDINARY), pictures(0x1000), region(0x2000, 0xfe0, 2, DEVICE)]),
        machine(2, vec![region(0, 0x200, 64, ORDINARY), pictures(0x1000)]),
        machine(3, vec![region(0, 0x300, 32, ORDINARY), region(0x2000, 0xff0, 1, DEVICE)]),
        machine(4, vec![region(0, 0x400, 32, ORDINARY), pictures(0x1800)]),
    ];
    Plan { config: Config { machines, pool: (0x10000 << 12, 12) }, slots: 3, frames: 16, usable: 10 }
}

/// A plan with so many frames.
pub fn plan(rng: &mut Rng, frames: usize) -> Plan {
    let pages = if rng.once_in(2) { frames } else { 1 + rng.below(frames) };
    let usable = match rng.below(16) {
        0 => 0,
        1 => rng.below(pages + 1),
        2 if rng.once_in(4) => pages,
        _ => pages.min(1 + rng.below(USUAL)),
    };
    let config = config(rng, pages as u64);
    let most = config.machines.iter().map(|machine| machine.regions.len()).max().unwrap_or(0);
    Plan { config, slots: most + rng.pick(&[0, 0, 1, 5]), frames, usable }
}

/// A configuration that is right, with so many pages for the allocator.
fn config(rng: &mut Rng, pages: u64) -> Config {
    let count = match rng.below(64) {
        0 => 0,
        1 => 64,
        2..=9 => 1,
        _ => 2 + rng.below(5),
    };
    let mut pieces = vec![pages];
    let buffers = rng.below(4);
    pieces.extend((0..buffers).map(|_| some_pages(rng)));
    let mut machines = Vec::new();
    for number in numbers(rng, count) {
        let regions = regions(rng, buffers, &mut pieces);
        machines.push(Machine { number, regions });
    }
    let hosts = laid_out(rng, &pieces);
    for region in machines.iter_mut().flat_map(|machine| &mut machine.regions) {
        region.host = hosts[region.host as usize];
    }
    Config { machines, pool: (hosts[0], pages) }
}

/// So many numbers, all of them different.
fn numbers(rng: &mut Rng, count: usize) -> Vec<u16> {
    let mut numbers: Vec<u16> = Vec::new();
    while numbers.len() < count {
        let number = if rng.once_in(2) { rng.below(count + 1) as u16 } else { rng.bits() as u16 };
        if !numbers.contains(&number) {
            numbers.push(number);
        }
    }
    numbers
}

/// A number of pages: few, or now and then very many.
fn some_pages(rng: &mut Rng) -> u64 {
    if rng.once_in(32) {
        1 << rng.below(40)
    } else {
        1 + rng.below(4) as u64
    }
}

/// The regions of a machine, in any order of their guest starts. The host start is the number of a piece as
/// yet: one of the buffers that are shared, none of them twice, or one of its own.
fn regions(rng: &mut Rng, buffers: usize, pieces: &mut Vec<u64>) -> Vec<Region> {
    let count = if rng.once_in(64) { 32 } else { rng.below(6) };
    let mut left: Vec<usize> = (1..=buffers).collect();
    let mut regions = Vec::new();
    for _ in 0..count {
        let kind = rng.pick(&[ORDINARY, DEVICE, SHARED]);
        let piece = match left.len() {
            some if some > 0 && kind == SHARED => left.remove(rng.below(some)),
            _ => {
                pieces.push(some_pages(rng));
                pieces.len() - 1
            }
        };
        regions.push(Region { guest: 0, host: piece as u64, pages: pieces[piece], kind });
    }
    let pages: Vec<u64> = regions.iter().map(|region| region.pages).collect();
    for (region, guest) in regions.iter_mut().zip(laid_out(rng, &pages)) {
        region.guest = guest;
    }
    regions
}

/// Where pieces of so many pages start that have none in common: in a random order, many of them one right
/// behind the other, from the first address on, from anywhere, or up to the last.
fn laid_out(rng: &mut Rng, pieces: &[u64]) -> Vec<u64> {
    let mut order: Vec<usize> = (0..pieces.len()).collect();
    rng.shuffle(&mut order);
    let mut starts = vec![0; pieces.len()];
    let mut page = 0;
    for piece in order {
        page += if rng.once_in(2) { 0 } else { rng.below(3) as u64 };
        starts[piece] = page;
        page += pieces[piece];
    }
    let room = LAST_PAGE - page;
    let shift = match rng.below(8) {
        0 => room,
        1 => 0,
        _ => room.min(1 << rng.below(40)),
    };
    starts.into_iter().map(|start| (start + shift) << 12).collect()
}
