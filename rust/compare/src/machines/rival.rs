//! The machines in good plain Rust over the same memories, changed in place: what the proved functions are
//! held to for speed, and a second subject of the random runs. It tests what a request names as they do; it
//! trusts the lengths of its memories and what they hold, and it has no proof. Where it is lent no words of
//! frames, it clears none.
//!
//! No function is inlined into its caller, as none of the proved archive can be.
use super::memory::{Sizes, View};
use super::reading::{self, MACHINES, STRIDE};
use super::request::{
    Region, BELOW, CORRUPT, NOT_AT_FRAME, NOT_EMPTY, NOT_GIVEN, NOT_IN_SET, NOT_MAPPED, NOT_PRESENT,
    NOT_TAKEN, NOT_YOURS, NO_FRAMES, NO_KIND, NO_MACHINE, NO_ROOM, NO_SET, OUTSIDE, OVERLAP, PRESENT,
};
use super::starts;
use super::subject::Machines;
use crate::config_plain::accepted;
use crate::rival::Rival as Tree;
use crate::shared::request::{FRAME, NOBODY, WORDS};
use std::ops::Range;

/// The rival.
pub struct Rival;

/// 0, or the number of the reason.
#[inline(always)]
fn code(outcome: Result<(), u32>) -> u32 {
    outcome.err().unwrap_or(0)
}

/// The machine that has a number, and where its words are.
#[inline(always)]
fn find(table: &[u64], zones: &[u64], number: u64) -> Result<(usize, Range<usize>), u32> {
    let machines = table[MACHINES] as usize;
    let m = table.iter().step_by(STRIDE).take(machines).position(|&its| its == number).ok_or(NO_MACHINE)?;
    let each = zones.len() / machines;
    Ok((m, m * each..(m + 1) * each))
}

/// The same for one that is there.
#[inline(always)]
fn present(table: &[u64], zones: &[u64], number: u64) -> Result<(usize, Range<usize>), u32> {
    let (m, zone) = find(table, zones, number)?;
    match zones[zone.start] {
        0 => Err(NOT_PRESENT),
        _ => Ok((m, zone)),
    }
}

/// Where a set's words are: a count, and four words for each region.
#[inline(always)]
fn set(zone: Range<usize>, which: usize) -> Range<usize> {
    let half = (zone.end - zone.start - 1) / 2;
    let start = zone.start + 1 + which * half;
    start..start + half
}

/// Where region i of a set has its words.
#[inline(always)]
fn slot(i: usize) -> Range<usize> {
    1 + 4 * i..5 + 4 * i
}

/// How many regions of a set start at an address or below it, by halves.
#[inline(always)]
fn starts_up_to(set: &[u64], addr: u64) -> usize {
    let (mut low, mut high) = (0, set[0] as usize);
    while low < high {
        let middle = (low + high) / 2;
        if set[1 + 4 * middle] <= addr {
            low = middle + 1;
        } else {
            high = middle;
        }
    }
    low
}

/// Where the guest pages of a region end.
#[inline(always)]
fn end(region: &[u64]) -> u64 {
    region[0] + FRAME as u64 * region[2]
}

/// Whether machine m is given a region.
#[inline(always)]
fn is_given(table: &[u64], m: usize, region: Region) -> bool {
    let machine = &table[STRIDE * m..STRIDE * (m + 1)];
    machine[2..].chunks_exact(4).take(machine[1] as usize).any(|given| given == region.words())
}

/// A region enters a set.
#[inline(always)]
fn enter(table: &[u64], zones: &mut [u64], number: u64, which: usize, region: Region) -> Result<(), u32> {
    if region.kind > 2 {
        return Err(NO_KIND);
    }
    let (m, zone) = present(table, zones, number)?;
    if !is_given(table, m, region) {
        return Err(NOT_GIVEN);
    }
    let set = &mut zones[set(zone, which)];
    let (count, i) = (set[0] as usize, starts_up_to(set, region.guest));
    if i > 0 && end(&set[slot(i - 1)]) > region.guest {
        return Err(OVERLAP);
    }
    if i < count && end(&region.words()) > set[1 + 4 * i] {
        return Err(OVERLAP);
    }
    if count == set.len() / 4 {
        return Err(NO_ROOM);
    }
    set.copy_within(1 + 4 * i..1 + 4 * count, 5 + 4 * i);
    set[slot(i)].copy_from_slice(&region.words());
    set[0] += 1;
    Ok(())
}

/// A region leaves a set.
#[inline(always)]
fn leave(table: &[u64], zones: &mut [u64], number: u64, which: usize, region: Region) -> Result<(), u32> {
    if region.kind > 2 {
        return Err(NO_KIND);
    }
    let (_, zone) = present(table, zones, number)?;
    let set = &mut zones[set(zone, which)];
    let (count, i) = (set[0] as usize, starts_up_to(set, region.guest));
    if i == 0 || set[slot(i - 1)] != region.words() {
        return Err(NOT_IN_SET);
    }
    set.copy_within(1 + 4 * i..1 + 4 * count, 4 * i - 3);
    set[slot(count - 1)].fill(0);
    set[0] -= 1;
    Ok(())
}

/// The host address that a guest address stands for.
#[inline(always)]
fn translate(table: &[u64], zones: &[u64], number: u64, which: u64, addr: u64) -> Result<u64, u32> {
    if which > 1 {
        return Err(NO_SET);
    }
    let (_, zone) = present(table, zones, number)?;
    let set = &zones[set(zone, which as usize)];
    let i = starts_up_to(set, addr);
    if i == 0 || addr >= end(&set[slot(i - 1)]) {
        return Err(NOT_MAPPED);
    }
    let region = &set[slot(i - 1)];
    Ok(region[1] + (addr - region[0]))
}

/// The number of the frame at an address.
#[inline(always)]
fn frame(table: &[u64], addr: usize) -> Result<usize, u32> {
    let away = addr.checked_sub(table[MACHINES + 2] as usize).ok_or(BELOW)?;
    if away % FRAME != 0 {
        return Err(NOT_AT_FRAME);
    }
    Ok(away / FRAME)
}

/// The address of frame k.
#[inline(always)]
fn address(table: &[u64], k: usize) -> u64 {
    table[MACHINES + 2] + (FRAME * k) as u64
}

/// Why a frame that is not the machine's cannot be given back.
fn not_its(tree: &[u16], k: usize) -> u32 {
    let bit = tree.len() + k - 1;
    if tree[bit / 16] >> (bit % 16) & 1 == 1 {
        NOT_TAKEN
    } else {
        NOT_YOURS
    }
}

/// Clears these frames, if their words are lent.
#[inline(always)]
fn clear(words: &mut [u64], frames: Range<usize>) {
    if let Some(words) = words.get_mut(WORDS * frames.start..WORDS * frames.end) {
        words.fill(0);
    }
}

/// Machine m gives back frame k, which is cleared first.
#[inline(always)]
fn give(tree: &mut [u16], owners: &mut [u8], words: &mut [u64], m: usize, k: usize) -> Result<(), u32> {
    match owners.get_mut(k) {
        None => return Err(OUTSIDE),
        Some(owner) if usize::from(*owner) == m => *owner = NOBODY,
        Some(_) => return Err(not_its(tree, k)),
    }
    clear(words, k..k + 1);
    Tree { words: tree }.set_free(k);
    Ok(())
}

/// Machine m gives back the frames from k on, which are cleared first.
#[inline(always)]
fn give_run(
    tree: &mut [u16],
    owners: &mut [u8],
    words: &mut [u64],
    m: usize,
    run: Range<usize>,
) -> Result<(), u32> {
    let its = owners.get_mut(run.clone()).ok_or(OUTSIDE)?;
    if let Some(away) = its.iter().position(|&owner| usize::from(owner) != m) {
        return Err(not_its(tree, run.start + away));
    }
    its.fill(NOBODY);
    clear(words, run.clone());
    Tree { words: tree }.insert(run.start, run.end);
    Ok(())
}

/// Machine m gives back every frame it owns, run by run, which are cleared first.
#[inline(always)]
fn give_all(tree: &mut [u16], owners: &mut [u8], words: &mut [u64], m: usize) {
    let mut k = 0;
    while let Some(away) = owners[k..].iter().position(|&owner| usize::from(owner) == m) {
        let from = k + away;
        let its = owners[from..].iter().position(|&owner| usize::from(owner) != m);
        k = its.map_or(owners.len(), |its| from + its);
        owners[from..k].fill(NOBODY);
        clear(words, from..k);
        Tree { words: &mut *tree }.insert(from, k);
    }
}

impl Machines for Rival {
    const NAME: &'static str = "rival";

    fn start(
        bytes: &[u8],
        table: &mut [u64],
        zones: &mut [u64],
        tree: &mut [u16],
        owners: &mut [u8],
        words: &mut [u64],
    ) -> u32 {
        let sizes = Sizes {
            table: table.len(),
            zones: zones.len(),
            tree: tree.len(),
            owners: owners.len(),
            words: words.len(),
        };
        let code = starts::code(bytes, sizes);
        if let (0, Ok(config)) = (code, accepted(bytes)) {
            table.copy_from_slice(&reading::table(&config));
            zones.fill(0);
            tree.fill(0);
            owners.fill(NOBODY);
            words.fill(0);
            Tree { words: tree }.insert(0, sizes.words / WORDS);
        }
        code
    }

    #[inline(never)]
    fn add_zone(table: &[u64], zones: &mut [u64], number: u64) -> u32 {
        code(find(table, zones, number).and_then(|(_, zone)| match zones[zone.start] {
            0 => {
                zones[zone.start] = 1;
                Ok(())
            }
            _ => Err(PRESENT),
        }))
    }

    #[inline(never)]
    fn remove_zone(table: &[u64], zones: &mut [u64], _: &[u16], owners: &[u8], number: u64) -> u32 {
        code(present(table, zones, number).and_then(|(m, zone)| {
            let has_regions = (0..2).any(|which| zones[set(zone.clone(), which)][0] != 0);
            if has_regions || owners.contains(&(m as u8)) {
                return Err(NOT_EMPTY);
            }
            zones[zone.start] = 0;
            Ok(())
        }))
    }

    #[inline(never)]
    fn remove_zone_whole(
        table: &[u64],
        zones: &mut [u64],
        tree: &mut [u16],
        owners: &mut [u8],
        words: &mut [u64],
        number: u64,
    ) -> u32 {
        code(present(table, zones, number).map(|(m, zone)| {
            zones[zone].fill(0);
            give_all(tree, owners, words, m);
        }))
    }

    #[inline(never)]
    fn insert_region(table: &[u64], zones: &mut [u64], number: u64, region: Region) -> u32 {
        code(enter(table, zones, number, 0, region))
    }

    #[inline(never)]
    fn remove_region(table: &[u64], zones: &mut [u64], number: u64, region: Region) -> u32 {
        code(leave(table, zones, number, 0, region))
    }

    #[inline(never)]
    fn insert_iommu_region(table: &[u64], zones: &mut [u64], number: u64, region: Region) -> u32 {
        code(enter(table, zones, number, 1, region))
    }

    #[inline(never)]
    fn remove_iommu_region(table: &[u64], zones: &mut [u64], number: u64, region: Region) -> u32 {
        code(leave(table, zones, number, 1, region))
    }

    #[inline(never)]
    fn translate(table: &[u64], zones: &[u64], number: u64, which: u64, addr: u64, host: &mut u64) -> u32 {
        code(translate(table, zones, number, which, addr).map(|found| *host = found))
    }

    #[inline(never)]
    fn alloc(
        table: &[u64],
        zones: &[u64],
        tree: &mut [u16],
        owners: &mut [u8],
        _: &[u64],
        number: u64,
        addr: &mut u64,
    ) -> u32 {
        code(present(table, zones, number).and_then(|(m, _)| {
            let k = Tree { words: tree }.take_lowest().ok_or(NO_ROOM)?;
            owners[k] = m as u8;
            *addr = address(table, k);
            Ok(())
        }))
    }

    #[inline(never)]
    fn alloc_contiguous(
        table: &[u64],
        zones: &[u64],
        tree: &mut [u16],
        owners: &mut [u8],
        _: &[u64],
        number: u64,
        size: usize,
        align_log2: usize,
        addr: &mut u64,
    ) -> u32 {
        code(present(table, zones, number).and_then(|(m, _)| {
            if size == 0 {
                return Err(NO_FRAMES);
            }
            let k = Tree { words: tree }.alloc_contiguous(size, align_log2).ok_or(NO_ROOM)?;
            owners[k..k + size].fill(m as u8);
            *addr = address(table, k);
            Ok(())
        }))
    }

    #[inline(never)]
    fn dealloc(
        table: &[u64],
        zones: &[u64],
        tree: &mut [u16],
        owners: &mut [u8],
        words: &mut [u64],
        number: u64,
        addr: usize,
    ) -> u32 {
        code(
            present(table, zones, number)
                .and_then(|(m, _)| give(tree, owners, words, m, frame(table, addr)?)),
        )
    }

    #[inline(never)]
    fn dealloc_contiguous(
        table: &[u64],
        zones: &[u64],
        tree: &mut [u16],
        owners: &mut [u8],
        words: &mut [u64],
        number: u64,
        addr: usize,
        count: usize,
    ) -> u32 {
        code(present(table, zones, number).and_then(|(m, _)| {
            let k = frame(table, addr)?;
            if count == 0 {
                return Err(NO_FRAMES);
            }
            give_run(tree, owners, words, m, k..k.saturating_add(count))
        }))
    }

    fn check(table: &[u64], zones: &[u64], tree: &[u16], owners: &[u8], words: &[u64]) -> u32 {
        match reading::sound(View { table, zones, tree, owners, words }) {
            Ok(_) => 0,
            Err(_) => CORRUPT,
        }
    }
}

#[cfg(test)]
mod tests {
    use super::Rival;
    use crate::machines::random::{run, Extent};
    use crate::machines::{starts, truck};

    #[test]
    fn answers_as_the_model() {
        for (frames, sequences) in [(16, 60), (256, 20), (4096, 4)] {
            assert_eq!(run::<Rival>(Extent { frames, sequences, length: 200 }).err(), None);
        }
    }

    #[test]
    fn does_the_trucks_work() {
        assert_eq!(truck::run::<Rival>().err(), None);
        assert_eq!(truck::f3::<Rival>().err(), None);
        assert_eq!(truck::f14::<Rival>().err(), None);
    }

    #[test]
    fn starts_as_it_should() {
        assert_eq!(starts::run::<Rival>(3_000).err(), None);
    }
}
