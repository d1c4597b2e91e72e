//! Who reaches which host page, by the memories alone: the words of the sets, the bytes of the owners and
//! the bits of the tree. Nothing here knows the model, or what was asked.
use super::memory::View;
use super::reading::MACHINES;
use super::request::{Region, SHARED};
use crate::shared::request::{FRAME, WORDS};
use crate::tree;
use std::ops::Range;

/// The host pages that machine `by` reaches through a region.
#[derive(Debug)]
struct Reach {
    by: usize,
    pages: Range<u64>,
    region: Region,
}

/// The numbers of the pages from a host address on.
fn pages(host: u64, count: u64) -> Range<u64> {
    let first = host / FRAME as u64;
    first..first + count
}

/// The pages of the allocator's region.
fn pool(view: View) -> Range<u64> {
    pages(view.table[MACHINES + 2], view.table[MACHINES + 3])
}

/// All that is reached through regions.
fn by_regions(view: View) -> Vec<Reach> {
    let machines = view.table[MACHINES] as usize;
    let each = view.zones.len().checked_div(machines).unwrap_or(0);
    let mut reaches = Vec::new();
    for by in 0..machines {
        let zone = &view.zones[by * each..(by + 1) * each];
        for set in zone[1..].chunks_exact((each - 1) / 2) {
            for region in set[1..].chunks_exact(4).take(set[0] as usize).map(Region::of) {
                reaches.push(Reach { by, pages: pages(region.host, region.pages), region });
            }
        }
    }
    reaches
}

/// The machines that reach a host page.
pub fn who(view: View, page: u64) -> Vec<usize> {
    let reaches = by_regions(view).into_iter().filter(|reach| reach.pages.contains(&page));
    let mut machines: Vec<usize> = reaches.map(|reach| reach.by).collect();
    if pool(view).contains(&page) {
        let owner = view.owners[(page - pool(view).start) as usize];
        machines.extend(Some(usize::from(owner)).filter(|&owner| owner < 64));
    }
    machines.sort_unstable();
    machines.dedup();
    machines
}

/// No page is reached by two machines but through shared regions that coincide, none of the allocator's
/// region but by the owner of its frame, and no frame that is free or reserved.
pub fn isolated(view: View) -> Result<(), String> {
    let mut reaches = by_regions(view);
    let pool = pool(view);
    if let Some(reach) = reaches.iter().find(|reach| meet(&reach.pages, &pool)) {
        return Err(format!("{reach:?} is in the allocator's region"));
    }
    reaches.sort_by_key(|reach| reach.pages.start);
    for (i, a) in reaches.iter().enumerate() {
        let behind = reaches[i + 1..].iter().take_while(|b| b.pages.start < a.pages.end);
        for b in behind.filter(|b| b.by != a.by) {
            if !coincide(a.region, b.region) {
                return Err(format!("{a:?} and {b:?} have a page in common"));
            }
        }
    }
    frames_are_apart(view, pool.end - pool.start)
}

/// Every frame with an owner is taken, is one that machines can own, and has a page of the allocator's.
fn frames_are_apart(view: View, pages: u64) -> Result<(), String> {
    let machines = view.table[MACHINES];
    let first = tree::leaves(view.tree.len()).start;
    for (k, &owner) in view.owners.iter().enumerate().filter(|(_, &owner)| owner < 64) {
        let is_free = view.tree[first + k / 16] >> (k % 16) & 1 == 1;
        let is_reserved = k >= view.words.len() / WORDS || k as u64 >= pages;
        if is_free || is_reserved || u64::from(owner) >= machines {
            return Err(format!("machine {owner} reaches frame {k}, free {is_free}, reserved {is_reserved}"));
        }
    }
    Ok(())
}

/// Two ranges of pages have one in common.
fn meet(a: &Range<u64>, b: &Range<u64>) -> bool {
    a.start < b.end && b.start < a.end
}

/// Two regions are shared, and have the same host start and as many pages.
fn coincide(a: Region, b: Region) -> bool {
    a.kind == SHARED && b.kind == SHARED && a.host == b.host && a.pages == b.pages
}

#[cfg(test)]
mod tests {
    use super::{isolated, who};
    use crate::config_plain::bytes;
    use crate::machines::configs::truck;
    use crate::machines::memory::{Memory, Sizes};
    use crate::machines::model::Model;
    use crate::machines::request::{Request, Which};
    use crate::machines::rival::Rival;
    use crate::rng::Rng;

    /// The words of a machine of the truck, and those of its first two regions' hosts and pages.
    const EACH: usize = 27;
    const FIRST_HOST: usize = 3;
    const SECOND_PAGES: usize = 8;

    /// The truck with every region in the processors' sets, and a frame of the first machine.
    fn set_up() -> Memory {
        let plan = truck();
        let mut memory = Memory::any(Sizes::of(&plan), &mut Rng::new(1));
        assert_eq!(memory.start::<Rival>(&bytes(&plan.config)), 0);
        let model = Model::new(&plan);
        for (m, machine) in plan.config.machines.iter().enumerate() {
            let regions = model.given(m).map(|region| Request::Insert(Which::Processors, region));
            for request in [Request::AddZone].into_iter().chain(regions) {
                assert_eq!(memory.ask::<Rival>(u64::from(machine.number), request), Ok(None));
            }
        }
        assert_eq!(memory.ask::<Rival>(1, Request::Alloc), Ok(Some(0x1000_0000)));
        memory
    }

    /// Whether the truck is isolated after a change of its memories.
    fn after(change: impl FnOnce(&mut Memory)) -> bool {
        let mut memory = set_up();
        change(&mut memory);
        isolated(memory.view()).is_ok()
    }

    #[test]
    fn sees_who_reaches_what() {
        let memory = set_up();
        assert_eq!(who(memory.view(), 0x100), [0]);
        assert_eq!(who(memory.view(), 0x900), [0, 1, 3]);
        assert_eq!(who(memory.view(), 0x10000), [0]);
        assert_eq!(who(memory.view(), 0x10001), []);
    }

    #[test]
    fn sees_what_is_not_isolated() {
        assert!(after(|_| ()));
        assert!(!after(|memory| memory.zones.words_mut()[EACH + FIRST_HOST] = 0x100 << 12), "a page of two");
        assert!(!after(|memory| memory.zones.words_mut()[EACH + SECOND_PAGES] = 7), "a part of a shared one");
        assert!(!after(|memory| memory.zones.words_mut()[EACH + SECOND_PAGES + 1] = 0), "not shared by one");
        assert!(
            !after(|memory| memory.zones.words_mut()[FIRST_HOST] = 0x10002 << 12),
            "the allocator's page"
        );
        assert!(!after(|memory| memory.owners.words_mut()[1] = 2), "a frame that is free");
        assert!(!after(|memory| memory.owners.words_mut()[10] = 2), "a frame that is reserved");
        assert!(!after(|memory| memory.owners.words_mut()[0] = 4), "a machine that there is not");
    }
}
