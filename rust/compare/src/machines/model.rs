//! Plain lists of machines, of their regions, of what each frame is and of the words in them, which answer
//! as the documents say. The first reason that applies is the answer.
use super::request::{
    Answer, Region, Request, Which, BELOW, NOT_AT_FRAME, NOT_EMPTY, NOT_GIVEN, NOT_IN_SET, NOT_MAPPED,
    NOT_PRESENT, NOT_TAKEN, NOT_YOURS, NO_FRAMES, NO_KIND, NO_MACHINE, NO_ROOM, NO_SET, OUTSIDE, OVERLAP,
    PRESENT,
};
use crate::config_plain::Config;
use crate::model::lowest_run;
use crate::shared::request::{State, FRAME, WORDS};

const PAGE: u128 = FRAME as u128;

/// What never changes: the configuration, the room of each set, and how many frames there are, of which the
/// first `usable` machines can own.
#[derive(Clone, Debug)]
pub struct Plan {
    pub config: Config,
    pub slots: usize,
    pub frames: usize,
    pub usable: usize,
}

/// What a machine has beside its frames: whether it is there, and the regions of its two sets, by guest start.
#[derive(Clone, Debug, Default, PartialEq, Eq)]
pub struct Zone {
    pub present: bool,
    pub sets: [Vec<Region>; 2],
}

/// The plan, and all that changes.
#[derive(Clone, Debug)]
pub struct Model {
    pub plan: Plan,
    pub zones: Vec<Zone>,
    pub frames: Vec<State>,
    pub contents: Vec<u64>,
}

impl Model {
    /// The start: no machine, and every usable frame free and empty.
    pub fn new(plan: &Plan) -> Model {
        let mut frames = vec![State::Reserved; plan.frames];
        frames[..plan.usable].fill(State::Free);
        let zones = vec![Zone::default(); plan.config.machines.len()];
        Model { plan: plan.clone(), zones, frames, contents: vec![0; WORDS * plan.usable] }
    }

    /// Everything that changes is as in the other.
    pub fn same_as(&self, other: &Model) -> bool {
        self.zones == other.zones && self.frames == other.frames && self.contents == other.contents
    }

    /// The regions that machine m is given.
    pub fn given(&self, m: usize) -> impl Iterator<Item = Region> + '_ {
        self.plan.config.machines[m].regions.iter().map(|&region| region.into())
    }

    /// The host address of the first frame.
    pub fn pool(&self) -> u64 {
        self.plan.config.pool.0
    }

    /// Answers the request of the machine that has a number, and changes what the answer says.
    pub fn ask(&mut self, number: u64, request: Request) -> Answer {
        is_readable(request)?;
        let machines = &self.plan.config.machines;
        let m = machines.iter().position(|machine| u64::from(machine.number) == number).ok_or(NO_MACHINE)?;
        match (request, self.zones[m].present) {
            (Request::AddZone, true) => Err(PRESENT),
            (Request::AddZone, false) => {
                self.zones[m].present = true;
                Ok(None)
            }
            (_, false) => Err(NOT_PRESENT),
            (Request::RemoveZone, _) => self.go(m),
            (Request::RemoveZoneWhole, _) => self.go_whole(m),
            (Request::Insert(which, region), _) => self.enter(m, which, region),
            (Request::Remove(which, region), _) => self.leave(m, which, region),
            (Request::Translate { which, addr }, _) => self.translate(m, which as usize, addr),
            (Request::Alloc, _) => self.take(m, 1, 0),
            (Request::Run { size, align_log2 }, _) => self.take(m, size, align_log2),
            (Request::Dealloc { addr }, _) => self.give(m, addr, 1),
            (Request::DeallocRun { addr, count }, _) => self.give(m, addr, count),
        }
    }

    /// Machine m goes, if it has nothing left.
    fn go(&mut self, m: usize) -> Answer {
        let zone = &mut self.zones[m];
        let has_regions = zone.sets.iter().any(|set| !set.is_empty());
        if has_regions || self.frames.contains(&State::Owned(m as u8)) {
            return Err(NOT_EMPTY);
        }
        zone.present = false;
        Ok(None)
    }

    /// Machine m goes with all it has, and its frames are cleared.
    fn go_whole(&mut self, m: usize) -> Answer {
        self.zones[m] = Zone::default();
        for (state, words) in self.frames.iter_mut().zip(self.contents.chunks_exact_mut(WORDS)) {
            if *state == State::Owned(m as u8) {
                *state = State::Free;
                words.fill(0);
            }
        }
        Ok(None)
    }

    /// A region enters a set of machine m.
    fn enter(&mut self, m: usize, which: Which, region: Region) -> Answer {
        let is_given = self.given(m).any(|given| given == region);
        let slots = self.plan.slots;
        let set = &mut self.zones[m].sets[which as usize];
        if !is_given {
            Err(NOT_GIVEN)
        } else if set.iter().any(|&other| meet(region, other)) {
            Err(OVERLAP)
        } else if set.len() >= slots {
            Err(NO_ROOM)
        } else {
            set.push(region);
            set.sort_by_key(|region| region.guest);
            Ok(None)
        }
    }

    /// A region leaves a set of machine m.
    fn leave(&mut self, m: usize, which: Which, region: Region) -> Answer {
        let set = &mut self.zones[m].sets[which as usize];
        let at = set.iter().position(|&other| other == region).ok_or(NOT_IN_SET)?;
        set.remove(at);
        Ok(None)
    }

    /// The host address that a guest address stands for.
    fn translate(&self, m: usize, which: usize, addr: u64) -> Answer {
        let covers =
            |region: &&Region| region.guest <= addr && u128::from(addr) < end(region.guest, region.pages);
        let region = self.zones[m].sets[which].iter().find(covers).ok_or(NOT_MAPPED)?;
        Ok(Some(region.host + (addr - region.guest)))
    }

    /// Machine m takes the lowest run of free frames.
    fn take(&mut self, m: usize, size: usize, align_log2: usize) -> Answer {
        if size == 0 {
            return Err(NO_FRAMES);
        }
        let free = self.frames.iter().map(|&state| state == State::Free);
        let from = lowest_run(free, size, align_log2).ok_or(NO_ROOM)?;
        self.frames[from..from + size].fill(State::Owned(m as u8));
        Ok(Some(self.pool() + (FRAME * from) as u64))
    }

    /// Machine m gives back the frames from a host address on, which are cleared.
    fn give(&mut self, m: usize, addr: usize, count: usize) -> Answer {
        let away = (addr as u64).checked_sub(self.pool()).ok_or(BELOW)? as usize;
        if away % FRAME != 0 {
            return Err(NOT_AT_FRAME);
        }
        if count == 0 {
            return Err(NO_FRAMES);
        }
        let from = away / FRAME;
        let to = from.checked_add(count).ok_or(OUTSIDE)?;
        let run = self.frames.get_mut(from..to).ok_or(OUTSIDE)?;
        match run.iter().find(|&&state| state != State::Owned(m as u8)) {
            Some(State::Free) => return Err(NOT_TAKEN),
            Some(_) => return Err(NOT_YOURS),
            None => run.fill(State::Free),
        }
        self.contents[WORDS * from..WORDS * to].fill(0);
        Ok(None)
    }
}

/// The kind is one, and so is the set: this is asked before who asks.
pub fn is_readable(request: Request) -> Result<(), u32> {
    match request {
        Request::Insert(_, region) | Request::Remove(_, region) if region.kind > 2 => Err(NO_KIND),
        Request::Translate { which, .. } if which > 1 => Err(NO_SET),
        _ => Ok(()),
    }
}

/// Where pages from an address on end.
fn end(start: u64, pages: u64) -> u128 {
    u128::from(start) + PAGE * u128::from(pages)
}

/// Two regions have a guest page in common.
pub fn meet(a: Region, b: Region) -> bool {
    u128::from(a.guest) < end(b.guest, b.pages) && u128::from(b.guest) < end(a.guest, a.pages)
}
