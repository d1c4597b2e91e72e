//! The truck is set up, works, loses a machine whole and is torn down, and meets every refusal that there is;
//! and the findings F3 and F14, which concern regions and machines.
use super::configs::{truck, ORDINARY};
use super::model::Plan;
use super::random::give_all_back;
use super::reach;
use super::request::{
    said, Answer, Region, Request, Which, BELOW, NOT_AT_FRAME, NOT_EMPTY, NOT_GIVEN, NOT_IN_SET, NOT_MAPPED,
    NOT_PRESENT, NOT_TAKEN, NOT_YOURS, NO_FRAMES, NO_KIND, NO_MACHINE, NO_ROOM, NO_SET, OUTSIDE, OVERLAP,
    PRESENT, REASONS,
};
use super::subject::Machines;
use super::trial::{Tally, Trial};
use crate::config_plain::{self, Config, Machine};
use crate::rng::Rng;
use Which::{Devices, Processors};

/// The truck's machines by their numbers, and a number that is none's.
pub const REPLAY: u64 = 1;
pub const GRAPHICS: u64 = 2;
const SOUND: u64 = 3;
const COMMENTARY: u64 = 4;
const NOBODYS: u64 = 5;
/// Where the pictures are, and the allocator's first page.
const PICTURES: u64 = 0x900;
pub const POOL: u64 = 0x10000;

/// A trial whose answers are known beforehand.
pub struct Known<S> {
    pub trial: Trial<S>,
    pub tally: Tally,
    pub rng: Rng,
}

impl<S: Machines> Known<S> {
    /// The start of a plan.
    pub fn new(plan: &Plan) -> Result<Known<S>, String> {
        let mut rng = Rng::new(11);
        Ok(Known { trial: Trial::new(plan, &mut rng)?, tally: Tally::default(), rng })
    }

    /// A request that must be answered so.
    pub fn ask(&mut self, number: u64, request: Request, wanted: Answer) -> Result<(), String> {
        let answer = self.trial.step(number, request, &mut self.tally)?;
        if answer == wanted {
            return Ok(());
        }
        Err(format!("{number} asks {request:x?}: {}, and not {}", said(answer), said(wanted)))
    }

    /// A request that must be met.
    pub fn done(&mut self, number: u64, request: Request) -> Result<(), String> {
        self.ask(number, request, Ok(None))
    }

    /// A request that must be refused.
    fn no(&mut self, number: u64, request: Request, reason: u32) -> Result<(), String> {
        self.ask(number, request, Err(reason))
    }

    /// A run that must begin with frame k.
    pub fn run(&mut self, number: u64, size: usize, align_log2: usize, k: u64) -> Result<(), String> {
        self.ask(number, Request::Run { size, align_log2 }, Ok(Some((POOL + k) << 12)))
    }

    /// The machines, by their places, that must reach a host page.
    fn reached(&self, page: u64, wanted: &[usize]) -> Result<(), String> {
        let who = reach::who(self.trial.memory.view(), page);
        if who == wanted {
            return Ok(());
        }
        Err(format!("page {page:#x} is reached by {who:?}, and not by {wanted:?}"))
    }

    /// Region i of the machine that has a number, which is its place and one more.
    pub fn region(&self, number: u64, i: usize) -> Region {
        self.trial.model.plan.config.machines[number as usize - 1].regions[i].into()
    }
}

/// Frames from frame k on.
fn back(k: u64, count: usize) -> Request {
    Request::DeallocRun { addr: ((POOL + k) << 12) as usize, count }
}

/// The frame at an address some bytes behind frame k.
pub fn back_one(k: u64, behind: usize) -> Request {
    Request::Dealloc { addr: ((POOL + k) << 12) as usize + behind }
}

/// The truck, twice: after it is torn down, it can be set up again.
pub fn run<S: Machines>() -> Result<String, String> {
    let mut truck = Known::<S>::new(&truck())?;
    for _ in 0..2 {
        set_up(&mut truck)?;
        refused_regions(&mut truck)?;
        work(&mut truck)?;
        refused_frames(&mut truck)?;
        taken_whole(&mut truck)?;
        give_all_back(&mut truck.trial, &mut truck.rng, &mut truck.tally)?;
        truck.reached(PICTURES, &[])?;
    }
    let met: Vec<u32> = truck.tally.answers.keys().copied().collect();
    let wanted: Vec<u32> = [0].into_iter().chain(REASONS).collect();
    if met != wanted {
        return Err(format!("the answers are {met:?}, and should be {wanted:?}"));
    }
    Ok(truck.tally.to_string())
}

/// Each machine is added, and its processors get all its regions, its devices those but its memory.
fn set_up<S: Machines>(truck: &mut Known<S>) -> Result<(), String> {
    truck.no(REPLAY, Request::RemoveZone, NOT_PRESENT)?;
    truck.no(NOBODYS, Request::AddZone, NO_MACHINE)?;
    for number in [COMMENTARY, REPLAY, SOUND, GRAPHICS] {
        truck.no(number, Request::Alloc, NOT_PRESENT)?;
        truck.done(number, Request::AddZone)?;
        truck.no(number, Request::AddZone, PRESENT)?;
        let given = truck.trial.model.plan.config.machines[number as usize - 1].regions.clone();
        for (i, region) in given.into_iter().map(Region::from).enumerate().rev() {
            truck.done(number, Request::Insert(Processors, region))?;
            if i > 0 {
                truck.done(number, Request::Insert(Devices, region))?;
            }
        }
    }
    truck.reached(PICTURES, &[0, 1, 3])?;
    truck.reached(PICTURES + 7, &[0, 1, 3])?;
    truck.reached(PICTURES + 8, &[])?;
    truck.reached(0x100, &[0])?;
    truck.reached(0xff0, &[2])?;
    truck.reached(POOL, &[])
}

/// Regions and addresses that are refused, and addresses that are translated.
fn refused_regions<S: Machines>(truck: &mut Known<S>) -> Result<(), String> {
    let (memory, pictures) = (truck.region(GRAPHICS, 0), truck.region(GRAPHICS, 1));
    truck.no(REPLAY, Request::Insert(Processors, memory), NOT_GIVEN)?;
    truck.no(SOUND, Request::Insert(Devices, pictures), NOT_GIVEN)?;
    truck.no(GRAPHICS, Request::Insert(Processors, pictures), OVERLAP)?;
    truck.no(GRAPHICS, Request::Insert(Processors, Region { pages: 7, ..pictures }), NOT_GIVEN)?;
    truck.no(GRAPHICS, Request::Remove(Devices, memory), NOT_IN_SET)?;
    truck.no(NOBODYS, Request::Insert(Processors, Region { kind: 3, ..pictures }), NO_KIND)?;
    truck.no(NOBODYS, Request::Insert(Processors, pictures), NO_MACHINE)?;
    let at = |which, addr| Request::Translate { which, addr };
    truck.ask(REPLAY, at(0, 0x100_0123), Ok(Some(0x90_0123)))?;
    truck.ask(COMMENTARY, at(1, 0x180_7fff), Ok(Some(0x90_7fff)))?;
    truck.no(COMMENTARY, at(1, 0x180_8000), NOT_MAPPED)?;
    truck.no(SOUND, at(0, 0x100_0000), NOT_MAPPED)?;
    truck.no(NOBODYS, at(2, 0), NO_SET)
}

/// Frames are taken until there are none, and one goes from one machine to another, empty.
fn work<S: Machines>(truck: &mut Known<S>) -> Result<(), String> {
    truck.ask(REPLAY, Request::Alloc, Ok(Some(POOL << 12)))?;
    truck.run(GRAPHICS, 4, 2, 4)?;
    truck.run(SOUND, 2, 0, 1)?;
    truck.ask(COMMENTARY, Request::Alloc, Ok(Some((POOL + 3) << 12)))?;
    truck.no(REPLAY, Request::Run { size: 3, align_log2: 0 }, NO_ROOM)?;
    truck.run(REPLAY, 2, 1, 8)?;
    truck.no(SOUND, Request::Alloc, NO_ROOM)?;
    truck.reached(POOL + 4, &[1])?;
    for k in 0..10 {
        truck.trial.write(k, &mut truck.rng, &mut truck.tally);
    }
    truck.done(REPLAY, back_one(0, 0))?;
    truck.reached(POOL, &[])?;
    truck.ask(GRAPHICS, Request::Alloc, Ok(Some(POOL << 12)))?;
    truck.reached(POOL, &[1])
}

/// Frames that are not the asker's or are none, and machines that go too early.
fn refused_frames<S: Machines>(truck: &mut Known<S>) -> Result<(), String> {
    truck.no(SOUND, back_one(4, 0), NOT_YOURS)?;
    truck.no(SOUND, back_one(10, 0), NOT_YOURS)?;
    truck.no(SOUND, back_one(16, 0), OUTSIDE)?;
    truck.no(SOUND, back(1, 16), OUTSIDE)?;
    truck.no(SOUND, back(1, 3), NOT_YOURS)?;
    truck.no(SOUND, back(1, 0), NO_FRAMES)?;
    truck.no(SOUND, Request::Run { size: 0, align_log2: 0 }, NO_FRAMES)?;
    truck.no(SOUND, back_one(1, 8), NOT_AT_FRAME)?;
    truck.no(SOUND, Request::Dealloc { addr: 0 }, BELOW)?;
    truck.done(REPLAY, back(8, 2))?;
    truck.no(REPLAY, back_one(8, 0), NOT_TAKEN)?;
    truck.no(SOUND, Request::RemoveZone, NOT_EMPTY)?;
    for (which, i) in [(Processors, 0), (Processors, 1), (Devices, 1)] {
        let region = truck.region(SOUND, i);
        truck.done(SOUND, Request::Remove(which, region))?;
        truck.no(SOUND, Request::Remove(which, region), NOT_IN_SET)?;
        truck.no(SOUND, Request::RemoveZone, NOT_EMPTY)?;
    }
    truck.done(SOUND, back(1, 2))?;
    truck.done(SOUND, Request::RemoveZone)?;
    truck.no(SOUND, Request::Alloc, NOT_PRESENT)
}

/// Graphics is taken away with all it has, which nobody reaches then, and is added again with nothing.
fn taken_whole<S: Machines>(truck: &mut Known<S>) -> Result<(), String> {
    truck.no(NOBODYS, Request::RemoveZoneWhole, NO_MACHINE)?;
    truck.no(SOUND, Request::RemoveZoneWhole, NOT_PRESENT)?;
    truck.no(GRAPHICS, Request::RemoveZone, NOT_EMPTY)?;
    truck.done(GRAPHICS, Request::RemoveZoneWhole)?;
    for page in [0x200, POOL, POOL + 4, POOL + 7] {
        truck.reached(page, &[])?;
    }
    truck.reached(PICTURES, &[0, 3])?;
    truck.reached(POOL + 3, &[3])?;
    truck.no(GRAPHICS, Request::RemoveZoneWhole, NOT_PRESENT)?;
    truck.done(GRAPHICS, Request::AddZone)?;
    truck.no(GRAPHICS, Request::Translate { which: 0, addr: 0 }, NOT_MAPPED)?;
    truck.no(GRAPHICS, back_one(4, 0), NOT_TAKEN)?;
    let pictures = truck.region(GRAPHICS, 1);
    truck.done(GRAPHICS, Request::Insert(Processors, pictures))?;
    truck.reached(PICTURES, &[0, 1, 3])?;
    truck.run(GRAPHICS, 4, 2, 4)
}

/// F3: a region is removed only by every field of it.
pub fn f3<S: Machines>() -> Result<String, String> {
    let given = config_plain::Region { guest: 0, host: 0x1000, pages: 2, kind: ORDINARY };
    let machines = vec![Machine { number: 1, regions: vec![given] }];
    let config = Config { machines, pool: (0x10_0000, 1) };
    let mut known = Known::<S>::new(&Plan { config, slots: 1, frames: 16, usable: 1 })?;
    let region = Region::from(given);
    known.done(1, Request::AddZone)?;
    for which in [Processors, Devices] {
        known.done(1, Request::Insert(which, region))?;
        let other = Region { host: 0x9000, pages: 1, ..region };
        known.no(1, Request::Remove(which, other), NOT_IN_SET)?;
        let addr = Request::Translate { which: which as u64, addr: 0x1fff };
        known.ask(1, addr, Ok(Some(0x2fff)))?;
        known.done(1, Request::Remove(which, region))?;
        known.no(1, addr, NOT_MAPPED)?;
    }
    Ok("upstream removes whatever starts there; ours refuses, and the region stays".to_string())
}

/// F14: a machine that was removed can be added again.
pub fn f14<S: Machines>() -> Result<String, String> {
    let mut truck = Known::<S>::new(&truck())?;
    for _ in 0..3 {
        truck.done(SOUND, Request::AddZone)?;
        let region = truck.region(SOUND, 1);
        truck.done(SOUND, Request::Insert(Devices, region))?;
        truck.ask(SOUND, Request::Alloc, Ok(Some(POOL << 12)))?;
        truck.done(SOUND, back_one(0, 0))?;
        truck.done(SOUND, Request::Remove(Devices, region))?;
        truck.done(SOUND, Request::RemoveZone)?;
    }
    Ok("upstream keeps the number in its live set; ours adds the machine again".to_string())
}
