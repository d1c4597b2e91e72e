//! Times the proved functions on the same requests as the rival, interleaved, and prints a line for each row.
use super::call_timing;
use super::configs::{truck, DEVICE, ORDINARY};
use super::memory::{Memory, Sizes, Spare};
use super::model::{Model, Plan};
use super::request::{Region, Request, BOTH};
use super::rival::Rival;
use super::subject::{Calls, Machines};
use crate::config_plain::{self, bytes, Config, Machine};
use crate::ours::machines::Ours;
use crate::rng::Rng;
use crate::shared::request::FRAME;
use crate::timing::ROUNDS;
use std::time::Instant;

/// The machine that asks, the last of four.
pub const ASKER: u64 = 4;
/// The regions that its sets have.
const SETS: [usize; 3] = [1, 8, 32];
/// How often work is done in a round, each time from a start on, and about how many requests it has.
const REPEATS: usize = 10;
const REQUESTS: usize = 4_000;
/// How many frames are taken and given back.
const FRAMES: usize = 1024;
/// Where a machine is removed whole: how many frames there are, how many of them are usable, and how many
/// each run has that it or another machine owns.
pub const WHOLE: usize = 1 << 20;
const WHOLE_USABLE: usize = 1 << 16;
const WHOLE_RUN: usize = 8;
/// The machines that own the runs beside the asker or without it.
pub const OTHERS: [u64; 2] = [1, 2];

/// Work for either column. It says how many requests it made, and the sum of what they answered.
pub trait Work {
    /// The plan of its memories.
    fn plan(&self) -> &Plan;
    /// What is done before the clock runs.
    fn prepare<S: Calls>(&self, memory: &mut Memory);
    fn run<S: Calls>(&self, memory: &mut Memory, spare: &mut Spare) -> (usize, u64);
}

/// Four machines, each with so many regions, and frames for all to take.
pub fn plan(regions: usize) -> Plan {
    let at = |slot: usize| (FRAME * 4 * slot) as u64;
    let kind = |i: usize| if i % 4 == 0 { DEVICE } else { ORDINARY };
    let region = |m: usize, i: usize| config_plain::Region {
        guest: at(i),
        host: at(m * regions + i),
        pages: 3,
        kind: kind(i),
    };
    let machine =
        |m: usize| Machine { number: 1 + m as u16, regions: (0..regions).map(|i| region(m, i)).collect() };
    let config = Config { machines: (0..4).map(machine).collect(), pool: (at(4 * regions), FRAMES as u64) };
    Plan { config, slots: regions, frames: 4096, usable: FRAMES }
}

/// The regions of the asker, in the order of their guest starts.
pub fn regions(plan: &Plan) -> Vec<Region> {
    plan.config.machines[ASKER as usize - 1].regions.iter().map(|&region| region.into()).collect()
}

/// The asker is there, and its processors' set has all its regions.
pub fn fill<S: Machines>(memory: &mut Memory, plan: &Plan) {
    let requests = regions(plan).into_iter().map(|region| Request::Insert(BOTH[0], region));
    for request in [Request::AddZone].into_iter().chain(requests) {
        assert_eq!(memory.ask::<S>(ASKER, request), Ok(None), "{request:?}");
    }
}

/// The truck is set up and torn down again.
struct Truck {
    plan: Plan,
    requests: Vec<(u64, Request)>,
}

impl Truck {
    /// Every machine is added, gets all its regions in both sets and two frames, and gives all back.
    fn new() -> Truck {
        let plan = truck();
        let mut model = Model::new(&plan);
        let mut up = Vec::new();
        for (m, machine) in plan.config.machines.iter().enumerate() {
            let regions = BOTH.into_iter().flat_map(|which| {
                model.given(m).map(move |region| Request::Insert(which, region)).collect::<Vec<_>>()
            });
            let requests = [Request::AddZone].into_iter().chain(regions).chain([Request::Alloc; 2]);
            up.extend(requests.map(|request| (u64::from(machine.number), request)));
        }
        let mut down = Vec::new();
        for &(number, request) in &up {
            let answer = model.ask(number, request).expect("the truck can be set up");
            down.push((number, undone(request, answer)));
        }
        up.extend(down.into_iter().rev());
        Truck { plan, requests: up }
    }
}

/// The request that undoes one.
fn undone(request: Request, answer: Option<u64>) -> Request {
    match (request, answer) {
        (Request::Insert(which, region), _) => Request::Remove(which, region),
        (_, Some(addr)) => Request::Dealloc { addr: addr as usize },
        _ => Request::RemoveZone,
    }
}

impl Work for Truck {
    fn plan(&self) -> &Plan {
        &self.plan
    }

    fn prepare<S: Calls>(&self, _: &mut Memory) {}

    fn run<S: Calls>(&self, memory: &mut Memory, _: &mut Spare) -> (usize, u64) {
        let (times, mut sum) = (REQUESTS / self.requests.len(), 0);
        for _ in 0..times {
            for &(number, request) in &self.requests {
                let answer = memory.ask::<S>(number, request).expect("the truck's request");
                sum += answer.unwrap_or(0);
            }
        }
        (times * self.requests.len(), sum)
    }
}

/// Each region of a set is removed and inserted again.
struct RemoveInsert {
    plan: Plan,
    regions: Vec<Region>,
}

impl RemoveInsert {
    /// In a set of so many.
    fn new(count: usize) -> RemoveInsert {
        let plan = plan(count);
        RemoveInsert { regions: regions(&plan), plan }
    }
}

impl Work for RemoveInsert {
    fn plan(&self) -> &Plan {
        &self.plan
    }

    fn prepare<S: Calls>(&self, memory: &mut Memory) {
        fill::<S>(memory, &self.plan);
    }

    fn run<S: Calls>(&self, memory: &mut Memory, _: &mut Spare) -> (usize, u64) {
        let times = REQUESTS / (2 * self.regions.len());
        let (table, zones) = (memory.table.words(), memory.zones.words_mut());
        let mut refused = 0;
        for _ in 0..times {
            for &region in &self.regions {
                refused += S::remove_region(table, zones, ASKER, region);
                refused += S::insert_region(table, zones, ASKER, region);
            }
        }
        assert_eq!(refused, 0, "every region is there");
        (times * 2 * self.regions.len(), 0)
    }
}

/// Addresses all over a set are translated, a quarter of them between its regions.
struct Translate {
    plan: Plan,
    addresses: Vec<u64>,
}

impl Translate {
    /// In a set of so many.
    fn new(count: usize) -> Translate {
        let mut rng = Rng::new(3);
        let addresses = (0..REQUESTS).map(|_| rng.below(count * 4 * FRAME) as u64).collect();
        Translate { plan: plan(count), addresses }
    }
}

impl Work for Translate {
    fn plan(&self) -> &Plan {
        &self.plan
    }

    fn prepare<S: Calls>(&self, memory: &mut Memory) {
        fill::<S>(memory, &self.plan);
    }

    fn run<S: Calls>(&self, memory: &mut Memory, _: &mut Spare) -> (usize, u64) {
        let (table, zones) = (memory.table.words(), memory.zones.words());
        let mut sum = 0;
        for &addr in &self.addresses {
            let mut host = 0;
            sum += u64::from(S::translate(table, zones, ASKER, 0, addr, &mut host)) + host;
        }
        (self.addresses.len(), sum)
    }
}

/// Frames are taken one by one until there are none.
struct Take {
    plan: Plan,
}

impl Work for Take {
    fn plan(&self) -> &Plan {
        &self.plan
    }

    fn prepare<S: Calls>(&self, memory: &mut Memory) {
        fill::<S>(memory, &self.plan);
    }

    fn run<S: Calls>(&self, memory: &mut Memory, _: &mut Spare) -> (usize, u64) {
        let sum = (0..FRAMES).map(|_| memory.ask::<S>(ASKER, Request::Alloc).expect("a free frame"));
        (FRAMES, sum.flatten().sum())
    }
}

/// All frames are given back, one by one.
struct GiveBack {
    plan: Plan,
}

impl Work for GiveBack {
    fn plan(&self) -> &Plan {
        &self.plan
    }

    fn prepare<S: Calls>(&self, memory: &mut Memory) {
        fill::<S>(memory, &self.plan);
        let all = Request::Run { size: FRAMES, align_log2: 0 };
        assert_eq!(memory.ask::<S>(ASKER, all), Ok(Some(self.plan.config.pool.0)), "all frames");
    }

    fn run<S: Calls>(&self, memory: &mut Memory, _: &mut Spare) -> (usize, u64) {
        let pool = self.plan.config.pool.0 as usize;
        for k in 0..FRAMES {
            let answer = memory.ask::<S>(ASKER, Request::Dealloc { addr: pool + FRAME * k });
            assert_eq!(answer, Ok(None), "the asker's frame");
        }
        (FRAMES, 0)
    }
}

/// The asker is removed whole, while two machines own all usable frames in alternate runs.
pub struct RemoveWhole {
    plan: Plan,
    owners: [u64; 2],
}

impl RemoveWhole {
    /// These machines own the frames.
    pub fn new(owners: [u64; 2]) -> RemoveWhole {
        let mut plan = Plan { frames: WHOLE, usable: WHOLE_USABLE, ..plan(8) };
        plan.config.pool.1 = WHOLE as u64;
        RemoveWhole { plan, owners }
    }
}

impl Work for RemoveWhole {
    fn plan(&self) -> &Plan {
        &self.plan
    }

    fn prepare<S: Calls>(&self, memory: &mut Memory) {
        fill::<S>(memory, &self.plan);
        for number in OTHERS {
            assert_eq!(memory.ask::<S>(number, Request::AddZone), Ok(None), "another machine");
        }
        let run = Request::Run { size: WHOLE_RUN, align_log2: 0 };
        for i in 0..WHOLE_USABLE / WHOLE_RUN {
            let addr = self.plan.config.pool.0 + (FRAME * WHOLE_RUN * i) as u64;
            assert_eq!(memory.ask::<S>(self.owners[i % 2], run), Ok(Some(addr)), "the next run");
        }
    }

    fn run<S: Calls>(&self, memory: &mut Memory, _: &mut Spare) -> (usize, u64) {
        assert_eq!(memory.ask::<S>(ASKER, Request::RemoveZoneWhole), Ok(None), "the asker is there");
        (1, 0)
    }
}

/// The nanoseconds for one request, and what was answered.
fn time<S: Calls, W: Work>(work: &W, memory: &mut Memory, spare: &mut Spare) -> (f64, u64) {
    let bytes = bytes(&work.plan().config);
    let (mut nanoseconds, mut requests, mut sum) = (0, 0, 0);
    for _ in 0..REPEATS {
        assert_eq!(memory.start::<S>(&bytes), 0, "a start");
        work.prepare::<S>(memory);
        let began = Instant::now();
        let (made, answered) = work.run::<S>(memory, spare);
        nanoseconds += began.elapsed().as_nanos();
        requests += made;
        sum += answered;
    }
    (nanoseconds as f64 / requests as f64, sum)
}

/// Times a row and prints its line.
pub fn row<W: Work>(name: &str, work: W) {
    let mut memory = Memory::any(Sizes::of(work.plan()), &mut Rng::new(1));
    let mut spare = Spare::any(memory.sizes(), &mut Rng::new(2));
    let (mut ours, mut rival) = (f64::MAX, f64::MAX);
    for _ in 0..ROUNDS {
        let mine = time::<Ours, W>(&work, &mut memory, &mut spare);
        let theirs = time::<Rival, W>(&work, &mut memory, &mut spare);
        assert_eq!(mine.1, theirs.1, "{name}: the rival gives other answers");
        ours = ours.min(mine.0);
        rival = rival.min(theirs.0);
    }
    println!("| {name} | {rival:.1} | {ours:.1} | {:.2} |", ours / rival);
}

/// All rows.
pub fn run() {
    println!("| row | rival | ours | ours/rival |");
    println!("|---|---:|---:|---:|");
    row("the truck set up and torn down", Truck::new());
    for count in SETS {
        row(&format!("a region removed and inserted, {count} in the set"), RemoveInsert::new(count));
    }
    for count in SETS {
        row(&format!("an address translated, {count} in the set"), Translate::new(count));
    }
    row("a frame taken", Take { plan: plan(1) });
    row("a frame given back and cleared", GiveBack { plan: plan(1) });
    row(
        "a machine removed whole, 1M frames, half of the usable its own",
        RemoveWhole::new([ASKER, OTHERS[0]]),
    );
    row("a machine removed whole, 1M frames, none its own", RemoveWhole::new(OTHERS));
    call_timing::rows();
    println!();
    println!("Nanoseconds for one request or list of the row, the least of {ROUNDS} interleaved rounds.");
}
