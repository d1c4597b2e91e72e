//! `replayframes bench`: how long the main requests take on this machine. Each piece of work leaves the monitor as it
//! found it, so that it can be done again and again.
use crate::args::BenchArgs;
use crate::bytes_form;
use crate::fault::Fault;
use crate::number::{counted, PAGE};
use crate::output::{say, Progress, Status, Stop};
use crate::plan::{At, Machine, Place, Plan, Pool, Region};
use crate::running::{Answer, Lent, Running};
use crate::table::{Side, Table};
use replayframes::{Call, Kind, Monitor, Refusal, Request, Which};
use std::time::{Duration, Instant};

/// The machine that asks.
const NUMBER: u64 = 1;
/// Where the pool begins, and where the regions do on the host: behind the largest pool.
const POOL: u64 = 0x1_0000_0000;
const REGIONS: u64 = 0x100_0000_0000;
/// How many frames the pools have, and how many regions the sets.
const FRAMES: [u64; 3] = [256, 4096, 65_536];
const SETS: [u64; 3] = [1, 8, 32];
/// How many frames are taken before a machine is removed whole, and how many a list takes and gives back.
const OWNED: u64 = 64;
const LISTED: u64 = 15;
/// How long a run lasts at least.
const LONG_ENOUGH: Duration = Duration::from_millis(10);

/// What is said below the table.
const NOTE: &str = "The figures mean something only on a machine that does nothing else.\n";

/// The lines of the table, and how far the work is.
struct Bench {
    table: Table,
    rounds: u16,
    progress: Progress,
}

/// What a piece of work ends with.
type Done = Result<(), Refusal>;

/// Times the main requests, and prints a table.
pub fn run(args: &BenchArgs) -> Result<Status, Stop> {
    let columns = [
        ("request", Side::Left),
        ("size", Side::Left),
        ("times", Side::Right),
        ("runs", Side::Right),
        ("median", Side::Right),
    ];
    let mut bench =
        Bench { table: Table::new(&columns), rounds: args.rounds, progress: Progress::new(args.progress) };
    for frames in FRAMES {
        bench.starts(frames).and_then(|()| bench.frames(frames)).map_err(fault)?;
    }
    for regions in SETS {
        bench.regions(regions).map_err(fault)?;
    }
    say(&format!("{}\n{NOTE}", bench.table.text()))?;
    Ok(Status::Good)
}

/// A piece of work that is not done is a fault of this program.
fn fault(wrong: String) -> Fault {
    Fault::of("bench", wrong)
}

impl Bench {
    /// Times starts.
    fn starts(&mut self, frames: u64) -> Result<(), String> {
        let plan = plan(1, frames);
        let bytes = bytes_form::compile(&plan);
        let mut lent = Lent::new(&plan, frames)?;
        self.row("start", &counted(frames, "frame"), || lent.start(&bytes).map(|_| ()))
    }

    /// Times requests of the pool.
    fn frames(&mut self, frames: u64) -> Result<(), String> {
        let plan = plan(1, frames);
        let mut lent = Lent::new(&plan, frames)?;
        let mut running = lent.start(&bytes_form::compile(&plan)).map_err(|refusal| refusal.to_string())?;
        let size = counted(frames, "frame");
        self.row("add, take 64 frames, remove whole", &size, || whole_removal(&mut running.monitor))?;
        running.monitor.add_zone(NUMBER).map_err(|refusal| refusal.to_string())?;
        self.row("take a frame, give it back", &size, || one_frame(&mut running.monitor))?;
        self.row("take 16 aligned frames, give them back", &size, || aligned_run(&mut running.monitor))?;
        self.row("a list of thirty requests", &size, || list_of_thirty(&mut running))
    }

    /// Times requests of a set of so many regions.
    fn regions(&mut self, regions: u64) -> Result<(), String> {
        let plan = plan(regions, FRAMES[0]);
        let mut lent = Lent::new(&plan, FRAMES[0])?;
        let mut running = lent.start(&bytes_form::compile(&plan)).map_err(|refusal| refusal.to_string())?;
        let monitor = &mut running.monitor;
        set_up(monitor, regions).map_err(|refusal| refusal.to_string())?;
        let size = counted(regions, "region");
        self.row("remove a region and insert it", &size, || move_region(monitor, regions / 2))?;
        self.row("translate an address", &size, || {
            monitor.translate(NUMBER, Which::Processors, PAGE * (regions / 2)).map(|_| ())
        })
    }

    /// Times a piece of work, and adds the row of it.
    fn row(&mut self, name: &str, size: &str, mut work: impl FnMut() -> Done) -> Result<(), String> {
        self.progress.tell(|| format!("{name}, {size}"));
        let undone = |refusal: Refusal| format!("{name}, {size}: {refusal}");
        let times = enough(&mut work).map_err(undone)?;
        let mut runs = Vec::new();
        for _ in 0..self.rounds {
            runs.push(timed(times, &mut work).map_err(undone)?);
        }
        runs.sort();
        let median = per_time(runs[runs.len() / 2], times);
        self.table.row(
            [name, size, &times.to_string(), &self.rounds.to_string(), &median].map(str::to_string).to_vec(),
        );
        Ok(())
    }
}

/// How long the work takes so many times.
fn timed(times: u32, work: &mut impl FnMut() -> Done) -> Result<Duration, Refusal> {
    let began = Instant::now();
    for _ in 0..times {
        work()?;
    }
    Ok(began.elapsed())
}

/// How often the work is to be done so that a run lasts long enough.
fn enough(work: &mut impl FnMut() -> Done) -> Result<u32, Refusal> {
    let mut times = 1;
    while timed(times, work)? < LONG_ENOUGH {
        times = times.saturating_mul(2);
    }
    Ok(times)
}

/// The time of one in a run of so many.
fn per_time(run: Duration, times: u32) -> String {
    let nanoseconds = run.as_nanos() as f64 / f64::from(times);
    match nanoseconds {
        long if long >= 1e6 => format!("{:.2} ms", long / 1e6),
        some if some >= 1e3 => format!("{:.2} us", some / 1e3),
        few => format!("{few:.0} ns"),
    }
}

/// A value that stands in no file.
fn at<T>(value: T) -> At<T> {
    At { value, place: Place::Byte(0) }
}

/// Region i of the machine: a page.
fn region(i: u64) -> replayframes::Region {
    replayframes::Region { guest: PAGE * i, host: REGIONS + PAGE * i, pages: 1, kind: Kind::Ordinary }
}

/// One machine with so many regions, and so many frames.
fn plan(regions: u64, frames: u64) -> Plan {
    let regions = (0..regions).map(|i| {
        let replayframes::Region { guest, host, pages, .. } = region(i);
        Region { name: i.to_string(), guest: at(guest), host: at(host), pages: at(pages), kind: at(0) }
    });
    let machine = Machine { name: "bench".to_string(), number: at(1), regions: regions.collect() };
    Plan { machines: vec![machine], pool: Pool { host: at(POOL), pages: at(frames) } }
}

/// Adds the machine with all its regions.
fn set_up(monitor: &mut Monitor, regions: u64) -> Done {
    monitor.add_zone(NUMBER)?;
    (0..regions).try_for_each(|i| monitor.insert_region(NUMBER, region(i)))
}

/// Takes a region away and gives it back.
fn move_region(monitor: &mut Monitor, i: u64) -> Done {
    monitor.remove_region(NUMBER, region(i))?;
    monitor.insert_region(NUMBER, region(i))
}

/// Takes a frame and gives it back.
fn one_frame(monitor: &mut Monitor) -> Done {
    let address = monitor.alloc(NUMBER)?;
    monitor.dealloc(NUMBER, address)
}

/// Takes an aligned run of frames and gives it back.
fn aligned_run(monitor: &mut Monitor) -> Done {
    let address = monitor.alloc_contiguous(NUMBER, 16, 4)?;
    monitor.dealloc_contiguous(NUMBER, address, 16)
}

/// Adds the machine, takes frames, and removes it with all that it has.
fn whole_removal(monitor: &mut Monitor) -> Done {
    monitor.add_zone(NUMBER)?;
    monitor.alloc_contiguous(NUMBER, OWNED, 0)?;
    monitor.remove_zone_whole(NUMBER)
}

/// Takes frames and gives them back, one by one, in one list.
fn list_of_thirty(running: &mut Running) -> Done {
    let taken = (0..LISTED).map(|_| Request::Alloc);
    let given = (0..LISTED).map(|k| Request::Dealloc { address: POOL + PAGE * k });
    let requests: Vec<Request> = taken.chain(given).collect();
    match running.call(NUMBER, Call::List(&requests)) {
        Answer::Refused(refusal, _) => Err(refusal),
        _ => Ok(()),
    }
}
