//! Compares ours with upstream and with plain models: every answer, and every frame after each step.
//!
//!     compare quick    a part of each comparison, in about a minute
//!     compare all      the whole
//!
//! The last line is 'N passed, M failed', where each comparison and each finding counts as one.
use compare::machines::rival::Rival;
use compare::machines::subject::{Calls, Machines};
use compare::machines::{self, truck};
use compare::ours::machines::Ours;
use compare::random::Extent;
use compare::report::Report;
use compare::upstream::{BitAlloc16, BitAlloc1M, BitAlloc256, BitAlloc4K, BitAlloc64K, Leaves};
use compare::{config_cases, damage, findings, model, random, sequences, shared};
use std::process::exit;
use std::thread;

/// Upstream's bitmaps are values, and go over the stack whole.
const STACK: usize = 64 << 20;

/// How much is run.
struct Plan {
    /// Sequences of 300 requests at 16, 256, 4096, 65536 and 1048576 frames, and of 100 at 16777216.
    sequences: [usize; 6],
    /// Damaged memories of 1, 17, 273 and 4369 words.
    memories: [usize; 4],
    /// The shared allocator: sequences of 300 requests at 16, 256, 4096, 65536 and 1048576 frames.
    shared: [usize; 5],
    /// The same with contents: at 16, 256 and 4096 frames, and of 100 requests at 65536.
    contents: [usize; 4],
    /// Allocators that are exhausted and released, at the sizes of `shared` and of `contents`.
    special: ([usize; 5], [usize; 4]),
    /// Damaged allocators of 1, 17 and 273 words, without and with contents.
    allocators: ([usize; 3], [usize; 3]),
    /// Random configurations.
    configurations: usize,
    /// Machines: random configurations with 300 requests each, at 16, 256 and 4096 frames; of the rival a
    /// tenth.
    machines: [usize; 3],
    /// Damaged memories of machines, at 16, 256 and 4096 frames.
    damaged_machines: [usize; 3],
    /// Starts with lengths that do not go together.
    starts: usize,
    /// Random configurations with 60 calls each, most of them lists, at 16, 256 and 4096 frames; of the rival
    /// a tenth.
    lists: [usize; 3],
    /// Sequences of calls, pairs of sequences with and without the others' calls, and memories that are
    /// called with any bytes, at 16, 256 and 4096 frames.
    runs: [usize; 3],
    pairs: [usize; 3],
    any_bytes: [usize; 3],
    /// Sets that are out of order.
    sets: usize,
    /// The crate's monitor: random configurations with 60 requests, calls and sequences each, at 16, 256 and 4096
    /// frames.
    monitored: [usize; 3],
}

const QUICK: Plan = Plan {
    sequences: [30_000, 30_000, 1_000, 100, 20, 3],
    memories: [50_000, 20_000, 2_000, 100],
    shared: [10_000, 3_000, 200, 20, 4],
    contents: [3_000, 100, 4, 0],
    special: ([2_000, 200, 20, 5, 2], [500, 20, 4, 0]),
    allocators: ([50_000, 10_000, 500], [5_000, 200, 5]),
    configurations: 20_000,
    machines: [500, 150, 30],
    damaged_machines: [2_000, 500, 30],
    starts: 5_000,
    lists: [800, 250, 20],
    runs: [4_000, 800, 40],
    pairs: [1_500, 300, 20],
    any_bytes: [5_000, 1_000, 50],
    sets: 1_000,
    monitored: [800, 150, 10],
};
const ALL: Plan = Plan {
    sequences: [100_000, 100_000, 20_000, 2_000, 400, 100],
    memories: [1_000_000, 500_000, 50_000, 2_000],
    shared: [100_000, 50_000, 4_000, 400, 60],
    contents: [50_000, 2_000, 40, 4],
    special: ([20_000, 2_000, 200, 50, 8], [5_000, 200, 20, 2]),
    allocators: ([500_000, 100_000, 5_000], [50_000, 1_000, 30]),
    configurations: 1_000_000,
    machines: [20_000, 5_000, 1_000],
    damaged_machines: [50_000, 10_000, 500],
    starts: 100_000,
    lists: [10_000, 3_000, 300],
    runs: [50_000, 10_000, 500],
    pairs: [20_000, 4_000, 300],
    any_bytes: [50_000, 10_000, 500],
    sets: 20_000,
    monitored: [20_000, 4_000, 300],
};
/// How many frames the shared allocators of a plan have.
const SHARED: [usize; 5] = [16, 256, 4096, 65536, 1 << 20];
/// How many frames the machines of a plan have.
const MACHINES: [usize; 3] = [16, 256, 4096];
/// A base near the end of all addresses: nine frames have a place.
const NEAR_THE_END: usize = 0_usize.wrapping_sub(10 * 4096);

fn main() {
    let words: Vec<String> = std::env::args().skip(1).collect();
    let plan = match words.iter().map(String::as_str).collect::<Vec<_>>()[..] {
        ["quick"] => QUICK,
        ["all"] => ALL,
        _ => {
            eprintln!("usage: compare quick | all");
            exit(2);
        }
    };
    let worker = thread::Builder::new().stack_size(STACK).spawn(move || run(&plan)).expect("a thread");
    exit(if worker.join().expect("panics are caught") { 0 } else { 1 });
}

/// Runs everything, and says whether all of it passed.
fn run(plan: &Plan) -> bool {
    println!("After each step every word of ours is compared, summaries too, and every frame of upstream's up to 4096;");
    println!("of a larger one the frames around the change, and all of them now and then and at each end.");
    let mut report = Report::default();
    for (name, finding) in findings::ALL {
        report.run(name, finding);
    }
    report.run("the model's runs are those of the definition", model::compare_with_definition);
    report.run("every state of 16 frames", sequences::every_state);
    for (from, free) in [("taken", false), ("free", true)] {
        report.run(&format!("sequences at 16, all {from} at first"), || sequences::all::<BitAlloc16>(free));
        report.run(&format!("sequences at 256, all {from} at first"), || sequences::all::<BitAlloc256>(free));
    }
    let [of16, of256, of4k, of64k, of1m, of16m] = plan.sequences;
    random::<BitAlloc16>(&mut report, of16, 300, 300);
    random::<BitAlloc256>(&mut report, of256, 300, 300);
    random::<BitAlloc4K>(&mut report, of4k, 300, 50);
    random::<BitAlloc64K>(&mut report, of64k, 300, 100);
    random::<BitAlloc1M>(&mut report, of1m, 300, 100);
    random_beyond_upstream(&mut report, of16m);
    report.run("how many words a tree has", damage::sizes);
    report.run("words that are no tree", damage::no_tree);
    for (words, memories) in [1, 17, 273, 4369].into_iter().zip(plan.memories) {
        report.run(&format!("damaged memory of {words} words"), || damage::run(words, memories));
    }
    shared_allocator(&mut report, plan);
    shared_contents(&mut report, plan);
    for (name, bytes, wanted) in config_cases::smallest() {
        report.run(&format!("a configuration, {name}"), || config_cases::answered(&bytes, wanted));
    }
    report.run("the truck's configuration, cut off and changed", config_cases::changed);
    report.run("random configurations", || config_cases::random(plan.configurations));
    truck_and_machines(&mut report, plan);
    calls(&mut report, plan);
    monitored(&mut report, plan);
    report.end()
}

/// Machines, their regions and their frames beside the plain model.
fn truck_and_machines(report: &mut Report, plan: &Plan) {
    report.run("F3", truck::f3::<Ours>);
    report.run("F14", truck::f14::<Ours>);
    report.run("machines, the truck", truck::run::<Ours>);
    report.run("machines, starts", || machines::starts::run::<Ours>(plan.starts));
    for (frames, sequences) in MACHINES.into_iter().zip(plan.machines) {
        machines_random::<Ours>(report, frames, sequences);
        machines_random::<Rival>(report, frames, sequences / 10);
    }
    for (frames, memories) in MACHINES.into_iter().zip(plan.damaged_machines) {
        let name = format!("machines, damaged memory of {frames} frames");
        report.run(&name, || machines::damage::run::<Ours>(frames, memories));
    }
}

/// Random sequences of machines' requests.
fn machines_random<S: Machines>(report: &mut Report, frames: usize, sequences: usize) {
    let name = format!("machines, random sequences at {frames}, {}", S::NAME);
    let extent = machines::random::Extent { frames, sequences, length: 300 };
    report.run(&name, || machines::random::run::<S>(extent));
}

/// Requests in bytes, lists of them and sequences of calls beside the plain model.
fn calls(report: &mut Report, plan: &Plan) {
    for (name, case) in machines::call_cases::all::<Ours>() {
        report.run(&format!("calls, {name}"), case);
    }
    report.run("calls, sets out of order", || machines::sets::run::<Ours>(plan.sets));
    for (i, frames) in MACHINES.into_iter().enumerate() {
        random_lists::<Ours>(report, frames, plan.lists[i]);
        random_lists::<Rival>(report, frames, plan.lists[i] / 10);
        report.run(&format!("calls, sequences at {frames}"), || {
            machines::runs::run::<Ours>(frames, plan.runs[i])
        });
        report.run(&format!("calls, with and without the others at {frames}"), || {
            machines::purge::run::<Ours>(frames, plan.pairs[i])
        });
        report.run(&format!("calls, any bytes at {frames}"), || {
            machines::any_bytes::run::<Ours>(frames, plan.any_bytes[i])
        });
    }
}

/// The crate's monitor beside the plain model.
fn monitored(report: &mut Report, plan: &Plan) {
    for (frames, sequences) in MACHINES.into_iter().zip(plan.monitored) {
        let extent = machines::random::Extent { frames, sequences, length: 60 };
        report.run(&format!("the crate's monitor at {frames}"), || machines::monitored::run(extent));
    }
}

/// Random lists of machines' requests.
fn random_lists<S: Calls>(report: &mut Report, frames: usize, sequences: usize) {
    let name = format!("calls, random lists at {frames}, {}", S::NAME);
    let extent = machines::random::Extent { frames, sequences, length: 60 };
    report.run(&name, || machines::lists::run::<S>(extent));
}

/// The shared allocator beside the plain model.
fn shared_allocator(report: &mut Report, plan: &Plan) {
    report.run("shared, addresses of frames", shared::sizes::addresses);
    report.run("shared, lengths that do not go together", || shared::sizes::lengths(false));
    report.run("shared, sequences at 16", || shared::sequences::all(1 << 20, 16));
    report.run("shared, sequences at 16 of which 9 have a place", || shared::sequences::all(NEAR_THE_END, 9));
    for (frames, sequences) in SHARED.into_iter().zip(plan.shared) {
        let look_every = if frames <= 4096 { 50 } else { 100 };
        shared_random(report, Extent { frames, sequences, length: 300, look_every }, false);
    }
    special(report, &plan.special.0, false);
    for (words, memories) in [1, 17, 273].into_iter().zip(plan.allocators.0) {
        let name = format!("shared, damaged memory of {words} words");
        report.run(&name, || shared::damage::run(words, false, memories));
    }
}

/// The shared allocator with contents beside the plain model.
fn shared_contents(report: &mut Report, plan: &Plan) {
    report.run("contents, lengths that do not go together", || shared::sizes::lengths(true));
    for (frames, sequences) in SHARED.into_iter().zip(plan.contents) {
        let (length, look_every) = if frames <= 4096 { (300, 50) } else { (100, 25) };
        if sequences > 0 {
            shared_random(report, Extent { frames, sequences, length, look_every }, true);
        }
    }
    special(report, &plan.special.1, true);
    for (words, memories) in [1, 17, 273].into_iter().zip(plan.allocators.1) {
        let name = format!("contents, damaged memory of {words} words");
        report.run(&name, || shared::damage::run(words, true, memories));
    }
}

/// What the lines of the shared allocator begin with.
fn kind(contents: bool) -> &'static str {
    if contents {
        "contents"
    } else {
        "shared"
    }
}

/// Random sequences of the shared allocator.
fn shared_random(report: &mut Report, extent: Extent, contents: bool) {
    let name = format!("{}, random sequences at {}", kind(contents), extent.frames);
    report.run(&name, || shared::random::run(extent, contents));
}

/// Exhaustion and release at each size of a plan.
fn special(report: &mut Report, plan: &[usize], contents: bool) {
    for (frames, &times) in SHARED.into_iter().zip(plan).filter(|(_, &times)| times > 0) {
        let kind = kind(contents);
        report.run(&format!("{kind}, none left at {frames}"), || {
            shared::special::exhaustion(frames, contents, times)
        });
        report.run(&format!("{kind}, all of a client given back at {frames}"), || {
            shared::special::releases(frames, contents, times)
        });
    }
}

/// Random sequences at a capacity that upstream has.
fn random<T: Leaves>(report: &mut Report, sequences: usize, length: usize, look_every: usize) {
    let extent = Extent { frames: T::cap(), sequences, length, look_every };
    report.run(&format!("random sequences at {}", T::cap()), || random::run::<T>(extent));
}

/// Random sequences at 16 million frames, ours and the model alone: upstream ends at a million.
fn random_beyond_upstream(report: &mut Report, sequences: usize) {
    let extent = Extent { frames: 1 << 24, sequences, length: 100, look_every: 50 };
    report.run("random sequences at 16777216, without upstream", || random::run::<BitAlloc16>(extent));
}
