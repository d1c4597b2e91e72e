//! Times ours, upstream, the rival and the stack on the same requests, and prints a table; then the shared
//! allocator beside the bitmap alone, and its contents beside plain writes.
//!
//!     bench                     every row
//!     bench --rows SUBSTRING    the rows whose name has it
//!
//! All columns must give the same answers and leave as many frames free; the stack, which has no order,
//! only the latter. Upstream ends at a million frames: at 16 million it is its own type once more around
//! its largest, and does 20,000 operations.
use compare::shared::rows;
use compare::states::{holes, mixed, state, taken, HOLES};
use compare::timing::Bench;
use compare::work::{AllocAll, Check, Count, FreeAll, Once, UntilNone, Whole};
use std::process::exit;
use std::thread;

/// Upstream's bitmaps are values, and go over the stack whole.
const STACK: usize = 256 << 20;
/// The depths of trees, what their sizes are called, and how often all frames are freed and taken.
const SIZES: [(u32, &str, usize); 3] = [(4, "64K", 1000), (5, "1M", 100), (6, "16M", 10)];

fn main() {
    let words: Vec<String> = std::env::args().skip(1).collect();
    let part = match words.iter().map(String::as_str).collect::<Vec<_>>()[..] {
        [] => String::new(),
        ["--rows", part] => part.to_string(),
        _ => {
            eprintln!("usage: bench [--rows SUBSTRING]");
            exit(2);
        }
    };
    let worker = thread::Builder::new().stack_size(STACK).spawn(move || run(&part)).expect("a thread");
    if worker.join().is_err() {
        exit(1);
    }
}

/// Runs the rows whose name has this part.
fn run(part: &str) {
    let mut bench = Bench::new(part);
    for (depth, size, _) in SIZES {
        all_frames(&mut bench, depth, size);
    }
    for percent in [50, 95] {
        for (depth, size, _) in SIZES {
            let name = format!("alloc and free by turns, {percent} % taken, {size}");
            bench.singles(&name, depth, || taken(depth, percent), |state| mixed(depth, state));
        }
    }
    for (depth, size, times) in SIZES {
        let frames = 16_usize.pow(depth);
        bench.runs(
            &format!("insert everything, {size}"),
            depth,
            || state(depth, |_| false),
            Whole { frames, free: true, times },
        );
        bench.runs(
            &format!("remove everything, {size}"),
            depth,
            || state(depth, |_| true),
            Whole { frames, free: false, times },
        );
    }
    runs_between_holes(&mut bench);
    large_runs(&mut bench);
    no_runs(&mut bench);
    bench.looks("check, 1M", 5, || taken(5, 50), Check(20));
    bench.looks("count_free, 1M", 5, || taken(5, 50), Count(20));
    bench.end();
    rows::layers(part);
    rows::contents(part);
}

/// Every frame is taken, and every frame is freed.
fn all_frames(bench: &mut Bench, depth: u32, size: &str) {
    let frames = 16_usize.pow(depth);
    let all_taken = || state(depth, |_| false);
    bench.singles(&format!("alloc until none, {size}"), depth, || state(depth, |_| true), |_| AllocAll);
    bench.singles(&format!("free all in order, {size}"), depth, all_taken, |_| FreeAll::in_order(frames));
    bench.singles(&format!("free all in random order, {size}"), depth, all_taken, |_| {
        FreeAll::shuffled(frames)
    });
}

/// 512 frames among 65536 of which some are taken.
fn runs_between_holes(bench: &mut Bench) {
    for (align_log2, align) in [(9, 512), (0, 1)] {
        let what = format!("512 at {align}, 64K with {HOLES} holes");
        bench.runs(&format!("{what}, once and back"), 4, holes, Once { size: 512, align_log2, times: 2000 });
        bench.runs(
            &format!("{what}, until none and all back"),
            4,
            holes,
            UntilNone { size: 512, align_log2, times: 10 },
        );
    }
}

/// 262144 frames of a million: the first window, and the third where a frame of the first two is taken.
fn large_runs(bench: &mut Bench) {
    let large = || Once { size: 1 << 18, align_log2: 18, times: 50 };
    let two_taken = || state(5, |k| k != (1 << 18) - 1 && k != 1 << 18);
    bench.runs("262144 at 262144, 1M all free, once and back", 5, || state(5, |_| true), large());
    bench.runs("262144 at 262144, 1M with 262143 and 262144 taken, once and back", 5, two_taken, large());
}

/// Runs that there are not in 65536 frames.
fn no_runs(bench: &mut Bench) {
    let every_other = || state(4, |k| k % 2 == 0);
    let last_of_512 = || state(4, |k| k % 512 != 511);
    let none = |size, align_log2| Once { size, align_log2, times: 100 };
    bench.runs("none: 2 at 1, 64K with every other taken", 4, every_other, none(2, 0));
    bench.runs("none: 512 at 1, 64K with every other taken", 4, every_other, none(512, 0));
    bench.runs("none: 512 at 1, 64K with the last of each 512 taken", 4, last_of_512, none(512, 0));
    bench.runs("none: 512 at 512, 64K with the last of each 512 taken", 4, last_of_512, none(512, 9));
}
