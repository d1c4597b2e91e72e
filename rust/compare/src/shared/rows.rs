//! The rows of the shared allocator's benchmark.
use super::columns::{Owners, BASE, CLIENT};
use super::request::{FRAME, WORDS};
use super::timing::Layers;
use crate::ours;
use crate::ours::frames::Frames;
use crate::states::{holes, mixed, state, taken, HOLES};
use crate::timing::ROUNDS;
use crate::work::{AllocAll, Check, Digest, FreeAll, Once, UntilNone, Work};
use std::fs;
use std::time::Instant;

/// The depths of trees, and what their sizes are called.
const SIZES: [(u32, &str); 2] = [(4, "64K"), (5, "1M")];
/// How many kilobytes must be free for a row with contents of 4 GiB.
const ROOM: u64 = 8 << 20;

/// All of a client's frames are given back.
struct Release;

impl<C: Owners> Work<C> for Release {
    fn run(&self, column: &mut C, _: usize, _: &mut Digest) -> usize {
        column.release_all();
        1
    }
}

/// A client's frames are counted so many times.
struct OwnedCount(usize);

impl<C: Owners> Work<C> for OwnedCount {
    fn run(&self, column: &mut C, _: usize, digest: &mut Digest) -> usize {
        for _ in 0..self.0 {
            digest.add(Some(column.owned_count()));
        }
        self.0
    }
}

/// The shared allocator beside the bitmap alone.
pub fn layers(part: &str) {
    let mut layers = Layers::new(part);
    for (depth, size) in SIZES {
        singles(&mut layers, depth, size);
    }
    runs(&mut layers);
    owners(&mut layers);
    layers.end();
}

/// Every frame is taken, every frame is given back, and both by turns.
fn singles(layers: &mut Layers, depth: u32, size: &str) {
    let frames = 16_usize.pow(depth);
    let (all_free, all_taken) = (|| state(depth, |_| true), || state(depth, |_| false));
    layers.both(&format!("shared: alloc until none, {size}"), depth, all_free, |_| AllocAll);
    let name = format!("shared: free all in order, {size}");
    layers.both(&name, depth, all_taken, |_| FreeAll::in_order(frames));
    let name = format!("shared: free all in random order, {size}");
    layers.both(&name, depth, all_taken, |_| FreeAll::shuffled(frames));
    let name = format!("shared: alloc and free by turns, 95 % taken, {size}");
    layers.both(&name, depth, || taken(depth, 95), |state| mixed(depth, state));
}

/// 512 frames, among 65536 of which some are taken and among a million that are free.
fn runs(layers: &mut Layers) {
    let until_none = |times| UntilNone { size: 512, align_log2: 9, times };
    let what = format!("shared: 512 at 512, 64K with {HOLES} holes");
    let once = Once { size: 512, align_log2: 9, times: 2000 };
    layers.both(&format!("{what}, once and back"), 4, holes, |_| once);
    layers.both(&format!("{what}, until none and all back"), 4, holes, |_| until_none(10));
    let name = "shared: 512 at 512, 1M all free, until none and all back";
    layers.both(name, 5, || state(5, |_| true), |_| until_none(2));
}

/// What passes over all owners, at a million frames.
fn owners(layers: &mut Layers) {
    layers.owners("shared: release_all, 1M, all its own", 5, || state(5, |_| false), Release);
    layers.owners("shared: release_all, 1M, every other its own", 5, || state(5, |k| k % 2 == 0), Release);
    layers.owners("shared: release_all, 1M, none its own", 5, || state(5, |_| true), Release);
    layers.owners("shared: owned_count, 1M", 5, || taken(5, 50), OwnedCount(20));
    layers.owners("shared: check, 1M", 5, || taken(5, 50), Check(20));
}

/// A frame that is given back with its contents, beside a plain write of its bytes.
pub fn contents(part: &str) {
    println!();
    println!("| row | plain write of {FRAME} bytes | with contents | with contents/plain |");
    println!("|---|---:|---:|---:|");
    content_row(part, "contents: free all in order, 16 frames, in the cache", 1, 1000);
    content_row(part, "contents: free all in order, 64K frames of 256 MiB", 4, 1);
    if available() >= ROOM {
        content_row(part, "contents: free all in order, 1M frames of 4 GiB", 5, 1);
    }
}

/// How many kilobytes of memory are available, as Linux says.
fn available() -> u64 {
    let said = fs::read_to_string("/proc/meminfo").unwrap_or_default();
    let line = said.lines().find_map(|line| line.strip_prefix("MemAvailable:"));
    line.and_then(|line| line.trim().trim_end_matches(" kB").parse().ok()).unwrap_or(0)
}

/// Times a row, so many times over all frames in each round, and prints its line.
fn content_row(part: &str, name: &str, depth: u32, times: usize) {
    if !name.contains(part) {
        return;
    }
    let frames = 16_usize.pow(depth);
    let mut memory = Contents::new(frames);
    let (mut plain, mut ours) = (f64::MAX, f64::MAX);
    for _ in 0..ROUNDS {
        ours = ours.min((0..times).map(|_| memory.free_all()).sum::<f64>() / (times * frames) as f64);
        plain = plain.min((0..times).map(|_| memory.write_all()).sum::<f64>() / (times * frames) as f64);
    }
    println!("| {name} | {plain:.1} | {ours:.1} | {:.2} |", ours / plain);
}

/// The memories of an allocator with contents.
struct Contents {
    tree: Vec<u16>,
    owners: Vec<u8>,
    words: Vec<u64>,
}

impl Contents {
    /// So many frames, each with something in it.
    fn new(frames: usize) -> Contents {
        Contents { tree: ours::new(frames), owners: vec![0; frames], words: vec![1; WORDS * frames] }
    }

    /// The proved functions on these memories.
    fn lent(&mut self) -> Frames<'_> {
        Frames { tree: &mut self.tree, owners: &mut self.owners, words: &mut self.words, base: BASE }
    }

    /// The nanoseconds that it takes one client, which owns every frame, to give all back one by one.
    fn free_all(&mut self) -> f64 {
        self.owners.fill(CLIENT);
        ours::reset(&mut self.tree).expect("a full tree");
        let frames = self.owners.len();
        let mut lent = self.lent();
        let began = Instant::now();
        for k in 0..frames {
            lent.dealloc(CLIENT, BASE + FRAME * k).expect("the client's frame");
        }
        began.elapsed().as_nanos() as f64
    }

    /// The nanoseconds that it takes to write something into every frame, one by one.
    fn write_all(&mut self) -> f64 {
        let began = Instant::now();
        for frame in self.words.chunks_exact_mut(WORDS) {
            write(frame);
        }
        began.elapsed().as_nanos() as f64
    }
}

/// A plain write of a frame, which the compiler makes one call that fills memory.
#[inline(never)]
fn write(frame: &mut [u64]) {
    frame.fill(u64::MAX);
}
