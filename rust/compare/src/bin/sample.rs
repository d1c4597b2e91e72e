//! Writes a list of upstream's answers that a Rattle program replays, so that the proved code is compared
//! with upstream where there is no Rust.
//!
//!     sample            writes crates/bitmap_replay/data/answers
//!     sample --check    says whether that file is what it would write, and changes nothing
//!
//! The file is made of little-endian numbers, one behind the other:
//!
//!     u32  how many sequences there are; and for each sequence:
//!       u32  how many frames there are, 16 or 256; all are taken at first
//!       u32  how many requests there are; and for each request:
//!         u32  what is asked: 0 alloc, 1 next(a), 2 alloc_contiguous(size a, align_log2 b),
//!              3 dealloc(a), 4 insert(a, b), 5 remove(a, b)
//!         u32  a, or 0
//!         u32  b, or 0
//!         u32  upstream's answer: a frame, or 0xFFFF_FFFF for none; 0 for 3, 4 and 5
//!       u16  for each 16 frames at the end of the sequence: bit i of word p is 1 if frame 16 p + i is free
//!
//! The requests are random ones of a fixed seed, all within upstream's contract. Alignments beyond the
//! number of frames are left out, since there upstream differs (finding F1).
use compare::model::Model;
use compare::random;
use compare::request::{Answer, Request};
use compare::rng::Rng;
use compare::upstream::{self, BitAlloc16, BitAlloc256, Leaves};
use std::path::{Path, PathBuf};
use std::process::exit;
use std::{env, fs};

/// Sequences at each capacity, and requests in each of them.
const SEQUENCES: u32 = 10;
const REQUESTS: u32 = 100;
/// The answer "none".
const NONE: u32 = u32::MAX;

fn main() {
    let words: Vec<String> = env::args().skip(1).collect();
    let made = sample();
    let outcome = match words.iter().map(String::as_str).collect::<Vec<_>>()[..] {
        [] => fs::write(file(), made).map_err(|error| error.to_string()),
        ["--check"] if fs::read(file()).ok() == Some(made) => Ok(()),
        ["--check"] => Err("the stored answers are not upstream's".to_string()),
        _ => Err("usage: sample [--check]".to_string()),
    };
    if let Err(fault) = outcome {
        eprintln!("{}: {fault}", file().display());
        exit(1);
    }
    println!("{SEQUENCES} sequences of {REQUESTS} requests each at 16 and at 256 frames");
}

/// Where the list is kept.
fn file() -> PathBuf {
    Path::new(env!("CARGO_MANIFEST_DIR")).join("../../crates/bitmap_replay/data/answers")
}

/// The whole list.
fn sample() -> Vec<u8> {
    let mut bytes = (2 * SEQUENCES).to_le_bytes().to_vec();
    for seed in 0..SEQUENCES {
        sequence::<BitAlloc16>(u64::from(seed), &mut bytes);
        sequence::<BitAlloc256>(u64::from(seed), &mut bytes);
    }
    bytes
}

/// One sequence: its requests, and the frames at its end.
fn sequence<T: Leaves>(seed: u64, bytes: &mut Vec<u8>) {
    let mut rng = Rng::new(seed);
    let mut bitmap = upstream::new::<T>();
    put(bytes, &[T::cap() as u32, REQUESTS]);
    for _ in 0..REQUESTS {
        let request = covered_request(&mut rng, &*bitmap);
        let answer = upstream::ask(&mut *bitmap, request);
        put(bytes, &record(request, answer));
    }
    for p in 0..T::LEAVES {
        bytes.extend(bitmap.leaf(p).to_le_bytes());
    }
}

/// A request within upstream's contract, and without finding F1.
fn covered_request<T: Leaves>(rng: &mut Rng, bitmap: &T) -> Request {
    let model = Model { free: (0..T::cap()).map(|k| bitmap.test(k)).collect() };
    loop {
        let request = random::request(rng, T::cap());
        if upstream::covers(request, &model) && !upstream::is_f1(request, T::cap()) {
            return request;
        }
    }
}

/// A request and its answer as numbers.
fn record(request: Request, answer: Answer) -> [u32; 4] {
    let (code, a, b) = match request {
        Request::Alloc => (0, 0, 0),
        Request::Next(k) => (1, k, 0),
        Request::Run { size, align_log2 } => (2, size, align_log2),
        Request::Dealloc(k) => (3, k, 0),
        Request::Insert(from, to) => (4, from, to),
        Request::Remove(from, to) => (5, from, to),
    };
    let answer = match answer {
        Answer::Done => 0,
        Answer::Frame(k) => k as u32,
        Answer::Refused(_) => NONE,
    };
    [code, a as u32, b as u32, answer]
}

/// Appends numbers.
fn put(bytes: &mut Vec<u8>, numbers: &[u32]) {
    bytes.extend(numbers.iter().flat_map(|number| number.to_le_bytes()));
}
