//! The proved bitmap, through its exported functions. All that is unsafe in this crate is here and in the
//! modules beneath for the shared allocator without and with contents; the machines and their calls have their
//! functions from the crate `replayframes`, which also links the archive.
use crate::request::{Answer, Reason, Request};
use replayframes::ffi;

pub mod allocator;
pub mod frames;
pub mod machines;

extern "C" {
    fn rf_bitmap_words_for(frames: usize, words: *mut usize) -> u32;
    fn rf_bitmap_cap(tree: *const u16, len: usize, frames: *mut usize) -> u32;
    fn rf_bitmap_count_free(tree: *const u16, len: usize, frames: *mut usize) -> u32;
    fn rf_bitmap_any(tree: *const u16, len: usize, free: *mut u8) -> u32;
    fn rf_bitmap_test(tree: *const u16, len: usize, k: usize, free: *mut u8) -> u32;
    fn rf_bitmap_next(tree: *const u16, len: usize, k: usize, frame: *mut usize) -> u32;
    fn rf_bitmap_check(tree: *const u16, len: usize, word: *mut usize) -> u32;
    fn rf_bitmap_reset(tree: *mut u16, len: usize) -> u32;
    fn rf_bitmap_alloc(tree: *mut u16, len: usize, frame: *mut usize) -> u32;
    fn rf_bitmap_alloc_contiguous(
        tree: *mut u16,
        len: usize,
        size: usize,
        align_log2: usize,
        frame: *mut usize,
    ) -> u32;
    fn rf_bitmap_dealloc(tree: *mut u16, len: usize, k: usize) -> u32;
    fn rf_bitmap_insert(tree: *mut u16, len: usize, from: usize, to: usize) -> u32;
    fn rf_bitmap_remove(tree: *mut u16, len: usize, from: usize, to: usize) -> u32;
}

/// The code and the four numbers of a configuration's verdict.
pub fn config_check(bytes: &[u8]) -> [u64; 5] {
    let (mut a, mut b, mut c, mut d) = (UNWRITTEN, UNWRITTEN, UNWRITTEN, UNWRITTEN);
    let code = ffi::rf_config_check(bytes, &mut a, &mut b, &mut c, &mut d);
    [u64::from(code), a as u64, b as u64, c as u64, d as u64]
}

/// Stands behind the pointer before a call. No answer is this.
const UNWRITTEN: usize = usize::MAX;

/// The reason of a code that is not 0.
fn reason(code: u32) -> Reason {
    match code {
        1 => Reason::NotFull,
        2 => Reason::NoSize,
        3 => Reason::Outside,
        4 => Reason::Empty,
        5 => Reason::Reversed,
        6 => Reason::NoRoom,
        7 => Reason::NotTaken,
        8 => Reason::Corrupt,
        9 => Reason::Unmatched,
        10 => Reason::BadBase,
        11 => Reason::NoClient,
        12 => Reason::Below,
        13 => Reason::NotAtFrame,
        14 => Reason::NotYours,
        15 => Reason::TooMany,
        16 => Reason::TooHigh,
        17 => Reason::Taken,
        18 => Reason::Wrong,
        19 => Reason::Unbacked,
        20 => Reason::Beyond,
        21 => Reason::Dirty,
        _ => panic!("the code {code} has no meaning"),
    }
}

/// The result of a function that answers a code alone.
fn done(code: u32) -> Result<(), Reason> {
    match code {
        0 => Ok(()),
        _ => Err(reason(code)),
    }
}

/// The result of a function that writes its value, which a refusal must not touch.
fn valued(code: u32, value: usize) -> Result<usize, Reason> {
    if code == 0 {
        return Ok(value);
    }
    assert!(value == UNWRITTEN, "a refusal wrote {value}");
    Err(reason(code))
}

/// The same for a yes or no.
fn told(code: u32, value: u8) -> Result<bool, Reason> {
    match (code, value) {
        (0, 0) => Ok(false),
        (0, 1) => Ok(true),
        (0, _) => panic!("{value} is neither yes nor no"),
        (_, u8::MAX) => Err(reason(code)),
        _ => panic!("a refusal wrote {value}"),
    }
}

/// How many words a tree of so many frames has.
pub fn words_for(frames: usize) -> Result<usize, Reason> {
    let mut words = UNWRITTEN;
    // SAFETY: the pointer is that of a local which outlives the call.
    let code = unsafe { rf_bitmap_words_for(frames, &mut words) };
    valued(code, words)
}

/// How many frames there are.
pub fn cap(tree: &[u16]) -> Result<usize, Reason> {
    let mut frames = UNWRITTEN;
    // SAFETY: pointer and length are those of one slice, which is only read; the other pointer is a local's.
    let code = unsafe { rf_bitmap_cap(tree.as_ptr(), tree.len(), &mut frames) };
    valued(code, frames)
}

/// How many frames are free.
pub fn count_free(tree: &[u16]) -> Result<usize, Reason> {
    let mut frames = UNWRITTEN;
    // SAFETY: pointer and length are those of one slice, which is only read; the other pointer is a local's.
    let code = unsafe { rf_bitmap_count_free(tree.as_ptr(), tree.len(), &mut frames) };
    valued(code, frames)
}

/// Whether some frame is free.
pub fn any(tree: &[u16]) -> Result<bool, Reason> {
    let mut free = u8::MAX;
    // SAFETY: pointer and length are those of one slice, which is only read; the other pointer is a local's.
    let code = unsafe { rf_bitmap_any(tree.as_ptr(), tree.len(), &mut free) };
    told(code, free)
}

/// Whether frame k is free.
pub fn test(tree: &[u16], k: usize) -> Result<bool, Reason> {
    let mut free = u8::MAX;
    // SAFETY: pointer and length are those of one slice, which is only read; the other pointer is a local's.
    let code = unsafe { rf_bitmap_test(tree.as_ptr(), tree.len(), k, &mut free) };
    told(code, free)
}

/// The lowest free frame at or above k.
pub fn next(tree: &[u16], k: usize) -> Result<usize, Reason> {
    let mut frame = UNWRITTEN;
    // SAFETY: pointer and length are those of one slice, which is only read; the other pointer is a local's.
    let code = unsafe { rf_bitmap_next(tree.as_ptr(), tree.len(), k, &mut frame) };
    valued(code, frame)
}

/// The lowest word with a bit that lies about the word below it, if there is one.
pub fn check(tree: &[u16]) -> Result<Option<usize>, Reason> {
    let mut word = UNWRITTEN;
    // SAFETY: pointer and length are those of one slice, which is only read; the other pointer is a local's.
    let code = unsafe { rf_bitmap_check(tree.as_ptr(), tree.len(), &mut word) };
    if code == Reason::Corrupt as u32 {
        return Ok(Some(word));
    }
    assert!(word == UNWRITTEN, "an answer without a word wrote {word}");
    done(code).map(|()| None)
}

/// Makes every frame taken, whatever the words held.
pub fn reset(tree: &mut [u16]) -> Result<(), Reason> {
    // SAFETY: pointer and length are those of one slice, which is lent exclusively.
    done(unsafe { rf_bitmap_reset(tree.as_mut_ptr(), tree.len()) })
}

/// Takes the lowest free frame.
#[inline]
pub fn alloc(tree: &mut [u16]) -> Result<usize, Reason> {
    let mut frame = UNWRITTEN;
    // SAFETY: pointer and length are those of one slice, which is lent exclusively; the other pointer is a local's.
    let code = unsafe { rf_bitmap_alloc(tree.as_mut_ptr(), tree.len(), &mut frame) };
    valued(code, frame)
}

/// Takes the lowest run of `size` free frames whose first is a multiple of 2 to the power of `align_log2`.
#[inline]
pub fn alloc_contiguous(tree: &mut [u16], size: usize, align_log2: usize) -> Result<usize, Reason> {
    let (start, len) = (tree.as_mut_ptr(), tree.len());
    let mut frame = UNWRITTEN;
    // SAFETY: pointer and length are those of one slice, which is lent exclusively; the other pointer is a local's.
    let code = unsafe { rf_bitmap_alloc_contiguous(start, len, size, align_log2, &mut frame) };
    valued(code, frame)
}

/// Makes frame k, which is taken, free.
#[inline]
pub fn dealloc(tree: &mut [u16], k: usize) -> Result<(), Reason> {
    // SAFETY: pointer and length are those of one slice, which is lent exclusively.
    done(unsafe { rf_bitmap_dealloc(tree.as_mut_ptr(), tree.len(), k) })
}

/// Makes the frames from `from` up to `to` free, whatever they were.
#[inline]
pub fn insert(tree: &mut [u16], from: usize, to: usize) -> Result<(), Reason> {
    // SAFETY: pointer and length are those of one slice, which is lent exclusively.
    done(unsafe { rf_bitmap_insert(tree.as_mut_ptr(), tree.len(), from, to) })
}

/// Makes the frames from `from` up to `to` taken, whatever they were.
#[inline]
pub fn remove(tree: &mut [u16], from: usize, to: usize) -> Result<(), Reason> {
    // SAFETY: pointer and length are those of one slice, which is lent exclusively.
    done(unsafe { rf_bitmap_remove(tree.as_mut_ptr(), tree.len(), from, to) })
}

/// The answer to a request.
pub fn ask(tree: &mut [u16], request: Request) -> Answer {
    match request {
        Request::Alloc => alloc(tree).into(),
        Request::Next(k) => next(tree, k).into(),
        Request::Run { size, align_log2 } => alloc_contiguous(tree, size, align_log2).into(),
        Request::Dealloc(k) => dealloc(tree, k).into(),
        Request::Insert(from, to) => insert(tree, from, to).into(),
        Request::Remove(from, to) => remove(tree, from, to).into(),
    }
}

/// A tree of so many frames, all taken, made in memory that held something else.
pub fn new(frames: usize) -> Vec<u16> {
    let mut tree = vec![0xa5a5; words_for(frames).expect("a size that a full tree has")];
    reset(&mut tree).expect("a full tree");
    tree
}
