//! The proved shared allocator, through its exported functions.
use super::{reason, UNWRITTEN};
use crate::shared::request::{Answer, Look, Refusal, Request};
use replayframes::ffi;

extern "C" {
    fn rf_allocator_fid(base: usize, addr: usize, frame: *mut usize) -> u32;
    fn rf_allocator_paddr(base: usize, k: usize, addr: *mut usize) -> u32;
    fn rf_allocator_owned_count(
        tree: *const u16,
        words: usize,
        owners: *const u8,
        bytes: usize,
        base: usize,
        client: u8,
        frames: *mut usize,
    ) -> u32;
    fn rf_allocator_check(
        tree: *const u16,
        words: usize,
        owners: *const u8,
        bytes: usize,
        base: usize,
        at: *mut usize,
    ) -> u32;
    fn rf_allocator_init(
        tree: *mut u16,
        words: usize,
        owners: *mut u8,
        bytes: usize,
        base: usize,
        n: usize,
    ) -> u32;
    fn rf_allocator_alloc(
        tree: *mut u16,
        words: usize,
        owners: *mut u8,
        bytes: usize,
        base: usize,
        client: u8,
        addr: *mut usize,
    ) -> u32;
    fn rf_allocator_alloc_contiguous(
        tree: *mut u16,
        words: usize,
        owners: *mut u8,
        bytes: usize,
        base: usize,
        client: u8,
        size: usize,
        align_log2: usize,
        addr: *mut usize,
    ) -> u32;
    fn rf_allocator_dealloc(
        tree: *mut u16,
        words: usize,
        owners: *mut u8,
        bytes: usize,
        base: usize,
        client: u8,
        addr: usize,
    ) -> u32;
    fn rf_allocator_dealloc_contiguous(
        tree: *mut u16,
        words: usize,
        owners: *mut u8,
        bytes: usize,
        base: usize,
        client: u8,
        addr: usize,
        count: usize,
        frame: *mut usize,
    ) -> u32;
    fn rf_allocator_insert(
        tree: *mut u16,
        words: usize,
        owners: *mut u8,
        bytes: usize,
        base: usize,
        from: usize,
        to: usize,
        frame: *mut usize,
    ) -> u32;
    fn rf_allocator_remove(
        tree: *mut u16,
        words: usize,
        owners: *mut u8,
        bytes: usize,
        base: usize,
        from: usize,
        to: usize,
        frame: *mut usize,
    ) -> u32;
    fn rf_allocator_release_all(
        tree: *mut u16,
        words: usize,
        owners: *mut u8,
        bytes: usize,
        base: usize,
        client: u8,
    ) -> u32;
}

/// The answer of a function that may write a value: its code, and what stands behind the pointer then.
#[inline]
pub(super) fn answer(code: u32, value: usize) -> Answer {
    let value = if value == UNWRITTEN { None } else { Some(value) };
    match code {
        0 => Ok(value),
        _ => Err(Refusal { reason: reason(code), at: value }),
    }
}

/// The number of the frame at an address.
pub fn fid(base: usize, addr: usize) -> Answer {
    let mut frame = UNWRITTEN;
    // SAFETY: the pointer is that of a local which outlives the call.
    let code = unsafe { rf_allocator_fid(base, addr, &mut frame) };
    answer(code, frame)
}

/// The address of frame k.
pub fn paddr(base: usize, k: usize) -> Answer {
    let mut addr = UNWRITTEN;
    // SAFETY: the pointer is that of a local which outlives the call.
    let code = unsafe { rf_allocator_paddr(base, k, &mut addr) };
    answer(code, addr)
}

/// What frame k is: 0 to 63 for the client that owns it, 64 if it is free, and 65 if it is reserved.
pub fn owner(tree: &[u16], owners: &[u8], base: usize, k: usize) -> Answer {
    let mut owner = u8::MAX;
    let code = ffi::rf_allocator_owner(tree, owners, base, k, &mut owner);
    answer(code, if owner == u8::MAX { UNWRITTEN } else { usize::from(owner) })
}

/// How many frames the client owns.
pub fn owned_count(tree: &[u16], owners: &[u8], base: usize, client: u8) -> Answer {
    let (words, bytes) = (tree.len(), owners.len());
    let mut frames = UNWRITTEN;
    // SAFETY: each pointer and length are those of one slice, which is only read; the other pointer is a local's.
    let code = unsafe {
        rf_allocator_owned_count(tree.as_ptr(), words, owners.as_ptr(), bytes, base, client, &mut frames)
    };
    answer(code, frames)
}

/// Whether the memories are an allocator's, and where not.
pub fn check(tree: &[u16], owners: &[u8], base: usize) -> Answer {
    let mut at = UNWRITTEN;
    // SAFETY: each pointer and length are those of one slice, which is only read; the other pointer is a local's.
    let code = unsafe {
        rf_allocator_check(tree.as_ptr(), tree.len(), owners.as_ptr(), owners.len(), base, &mut at)
    };
    answer(code, at)
}

/// Makes the frames below n free and all others reserved, whatever the memories held.
pub fn init(tree: &mut [u16], owners: &mut [u8], base: usize, n: usize) -> Answer {
    // SAFETY: each pointer and length are those of one slice, which is lent exclusively.
    let code = unsafe {
        rf_allocator_init(tree.as_mut_ptr(), tree.len(), owners.as_mut_ptr(), owners.len(), base, n)
    };
    answer(code, UNWRITTEN)
}

/// Gives the client the lowest free frame.
#[inline]
pub fn alloc(tree: &mut [u16], owners: &mut [u8], base: usize, client: u8) -> Answer {
    let (words, bytes) = (tree.len(), owners.len());
    let mut addr = UNWRITTEN;
    // SAFETY: each pointer and length are those of one slice, which is lent exclusively; the other pointer is a local's.
    let code = unsafe {
        rf_allocator_alloc(tree.as_mut_ptr(), words, owners.as_mut_ptr(), bytes, base, client, &mut addr)
    };
    answer(code, addr)
}

/// Gives the client the lowest run of `size` free frames whose first is a multiple of 2 to the power of `align_log2`.
#[inline]
pub fn alloc_contiguous(
    tree: &mut [u16],
    owners: &mut [u8],
    base: usize,
    client: u8,
    size: usize,
    align_log2: usize,
) -> Answer {
    let mut addr = UNWRITTEN;
    // SAFETY: each pointer and length are those of one slice, which is lent exclusively; the other pointer is a local's.
    let code = unsafe {
        rf_allocator_alloc_contiguous(
            tree.as_mut_ptr(),
            tree.len(),
            owners.as_mut_ptr(),
            owners.len(),
            base,
            client,
            size,
            align_log2,
            &mut addr,
        )
    };
    answer(code, addr)
}

/// The client gives back the frame at an address.
#[inline]
pub fn dealloc(tree: &mut [u16], owners: &mut [u8], base: usize, client: u8, addr: usize) -> Answer {
    let (words, bytes) = (tree.len(), owners.len());
    // SAFETY: each pointer and length are those of one slice, which is lent exclusively.
    let code = unsafe {
        rf_allocator_dealloc(tree.as_mut_ptr(), words, owners.as_mut_ptr(), bytes, base, client, addr)
    };
    answer(code, UNWRITTEN)
}

/// The client gives back the `count` frames from an address on, all or none.
#[inline]
pub fn dealloc_contiguous(
    tree: &mut [u16],
    owners: &mut [u8],
    base: usize,
    client: u8,
    addr: usize,
    count: usize,
) -> Answer {
    let mut frame = UNWRITTEN;
    // SAFETY: each pointer and length are those of one slice, which is lent exclusively; the other pointer is a local's.
    let code = unsafe {
        rf_allocator_dealloc_contiguous(
            tree.as_mut_ptr(),
            tree.len(),
            owners.as_mut_ptr(),
            owners.len(),
            base,
            client,
            addr,
            count,
            &mut frame,
        )
    };
    answer(code, frame)
}

/// Makes the frames from `from` up to `to` free, if no client owns one.
pub fn insert(tree: &mut [u16], owners: &mut [u8], base: usize, from: usize, to: usize) -> Answer {
    let (words, bytes) = (tree.len(), owners.len());
    let mut frame = UNWRITTEN;
    // SAFETY: each pointer and length are those of one slice, which is lent exclusively; the other pointer is a local's.
    let code = unsafe {
        rf_allocator_insert(tree.as_mut_ptr(), words, owners.as_mut_ptr(), bytes, base, from, to, &mut frame)
    };
    answer(code, frame)
}

/// Reserves the frames from `from` up to `to`, if no client owns one.
pub fn remove(tree: &mut [u16], owners: &mut [u8], base: usize, from: usize, to: usize) -> Answer {
    let (words, bytes) = (tree.len(), owners.len());
    let mut frame = UNWRITTEN;
    // SAFETY: each pointer and length are those of one slice, which is lent exclusively; the other pointer is a local's.
    let code = unsafe {
        rf_allocator_remove(tree.as_mut_ptr(), words, owners.as_mut_ptr(), bytes, base, from, to, &mut frame)
    };
    answer(code, frame)
}

/// Makes every frame of the client free.
pub fn release_all(tree: &mut [u16], owners: &mut [u8], base: usize, client: u8) -> Answer {
    let (words, bytes) = (tree.len(), owners.len());
    // SAFETY: each pointer and length are those of one slice, which is lent exclusively.
    let code = unsafe {
        rf_allocator_release_all(tree.as_mut_ptr(), words, owners.as_mut_ptr(), bytes, base, client)
    };
    answer(code, UNWRITTEN)
}

/// The answer to a request.
pub fn ask(tree: &mut [u16], owners: &mut [u8], base: usize, request: Request) -> Answer {
    match request {
        Request::Init { n } => init(tree, owners, base, n),
        Request::Alloc { client } => alloc(tree, owners, base, client),
        Request::Run { client, size, align_log2 } => {
            alloc_contiguous(tree, owners, base, client, size, align_log2)
        }
        Request::Dealloc { client, addr } => dealloc(tree, owners, base, client, addr),
        Request::DeallocRun { client, addr, count } => {
            dealloc_contiguous(tree, owners, base, client, addr, count)
        }
        Request::Insert { from, to } => insert(tree, owners, base, from, to),
        Request::Remove { from, to } => remove(tree, owners, base, from, to),
        Request::ReleaseAll { client } => release_all(tree, owners, base, client),
        Request::Check => check(tree, owners, base),
    }
}

/// The answer to a look.
pub fn look(tree: &[u16], owners: &[u8], base: usize, look: Look) -> Answer {
    match look {
        Look::Fid { addr } => fid(base, addr),
        Look::Paddr { k } => paddr(base, k),
        Look::Owner { k } => owner(tree, owners, base, k),
        Look::OwnedCount { client } => owned_count(tree, owners, base, client),
    }
}
