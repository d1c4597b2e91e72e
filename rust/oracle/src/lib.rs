//! Upstream's bitmap allocator: the executable bodies of verified-hv-mem (MIT, commit 56822bf683),
//! `bitmap_impl.rs` and `bitmap_trait.rs`, as they are. `strip.py` takes the ghost parts out of the
//! source in `upstream/` and changes nothing else, so that every fault is kept: this is what the proved
//! library is compared with. The licence beside it is upstream's.
#![no_std]
// What the compiler would say of upstream's text is upstream's affair.
#![allow(unused, clippy::all)]

#[rustfmt::skip]
pub mod bitmap_allocator;
