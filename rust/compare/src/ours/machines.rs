//! The proved machines, their regions and their frames, through their exported functions.
use crate::machines::request::Region;
use crate::machines::subject::{Calls, Machines, Rooms, SpareRooms};
use replayframes::ffi;

/// The functions of the archive.
pub struct Ours;

impl Machines for Ours {
    const NAME: &'static str = "ours";

    #[inline]
    fn start(
        bytes: &[u8],
        table: &mut [u64],
        zones: &mut [u64],
        tree: &mut [u16],
        owners: &mut [u8],
        words: &mut [u64],
    ) -> u32 {
        ffi::rf_start(bytes, table, zones, tree, owners, words)
    }

    #[inline]
    fn add_zone(table: &[u64], zones: &mut [u64], number: u64) -> u32 {
        ffi::rf_add_zone(table, zones, number)
    }

    #[inline]
    fn remove_zone(table: &[u64], zones: &mut [u64], tree: &[u16], owners: &[u8], number: u64) -> u32 {
        ffi::rf_remove_zone(table, zones, tree, owners, number)
    }

    #[inline]
    fn remove_zone_whole(
        table: &[u64],
        zones: &mut [u64],
        tree: &mut [u16],
        owners: &mut [u8],
        words: &mut [u64],
        number: u64,
    ) -> u32 {
        ffi::rf_remove_zone_whole(table, zones, tree, owners, words, number)
    }

    #[inline]
    fn insert_region(table: &[u64], zones: &mut [u64], number: u64, region: Region) -> u32 {
        let Region { guest, host, pages, kind } = region;
        ffi::rf_insert_region(table, zones, number, guest, host, pages, kind)
    }

    #[inline]
    fn remove_region(table: &[u64], zones: &mut [u64], number: u64, region: Region) -> u32 {
        let Region { guest, host, pages, kind } = region;
        ffi::rf_remove_region(table, zones, number, guest, host, pages, kind)
    }

    #[inline]
    fn insert_iommu_region(table: &[u64], zones: &mut [u64], number: u64, region: Region) -> u32 {
        let Region { guest, host, pages, kind } = region;
        ffi::rf_insert_iommu_region(table, zones, number, guest, host, pages, kind)
    }

    #[inline]
    fn remove_iommu_region(table: &[u64], zones: &mut [u64], number: u64, region: Region) -> u32 {
        let Region { guest, host, pages, kind } = region;
        ffi::rf_remove_iommu_region(table, zones, number, guest, host, pages, kind)
    }

    #[inline]
    fn translate(table: &[u64], zones: &[u64], number: u64, which: u64, addr: u64, host: &mut u64) -> u32 {
        ffi::rf_translate(table, zones, number, which, addr, host)
    }

    #[inline]
    fn alloc(
        table: &[u64],
        zones: &[u64],
        tree: &mut [u16],
        owners: &mut [u8],
        words: &[u64],
        number: u64,
        addr: &mut u64,
    ) -> u32 {
        ffi::rf_alloc(table, zones, tree, owners, words, number, addr)
    }

    #[inline]
    fn alloc_contiguous(
        table: &[u64],
        zones: &[u64],
        tree: &mut [u16],
        owners: &mut [u8],
        words: &[u64],
        number: u64,
        size: usize,
        align_log2: usize,
        addr: &mut u64,
    ) -> u32 {
        ffi::rf_alloc_contiguous(table, zones, tree, owners, words, number, size, align_log2, addr)
    }

    #[inline]
    fn dealloc(
        table: &[u64],
        zones: &[u64],
        tree: &mut [u16],
        owners: &mut [u8],
        words: &mut [u64],
        number: u64,
        addr: usize,
    ) -> u32 {
        ffi::rf_dealloc(table, zones, tree, owners, words, number, addr)
    }

    #[inline]
    fn dealloc_contiguous(
        table: &[u64],
        zones: &[u64],
        tree: &mut [u16],
        owners: &mut [u8],
        words: &mut [u64],
        number: u64,
        addr: usize,
        count: usize,
    ) -> u32 {
        ffi::rf_dealloc_contiguous(table, zones, tree, owners, words, number, addr, count)
    }

    #[inline]
    fn check(table: &[u64], zones: &[u64], tree: &[u16], owners: &[u8], words: &[u64]) -> u32 {
        ffi::rf_check(table, zones, tree, owners, words)
    }
}

impl Calls for Ours {
    #[inline]
    fn serve(
        rooms: Rooms,
        spare: SpareRooms,
        number: u64,
        bytes: &[u8],
        answers: &mut [u64],
        index: &mut u64,
        address: &mut u64,
    ) -> u32 {
        let Rooms { table, zones, tree, owners, words } = rooms;
        ffi::rf_serve(
            table,
            zones,
            tree,
            owners,
            words,
            spare.zones,
            spare.tree,
            spare.owners,
            number,
            bytes,
            answers,
            index,
            address,
        )
    }

    #[inline]
    fn run(
        rooms: Rooms,
        spare: SpareRooms,
        bytes: &[u8],
        replies: &mut [u64],
        answers: &mut [u64],
        offset: &mut u64,
    ) -> u32 {
        let Rooms { table, zones, tree, owners, words } = rooms;
        ffi::rf_run(
            table,
            zones,
            tree,
            owners,
            words,
            spare.zones,
            spare.tree,
            spare.owners,
            bytes,
            replies,
            answers,
            offset,
        )
    }
}
