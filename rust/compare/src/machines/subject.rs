//! The functions that are compared: those of the proved archive, and the rival's under the same names.
use super::request::{Region, Request, Which};

/// Each function answers 0 or the number of a reason.
pub trait Machines {
    /// What reports call it.
    const NAME: &'static str;

    /// Makes the memories those of a configuration's machines, none of them present, whatever they held.
    fn start(
        bytes: &[u8],
        table: &mut [u64],
        zones: &mut [u64],
        tree: &mut [u16],
        owners: &mut [u8],
        words: &mut [u64],
    ) -> u32;

    fn add_zone(table: &[u64], zones: &mut [u64], number: u64) -> u32;
    fn remove_zone(table: &[u64], zones: &mut [u64], tree: &[u16], owners: &[u8], number: u64) -> u32;

    /// The machine goes with all its regions and frames.
    fn remove_zone_whole(
        table: &[u64],
        zones: &mut [u64],
        tree: &mut [u16],
        owners: &mut [u8],
        words: &mut [u64],
        number: u64,
    ) -> u32;

    fn insert_region(table: &[u64], zones: &mut [u64], number: u64, region: Region) -> u32;
    fn remove_region(table: &[u64], zones: &mut [u64], number: u64, region: Region) -> u32;
    fn insert_iommu_region(table: &[u64], zones: &mut [u64], number: u64, region: Region) -> u32;
    fn remove_iommu_region(table: &[u64], zones: &mut [u64], number: u64, region: Region) -> u32;

    /// The host address is written behind the last argument; here and below a refusal leaves it alone.
    fn translate(table: &[u64], zones: &[u64], number: u64, which: u64, addr: u64, host: &mut u64) -> u32;

    fn alloc(
        table: &[u64],
        zones: &[u64],
        tree: &mut [u16],
        owners: &mut [u8],
        words: &[u64],
        number: u64,
        addr: &mut u64,
    ) -> u32;

    fn alloc_contiguous(
        table: &[u64],
        zones: &[u64],
        tree: &mut [u16],
        owners: &mut [u8],
        words: &[u64],
        number: u64,
        size: usize,
        align_log2: usize,
        addr: &mut u64,
    ) -> u32;

    fn dealloc(
        table: &[u64],
        zones: &[u64],
        tree: &mut [u16],
        owners: &mut [u8],
        words: &mut [u64],
        number: u64,
        addr: usize,
    ) -> u32;

    fn dealloc_contiguous(
        table: &[u64],
        zones: &[u64],
        tree: &mut [u16],
        owners: &mut [u8],
        words: &mut [u64],
        number: u64,
        addr: usize,
        count: usize,
    ) -> u32;

    /// Whether the memories are sound.
    fn check(table: &[u64], zones: &[u64], tree: &[u16], owners: &[u8], words: &[u64]) -> u32;
}

/// The memories that requests are done in.
pub struct Rooms<'a> {
    pub table: &'a [u64],
    pub zones: &'a mut [u64],
    pub tree: &'a mut [u16],
    pub owners: &'a mut [u8],
    pub words: &'a mut [u64],
}

/// The spare memories that are lent with calls.
pub struct SpareRooms<'a> {
    pub zones: &'a mut [u64],
    pub tree: &'a mut [u16],
    pub owners: &'a mut [u8],
}

/// The functions that take requests in bytes.
pub trait Calls: Machines {
    /// One request or a list, all of it done or none: the answers to a list's members stand in `answers`, the
    /// member that is refused or malformed behind `index`, and a single request's answer behind `address`.
    fn serve(
        rooms: Rooms,
        spare: SpareRooms,
        number: u64,
        bytes: &[u8],
        answers: &mut [u64],
        index: &mut u64,
        address: &mut u64,
    ) -> u32;

    /// A sequence of calls: behind `offset` is how many, or where the first item begins that is not whole.
    fn run(
        rooms: Rooms,
        spare: SpareRooms,
        bytes: &[u8],
        replies: &mut [u64],
        answers: &mut [u64],
        offset: &mut u64,
    ) -> u32;
}

/// Calls the function of a request. Its answer is written behind the last argument, if it has one.
#[inline]
pub fn ask<S: Machines>(rooms: Rooms, number: u64, request: Request, value: &mut u64) -> u32 {
    let Rooms { table, zones, tree, owners, words } = rooms;
    match request {
        Request::AddZone => S::add_zone(table, zones, number),
        Request::RemoveZone => S::remove_zone(table, zones, tree, owners, number),
        Request::RemoveZoneWhole => S::remove_zone_whole(table, zones, tree, owners, words, number),
        Request::Insert(Which::Processors, region) => S::insert_region(table, zones, number, region),
        Request::Insert(Which::Devices, region) => S::insert_iommu_region(table, zones, number, region),
        Request::Remove(Which::Processors, region) => S::remove_region(table, zones, number, region),
        Request::Remove(Which::Devices, region) => S::remove_iommu_region(table, zones, number, region),
        Request::Translate { which, addr } => S::translate(table, zones, number, which, addr, value),
        Request::Alloc => S::alloc(table, zones, tree, owners, words, number, value),
        Request::Run { size, align_log2 } => {
            S::alloc_contiguous(table, zones, tree, owners, words, number, size, align_log2, value)
        }
        Request::Dealloc { addr } => S::dealloc(table, zones, tree, owners, words, number, addr),
        Request::DeallocRun { addr, count } => {
            S::dealloc_contiguous(table, zones, tree, owners, words, number, addr, count)
        }
    }
}
