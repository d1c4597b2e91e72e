//! The exported functions of the archive, with slices for pointers and lengths, and references for the other pointers.
//! Each answers 0 or the code of a [`Refusal`](crate::Refusal), and asks nothing of its caller beyond the types: any
//! words of any length will do. [`Monitor`](crate::Monitor) is what to use, unless the memories must be kept apart.
//!
//! All that is unsafe in this crate is the one call in the macro.

/// Declares exported functions, and gives each a safe form of the same name.
macro_rules! exported {
    ($($(#[$doc:meta])* fn $name:ident($($parameters:tt)*);)*) => {
        $(exported!(@ [$(#[$doc])*] $name () () () $($parameters)*,);)*
    };
    // A slice is its pointer and its length.
    (@ $doc:tt $name:ident ($($safe:tt)*) ($($declared:tt)*) ($($passed:tt)*)
        $part:ident: &mut [$cell:ident], $($rest:tt)*) => {
        exported!(@ $doc $name ($($safe)* $part: &mut [$cell],) ($($declared)* _: *mut $cell, _: usize,)
            ($($passed)* $part.as_mut_ptr(), $part.len(),) $($rest)*);
    };
    (@ $doc:tt $name:ident ($($safe:tt)*) ($($declared:tt)*) ($($passed:tt)*)
        $part:ident: &[$cell:ident], $($rest:tt)*) => {
        exported!(@ $doc $name ($($safe)* $part: &[$cell],) ($($declared)* _: *const $cell, _: usize,)
            ($($passed)* $part.as_ptr(), $part.len(),) $($rest)*);
    };
    // A place for one number is its pointer.
    (@ $doc:tt $name:ident ($($safe:tt)*) ($($declared:tt)*) ($($passed:tt)*)
        $part:ident: &mut $cell:ident, $($rest:tt)*) => {
        exported!(@ $doc $name ($($safe)* $part: &mut $cell,) ($($declared)* _: *mut $cell,)
            ($($passed)* $part,) $($rest)*);
    };
    // A number is itself.
    (@ $doc:tt $name:ident ($($safe:tt)*) ($($declared:tt)*) ($($passed:tt)*)
        $part:ident: $cell:ident, $($rest:tt)*) => {
        exported!(@ $doc $name ($($safe)* $part: $cell,) ($($declared)* _: $cell,)
            ($($passed)* $part,) $($rest)*);
    };
    // No parameter is left.
    (@ [$($doc:tt)*] $name:ident ($($safe:tt)*) ($($declared:tt)*) ($($passed:tt)*)) => {
        $($doc)*
        #[inline]
        pub fn $name($($safe)*) -> u32 {
            extern "C" {
                fn $name($($declared)*) -> u32;
            }
            // SAFETY: each pointer and length are those of one slice, and each other pointer that of one number. They
            // are borrowed for the call, exclusively where they are written, so they are there, aligned and apart.
            // The function is proved to touch nothing else, whatever the words and numbers are.
            unsafe { $name($($passed)*) }
        }
    };
}

exported! {
    /// Whether bytes are a configuration that is right: 0, and how many machines; or a reason, with its places.
    fn rf_config_check(bytes: &[u8], first: &mut usize, second: &mut usize, third: &mut usize, fourth: &mut usize);

    /// Writes an accepted configuration into a table.
    fn rf_config_load(bytes: &[u8], table: &mut [u64]);

    /// How many machines the configuration has.
    fn rf_config_machines(table: &[u64], machines: &mut u64);

    /// The number of the machine at a place.
    fn rf_config_number(table: &[u64], place: u64, number: &mut u64);

    /// How many regions the machine at a place is given.
    fn rf_config_regions(table: &[u64], place: u64, count: &mut u64);

    /// The i-th region that the machine at a place is given.
    fn rf_config_region(table: &[u64], place: u64, i: u64, guest: &mut u64, host: &mut u64, pages: &mut u64,
        kind: &mut u64);

    /// The allocator's region.
    fn rf_config_pool(table: &[u64], host: &mut u64, pages: &mut u64);

    /// How many words and bytes to lend for so many machines, slots in each set, and frames.
    fn rf_to_lend(machines: u64, slots: u64, frames: u64, table: &mut u64, zones: &mut u64, tree: &mut u64,
        owners: &mut u64, words: &mut u64);

    /// Starts a monitor: whatever the memories held, they are those of the configuration, with no machine.
    fn rf_start(bytes: &[u8], table: &mut [u64], zones: &mut [u64], tree: &mut [u16], owners: &mut [u8],
        words: &mut [u64]);

    /// Whether the memories are sound.
    fn rf_check(table: &[u64], zones: &[u64], tree: &[u16], owners: &[u8], words: &[u64]);

    /// Adds the machine.
    fn rf_add_zone(table: &[u64], zones: &mut [u64], number: u64);

    /// Removes the machine, which has nothing left.
    fn rf_remove_zone(table: &[u64], zones: &mut [u64], tree: &[u16], owners: &[u8], number: u64);

    /// Removes the machine with all its regions and frames, which are cleared.
    fn rf_remove_zone_whole(table: &[u64], zones: &mut [u64], tree: &mut [u16], owners: &mut [u8], words: &mut [u64],
        number: u64);

    /// Gives the machine's processors a region.
    fn rf_insert_region(table: &[u64], zones: &mut [u64], number: u64, guest: u64, host: u64, pages: u64, kind: u64);

    /// Takes that very region from the machine's processors.
    fn rf_remove_region(table: &[u64], zones: &mut [u64], number: u64, guest: u64, host: u64, pages: u64, kind: u64);

    /// Gives the machine's devices a region.
    fn rf_insert_iommu_region(table: &[u64], zones: &mut [u64], number: u64, guest: u64, host: u64, pages: u64,
        kind: u64);

    /// Takes that very region from the machine's devices.
    fn rf_remove_iommu_region(table: &[u64], zones: &mut [u64], number: u64, guest: u64, host: u64, pages: u64,
        kind: u64);

    /// Writes the host address that a guest address stands for, through a set of the machine.
    fn rf_translate(table: &[u64], zones: &[u64], number: u64, which: u64, addr: u64, host: &mut u64);

    /// Gives the machine the lowest free frame, and writes its host address.
    fn rf_alloc(table: &[u64], zones: &[u64], tree: &mut [u16], owners: &mut [u8], words: &[u64], number: u64,
        addr: &mut u64);

    /// Gives the machine the lowest run of free frames, so aligned, and writes the host address of the first.
    fn rf_alloc_contiguous(table: &[u64], zones: &[u64], tree: &mut [u16], owners: &mut [u8], words: &[u64],
        number: u64, size: usize, align_log2: usize, addr: &mut u64);

    /// The machine gives back the frame at a host address, which is cleared.
    fn rf_dealloc(table: &[u64], zones: &[u64], tree: &mut [u16], owners: &mut [u8], words: &mut [u64], number: u64,
        addr: usize);

    /// The machine gives back so many frames from a host address on, all or none; they are cleared.
    fn rf_dealloc_contiguous(table: &[u64], zones: &[u64], tree: &mut [u16], owners: &mut [u8], words: &mut [u64],
        number: u64, addr: usize, count: usize);

    /// Whether the machine is there.
    fn rf_zone_there(table: &[u64], zones: &[u64], number: u64, there: &mut u8);

    /// How many regions a set of the machine has.
    fn rf_zone_regions(table: &[u64], zones: &[u64], number: u64, which: u64, count: &mut u64);

    /// The i-th region of a set of the machine.
    fn rf_zone_region(table: &[u64], zones: &[u64], number: u64, which: u64, i: u64, guest: &mut u64, host: &mut u64,
        pages: &mut u64, kind: &mut u64);

    /// What frame k is: 0 to 63 for the place of the machine that owns it, 64 if it is free, 65 if it is reserved.
    fn rf_allocator_owner(tree: &[u16], owners: &[u8], base: usize, k: usize, owner: &mut u8);

    /// Serves the call of a machine: one request, or a list of them, all done or none.
    fn rf_serve(table: &[u64], zones: &mut [u64], tree: &mut [u16], owners: &mut [u8], words: &mut [u64],
        spare_zones: &mut [u64], spare_tree: &mut [u16], spare_owners: &mut [u8], number: u64, bytes: &[u8],
        answers: &mut [u64], index: &mut u64, address: &mut u64);

    /// Serves a sequence of calls, before each of which stands the number of the machine that asks.
    fn rf_run(table: &[u64], zones: &mut [u64], tree: &mut [u16], owners: &mut [u8], words: &mut [u64],
        spare_zones: &mut [u64], spare_tree: &mut [u16], spare_owners: &mut [u8], bytes: &[u8], replies: &mut [u64],
        answers: &mut [u64], offset: &mut u64);
}
