//! The memories that are lent to a monitor, and how long they must be.
use crate::refusal::done;
use crate::{ffi, Refusal};
use core::fmt;

/// The words of a configuration's table.
pub const TABLE_WORDS: usize = 8325;
/// The words of a frame.
pub const FRAME_WORDS: usize = 512;
/// The bytes of a frame and of a page.
pub const FRAME_BYTES: u64 = 4096;

/// The five memories of a monitor. What they hold before the start does not matter; from then on they are the
/// monitor's, and nobody else writes them, except machines the frames that they own, and not during a call. They lie in
/// no page that a machine is given or can own, but for the frames' own memory.
pub struct Memories<'a> {
    /// The configuration, as it was accepted.
    pub table: &'a mut [u64],
    /// Which machines are there, and their two sets of regions.
    pub zones: &'a mut [u64],
    /// Which frames are free, with summaries.
    pub tree: &'a mut [u16],
    /// Who owns which frame.
    pub owners: &'a mut [u8],
    /// The frames' own memory: that of the first frames of the allocator's region, which are the ones that machines
    /// can own.
    pub words: &'a mut [u64],
}

impl Memories<'_> {
    /// How long they are.
    pub fn sizes(&self) -> Sizes {
        Sizes {
            table: self.table.len(),
            zones: self.zones.len(),
            tree: self.tree.len(),
            owners: self.owners.len(),
            words: self.words.len(),
        }
    }
}

/// Shows how long they are, and nothing of what they hold.
impl fmt::Debug for Memories<'_> {
    fn fmt(&self, f: &mut fmt::Formatter) -> fmt::Result {
        f.debug_tuple("Memories").field(&self.sizes()).finish()
    }
}

/// The memories in which a call is tried before it is done. What they hold does not matter, and nobody is to be shown
/// what they hold after a call. Each is as long as the memory of the same name of [`Memories`].
pub struct Spare<'a> {
    /// For the machines' words.
    pub zones: &'a mut [u64],
    /// For the tree.
    pub tree: &'a mut [u16],
    /// For the owners.
    pub owners: &'a mut [u8],
}

/// How long the memories are, each in its own words or bytes.
#[derive(Clone, Copy, Debug, PartialEq, Eq)]
pub struct Sizes {
    /// The words of the table.
    pub table: usize,
    /// The words of the machines.
    pub zones: usize,
    /// The words of the tree, of 16 bits each.
    pub tree: usize,
    /// The bytes of the owners.
    pub owners: usize,
    /// The frames' own words.
    pub words: usize,
}

/// How much to lend for so many machines with so many slots for regions in each of their sets, and for so many frames
/// that they can own. The allocator's region must have at least so many pages, and at most as many as there are owners.
///
/// ```
/// let sizes = replayframes::to_lend(4, 3, 10)?;
/// assert_eq!((sizes.table, sizes.zones, sizes.tree, sizes.owners, sizes.words), (8325, 108, 1, 16, 5120));
/// assert_eq!(replayframes::to_lend(65, 3, 10), Err(replayframes::Refusal::ManyMachines));
/// # Ok::<(), replayframes::Refusal>(())
/// ```
pub fn to_lend(machines: u64, slots: u64, frames: u64) -> Result<Sizes, Refusal> {
    let [mut table, mut zones, mut tree, mut owners, mut words] = [0; 5];
    done(ffi::rf_to_lend(
        machines,
        slots,
        frames,
        &mut table,
        &mut zones,
        &mut tree,
        &mut owners,
        &mut words,
    ))?;
    let [table, zones, tree, owners, words] = [table, zones, tree, owners, words].map(|size| size as usize);
    Ok(Sizes { table, zones, tree, owners, words })
}
