//! The monitor over five memories: what machines ask of it, and what it shows of them.
use crate::config::{Pool, Table};
use crate::looks::{each, number_by, region_by};
use crate::memories::{FRAME_BYTES, FRAME_WORDS};
use crate::refusal::done;
use crate::reply::Told;
use crate::{ffi, CallRefusal, Memories, Refusal, Region, Replies, Reply, Request, RunRefusal, Spare, Which};

/// What `rf_allocator_owner` says of a frame that is free, and of one that is reserved.
const FREE: u8 = 64;
const RESERVED: u8 = 65;

/// A machine of the configuration.
#[derive(Clone, Copy, Debug, PartialEq, Eq)]
pub struct Machine {
    /// Its place in the configuration: the first has place 0.
    pub place: usize,
    /// The number by which it asks.
    pub number: u64,
    /// Whether it was added, and not removed since.
    pub is_there: bool,
}

/// Whose a frame is.
#[derive(Clone, Copy, Debug, PartialEq, Eq)]
pub enum State {
    /// Nobody's: the next machine that asks may get it. It is all zero.
    Free,
    /// The monitor's own: no machine ever gets it.
    Reserved,
    /// That of the machine which has this number.
    Owned(u64),
}

/// A frame of the allocator's region.
#[derive(Clone, Copy, Debug, PartialEq, Eq)]
pub struct Frame {
    /// Its host address.
    pub address: u64,
    /// Whose it is.
    pub state: State,
}

/// A monitor, which decides what each machine reaches. It borrows its memories.
///
/// Every method that refuses something says why, and changes nothing. The number of the machine that asks is the
/// caller's to know: the monitor believes it.
#[derive(Debug)]
pub struct Monitor<'a> {
    memories: Memories<'a>,
}

impl<'a> Monitor<'a> {
    /// Starts a monitor from the bytes of a configuration: no machine is there, and every frame that machines can own
    /// is free and all zero. [`config::check`](crate::config::check) says where a configuration that is refused is
    /// wrong.
    pub fn start(config: &[u8], memories: Memories<'a>) -> Result<Monitor<'a>, Refusal> {
        let Memories { table, zones, tree, owners, words } = memories;
        done(ffi::rf_start(config, table, zones, tree, owners, words))?;
        Ok(Monitor { memories: Memories { table, zones, tree, owners, words } })
    }

    /// Goes on with memories that a monitor left, if they are sound.
    pub fn resume(memories: Memories<'a>) -> Result<Monitor<'a>, Refusal> {
        let monitor = Monitor { memories };
        monitor.check()?;
        Ok(monitor)
    }

    /// The memories, as they are: [`Monitor::resume`] can go on with them.
    pub fn into_memories(self) -> Memories<'a> {
        self.memories
    }

    /// The memories, to be read.
    pub fn memories(&self) -> &Memories<'a> {
        &self.memories
    }

    /// Whether the memories are sound. They are after every request, unless somebody else wrote them. It reads all of
    /// them.
    pub fn check(&self) -> Result<(), Refusal> {
        let Memories { table, zones, tree, owners, words } = &self.memories;
        done(ffi::rf_check(table, zones, tree, owners, words))
    }

    /// Adds a machine.
    pub fn add_zone(&mut self, number: u64) -> Result<(), Refusal> {
        let Memories { table, zones, .. } = &mut self.memories;
        done(ffi::rf_add_zone(table, zones, number))
    }

    /// Removes a machine that has no region in either set and no frame.
    pub fn remove_zone(&mut self, number: u64) -> Result<(), Refusal> {
        let Memories { table, zones, tree, owners, .. } = &mut self.memories;
        done(ffi::rf_remove_zone(table, zones, tree, owners, number))
    }

    /// Removes a machine with all its regions and frames, which are cleared.
    pub fn remove_zone_whole(&mut self, number: u64) -> Result<(), Refusal> {
        let Memories { table, zones, tree, owners, words } = &mut self.memories;
        done(ffi::rf_remove_zone_whole(table, zones, tree, owners, words, number))
    }

    /// Gives the machine's processors a region.
    pub fn insert_region(&mut self, number: u64, region: Region) -> Result<(), Refusal> {
        let Memories { table, zones, .. } = &mut self.memories;
        let Region { guest, host, pages, kind } = region;
        done(ffi::rf_insert_region(table, zones, number, guest, host, pages, kind.number()))
    }

    /// Takes that very region from the machine's processors.
    pub fn remove_region(&mut self, number: u64, region: Region) -> Result<(), Refusal> {
        let Memories { table, zones, .. } = &mut self.memories;
        let Region { guest, host, pages, kind } = region;
        done(ffi::rf_remove_region(table, zones, number, guest, host, pages, kind.number()))
    }

    /// Gives the machine's devices a region.
    pub fn insert_iommu_region(&mut self, number: u64, region: Region) -> Result<(), Refusal> {
        let Memories { table, zones, .. } = &mut self.memories;
        let Region { guest, host, pages, kind } = region;
        done(ffi::rf_insert_iommu_region(table, zones, number, guest, host, pages, kind.number()))
    }

    /// Takes that very region from the machine's devices.
    pub fn remove_iommu_region(&mut self, number: u64, region: Region) -> Result<(), Refusal> {
        let Memories { table, zones, .. } = &mut self.memories;
        let Region { guest, host, pages, kind } = region;
        done(ffi::rf_remove_iommu_region(table, zones, number, guest, host, pages, kind.number()))
    }

    /// The host address that a guest address stands for, through a set of the machine.
    pub fn translate(&self, number: u64, which: Which, address: u64) -> Result<u64, Refusal> {
        let Memories { table, zones, .. } = &self.memories;
        number_by(|host| ffi::rf_translate(table, zones, number, which.number(), address, host))
    }

    /// Gives the machine the lowest free frame, which is all zero: its host address.
    pub fn alloc(&mut self, number: u64) -> Result<u64, Refusal> {
        let Memories { table, zones, tree, owners, words } = &mut self.memories;
        number_by(|address| ffi::rf_alloc(table, zones, tree, owners, words, number, address))
    }

    /// Gives the machine the lowest run of so many free frames whose first is a multiple of 2 to the power of
    /// `align_log2`, counted from the first of all: the host address of the first. All are all zero.
    pub fn alloc_contiguous(&mut self, number: u64, size: u64, align_log2: u64) -> Result<u64, Refusal> {
        let Memories { table, zones, tree, owners, words } = &mut self.memories;
        let (size, align_log2) = (size as usize, align_log2 as usize);
        number_by(|address| {
            ffi::rf_alloc_contiguous(table, zones, tree, owners, words, number, size, align_log2, address)
        })
    }

    /// The machine gives back the frame at a host address, which is cleared.
    pub fn dealloc(&mut self, number: u64, address: u64) -> Result<(), Refusal> {
        let Memories { table, zones, tree, owners, words } = &mut self.memories;
        done(ffi::rf_dealloc(table, zones, tree, owners, words, number, address as usize))
    }

    /// The machine gives back so many frames from a host address on, all or none. They are cleared.
    pub fn dealloc_contiguous(&mut self, number: u64, address: u64, count: u64) -> Result<(), Refusal> {
        let Memories { table, zones, tree, owners, words } = &mut self.memories;
        let (address, count) = (address as usize, count as usize);
        done(ffi::rf_dealloc_contiguous(table, zones, tree, owners, words, number, address, count))
    }

    /// Does what a request says: the address of the answer, if it has one.
    pub fn ask(&mut self, number: u64, request: Request) -> Result<Option<u64>, Refusal> {
        let nothing = |()| None;
        match request {
            Request::AddZone => self.add_zone(number).map(nothing),
            Request::RemoveZone => self.remove_zone(number).map(nothing),
            Request::RemoveZoneWhole => self.remove_zone_whole(number).map(nothing),
            Request::Insert(Which::Processors, region) => self.insert_region(number, region).map(nothing),
            Request::Insert(Which::Devices, region) => self.insert_iommu_region(number, region).map(nothing),
            Request::Remove(Which::Processors, region) => self.remove_region(number, region).map(nothing),
            Request::Remove(Which::Devices, region) => self.remove_iommu_region(number, region).map(nothing),
            Request::Translate { which, address } => self.translate(number, which, address).map(Some),
            Request::Alloc => self.alloc(number).map(Some),
            Request::AllocContiguous { size, align_log2 } => {
                self.alloc_contiguous(number, size, align_log2).map(Some)
            }
            Request::Dealloc { address } => self.dealloc(number, address).map(nothing),
            Request::DeallocContiguous { address, count } => {
                self.dealloc_contiguous(number, address, count).map(nothing)
            }
        }
    }

    /// Serves a call in bytes: one request, or a list of requests, which are all done or none. The answers need
    /// [`answers_for`](crate::answers_for) words.
    pub fn serve<'b>(
        &mut self,
        spare: &mut Spare,
        number: u64,
        call: &'b [u8],
        answers: &'b mut [u64],
    ) -> Result<Reply<'b>, CallRefusal> {
        let Memories { table, zones, tree, owners, words } = &mut self.memories;
        let Spare { zones: spare_zones, tree: spare_tree, owners: spare_owners } = spare;
        let (mut index, mut address) = (0, 0);
        let code = ffi::rf_serve(
            table,
            zones,
            tree,
            owners,
            words,
            spare_zones,
            spare_tree,
            spare_owners,
            number,
            call,
            answers,
            &mut index,
            &mut address,
        );
        Told { code, index, address }.read(call, answers)
    }

    /// Serves a sequence of calls in bytes, each with the number of the machine that asks. The replies need
    /// [`replies_for`](crate::replies_for) words, and the answers to members of lists
    /// [`answers_for`](crate::answers_for). If it is refused, none of its calls was served.
    pub fn run<'b>(
        &mut self,
        spare: &mut Spare,
        sequence: &'b [u8],
        replies: &'b mut [u64],
        answers: &'b mut [u64],
    ) -> Result<Replies<'b>, RunRefusal> {
        let Memories { table, zones, tree, owners, words } = &mut self.memories;
        let Spare { zones: spare_zones, tree: spare_tree, owners: spare_owners } = spare;
        let mut offset = 0;
        let code = ffi::rf_run(
            table,
            zones,
            tree,
            owners,
            words,
            spare_zones,
            spare_tree,
            spare_owners,
            sequence,
            replies,
            answers,
            &mut offset,
        );
        match done(code) {
            Ok(()) => Ok(Replies { items: sequence, replies, answers }),
            Err(refusal) => {
                let offset = Some(offset as usize).filter(|_| refusal == Refusal::Broken);
                Err(RunRefusal { refusal, offset })
            }
        }
    }

    /// The configuration.
    pub fn config(&self) -> Table<'_> {
        Table::in_words(self.memories.table)
    }

    /// The allocator's region.
    pub fn pool(&self) -> Result<Pool, Refusal> {
        self.config().pool()
    }

    /// All machines of the configuration, by their places.
    pub fn machines(&self) -> impl Iterator<Item = Result<Machine, Refusal>> + '_ {
        each(Refusal::NoMachine, move |place| self.machine(place as usize))
    }

    /// The machine at a place.
    fn machine(&self, place: usize) -> Result<Machine, Refusal> {
        let number = self.config().number(place)?;
        Ok(Machine { place, number, is_there: self.is_there(number)? })
    }

    /// Whether the machine that has a number is there.
    pub fn is_there(&self, number: u64) -> Result<bool, Refusal> {
        let Memories { table, zones, .. } = &self.memories;
        let mut there = 0;
        done(ffi::rf_zone_there(table, zones, number, &mut there))?;
        Ok(there == 1)
    }

    /// The regions that the configuration gives a machine.
    pub fn given(&self, number: u64) -> impl Iterator<Item = Result<Region, Refusal>> + '_ {
        let (config, place) = (self.config(), self.config().place(number));
        each(Refusal::NoRegion, move |i| config.region(place?, i as usize))
    }

    /// How many regions a set of a machine has.
    pub fn region_count(&self, number: u64, which: Which) -> Result<usize, Refusal> {
        let Memories { table, zones, .. } = &self.memories;
        let count = number_by(|count| ffi::rf_zone_regions(table, zones, number, which.number(), count))?;
        Ok(count as usize)
    }

    /// The regions of a set of a machine, by their guest starts.
    pub fn regions(&self, number: u64, which: Which) -> impl Iterator<Item = Result<Region, Refusal>> + '_ {
        let Memories { table, zones, .. } = &self.memories;
        each(Refusal::NoRegion, move |i| {
            region_by(|guest, host, pages, kind| {
                ffi::rf_zone_region(table, zones, number, which.number(), i, guest, host, pages, kind)
            })
        })
    }

    /// All frames of the allocator's region, by their addresses.
    pub fn frames(&self) -> impl Iterator<Item = Result<Frame, Refusal>> + '_ {
        let pool = self.pool();
        each(Refusal::Outside, move |k| self.frame(pool?, k))
    }

    /// Frame k of the allocator's region.
    fn frame(&self, pool: Pool, k: u64) -> Result<Frame, Refusal> {
        if k >= pool.pages {
            return Err(Refusal::Outside);
        }
        let Memories { tree, owners, .. } = &self.memories;
        let mut owner = RESERVED;
        done(ffi::rf_allocator_owner(tree, owners, pool.host as usize, k as usize, &mut owner))?;
        let state = match owner {
            FREE => State::Free,
            RESERVED => State::Reserved,
            place => State::Owned(self.config().number(usize::from(place))?),
        };
        Ok(Frame { address: pool.host + FRAME_BYTES * k, state })
    }

    /// The host addresses of the frames that a machine owns.
    pub fn frames_of(&self, number: u64) -> impl Iterator<Item = Result<u64, Refusal>> + '_ {
        let pool = self.config().place(number).and_then(|_| self.pool());
        let frames = each(Refusal::Outside, move |k| self.frame(pool?, k));
        frames.filter_map(move |frame| match frame {
            Ok(frame) => Some(Ok(frame.address)).filter(|_| frame.state == State::Owned(number)),
            Err(refusal) => Some(Err(refusal)),
        })
    }

    /// The words of the frame at a host address, if the machine owns it: what the machine reads and writes there.
    pub fn frame_words(&mut self, number: u64, address: u64) -> Result<&mut [u64], Refusal> {
        let pool = self.pool()?;
        let offset = address.checked_sub(pool.host).ok_or(Refusal::Below)?;
        if offset % FRAME_BYTES != 0 {
            return Err(Refusal::NotAtFrame);
        }
        let k = offset / FRAME_BYTES;
        match self.frame(pool, k)?.state {
            State::Free => return Err(Refusal::NotTaken),
            State::Owned(owner) if owner == number => {}
            _ => return Err(Refusal::NotYours),
        }
        self.memories.words.chunks_exact_mut(FRAME_WORDS).nth(k as usize).ok_or(Refusal::Corrupt)
    }
}
