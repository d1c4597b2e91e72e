//! What a machine asks, and its bytes as docs/FORMAT.md has them.
use core::fmt;

/// The bytes of a request.
pub const REQUEST_BYTES: usize = 33;
/// The bytes before a call in a sequence: the asker's number, and the call's length.
pub const HEADER_BYTES: usize = 16;
/// What a list begins with.
pub(crate) const LIST: u8 = 255;

/// What a region is for.
#[derive(Clone, Copy, Debug, PartialEq, Eq, Hash)]
pub enum Kind {
    /// Memory of one machine.
    Ordinary,
    /// A device of one machine.
    Device,
    /// Memory that other machines may be given too, where they have it as a shared region of the same host pages.
    Shared,
}

impl Kind {
    /// The kind's number in bytes and words.
    pub fn number(self) -> u64 {
        self as u64
    }

    /// The kind that has a number.
    pub fn from_number(number: u64) -> Option<Kind> {
        [Kind::Ordinary, Kind::Device, Kind::Shared].into_iter().find(|kind| kind.number() == number)
    }
}

/// Guest memory, and the host memory that it stands for.
#[derive(Clone, Copy, Debug, PartialEq, Eq, Hash)]
pub struct Region {
    /// The guest address at which it starts.
    pub guest: u64,
    /// The host address at which it starts.
    pub host: u64,
    /// How many pages of 4096 bytes it has.
    pub pages: u64,
    /// What it is for.
    pub kind: Kind,
}

impl Region {
    /// The four numbers that stand for it.
    fn numbers(self) -> [u64; 4] {
        [self.guest, self.host, self.pages, self.kind.number()]
    }
}

/// Which of a machine's two sets of regions.
#[derive(Clone, Copy, Debug, PartialEq, Eq, Hash)]
pub enum Which {
    /// What its processors reach.
    Processors,
    /// What its devices reach.
    Devices,
}

impl Which {
    /// Both sets.
    pub const BOTH: [Which; 2] = [Which::Processors, Which::Devices];

    /// The set's number in bytes and words.
    pub fn number(self) -> u64 {
        self as u64
    }
}

/// One request. Who asks is no part of it: that is for the monitor to know.
#[derive(Clone, Copy, Debug, PartialEq, Eq, Hash)]
pub enum Request {
    /// The machine comes.
    AddZone,
    /// The machine goes. It has nothing left.
    RemoveZone,
    /// The machine goes with all its regions and frames, which are cleared.
    RemoveZoneWhole,
    /// A region that the configuration gives the machine enters one of its sets.
    Insert(Which, Region),
    /// That very region leaves the set.
    Remove(Which, Region),
    /// The host address that a guest address stands for is asked.
    Translate {
        /// Through which set.
        which: Which,
        /// The guest address.
        address: u64,
    },
    /// The lowest free frame becomes the machine's.
    Alloc,
    /// The lowest run of free frames becomes the machine's.
    AllocContiguous {
        /// How many frames.
        size: u64,
        /// The first is a multiple of 2 to the power of this, counted from the first of all.
        align_log2: u64,
    },
    /// The machine gives back a frame, which is cleared.
    Dealloc {
        /// Its host address.
        address: u64,
    },
    /// The machine gives back frames, all or none, which are cleared.
    DeallocContiguous {
        /// The host address of the first.
        address: u64,
        /// How many.
        count: u64,
    },
}

impl Request {
    /// The operation, and its four numbers.
    fn fields(self) -> (u8, [u64; 4]) {
        match self {
            Request::AddZone => (0, [0; 4]),
            Request::RemoveZone => (1, [0; 4]),
            Request::RemoveZoneWhole => (2, [0; 4]),
            Request::Insert(Which::Processors, region) => (3, region.numbers()),
            Request::Remove(Which::Processors, region) => (4, region.numbers()),
            Request::Insert(Which::Devices, region) => (5, region.numbers()),
            Request::Remove(Which::Devices, region) => (6, region.numbers()),
            Request::Translate { which, address } => (7, [address, which.number(), 0, 0]),
            Request::Alloc => (8, [0; 4]),
            Request::AllocContiguous { size, align_log2 } => (9, [size, align_log2, 0, 0]),
            Request::Dealloc { address } => (10, [address, 0, 0, 0]),
            Request::DeallocContiguous { address, count } => (11, [address, count, 0, 0]),
        }
    }

    /// Its bytes.
    pub fn encode(self) -> [u8; REQUEST_BYTES] {
        let (operation, numbers) = self.fields();
        let mut bytes = [operation; REQUEST_BYTES];
        for (place, number) in bytes[1..].chunks_exact_mut(8).zip(numbers) {
            place.copy_from_slice(&number.to_le_bytes());
        }
        bytes
    }
}

/// The request that the bytes begin with is answered with an address, if it is done.
pub(crate) fn has_address(bytes: &[u8]) -> bool {
    matches!(bytes.first(), Some(7..=9))
}

/// A buffer is too short for what is to be written into it.
#[derive(Clone, Copy, Debug, PartialEq, Eq)]
pub struct ShortBuffer {
    /// How many bytes are needed.
    pub needed: usize,
}

impl fmt::Display for ShortBuffer {
    fn fmt(&self, f: &mut fmt::Formatter) -> fmt::Result {
        write!(f, "The buffer is too short. Lend {} bytes.", self.needed)
    }
}

/// Bytes that are written one behind the other into a buffer that has room for them.
pub(crate) struct Writer<'b> {
    buffer: &'b mut [u8],
    at: usize,
}

impl<'b> Writer<'b> {
    /// Begins, if so many bytes have room.
    pub(crate) fn new(buffer: &'b mut [u8], needed: usize) -> Result<Writer<'b>, ShortBuffer> {
        let buffer = buffer.get_mut(..needed).ok_or(ShortBuffer { needed })?;
        Ok(Writer { buffer, at: 0 })
    }

    /// Writes these behind the last.
    pub(crate) fn put(&mut self, bytes: &[u8]) {
        self.buffer[self.at..self.at + bytes.len()].copy_from_slice(bytes);
        self.at += bytes.len();
    }

    /// All that was written.
    pub(crate) fn written(self) -> &'b [u8] {
        self.buffer
    }
}

/// What a machine asks at once.
#[derive(Clone, Copy, Debug, PartialEq, Eq)]
pub enum Call<'r> {
    /// One request.
    One(Request),
    /// Requests that are all done, in their order, or none of them.
    List(&'r [Request]),
}

impl Call<'_> {
    /// How many bytes it has.
    pub fn bytes_needed(self) -> usize {
        match self {
            Call::One(_) => REQUEST_BYTES,
            Call::List(requests) => 1 + REQUEST_BYTES * requests.len(),
        }
    }

    /// Its bytes, written to the front of the buffer.
    pub fn encode(self, buffer: &mut [u8]) -> Result<&[u8], ShortBuffer> {
        let mut writer = Writer::new(buffer, self.bytes_needed())?;
        self.put(&mut writer);
        Ok(writer.written())
    }

    /// Its bytes as an item of a sequence, with the number of the machine that asks, written to the front of the
    /// buffer: [`HEADER_BYTES`] more than the call alone.
    pub fn encode_item(self, number: u64, buffer: &mut [u8]) -> Result<&[u8], ShortBuffer> {
        let mut writer = Writer::new(buffer, HEADER_BYTES + self.bytes_needed())?;
        writer.put(&number.to_le_bytes());
        writer.put(&(self.bytes_needed() as u64).to_le_bytes());
        self.put(&mut writer);
        Ok(writer.written())
    }

    /// Writes its bytes.
    fn put(self, writer: &mut Writer) {
        match self {
            Call::One(request) => writer.put(&request.encode()),
            Call::List(requests) => {
                writer.put(&[LIST]);
                requests.iter().for_each(|request| writer.put(&request.encode()));
            }
        }
    }
}
