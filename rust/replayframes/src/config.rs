//! Configurations: which machines there are, which regions each is given, and where the allocator's frames are.
//!
//! [`Config`] is written from plain values into bytes, [`check`] decides whether bytes are a configuration that is
//! right, and [`Table`] shows what an accepted one holds.
use crate::looks::{each, number_by, region_by};
use crate::refusal::done;
use crate::request::{ShortBuffer, Writer};
use crate::{ffi, Refusal, Region};
use core::fmt;

/// Host memory whose frames are allocated.
#[derive(Clone, Copy, Debug, PartialEq, Eq)]
pub struct Pool {
    /// The host address at which it starts.
    pub host: u64,
    /// How many pages of 4096 bytes it has.
    pub pages: u64,
}

/// A machine, and the regions that it is given.
#[derive(Clone, Copy, Debug, PartialEq, Eq)]
pub struct Machine<'c> {
    /// The number by which it asks.
    pub number: u16,
    /// What it may insert into its sets.
    pub regions: &'c [Region],
}

/// A configuration in plain values, which need not be right.
#[derive(Clone, Copy, Debug, PartialEq, Eq)]
pub struct Config<'c> {
    /// The machines, at their places: the first has place 0.
    pub machines: &'c [Machine<'c>],
    /// The allocator's region.
    pub pool: Pool,
}

/// The bytes of the counts and of a machine's number.
const COUNT_BYTES: usize = 2;
/// The bytes of a region.
const REGION_BYTES: usize = 25;
/// The bytes of the allocator's region.
const POOL_BYTES: usize = 16;

/// Why a configuration was not written.
#[derive(Clone, Copy, Debug, PartialEq, Eq)]
pub enum NotWritten {
    /// The buffer is too short.
    ShortBuffer(ShortBuffer),
    /// A count has more than its two bytes can say: so many machines, or so many regions of one machine.
    TooMany(usize),
}

impl fmt::Display for NotWritten {
    fn fmt(&self, f: &mut fmt::Formatter) -> fmt::Result {
        match self {
            NotWritten::ShortBuffer(short) => short.fmt(f),
            NotWritten::TooMany(count) => {
                write!(
                    f,
                    "A count of {count} has no room in two bytes. Keep to 64 machines with 32 regions each."
                )
            }
        }
    }
}

impl Config<'_> {
    /// How many bytes it has.
    pub fn bytes_needed(&self) -> usize {
        let of_machine = |machine: &Machine| 2 * COUNT_BYTES + REGION_BYTES * machine.regions.len();
        COUNT_BYTES + self.machines.iter().map(of_machine).sum::<usize>() + POOL_BYTES
    }

    /// Its bytes, written to the front of the buffer.
    ///
    /// ```
    /// use replayframes::config::{check, Config, ConfigRefusal, Machine, Place, Pool};
    /// use replayframes::{Kind, Region};
    ///
    /// let memory = |host| Region { guest: 0, host, pages: 2, kind: Kind::Ordinary };
    /// let machines = [
    ///     Machine { number: 1, regions: &[memory(0x10000)] },
    ///     Machine { number: 2, regions: &[memory(0x11000)] },
    /// ];
    /// let config = Config { machines: &machines, pool: Pool { host: 0x100000, pages: 16 } };
    /// let mut buffer = [0; 128];
    /// let refusal = check(config.encode(&mut buffer).unwrap()).unwrap_err();
    ///
    /// // The second machine's memory starts in the first one's.
    /// let (at, other) = (Place { machine: 0, region: 0 }, Place { machine: 1, region: 0 });
    /// assert_eq!(refusal, ConfigRefusal::HostShared { at, other });
    /// assert!(refusal.to_string().starts_with("At region 0 of machine 0 and region 0 of machine 1: "));
    /// ```
    pub fn encode<'b>(&self, buffer: &'b mut [u8]) -> Result<&'b [u8], NotWritten> {
        let mut writer = Writer::new(buffer, self.bytes_needed()).map_err(NotWritten::ShortBuffer)?;
        writer.put(&count(self.machines.len())?);
        for machine in self.machines {
            writer.put(&machine.number.to_le_bytes());
            writer.put(&count(machine.regions.len())?);
            machine.regions.iter().for_each(|region| put_region(&mut writer, region));
        }
        writer.put(&self.pool.host.to_le_bytes());
        writer.put(&self.pool.pages.to_le_bytes());
        Ok(writer.written())
    }
}

/// The bytes of a count.
fn count(number: usize) -> Result<[u8; COUNT_BYTES], NotWritten> {
    u16::try_from(number).map(u16::to_le_bytes).map_err(|_| NotWritten::TooMany(number))
}

/// Writes the bytes of a region.
fn put_region(writer: &mut Writer, region: &Region) {
    writer.put(&region.guest.to_le_bytes());
    writer.put(&region.host.to_le_bytes());
    writer.put(&region.pages.to_le_bytes());
    writer.put(&[region.kind as u8]);
}

/// A region of a configuration, by the places of its machine and of itself: the first of each has place 0.
#[derive(Clone, Copy, Debug, PartialEq, Eq)]
pub struct Place {
    /// The machine's place.
    pub machine: usize,
    /// The region's place among those of the machine.
    pub region: usize,
}

impl fmt::Display for Place {
    fn fmt(&self, f: &mut fmt::Formatter) -> fmt::Result {
        write!(f, "region {} of machine {}", self.region, self.machine)
    }
}

/// Why a region is not valid: the first of these that applies.
#[derive(Clone, Copy, Debug, PartialEq, Eq)]
pub enum Fault {
    /// It has no page.
    NoPage,
    /// The guest start is no multiple of 4096.
    GuestStart,
    /// The host start is no multiple of 4096.
    HostStart,
    /// The guest end passes 2^64 - 1.
    GuestEnd,
    /// The host end passes 2^64 - 1.
    HostEnd,
    /// A number that this crate has no name for: the archive is newer than the crate.
    Unknown(usize),
}

impl Fault {
    /// The fault that has a number.
    fn from_number(number: usize) -> Fault {
        match number {
            1 => Fault::NoPage,
            2 => Fault::GuestStart,
            3 => Fault::HostStart,
            4 => Fault::GuestEnd,
            5 => Fault::HostEnd,
            _ => Fault::Unknown(number),
        }
    }
}

impl fmt::Display for Fault {
    fn fmt(&self, f: &mut fmt::Formatter) -> fmt::Result {
        match self {
            Fault::NoPage => f.write_str("it has no page"),
            Fault::GuestStart => f.write_str("its guest start is no multiple of 4096"),
            Fault::HostStart => f.write_str("its host start is no multiple of 4096"),
            Fault::GuestEnd => f.write_str("its guest end passes the last address"),
            Fault::HostEnd => f.write_str("its host end passes the last address"),
            Fault::Unknown(number) => write!(f, "fault {number}, which has no name here"),
        }
    }
}

/// Why bytes are no configuration that is right: the first broken rule, and where.
#[derive(Clone, Copy, Debug, PartialEq, Eq)]
#[non_exhaustive]
pub enum ConfigRefusal {
    /// The bytes end in the middle of a field.
    TooShort {
        /// The offset of that field.
        offset: usize,
    },
    /// There are more than 64 machines.
    TooManyMachines,
    /// A machine has more than 32 regions.
    TooManyRegions {
        /// The machine's place.
        machine: usize,
    },
    /// A kind is none of the three.
    UnknownKind {
        /// The region.
        at: Place,
    },
    /// Two machines have the same number.
    SameNumber {
        /// The place of the first.
        machine: usize,
        /// The place of the second.
        other: usize,
    },
    /// A region is not valid.
    NotValid {
        /// The region.
        at: Place,
        /// Why.
        fault: Fault,
    },
    /// The allocator's region is not valid.
    PoolNotValid {
        /// Why.
        fault: Fault,
    },
    /// An ordinary or device region shares host memory with another region.
    HostShared {
        /// The ordinary or device region.
        at: Place,
        /// The other.
        other: Place,
    },
    /// Shared regions of two machines overlap in host memory and do not coincide.
    NotCoinciding {
        /// The first.
        at: Place,
        /// The other.
        other: Place,
    },
    /// Two shared regions of one machine overlap in host memory.
    OneMachine {
        /// The first.
        at: Place,
        /// The other.
        other: Place,
    },
    /// Two regions of one machine overlap in guest memory.
    GuestShared {
        /// The first.
        at: Place,
        /// The other.
        other: Place,
    },
    /// A region shares host memory with the allocator's.
    PoolShared {
        /// The region.
        at: Place,
    },
    /// Bytes are left over.
    LeftOver {
        /// The offset of the first.
        offset: usize,
    },
    /// A code that this crate has no name for: the archive is newer than the crate.
    Unknown {
        /// The code.
        code: u32,
    },
}

impl ConfigRefusal {
    /// The refusal that has a code, and places that four numbers say.
    fn from_code(code: u32, [a, b, c, d]: [usize; 4]) -> ConfigRefusal {
        let (at, other, fellow) = (
            Place { machine: a, region: b },
            Place { machine: c, region: d },
            Place { machine: a, region: c },
        );
        match Refusal::from_code(code) {
            Refusal::TooShort => ConfigRefusal::TooShort { offset: a },
            Refusal::TooManyMachines => ConfigRefusal::TooManyMachines,
            Refusal::TooManyRegions => ConfigRefusal::TooManyRegions { machine: a },
            Refusal::UnknownKind => ConfigRefusal::UnknownKind { at },
            Refusal::SameNumber => ConfigRefusal::SameNumber { machine: a, other: b },
            Refusal::NotValid => ConfigRefusal::NotValid { at, fault: Fault::from_number(c) },
            Refusal::PoolNotValid => ConfigRefusal::PoolNotValid { fault: Fault::from_number(a) },
            Refusal::HostShared => ConfigRefusal::HostShared { at, other },
            Refusal::NotCoinciding => ConfigRefusal::NotCoinciding { at, other },
            Refusal::OneMachine => ConfigRefusal::OneMachine { at, other: fellow },
            Refusal::GuestShared => ConfigRefusal::GuestShared { at, other: fellow },
            Refusal::PoolShared => ConfigRefusal::PoolShared { at },
            Refusal::LeftOver => ConfigRefusal::LeftOver { offset: a },
            _ => ConfigRefusal::Unknown { code },
        }
    }

    /// The rule that is broken, without the place.
    pub fn rule(self) -> Refusal {
        match self {
            ConfigRefusal::TooShort { .. } => Refusal::TooShort,
            ConfigRefusal::TooManyMachines => Refusal::TooManyMachines,
            ConfigRefusal::TooManyRegions { .. } => Refusal::TooManyRegions,
            ConfigRefusal::UnknownKind { .. } => Refusal::UnknownKind,
            ConfigRefusal::SameNumber { .. } => Refusal::SameNumber,
            ConfigRefusal::NotValid { .. } => Refusal::NotValid,
            ConfigRefusal::PoolNotValid { .. } => Refusal::PoolNotValid,
            ConfigRefusal::HostShared { .. } => Refusal::HostShared,
            ConfigRefusal::NotCoinciding { .. } => Refusal::NotCoinciding,
            ConfigRefusal::OneMachine { .. } => Refusal::OneMachine,
            ConfigRefusal::GuestShared { .. } => Refusal::GuestShared,
            ConfigRefusal::PoolShared { .. } => Refusal::PoolShared,
            ConfigRefusal::LeftOver { .. } => Refusal::LeftOver,
            ConfigRefusal::Unknown { code } => Refusal::from_code(code),
        }
    }

    /// The place of the machine that breaks the rule, if a machine does.
    pub fn machine(self) -> Option<usize> {
        match self {
            ConfigRefusal::TooManyRegions { machine } | ConfigRefusal::SameNumber { machine, .. } => {
                Some(machine)
            }
            _ => self.region().map(|at| at.machine),
        }
    }

    /// The region that breaks the rule, if one does.
    pub fn region(self) -> Option<Place> {
        match self {
            ConfigRefusal::UnknownKind { at }
            | ConfigRefusal::NotValid { at, .. }
            | ConfigRefusal::HostShared { at, .. }
            | ConfigRefusal::NotCoinciding { at, .. }
            | ConfigRefusal::OneMachine { at, .. }
            | ConfigRefusal::GuestShared { at, .. }
            | ConfigRefusal::PoolShared { at } => Some(at),
            _ => None,
        }
    }

    /// The other region that the rule is broken with, if there is one.
    pub fn other_region(self) -> Option<Place> {
        match self {
            ConfigRefusal::HostShared { other, .. }
            | ConfigRefusal::NotCoinciding { other, .. }
            | ConfigRefusal::OneMachine { other, .. }
            | ConfigRefusal::GuestShared { other, .. } => Some(other),
            _ => None,
        }
    }

    /// Says where the rule is broken.
    fn say_where(self, f: &mut fmt::Formatter) -> fmt::Result {
        match self {
            ConfigRefusal::TooShort { offset } | ConfigRefusal::LeftOver { offset } => {
                write!(f, "At byte {offset}: ")
            }
            ConfigRefusal::TooManyRegions { machine } => write!(f, "At machine {machine}: "),
            ConfigRefusal::SameNumber { machine, other } => {
                write!(f, "At machine {machine} and machine {other}: ")
            }
            ConfigRefusal::PoolNotValid { fault } => write!(f, "At the allocator's region, {fault}: "),
            ConfigRefusal::NotValid { at, fault } => write!(f, "At {at}, {fault}: "),
            _ => match (self.region(), self.other_region()) {
                (Some(at), Some(other)) => write!(f, "At {at} and {other}: "),
                (Some(at), None) => write!(f, "At {at}: "),
                (None, _) => Ok(()),
            },
        }
    }
}

impl fmt::Display for ConfigRefusal {
    fn fmt(&self, f: &mut fmt::Formatter) -> fmt::Result {
        self.say_where(f)?;
        self.rule().fmt(f)
    }
}

/// Whether bytes are a configuration that is right; if not, the first rule that is broken, and where.
pub fn check(bytes: &[u8]) -> Result<(), ConfigRefusal> {
    let [mut first, mut second, mut third, mut fourth] = [0; 4];
    match ffi::rf_config_check(bytes, &mut first, &mut second, &mut third, &mut fourth) {
        0 => Ok(()),
        code => Err(ConfigRefusal::from_code(code, [first, second, third, fourth])),
    }
}

/// The table of an accepted configuration, to be looked at.
#[derive(Clone, Copy, Debug)]
pub struct Table<'a> {
    words: &'a [u64],
}

impl<'a> Table<'a> {
    /// The table of these bytes, if they are a configuration that is right, written into
    /// [`TABLE_WORDS`](crate::TABLE_WORDS) words.
    pub fn load(bytes: &[u8], words: &'a mut [u64]) -> Result<Table<'a>, Refusal> {
        done(ffi::rf_config_load(bytes, words))?;
        Ok(Table { words })
    }

    /// The table in a monitor's words.
    pub(crate) fn in_words(words: &'a [u64]) -> Table<'a> {
        Table { words }
    }

    /// How many machines there are.
    pub fn machine_count(self) -> Result<usize, Refusal> {
        number_by(|count| ffi::rf_config_machines(self.words, count)).map(|count| count as usize)
    }

    /// The number of the machine at a place.
    pub fn number(self, place: usize) -> Result<u64, Refusal> {
        number_by(|number| ffi::rf_config_number(self.words, place as u64, number))
    }

    /// The numbers of all machines, by their places.
    pub fn numbers(self) -> impl Iterator<Item = Result<u64, Refusal>> + 'a {
        each(Refusal::NoMachine, move |place| self.number(place as usize))
    }

    /// The place of the machine that has a number.
    pub fn place(self, number: u64) -> Result<usize, Refusal> {
        for (place, found) in self.numbers().enumerate() {
            if found? == number {
                return Ok(place);
            }
        }
        Err(Refusal::NoMachine)
    }

    /// How many regions the machine at a place is given.
    pub fn region_count(self, place: usize) -> Result<usize, Refusal> {
        number_by(|count| ffi::rf_config_regions(self.words, place as u64, count)).map(|count| count as usize)
    }

    /// A region that the machine at a place is given, by its own place.
    pub fn region(self, place: usize, i: usize) -> Result<Region, Refusal> {
        region_by(|guest, host, pages, kind| {
            ffi::rf_config_region(self.words, place as u64, i as u64, guest, host, pages, kind)
        })
    }

    /// The regions that the machine at a place is given.
    pub fn regions(self, place: usize) -> impl Iterator<Item = Result<Region, Refusal>> + 'a {
        each(Refusal::NoRegion, move |i| self.region(place, i as usize))
    }

    /// The allocator's region.
    pub fn pool(self) -> Result<Pool, Refusal> {
        let mut pages = 0;
        let host = number_by(|host| ffi::rf_config_pool(self.words, host, &mut pages))?;
        Ok(Pool { host, pages })
    }
}
