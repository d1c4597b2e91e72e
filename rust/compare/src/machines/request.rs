//! What a machine asks, what it is answered, and the numbers of the reasons.
use crate::config_plain;

/// A region in any words: a request may name one that is none.
#[derive(Clone, Copy, Debug, PartialEq, Eq)]
pub struct Region {
    pub guest: u64,
    pub host: u64,
    pub pages: u64,
    pub kind: u64,
}

/// The kind of regions that may coincide.
pub const SHARED: u64 = 2;

impl Region {
    /// The region in four words.
    pub fn of(words: &[u64]) -> Region {
        Region { guest: words[0], host: words[1], pages: words[2], kind: words[3] }
    }

    /// Its four words.
    pub fn words(self) -> [u64; 4] {
        [self.guest, self.host, self.pages, self.kind]
    }
}

impl From<config_plain::Region> for Region {
    fn from(region: config_plain::Region) -> Region {
        let config_plain::Region { guest, host, pages, kind } = region;
        Region { guest, host, pages, kind: u64::from(kind) }
    }
}

/// Which of a machine's two sets of regions.
#[derive(Clone, Copy, Debug, PartialEq, Eq)]
pub enum Which {
    Processors,
    Devices,
}

/// Both sets.
pub const BOTH: [Which; 2] = [Which::Processors, Which::Devices];

/// One request. Who asks is no part of it.
#[derive(Clone, Copy, Debug, PartialEq, Eq)]
pub enum Request {
    AddZone,
    RemoveZone,
    /// With all its regions and frames.
    RemoveZoneWhole,
    Insert(Which, Region),
    Remove(Which, Region),
    /// The set is named by a number, which may be none's.
    Translate {
        which: u64,
        addr: u64,
    },
    Alloc,
    Run {
        size: usize,
        align_log2: usize,
    },
    Dealloc {
        addr: usize,
    },
    DeallocRun {
        addr: usize,
        count: usize,
    },
}

/// Done, perhaps with an address, or the number of the reason.
pub type Answer = Result<Option<u64>, u32>;

/// An answer in words.
pub fn said(answer: Answer) -> String {
    match answer {
        Ok(None) => "done".to_string(),
        Ok(Some(addr)) => format!("answered {addr:#x}"),
        Err(reason) => format!("refused with {reason}"),
    }
}

/// The reasons of requests.
pub const OUTSIDE: u32 = 3;
pub const NO_FRAMES: u32 = 4;
pub const NO_ROOM: u32 = 6;
pub const NOT_TAKEN: u32 = 7;
pub const CORRUPT: u32 = 8;
pub const BELOW: u32 = 12;
pub const NOT_AT_FRAME: u32 = 13;
pub const NOT_YOURS: u32 = 14;
pub const NO_MACHINE: u32 = 48;
pub const PRESENT: u32 = 49;
pub const NOT_PRESENT: u32 = 50;
pub const NOT_EMPTY: u32 = 51;
pub const NOT_GIVEN: u32 = 52;
pub const OVERLAP: u32 = 53;
pub const NOT_IN_SET: u32 = 54;
pub const NOT_MAPPED: u32 = 55;
pub const NO_KIND: u32 = 56;
pub const NO_SET: u32 = 57;

/// The reasons of calls and sequences, beside those of their requests.
pub const MALFORMED: u32 = 62;
pub const BROKEN: u32 = 63;
pub const FEW_WORDS: u32 = 64;
pub const SPARE: u32 = 65;

/// The reasons of a start, beside those of the configuration, 32 to 44.
pub const NOT_FULL: u32 = 1;
pub const UNMATCHED: u32 = 9;
pub const UNBACKED: u32 = 19;
pub const NO_TABLE: u32 = 45;
pub const NO_ZONES: u32 = 58;
pub const FEW_SLOTS: u32 = 59;
pub const FEW_FRAMES: u32 = 60;
pub const FEW_PAGES: u32 = 61;

/// Every reason for which sound memories refuse a request.
pub const REASONS: [u32; 17] = [
    OUTSIDE,
    NO_FRAMES,
    NO_ROOM,
    NOT_TAKEN,
    BELOW,
    NOT_AT_FRAME,
    NOT_YOURS,
    NO_MACHINE,
    PRESENT,
    NOT_PRESENT,
    NOT_EMPTY,
    NOT_GIVEN,
    OVERLAP,
    NOT_IN_SET,
    NOT_MAPPED,
    NO_KIND,
    NO_SET,
];
