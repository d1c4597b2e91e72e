//! Why something was not done: a name and a text for every code of the exported functions.
use core::fmt;

/// Makes the enum of refusals of one list: the name, the code, what was wrong, and what to do.
macro_rules! refusals {
    ($($name:ident = $code:literal: $wrong:literal, $advice:literal;)*) => {
        /// Why something was not done. A refusal changes nothing.
        ///
        /// It is shown as a sentence that says what was wrong, and one that says what to do.
        #[derive(Clone, Copy, Debug, PartialEq, Eq, Hash)]
        #[non_exhaustive]
        pub enum Refusal {
            $(#[doc = concat!("Code ", $code, ": ", $wrong, ". ", $advice, ".")] $name,)*
            /// A code that this crate has no name for: the archive is newer than the crate.
            Unknown(u32),
        }

        impl Refusal {
            /// Every refusal that has a name, by its code.
            pub const ALL: &'static [Refusal] = &[$(Refusal::$name),*];

            /// The code by which the exported functions say it.
            pub fn code(self) -> u32 {
                match self {
                    $(Refusal::$name => $code,)*
                    Refusal::Unknown(code) => code,
                }
            }

            /// The refusal that has a code.
            pub fn from_code(code: u32) -> Refusal {
                match code {
                    $($code => Refusal::$name,)*
                    _ => Refusal::Unknown(code),
                }
            }
        }

        impl fmt::Display for Refusal {
            fn fmt(&self, f: &mut fmt::Formatter) -> fmt::Result {
                match self {
                    $(Refusal::$name => f.write_str(concat!($wrong, ". ", $advice, ".")),)*
                    Refusal::Unknown(code) => {
                        write!(f, "The code {code} has no name here. Use the crate that belongs to the archive.")
                    }
                }
            }
        }
    };
}

refusals! {
    NotFull = 1: "The tree's words are not as many as a full tree has",
        "Lend as many as `to_lend` says";
    NoSize = 2: "No tree has so many frames",
        "Ask for at most 2^52";
    Outside = 3: "There is no such frame",
        "Name frames of the allocator's region";
    Empty = 4: "No frame is asked for",
        "Name at least one";
    Reversed = 5: "The range ends before it starts",
        "Name its lower end first";
    NoRoom = 6: "Nothing is free that is so long and so aligned",
        "Give something back, or ask for less";
    NotTaken = 7: "The frame is free already",
        "Give back only what was allocated";
    Corrupt = 8: "The memories contradict themselves",
        "Stop: somebody else wrote them; start anew from a configuration";
    Unmatched = 9: "There are not as many bytes of owners as frames",
        "Lend as many as `to_lend` says";
    BadBase = 10: "The base is no multiple of 4096",
        "Let the first frame start at a page";
    NoClient = 11: "There is no such client",
        "Name one from 0 to 63";
    Below = 12: "The address is below the first frame",
        "Name an address that was allocated";
    NotAtFrame = 13: "The address is not the first of a frame",
        "Name a multiple of 4096 that was allocated";
    NotYours = 14: "The frame is another machine's, or reserved",
        "Give back only what is the asker's own";
    TooMany = 15: "There are not so many frames",
        "Ask for fewer";
    TooHigh = 16: "A frame would end behind the last address",
        "Choose a lower base, or fewer frames";
    Taken = 17: "A client owns the frame",
        "Let it be given back first";
    Wrong = 18: "A frame's bit and its byte contradict each other",
        "Stop: somebody else wrote the memories";
    Unbacked = 19: "The frames' words are not those of whole frames",
        "Lend 512 words for each, and not for more than there are";
    Beyond = 20: "The frame has no words of its own",
        "Lend more, or name a lower frame";
    Dirty = 21: "A free frame is not empty",
        "Stop: somebody wrote to memory that no machine owns";
    TooShort = 32: "The configuration ends in the middle of a field",
        "Write it whole";
    TooManyMachines = 33: "The configuration has more than 64 machines",
        "Leave some out";
    TooManyRegions = 34: "A machine has more than 32 regions",
        "Join some of them, or leave some out";
    UnknownKind = 35: "A region's kind is none",
        "Use 0 (ordinary), 1 (device) or 2 (shared)";
    SameNumber = 36: "Two machines have the same number",
        "Give one of them another";
    NotValid = 37: "A region is not valid",
        "It needs a page, starts at multiples of 4096, and ends below 2^64";
    PoolNotValid = 38: "The allocator's region is not valid",
        "It needs a page, a start at a multiple of 4096, and an end below 2^64";
    HostShared = 39: "A region shares host memory with another and is not of the shared kind",
        "Move one of them, or make both shared and the same";
    NotCoinciding = 40: "Two shared regions overlap and do not coincide",
        "Give both the same host start and pages, or move one";
    OneMachine = 41: "Two shared regions of one machine overlap in host memory",
        "Leave one out, or move it";
    GuestShared = 42: "Two regions of one machine overlap in guest memory",
        "Move one of them";
    PoolShared = 43: "A region shares host memory with the allocator's",
        "Move one of them";
    LeftOver = 44: "Bytes are left over behind the configuration",
        "Leave them out";
    NoTable = 45: "The table's words are not as many as a table has",
        "Lend 8325";
    NoMachine = 48: "No machine of the configuration has the number",
        "Ask by a number of the configuration";
    Present = 49: "The machine is there already",
        "Add a machine once";
    NotPresent = 50: "The machine is not there",
        "Add it first";
    NotEmpty = 51: "The machine still has a region or a frame",
        "Let it give all back, or remove it whole";
    NotGiven = 52: "The configuration does not give the machine that region",
        "Ask for one that is the same in every field";
    Overlap = 53: "The region overlaps one of the set in guest memory",
        "Remove that one first";
    NotInSet = 54: "That very region is not in the set",
        "Name one that was inserted, the same in every field";
    NotMapped = 55: "No region of the set has the guest address",
        "Insert the region that has it first";
    NoKind = 56: "There is no such kind of region",
        "Use 0 (ordinary), 1 (device) or 2 (shared)";
    NoSet = 57: "There is no such set",
        "Use 0 (the processors') or 1 (the devices')";
    Zones = 58: "The machines' words are not as many as any number of slots gives",
        "Lend as many as `to_lend` says";
    FewSlots = 59: "A machine is given more regions than a set has slots",
        "Lend words for more slots";
    PoolTooLarge = 60: "The allocator's region has more pages than the tree has frames",
        "Lend a larger tree, or choose a smaller region";
    FramesTooMany = 61: "More frames have words than the allocator's region has pages",
        "Lend fewer of the frames' words";
    Malformed = 62: "The bytes mean no request",
        "Write them as docs/FORMAT.md says";
    Broken = 63: "The bytes are no sequence of calls",
        "Write each item whole: number, length, call";
    FewWords = 64: "Too few words are lent for replies or answers",
        "Lend 2 for each 33 bytes, and 3 for each 16 of a sequence";
    Spare = 65: "The spare memory is not as long as what it is to hold",
        "Lend spare memory of the same lengths";
    NoRegion = 66: "There is no such region",
        "Count those that there are first";
    ManyMachines = 67: "There are more machines than a configuration has",
        "Ask for at most 64";
    ManySlots = 68: "There are more slots than a machine has regions",
        "Ask for at most 32";
}

/// What a code of an exported function says: 0 is done.
pub(crate) fn done(code: u32) -> Result<(), Refusal> {
    match code {
        0 => Ok(()),
        _ => Err(Refusal::from_code(code)),
    }
}
