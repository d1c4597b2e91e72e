//! A configuration as the tool holds it: what its bytes mean, and beside that the names of machines and regions and
//! the place in the file of each value. It need not be right: the proved check judges that.
use std::fmt;

/// Where a value stands in its file.
#[derive(Clone, Copy, Debug, PartialEq, Eq)]
pub enum Place {
    /// A line of a TOML file, counted from 1.
    Line(usize),
    /// A byte of a compiled file, counted from 0.
    Byte(usize),
}

impl fmt::Display for Place {
    fn fmt(&self, f: &mut fmt::Formatter) -> fmt::Result {
        match self {
            Place::Line(line) => write!(f, "line {line}"),
            Place::Byte(byte) => write!(f, "byte {byte}"),
        }
    }
}

/// A value, and where it stands.
#[derive(Clone, Copy, Debug, PartialEq, Eq)]
pub struct At<T> {
    pub value: T,
    pub place: Place,
}

/// A configuration.
#[derive(Clone, Debug, PartialEq, Eq)]
pub struct Plan {
    pub machines: Vec<Machine>,
    pub pool: Pool,
}

/// A machine, and the regions that it is given.
#[derive(Clone, Debug, PartialEq, Eq)]
pub struct Machine {
    pub name: String,
    pub number: At<u16>,
    pub regions: Vec<Region>,
}

/// A region. The kind is a number, which may be none that there is.
#[derive(Clone, Debug, PartialEq, Eq)]
pub struct Region {
    pub name: String,
    pub guest: At<u64>,
    pub host: At<u64>,
    pub pages: At<u64>,
    pub kind: At<u8>,
}

/// The allocator's region.
#[derive(Clone, Copy, Debug, PartialEq, Eq)]
pub struct Pool {
    pub host: At<u64>,
    pub pages: At<u64>,
}

/// The kinds of regions, by their numbers.
pub const KINDS: [&str; 3] = ["ordinary", "device", "shared"];
/// The number of the kind of regions that several machines may name.
pub const SHARED: u8 = 2;
/// How many machines there may be, and how many regions one may have.
pub const MOST_MACHINES: usize = 64;
pub const MOST_REGIONS: usize = 32;

/// The name of a kind, or its number where there is no such kind.
pub fn kind_name(kind: u8) -> String {
    KINDS.get(usize::from(kind)).map_or_else(|| kind.to_string(), |name| name.to_string())
}

/// The kind that a word names.
pub fn kind_called(word: &str) -> Option<u8> {
    KINDS.iter().position(|&name| name == word).and_then(|kind| u8::try_from(kind).ok())
}

/// What is said of a word that names no kind.
pub fn no_kind(word: &str) -> String {
    format!("`{word}` is no kind: write {}", KINDS.join(", "))
}

impl Plan {
    /// The place in the list of the machine that has a number.
    pub fn place_of(&self, number: u64) -> Option<usize> {
        self.machines.iter().position(|machine| u64::from(machine.number.value) == number)
    }

    /// The place in the list of the machine that has a name.
    pub fn place_called(&self, name: &str) -> Option<usize> {
        self.machines.iter().position(|machine| machine.name == name)
    }

    /// How many slots for regions the machine with the most needs.
    pub fn slots(&self) -> usize {
        self.machines.iter().map(|machine| machine.regions.len()).max().unwrap_or(0)
    }
}

impl Machine {
    /// The region that has a name.
    pub fn region_called(&self, name: &str) -> Option<&Region> {
        self.regions.iter().find(|region| region.name == name)
    }
}

#[cfg(test)]
mod tests {
    use super::{kind_called, kind_name};

    #[test]
    fn kinds_have_names_and_others_their_numbers() {
        assert_eq!([0, 1, 2, 3].map(kind_name), ["ordinary", "device", "shared", "3"]);
        assert_eq!(
            ["ordinary", "device", "shared", "other"].map(kind_called),
            [Some(0), Some(1), Some(2), None]
        );
    }
}
