//! The five memories of a configuration's machines, each lent with something on both sides, and how they
//! are asked.
use super::model::Plan;
use super::request::{Answer, Request};
use super::subject::{ask, Machines, Rooms, SpareRooms};
use crate::lent::{Cell, Lent};
use crate::rng::Rng;
use crate::shared::request::WORDS;

/// The words of a configuration's table.
pub const TABLE: usize = 8325;
/// Stands behind the pointer before a call. No answer is this: no region ends behind it.
pub const UNWRITTEN: u64 = u64::MAX;

/// How long the memories are.
#[derive(Clone, Copy, Debug, PartialEq, Eq)]
pub struct Sizes {
    pub table: usize,
    pub zones: usize,
    pub tree: usize,
    pub owners: usize,
    pub words: usize,
}

impl Sizes {
    /// Those that go with a plan.
    pub fn of(plan: &Plan) -> Sizes {
        Sizes {
            table: TABLE,
            zones: plan.config.machines.len() * (3 + 8 * plan.slots),
            tree: (plan.frames - 1) / 15,
            owners: plan.frames,
            words: WORDS * plan.usable,
        }
    }
}

/// What memories hold, to be looked at.
#[derive(Clone, Copy)]
pub struct View<'a> {
    pub table: &'a [u64],
    pub zones: &'a [u64],
    pub tree: &'a [u16],
    pub owners: &'a [u8],
    pub words: &'a [u64],
}

/// The memories.
#[derive(Clone)]
pub struct Memory {
    pub table: Lent<u64>,
    pub zones: Lent<u64>,
    pub tree: Lent<u16>,
    pub owners: Lent<u8>,
    pub words: Lent<u64>,
}

/// The spare memories that are lent with a call.
#[derive(Clone)]
pub struct Spare {
    pub zones: Lent<u64>,
    pub tree: Lent<u16>,
    pub owners: Lent<u8>,
}

impl Spare {
    /// Spare memories for memories of these lengths, which hold anything.
    pub fn any(sizes: Sizes, rng: &mut Rng) -> Spare {
        Spare { zones: any(sizes.zones, rng), tree: any(sizes.tree, rng), owners: any(sizes.owners, rng) }
    }

    /// The memories, to be lent.
    pub fn rooms(&mut self) -> SpareRooms<'_> {
        SpareRooms {
            zones: self.zones.words_mut(),
            tree: self.tree.words_mut(),
            owners: self.owners.words_mut(),
        }
    }

    /// What stands around them is as it was.
    pub fn is_kept_around(&self) -> Result<(), String> {
        self.zones.is_kept_around()?;
        self.tree.is_kept_around()?;
        self.owners.is_kept_around()
    }
}

/// So many random words or bytes.
pub fn any<T: Cell>(len: usize, rng: &mut Rng) -> Lent<T> {
    let words: Vec<T> = (0..len).map(|_| T::of_bits(rng.bits())).collect();
    Lent::new(&words, rng)
}

impl Memory {
    /// Memories of these lengths that hold anything.
    pub fn any(sizes: Sizes, rng: &mut Rng) -> Memory {
        Memory {
            table: any(sizes.table, rng),
            zones: any(sizes.zones, rng),
            tree: any(sizes.tree, rng),
            owners: any(sizes.owners, rng),
            words: any(sizes.words, rng),
        }
    }

    /// How long they are.
    pub fn sizes(&self) -> Sizes {
        Sizes {
            table: self.table.words().len(),
            zones: self.zones.words().len(),
            tree: self.tree.words().len(),
            owners: self.owners.words().len(),
            words: self.words.words().len(),
        }
    }

    /// Starts a configuration's machines in them.
    pub fn start<S: Machines>(&mut self, bytes: &[u8]) -> u32 {
        S::start(
            bytes,
            self.table.words_mut(),
            self.zones.words_mut(),
            self.tree.words_mut(),
            self.owners.words_mut(),
            self.words.words_mut(),
        )
    }

    /// The answer to the request of the machine that has a number. A refusal must not write a value.
    pub fn ask<S: Machines>(&mut self, number: u64, request: Request) -> Answer {
        let mut value = UNWRITTEN;
        let code = ask::<S>(self.rooms(), number, request, &mut value);
        match (code, value) {
            (0, UNWRITTEN) => Ok(None),
            (0, value) => Ok(Some(value)),
            (_, UNWRITTEN) => Err(code),
            _ => panic!("a refusal wrote {value}"),
        }
    }

    /// The memories, to do requests in.
    pub fn rooms(&mut self) -> Rooms<'_> {
        Rooms {
            table: self.table.words(),
            zones: self.zones.words_mut(),
            tree: self.tree.words_mut(),
            owners: self.owners.words_mut(),
            words: self.words.words_mut(),
        }
    }

    /// What they hold.
    pub fn view(&self) -> View<'_> {
        View {
            table: self.table.words(),
            zones: self.zones.words(),
            tree: self.tree.words(),
            owners: self.owners.words(),
            words: self.words.words(),
        }
    }

    /// What the check answers.
    pub fn check<S: Machines>(&self) -> u32 {
        let View { table, zones, tree, owners, words } = self.view();
        S::check(table, zones, tree, owners, words)
    }

    /// What stands around all memories is as it was.
    pub fn is_kept_around(&self) -> Result<(), String> {
        self.table.is_kept_around()?;
        self.zones.is_kept_around()?;
        self.tree.is_kept_around()?;
        self.owners.is_kept_around()?;
        self.words.is_kept_around()
    }

    /// Every word and byte is as in the other.
    pub fn same_as(&self, other: &Memory) -> Result<(), String> {
        let named = |name: &str, kept: Result<(), String>| kept.map_err(|fault| format!("{name}: {fault}"));
        named("the table", self.table.same_as(other.table.words()))?;
        named("the zones", self.zones.same_as(other.zones.words()))?;
        named("the tree", self.tree.same_as(other.tree.words()))?;
        named("the owners", self.owners.same_as(other.owners.words()))?;
        named("the frames' words", self.words.same_as(other.words.words()))
    }
}
