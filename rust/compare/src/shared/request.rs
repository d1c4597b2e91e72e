//! What the shared allocator is asked, what it answers, and what an answer changes.
use crate::request::Reason;

/// The bytes of a frame.
pub const FRAME: usize = 4096;
/// The words of a frame's contents.
pub const WORDS: usize = 512;

/// The byte of a frame that no client owns.
pub const NOBODY: u8 = 255;

/// What a frame is.
#[derive(Clone, Copy, Debug, PartialEq, Eq)]
pub enum State {
    Free,
    Reserved,
    Owned(u8),
}

/// A request that may change frames, and `Check`, which tells whether all is in order.
#[derive(Clone, Copy, Debug, PartialEq, Eq)]
pub enum Request {
    /// With contents, the number of frames is theirs and not this one.
    Init {
        n: usize,
    },
    Alloc {
        client: u8,
    },
    Run {
        client: u8,
        size: usize,
        align_log2: usize,
    },
    Dealloc {
        client: u8,
        addr: usize,
    },
    DeallocRun {
        client: u8,
        addr: usize,
        count: usize,
    },
    Insert {
        from: usize,
        to: usize,
    },
    Remove {
        from: usize,
        to: usize,
    },
    ReleaseAll {
        client: u8,
    },
    Check,
}

/// A question that the shared allocator without contents alone has a function for.
#[derive(Clone, Copy, Debug, PartialEq, Eq)]
pub enum Look {
    Fid { addr: usize },
    Paddr { k: usize },
    Owner { k: usize },
    OwnedCount { client: u8 },
}

/// How long the memories are that go with a call: the tree's words, the owners' bytes, the frames' words.
#[derive(Clone, Copy, Debug, PartialEq, Eq)]
pub struct Sizes {
    pub tree: usize,
    pub owners: usize,
    pub words: usize,
}

/// A request or a question with its base and its memories.
#[derive(Clone, Copy, Debug)]
pub struct Call<R> {
    pub request: R,
    pub base: usize,
    pub sizes: Sizes,
}

/// Why a request is refused, and the frame or word at fault where one is named.
#[derive(Clone, Copy, Debug, PartialEq, Eq)]
pub struct Refusal {
    pub reason: Reason,
    pub at: Option<usize>,
}

impl From<Reason> for Refusal {
    fn from(reason: Reason) -> Refusal {
        Refusal { reason, at: None }
    }
}

/// Done, perhaps with a value, or refused.
pub type Answer = Result<Option<usize>, Refusal>;

/// What becomes of frames.
#[derive(Clone, Copy, Debug, PartialEq, Eq)]
pub enum Change {
    /// Those below so many become free, and all others reserved.
    Start(usize),
    /// Those from `from` up to `to` become this.
    Range { from: usize, to: usize, state: State },
    /// Those of a client become free.
    Release(u8),
}

impl Request {
    /// The client that asks, if one does.
    pub fn client(self) -> Option<u8> {
        match self {
            Request::Alloc { client }
            | Request::Run { client, .. }
            | Request::Dealloc { client, .. }
            | Request::DeallocRun { client, .. }
            | Request::ReleaseAll { client } => Some(client),
            _ => None,
        }
    }
}

impl Call<Request> {
    /// What this answer to the request changes.
    pub fn change(&self, answer: Answer) -> Option<Change> {
        let range = |from: usize, count: usize, state| Change::Range { from, to: from + count, state };
        let frame = |addr: usize| (addr - self.base) / FRAME;
        match (self.request, answer.ok()?) {
            (Request::Init { n }, _) => Some(Change::Start(n)),
            (Request::Alloc { client }, addr) => Some(range(frame(addr?), 1, State::Owned(client))),
            (Request::Run { client, size, .. }, addr) => {
                Some(range(frame(addr?), size, State::Owned(client)))
            }
            (Request::Dealloc { addr, .. }, _) => Some(range(frame(addr), 1, State::Free)),
            (Request::DeallocRun { addr, count, .. }, _) => Some(range(frame(addr), count, State::Free)),
            (Request::Insert { from, to }, _) => Some(Change::Range { from, to, state: State::Free }),
            (Request::Remove { from, to }, _) => Some(Change::Range { from, to, state: State::Reserved }),
            (Request::ReleaseAll { client }, _) => Some(Change::Release(client)),
            (Request::Check, _) => None,
        }
    }
}
