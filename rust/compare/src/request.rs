//! What a bitmap is asked, what it answers, and what an answer changes.

/// One request.
#[derive(Clone, Copy, Debug, PartialEq, Eq)]
pub enum Request {
    Alloc,
    Next(usize),
    Run { size: usize, align_log2: usize },
    Dealloc(usize),
    Insert(usize, usize),
    Remove(usize, usize),
}

/// Why a request is refused. The numbers are the codes of the exported functions.
#[derive(Clone, Copy, Debug, PartialEq, Eq)]
pub enum Reason {
    NotFull = 1,
    NoSize = 2,
    Outside = 3,
    Empty = 4,
    Reversed = 5,
    NoRoom = 6,
    NotTaken = 7,
    Corrupt = 8,
    Unmatched = 9,
    BadBase = 10,
    NoClient = 11,
    Below = 12,
    NotAtFrame = 13,
    NotYours = 14,
    TooMany = 15,
    TooHigh = 16,
    Taken = 17,
    Wrong = 18,
    Unbacked = 19,
    Beyond = 20,
    Dirty = 21,
}

/// An answer.
#[derive(Clone, Copy, Debug, PartialEq, Eq)]
pub enum Answer {
    Done,
    Frame(usize),
    Refused(Reason),
}

impl From<Result<usize, Reason>> for Answer {
    fn from(result: Result<usize, Reason>) -> Answer {
        result.map_or_else(Answer::Refused, Answer::Frame)
    }
}

impl From<Result<(), Reason>> for Answer {
    fn from(result: Result<(), Reason>) -> Answer {
        result.map_or_else(Answer::Refused, |()| Answer::Done)
    }
}

/// The frames from `from` up to `to` become free, or taken.
#[derive(Clone, Copy, Debug, PartialEq, Eq)]
pub struct Change {
    pub from: usize,
    pub to: usize,
    pub free: bool,
}

impl Request {
    /// What this answer to the request changes.
    pub fn change(self, answer: Answer) -> Option<Change> {
        let (from, to, free) = match (self, answer) {
            (Request::Alloc, Answer::Frame(k)) => (k, k + 1, false),
            (Request::Run { size, .. }, Answer::Frame(k)) => (k, k + size, false),
            (Request::Dealloc(k), Answer::Done) => (k, k + 1, true),
            (Request::Insert(from, to), Answer::Done) => (from, to, true),
            (Request::Remove(from, to), Answer::Done) => (from, to, false),
            _ => return None,
        };
        Some(Change { from, to, free })
    }
}

impl Change {
    /// The request that makes this change whatever the frames were.
    pub fn request(self) -> Request {
        if self.free {
            Request::Insert(self.from, self.to)
        } else {
            Request::Remove(self.from, self.to)
        }
    }
}
