//! What calls and sequences of calls are answered with, read from the words that were lent for it.
use crate::request::{has_address, HEADER_BYTES, LIST, REQUEST_BYTES};
use crate::Refusal;
use core::fmt;

/// How many words the answers to a call or to a sequence need, by the length of its bytes.
pub fn answers_for(bytes: usize) -> usize {
    2 * (bytes / REQUEST_BYTES)
}

/// How many words the replies to a sequence need, by the length of its bytes.
pub fn replies_for(bytes: usize) -> usize {
    3 * (bytes / HEADER_BYTES)
}

/// What a call is answered with that was done.
#[derive(Clone, Debug)]
pub enum Reply<'b> {
    /// To one request: the address, if it has one.
    One(Option<u64>),
    /// To a list: the answers to its members, in their order.
    List(Answers<'b>),
}

/// Why a call was not done.
#[derive(Clone, Copy, Debug, PartialEq, Eq)]
pub struct CallRefusal {
    /// The reason.
    pub refusal: Refusal,
    /// The member of a list that is refused or malformed, counted from 0, where it is one member's.
    pub member: Option<usize>,
}

impl fmt::Display for CallRefusal {
    fn fmt(&self, f: &mut fmt::Formatter) -> fmt::Result {
        match self.member {
            Some(member) => write!(f, "Member {member} of the list (the first is 0): {}", self.refusal),
            None => self.refusal.fmt(f),
        }
    }
}

/// Why a sequence of calls was not begun.
#[derive(Clone, Copy, Debug, PartialEq, Eq)]
pub struct RunRefusal {
    /// The reason.
    pub refusal: Refusal,
    /// The offset of the item that is not whole, where one is not.
    pub offset: Option<usize>,
}

impl fmt::Display for RunRefusal {
    fn fmt(&self, f: &mut fmt::Formatter) -> fmt::Result {
        match self.offset {
            Some(offset) => write!(f, "At byte {offset} of the sequence: {}", self.refusal),
            None => self.refusal.fmt(f),
        }
    }
}

/// The three words that answer a call.
pub(crate) struct Told {
    pub(crate) code: u32,
    pub(crate) index: u64,
    pub(crate) address: u64,
}

impl Told {
    /// The same as a reply to the call that has these bytes.
    pub(crate) fn read<'b>(self, call: &'b [u8], answers: &'b [u64]) -> Result<Reply<'b>, CallRefusal> {
        let is_list = call.first() == Some(&LIST);
        let refusal = Refusal::from_code(self.code);
        match self.code {
            0 if is_list => {
                Ok(Reply::List(Answers { members: &call[1..], words: &answers[..answers_for(call.len())] }))
            }
            0 => Ok(Reply::One(Some(self.address).filter(|_| has_address(call)))),
            _ => {
                let is_of_member = is_list && !matches!(refusal, Refusal::FewWords | Refusal::Spare);
                Err(CallRefusal { refusal, member: Some(self.index as usize).filter(|_| is_of_member) })
            }
        }
    }
}

/// The answers to the members of a list that is done, in their order: to each its address, if it has one.
#[derive(Clone, Debug)]
pub struct Answers<'b> {
    members: &'b [u8],
    words: &'b [u64],
}

impl Iterator for Answers<'_> {
    type Item = Option<u64>;

    fn next(&mut self) -> Option<Option<u64>> {
        let member = self.members.get(..REQUEST_BYTES)?;
        let address = *self.words.get(1)?;
        self.members = &self.members[REQUEST_BYTES..];
        self.words = &self.words[2..];
        Some(Some(address).filter(|_| has_address(member)))
    }
}

/// The replies to a sequence of calls, in their order: to each the number of the machine that asked, and what it is
/// told.
#[derive(Clone, Debug)]
pub struct Replies<'b> {
    pub(crate) items: &'b [u8],
    pub(crate) replies: &'b [u64],
    pub(crate) answers: &'b [u64],
}

impl<'b> Iterator for Replies<'b> {
    type Item = (u64, Result<Reply<'b>, CallRefusal>);

    fn next(&mut self) -> Option<Self::Item> {
        let (number, rest) = number_before(self.items)?;
        let (length, rest) = number_before(rest)?;
        let call = rest.get(..length as usize)?;
        let words = self.replies.get(..3)?;
        let told = Told { code: words[0] as u32, index: words[1], address: words[2] };
        let reply = told.read(call, self.answers);
        self.items = &rest[call.len()..];
        self.replies = &self.replies[3..];
        self.answers = &self.answers[answers_for(call.len())..];
        Some((number, reply))
    }
}

/// The number in the first eight bytes, and the bytes behind it.
fn number_before(bytes: &[u8]) -> Option<(u64, &[u8])> {
    let (number, rest) = (bytes.get(..8)?, &bytes[8..]);
    Some((number.iter().rev().fold(0, |number, &byte| number << 8 | u64::from(byte)), rest))
}
