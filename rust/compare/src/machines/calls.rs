//! What calls and sequences of calls are answered with: by a subject, whose buffers are exactly as long as
//! they must be and stand between guards, and by the plain model.
use super::bytes::{self, Call, HEADER, LIST, REQUEST};
use super::memory::{any, Memory, Spare, UNWRITTEN};
use super::model::Model;
use super::request::{Answer, Request, BROKEN, FEW_WORDS, MALFORMED, SPARE};
use super::subject::Calls;
use crate::rng::Rng;
use std::fmt::Debug;

/// What a call is answered with: 0 or the number of a reason, what was written behind the pointers, and two
/// words for each member of a list that was done.
#[derive(Clone, Debug, Default, PartialEq, Eq)]
pub struct Reply {
    pub code: u32,
    pub index: Option<u64>,
    pub address: Option<u64>,
    pub answers: Vec<u64>,
}

impl Reply {
    /// To a single request.
    pub fn one(answer: Answer) -> Reply {
        match answer {
            Ok(address) => Reply { address, ..Reply::default() },
            Err(code) => Reply { code, ..Reply::default() },
        }
    }

    /// To a list that was done, with these answers.
    pub fn done(answers: &[Option<u64>]) -> Reply {
        let words = answers.iter().flat_map(|answer| [0, answer.unwrap_or(0)]);
        Reply { answers: words.collect(), ..Reply::default() }
    }

    /// To a list of which this member is refused, or to what is malformed there.
    pub fn no(code: u32, index: usize) -> Reply {
        Reply { code, index: Some(index as u64), ..Reply::default() }
    }

    /// The same as in a sequence, which has a 0 where there is none.
    pub fn in_sequence(self) -> Reply {
        Reply { index: Some(self.index.unwrap_or(0)), address: Some(self.address.unwrap_or(0)), ..self }
    }
}

/// What a sequence is answered with: how many calls it has, or where it is broken, and the reply to each.
#[derive(Clone, Debug, Default, PartialEq, Eq)]
pub struct Ran {
    pub code: u32,
    pub offset: Option<u64>,
    pub replies: Vec<Reply>,
}

impl Model {
    /// Answers a call of the machine that has a number.
    pub fn serve(&mut self, number: u64, bytes: &[u8]) -> Reply {
        match bytes::call(bytes) {
            Err(index) => Reply::no(MALFORMED, index),
            Ok(Call::One(request)) => Reply::one(self.ask(number, request)),
            Ok(Call::List(requests)) => self.list(number, &requests),
        }
    }

    /// Does all requests one after the other, or none.
    fn list(&mut self, number: u64, requests: &[Request]) -> Reply {
        let before = self.clone();
        let mut answers = Vec::new();
        for (i, &request) in requests.iter().enumerate() {
            match self.ask(number, request) {
                Ok(answer) => answers.push(answer),
                Err(code) => {
                    *self = before;
                    return Reply::no(code, i);
                }
            }
        }
        Reply::done(&answers)
    }

    /// Answers a sequence of calls.
    pub fn run(&mut self, bytes: &[u8]) -> Ran {
        match bytes::items(bytes) {
            Err(at) => Ran { code: BROKEN, offset: Some(at as u64), replies: Vec::new() },
            Ok(items) => {
                let replies: Vec<Reply> =
                    items.iter().map(|&(number, call)| self.serve(number, call).in_sequence()).collect();
                Ran { code: 0, offset: Some(replies.len() as u64), replies }
            }
        }
    }
}

/// How many words the answers to a call need.
pub fn answers_for(bytes: &[u8]) -> usize {
    2 * (bytes.len() / REQUEST)
}

/// How many words the replies to a sequence need.
pub fn replies_for(bytes: &[u8]) -> usize {
    3 * (bytes.len() / HEADER)
}

/// How many words the answers to a list's members have, if the call is a list.
fn answered(call: &[u8]) -> usize {
    match call.first() {
        Some(&LIST) => 2 * (call.len() / REQUEST),
        _ => 0,
    }
}

/// What is written behind a pointer, if something is.
fn written(value: u64) -> Option<u64> {
    Some(value).filter(|&value| value != UNWRITTEN)
}

impl Memory {
    /// The reply to a call, with so many words for answers. Nothing but what is lent may change.
    pub fn serve_with<S: Calls>(
        &mut self,
        spare: &mut Spare,
        number: u64,
        bytes: &[u8],
        room: usize,
    ) -> Result<Reply, String> {
        let (mut index, mut address) = (UNWRITTEN, UNWRITTEN);
        let mut answers = any(room, &mut Rng::new(room as u64));
        let words = answers.words_mut();
        let code = S::serve(self.rooms(), spare.rooms(), number, bytes, words, &mut index, &mut address);
        answers.is_kept_around()?;
        spare.is_kept_around()?;
        self.is_kept_around()?;
        let index = if matches!(code, 0 | FEW_WORDS | SPARE) { None } else { written(index) };
        let answers = if code == 0 { answers.words()[..answered(bytes)].to_vec() } else { Vec::new() };
        Ok(Reply { code, index, address: written(address), answers })
    }

    /// The same with exactly as many words as are needed.
    pub fn serve<S: Calls>(&mut self, spare: &mut Spare, number: u64, bytes: &[u8]) -> Result<Reply, String> {
        self.serve_with::<S>(spare, number, bytes, answers_for(bytes))
    }

    /// The replies to a sequence, with so many words for replies and for answers.
    pub fn run_with<S: Calls>(
        &mut self,
        spare: &mut Spare,
        bytes: &[u8],
        rooms: [usize; 2],
    ) -> Result<Ran, String> {
        let mut offset = UNWRITTEN;
        let [mut replies, mut answers] = rooms.map(|room| any(room, &mut Rng::new(room as u64)));
        let (first, second) = (replies.words_mut(), answers.words_mut());
        let code = S::run(self.rooms(), spare.rooms(), bytes, first, second, &mut offset);
        replies.is_kept_around()?;
        answers.is_kept_around()?;
        spare.is_kept_around()?;
        self.is_kept_around()?;
        let offset = if matches!(code, FEW_WORDS | SPARE) { None } else { written(offset) };
        let replies =
            if code == 0 { replies_in(bytes, replies.words(), answers.words())? } else { Vec::new() };
        Ok(Ran { code, offset, replies })
    }

    /// The same with exactly as many words as are needed.
    pub fn run<S: Calls>(&mut self, spare: &mut Spare, bytes: &[u8]) -> Result<Ran, String> {
        self.run_with::<S>(spare, bytes, [replies_for(bytes), answers_for(bytes)])
    }
}

/// The replies that stand in the words of a sequence's replies and answers.
fn replies_in(bytes: &[u8], replies: &[u64], answers: &[u64]) -> Result<Vec<Reply>, String> {
    let items = bytes::items(bytes).map_err(|at| format!("a sequence was run that is broken at {at}"))?;
    let (mut all, mut used) = (Vec::new(), 0);
    for ((_, call), words) in items.iter().zip(replies.chunks_exact(3)) {
        let its = if words[0] == 0 { answered(call) } else { 0 };
        all.push(Reply {
            code: words[0] as u32,
            index: Some(words[1]),
            address: Some(words[2]),
            answers: answers[used..used + its].to_vec(),
        });
        used += answers_for(call);
    }
    Ok(all)
}

/// What is told is what is wanted.
pub fn same<A: PartialEq + Debug>(told: &A, wanted: &A) -> Result<(), String> {
    if told == wanted {
        return Ok(());
    }
    Err(format!("{told:x?}, and not {wanted:x?}"))
}
