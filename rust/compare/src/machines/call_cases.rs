//! Calls and sequences whose replies are known beforehand, on the truck: replay owns the frames 0 to 3,
//! graphics the frames 4 to 6, something is written in each, and three are free. Whatever is refused leaves
//! every word and byte.
use super::bytes::{of_items, of_list, of_request, LIST, REQUEST};
use super::calls::{answers_for, replies_for, same, Ran, Reply};
use super::configs::truck;
use super::memory::{Sizes, Spare};
use super::request::{
    Request, Which, BELOW, BROKEN, FEW_WORDS, MALFORMED, NOT_PRESENT, NOT_YOURS, NO_ROOM, SPARE,
};
use super::subject::Calls;
use super::truck::{back_one, Known, GRAPHICS, POOL, REPLAY};
use crate::shared::request::WORDS;
use std::ops::Range;

/// A case, which says what it saw.
type Case = fn() -> Result<String, String>;

/// Every case, by its name.
pub fn all<S: Calls>() -> [(&'static str, Case); 12] {
    [
        ("thirty of which the nineteenth finds no frame", thirty::<S>),
        ("a frame given back and taken again", taken_again::<S>),
        ("a machine goes whole and comes back", comes_back::<S>),
        ("a malformed member behind one that is refused", malformed_first::<S>),
        ("a list in a list", nested::<S>),
        ("a member that is cut off", cut_off::<S>),
        ("lists of no member and calls of no bytes", empty::<S>),
        ("too few words or too little spare memory", too_short::<S>),
        ("a sequence and its calls one by one", sequence::<S>),
        ("a malformed call in a sequence", malformed_call::<S>),
        ("sequences that are broken", broken::<S>),
        ("a sequence with too few words or too little spare memory", sequence_too_short::<S>),
    ]
}

/// The address of frame k.
fn frame(k: u64) -> u64 {
    (POOL + k) << 12
}

impl<S: Calls> Known<S> {
    /// The truck at work.
    fn at_work() -> Result<Known<S>, String> {
        let mut truck = Known::<S>::new(&truck())?;
        truck.done(REPLAY, Request::AddZone)?;
        truck.done(GRAPHICS, Request::AddZone)?;
        truck.run(REPLAY, 4, 0, 0)?;
        truck.run(GRAPHICS, 3, 0, 4)?;
        for k in 0..7 {
            truck.trial.write(k, &mut truck.rng, &mut truck.tally);
        }
        Ok(truck)
    }

    /// A call that must be replied to so.
    fn call(&mut self, number: u64, bytes: &[u8], wanted: Reply) -> Result<(), String> {
        let reply = self.trial.call(number, bytes, &mut self.tally)?;
        self.trial.look_at_all(&mut self.tally)?;
        same(&reply, &wanted)
    }

    /// A call that must be refused so where these words and this spare memory are lent, with nothing changed.
    fn call_with(&mut self, bytes: &[u8], room: usize, sizes: Sizes, code: u32) -> Result<(), String> {
        let memory = &mut self.trial.memory;
        let (before, mut spare) = (memory.clone(), Spare::any(sizes, &mut self.rng));
        let reply = memory.serve_with::<S>(&mut spare, REPLAY, bytes, room)?;
        same(&reply, &Reply::one(Err(code)))?;
        memory.same_as(&before)
    }

    /// A sequence that must be replied to so, with nothing changed where it is refused.
    fn sequence(&mut self, bytes: &[u8], wanted: Ran) -> Result<(), String> {
        let (before, trial) = (self.trial.memory.clone(), &mut self.trial);
        let ran = trial.memory.run::<S>(&mut trial.spare, bytes)?;
        same(&ran, &wanted)?;
        if ran.code != 0 {
            return trial.memory.same_as(&before);
        }
        same(&trial.model.run(bytes), &wanted)?;
        trial.look_at_all(&mut self.tally)
    }

    /// The same for words and spare memory that are too short.
    fn sequence_with(
        &mut self,
        bytes: &[u8],
        rooms: [usize; 2],
        sizes: Sizes,
        code: u32,
    ) -> Result<(), String> {
        let memory = &mut self.trial.memory;
        let (before, mut spare) = (memory.clone(), Spare::any(sizes, &mut self.rng));
        let ran = memory.run_with::<S>(&mut spare, bytes, rooms)?;
        same(&ran, &Ran { code, ..Ran::default() })?;
        memory.same_as(&before)
    }

    /// Whether these frames are all zero.
    fn are_empty(&self, frames: Range<usize>) -> bool {
        let words = &self.trial.memory.words.words()[WORDS * frames.start..WORDS * frames.end];
        words.iter().all(|&word| word == 0)
    }
}

/// A fault, where something is not so.
fn so(is_so: bool, fault: &str) -> Result<(), String> {
    if is_so {
        return Ok(());
    }
    Err(fault.to_string())
}

/// Thirty members: regions enter both sets, two frames are given back, addresses are translated, and the five
/// frames that are free then are taken; the nineteenth finds none, and everything is as it was.
fn thirty<S: Calls>() -> Result<String, String> {
    let mut truck = Known::<S>::at_work()?;
    let translation = Request::Translate { which: 0, addr: 0x100_0123 };
    let mut members = Vec::new();
    for which in [Which::Processors, Which::Devices] {
        members.extend((0..3).map(|i| Request::Insert(which, truck.region(REPLAY, i))));
    }
    members.extend([back_one(0, 0), back_one(1, 0)]);
    members.extend([translation; 5]);
    members.extend([Request::Alloc; 6]);
    members.extend([translation; 11]);
    so(members.len() == 30, "not thirty")?;
    truck.call(REPLAY, &of_list(&members), Reply::no(NO_ROOM, 18))?;
    so(!(0..7).any(|k| truck.are_empty(k..k + 1)), "a frame was cleared")?;
    truck.call(REPLAY, &of_list(&members[..18]), eighteen())?;
    so(truck.are_empty(0..2), "a frame that was taken again is not empty")?;
    Ok("refused with every word and byte kept, and the eighteen before it are done alone".to_string())
}

/// What the first eighteen of the thirty are answered with.
fn eighteen() -> Reply {
    let found = [Some(0x90_0123); 5];
    let taken = [0, 1, 7, 8, 9].map(|k| Some(frame(k)));
    Reply::done(&[&[None; 8][..], &found, &taken].concat())
}

/// A frame that is given back and taken again in one list is all zero.
fn taken_again<S: Calls>() -> Result<String, String> {
    let mut truck = Known::<S>::at_work()?;
    so(!truck.are_empty(0..1), "nothing was written")?;
    let members = [back_one(0, 0), Request::Alloc];
    truck.call(REPLAY, &of_list(&members), Reply::done(&[None, Some(frame(0))]))?;
    so(truck.are_empty(0..1), "the frame is not empty")?;
    so(!truck.are_empty(1..2), "another frame was cleared")?;
    truck.call(REPLAY, &of_list(&[back_one(1, 0), back_one(4, 0)]), Reply::no(NOT_YOURS, 1))?;
    so(!truck.are_empty(1..2), "a frame of a refused list was cleared")?;
    Ok("it comes back all 0, and one that a refused list gave back keeps its words".to_string())
}

/// A machine goes with all it has, comes back and takes its frames again, which are all zero.
fn comes_back<S: Calls>() -> Result<String, String> {
    let mut truck = Known::<S>::at_work()?;
    let take = Request::Run { size: 4, align_log2: 2 };
    let members = [Request::RemoveZoneWhole, Request::AddZone, take, Request::RemoveZone];
    truck.call(REPLAY, &of_list(&[Request::RemoveZoneWhole, take]), Reply::no(NOT_PRESENT, 1))?;
    so(!truck.are_empty(0..4), "a frame of a refused list was cleared")?;
    let reply = Reply::done(&[None, None, Some(frame(0))]);
    truck.call(REPLAY, &of_list(&members[..3]), reply)?;
    so(truck.are_empty(0..4), "its frames are not empty")?;
    so(!truck.are_empty(4..5), "another machine's frame was cleared")?;
    truck.call(REPLAY, &of_request(Request::RemoveZoneWhole), Reply::default())?;
    Ok("its frames are all 0 when it has them again".to_string())
}

/// The bytes of a request with another operation.
fn with_operation(request: Request, operation: u8) -> Vec<u8> {
    let mut bytes = of_request(request);
    bytes[0] = operation;
    bytes
}

/// All members are read before one is done.
fn malformed_first<S: Calls>() -> Result<String, String> {
    let mut truck = Known::<S>::at_work()?;
    let refused = of_list(&[Request::Alloc, back_one(4, 0)]);
    truck.call(REPLAY, &refused, Reply::no(NOT_YOURS, 1))?;
    let unknown = with_operation(Request::Alloc, 12);
    truck.call(REPLAY, &[refused.clone(), unknown.clone()].concat(), Reply::no(MALFORMED, 2))?;
    let mut number = of_request(Request::Alloc);
    number[REQUEST - 1] = 1;
    let both = [refused, number, unknown].concat();
    truck.call(REPLAY, &both, Reply::no(MALFORMED, 2))?;
    Ok("the malformed member is the answer, the lowest of two".to_string())
}

/// A member that is a list is malformed.
fn nested<S: Calls>() -> Result<String, String> {
    let mut truck = Known::<S>::at_work()?;
    let inner = with_operation(Request::Alloc, LIST);
    let bytes = [of_list(&[Request::Alloc; 2]), inner.clone(), of_request(Request::Alloc)].concat();
    truck.call(REPLAY, &bytes, Reply::no(MALFORMED, 2))?;
    truck.call(REPLAY, &[vec![LIST], inner.clone()].concat(), Reply::no(MALFORMED, 0))?;
    truck.call(REPLAY, &inner, Reply::no(MALFORMED, 0))?;
    Ok("it is malformed".to_string())
}

/// A remainder of a list that is no whole member is one that is malformed.
fn cut_off<S: Calls>() -> Result<String, String> {
    let mut truck = Known::<S>::at_work()?;
    let bytes = of_list(&[Request::Alloc; 3]);
    for left in 1..REQUEST {
        truck.call(REPLAY, &bytes[..1 + 2 * REQUEST + left], Reply::no(MALFORMED, 2))?;
    }
    let taken = [7, 8].map(|k| Some(frame(k)));
    truck.call(REPLAY, &bytes[..1 + 2 * REQUEST], Reply::done(&taken))?;
    Ok("each length of it is malformed".to_string())
}

/// A list of no member is done; a call that is neither a request nor a list is malformed, and so is one of no
/// bytes.
fn empty<S: Calls>() -> Result<String, String> {
    let mut truck = Known::<S>::at_work()?;
    truck.call(REPLAY, &[LIST], Reply::default())?;
    truck.call(POOL, &[LIST], Reply::default())?;
    truck.call(REPLAY, &[], Reply::no(MALFORMED, 0))?;
    let request = of_request(Request::Alloc);
    truck.call(REPLAY, &request[..REQUEST - 1], Reply::no(MALFORMED, 0))?;
    truck.call(REPLAY, &[request.clone(), vec![0]].concat(), Reply::no(MALFORMED, 0))?;
    truck.call(REPLAY, &request, Reply::one(Ok(Some(frame(7)))))?;
    truck.call(REPLAY, &of_request(Request::Dealloc { addr: 0 }), Reply::one(Err(BELOW)))?;
    Ok("the list is done, and the others are malformed".to_string())
}

/// The lengths of spare memories of which one is too short by one.
fn short(right: Sizes) -> [Sizes; 3] {
    [
        Sizes { zones: right.zones - 1, ..right },
        Sizes { tree: right.tree - 1, ..right },
        Sizes { owners: right.owners - 1, ..right },
    ]
}

/// Answers that are short by a word, and spare memories that are short by one, are refused, the answers
/// first.
fn too_short<S: Calls>() -> Result<String, String> {
    let mut truck = Known::<S>::at_work()?;
    let right = truck.trial.memory.sizes();
    let malformed = with_operation(Request::Alloc, 12);
    for call in [of_list(&[Request::Alloc; 3]), of_request(Request::Alloc), malformed] {
        let room = answers_for(&call);
        truck.call_with(&call, room - 1, right, FEW_WORDS)?;
        truck.call_with(&call, 0, right, FEW_WORDS)?;
        for sizes in short(right) {
            truck.call_with(&call, room, sizes, SPARE)?;
            truck.call_with(&call, room - 1, sizes, FEW_WORDS)?;
        }
    }
    truck.call(REPLAY, &of_request(Request::Alloc), Reply::one(Ok(Some(frame(7)))))?;
    Ok("refused, the words first, and nothing changes".to_string())
}

/// Some calls of two machines, and what they are replied in a sequence.
fn four() -> (Vec<(u64, Vec<u8>)>, Vec<Reply>) {
    let items = vec![
        (REPLAY, of_list(&[back_one(0, 0), Request::Alloc, Request::Alloc])),
        (GRAPHICS, of_request(Request::Alloc)),
        (GRAPHICS, of_list(&[Request::Alloc, Request::Alloc])),
        (REPLAY, of_request(back_one(4, 0))),
    ];
    let replies = vec![
        Reply::done(&[None, Some(frame(0)), Some(frame(7))]),
        Reply::one(Ok(Some(frame(8)))),
        Reply::no(NO_ROOM, 1),
        Reply::one(Err(NOT_YOURS)),
    ];
    (items, replies)
}

/// What a sequence is answered with that was run.
fn ran(replies: Vec<Reply>) -> Ran {
    let offset = Some(replies.len() as u64);
    Ran { code: 0, offset, replies: replies.into_iter().map(Reply::in_sequence).collect() }
}

/// A sequence is as its calls one by one, in replies and in memories.
fn sequence<S: Calls>() -> Result<String, String> {
    let (mut whole, mut single) = (Known::<S>::at_work()?, Known::<S>::at_work()?);
    let (items, replies) = four();
    whole.sequence(&of_items(&items), ran(replies.clone()))?;
    for ((number, call), reply) in items.into_iter().zip(replies) {
        single.call(number, &call, reply)?;
    }
    whole.trial.memory.same_as(&single.trial.memory)?;
    whole.sequence(&[], ran(Vec::new()))?;
    Ok("the same replies, and the same words and bytes".to_string())
}

/// A malformed call is answered so, and the others are served.
fn malformed_call<S: Calls>() -> Result<String, String> {
    let mut truck = Known::<S>::at_work()?;
    let (mut items, mut replies) = four();
    let cut = of_list(&[Request::Alloc; 3])[..2 * REQUEST].to_vec();
    for (at, call, index) in [(1, vec![1, 2, 3], 0), (0, Vec::new(), 0), (3, cut, 1)] {
        items.insert(at, (REPLAY, call));
        replies.insert(at, Reply::no(MALFORMED, index));
    }
    truck.sequence(&of_items(&items), ran(replies))?;
    Ok("three of seven are malformed, and the others are served".to_string())
}

/// A sequence of which an item is not whole is refused where it begins, and none of its calls is served.
fn broken<S: Calls>() -> Result<String, String> {
    let mut truck = Known::<S>::at_work()?;
    let whole = of_items(&four().0);
    let at = |offset: usize| Ran { code: BROKEN, offset: Some(offset as u64), replies: Vec::new() };
    let header = |len: u64| [REPLAY.to_le_bytes(), len.to_le_bytes()].concat();
    for left in 1..16 {
        truck.sequence(&[&whole[..], &header(0)[..left]].concat(), at(whole.len()))?;
    }
    for len in [1, 33, 1 << 32, 1 << 63, u64::MAX - 15, u64::MAX - 16, u64::MAX] {
        truck.sequence(&[whole.clone(), header(len)].concat(), at(whole.len()))?;
        truck.sequence(&[header(len), vec![0; 0]].concat(), at(0))?;
    }
    let first = 16 + 1 + 3 * REQUEST;
    truck.sequence(&whole[..first + 16 + REQUEST - 1], at(first))?;
    Ok("refused where the item begins, and nothing changes".to_string())
}

/// Replies or answers that are short by a word, and spare memories that are short by one, are refused.
fn sequence_too_short<S: Calls>() -> Result<String, String> {
    let mut truck = Known::<S>::at_work()?;
    let right = truck.trial.memory.sizes();
    let bytes = of_items(&four().0);
    let [replies, answers] = [replies_for(&bytes), answers_for(&bytes)];
    truck.sequence_with(&bytes, [replies - 1, answers], right, FEW_WORDS)?;
    truck.sequence_with(&bytes, [replies, answers - 1], right, FEW_WORDS)?;
    for sizes in short(right) {
        truck.sequence_with(&bytes, [replies, answers], sizes, SPARE)?;
    }
    Ok("refused, and nothing changes".to_string())
}
