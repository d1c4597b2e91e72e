//! Calls in good plain Rust, by the rival's requests in place: before a list the zones, the tree and the
//! owners are saved in the spare memories, and a refusal restores them. No frame is cleared before all is
//! done, so that the frames' words need no copy.
use super::bytes::{self, number, HEADER, LIST, REQUEST};
use super::reading::{MACHINES, STRIDE};
use super::request::{Request, BROKEN, FEW_WORDS, MALFORMED, SPARE};
use super::rival::Rival;
use super::subject::{ask, Calls, Rooms, SpareRooms};
use crate::shared::request::{FRAME, WORDS};
use std::ops::Range;

impl Rooms<'_> {
    /// The same memories, lent on.
    fn lent(&mut self) -> Rooms<'_> {
        Rooms {
            table: self.table,
            zones: self.zones,
            tree: self.tree,
            owners: self.owners,
            words: self.words,
        }
    }

    /// The same without the frames' words, so that none is cleared.
    fn without_words(&mut self) -> Rooms<'_> {
        Rooms { words: &mut [], ..self.lent() }
    }

    /// Clears the words of these frames.
    fn clear(&mut self, frames: Range<usize>) {
        self.words[WORDS * frames.start..WORDS * frames.end].fill(0);
    }

    /// The number of the frame at an address, which is one's.
    fn frame(&self, addr: usize) -> usize {
        (addr - self.table[MACHINES + 2] as usize) / FRAME
    }
}

impl SpareRooms<'_> {
    /// The same memories, lent on.
    fn lent(&mut self) -> SpareRooms<'_> {
        SpareRooms { zones: self.zones, tree: self.tree, owners: self.owners }
    }

    /// They are as long as what they are to hold.
    fn fit(&self, rooms: &Rooms) -> bool {
        let long = |rooms: (&[u64], &[u16], &[u8])| (rooms.0.len(), rooms.1.len(), rooms.2.len());
        long((self.zones, self.tree, self.owners)) == long((rooms.zones, rooms.tree, rooms.owners))
    }

    /// Saves the memories.
    fn save(&mut self, rooms: &Rooms) {
        self.zones.copy_from_slice(rooms.zones);
        self.tree.copy_from_slice(rooms.tree);
        self.owners.copy_from_slice(rooms.owners);
    }

    /// Restores the memories.
    fn restore(&self, rooms: &mut Rooms) {
        rooms.zones.copy_from_slice(self.zones);
        rooms.tree.copy_from_slice(self.tree);
        rooms.owners.copy_from_slice(self.owners);
    }
}

/// The requests of a list, or the number of the lowest member that is malformed.
fn members(bytes: &[u8]) -> impl Iterator<Item = (usize, Option<Request>)> + '_ {
    bytes.chunks(REQUEST).map(bytes::request).enumerate()
}

/// The members of a list are done one after the other, or none: the reason, and the member that is at fault.
fn list(
    mut rooms: Rooms,
    mut spare: SpareRooms,
    number: u64,
    bytes: &[u8],
    answers: &mut [u64],
) -> Result<(), (u32, usize)> {
    if let Some((i, _)) = members(bytes).find(|(_, request)| request.is_none()) {
        return Err((MALFORMED, i));
    }
    spare.save(&rooms);
    for ((i, request), answer) in members(bytes).zip(answers.chunks_exact_mut(2)) {
        answer.fill(0);
        let done = |request| ask::<Rival>(rooms.without_words(), number, request, &mut answer[1]);
        match request.map_or(MALFORMED, done) {
            0 => {}
            code => {
                spare.restore(&mut rooms);
                return Err((code, i));
            }
        }
    }
    clear(&mut rooms, &spare, number, bytes);
    Ok(())
}

/// Clears what a list that is done gave back: what was taken in it is empty.
fn clear(rooms: &mut Rooms, spare: &SpareRooms, number: u64, bytes: &[u8]) {
    for (_, request) in members(bytes) {
        match request {
            Some(Request::Dealloc { addr }) => rooms.clear(rooms.frame(addr)..rooms.frame(addr) + 1),
            Some(Request::DeallocRun { addr, count }) => {
                rooms.clear(rooms.frame(addr)..rooms.frame(addr) + count);
            }
            Some(Request::RemoveZoneWhole) => clear_all(rooms, spare, number),
            _ => {}
        }
    }
}

/// Clears what the machine that has a number owned before.
fn clear_all(rooms: &mut Rooms, spare: &SpareRooms, number: u64) {
    let machine = rooms.table.iter().step_by(STRIDE).position(|&its| its == number).unwrap_or(0);
    let mut k = 0;
    while let Some(away) = spare.owners[k..].iter().position(|&owner| usize::from(owner) == machine) {
        let from = k + away;
        let its = spare.owners[from..].iter().position(|&owner| usize::from(owner) != machine);
        k = its.map_or(spare.owners.len(), |its| from + its);
        rooms.clear(from..k);
    }
}

/// A call, whose buffers are long enough.
fn served(
    rooms: Rooms,
    spare: SpareRooms,
    number: u64,
    bytes: &[u8],
    answers: &mut [u64],
    index: &mut u64,
    address: &mut u64,
) -> u32 {
    let (code, at) = match bytes.first() {
        Some(&LIST) => match list(rooms, spare, number, &bytes[1..], answers) {
            Ok(()) => return 0,
            Err(refused) => refused,
        },
        _ => match bytes::request(bytes) {
            Some(request) => return ask::<Rival>(rooms, number, request, address),
            None => (MALFORMED, 0),
        },
    };
    *index = at as u64;
    code
}

/// The calls of a sequence, which are whole. They are counted.
fn calls(
    mut rooms: Rooms,
    mut spare: SpareRooms,
    bytes: &[u8],
    replies: &mut [u64],
    answers: &mut [u64],
) -> usize {
    let (mut at, mut count, mut used) = (0, 0, 0);
    while let Some((number, call)) = item(bytes, at) {
        let (mut index, mut address) = (0, 0);
        let its = &mut answers[used..];
        let code = served(rooms.lent(), spare.lent(), number, call, its, &mut index, &mut address);
        replies[3 * count..3 * count + 3].copy_from_slice(&[u64::from(code), index, address]);
        at += HEADER + call.len();
        count += 1;
        used += 2 * (call.len() / REQUEST);
    }
    count
}

/// The item that begins there, if it is whole: its asker's number, and its call.
fn item(bytes: &[u8], at: usize) -> Option<(u64, &[u8])> {
    let (header, rest) = (bytes.get(at..at + HEADER)?, &bytes[at + HEADER..]);
    Some((number(&header[..8]), rest.get(..number(&header[8..]) as usize)?))
}

/// Where the first item begins that is not whole.
fn broken_at(bytes: &[u8]) -> Option<usize> {
    let mut at = 0;
    while at < bytes.len() {
        match item(bytes, at) {
            Some((_, call)) => at += HEADER + call.len(),
            None => return Some(at),
        }
    }
    None
}

impl Calls for Rival {
    #[inline(never)]
    fn serve(
        rooms: Rooms,
        spare: SpareRooms,
        number: u64,
        bytes: &[u8],
        answers: &mut [u64],
        index: &mut u64,
        address: &mut u64,
    ) -> u32 {
        if answers.len() < 2 * (bytes.len() / REQUEST) {
            return FEW_WORDS;
        }
        if !spare.fit(&rooms) {
            return SPARE;
        }
        served(rooms, spare, number, bytes, answers, index, address)
    }

    #[inline(never)]
    fn run(
        rooms: Rooms,
        spare: SpareRooms,
        bytes: &[u8],
        replies: &mut [u64],
        answers: &mut [u64],
        offset: &mut u64,
    ) -> u32 {
        if replies.len() < 3 * (bytes.len() / HEADER) || answers.len() < 2 * (bytes.len() / REQUEST) {
            return FEW_WORDS;
        }
        if !spare.fit(&rooms) {
            return SPARE;
        }
        let (code, at) = match broken_at(bytes) {
            Some(at) => (BROKEN, at),
            None => (0, calls(rooms, spare, bytes, replies, answers)),
        };
        *offset = at as u64;
        code
    }
}

#[cfg(test)]
mod tests {
    use super::Rival;
    use crate::machines::random::Extent;
    use crate::machines::{call_cases, lists, purge, runs};

    #[test]
    fn serves_the_cases() {
        for (name, case) in call_cases::all::<Rival>() {
            assert_eq!(case().err(), None, "{name}");
        }
    }

    #[test]
    fn serves_lists_as_the_model() {
        for (frames, sequences) in [(16, 60), (256, 20), (4096, 4)] {
            assert_eq!(lists::run::<Rival>(Extent { frames, sequences, length: 60 }).err(), None);
        }
    }

    #[test]
    fn runs_sequences_as_the_model() {
        assert_eq!(runs::run::<Rival>(16, 200).err(), None);
        assert_eq!(purge::run::<Rival>(16, 100).err(), None);
    }
}
