//! Requests, calls and sequences in bytes: written from what is asked, and read plainly, by the format alone.
use super::model::is_readable;
use super::request::{Region, Request, Which};

/// The bytes of a request.
pub const REQUEST: usize = 33;
/// What a list begins with.
pub const LIST: u8 = 255;
/// The bytes before a call in a sequence: the asker's number, and the call's length.
pub const HEADER: usize = 16;

/// What a call asks.
#[derive(Clone, Debug, PartialEq, Eq)]
pub enum Call {
    One(Request),
    List(Vec<Request>),
}

/// The operation of a request, and its four numbers.
fn fields(request: Request) -> (u8, [u64; 4]) {
    match request {
        Request::AddZone => (0, [0; 4]),
        Request::RemoveZone => (1, [0; 4]),
        Request::RemoveZoneWhole => (2, [0; 4]),
        Request::Insert(Which::Processors, region) => (3, region.words()),
        Request::Remove(Which::Processors, region) => (4, region.words()),
        Request::Insert(Which::Devices, region) => (5, region.words()),
        Request::Remove(Which::Devices, region) => (6, region.words()),
        Request::Translate { which, addr } => (7, [addr, which, 0, 0]),
        Request::Alloc => (8, [0; 4]),
        Request::Run { size, align_log2 } => (9, [size as u64, align_log2 as u64, 0, 0]),
        Request::Dealloc { addr } => (10, [addr as u64, 0, 0, 0]),
        Request::DeallocRun { addr, count } => (11, [addr as u64, count as u64, 0, 0]),
    }
}

/// The bytes of a request, which no longer are one where its kind or its set is none.
pub fn of_request(request: Request) -> Vec<u8> {
    let (operation, numbers) = fields(request);
    [operation].into_iter().chain(numbers.into_iter().flat_map(u64::to_le_bytes)).collect()
}

/// The bytes of a list.
pub fn of_list(requests: &[Request]) -> Vec<u8> {
    [LIST].into_iter().chain(requests.iter().flat_map(|&request| of_request(request))).collect()
}

/// The bytes of a sequence of calls, each with its asker's number.
pub fn of_items(items: &[(u64, Vec<u8>)]) -> Vec<u8> {
    let mut bytes = Vec::new();
    for (number, call) in items {
        bytes.extend(number.to_le_bytes());
        bytes.extend((call.len() as u64).to_le_bytes());
        bytes.extend(call);
    }
    bytes
}

/// The number that bytes are, the lowest first.
pub fn number(bytes: &[u8]) -> u64 {
    bytes.iter().rev().fold(0, |number, &byte| number << 8 | u64::from(byte))
}

/// The request that bytes are, if they are one.
#[inline]
pub fn request(bytes: &[u8]) -> Option<Request> {
    if bytes.len() != REQUEST {
        return None;
    }
    let numbers = [1, 9, 17, 25].map(|at| number(&bytes[at..at + 8]));
    let region = Region::of(&numbers);
    let [a, b, ..] = numbers;
    let request = match bytes[0] {
        0 => Request::AddZone,
        1 => Request::RemoveZone,
        2 => Request::RemoveZoneWhole,
        3 => Request::Insert(Which::Processors, region),
        4 => Request::Remove(Which::Processors, region),
        5 => Request::Insert(Which::Devices, region),
        6 => Request::Remove(Which::Devices, region),
        7 => Request::Translate { which: b, addr: a },
        8 => Request::Alloc,
        9 => Request::Run { size: a as usize, align_log2: b as usize },
        10 => Request::Dealloc { addr: a as usize },
        11 => Request::DeallocRun { addr: a as usize, count: b as usize },
        _ => return None,
    };
    Some(request).filter(|&request| fields(request).1 == numbers && is_readable(request).is_ok())
}

/// What a call asks, or the number of the lowest member that is malformed.
pub fn call(bytes: &[u8]) -> Result<Call, usize> {
    if bytes.first() != Some(&LIST) {
        return request(bytes).map(Call::One).ok_or(0);
    }
    let members = bytes[1..].chunks(REQUEST).enumerate();
    members.map(|(i, member)| request(member).ok_or(i)).collect::<Result<_, _>>().map(Call::List)
}

/// The calls of a sequence, each with its asker's number, or where the first item begins that is not whole.
pub fn items(bytes: &[u8]) -> Result<Vec<(u64, &[u8])>, usize> {
    let (mut items, mut at) = (Vec::new(), 0);
    while at < bytes.len() {
        let call = at + HEADER;
        let header = bytes.get(at..call).ok_or(at)?;
        let end = call.checked_add(number(&header[8..]) as usize).ok_or(at)?;
        items.push((number(&header[..8]), bytes.get(call..end).ok_or(at)?));
        at = end;
    }
    Ok(items)
}

#[cfg(test)]
mod tests {
    use super::{call, items, number, of_items, of_list, of_request, request, Call};
    use crate::machines::request::{Region, Request, Which};

    #[test]
    fn has_the_operation_and_four_numbers() {
        let region = Region { guest: 0x1000, host: 0x0203_0405, pages: 7, kind: 2 };
        let bytes = of_request(Request::Remove(Which::Devices, region));
        assert_eq!(bytes[..11], [6, 0, 0x10, 0, 0, 0, 0, 0, 0, 5, 4]);
        assert_eq!([9, 17, 25].map(|at| number(&bytes[at..at + 8])), [0x0203_0405, 7, 2]);
        let bytes = of_request(Request::Translate { which: 1, addr: 9 });
        assert_eq!((bytes[0], bytes[1], bytes[9], bytes.len()), (7, 9, 1, 33));
    }

    #[test]
    fn reads_what_it_writes_and_nothing_else() {
        let run = Request::Run { size: 3, align_log2: 1 };
        assert_eq!(request(&of_request(run)), Some(run));
        assert_eq!(request(&of_request(Request::Translate { which: 2, addr: 0 })), None);
        assert_eq!(call(&of_list(&[run, run])), Ok(Call::List(vec![run, run])));
        assert_eq!(call(&of_list(&[run, run])[..66]), Err(1));
        let bytes = of_items(&[(5, vec![1, 2]), (6, Vec::new())]);
        assert_eq!(items(&bytes), Ok(vec![(5, &[1, 2][..]), (6, &[][..])]));
        assert_eq!(items(&bytes[..33]), Err(18));
    }
}
