//! The truck by the names of this crate: memories that are refused, buffers that are too short, a monitor that is left
//! and resumed, and addresses that are no frame's. `compare` has the long comparison with the plain model.
use replayframes::config::{Config, Machine, NotWritten, Pool};
use replayframes::{
    answers_for, replies_for, to_lend, Call, Kind, Memories, Monitor, Refusal, Region, Reply, Request,
    ShortBuffer, Sizes, Spare, Which, HEADER_BYTES,
};

const REPLAY: u64 = 1;
const GRAPHICS: u64 = 2;
/// The host address of the first frame.
const POOL: u64 = 0x1000_0000;
/// The pictures, which both machines may have.
const PICTURES: Region = Region { guest: 0x100_0000, host: 0x90_0000, pages: 8, kind: Kind::Shared };

/// A machine's own memory.
fn memory(host: u64) -> Region {
    Region { guest: 0, host, pages: 64, kind: Kind::Ordinary }
}

/// The bytes of the truck's configuration.
fn truck() -> Vec<u8> {
    let machines = [
        Machine { number: 1, regions: &[memory(0x10_0000), PICTURES] },
        Machine { number: 2, regions: &[memory(0x20_0000), PICTURES] },
    ];
    let config = Config { machines: &machines, pool: Pool { host: POOL, pages: 12 } };
    let mut bytes = vec![0; config.bytes_needed()];
    config.encode(&mut bytes).expect("room for all bytes");
    bytes
}

/// Memory of these lengths.
struct Room {
    table: Vec<u64>,
    zones: Vec<u64>,
    tree: Vec<u16>,
    owners: Vec<u8>,
    words: Vec<u64>,
}

impl Room {
    /// Memory that holds something.
    fn new(sizes: Sizes) -> Room {
        Room {
            table: vec![7; sizes.table],
            zones: vec![7; sizes.zones],
            tree: vec![7; sizes.tree],
            owners: vec![7; sizes.owners],
            words: vec![7; sizes.words],
        }
    }

    /// The memories of a monitor.
    fn lend(&mut self) -> Memories<'_> {
        Memories {
            table: &mut self.table,
            zones: &mut self.zones,
            tree: &mut self.tree,
            owners: &mut self.owners,
            words: &mut self.words,
        }
    }

    /// The spare memories of calls.
    fn spare(&mut self) -> Spare<'_> {
        Spare { zones: &mut self.zones, tree: &mut self.tree, owners: &mut self.owners }
    }
}

/// How much the truck needs: of its twelve pages ten are frames that machines can own.
fn sizes() -> Sizes {
    to_lend(2, 2, 10).expect("sizes that there are")
}

#[test]
fn a_start_says_which_memory_is_wrong() {
    let right = sizes();
    let wrong = [
        (Sizes { table: right.table - 1, ..right }, Refusal::NoTable),
        (Sizes { zones: right.zones + 1, ..right }, Refusal::Zones),
        (Sizes { zones: 2 * (3 + 8), ..right }, Refusal::FewSlots),
        (Sizes { tree: right.tree + 1, ..right }, Refusal::NotFull),
        (Sizes { owners: right.owners - 1, ..right }, Refusal::Unmatched),
        (Sizes { words: right.words - 1, ..right }, Refusal::Unbacked),
        (Sizes { words: 13 * 512, ..right }, Refusal::FramesTooMany),
    ];
    for (sizes, refusal) in wrong {
        let mut room = Room::new(sizes);
        assert_eq!(Monitor::start(&truck(), room.lend()).err(), Some(refusal), "{sizes:?}");
        assert!(room.table.iter().all(|&word| word == 7), "{sizes:?}");
    }
    let mut room = Room::new(right);
    assert_eq!(Monitor::start(&truck()[1..], room.lend()).err(), Some(Refusal::TooManyMachines));
    assert!(Monitor::start(&truck(), room.lend()).is_ok());
}

#[test]
fn a_monitor_is_left_and_resumed() {
    let mut room = Room::new(sizes());
    let mut monitor = Monitor::start(&truck(), room.lend()).unwrap();
    monitor.add_zone(REPLAY).unwrap();
    assert_eq!(monitor.alloc(REPLAY), Ok(POOL));
    let memories = monitor.into_memories();
    let mut monitor = Monitor::resume(memories).unwrap();
    assert_eq!(monitor.alloc(REPLAY), Ok(POOL + 4096));
    room.owners[0] = 1;
    assert_eq!(Monitor::resume(room.lend()).err(), Some(Refusal::Corrupt));
    room.owners[0] = 0;
    assert!(Monitor::resume(room.lend()).is_ok());
}

#[test]
fn a_machine_writes_only_to_its_frames() {
    let mut room = Room::new(sizes());
    let mut monitor = Monitor::start(&truck(), room.lend()).unwrap();
    monitor.add_zone(REPLAY).unwrap();
    monitor.add_zone(GRAPHICS).unwrap();
    let frame = monitor.alloc(REPLAY).unwrap();
    monitor.frame_words(REPLAY, frame).unwrap()[511] = 9;
    let refused = [
        (GRAPHICS, frame, Refusal::NotYours),
        (REPLAY, frame - 4096, Refusal::Below),
        (REPLAY, frame + 8, Refusal::NotAtFrame),
        (REPLAY, frame + 4096, Refusal::NotTaken),
        (REPLAY, frame + 10 * 4096, Refusal::NotYours),
        (REPLAY, frame + 12 * 4096, Refusal::Outside),
    ];
    for (number, address, refusal) in refused {
        assert_eq!(monitor.frame_words(number, address).err(), Some(refusal), "{number} {address:x}");
    }
    monitor.dealloc(REPLAY, frame).unwrap();
    assert_eq!(monitor.alloc(GRAPHICS), Ok(frame));
    assert!(monitor.frame_words(GRAPHICS, frame).unwrap().iter().all(|&word| word == 0));
}

#[test]
fn regions_enter_the_set_that_is_named() {
    let mut room = Room::new(sizes());
    let mut monitor = Monitor::start(&truck(), room.lend()).unwrap();
    monitor.add_zone(GRAPHICS).unwrap();
    monitor.insert_iommu_region(GRAPHICS, PICTURES).unwrap();
    assert_eq!(monitor.translate(GRAPHICS, Which::Devices, 0x100_0123), Ok(0x90_0123));
    assert_eq!(monitor.translate(GRAPHICS, Which::Processors, 0x100_0123), Err(Refusal::NotMapped));
    assert_eq!(monitor.remove_region(GRAPHICS, PICTURES), Err(Refusal::NotInSet));
    assert_eq!(monitor.remove_zone(GRAPHICS), Err(Refusal::NotEmpty));
    monitor.remove_iommu_region(GRAPHICS, PICTURES).unwrap();
    assert_eq!(monitor.remove_zone(GRAPHICS), Ok(()));
}

#[test]
fn calls_need_their_words_and_spare_memory() {
    let mut room = Room::new(sizes());
    let mut monitor = Monitor::start(&truck(), room.lend()).unwrap();
    let list = [Request::AddZone, Request::Insert(Which::Processors, PICTURES), Request::Alloc];
    let (mut buffer, mut answers) = ([0; 100], [7; 6]);
    assert_eq!(Call::List(&list).encode(&mut buffer[1..]), Err(ShortBuffer { needed: 100 }));
    let call = Call::List(&list).encode(&mut buffer).unwrap();
    assert_eq!((call.len(), answers_for(call.len())), (100, 6));

    let mut spare = Room::new(sizes());
    let few = monitor.serve(&mut spare.spare(), REPLAY, call, &mut answers[1..]).unwrap_err();
    assert_eq!((few.refusal, few.member), (Refusal::FewWords, None));
    let mut short = Room::new(Sizes { tree: 0, ..sizes() });
    let short = monitor.serve(&mut short.spare(), REPLAY, call, &mut answers).unwrap_err();
    assert_eq!((short.refusal, short.member), (Refusal::Spare, None));
    let cut = monitor.serve(&mut spare.spare(), REPLAY, &call[..99], &mut answers).unwrap_err();
    assert_eq!((cut.refusal, cut.member), (Refusal::Malformed, Some(2)));
    match monitor.serve(&mut spare.spare(), REPLAY, call, &mut answers).unwrap() {
        Reply::List(answers) => assert!(answers.eq([None, None, Some(POOL)])),
        Reply::One(address) => panic!("a list is answered as one request: {address:?}"),
    }
}

#[test]
fn a_sequence_is_answered_item_by_item() {
    let mut room = Room::new(sizes());
    let mut monitor = Monitor::start(&truck(), room.lend()).unwrap();
    let calls = [
        (REPLAY, Call::List(&[Request::AddZone, Request::Alloc])),
        (GRAPHICS, Call::One(Request::Alloc)),
        (REPLAY, Call::One(Request::Alloc)),
    ];
    let mut bytes = Vec::new();
    for (number, call) in calls {
        let mut item = vec![0; HEADER_BYTES + call.bytes_needed()];
        bytes.extend_from_slice(call.encode_item(number, &mut item).unwrap());
    }
    let (mut replies, mut answers) = (vec![7; replies_for(bytes.len())], vec![7; answers_for(bytes.len())]);
    let (mut spare, last) = (Room::new(sizes()), bytes.len() - 49);
    let broken = monitor.run(&mut spare.spare(), &bytes[..last + 1], &mut replies, &mut answers).unwrap_err();
    assert_eq!((broken.refusal, broken.offset), (Refusal::Broken, Some(last)));

    let mut told = monitor.run(&mut spare.spare(), &bytes, &mut replies, &mut answers).unwrap();
    match told.next() {
        Some((REPLAY, Ok(Reply::List(answers)))) => assert!(answers.eq([None, Some(POOL)])),
        other => panic!("the list is answered {other:?}"),
    }
    let (number, refused) = told.next().unwrap();
    assert_eq!((number, refused.unwrap_err().refusal), (GRAPHICS, Refusal::NotPresent));
    assert!(matches!(told.next(), Some((REPLAY, Ok(Reply::One(Some(address))))) if address == POOL + 4096));
    assert!(told.next().is_none());
}

#[test]
fn a_configuration_is_written_only_whole() {
    let regions = vec![memory(0); 65536];
    let machines = [Machine { number: 1, regions: &regions }];
    let config = Config { machines: &machines, pool: Pool { host: 0, pages: 1 } };
    let needed = config.bytes_needed();
    let mut bytes = vec![0; needed];
    assert_eq!(config.encode(&mut bytes), Err(NotWritten::TooMany(65536)));
    let short = Err(NotWritten::ShortBuffer(ShortBuffer { needed }));
    assert_eq!(config.encode(&mut bytes[1..]), short);
}
