//! Configurations: ours beside the plain checker, on the truck, on the smallest configuration that breaks each rule, and
//! on random, truncated and changed bytes. The crate `replayframes` must say the same in its names, show what was
//! accepted, and write the same bytes for it.
use crate::config_plain::{bytes, check, Answer, Config, Machine, Region};
use crate::ours;
use crate::report::grouped;
use crate::rng::Rng;
use replayframes::config::{self, ConfigRefusal, Fault, Place, Pool, Table};
use replayframes::{Refusal, TABLE_WORDS};

fn region(guest: u64, host: u64, pages: u64, kind: u8) -> Region {
    Region { guest: guest << 12, host: host << 12, pages, kind }
}

fn one(regions: Vec<Region>) -> Config {
    Config { machines: vec![Machine { number: 1, regions }], pool: (0x1000 << 12, 1) }
}

fn two(first: Vec<Region>, second: Vec<Region>) -> Config {
    let machines = vec![Machine { number: 1, regions: first }, Machine { number: 2, regions: second }];
    Config { machines, pool: (0x1000 << 12, 1) }
}

/// The truck: replay, graphics, sound and the recorder, with shared buffers and devices.
pub fn truck() -> Config {
    let machine = |number, regions| Machine { number, regions };
    Config {
        machines: vec![
            machine(
                1,
                vec![region(0, 0x100, 64, 0), region(0x1000, 0x900, 8, 2), region(0x2000, 0xfe0, 2, 1)],
            ),
            machine(
                2,
                vec![region(0, 0x200, 64, 0), region(0x1000, 0x900, 8, 2), region(0x3000, 0x910, 4, 2)],
            ),
            machine(
                3,
                vec![region(0, 0x300, 32, 0), region(0x1000, 0x910, 4, 2), region(0x2000, 0xff0, 1, 1)],
            ),
            machine(4, vec![region(0, 0x400, 32, 0), region(0x1800, 0x900, 8, 2)]),
        ],
        pool: (0x10000 << 12, 4096),
    }
}

/// The number of a fault.
fn fault_number(fault: Fault) -> usize {
    match fault {
        Fault::NoPage => 1,
        Fault::GuestStart => 2,
        Fault::HostStart => 3,
        Fault::GuestEnd => 4,
        Fault::HostEnd => 5,
        Fault::Unknown(number) => number,
    }
}

/// The code and the four numbers of what the crate says of a configuration.
fn numbers(refusal: ConfigRefusal) -> Answer {
    let two = |at: Place, other: Place| [at.machine, at.region, other.machine, other.region];
    let numbers = match refusal {
        ConfigRefusal::TooShort { offset } | ConfigRefusal::LeftOver { offset } => [offset, 0, 0, 0],
        ConfigRefusal::TooManyRegions { machine } => [machine, 0, 0, 0],
        ConfigRefusal::UnknownKind { at } | ConfigRefusal::PoolShared { at } => [at.machine, at.region, 0, 0],
        ConfigRefusal::SameNumber { machine, other } => [machine, other, 0, 0],
        ConfigRefusal::NotValid { at, fault } => [at.machine, at.region, fault_number(fault), 0],
        ConfigRefusal::PoolNotValid { fault } => [fault_number(fault), 0, 0, 0],
        ConfigRefusal::HostShared { at, other } | ConfigRefusal::NotCoinciding { at, other } => {
            two(at, other)
        }
        ConfigRefusal::OneMachine { at, other } | ConfigRefusal::GuestShared { at, other } => {
            [at.machine, at.region, other.region, 0]
        }
        _ => [0; 4],
    };
    let [a, b, c, d] = numbers.map(|number| number as u64);
    [u64::from(refusal.rule().code()), a, b, c, d]
}

/// What a table shows: the machines' numbers, the regions of each, and the allocator's region.
type Shown = (Vec<u64>, Vec<Vec<replayframes::Region>>, Pool);

/// All that a table shows, if the counts and places agree with it.
fn shown(table: Table) -> Result<Shown, Refusal> {
    let numbers: Vec<u64> = table.numbers().collect::<Result<_, _>>()?;
    let mut regions: Vec<Vec<replayframes::Region>> = Vec::new();
    for (place, &number) in numbers.iter().enumerate() {
        regions.push(table.regions(place).collect::<Result<_, _>>()?);
        assert_eq!((table.place(number)?, table.region_count(place)?), (place, regions[place].len()));
    }
    assert_eq!(table.machine_count()?, numbers.len());
    Ok((numbers, regions, table.pool()?))
}

/// What a table shows has these bytes.
fn shows(table: Table, bytes: &[u8]) -> Result<(), String> {
    let (numbers, regions, pool) = shown(table).map_err(|refusal| format!("a look is refused: {refusal}"))?;
    let places = numbers.iter().zip(&regions);
    let machines: Vec<config::Machine> =
        places.map(|(&number, regions)| config::Machine { number: number as u16, regions }).collect();
    let mut buffer = vec![7; bytes.len()];
    let written = config::Config { machines: &machines, pool }.encode(&mut buffer);
    if written == Ok(bytes) {
        return Ok(());
    }
    Err(format!("the table shows {written:?}, and not {bytes:?}"))
}

/// Ours and the plain checker agree; what is accepted is loaded and shown, and nothing else changes the table.
fn same(bytes: &[u8]) -> Result<Answer, String> {
    let (ours, plain) = (ours::config_check(bytes), check(bytes));
    if ours != plain {
        return Err(format!("ours {ours:?}, plain {plain:?} for {bytes:?}"));
    }
    let named = config::check(bytes).map_or_else(numbers, |()| ours);
    let mut table = vec![7; TABLE_WORDS];
    let loaded = Table::load(bytes, &mut table).map(|table| shows(table, bytes)).map_err(Refusal::code);
    let code = loaded.as_ref().err().copied().unwrap_or(0);
    if named != ours || u64::from(code) != ours[0] {
        return Err(format!("load answers {code}, the crate {named:?}, check {ours:?} for {bytes:?}"));
    }
    if code != 0 && table.iter().any(|word| *word != 7) {
        return Err(format!("a refusal wrote the table, for {bytes:?}"));
    }
    loaded.unwrap_or(Ok(())).map(|()| ours)
}

/// Each with the answer that it must have: for every rule the smallest configuration that breaks it and nothing else.
pub fn smallest() -> Vec<(&'static str, Vec<u8>, Answer)> {
    let small = bytes(&one(vec![]));
    let page = region(0, 0, 1, 0);
    let odd = |guest, host, pages| Region { guest, host, pages, kind: 0 };
    let mut behind = small.clone();
    behind.push(0);
    vec![
        ("no machine", bytes(&Config { machines: vec![], pool: (0, 1) }), [0, 0, 0, 0, 0]),
        ("one machine with no region", small.clone(), [0, 1, 0, 0, 0]),
        ("the truck", bytes(&truck()), [0, 4, 0, 0, 0]),
        ("no byte", vec![], [32, 0, 0, 0, 0]),
        ("half of the last field", small[..small.len() - 1].to_vec(), [32, 14, 0, 0, 0]),
        ("65 machines", vec![65, 0], [33, 0, 0, 0, 0]),
        ("33 regions", vec![1, 0, 0, 0, 33, 0], [34, 0, 0, 0, 0]),
        ("kind 3", bytes(&one(vec![region(0, 0, 1, 3)])), [35, 0, 0, 0, 0]),
        (
            "equal numbers",
            {
                let mut twins = two(vec![], vec![]);
                twins.machines[1].number = 1;
                bytes(&twins)
            },
            [36, 0, 1, 0, 0],
        ),
        ("no page", bytes(&one(vec![odd(0, 0, 0)])), [37, 0, 0, 1, 0]),
        ("guest start", bytes(&one(vec![odd(1, 0, 1)])), [37, 0, 0, 2, 0]),
        ("host start", bytes(&one(vec![odd(0, 1, 1)])), [37, 0, 0, 3, 0]),
        ("F5, guest end", bytes(&one(vec![odd(u64::MAX - 4095, 0, 1)])), [37, 0, 0, 4, 0]),
        ("F5, host end", bytes(&one(vec![odd(0, u64::MAX - 4095, 1)])), [37, 0, 0, 5, 0]),
        (
            "the allocator's region has no page",
            bytes(&Config { machines: vec![], pool: (0, 0) }),
            [38, 1, 0, 0, 0],
        ),
        ("F4, one host page twice", bytes(&one(vec![page, region(1, 0, 1, 0)])), [39, 0, 0, 0, 1]),
        ("ordinary behind shared", bytes(&two(vec![region(0, 0, 1, 2)], vec![page])), [39, 1, 0, 0, 0]),
        (
            "shared, not coinciding",
            bytes(&two(vec![region(0, 0, 1, 2)], vec![region(0, 0, 2, 2)])),
            [40, 0, 0, 1, 0],
        ),
        (
            "shared within one machine",
            bytes(&one(vec![region(0, 0, 1, 2), region(1, 0, 1, 2)])),
            [41, 0, 0, 1, 0],
        ),
        ("guest page twice", bytes(&one(vec![page, region(0, 1, 1, 0)])), [42, 0, 0, 1, 0]),
        ("the allocator's page", bytes(&one(vec![region(0, 0x1000, 1, 2)])), [43, 0, 0, 0, 0]),
        ("a byte left over", behind, [44, small.len() as u64, 0, 0, 0]),
    ]
}

/// The bytes of these configurations.
pub fn smallest_cases() -> impl Iterator<Item = Vec<u8>> {
    smallest().into_iter().map(|(_, bytes, _)| bytes)
}

/// Ours answers one of them as it must.
pub fn answered(bytes: &[u8], wanted: Answer) -> Result<String, String> {
    let answer = same(bytes)?;
    if answer != wanted {
        return Err(format!("{answer:?}, wanted {wanted:?}"));
    }
    Ok(format!("{} bytes", bytes.len()))
}

/// Every beginning of the truck's bytes, and every change of one byte.
pub fn changed() -> Result<String, String> {
    let whole = bytes(&truck());
    for end in 0..whole.len() {
        same(&whole[..end])?;
    }
    for at in 0..whole.len() {
        for value in 0..=u8::MAX {
            let mut bytes = whole.clone();
            bytes[at] = value;
            same(&bytes)?;
        }
    }
    Ok(format!("{} bytes, each cut off and each changed", whole.len()))
}

fn random_config(rng: &mut Rng, tight: usize) -> Config {
    let mut machines = Vec::new();
    for m in 0..rng.below(5) {
        let mut regions = Vec::new();
        for _ in 0..rng.below(5) {
            let start = |rng: &mut Rng| (rng.below(tight) as u64) << 12 | u64::from(rng.once_in(40));
            let pages =
                if rng.once_in(30) { rng.pick(&[0, 1 << 52, u64::MAX]) } else { 1 + rng.below(4) as u64 };
            let (guest, host) = (start(rng), start(rng));
            regions.push(Region { guest, host, pages, kind: rng.below(3) as u8 });
        }
        let number = if rng.once_in(10) { rng.below(3) } else { m };
        machines.push(Machine { number: number as u16, regions });
    }
    Config { machines, pool: ((rng.below(tight) as u64) << 12, 1 + rng.below(4) as u64) }
}

/// Random configurations, some cut off or with a byte more, and random bytes.
pub fn random(count: usize) -> Result<String, String> {
    let mut rng = Rng::new(5);
    let mut accepted = 0;
    for turn in 0..count {
        let bytes = if turn % 5 == 4 {
            let length = rng.below(80);
            (0..length).map(|_| if rng.once_in(2) { rng.below(4) as u8 } else { rng.bits() as u8 }).collect()
        } else {
            let tight = rng.pick(&[4, 16, 40, 200]);
            let mut bytes = bytes(&random_config(&mut rng, tight));
            if rng.once_in(10) {
                bytes.push(0);
            }
            if rng.once_in(10) {
                bytes.truncate(rng.below(bytes.len() + 1));
            }
            bytes
        };
        accepted += u64::from(same(&bytes)?[0] == 0);
    }
    Ok(format!("{} byte strings, {} accepted", grouped(count as u64), grouped(accepted)))
}
