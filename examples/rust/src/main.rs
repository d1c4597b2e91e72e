//! A truck runs replay, graphics, sound and commentary as four machines of four companies. This program does what their
//! hypervisor does: it writes the configuration, lends memory, starts a monitor, and asks for the machines. Graphics
//! misbehaves, is refused, and is removed; in between it prints who has what.
//!
//! `cargo run` in this folder prints what the file stdout beside it holds. It assumes that the archive was made
//! (`./archive` in the repository's root).
use replayframes::config::{self, Config, Machine, Pool};
use replayframes::{
    answers_for, to_lend, Call, Frame, Kind, Memories, Monitor, Refusal, Region, Request, Sizes, Spare,
    State, Which, FRAME_BYTES,
};
use std::fmt::{Display, Write};

/// The machines' numbers, by which they ask.
const REPLAY: u16 = 1;
const GRAPHICS: u16 = 2;
const SOUND: u16 = 3;
const COMMENTARY: u16 = 4;

/// The host memory whose frames are allocated.
const POOL: Pool = Pool { host: 0x1000_0000, pages: 32 };
/// Of the pool's frames so many are for machines; the others are the monitor's own.
const FRAMES: u64 = 28;
/// No machine is given more regions than this.
const SLOTS: u64 = 3;

/// A machine's own memory, which it sees from address 0 on.
const fn memory(host: u64, pages: u64) -> Region {
    Region { guest: 0, host, pages, kind: Kind::Ordinary }
}

/// The pictures, which replay, graphics and commentary share.
const PICTURES: Region = Region { guest: 0x100_0000, host: 0x90_0000, pages: 8, kind: Kind::Shared };
/// The recorder's registers.
const RECORDER: Region = Region { guest: 0x200_0000, host: 0xfe_0000, pages: 2, kind: Kind::Device };
/// The mixing desk's registers.
const DESK: Region = Region { guest: 0x200_0000, host: 0xff_0000, pages: 1, kind: Kind::Device };

/// What each machine is given.
const REPLAY_GIVEN: [Region; 3] = [memory(0x10_0000, 64), PICTURES, RECORDER];
const GRAPHICS_GIVEN: [Region; 2] = [memory(0x20_0000, 64), PICTURES];
const SOUND_GIVEN: [Region; 2] = [memory(0x30_0000, 32), DESK];
const COMMENTARY_GIVEN: [Region; 2] = [memory(0x40_0000, 32), PICTURES];

/// The truck's machines.
const MACHINES: [Machine; 4] = [
    Machine { number: REPLAY, regions: &REPLAY_GIVEN },
    Machine { number: GRAPHICS, regions: &GRAPHICS_GIVEN },
    Machine { number: SOUND, regions: &SOUND_GIVEN },
    Machine { number: COMMENTARY, regions: &COMMENTARY_GIVEN },
];

/// What a machine is called.
fn name(number: u64) -> &'static str {
    ["nobody", "replay", "graphics", "sound", "commentary"]
        .get(number as usize)
        .copied()
        .unwrap_or("somebody")
}

/// The bytes of a configuration with these machines.
fn written(machines: &[Machine]) -> Vec<u8> {
    let config = Config { machines, pool: POOL };
    let mut bytes = vec![0; config.bytes_needed()];
    config.encode(&mut bytes).expect("the buffer has room for four machines");
    bytes
}

/// Memory for a monitor, or for the spare memories of calls.
struct Lent {
    table: Vec<u64>,
    zones: Vec<u64>,
    tree: Vec<u16>,
    owners: Vec<u8>,
    words: Vec<u64>,
}

impl Lent {
    /// Memory of these lengths.
    fn new(sizes: Sizes) -> Lent {
        Lent {
            table: vec![0; sizes.table],
            zones: vec![0; sizes.zones],
            tree: vec![0; sizes.tree],
            owners: vec![0; sizes.owners],
            words: vec![0; sizes.words],
        }
    }

    /// All of it for a monitor. A hypervisor lends as `words` the memory of the pool itself.
    fn memories(&mut self) -> Memories<'_> {
        let Lent { table, zones, tree, owners, words } = self;
        Memories { table, zones, tree, owners, words }
    }

    /// What calls need.
    fn spare(&mut self) -> Spare<'_> {
        let Lent { zones, tree, owners, .. } = self;
        Spare { zones, tree, owners }
    }
}

/// Prints what somebody does, and beneath it what came of it.
fn say(what: &str, outcome: Result<impl Display, impl Display>) {
    println!("{what}");
    match outcome {
        Ok(done) => println!("    {done}"),
        Err(refusal) => println!("    refused: {refusal}"),
    }
}

/// A machine asks, and it is said what came of it: the address of the answer, or 0 where it has none.
fn ask(monitor: &mut Monitor, number: u16, what: &str, request: Request) -> Result<u64, Refusal> {
    let number = u64::from(number);
    let answer = monitor.ask(number, request);
    let told =
        answer.map(|address| address.map_or("done".to_string(), |address| format!("done: {address:#x}")));
    say(&format!("{} {what}", name(number)), told);
    answer.map(|address| address.unwrap_or(0))
}

/// A machine asks for what it must not have.
fn must_be_refused(monitor: &mut Monitor, number: u16, what: &str, request: Request) {
    let answer = ask(monitor, number, what, request);
    assert!(answer.is_err(), "{} has what is not its own", name(u64::from(number)));
}

/// A configuration in which graphics' memory begins in replay's is refused before anything is started.
fn refuse_wrong_configuration() {
    let mut machines = MACHINES;
    let wrong = [memory(0x13_f000, 64), PICTURES];
    machines[1].regions = &wrong;
    say("A configuration in which graphics has a page of replay's:", accepted(&written(&machines)));
    say("The configuration as it should be:", accepted(&written(&MACHINES)));
}

/// Says that bytes are a configuration that is right, or why not.
fn accepted(bytes: &[u8]) -> Result<String, config::ConfigRefusal> {
    config::check(bytes).map(|()| format!("accepted: {} bytes", bytes.len()))
}

/// A machine is added and given its regions: to its processors all of them, to its devices what is shared.
fn bring_in(monitor: &mut Monitor, machine: &Machine) -> Result<(), Refusal> {
    let number = u64::from(machine.number);
    monitor.add_zone(number)?;
    machine.regions.iter().try_for_each(|&region| monitor.insert_region(number, region))?;
    let mut shared = machine.regions.iter().filter(|region| region.kind == Kind::Shared);
    shared.try_for_each(|&region| monitor.insert_iommu_region(number, region))
}

/// Replay and graphics take frames, and graphics writes into one of its own: the addresses of the first of each.
fn take_frames(monitor: &mut Monitor) -> Result<(u64, u64), Refusal> {
    let eight = Request::AllocContiguous { size: 8, align_log2: 3 };
    let clip = ask(monitor, REPLAY, "takes eight frames at a multiple of eight", eight)?;
    let caption = ask(monitor, GRAPHICS, "takes a frame, and writes into it", Request::Alloc)?;
    monitor.frame_words(u64::from(GRAPHICS), caption)?.fill(0x601d);
    ask(monitor, GRAPHICS, "takes another frame", Request::Alloc)?;
    Ok((clip, caption))
}

/// Graphics asks for what is not its own.
fn misbehave(monitor: &mut Monitor, clip: u64) {
    let memory = Request::Insert(Which::Processors, REPLAY_GIVEN[0]);
    must_be_refused(monitor, GRAPHICS, "wants replay's memory for its processors", memory);
    let recorder = Request::Insert(Which::Devices, RECORDER);
    must_be_refused(monitor, GRAPHICS, "wants the recorder for its devices", recorder);
    must_be_refused(monitor, GRAPHICS, "gives replay's frame back", Request::Dealloc { address: clip });
    let pictures = Request::Insert(Which::Processors, PICTURES);
    must_be_refused(monitor, GRAPHICS, "inserts the pictures a second time", pictures);
}

/// Graphics asks in one list for more than there is, and gets nothing.
fn ask_too_much(monitor: &mut Monitor, spare: &mut Lent) {
    let sixteen = Request::AllocContiguous { size: 16, align_log2: 0 };
    let list = [Request::Alloc, sixteen, sixteen];
    let mut buffer = vec![0; Call::List(&list).bytes_needed()];
    let call = Call::List(&list).encode(&mut buffer).expect("the buffer has room for the list");
    let mut answers = vec![0; answers_for(call.len())];
    let reply = monitor.serve(&mut spare.spare(), u64::from(GRAPHICS), call, &mut answers);
    say("graphics wants 1, 16 and 16 frames, all or none", reply.map(|_| "done"));
}

/// Prints all machines, and whose each frame is.
fn print_map(monitor: &Monitor) -> Result<(), Refusal> {
    for machine in monitor.machines() {
        print_machine(monitor, machine?)?;
    }
    let frames: Vec<Frame> = monitor.frames().collect::<Result<_, _>>()?;
    print!("{}", runs_of(&frames));
    Ok(())
}

/// Prints whether a machine is there, and what it reaches.
fn print_machine(monitor: &Monitor, machine: replayframes::Machine) -> Result<(), Refusal> {
    let frames = monitor.frames_of(machine.number).collect::<Result<Vec<_>, _>>()?.len();
    let state = if machine.is_there { "is there" } else { "is not there" };
    println!("  {} {state}; frames: {frames}", name(machine.number));
    let regions = |which| monitor.regions(machine.number, which).map(move |region| (which, region));
    for (which, region) in Which::BOTH.into_iter().flat_map(regions) {
        println!("    {}", described(region?, which));
    }
    Ok(())
}

/// A region in a set, as a line.
fn described(region: Region, which: Which) -> String {
    let Region { guest, host, pages, kind } = region;
    let set = match which {
        Which::Processors => "processors",
        Which::Devices => "devices",
    };
    format!("{set:<10} {guest:#09x} is host {host:#08x}, {pages:>2} pages, {kind:?}")
}

/// The frames as lines, one for each run that has the same owner.
fn runs_of(frames: &[Frame]) -> String {
    let mut text = String::new();
    let mut left = frames;
    while let Some(first) = left.first() {
        let length = left.iter().take_while(|frame| frame.state == first.state).count();
        let owner = match first.state {
            State::Free => "free",
            State::Reserved => "reserved",
            State::Owned(number) => name(number),
        };
        let end = first.address + FRAME_BYTES * length as u64;
        writeln!(text, "  frames {:#x} to {end:#x}: {owner}", first.address).expect("text has room");
        left = &left[length..];
    }
    text
}

/// Graphics goes, and replay is given the frame into which graphics wrote: nothing is left in it.
fn remove_graphics(monitor: &mut Monitor, caption: u64) -> Result<(), Refusal> {
    let whole = Request::RemoveZoneWhole;
    ask(monitor, GRAPHICS, "crashes, and is removed with all that it has", whole)?;
    let frame = ask(monitor, REPLAY, "takes a frame", Request::Alloc)?;
    let is_empty = monitor.frame_words(u64::from(REPLAY), frame)?.iter().all(|&word| word == 0);
    println!("    it was graphics' own: {}; it is all zero: {is_empty}", frame == caption);
    Ok(())
}

/// The match: from the configuration to the end of graphics.
fn run() -> Result<(), Refusal> {
    refuse_wrong_configuration();
    let sizes = to_lend(MACHINES.len() as u64, SLOTS, FRAMES)?;
    let (mut lent, mut spare) = (Lent::new(sizes), Lent::new(Sizes { words: 0, ..sizes }));
    let mut monitor = Monitor::start(&written(&MACHINES), lent.memories())?;
    MACHINES.iter().try_for_each(|machine| bring_in(&mut monitor, machine))?;
    let (clip, caption) = take_frames(&mut monitor)?;
    misbehave(&mut monitor, clip);
    ask_too_much(&mut monitor, &mut spare);
    println!("Who has what:");
    print_map(&monitor)?;
    remove_graphics(&mut monitor, caption)?;
    println!("Who has what then:");
    print_map(&monitor)?;
    say("The memories are checked:", monitor.check().map(|()| "sound"));
    Ok(())
}

fn main() {
    if let Err(refusal) = run() {
        eprintln!("refused: {refusal}");
        std::process::exit(1);
    }
}
