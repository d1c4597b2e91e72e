//! Scenes to try the picture with: the truck, a machine that has nothing, many spans with strange names, and the
//! ends of memory.
use super::{Kind, Machine, Reach, Scene, Span, What};

/// Every scene to try.
pub fn all() -> Vec<Scene> {
    vec![truck(), empty(), nasty(), edges(), alternating(1), alternating(10_000)]
}

/// A machine that is there.
fn machine(name: &str, number: u64) -> Machine {
    Machine { name: name.to_string(), number, there: true }
}

/// A reach by processors, devices or both.
fn reach(machine: usize, guest: u64, processors: bool, devices: bool) -> Reach {
    Reach { machine, guest, processors, devices }
}

/// Memory that a machine is given, reached at a guest address by its processors and devices.
fn memory(host: u64, pages: u64, owner: usize, guest: u64) -> Span {
    let reach = vec![reach(owner, guest, true, true)];
    Span { host, pages, what: What::Given { owner, kind: Kind::Ordinary }, reach }
}

/// A device that a machine is given and its processors reach at the same address.
fn device(host: u64, pages: u64, owner: usize) -> Span {
    let what = What::Given { owner, kind: Kind::Device };
    Span { host, pages, what, reach: vec![reach(owner, host, true, false)] }
}

/// Frames, which no set of regions has.
fn frames(host: u64, pages: u64, what: What) -> Span {
    Span { host, pages, what, reach: Vec::new() }
}

/// Runs of frames one behind the other, from a host address on.
fn runs(host: u64, lengths: &[(u64, What)]) -> Vec<Span> {
    let start = |index: usize| host + 4096 * lengths[..index].iter().map(|(pages, _)| pages).sum::<u64>();
    lengths
        .iter()
        .enumerate()
        .map(|(index, (pages, what))| frames(start(index), *pages, what.clone()))
        .collect()
}

/// The truck with its four machines, a region shared by two, devices, and a pool that is partly owned.
pub fn truck() -> Scene {
    let owned = |owner| What::Owned { owner };
    let mut spans = vec![
        memory(0x4000_0000, 1_048_576, 0, 0),
        memory(0x1_4000_0000, 262_144, 1, 0),
        memory(0x1_8000_0000, 65_536, 2, 0),
        Span { reach: Vec::new(), ..memory(0x1_9000_0000, 32_768, 3, 0) },
        Span {
            host: 0x2_0000_0000,
            pages: 1_024,
            what: What::SharedRegion { owners: vec![0, 1] },
            reach: vec![reach(0, 0x8000_0000, true, true), reach(1, 0x9000_0000, true, false)],
        },
    ];
    spans.extend(runs(
        0x3_0000_0000,
        &[
            (4_096, owned(0)),
            (1, owned(1)),
            (1, What::Free),
            (512, owned(0)),
            (16, owned(2)),
            (1, owned(0)),
            (3, owned(2)),
            (60_000, What::Free),
            (906, What::Reserved),
        ],
    ));
    spans.extend([device(0xfe00_0000_0000, 32, 0), device(0xfe00_0100_0000, 16, 1)]);
    spans.push(Span { reach: Vec::new(), ..device(0xfe00_0200_0000, 1, 2) });
    let mut machines = vec![machine("replay", 1), machine("graphics", 2), machine("sound", 3)];
    machines.push(Machine { there: false, ..machine("commentary", 4) });
    Scene { title: String::from("The truck"), machines, spans, note: None }
}

/// One machine, and no memory at all.
pub fn empty() -> Scene {
    let machines = vec![Machine { there: false, ..machine("idle", 1) }];
    Scene { title: String::from("Nothing yet"), machines, spans: Vec::new(), note: None }
}

/// The lowest and the highest page, a span of nearly all pages, and the last page of all.
pub fn edges() -> Scene {
    let half = 1 << 63;
    let spans = vec![memory(0, 1 << 51, 0, 0), memory(half, (1 << 51) - 1, 0, half)];
    let last = Span { host: u64::MAX - 4095, pages: 1, what: What::Free, reach: Vec::new() };
    let spans = spans.into_iter().chain([last]).collect();
    Scene {
        title: String::from("The ends of memory"),
        machines: vec![machine("all", 65_535)],
        spans,
        note: None,
    }
}

/// Spans that overlap, are out of order, have no page or too many, and name machines that are none.
pub fn broken() -> Scene {
    let none =
        Span { host: 4096, pages: 0, what: What::SharedRegion { owners: Vec::new() }, reach: Vec::new() };
    let unknown =
        Span { reach: vec![reach(100, u64::MAX, false, false)], ..memory(u64::MAX, u64::MAX, 99, 0) };
    let spans =
        vec![unknown, frames(0, u64::MAX, What::Owned { owner: usize::MAX }), none, memory(0, 1, 0, 0)];
    Scene { title: String::new(), machines: Vec::new(), spans, note: Some(String::new()) }
}

/// So many frames, alternately owned and free.
pub fn alternating(count: u64) -> Scene {
    let what = |index| if index % 2 == 0 { What::Owned { owner: 0 } } else { What::Free };
    let spans = (0..count).map(|index| frames(0x1000_0000 + 4096 * index, 1, what(index))).collect();
    Scene { title: String::from("Alternating"), machines: vec![machine("one", 1)], spans, note: None }
}

/// Sixty-four machines with strange names, thirty-two regions each, and thousands of runs of frames.
pub fn nasty() -> Scene {
    let strange = [
        "<script>alert(1)</script>",
        "\u{202e}back\nwards\0",
        "日本語の機械",
        "\"'&]]>--><!--",
        "",
        "é\u{301}\u{301}",
    ];
    let name = |index: usize| match index {
        0 => "a name that goes on and on ".repeat(20),
        1 => "x".repeat(300),
        _ => format!("{} {index}", strange[index % strange.len()]),
    };
    let machines = (0..64).map(|index| machine(&name(index), 1000 + index as u64)).collect();
    let region = |index: u64| {
        memory(0x1_0000_0000 * (index + 1), 1 << (index % 20), index as usize % 64, 4096 * index)
    };
    let mut spans: Vec<Span> = (0..2_048).map(region).collect();
    spans[5].what = What::SharedRegion { owners: (0..64).collect() };
    spans[5].reach = (0..64).map(|machine| reach(machine, 0, machine % 2 == 0, machine % 3 == 0)).collect();
    let pool: Vec<(u64, What)> = (0..6_000u64)
        .map(|index| match index % 3 {
            0 => (1 + index % 5, What::Owned { owner: index as usize % 64 }),
            1 => (1 + index % 900 * u64::from(index % 100 == 1), What::Free),
            _ => (1, What::Reserved),
        })
        .collect();
    spans.extend(runs(0x0100_0000_0000_0000, &pool));
    let note = Some("A note with <b>markup</b> & a very long tail: ".to_string() + &"tail ".repeat(60));
    Scene {
        title: "Nasty <title> & \"quotes\" \u{202e}".to_string() + &"long".repeat(60),
        machines,
        spans,
        note,
    }
}
