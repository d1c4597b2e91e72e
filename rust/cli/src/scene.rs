//! The scene of the map from a monitor: what each host page is that the configuration names, and who reaches it now.
//! The names of machines come from the plan, all else from the monitor.
use crate::map::{Kind, Machine, Reach, Scene, Span, What};
use crate::plan::Plan;
use replayframes::{Frame, Kind as Given, Monitor, Refusal, Region, State, Which};

/// The scene of a monitor that was started from a plan, with memory for so many frames.
pub fn of(
    monitor: &Monitor,
    plan: &Plan,
    frames: u64,
    title: &str,
    note: Option<String>,
) -> Result<Scene, Refusal> {
    let machines = machines(monitor, plan)?;
    let mut spans = given(monitor, &machines)?;
    spans.extend(pool(monitor, &machines, frames)?);
    spans.sort_by_key(|span| span.host);
    Ok(Scene { title: title.to_string(), machines, spans, note })
}

/// The machines, by their places.
fn machines(monitor: &Monitor, plan: &Plan) -> Result<Vec<Machine>, Refusal> {
    let machines = monitor.machines().zip(&plan.machines);
    let named = machines.map(|(machine, planned)| {
        machine.map(|found| Machine {
            name: planned.name.clone(),
            number: found.number,
            there: found.is_there,
        })
    });
    named.collect()
}

/// The spans of the regions that machines are given: one for those that coincide.
fn given(monitor: &Monitor, machines: &[Machine]) -> Result<Vec<Span>, Refusal> {
    let mut spans: Vec<Span> = Vec::new();
    for (owner, machine) in machines.iter().enumerate() {
        for region in monitor.given(machine.number) {
            let region = region?;
            let span = place_for(&mut spans, &region, owner);
            span.reach.extend(reach(monitor, machine.number, owner, &region)?);
        }
    }
    Ok(spans)
}

/// The span of a region, which another machine's shared region may have made already.
fn place_for<'a>(spans: &'a mut Vec<Span>, region: &Region, owner: usize) -> &'a mut Span {
    let at = spans.iter().position(|span| span.host == region.host).unwrap_or(spans.len());
    if at == spans.len() {
        spans.push(Span {
            host: region.host,
            pages: region.pages,
            what: what(region, owner),
            reach: Vec::new(),
        });
    } else if let What::SharedRegion { owners } = &mut spans[at].what {
        owners.push(owner);
    }
    &mut spans[at]
}

/// What a region of a machine is.
fn what(region: &Region, owner: usize) -> What {
    match region.kind {
        Given::Ordinary => What::Given { owner, kind: Kind::Ordinary },
        Given::Device => What::Given { owner, kind: Kind::Device },
        Given::Shared => What::SharedRegion { owners: vec![owner] },
    }
}

/// How a machine reaches a region now, if it does.
fn reach(monitor: &Monitor, number: u64, machine: usize, region: &Region) -> Result<Option<Reach>, Refusal> {
    let [processors, devices] = Which::BOTH.map(|which| holds(monitor, number, which, region));
    let (processors, devices) = (processors?, devices?);
    Ok((processors || devices).then_some(Reach { machine, guest: region.guest, processors, devices }))
}

/// Whether a set of a machine has a region.
fn holds(monitor: &Monitor, number: u64, which: Which, region: &Region) -> Result<bool, Refusal> {
    let regions: Vec<Region> = monitor.regions(number, which).collect::<Result<_, _>>()?;
    Ok(regions.contains(region))
}

/// The spans of the pool: runs of frames of one state, and the frames without memory, which are reserved.
fn pool(monitor: &Monitor, machines: &[Machine], frames: u64) -> Result<Vec<Span>, Refusal> {
    let pool = monitor.pool()?;
    let held = usize::try_from(frames.min(pool.pages)).map_err(|_| Refusal::TooMany)?;
    let mut spans: Vec<Span> = Vec::new();
    for frame in monitor.frames().take(held) {
        push_frame(&mut spans, frame?, machines);
    }
    let (beyond, pages) = (pool.host + replayframes::FRAME_BYTES * held as u64, pool.pages - held as u64);
    if pages > 0 {
        spans.push(Span { host: beyond, pages, what: What::Reserved, reach: Vec::new() });
    }
    Ok(spans)
}

/// Puts a frame to the run before it, or begins another.
fn push_frame(spans: &mut Vec<Span>, frame: Frame, machines: &[Machine]) {
    let owner = |number| machines.iter().position(|machine| machine.number == number);
    let what = match frame.state {
        State::Free => What::Free,
        State::Reserved => What::Reserved,
        State::Owned(number) => owner(number).map_or(What::Reserved, |owner| What::Owned { owner }),
    };
    match spans.last_mut() {
        Some(span) if span.what == what => span.pages += 1,
        _ => spans.push(Span { host: frame.address, pages: 1, what, reach: Vec::new() }),
    }
}

#[cfg(test)]
mod tests {
    use super::of;
    use crate::bytes_form::compile;
    use crate::map::{Kind, Scene, What};
    use crate::running::Lent;
    use crate::script;
    use crate::toml_form;

    /// Two machines that share a page; `a` has a device and memory too; and a pool of eight frames.
    const TOML: &str = "pool = { host = 0x90000, pages = 8 }
[[machine]]
name = 'a'
number = 7
region = [
  { name = 'shared', guest = 0, host = 0x8000, pages = 1, kind = 'shared' },
  { name = 'device', guest = 0x1000, host = 0x5000, pages = 2, kind = 'device' },
  { name = 'memory', guest = 0x8000, host = 0x1000, pages = 2, kind = 'ordinary' },
]
[[machine]]
name = 'b'
number = 3
region = [{ name = 'shared', guest = 0x4000, host = 0x8000, pages = 1, kind = 'shared' }]
";

    /// The scene after a script, with memory for six frames.
    fn after(text: &str) -> Scene {
        let plan = toml_form::read("plan.toml", TOML).unwrap();
        let mut lent = Lent::new(&plan, 6).unwrap();
        let mut running = lent.start(&compile(&plan)).unwrap();
        for item in script::read("script", text, &plan).unwrap() {
            running.answer(&item);
        }
        of(&running.monitor, &plan, 6, "title", None).unwrap()
    }

    /// Where each span is, how long, and what.
    fn spans(scene: &Scene) -> Vec<(u64, u64, What)> {
        scene.spans.iter().map(|span| (span.host, span.pages, span.what.clone())).collect()
    }

    #[test]
    fn shows_what_is_given_and_the_pool() {
        let scene = after("");
        let wanted = [
            (0x1000, 2, What::Given { owner: 0, kind: Kind::Ordinary }),
            (0x5000, 2, What::Given { owner: 0, kind: Kind::Device }),
            (0x8000, 1, What::SharedRegion { owners: vec![0, 1] }),
            (0x90000, 6, What::Free),
            (0x96000, 2, What::Reserved),
        ];
        assert_eq!(spans(&scene), wanted);
        assert!(scene.spans.iter().all(|span| span.reach.is_empty()));
        assert!(scene.machines.iter().all(|machine| !machine.there));
    }

    #[test]
    fn shows_who_owns_which_frames() {
        let scene = after("a add\nb add\na alloc\nb alloc 2\na alloc\nb free 0x91000\n");
        let wanted = [
            (0x90000, 1, What::Owned { owner: 0 }),
            (0x91000, 1, What::Free),
            (0x92000, 1, What::Owned { owner: 1 }),
            (0x93000, 1, What::Owned { owner: 0 }),
            (0x94000, 2, What::Free),
            (0x96000, 2, What::Reserved),
        ];
        assert_eq!(spans(&scene)[3..], wanted);
    }

    #[test]
    fn shows_who_reaches_a_region() {
        let scene = after("b add\nb insert region shared\na add\na insert region shared for devices\n");
        let reach = scene.spans[2].reach.iter();
        let seen: Vec<_> = reach.map(|by| (by.machine, by.guest, by.processors, by.devices)).collect();
        assert_eq!(seen, [(0, 0, false, true), (1, 0x4000, true, false)]);
        assert_eq!((scene.machines[1].name.as_str(), scene.machines[1].number), ("b", 3));
        assert!(scene.machines.iter().all(|machine| machine.there));
    }
}
