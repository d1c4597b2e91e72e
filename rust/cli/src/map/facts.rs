//! What is said of a piece of the picture: a heading, and facts by name. Titles, the page's panel and the text say
//! the same from here.
use super::layout::{pages_of, Piece};
use super::words::{bytes, grouped, listed, range, shortened, size, visible};
use super::{Kind, Reach, Scene, Span, What};
use std::cmp::Reverse;

/// The columns up to which a name is said where it is said often.
const NAME: usize = 40;

/// How many owners of a group, or machines that reach it, are named.
const NAMED: usize = 6;

/// A heading, and facts by name.
pub struct Facts {
    pub heading: String,
    pub rows: Vec<(&'static str, String)>,
}

impl Facts {
    /// The facts as lines, the heading first.
    pub fn lines(&self) -> String {
        let rows = self.rows.iter().map(|(name, fact)| format!("\n{name}: {fact}"));
        self.heading.clone() + &rows.collect::<String>()
    }
}

/// What is said of a piece.
pub fn facts(scene: &Scene, piece: &Piece) -> Facts {
    match piece {
        Piece::Spans([span]) => of_span(scene, span),
        Piece::Spans(spans) => of_group(scene, spans),
        Piece::Fold { from, end } => Facts {
            heading: String::from("Memory that the configuration names nowhere"),
            rows: vec![("Host", range(*from, *end)), ("Bytes", exact(end - from))],
        },
    }
}

/// The name by which a machine is called, or its number where it has none.
pub fn name(scene: &Scene, machine: usize) -> String {
    match scene.machines.get(machine) {
        Some(one) if one.name.trim().is_empty() => format!("machine {}", one.number),
        Some(one) => shortened(&visible(&one.name), NAME),
        None => String::from("an unknown machine"),
    }
}

/// The names of some machines, or of the first few and how many more there are.
fn names(scene: &Scene, machines: &[usize]) -> String {
    first_named(machines.iter().map(|&machine| name(scene, machine)).collect())
}

/// What is said of one span.
fn of_span(scene: &Scene, span: &Span) -> Facts {
    let mut rows = extent(span.host.into(), span.end(), span.pages.into());
    rows.push(("Owner", owner(scene, &span.what)));
    rows.push(("Reached by", reached(scene, span)));
    Facts { heading: heading(scene, span), rows }
}

/// What is said of spans that are too many to draw apart.
fn of_group(scene: &Scene, spans: &[Span]) -> Facts {
    let piece = Piece::Spans(spans);
    let mut rows = extent(piece.from(), piece.end(), pages_of(spans));
    let share = |(what, pages): (&What, u128)| format!("{} ({})", short(scene, what), grouped(pages));
    rows.push(("Pages by owner", first_named(holdings(spans).into_iter().map(share).collect())));
    let reach = piece.reached_by().into_iter().map(|machine| name(scene, machine));
    rows.push(("Reached, in part, by", first_named(reach.collect())));
    let frames = spans.iter().any(|span| span.what.is_frames());
    let thing = if frames { "runs of frames" } else { "regions and the gaps between them" };
    Facts { heading: format!("{} {thing}, too narrow to draw apart", grouped(spans.len() as u128)), rows }
}

/// The first few of some items, and how many more there are.
fn first_named(mut items: Vec<String>) -> String {
    let more = items.len().saturating_sub(NAMED);
    items.truncate(NAMED);
    items.extend(Some(format!("{more} more")).filter(|_| more > 0));
    if items.is_empty() {
        items.push(String::from("nobody now"));
    }
    listed(&items)
}

/// Where a piece is and how large.
fn extent(from: u128, end: u128, pages: u128) -> Vec<(&'static str, String)> {
    vec![("Host", range(from, end)), ("Pages", grouped(pages)), ("Bytes", exact(bytes(pages)))]
}

/// So many bytes, exactly and in the largest unit.
fn exact(bytes: u128) -> String {
    format!("{} ({})", grouped(bytes), size(bytes))
}

/// What a span is, with the name of its owner.
pub fn heading(scene: &Scene, span: &Span) -> String {
    let (frames, owned) = if span.pages == 1 { ("frame", "Frame") } else { ("frames", "Frames") };
    match &span.what {
        What::Given { owner, kind: Kind::Ordinary } => format!("Memory of {}", name(scene, *owner)),
        What::Given { owner, kind: Kind::Device } => format!("Device of {}", name(scene, *owner)),
        What::SharedRegion { owners } => format!("Shared by {}", names(scene, owners)),
        What::Free => format!("Free {frames}"),
        What::Owned { owner } => format!("{owned} of {}", name(scene, *owner)),
        What::Reserved => format!("Reserved {frames}"),
    }
}

/// Whose a span is, in few words.
fn short(scene: &Scene, what: &What) -> String {
    match what {
        What::Free => String::from("free"),
        What::Reserved => String::from("reserved"),
        _ => names(scene, what.owners()),
    }
}

/// Whose a span is, and by what right.
fn owner(scene: &Scene, what: &What) -> String {
    match what {
        What::Free => String::from("nobody: free to be handed out"),
        What::Reserved => String::from("the monitor: never handed out"),
        What::Owned { owner } => format!("{}, by the allocator", name(scene, *owner)),
        _ => format!("{}, by the configuration", names(scene, what.owners())),
    }
}

/// Who reaches a span now, where and by what.
pub fn reached(scene: &Scene, span: &Span) -> String {
    let reaches: Vec<String> = span.reach.iter().map(|reach| one_reach(scene, reach)).collect();
    match (&span.what, &reaches[..]) {
        (What::Owned { owner }, []) => format!("{}, the owner", name(scene, *owner)),
        (_, []) => String::from("nobody now"),
        _ => reaches.join("; "),
    }
}

/// One machine, the guest address at which it reaches a span, and by what.
fn one_reach(scene: &Scene, reach: &Reach) -> String {
    let by = match (reach.processors, reach.devices) {
        (true, true) => "by processors and devices",
        (true, false) => "by processors",
        (false, true) => "by devices",
        (false, false) => "by neither processors nor devices",
    };
    format!("{} at guest 0x{:x} {by}", name(scene, reach.machine), reach.guest)
}

/// What some spans are, each with all its pages, the most first.
pub fn holdings(spans: &[Span]) -> Vec<(&What, u128)> {
    let mut held: Vec<(&What, u128)> = Vec::new();
    for span in spans {
        match held.iter_mut().find(|(what, _)| *what == &span.what) {
            Some((_, pages)) => *pages += u128::from(span.pages),
            None => held.push((&span.what, span.pages.into())),
        }
    }
    held.sort_by_key(|&(_, pages)| Reverse(pages));
    held
}

#[cfg(test)]
mod tests {
    use super::*;
    use crate::map::scenes;

    #[test]
    fn a_span_says_where_it_is_whose_and_who_reaches_it() {
        let scene = scenes::truck();
        let said = facts(&scene, &Piece::Spans(&scene.spans[..1])).lines();
        assert_eq!(
            said,
            "Memory of replay\nHost: 0x40000000 to 0x13fffffff\nPages: 1,048,576\nBytes: 4,294,967,296 (4 GiB)\n\
             Owner: replay, by the configuration\nReached by: replay at guest 0x0 by processors and devices"
        );
    }

    #[test]
    fn a_group_says_what_it_holds() {
        let scene = scenes::alternating(10);
        let said = facts(&scene, &Piece::Spans(&scene.spans)).lines();
        assert!(said.starts_with("10 runs of frames, too narrow to draw apart\n"), "{said}");
        assert!(
            said.ends_with("\nPages by owner: one (5) and free (5)\nReached, in part, by: one"),
            "{said}"
        );
    }

    #[test]
    fn a_machine_that_is_none_is_said_to_be_unknown() {
        assert_eq!(name(&scenes::empty(), 9), "an unknown machine");
    }
}
