//! What the spans of a scene come to, for each machine and in all.
use super::facts::name;
use super::words::{bytes, counted, grouped, shortened, size};
use super::{Scene, Span, What};

/// The pages that a machine is given, those that it reaches now, and the frames that it owns.
pub struct Totals {
    pub given: u128,
    pub reached: u128,
    pub owned: u128,
}

/// The totals of a machine.
pub fn totals(scene: &Scene, machine: usize) -> Totals {
    let owned = |span: &Span| matches!(span.what, What::Owned { owner } if owner == machine);
    Totals {
        given: pages(scene, |span| !span.what.is_frames() && span.what.owners().contains(&machine)),
        reached: pages(scene, |span| owned(span) || span.reach.iter().any(|reach| reach.machine == machine)),
        owned: pages(scene, owned),
    }
}

/// The pages of all spans that are as asked.
fn pages(scene: &Scene, asked: impl Fn(&Span) -> bool) -> u128 {
    scene.spans.iter().filter(|span| asked(span)).map(|span| u128::from(span.pages)).sum()
}

/// A machine with its totals, in one sentence.
pub fn sentence(scene: &Scene, machine: usize) -> String {
    let one = &scene.machines[machine];
    let totals = totals(scene, machine);
    let [given, reached, owned] = [totals.given, totals.reached, totals.owned].map(grouped);
    let name = shortened(&name(scene, machine), 24);
    let what = format!("{name} (number {}, {})", one.number, one.now());
    format!("{what}: pages given {given}, reached {reached}, frames owned {owned}")
}

/// The whole scene in one sentence.
pub fn summary(scene: &Scene) -> String {
    let regions = scene.spans.iter().filter(|span| !span.what.is_frames()).count() as u128;
    let given = size(bytes(pages(scene, |span| !span.what.is_frames())));
    let frames = counted(pages(scene, |span| span.what.is_frames()), "frame");
    let owned = grouped(pages(scene, |span| matches!(span.what, What::Owned { .. })));
    let free = grouped(pages(scene, |span| span.what == What::Free));
    let reserved = grouped(pages(scene, |span| span.what == What::Reserved));
    let machines = counted(scene.machines.len() as u128, "machine");
    let there = scene.machines.iter().filter(|machine| machine.there).count();
    format!(
        "{machines}, {there} there now; {} with {given}; {frames} of the allocator: {owned} owned, {free} free, \
         {reserved} reserved.",
        counted(regions, "region")
    )
}

#[cfg(test)]
mod tests {
    use super::*;
    use crate::map::scenes;

    #[test]
    fn a_machine_has_what_its_spans_say() {
        let replay = totals(&scenes::truck(), 0);
        assert_eq!((replay.given, replay.reached, replay.owned), (1_049_632, 1_054_241, 4_609));
    }

    #[test]
    fn a_sentence_has_all_totals() {
        let said = "replay (number 1, there): pages given 1,049,632, reached 1,054,241, frames owned 4,609";
        assert_eq!(sentence(&scenes::truck(), 0), said);
    }

    #[test]
    fn an_empty_scene_has_nothing() {
        let scene = scenes::empty();
        assert_eq!(totals(&scene, 0).given, 0);
        assert!(summary(&scene).starts_with("1 machine, 0 there now; 0 regions with 0 bytes; 0 frames"));
    }

    #[test]
    fn pages_up_to_the_end_of_memory_are_counted() {
        assert_eq!(totals(&scenes::edges(), 0).given, (1 << 51) + (1 << 51) - 1);
    }
}
