//! How to read the picture: a sample of each thing that can stand in a line, and how wide things are. The file and the
//! page say it in the same words.
use super::drawing::{drawing, rectangle, share, words, MEASURE};
use super::layout::Piece;
use super::words::{bytes, size};
use super::{Kind, Machine, Reach, Scene, Span, What};

/// How to read a line.
pub const READING: &str = "Each block is a run of host pages that are alike, in the order of their addresses. The \
    stripe above a region shows whose processors reach it now, the stripe below whose devices; an empty stripe: \
    nobody's. Frames without stripes are reached by their owner, and nobody else.";

/// How wide things are, in words.
pub const SCALE: &str =
    "Widths are logarithmic: a page has the first width here, and every doubling adds the same. A \
    gap has one width, however large. The blocks below have 1, 16, 256, 4,096, 65,536 and 1,048,576 pages.";

/// How wide a sample is, in thousandths of a line: enough for a mark or two.
const WIDTH: u64 = 55;

/// A drawing of each thing that can stand in a line, with what it is.
pub fn samples() -> Vec<(String, &'static str)> {
    let sample = |piece: &Piece| drawing(&two_machines(), piece, WIDTH);
    let one = |(span, caption): (Span, &'static str)| (sample(&Piece::Spans(&[span])), caption);
    let runs =
        [What::Owned { owner: 0 }, What::Free, What::Owned { owner: 1 }].map(|what| span(what, Vec::new()));
    let several = "several runs of frames, too narrow to draw apart, by owners' shares";
    let gap = Piece::Fold { from: 0, end: 3 << 30 };
    let others = [
        (sample(&Piece::Spans(&runs)), several),
        (sample(&gap), "a gap that the configuration names nowhere"),
    ];
    spans().into_iter().map(one).chain(others).collect()
}

/// A span of each kind, with what it is.
fn spans() -> Vec<(Span, &'static str)> {
    let given = |kind| What::Given { owner: 0, kind };
    let reach = |machine, devices| Reach { machine, guest: 0, processors: true, devices };
    let shared = span(What::SharedRegion { owners: vec![0, 1] }, vec![reach(0, true), reach(1, false)]);
    let memory = span(given(Kind::Ordinary), vec![reach(0, true)]);
    vec![
        (memory, "memory of A, reached by its processors and devices"),
        (span(given(Kind::Ordinary), Vec::new()), "pale: memory that A is given, and nobody reaches now"),
        (span(given(Kind::Device), vec![reach(0, false)]), "a device of A, reached by its processors"),
        (shared, "shared by A and B; B's devices don't reach it"),
        (span(What::Owned { owner: 0 }, Vec::new()), "frames that A owns, and so reaches"),
        (span(What::Free, Vec::new()), "free frames"),
        (span(What::Reserved, Vec::new()), "reserved frames"),
    ]
}

/// A span of some pages.
fn span(what: What, reach: Vec<Reach>) -> Span {
    Span { host: 0, pages: 25, what, reach }
}

/// A scene with two machines, whose keys are A and B.
fn two_machines() -> Scene {
    let machine = |number| Machine { name: String::new(), number, there: true };
    Scene { title: String::new(), machines: vec![machine(1), machine(2)], spans: Vec::new(), note: None }
}

/// Blocks of 1, 16, 256 and more pages, as wide as in a line.
pub fn ruler() -> String {
    let mut drawn = String::new();
    let mut at = 0;
    for pages in [0, 4, 8, 12, 16, 20].map(|doublings| 1 << doublings) {
        let width = MEASURE.width(pages);
        drawn += &format!("<svg x=\"{}\" width=\"{}\" height=\"24\">", share(at), share(width));
        drawn += &(rectangle("free", 0.0, 24.0) + &rectangle("edge frames", 0.0, 24.0));
        drawn += &(words("", &size(bytes(pages)), width, 17) + "</svg>");
        at += width;
    }
    drawn
}

#[cfg(test)]
mod tests {
    use super::*;

    #[test]
    fn every_sample_is_drawn_otherwise() {
        let samples = samples();
        let same = |(index, (drawing, _)): (usize, &(String, &str))| {
            samples[..index].iter().any(|one| one.0 == *drawing)
        };
        assert_eq!(samples.iter().enumerate().filter(|&sample| same(sample)).count(), 0);
    }

    #[test]
    fn the_ruler_is_no_wider_than_a_line() {
        let pages = [0, 4, 8, 12, 16, 20].map(|doublings| 1 << doublings);
        assert!(pages.map(|pages| MEASURE.width(pages)).iter().sum::<u64>() <= MEASURE.line);
    }
}
