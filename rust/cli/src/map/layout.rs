//! Where on the picture each span stands. Memory is a sequence of pieces in lines, each as wide as the logarithm of
//! its pages; gaps are folded to one width. Spans that are too many to draw apart stand in groups.
use super::{Scene, Span};
use std::collections::BTreeSet;

/// What is drawn as one: neighbouring spans, mostly one, or a gap between spans.
#[derive(Clone, Copy, Debug)]
pub enum Piece<'a> {
    Spans(&'a [Span]),
    Fold { from: u128, end: u128 },
}

/// A piece, where in its line it begins, and how wide it is.
#[derive(Clone, Copy, Debug)]
pub struct Placed<'a> {
    pub piece: Piece<'a>,
    pub at: u64,
    pub width: u64,
}

/// How wide things are, in parts of a line: the line, a page, what each doubling of pages adds, and a fold.
pub struct Measure {
    pub line: u64,
    pub page: u64,
    pub doubling: f64,
    pub fold: u64,
}

/// How many regions, and how many runs of frames, are drawn apart.
pub struct Apart {
    pub regions: usize,
    pub frames: usize,
}

/// Spans of at most so many pages stand in groups of at most so many.
#[derive(Clone, Copy)]
struct Crowd {
    pages: u64,
    together: usize,
}

impl Measure {
    /// How wide so many pages are.
    pub fn width(&self, pages: u128) -> u64 {
        let doublings = (pages.max(1) as f64).log2();
        (self.page + (self.doubling * doublings).round() as u64).min(self.line)
    }

    /// How wide a piece is.
    fn width_of(&self, piece: &Piece) -> u64 {
        match piece {
            Piece::Spans(spans) => self.width(pages_of(spans)),
            Piece::Fold { .. } => self.fold,
        }
    }
}

impl Piece<'_> {
    /// Whether these are frames; a fold belongs to what is before it.
    fn is_frames(&self) -> Option<bool> {
        match self {
            Piece::Spans(spans) => spans.first().map(|span| span.what.is_frames()),
            Piece::Fold { .. } => None,
        }
    }

    /// The machines that reach some of it, through their sets or because they own it, each once.
    pub fn reached_by(&self) -> BTreeSet<usize> {
        let spans = match self {
            Piece::Spans(spans) => *spans,
            Piece::Fold { .. } => &[],
        };
        let owners =
            |span: &Span| if span.what.is_frames() { span.what.owners().to_vec() } else { Vec::new() };
        let by_sets = spans.iter().flat_map(|span| &span.reach).map(|reach| reach.machine);
        by_sets.chain(spans.iter().flat_map(owners)).collect()
    }

    /// The first host address.
    pub fn from(&self) -> u128 {
        match self {
            Piece::Spans(spans) => spans.first().map_or(0, |span| span.host.into()),
            Piece::Fold { from, .. } => *from,
        }
    }

    /// The host address behind the last byte.
    pub fn end(&self) -> u128 {
        match self {
            Piece::Spans(spans) => spans.last().map_or(0, Span::end),
            Piece::Fold { end, .. } => *end,
        }
    }
}

/// All pages of some spans.
pub fn pages_of(spans: &[Span]) -> u128 {
    spans.iter().map(|span| u128::from(span.pages)).sum()
}

/// Whether a line shows frames.
pub fn shows_frames(line: &[Placed]) -> bool {
    line.iter().find_map(|placed| placed.piece.is_frames()).unwrap_or(false)
}

/// The pieces of a scene in lines. Regions and frames don't stand in one line.
pub fn lines<'a>(scene: &'a Scene, apart: &Apart, measure: &Measure) -> Vec<Vec<Placed<'a>>> {
    let mut lines: Vec<Vec<Placed>> = Vec::new();
    for piece in pieces(scene, apart) {
        let width = measure.width_of(&piece);
        let last = lines.last().filter(|line| belongs(&piece, width, line, measure));
        let at = last.and_then(|line| line.last()).map(|placed| placed.at + placed.width);
        let placed = Placed { piece, at: at.unwrap_or(0), width };
        match (at, lines.last_mut()) {
            (Some(_), Some(line)) => line.push(placed),
            _ => lines.push(vec![placed]),
        }
    }
    lines
}

/// Whether a piece goes on a line that is begun: there is room, and it shows frames if the line does.
fn belongs(piece: &Piece, width: u64, line: &[Placed], measure: &Measure) -> bool {
    let fits = line.last().map_or(true, |last| last.at + last.width + width <= measure.line);
    let begun = line.iter().find_map(|placed| placed.piece.is_frames());
    fits && (begun.is_none() || piece.is_frames().is_none() || begun == piece.is_frames())
}

/// The pieces of a scene in the order of host addresses.
pub fn pieces<'a>(scene: &'a Scene, apart: &Apart) -> Vec<Piece<'a>> {
    let mut pieces: Vec<Piece> = Vec::new();
    for spans in groups(&scene.spans, apart) {
        let piece = Piece::Spans(spans);
        let (from, end) = (pieces.last().map_or(piece.from(), Piece::end), piece.from());
        pieces.extend(Some(Piece::Fold { from, end }).filter(|_| from < end));
        pieces.push(piece);
    }
    pieces
}

/// The spans cut where one piece ends and the next begins.
fn groups<'a>(spans: &'a [Span], apart: &Apart) -> Vec<&'a [Span]> {
    let crowds = [crowd(spans, false, apart.regions), crowd(spans, true, apart.frames)];
    let mut groups = Vec::new();
    let mut rest = spans;
    while let Some(first) = rest.first() {
        let (group, behind) = rest.split_at(together(rest, crowds[usize::from(first.what.is_frames())]));
        groups.push(group);
        rest = behind;
    }
    groups
}

/// How many of the first spans stand together.
fn together(spans: &[Span], crowd: Crowd) -> usize {
    let frames = spans[0].what.is_frames();
    let alike = |span: &&Span| span.pages <= crowd.pages && span.what.is_frames() == frames;
    spans.iter().take(crowd.together).take_while(alike).count().max(1)
}

/// Which regions, or frames, stand in groups where at most so many stand alone: none if they are no more, and else
/// all but the largest half as many.
fn crowd(spans: &[Span], frames: bool, most: usize) -> Crowd {
    let mut pages: Vec<u64> =
        spans.iter().filter(|span| span.what.is_frames() == frames).map(|span| span.pages).collect();
    if pages.len() <= most {
        return Crowd { pages: 0, together: 1 };
    }
    pages.sort_unstable_by(|a, b| b.cmp(a));
    let alone = (most / 2).max(1);
    Crowd { pages: pages[alone.min(pages.len() - 1)], together: (pages.len() + alone - 1) / alone }
}

#[cfg(test)]
mod tests {
    use super::*;
    use crate::map::scenes;

    const MEASURE: Measure = Measure { line: 1000, page: 30, doubling: 11.0, fold: 45 };
    const APART: Apart = Apart { regions: 100, frames: 40 };

    #[test]
    fn every_span_is_in_one_piece_in_order() {
        for scene in scenes::all() {
            let pieces = pieces(&scene, &APART);
            let drawn = pieces.iter().flat_map(|piece| match piece {
                Piece::Spans(spans) => spans.to_vec(),
                Piece::Fold { .. } => Vec::new(),
            });
            assert!(drawn.map(|span| span.host).eq(scene.spans.iter().map(|span| span.host)));
        }
    }

    #[test]
    fn pieces_touch() {
        for scene in scenes::all() {
            let pieces = pieces(&scene, &APART);
            assert!(pieces.windows(2).all(|pair| pair[0].end() == pair[1].from()), "{}", scene.title);
        }
    }

    #[test]
    fn widths_add_up_in_every_line() {
        for scene in scenes::all() {
            for line in lines(&scene, &APART, &MEASURE) {
                let ends =
                    line.iter().scan(0, |end, placed| Some(std::mem::replace(end, *end + placed.width)));
                assert!(ends.eq(line.iter().map(|placed| placed.at)));
                assert!(line.iter().map(|placed| placed.width).sum::<u64>() <= MEASURE.line);
            }
        }
    }

    #[test]
    fn a_line_has_regions_or_frames() {
        for line in scenes::all().iter().flat_map(|scene| lines(scene, &APART, &MEASURE)) {
            let kinds: Vec<bool> = line.iter().filter_map(|placed| placed.piece.is_frames()).collect();
            assert!(kinds.windows(2).all(|pair| pair[0] == pair[1]));
        }
    }

    #[test]
    fn a_doubling_adds_the_same_everywhere() {
        assert_eq!(MEASURE.width(1), 30);
        assert_eq!(MEASURE.width(2) - MEASURE.width(1), 11);
        assert_eq!(MEASURE.width(1 << 21) - MEASURE.width(1 << 20), 11);
        assert_eq!(MEASURE.width(1 << 52), 602);
    }

    #[test]
    fn many_runs_stand_in_few_groups() {
        let scene = scenes::alternating(10_000);
        let pieces = pieces(&scene, &APART);
        assert!(pieces.len() <= 2 * APART.frames, "{}", pieces.len());
        assert!(pieces.iter().all(|piece| matches!(piece, Piece::Spans(spans) if spans.len() > 1)));
    }

    #[test]
    fn the_largest_run_stands_alone() {
        let mut scene = scenes::alternating(10_000);
        scene.spans.truncate(5_000);
        scene.spans[4_999].pages = 60_000;
        let last = pieces(&scene, &APART).pop();
        assert!(matches!(last, Some(Piece::Spans([span])) if span.pages == 60_000));
    }
}
