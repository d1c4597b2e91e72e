//! The drawing of a line of memory, for the file and the page alike. Places in a line are shares of its width, so that
//! a line can be as wide as there is room, and its text stays readable.
use super::facts::{facts, holdings, name};
use super::layout::{pages_of, shows_frames, Apart, Measure, Piece, Placed};
use super::looks::{class, key};
use super::words::{bytes, columns, escaped, grouped, range, size};
use super::{Kind, Reach, Scene, Span, What};

/// How wide things are, in thousandths of a line.
pub const MEASURE: Measure = Measure { line: 1000, page: 30, doubling: 11.0, fold: 52 };

/// As many regions as a configuration can have are drawn apart; of runs of frames, what one can look at.
pub const APART: Apart = Apart { regions: 2048, frames: 400 };

/// The height of a line.
pub const HEIGHT: u64 = 68;

/// The height of a stripe.
const STRIPE: f64 = 10.0;

/// Where the blocks of a line begin, below the upper stripe.
const BLOCK: f64 = 13.0;

/// How high blocks are.
const TALL: f64 = 42.0;

/// The height at which the one text of a block stands.
const MIDDLE: u64 = 38;

/// The narrowest line in which labels are chosen for a wide one.
const WIDE: u64 = 800;

/// The narrowest line of all, for which labels are chosen otherwise.
const SLIM: u64 = 330;

/// A line of the picture: its pieces, each with its title.
pub fn line(scene: &Scene, line: &[Placed]) -> String {
    line.iter().map(|placed| titled(scene, placed)).collect()
}

/// A piece with its title, which can be pointed at and focused. Its classes say which machines reach it.
fn titled(scene: &Scene, placed: &Placed) -> String {
    let title = escaped(&facts(scene, &placed.piece).lines());
    let (at, width) = (share(placed.at), share(placed.width));
    let drawing = drawing(scene, &placed.piece, placed.width);
    let reach: String = placed.piece.reached_by().iter().map(|machine| format!(" r{machine}")).collect();
    format!(
        "<svg class=\"piece{reach}\" tabindex=\"0\" role=\"img\" x=\"{at}\" width=\"{width}\" height=\"{HEIGHT}\">\
         <title>{title}</title>{drawing}</svg>\n"
    )
}

/// Thousandths of a line as a share.
pub fn share(thousandths: u64) -> String {
    format!("{}.{}%", thousandths / 10, thousandths % 10)
}

/// A piece in a box of its own, of so many thousandths of a line.
pub fn drawing(scene: &Scene, piece: &Piece, width: u64) -> String {
    match piece {
        Piece::Spans([span]) => {
            stripes(&span.what, &span.reach) + &block(span) + &edge(&span.what) + &label(scene, span, width)
        }
        Piece::Spans(spans) => group(spans, width),
        Piece::Fold { from, end } => fold(end - from),
    }
}

/// The stripes of a region: above it whose processors reach it, below whose devices. Frames have some only where a
/// set of regions has them.
fn stripes(what: &What, reach: &[Reach]) -> String {
    let by = |asked: fn(&Reach) -> bool| -> Vec<usize> {
        reach.iter().filter(|reach| asked(reach)).map(|reach| reach.machine).collect()
    };
    if what.is_frames() && reach.is_empty() {
        return String::new();
    }
    stripe(&by(|reach| reach.processors), 0.0) + &stripe(&by(|reach| reach.devices), HEIGHT as f64 - STRIPE)
}

/// A stripe, shared by some machines, or empty.
fn stripe(machines: &[usize], y: f64) -> String {
    if machines.is_empty() {
        return rectangle("none", y, STRIPE);
    }
    bands(machines, y, STRIPE)
}

/// Machines one below the other, equally high.
fn bands(machines: &[usize], y: f64, height: f64) -> String {
    let each = height / machines.len() as f64;
    let band = |(index, &machine): (usize, &usize)| rectangle(&class(machine), y + each * index as f64, each);
    machines.iter().enumerate().map(band).collect()
}

/// A rectangle across the whole box.
pub fn rectangle(class: &str, y: f64, height: f64) -> String {
    let [y, height] = [y, height].map(|length| (length * 100.0).round() / 100.0);
    format!("<rect class=\"{class}\" y=\"{y}\" width=\"100%\" height=\"{height}\"/>")
}

/// What a span is, as a fill of so much height.
fn fill(what: &What, y: f64, height: f64) -> String {
    match what {
        What::Free => rectangle("free", y, height),
        What::Reserved => rectangle("held", y, height),
        _ => bands(what.owners(), y, height),
    }
}

/// The block of a span, pale where nobody reaches a region.
fn block(span: &Span) -> String {
    let block = fill(&span.what, BLOCK, TALL);
    if span.reach.is_empty() && !span.what.is_frames() {
        return format!("<g class=\"idle\">{block}</g>");
    }
    block
}

/// The edge of a block: bold around what is shared, with pins on a device.
fn edge(what: &What) -> String {
    let class = match what {
        What::SharedRegion { .. } => "edge bold",
        What::Free | What::Reserved => "edge frames",
        _ => "edge",
    };
    let pins = |y| format!("<line class=\"pins\" x2=\"100%\" y1=\"{y}\" y2=\"{y}\"/>");
    let device = matches!(what, What::Given { kind: Kind::Device, .. });
    let pins = if device { pins(BLOCK) + &pins(BLOCK + TALL) } else { String::new() };
    rectangle(class, BLOCK, TALL) + &pins
}

/// What a span is called in its block, and how large it is: as much as there is room for.
fn label(scene: &Scene, span: &Span, width: u64) -> String {
    let ((short, long), size) = (called(scene, &span.what), size(bytes(span.pages.into())));
    in_both(|line| {
        let (above, below) = (fitting(&short, &long, width, line), fitting("", &size, width, line));
        text_at(above, if below.is_empty() { MIDDLE } else { 31 }) + &text_at(below, 48)
    })
}

/// What a span is called, in a mark or two and in words.
fn called(scene: &Scene, what: &What) -> (String, String) {
    let keys: String = what.owners().iter().map(|&owner| key(owner)).collect();
    match what {
        What::Free => (String::from("–"), String::from("free")),
        What::Reserved => (String::from("×"), String::from("reserved")),
        What::SharedRegion { owners } if owners.len() > 4 => {
            (String::from("+"), format!("shared by {}", owners.len()))
        }
        What::SharedRegion { .. } => (keys.clone(), format!("{keys} shared")),
        What::Given { owner, .. } | What::Owned { owner } => {
            (keys.clone(), format!("{keys} {}", name(scene, *owner)))
        }
    }
}

/// A label at a height, the long one or the short one or none.
pub fn words(short: &str, long: &str, width: u64, y: u64) -> String {
    in_both(|line| text_at(fitting(short, long, width, line), y))
}

/// What is drawn in a slim line and in a wide one, once where that is the same.
fn in_both(drawn: impl Fn(u64) -> String) -> String {
    match (drawn(SLIM), drawn(WIDE)) {
        (slim, wide) if slim == wide => wide,
        (slim, wide) => format!("<g class=\"slim\">{slim}</g><g class=\"wide\">{wide}</g>"),
    }
}

/// The longer of two labels for which so many thousandths of a line have room, or none.
fn fitting<'a>(short: &'a str, long: &'a str, width: u64, line: u64) -> &'a str {
    let fits = |text: &&str| columns(text) as u64 * 8 < width * line / 1000;
    [long, short].into_iter().find(fits).unwrap_or("")
}

/// A text in the middle of a box, at a height.
fn text_at(text: &str, y: u64) -> String {
    if text.is_empty() {
        return String::new();
    }
    format!("<text class=\"label\" x=\"50%\" y=\"{y}\">{}</text>", escaped(text))
}

/// Spans that are too many to draw apart: what they hold, each as high as its share, and how many they are.
fn group(spans: &[Span], width: u64) -> String {
    let reach = once(spans.iter().flat_map(|span| &span.reach));
    let count = grouped(spans.len() as u128);
    let thing = if spans[0].what.is_frames() { "runs" } else { "regions" };
    let label = words(&count, &format!("{count} {thing}"), width, MIDDLE);
    stripes(&spans[0].what, &reach) + &shares(spans) + &edge(&What::Free) + &label
}

/// What spans hold, one below the other, each as high as its share.
fn shares(spans: &[Span]) -> String {
    let all = pages_of(spans).max(1) as f64;
    let mut drawn = String::new();
    let mut y = BLOCK;
    for (what, pages) in holdings(spans) {
        let height = TALL * pages as f64 / all;
        drawn += &fill(what, y, height);
        y += height;
    }
    drawn
}

/// Each machine that reaches something, once, with all by which it does.
fn once<'a>(reach: impl Iterator<Item = &'a Reach>) -> Vec<Reach> {
    let mut all: Vec<Reach> = Vec::new();
    for one in reach {
        match all.iter_mut().find(|other| other.machine == one.machine) {
            Some(other) => {
                other.processors |= one.processors;
                other.devices |= one.devices;
            }
            None => all.push(one.clone()),
        }
    }
    all
}

/// A gap between two dotted lines, with its size along it.
fn fold(bytes: u128) -> String {
    let dotted = |x| format!("<line class=\"fold\" x1=\"{x}%\" x2=\"{x}%\" y2=\"{HEIGHT}\"/>");
    let upward = "<text class=\"label small\" transform=\"rotate(-90)\" x=\"-34\" y=\"4\">";
    format!(
        "<rect class=\"ring\" width=\"100%\" height=\"{HEIGHT}\"/>{}{}\
         <svg x=\"50%\" overflow=\"visible\">{upward}{}</text></svg>",
        dotted(4),
        dotted(96),
        size(bytes)
    )
}

/// What a line of the picture shows, and from where to where, without the gaps at its ends.
pub fn where_it_is(line: &[Placed]) -> String {
    let thing = if shows_frames(line) { "Frames of the allocator" } else { "Regions" };
    let mut spans =
        line.iter().filter(|placed| matches!(placed.piece, Piece::Spans(_))).map(|placed| placed.piece);
    let first = spans.next();
    let last = spans.next_back().or(first);
    match (first, last) {
        (Some(first), Some(last)) => format!("{thing}, {}", range(first.from(), last.end())),
        _ => String::from("A gap"),
    }
}

/// A machine's colour, texture and key.
pub fn looks_of(machine: usize) -> String {
    let edge = edge(&What::Owned { owner: machine });
    bands(&[machine], BLOCK, TALL) + &edge + &text_at(&key(machine).to_string(), MIDDLE)
}
