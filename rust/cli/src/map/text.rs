//! The picture as text for a terminal: bars of memory, what their letters mean, the machines with their totals, and
//! a table of spans. No line takes more columns than asked, and nothing but the text tells things apart.
use super::drawing::where_it_is;
use super::facts::{facts, heading, name, reached};
use super::layout::{lines, pages_of, pieces, shows_frames, Apart, Measure, Piece, Placed};
use super::looks::key;
use super::totals::{sentence, summary, totals};
use super::words::{
    beginning, bytes, columns as columns_of, counted, grouped, shortened, size, visible, wrapped,
};
use super::{Kind, Scene, What};

/// How many regions and runs of frames the text tells apart.
const APART: Apart = Apart { regions: 100, frames: 40 };

/// The fewest columns for which bars are laid out.
const LEAST: usize = 24;

/// The scene in lines of at most so many columns.
pub fn text(scene: &Scene, columns: usize) -> String {
    let all = [
        head(scene, columns),
        bars(scene, columns),
        legend(columns),
        machines(scene, columns),
        table(scene, columns),
    ];
    let lines = all.into_iter().flat_map(|part| part.into_iter().chain([String::new()]));
    let mut text: String = lines.map(|line| beginning(line.trim_end(), columns).to_string() + "\n").collect();
    text.truncate(text.trim_end().len());
    text + "\n"
}

/// The title, the note, and the whole in a sentence.
fn head(scene: &Scene, columns: usize) -> Vec<String> {
    let title = wrapped(&shortened(&visible(&scene.title), 200), columns);
    let note = scene.note.iter().flat_map(|note| wrapped(&visible(note), columns));
    title.into_iter().chain(note).chain(wrapped(&summary(scene), columns)).collect()
}

/// The bars of memory, each below what it shows.
fn bars(scene: &Scene, columns: usize) -> Vec<String> {
    let measure = Measure { line: columns.max(LEAST) as u64 - 1, page: 2, doubling: 0.5, fold: 12 };
    lines(scene, &APART, &measure).iter().flat_map(|line| bar(line, columns)).collect()
}

/// A line of memory: where it is, what it is, and, of regions, by what it is reached.
fn bar(line: &[Placed], columns: usize) -> Vec<String> {
    let row = |of: fn(&Piece) -> String| line.iter().map(|placed| cell(placed, of)).collect::<String>() + "|";
    let (what, by) = (row(what_it_is), row(by_what));
    let told = !shows_frames(line) || by.chars().any(char::is_alphabetic);
    wrapped(&where_it_is(line), columns).into_iter().chain([what]).chain(Some(by).filter(|_| told)).collect()
}

/// A piece in a row: a border, and what is said of it over and over up to its width; the size of a gap once.
fn cell(placed: &Placed, of: fn(&Piece) -> String) -> String {
    let (said, room) = (of(&placed.piece), placed.width as usize - 1);
    match placed.piece {
        Piece::Fold { .. } => format!("|{said:^room$}"),
        Piece::Spans(_) => String::from("|") + &said.chars().cycle().take(room).collect::<String>(),
    }
}

/// What a piece is, in letters.
fn what_it_is(piece: &Piece) -> String {
    match piece {
        Piece::Fold { from, end } => format!("~{}~", size(end - from).replace(' ', "")),
        Piece::Spans([span]) => letters(&span.what),
        Piece::Spans(_) => String::from("*"),
    }
}

/// What a span is, in letters.
fn letters(what: &What) -> String {
    let keys: String = what.owners().iter().map(|&owner| key(owner)).collect();
    match what {
        What::Free => String::from("."),
        What::Reserved => String::from("#"),
        What::Given { kind: Kind::Device, .. } => keys + "=",
        _ => keys,
    }
}

/// By what a piece is reached: processors, devices or both.
fn by_what(piece: &Piece) -> String {
    let spans = match piece {
        Piece::Spans(spans) => *spans,
        Piece::Fold { .. } => &[],
    };
    let reaches = || spans.iter().flat_map(|span| &span.reach);
    let letter = match (reaches().any(|reach| reach.processors), reaches().any(|reach| reach.devices)) {
        (true, true) => "b",
        (true, false) => "p",
        (false, true) => "d",
        (false, false) => " ",
    };
    letter.to_string()
}

/// What the bars' letters mean.
fn legend(columns: usize) -> Vec<String> {
    let letters = "Upper row: a machine's letter, with = a device, several letters a shared region; . free, \
        # reserved, * several, too narrow to draw apart; ~ a gap that the configuration names nowhere. Lower row: \
        reached by p processors, d devices, b both. Frames without a lower row are reached by their owner, and \
        nobody else.";
    let scale =
        "Widths are logarithmic: a page takes two columns, and a block that has four times the pages one \
        more. Gaps have one width.";
    wrapped(letters, columns).into_iter().chain(wrapped(scale, columns)).collect()
}

/// The machines with their totals: a table, or sentences where there is no room for one.
fn machines(scene: &Scene, columns: usize) -> Vec<String> {
    let head = ["", "machine", "number", "now", "pages given", "reached", "frames owned"].map(String::from);
    let machines = 0..scene.machines.len();
    let rows: Vec<Cells> =
        [head].into_iter().chain(machines.clone().map(|machine| cells(scene, machine))).collect();
    let table = aligned(&rows);
    if table.iter().all(|line| columns_of(line) <= columns) {
        return table;
    }
    let sentence = |machine| format!("{} {}", key(machine), sentence(scene, machine));
    machines.flat_map(|machine| indented(&sentence(machine), columns)).collect()
}

/// A row of the table of machines.
type Cells = [String; 7];

/// A machine with its totals, as a row.
fn cells(scene: &Scene, machine: usize) -> Cells {
    let one = &scene.machines[machine];
    let totals = totals(scene, machine);
    let [given, reached, owned] = [totals.given, totals.reached, totals.owned].map(grouped);
    let name = shortened(&name(scene, machine), 24);
    [key(machine).to_string(), name, one.number.to_string(), one.now().to_string(), given, reached, owned]
}

/// Rows with their cells one below the other: the key and the name at the left, all others at the right.
fn aligned(rows: &[Cells]) -> Vec<String> {
    let width = |column: usize| rows.iter().map(|row| columns_of(&row[column])).max().unwrap_or(0);
    let widths: Vec<usize> = (0..7).map(width).collect();
    let padded = |(column, cell): (usize, &String)| {
        let room = " ".repeat(widths[column] - columns_of(cell));
        if column < 2 {
            format!("{cell}{room} ")
        } else {
            format!(" {room}{cell}")
        }
    };
    rows.iter().map(|row| row.iter().enumerate().map(padded).collect()).collect()
}

/// A text in lines, of which all but the first are indented.
fn indented(text: &str, columns: usize) -> Vec<String> {
    let lines = wrapped(text, columns.saturating_sub(4));
    (0..).zip(lines).map(|(index, line)| if index == 0 { line } else { format!("    {line}") }).collect()
}

/// The spans one by one, or in the bars' groups.
fn table(scene: &Scene, columns: usize) -> Vec<String> {
    let head = ["host address", "size", "what"];
    let pieces = pieces(scene, &APART);
    if pieces.is_empty() {
        return vec![String::from("The configuration names no memory.")];
    }
    let rows = pieces.iter().flat_map(|piece| entry(scene, piece, columns));
    [format!("{:<18}  {:>10}  {}", head[0], head[1], head[2])].into_iter().chain(rows).collect()
}

/// A piece in the table.
fn entry(scene: &Scene, piece: &Piece, columns: usize) -> Vec<String> {
    match piece {
        Piece::Fold { .. } => Vec::new(),
        Piece::Spans([span]) => {
            let who = format!("{}; reached by {}", counted(span.pages.into(), "page"), reached(scene, span));
            row(span.host, span.pages.into(), &heading(scene, span), &who, columns)
        }
        Piece::Spans(spans) => {
            let said = facts(scene, piece);
            let rest =
                said.rows.iter().skip(3).map(|(name, fact)| format!("; {}: {fact}", name.to_lowercase()));
            let more = counted(pages_of(spans), "page") + &rest.collect::<String>();
            row(spans[0].host, pages_of(spans), &said.heading, &more, columns)
        }
    }
}

/// Where a piece is, how large and what, and below that more of it.
fn row(host: u64, pages: u128, what: &str, more: &str, columns: usize) -> Vec<String> {
    let place = format!("0x{host:<16x}  {:>10}  ", size(bytes(pages)));
    let room = columns.saturating_sub(4);
    let below =
        |text: &str| wrapped(text, room).into_iter().map(|line| format!("    {line}")).collect::<Vec<_>>();
    if columns_of(&place) + columns_of(what) <= columns {
        return [place + what].into_iter().chain(below(more)).collect();
    }
    [place].into_iter().chain(below(what)).chain(below(more)).collect()
}

#[cfg(test)]
mod tests {
    use super::*;
    use crate::map::scenes;

    #[test]
    fn no_line_is_longer_than_asked() {
        for scene in scenes::all() {
            for columns in [1, 20, 40, 79, 80, 200] {
                let longest = text(&scene, columns).lines().map(columns_of).max();
                assert!(longest <= Some(columns), "{}: {longest:?} of {columns}", scene.title);
            }
        }
    }

    #[test]
    fn bars_show_whose_memory_is_and_by_what_it_is_reached() {
        let text = text(&scenes::truck(), 80);
        let bars: Vec<&str> = text.lines().filter(|line| line.starts_with('|')).collect();
        assert_eq!(
            bars[..3],
            [
                "|AAAAAAAAAAA|BBBBBBBBBB|CCCCCCCCC|DDDDDDDDD| ~1.6GiB~  |ABABAB| ~3.9GiB~  |",
                "|bbbbbbbbbbb|bbbbbbbbbb|bbbbbbbbb|         |           |bbbbbb|           |",
                "|AAAAAAA|B|.|AAAAAA|CCC|A|CC|.........|######|~253.9TiB~ |",
            ]
        );
        assert_eq!(
            bars[3..],
            ["|A=A=| ~15.8MiB~ |B=B| ~15.9MiB~ |C|", "|pppp|           |ppp|           | |"]
        );
    }

    #[test]
    fn every_span_of_the_truck_has_a_row() {
        let scene = scenes::truck();
        let text = text(&scene, 80);
        let rows = scene.spans.iter().filter(|span| text.contains(&format!("\n0x{:<16x}  ", span.host)));
        assert_eq!(rows.count(), scene.spans.len());
    }

    #[test]
    fn many_spans_are_folded() {
        let text = text(&scenes::alternating(10_000), 80);
        assert_eq!(text.matches("500 runs of frames, too narrow to draw apart").count(), 20);
        assert!(text.lines().count() < 100);
    }

    #[test]
    fn no_memory_is_said_to_be_none() {
        assert!(text(&scenes::empty(), 80).ends_with("\n\nThe configuration names no memory.\n"));
    }
}
