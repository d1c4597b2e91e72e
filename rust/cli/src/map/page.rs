//! The picture as one page for a browser. It needs no network and no other file, and shows all of it without the
//! script, which only fills the panel and lets the arrow keys go from span to span.
use super::drawing::{line, looks_of, where_it_is, APART, HEIGHT, MEASURE};
use super::facts::name;
use super::layout::{lines, Placed};
use super::legend::{ruler, samples, READING, SCALE};
use super::looks::{fill_classes, fills, STYLE};
use super::totals::{summary, totals};
use super::words::{bytes, escaped, grouped, shortened, size, visible};
use super::Scene;

/// The looks of what is not in a line.
const PAGE_STYLE: &str = include_str!("page.css");

/// What fills the panel, moves from block to block, and sets apart what a machine reaches.
const SCRIPT: &str = include_str!("page.js");

/// The picture as one page.
pub fn html(scene: &Scene) -> String {
    let title = escaped(&shortened(&visible(&scene.title), 200));
    let (classes, body) = (fill_classes(scene), body(scene, &title));
    format!(
        "<!doctype html>\n<html lang=\"en\">\n<head>\n<meta charset=\"utf-8\">\n\
         <meta name=\"viewport\" content=\"width=device-width,initial-scale=1\">\n<title>{title}</title>\n\
         <style>\n{STYLE}{PAGE_STYLE}{classes}\n</style>\n</head>\n<body>\n{body}\
         <script>\n{SCRIPT}</script>\n</body>\n</html>\n"
    )
}

/// All that the page shows, below its title.
fn body(scene: &Scene, title: &str) -> String {
    let fills = fills(scene);
    let note: String =
        scene.note.iter().map(|note| format!("<p>{}</p>\n", escaped(&visible(note)))).collect();
    let (summary, picture, machines, legend) = (summary(scene), picture(scene), machines(scene), legend());
    format!(
        "<svg class=\"fills\" aria-hidden=\"true\"><defs>{fills}</defs></svg>\n\
         <a class=\"skip\" href=\"#machines\">Go on to the machines</a>\n\
         <h1>{title}</h1>\n{note}<p>{summary}</p>\n<main>\n{picture}{machines}{legend}</main>\n"
    )
}

/// The lines of memory, and the panel below them.
fn picture(scene: &Scene) -> String {
    let drawn: String =
        lines(scene, &APART, &MEASURE).iter().map(|placed| headed_line(scene, placed)).collect();
    let none = if drawn.is_empty() { "<p>The configuration names no memory.</p>\n" } else { "" };
    format!(
        "<section aria-label=\"Host memory\">\n{drawn}{none}<div id=\"panel\">\
         <h2>Addresses</h2><p>Point at a block, touch it, or focus it with the Tab key: what it is stands here. \
         The left and right arrow keys go from block to block.</p></div>\n</section>\n"
    )
}

/// A line of memory below what it shows.
fn headed_line(scene: &Scene, placed: &[Placed]) -> String {
    let (head, drawn) = (where_it_is(placed), line(scene, placed));
    format!(
        "<p class=\"where\">{head}</p>\n\
         <svg class=\"line\" role=\"group\" aria-label=\"{head}\" height=\"{HEIGHT}\">\n{drawn}</svg>\n"
    )
}

/// The machines with their totals.
fn machines(scene: &Scene) -> String {
    let rows: String = (0..scene.machines.len()).map(|machine| row(scene, machine)).collect();
    let heads = ["machine", "number", "now", "pages given", "pages reached", "frames owned"];
    let heads: String = heads.iter().map(|head| format!("<th>{head}</th>")).collect();
    format!(
        "<h2 id=\"machines\">Machines</h2>\n<p>Choose a machine here to set apart what it reaches.</p>\n\
         <table>\n<thead><tr>{heads}</tr></thead>\n<tbody>\n{rows}</tbody>\n</table>\n\
         <p class=\"where\">Pages given are those of the configuration, shared ones included. Pages reached are \
         those in the machine's sets of regions now, and the frames that it owns.</p>\n"
    )
}

/// A machine with its totals.
fn row(scene: &Scene, machine: usize) -> String {
    let one = &scene.machines[machine];
    let totals = totals(scene, machine);
    let pages = |pages| format!("{} ({})", grouped(pages), size(bytes(pages)));
    let cells = [
        ("number", one.number.to_string()),
        ("now", one.now().to_string()),
        ("pages given", pages(totals.given)),
        ("pages reached", pages(totals.reached)),
        ("frames owned", pages(totals.owned)),
    ];
    let cells: String = cells.iter().map(|(is, cell)| format!("<td data-is=\"{is}\">{cell}</td>")).collect();
    format!("<tr><td>{}</td>{cells}</tr>\n", button(scene, machine))
}

/// A machine with its looks and its whole name, to choose it.
fn button(scene: &Scene, machine: usize) -> String {
    let whole = shortened(&visible(&scene.machines[machine].name), 400);
    let called = if whole.trim().is_empty() { name(scene, machine) } else { whole };
    format!(
        "<button type=\"button\" value=\"r{machine}\" aria-pressed=\"false\">\
         <svg width=\"34\" height=\"32\" viewBox=\"0 12 48 44\" aria-hidden=\"true\">{}</svg>{}</button>",
        looks_of(machine),
        escaped(&called)
    )
}

/// How to read the picture.
fn legend() -> String {
    let drawn =
        |drawing| format!("<svg width=\"44\" height=\"{HEIGHT}\" aria-hidden=\"true\">{drawing}</svg>");
    let sample = |(drawing, caption): (String, &str)| format!("<li>{}{caption}</li>\n", drawn(drawing));
    let samples: String = samples().into_iter().map(sample).collect();
    let ruler = ruler();
    format!(
        "<h2>How to read it</h2>\n<p>{READING}</p>\n<ul class=\"samples\">\n{samples}</ul>\n<p>{SCALE}</p>\n\
         <svg class=\"ruler\" height=\"24\" aria-hidden=\"true\">{ruler}</svg>\n"
    )
}

#[cfg(test)]
mod tests {
    use super::*;
    use crate::map::markup::is_balanced;
    use crate::map::scenes;

    /// The page of the scene that has most and the strangest.
    fn nasty() -> String {
        html(&scenes::nasty())
    }

    #[test]
    fn a_name_is_no_markup() {
        let page = nasty();
        assert_eq!(page.matches("<script").count(), 1);
        assert!(page.contains("&lt;script&gt;alert(1)&lt;/script&gt; 6"));
        assert!(!page.contains('\u{202e}') && !page.contains('\0'));
    }

    #[test]
    fn a_page_needs_nothing_else() {
        let page = nasty();
        let from_elsewhere = ["http:", "https:", "src=", "@import", "<link", "fetch("];
        assert_eq!(from_elsewhere.iter().find(|word| page.contains(**word)), None);
        assert!(page.matches("url(").count() == page.matches("url(#").count());
    }

    #[test]
    fn every_element_ends() {
        for scene in scenes::all() {
            let page = html(&scene);
            let (from, end) = (page.find("<main>"), page.find("<script>"));
            let main = from.zip(end).map(|(from, end)| &page[from..end]);
            assert!(main.map_or(false, is_balanced), "{}", scene.title);
        }
    }

    #[test]
    fn every_machine_has_a_row_with_its_totals() {
        let page = html(&scenes::truck());
        assert_eq!(page.matches("<button").count(), 4);
        assert!(page.contains("<td data-is=\"pages given\">1,049,632 (4.0 GiB)</td>"));
        assert!(page.contains("<td data-is=\"frames owned\">4,609 (18.0 MiB)</td>"));
    }

    #[test]
    fn pages_of_thousands_of_spans_are_small() {
        assert!(nasty().len() < 4_000_000);
        assert!(html(&scenes::alternating(10_000)).len() < 500_000);
    }
}
