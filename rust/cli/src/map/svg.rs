//! The picture as one SVG file: the lines of memory, the machines with their totals, and how to read it.
use super::drawing::{line, looks_of, where_it_is, APART, HEIGHT, MEASURE};
use super::layout::lines;
use super::legend::{ruler, samples, READING, SCALE};
use super::looks::{fill_classes, fills, STYLE};
use super::totals::{sentence, summary};
use super::words::{escaped, shortened, visible, wrapped};
use super::Scene;

/// The looks of what is not in a line.
const FILE_STYLE: &str = include_str!("file.css");

/// The width of the file.
const FILE: u64 = 1200;

/// The room at the sides of the file.
const SIDE: u64 = 24;

/// The width of a line in the file.
const LINE: u64 = FILE - 2 * SIDE;

/// The columns of a caption, of which a line's height has room for four lines.
const CAPTION: usize = 46;

/// The file under way: what is drawn, and down to where.
struct Sheet {
    drawn: String,
    y: u64,
}

impl Sheet {
    /// A text in lines of their own.
    fn text(&mut self, class: &str, text: &str) {
        for line in wrapped(text, 150) {
            self.y += 20;
            let y = self.y;
            self.drawn +=
                &format!("<text class=\"{class}\" x=\"{SIDE}\" y=\"{y}\">{}</text>\n", escaped(&line));
        }
    }

    /// A drawing as wide as a line and so high, below all so far.
    fn across(&mut self, height: u64, drawing: &str) {
        let y = self.y + 8;
        self.drawn +=
            &format!("<svg x=\"{SIDE}\" y=\"{y}\" width=\"{LINE}\" height=\"{height}\">{drawing}</svg>\n");
        self.y = y + height + 6;
    }

    /// Drawings of a line's height with a caption each, three beside each other.
    fn captioned(&mut self, drawings: &[(String, String)]) {
        for row in drawings.chunks(3) {
            let cells = (0..).zip(row).map(|(column, (drawing, caption))| cell(column, drawing, caption));
            self.across(HEIGHT, &cells.collect::<String>());
        }
    }
}

/// A drawing with its caption, in one of three columns of the file.
fn cell(column: u64, drawing: &str, caption: &str) -> String {
    let x = column * LINE / 3;
    let lines = wrapped(caption, CAPTION);
    let text = |(index, line): (u64, &String)| {
        format!("<text class=\"small\" x=\"{}\" y=\"{}\">{}</text>", x + 60, 18 + 16 * index, escaped(line))
    };
    let texts: String = (0..).zip(&lines).map(text).collect();
    format!("<svg x=\"{x}\" width=\"48\" height=\"{HEIGHT}\">{drawing}</svg>{texts}")
}

/// The picture as a file of its own.
pub fn svg(scene: &Scene) -> String {
    let mut sheet = Sheet { drawn: String::new(), y: 16 };
    sheet.text("head", &shortened(&visible(&scene.title), 100));
    scene.note.iter().for_each(|note| sheet.text("small", &shortened(&visible(note), 600)));
    sheet.text("small", &summary(scene));
    for placed in lines(scene, &APART, &MEASURE) {
        sheet.y += 8;
        sheet.text("small", &where_it_is(&placed));
        sheet.across(HEIGHT, &line(scene, &placed));
    }
    sheet.text("head", "Machines");
    let machines = (0..scene.machines.len()).map(|machine| (looks_of(machine), sentence(scene, machine)));
    sheet.captioned(&machines.collect::<Vec<_>>());
    legend(&mut sheet);
    file(scene, &sheet)
}

/// How to read the picture, in the file.
fn legend(sheet: &mut Sheet) {
    sheet.text("head", "How to read it");
    sheet.text("small", READING);
    let samples = samples().into_iter().map(|(drawing, caption)| (drawing, caption.to_string()));
    sheet.captioned(&samples.collect::<Vec<_>>());
    sheet.text("small", SCALE);
    sheet.across(24, &ruler());
}

/// The file around what is drawn.
fn file(scene: &Scene, sheet: &Sheet) -> String {
    let (height, drawn) = (sheet.y + SIDE, &sheet.drawn);
    let title = escaped(&shortened(&visible(&scene.title), 200));
    format!(
        "<svg xmlns=\"http://www.w3.org/2000/svg\" width=\"{FILE}\" height=\"{height}\" \
         viewBox=\"0 0 {FILE} {height}\">\n<title>{title}</title>\n<style>\n{STYLE}{FILE_STYLE}{}\n</style>\n\
         <defs>{}</defs>\n<rect width=\"{FILE}\" height=\"{height}\" style=\"fill:var(--paper)\"/>\n{drawn}</svg>\n",
        fill_classes(scene),
        fills(scene)
    )
}

#[cfg(test)]
mod tests {
    use super::*;
    use crate::map::facts::facts;
    use crate::map::layout::Piece;
    use crate::map::markup::is_balanced;
    use crate::map::scenes;

    /// The number of times that a title of a scene's spans stands in its picture, for each span.
    fn titles(scene: &Scene) -> Vec<usize> {
        let picture = svg(scene);
        let title = |piece| format!("<title>{}</title>", escaped(&facts(scene, &piece).lines()));
        scene.spans.chunks(1).map(|span| picture.matches(&title(Piece::Spans(span))).count()).collect()
    }

    #[test]
    fn every_span_stands_there_once_with_its_title() {
        for scene in [scenes::truck(), scenes::edges(), scenes::alternating(1), scenes::alternating(400)] {
            assert_eq!(titles(&scene), vec![1; scene.spans.len()], "{}", scene.title);
        }
    }

    #[test]
    fn runs_that_are_too_many_are_said_to_be() {
        let picture = svg(&scenes::alternating(10_000));
        assert_eq!(picture.matches("<title>50 runs of frames, too narrow to draw apart\n").count(), 200);
    }

    #[test]
    fn every_element_ends() {
        for scene in scenes::all() {
            assert!(is_balanced(&svg(&scene)), "{}", scene.title);
        }
    }

    #[test]
    fn a_name_is_no_markup() {
        let picture = svg(&scenes::nasty());
        assert!(!picture.contains("<script") && !picture.contains("<b>"));
        assert!(picture.contains("&lt;script&gt;alert(1)&lt;/script&gt; 6"));
    }

    #[test]
    fn captions_have_room() {
        for scene in scenes::all() {
            let machines = (0..scene.machines.len()).map(|machine| sentence(&scene, machine));
            let captions = machines.chain(samples().into_iter().map(|(_, caption)| caption.to_string()));
            assert!(
                captions.map(|caption| wrapped(&caption, CAPTION).len()).max() <= Some(4),
                "{}",
                scene.title
            );
        }
    }

    #[test]
    fn styles_are_whole_in_xml() {
        assert!(![STYLE, FILE_STYLE].iter().any(|style| style.contains(['<', '>', '&'])));
    }
}
