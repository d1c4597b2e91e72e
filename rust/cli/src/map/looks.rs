//! How things look: a key, a colour and a texture for each machine, so that machines can be told apart in colour, in
//! grey and by letter, in a light and in a dark scheme. No two of the first sixty-four look alike.
use super::Scene;
use std::ops::Range;

/// The keys of machines, in their order.
const KEYS: &str = "ABCDEFGHIJKLMNOPQRSTUVWXYZabcdefghijklmnopqrstuvwxyz0123456789@&";

/// As many machines as have looks of their own.
const LOOKS: usize = 64;

/// How many colours there are, and how many textures.
const COLOURS: usize = 8;

/// Strokes of the textures on a square of 8 by 8; the first has none.
const TEXTURES: [&str; COLOURS] = [
    "",
    "M-2 2L2 -2M0 8L8 0M6 10L10 6",
    "M0 2H8M0 6H8",
    "M1 2H3M5 6H7",
    "M2 0V8M6 0V8",
    "M-2 6L2 10M0 0L8 8M6 -2L10 2",
    "M0 4H8M4 0V8",
    "M0 6L4 2L8 6",
];

/// Colours and classes, for the SVG file and the page alike.
pub const STYLE: &str = include_str!("look.css");

/// The letter by which a machine is known in the picture.
pub fn key(machine: usize) -> char {
    KEYS.chars().nth(machine).unwrap_or('?')
}

/// The class that fills with a machine's colour and texture.
pub fn class(machine: usize) -> String {
    format!("m{}", machine % LOOKS)
}

/// The colour and the texture of a machine.
fn look(machine: usize) -> (usize, usize) {
    (machine % COLOURS, (machine + machine / COLOURS) % COLOURS)
}

/// The machines whose looks a picture needs: those of the scene, and two at least for the samples.
fn looks_in(scene: &Scene) -> Range<usize> {
    0..scene.machines.len().clamp(2, LOOKS)
}

/// Fills for machines, and for what is reserved.
pub fn fills(scene: &Scene) -> String {
    let held = pattern("held", "class=\"hatched\"", "M0 0L8 8M8 0L0 8");
    looks_in(scene).map(fill).collect::<String>() + &held
}

/// The fill of one machine.
fn fill(machine: usize) -> String {
    let (colour, texture) = look(machine);
    pattern(&class(machine), &format!("style=\"fill:var(--c{colour})\""), TEXTURES[texture])
}

/// A fill of a colour with strokes on it.
fn pattern(id: &str, colour: &str, strokes: &str) -> String {
    format!(
        "<pattern id=\"{id}\" width=\"8\" height=\"8\" patternUnits=\"userSpaceOnUse\">\
         <rect width=\"8\" height=\"8\" {colour}/><path class=\"texture\" d=\"{strokes}\"/></pattern>"
    )
}

/// The classes of the machines' fills.
pub fn fill_classes(scene: &Scene) -> String {
    looks_in(scene).map(class).map(|class| format!(".{class}{{fill:url(#{class})}}")).collect()
}

#[cfg(test)]
mod tests {
    use super::*;
    use std::collections::HashSet;

    #[test]
    fn no_two_machines_look_alike() {
        let looks: HashSet<_> = (0..LOOKS).map(look).collect();
        let keys: HashSet<_> = (0..LOOKS).map(key).collect();
        assert_eq!((looks.len(), keys.len()), (LOOKS, LOOKS));
        assert_eq!(TEXTURES.iter().collect::<HashSet<_>>().len(), COLOURS);
    }

    #[test]
    fn the_first_machines_differ_in_colour_and_in_texture() {
        let looks: Vec<_> = (0..COLOURS).map(look).collect();
        assert_eq!(looks.iter().map(|look| look.0).collect::<HashSet<_>>().len(), COLOURS);
        assert_eq!(looks.iter().map(|look| look.1).collect::<HashSet<_>>().len(), COLOURS);
    }

    #[test]
    fn a_machine_beyond_all_keys_has_a_mark() {
        assert_eq!(key(64), '?');
    }
}
