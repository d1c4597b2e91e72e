//! Text that keeps to a width.

/// The text in lines of at most so many characters, broken at blanks, each behind the indent. A word that is longer
/// than a line is cut.
pub fn wrap(text: &str, width: usize, indent: &str) -> Vec<String> {
    let room = width.saturating_sub(indent.chars().count()).max(1);
    let mut lines: Vec<String> = Vec::new();
    for piece in text.split_whitespace().flat_map(|word| pieces(word, room)) {
        match lines.last_mut() {
            Some(line) if line.chars().count() + 1 + piece.chars().count() <= room => {
                line.push(' ');
                line.push_str(&piece);
            }
            _ => lines.push(piece),
        }
    }
    lines.into_iter().map(|line| format!("{indent}{line}")).collect()
}

/// A word in pieces of at most so many characters.
fn pieces(word: &str, room: usize) -> Vec<String> {
    let letters: Vec<char> = word.chars().collect();
    letters.chunks(room).map(|piece| piece.iter().collect()).collect()
}

#[cfg(test)]
mod tests {
    use super::wrap;

    #[test]
    fn breaks_at_blanks() {
        assert_eq!(wrap("one two  three four", 10, "  "), ["  one two", "  three", "  four"]);
        assert_eq!(wrap("", 10, "  "), [""; 0]);
    }

    #[test]
    fn cuts_what_is_longer_than_a_line() {
        assert_eq!(wrap("abcdefgh é", 5, "> "), ["> abc", "> def", "> gh", "> é"]);
        assert_eq!(wrap("ab", 0, ""), ["a", "b"]);
    }
}
