//! Numbers, addresses, sizes and names as people read them. Names may hold any character; what comes out of
//! `visible` is one line without anything hidden, and what comes out of `escaped` is safe in XML and HTML.

/// The bytes of so many pages.
pub fn bytes(pages: u128) -> u128 {
    pages * 4096
}

/// A number with a comma before every three digits.
pub fn grouped(number: u128) -> String {
    let digits = number.to_string();
    let groups: Vec<&str> =
        (0..digits.len()).rev().step_by(3).map(|end| &digits[end.saturating_sub(2)..=end]).collect();
    groups.into_iter().rev().collect::<Vec<_>>().join(",")
}

/// A number of things: "1 page", "2 pages".
pub fn counted(number: u128, thing: &str) -> String {
    format!("{} {thing}{}", grouped(number), if number == 1 { "" } else { "s" })
}

/// So many bytes in the largest unit that they fill, rounded down to one decimal where that is not exact.
pub fn size(bytes: u128) -> String {
    let units = ["bytes", "KiB", "MiB", "GiB", "TiB", "PiB", "EiB"];
    let step = (1..units.len()).take_while(|&step| bytes >> (10 * step) > 0).last().unwrap_or(0);
    let (whole, rest) = (bytes >> (10 * step), bytes & ((1 << (10 * step)) - 1));
    let tenth = (rest * 10) >> (10 * step);
    let decimal = if rest == 0 { String::new() } else { format!(".{tenth}") };
    format!("{whole}{decimal} {}", units[step])
}

/// The addresses from the first up to before the end.
pub fn range(from: u128, end: u128) -> String {
    format!("0x{from:x} to 0x{:x}", end.saturating_sub(1).max(from))
}

/// Items as a reader says them: "a", "a and b", "a, b and c".
pub fn listed(items: &[String]) -> String {
    match items {
        [] => String::new(),
        [one] => one.clone(),
        [most @ .., last] => format!("{} and {last}", most.join(", ")),
    }
}

/// Whether a character shows nothing, or changes how its neighbours show.
fn is_hidden(c: char) -> bool {
    let invisible = matches!(c, '\u{ad}' | '\u{61c}' | '\u{180e}' | '\u{feff}' | '\u{fff0}'..='\u{ffff}');
    let marks = matches!(c, '\u{200b}'..='\u{200f}' | '\u{2028}'..='\u{202e}' | '\u{2060}'..='\u{206f}');
    c.is_control() || invisible || marks || matches!(c, '\u{e0000}'..='\u{e0fff}')
}

/// A text as one line that hides nothing: a hidden character is written as its code.
pub fn visible(text: &str) -> String {
    let shown = |c: char| if is_hidden(c) { c.escape_unicode().to_string() } else { c.to_string() };
    text.chars().map(shown).collect()
}

/// The columns of a terminal that a character takes.
fn columns_of(c: char) -> usize {
    let east = matches!(c, '\u{1100}'..='\u{115f}' | '\u{2e80}'..='\u{a4cf}' | '\u{ac00}'..='\u{d7a3}');
    let forms = matches!(c, '\u{f900}'..='\u{faff}' | '\u{fe30}'..='\u{fe6f}' | '\u{ff00}'..='\u{ffe6}');
    let pictures = matches!(c, '\u{1f000}'..='\u{1faff}' | '\u{20000}'..='\u{3ffff}');
    if east || forms || pictures {
        2
    } else {
        1
    }
}

/// The columns of a terminal that a text takes.
pub fn columns(text: &str) -> usize {
    text.chars().map(columns_of).sum()
}

/// The longest beginning of a text that takes no more columns than given.
pub fn beginning(text: &str, most: usize) -> &str {
    let mut taken = 0;
    let behind = text.char_indices().find(|&(_, c)| {
        taken += columns_of(c);
        taken > most
    });
    behind.map_or(text, |(end, _)| &text[..end])
}

/// A text cut to so many columns, with a mark where something was cut.
pub fn shortened(text: &str, most: usize) -> String {
    if columns(text) <= most {
        return text.to_string();
    }
    format!("{}…", beginning(text, most.saturating_sub(1)))
}

/// A text in lines of at most so many columns, cut between words where that is possible.
pub fn wrapped(text: &str, most: usize) -> Vec<String> {
    let mut lines = vec![String::new()];
    for word in text.split_whitespace().flat_map(|word| parts(word, most)) {
        let line = lines.last().map_or(0, |line| columns(line));
        match lines.last_mut() {
            Some(last) if line == 0 => last.push_str(word),
            Some(last) if line + 1 + columns(word) <= most => *last += &format!(" {word}"),
            _ => lines.push(word.to_string()),
        }
    }
    lines
}

/// A word cut into parts of at most so many columns, each of one character at least.
fn parts(word: &str, most: usize) -> Vec<&str> {
    let mut parts = Vec::new();
    let mut rest = word;
    while let Some(first) = rest.chars().next() {
        let (part, behind) = rest.split_at(beginning(rest, most).len().max(first.len_utf8()));
        parts.push(part);
        rest = behind;
    }
    parts
}

/// A text as XML and HTML write it, in an element or in an attribute.
pub fn escaped(text: &str) -> String {
    let mut out = String::with_capacity(text.len());
    for c in text.chars() {
        match c {
            '&' => out.push_str("&amp;"),
            '<' => out.push_str("&lt;"),
            '>' => out.push_str("&gt;"),
            '"' => out.push_str("&quot;"),
            '\'' => out.push_str("&#39;"),
            _ => out.push(c),
        }
    }
    out
}

#[cfg(test)]
mod tests {
    use super::*;

    #[test]
    fn numbers_have_commas() {
        assert_eq!(grouped(7), "7");
        assert_eq!(grouped(65_536), "65,536");
        assert_eq!(grouped(1 << 52), "4,503,599,627,370,496");
        assert_eq!(counted(1, "page") + ", " + &counted(1000, "page"), "1 page, 1,000 pages");
    }

    #[test]
    fn sizes_have_the_largest_unit() {
        let sizes = [0, 4096, 3 << 29, (1 << 30) - 4096, 1 << 64].map(size);
        assert_eq!(sizes, ["0 bytes", "4 KiB", "1.5 GiB", "1023.9 MiB", "16 EiB"]);
    }

    #[test]
    fn ranges_end_at_the_last_byte() {
        assert_eq!(range(0x1000, 0x3000), "0x1000 to 0x2fff");
        assert_eq!(range(0, 1 << 64), "0x0 to 0xffffffffffffffff");
    }

    #[test]
    fn lists_end_with_and() {
        let items = ["a", "b", "c"].map(String::from);
        assert_eq!(
            [listed(&items[..1]), listed(&items[..2]), listed(&items)],
            ["a", "a and b", "a, b and c"]
        );
    }

    #[test]
    fn nothing_is_hidden_or_taken_for_markup() {
        assert_eq!(visible("a\u{202e}b\n\0"), "a\\u{202e}b\\u{a}\\u{0}");
        assert_eq!(escaped("<b a='1'>&\""), "&lt;b a=&#39;1&#39;&gt;&amp;&quot;");
    }

    #[test]
    fn texts_are_wrapped_between_words() {
        assert_eq!(wrapped("one two  three", 8), ["one two", "three"]);
        assert_eq!(wrapped("a abcdefgh", 3), ["a", "abc", "def", "gh"]);
        assert_eq!(wrapped("", 3), [""]);
    }

    #[test]
    fn long_texts_are_cut_at_a_character() {
        assert_eq!(shortened("naïveté", 7), "naïveté");
        assert_eq!(shortened("naïveté", 4), "naï…");
        assert_eq!(shortened("日本語", 4), "日…");
        assert_eq!(columns("日本語"), 6);
    }
}
