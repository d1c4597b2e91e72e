//! The words of a line of a script: separated by blanks, in quotation marks where they hold blanks. A comment begins
//! with `#` at the start of a word; `#` before a digit at the start of a line names a machine instead.

/// A word of a line.
#[derive(Clone, Debug, PartialEq, Eq)]
pub struct Word {
    pub text: String,
    /// Whether it stood in quotation marks, and so is a name whatever it is.
    pub quoted: bool,
}

/// A line in its parts.
#[derive(Debug, PartialEq, Eq)]
pub struct Line<'a> {
    pub words: Vec<Word>,
    /// What stands before the comment.
    pub request: &'a str,
    /// What the comment says.
    pub comment: Option<&'a str>,
}

/// The parts of a line, or what is wrong with it.
pub fn split(line: &str) -> Result<Line<'_>, String> {
    let (mut words, mut rest) = (Vec::new(), line.trim_start());
    while !rest.is_empty() && !is_comment(rest, words.is_empty()) {
        let (word, behind) = first_word(rest)?;
        words.push(word);
        rest = behind.trim_start();
    }
    let request = line[..line.len() - rest.len()].trim();
    Ok(Line { words, request, comment: rest.strip_prefix('#').map(str::trim) })
}

/// Whether a comment begins here. At the start of a line `#` and a digit are a machine's number.
fn is_comment(rest: &str, starts_line: bool) -> bool {
    let behind = rest.strip_prefix('#');
    behind.map_or(false, |behind| !(starts_line && behind.starts_with(|c: char| c.is_ascii_digit())))
}

/// The word at the start of a text, and what stands behind it.
fn first_word(text: &str) -> Result<(Word, &str), String> {
    match text.strip_prefix('"') {
        Some(inside) => {
            let (name, behind) =
                inside.split_once('"').ok_or("a quotation mark is not closed: add another `\"`")?;
            if !behind.is_empty() && !behind.starts_with(char::is_whitespace) {
                return Err("there is no blank behind a closing quotation mark: add one".to_string());
            }
            Ok((Word { text: name.to_string(), quoted: true }, behind))
        }
        None => {
            let (word, behind) = text.split_at(text.find(char::is_whitespace).unwrap_or(text.len()));
            Ok((Word { text: word.to_string(), quoted: false }, behind))
        }
    }
}

#[cfg(test)]
mod tests {
    use super::split;

    /// The words of a line, those in quotation marks between bars.
    fn words(line: &str) -> Vec<String> {
        let words = split(line).unwrap().words;
        words
            .into_iter()
            .map(|word| if word.quoted { format!("|{}|", word.text) } else { word.text })
            .collect()
    }

    #[test]
    fn separates_at_blanks() {
        assert_eq!(words("  replay \t alloc 512"), ["replay", "alloc", "512"]);
        assert_eq!(words("\"main replay\" add"), ["|main replay|", "add"]);
        assert_eq!(words(""), [""; 0]);
    }

    #[test]
    fn knows_comments_from_numbers() {
        assert_eq!(words("#3 add # the third"), ["#3", "add"]);
        assert_eq!(words("# 3 is away"), [""; 0]);
        assert_eq!(words("replay add #3"), ["replay", "add"]);
        let line = split("replay add  # now").unwrap();
        assert_eq!((line.request, line.comment), ("replay add", Some("now")));
        assert_eq!(split("#").unwrap().comment, Some(""));
        assert_eq!(split("replay add").unwrap().comment, None);
    }

    #[test]
    fn refuses_quotation_marks_that_are_not_closed() {
        assert!(split("\"replay add").unwrap_err().contains("not closed"));
        assert!(split("\"replay\"add").unwrap_err().contains("no blank"));
    }
}
