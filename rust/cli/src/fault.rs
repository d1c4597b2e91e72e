//! What is wrong with an input: the file, the line where there is one, and what to do.
use std::fmt;

/// A fault of an input, for standard error.
#[derive(Clone, Debug, PartialEq, Eq)]
pub struct Fault {
    pub file: String,
    pub line: Option<usize>,
    pub what: String,
}

/// How many characters of an explanation are told: it may quote the input.
const LONGEST: usize = 400;

impl Fault {
    /// A fault of a file as a whole.
    pub fn of(file: &str, what: impl fmt::Display) -> Fault {
        Fault { file: file.to_string(), line: None, what: clipped(&what.to_string()) }
    }

    /// A fault in a line.
    pub fn at(file: &str, line: usize, what: impl fmt::Display) -> Fault {
        Fault { file: file.to_string(), line: Some(line), what: clipped(&what.to_string()) }
    }
}

/// A text without its end where it is too long, and without control characters.
fn clipped(text: &str) -> String {
    let plain: String = text.chars().take(LONGEST).map(|c| if c.is_control() { ' ' } else { c }).collect();
    match text.chars().nth(LONGEST) {
        Some(_) => plain + "...",
        None => plain,
    }
}

impl fmt::Display for Fault {
    fn fmt(&self, f: &mut fmt::Formatter) -> fmt::Result {
        match self.line {
            Some(line) => write!(f, "{}:{line}: {}", self.file, self.what),
            None => write!(f, "{}: {}", self.file, self.what),
        }
    }
}

#[cfg(test)]
mod tests {
    use super::Fault;

    #[test]
    fn names_the_file_and_the_line() {
        assert_eq!(Fault::at("a.toml", 3, "is odd").to_string(), "a.toml:3: is odd");
        assert_eq!(Fault::of("a.toml", "is odd").to_string(), "a.toml: is odd");
    }

    #[test]
    fn quotes_no_more_than_can_be_read() {
        assert_eq!(Fault::of("a", "é".repeat(400)).what, "é".repeat(400));
        assert_eq!(Fault::of("a", "é".repeat(401)).what, "é".repeat(400) + "...");
        assert_eq!(Fault::of("a", "x\u{1b}[31my\nz").what, "x [31my z");
    }
}
