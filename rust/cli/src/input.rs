//! Reading files and standard input, which is named `-`; no more of them than anything here needs.
use crate::bytes_form;
use crate::fault::Fault;
use crate::plan::Plan;
use crate::toml_form;
use std::fs::File;
use std::io::{self, Read};
use std::path::Path;

/// The name of standard input.
pub const STANDARD: &str = "-";
/// How many bytes a configuration may have, in either form, and a script.
const MOST_CONFIG: u64 = 1 << 20;
const MOST_SCRIPT: u64 = 16 << 20;

/// What is said of bytes that are no text, where they were to be a configuration, one to be compiled, and a script.
const NO_CONFIG: &str = "is no text in UTF-8 (a compiled configuration's name ends in .bin)";
const NO_SOURCE: &str = "is compiled already, or no text in UTF-8";
const NO_SCRIPT: &str = "is no text in UTF-8: a script is text";

/// A configuration: its bytes, and what they are as a plan, which compiled bytes are only if they are whole.
pub struct Config {
    pub file: String,
    pub bytes: Vec<u8>,
    pub plan: Option<Plan>,
}

/// The name of a file, for people.
pub fn name(path: &Path) -> String {
    if path == Path::new(STANDARD) {
        return "standard input".to_string();
    }
    path.display().to_string()
}

/// The bytes of a file, if there are not too many.
fn bytes(path: &Path, most: u64) -> Result<Vec<u8>, Fault> {
    let fault = |error: io::Error| Fault::of(&name(path), format!("cannot be read: {error}"));
    let mut from: Box<dyn Read> = match path {
        path if path == Path::new(STANDARD) => Box::new(io::stdin()),
        path => Box::new(File::open(path).map_err(fault)?),
    };
    let mut bytes = Vec::new();
    from.by_ref().take(most + 1).read_to_end(&mut bytes).map_err(fault)?;
    if bytes.len() as u64 > most {
        return Err(Fault::of(
            &name(path),
            format!("has more than {most} bytes, which is above what is read"),
        ));
    }
    Ok(bytes)
}

/// Whether bytes are a text that people write: UTF-8 without control characters but blanks and ends of lines.
pub fn is_text(bytes: &[u8]) -> bool {
    let of_people = |c: char| !c.is_control() || c.is_whitespace();
    std::str::from_utf8(bytes).map_or(false, |text| !text.is_empty() && text.chars().all(of_people))
}

/// The text of a file, or what is said of one that is none.
fn text(path: &Path, most: u64, otherwise: &str) -> Result<String, Fault> {
    let bytes = bytes(path, most)?;
    String::from_utf8(bytes).map_err(|error| {
        let good = &error.as_bytes()[..error.utf8_error().valid_up_to()];
        let line = good.iter().filter(|&&byte| byte == b'\n').count() + 1;
        Fault::at(&name(path), line, otherwise)
    })
}

/// Whether a file's name says that it is a compiled configuration.
fn is_compiled(path: &Path) -> bool {
    path.extension().map_or(false, |extension| extension == "bin")
}

/// A configuration of either form, by the file's name.
pub fn config(path: &Path) -> Result<Config, Fault> {
    if is_compiled(path) {
        return compiled(path);
    }
    toml(path, NO_CONFIG)
}

/// A configuration that is to be compiled: in TOML, whatever its file is called.
pub fn source(path: &Path) -> Result<Config, Fault> {
    toml(path, NO_SOURCE)
}

/// A configuration in TOML, or what is said of a file that is no text.
fn toml(path: &Path, otherwise: &str) -> Result<Config, Fault> {
    let plan = toml_form::read(&name(path), &text(path, MOST_CONFIG, otherwise)?)?;
    Ok(Config { file: name(path), bytes: bytes_form::compile(&plan), plan: Some(plan) })
}

/// A compiled configuration, whatever its file is called.
pub fn compiled(path: &Path) -> Result<Config, Fault> {
    let bytes = bytes(path, MOST_CONFIG)?;
    Ok(Config { file: name(path), plan: bytes_form::read(&bytes), bytes })
}

/// The text of a script.
pub fn script(path: &Path) -> Result<String, Fault> {
    text(path, MOST_SCRIPT, NO_SCRIPT)
}

#[cfg(test)]
mod tests {
    use super::is_text;

    #[test]
    fn knows_text_from_bytes() {
        assert!(["a", "[pool]\r\n\thost = 0\n", "é"].iter().all(|text| is_text(text.as_bytes())));
        assert!([&b""[..], b"\x01\x00", b"a\x7f", b"caf\xe9"].iter().all(|bytes| !is_text(bytes)));
    }
}
