//! docs/cli: each command there is run in a shell, and must print what the page says. A block that is checked begins
//! with three backquotes and `console`; its lines that begin with `$ ` are the commands. With the variable WRITE_DOCS
//! set, the pages are written anew from what is printed.
use crate::common::{folder, put, TRUCK};
use std::env;
use std::fs;
use std::path::{Path, PathBuf};
use std::process::Command;

/// The pages.
const DOCS: &str = concat!(env!("CARGO_MANIFEST_DIR"), "/../../docs/cli");
/// How a block begins and ends.
const BEGINS: &str = "```console\n";
const ENDS: &str = "```\n";

/// What a shell prints to a command in a folder, with the program on its path.
fn printed(folder: &Path, command: &str) -> String {
    let program = Path::new(env!("CARGO_BIN_EXE_replayframes")).parent().expect("the program is in a folder");
    let path = format!("{}:{}", program.display(), env::var("PATH").expect("there is a PATH"));
    let said = Command::new("sh")
        .args(["-c", &format!("{{ {command}; }} 2>&1")])
        .current_dir(folder)
        .env("PATH", path)
        .output()
        .expect("there is a shell");
    String::from_utf8(said.stdout).expect("the program prints UTF-8")
}

/// A block as it should be: its commands, each with what it prints.
fn block(folder: &Path, written: &str) -> String {
    let commands = written.lines().filter_map(|line| line.strip_prefix("$ "));
    commands.map(|command| format!("$ {command}\n{}", printed(folder, command))).collect()
}

/// A page as it should be, and how many blocks it has.
fn page(folder: &Path, text: &str) -> (String, usize) {
    let mut parts = text.split(BEGINS);
    let mut page = parts.next().unwrap_or_default().to_string();
    let mut blocks = 0;
    for part in parts {
        let (written, rest) = part.split_once(ENDS).expect("a block ends");
        page += &format!("{BEGINS}{}{ENDS}{rest}", block(folder, written));
        blocks += 1;
    }
    (page, blocks)
}

/// The page in a file is as it should be. How many blocks it has.
fn is_true(path: &Path) -> usize {
    let name = path.file_stem().expect("a page has a name").to_string_lossy();
    let folder = folder(&format!("docs_{name}"));
    put(&folder, "truck.toml", TRUCK);
    put(&folder, "match.txt", include_str!("../../demo/match.txt"));
    let text = fs::read_to_string(path).expect("the page can be read");
    let (wanted, blocks) = page(&folder, &text);
    if env::var_os("WRITE_DOCS").is_some() {
        fs::write(path, &wanted).expect("the page can be written");
        return blocks;
    }
    for (line, wanted) in text.lines().zip(wanted.lines()) {
        assert_eq!(line, wanted, "{name}.md is not what is printed: run the tests with WRITE_DOCS=1");
    }
    assert_eq!(text.lines().count(), wanted.lines().count(), "{name}.md");
    blocks
}

#[test]
fn the_pages_show_what_is_printed() {
    let pages: Vec<PathBuf> =
        fs::read_dir(DOCS).expect("there are pages").map(|entry| entry.unwrap().path()).collect();
    let blocks: usize = pages.iter().map(|path| is_true(path)).sum();
    assert!(pages.len() >= 8 && blocks >= 9, "{} pages, {blocks} blocks", pages.len());
}
