//! Runs the program as people do, in a folder of its own for each test.
use std::fs;
use std::io::Write;
use std::path::{Path, PathBuf};
use std::process::{Command, Output, Stdio};

/// What the program said, and how it ended.
pub struct Said {
    pub status: i32,
    pub out: String,
    pub err: String,
}

impl From<Output> for Said {
    fn from(output: Output) -> Said {
        let text = |bytes: &[u8]| String::from_utf8(bytes.to_vec()).expect("the program prints UTF-8");
        Said {
            status: output.status.code().expect("the program is not killed"),
            out: text(&output.stdout),
            err: text(&output.stderr),
        }
    }
}

impl Said {
    /// It ended so.
    pub fn ended(self, status: i32) -> Said {
        assert_eq!(self.status, status, "standard output:\n{}standard error:\n{}", self.out, self.err);
        self
    }
}

/// An empty folder for the test that has this name.
pub fn folder(name: &str) -> PathBuf {
    let folder = Path::new(env!("CARGO_TARGET_TMPDIR")).join(name);
    if folder.exists() {
        fs::remove_dir_all(&folder).expect("the test's old folder goes");
    }
    fs::create_dir_all(&folder).expect("the test has a folder");
    folder
}

/// Writes a file into a folder.
pub fn put(folder: &Path, name: &str, bytes: impl AsRef<[u8]>) {
    fs::write(folder.join(name), bytes).expect("the test's file is written");
}

/// The program in a folder, with these words behind its name.
pub fn program(folder: &Path, words: &[&str]) -> Command {
    let mut command = Command::new(env!("CARGO_BIN_EXE_replayframes"));
    command.args(words).current_dir(folder);
    command
}

/// What the program says, in a folder, to these words.
pub fn say(folder: &Path, words: &[&str]) -> Said {
    program(folder, words).stdin(Stdio::null()).output().expect("the program starts").into()
}

/// The same, with a text on standard input.
pub fn say_to(folder: &Path, words: &[&str], input: &str) -> Said {
    let mut child = program(folder, words)
        .stdin(Stdio::piped())
        .stdout(Stdio::piped())
        .stderr(Stdio::piped())
        .spawn()
        .expect("the program starts");
    child
        .stdin
        .take()
        .expect("it has standard input")
        .write_all(input.as_bytes())
        .expect("it reads its input");
    child.wait_with_output().expect("it ends").into()
}

/// The truck of the demo.
pub const TRUCK: &str = include_str!("../../demo/truck.toml");
