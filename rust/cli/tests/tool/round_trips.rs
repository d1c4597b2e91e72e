//! `compile` and `show`: TOML to bytes and back is the same, and nothing is written for what is refused.
use crate::common::{folder, put, say, TRUCK};
use std::fs;

#[test]
fn what_is_shown_compiles_to_the_same_bytes() {
    let folder = folder("round_trip");
    put(&folder, "truck.toml", TRUCK);
    let said = say(&folder, &["compile", "truck.toml", "-o", "first.bin"]).ended(0);
    assert_eq!(said.out, "first.bin: 334 bytes\n");
    let shown = say(&folder, &["show", "first.bin"]).ended(0);
    assert_eq!(shown.err, "");
    put(&folder, "shown.toml", &shown.out);
    say(&folder, &["compile", "shown.toml", "-o", "second.bin"]).ended(0);
    assert_eq!(fs::read(folder.join("first.bin")).unwrap(), fs::read(folder.join("second.bin")).unwrap());
    put(&folder, "truck.bin", fs::read(folder.join("second.bin")).unwrap());
    assert_eq!(say(&folder, &["show", "truck.bin"]).ended(0).out, shown.out);
}

#[test]
fn what_is_refused_is_not_written() {
    let folder = folder("not_written");
    put(&folder, "none.toml", "[pool]\nhost = 0\npages = 0\n");
    let said = say(&folder, &["compile", "none.toml", "-o", "none.bin"]).ended(1);
    assert!(said.err.contains("none.toml: refused (rule 38)"), "{}", said.err);
    assert!(!folder.join("none.bin").exists());
    assert_eq!(said.out, "");
}

#[test]
fn bytes_that_break_a_rule_are_shown_with_a_warning() {
    let folder = folder("shown_wrong");
    put(&folder, "wrong.bin", [vec![1, 0, 3, 0, 1, 0], vec![255; 24], vec![7], vec![0; 16]].concat());
    let said = say(&folder, &["show", "wrong.bin"]).ended(0);
    assert!(said.err.contains("wrong.bin: refused (rule 35)"), "{}", said.err);
    assert!(
        said.out.contains("guest = \"0xffffffffffffffff\"") && said.out.contains("kind = 7"),
        "{}",
        said.out
    );
}

#[test]
fn bytes_that_are_not_whole_are_not_shown() {
    let folder = folder("not_shown");
    put(&folder, "short.bin", [1, 0, 3]);
    let said = say(&folder, &["show", "short.bin"]).ended(1);
    assert!(said.err.contains("short.bin: refused (rule 32)"), "{}", said.err);
    assert_eq!(said.out, "");
    let said = say(&folder, &["compile", "short.bin", "-o", "x.bin"]).ended(2);
    assert!(said.err.contains("short.bin:1: "), "{}", said.err);
}

#[test]
fn text_is_not_shown() {
    let folder = folder("show_text");
    put(&folder, "truck.toml", TRUCK);
    let said = say(&folder, &["show", "truck.toml"]).ended(2);
    let wanted = "replayframes: truck.toml: is text: `show` takes a compiled file (replayframes compile)\n";
    assert_eq!((said.err.as_str(), said.out.as_str()), (wanted, ""));
    put(&folder, "empty.bin", "");
    say(&folder, &["show", "empty.bin"]).ended(1);
}

#[test]
fn what_is_compiled_is_not_compiled_again() {
    let folder = folder("compiled_twice");
    put(&folder, "truck.toml", TRUCK);
    say(&folder, &["compile", "truck.toml", "-o", "truck.bin"]).ended(0);
    let said = say(&folder, &["compile", "truck.bin", "-o", "twice.bin"]).ended(2);
    assert_eq!(said.err, "replayframes: truck.bin:1: is compiled already, or no text in UTF-8\n");
    assert!(!folder.join("twice.bin").exists());
}

#[test]
fn a_folder_that_is_not_there_is_named() {
    let folder = folder("no_folder");
    put(&folder, "truck.toml", TRUCK);
    let said = say(&folder, &["compile", "truck.toml", "-o", "none/truck.bin"]).ended(2);
    assert!(said.err.contains("none/truck.bin: cannot be written"), "{}", said.err);
}
