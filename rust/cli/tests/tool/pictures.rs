//! `map` and `demo`: the picture as text, as a page and as a picture, and the match day word for word.
use crate::common::{folder, program, put, say, TRUCK};
use std::fs;
use std::path::Path;

/// The script of the demo, and what the demo prints.
const MATCH: &str = include_str!("../../demo/match.txt");
const STDOUT: &str = include_str!("../../demo/stdout");

#[test]
fn the_demo_prints_what_its_file_says() {
    let folder = folder("demo");
    let said = say(&folder, &["demo"]).ended(0);
    for (i, (printed, wanted)) in said.out.lines().zip(STDOUT.lines()).enumerate() {
        assert_eq!(printed, wanted, "line {} is not that of rust/cli/demo/stdout", i + 1);
    }
    assert_eq!(said.out.lines().count(), STDOUT.lines().count());
    assert_eq!(said.err, "");
    let page = fs::read_to_string(folder.join("replayframes-demo.html")).unwrap();
    assert!(page.contains("The truck after the match") && page.contains("commentary"));
}

#[test]
fn the_demo_is_readable_at_80_columns() {
    let wide: Vec<&str> = STDOUT.lines().filter(|line| line.chars().count() > 80).collect();
    assert_eq!(wide, [""; 0]);
}

#[test]
fn the_demo_writes_the_page_that_is_named() {
    let folder = folder("demo_named");
    let said = say(&folder, &["demo", "-o", "match.html"]).ended(0);
    assert!(said.out.ends_with("is in match.html.\n"), "{}", said.out);
    assert!(folder.join("match.html").exists() && !folder.join("replayframes-demo.html").exists());
}

#[test]
fn the_demo_prints_nothing_where_its_page_cannot_be_written() {
    let folder = folder("demo_not_written");
    let said = say(&folder, &["demo", "-o", "none/match.html"]).ended(2);
    assert!(said.err.contains("none/match.html: cannot be written") && said.out.is_empty(), "{}", said.err);
    for name in ["match.svg", "match.png", "match"] {
        let said = say(&folder, &["demo", "-o", name]).ended(2);
        let wanted = format!("replayframes: {name}: is no page: let its name end in .html\n");
        assert_eq!((said.err, said.out), (wanted, String::new()));
        assert!(!folder.join(name).exists(), "{name}");
    }
}

#[test]
fn the_map_shows_the_state_after_the_script() {
    let folder = folder("map_text");
    put(&folder, "truck.toml", TRUCK);
    put(&folder, "script.txt", "sound add\nsound alloc 3\nsound insert region mixer for devices\n");
    let before = say(&folder, &["map", "truck.toml", "--text"]).ended(0).out;
    let after = say(&folder, &["map", "truck.toml", "script.txt", "--text"]).ended(0).out;
    assert!(before.contains("0 owned, 16,384 free, 0 reserved"), "{before}");
    assert!(after.contains("3 owned, 16,381 free, 0 reserved"), "{after}");
    assert!(after.contains("reached by sound at guest 0xfe000000 by devices"), "{after}");
    assert!(!before.contains("reached by sound"), "{before}");
    assert!([before, after].iter().all(|text| text.lines().all(|line| line.chars().count() <= 80)));
}

#[test]
fn the_end_of_a_match_is_drawn_as_in_the_demo() {
    let folder = folder("map_match");
    put(&folder, "truck.toml", TRUCK);
    put(&folder, "match.txt", MATCH);
    let said = say(&folder, &["map", "truck.toml", "match.txt", "--text"]).ended(0);
    let (_, table) = said.out.split_once("host address").expect("the map has a table");
    assert!(STDOUT.contains(table), "{table}");
}

/// The words of a map to a file, and what is in the file.
fn drawn(folder: &Path, file: &str) -> String {
    say(folder, &["map", "truck.toml", "-o", file]).ended(0);
    fs::read_to_string(folder.join(file)).expect("the map is written")
}

#[test]
fn a_page_or_a_picture_is_written_by_its_name() {
    let folder = folder("map_files");
    put(&folder, "truck.toml", TRUCK);
    assert!(drawn(&folder, "truck.svg").contains("<svg"));
    let page = drawn(&folder, "truck.html");
    assert!(page.to_lowercase().starts_with("<!doctype html>"));
    assert!(page.contains("Shared by sound and commentary"));
    let said = say(&folder, &["map", "truck.toml", "-o", "truck.png"]).ended(2);
    assert!(said.err.contains("truck.png: is neither a page nor a picture"), "{}", said.err);
    say(&folder, &["map", "truck.toml"]).ended(2);
}

#[test]
fn a_pool_larger_than_what_is_simulated_is_noted() {
    let folder = folder("map_frames");
    put(&folder, "truck.toml", TRUCK);
    let said = say(&folder, &["map", "truck.toml", "--text", "--frames", "16"]).ended(0);
    let flat = said.out.split_whitespace().collect::<Vec<_>>().join(" ");
    assert!(flat.contains("0 owned, 16 free, 16,368 reserved"), "{}", said.out);
    assert!(flat.contains("the pool has 16384 frames; 16 have memory in this run"), "{}", said.out);
}

#[test]
fn a_page_with_a_strange_name_is_escaped() {
    let folder = folder("map_names");
    put(&folder, "truck.toml", TRUCK.replace("name = \"sound\"", "name = '<script>'"));
    let page = drawn(&folder, "truck.html");
    assert!(page.contains("&lt;script&gt;"));
    assert_eq!(page.matches("<script>").count(), say_plain(&folder).matches("<script>").count());
}

/// The page of the truck with plain names.
fn say_plain(folder: &Path) -> String {
    put(folder, "truck.toml", TRUCK);
    drawn(folder, "plain.html")
}

#[test]
fn a_reader_that_goes_away_is_no_fault() {
    let folder = folder("pipe");
    let mut child = program(&folder, &["demo"])
        .stdout(std::process::Stdio::piped())
        .stderr(std::process::Stdio::piped())
        .spawn()
        .expect("the program starts");
    drop(child.stdout.take());
    let output = child.wait_with_output().expect("it ends");
    assert_eq!((output.status.code(), output.stderr.as_slice()), (Some(0), &b""[..]));
}
