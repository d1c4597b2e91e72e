//! `run`: scripts and their answers, as text and as JSON, and scripts with mistakes.
use crate::common::{folder, put, say, say_to, TRUCK};
use std::path::PathBuf;

/// A folder with the truck and this script.
fn with(name: &str, script: &str) -> PathBuf {
    let folder = folder(name);
    put(&folder, "truck.toml", TRUCK);
    put(&folder, "script.txt", script);
    folder
}

#[test]
fn each_request_is_answered_with_its_line() {
    let script = "replay add\n# a comment\nreplay insert region memory\nreplay translate 0x123\n\
        replay alloc\nreplay alloc 4 align 4\nreplay free 0x200000000\nreplay free 0x200004000 count 4\n\
        replay remove region memory\nreplay translate 0x123\nreplay remove\n";
    let said = say(&with("run_text", script), &["run", "truck.toml", "script.txt"]).ended(0);
    let wanted = "1: replay add -> done\n3: replay insert region memory -> done\n\
        4: replay translate 0x123 -> 0x40000123\n5: replay alloc -> 0x200000000\n\
        6: replay alloc 4 align 4 -> 0x200004000\n7: replay free 0x200000000 -> done\n\
        8: replay free 0x200004000 count 4 -> done\n9: replay remove region memory -> done\n\
        10: replay translate 0x123 -> refused (55): No region of the set has the guest address. \
        Insert the region that has it first.\n11: replay remove -> done\n";
    assert_eq!(said.out, wanted);
    assert_eq!(said.err, "");
}

#[test]
fn both_sets_are_apart() {
    let script = "sound begin\nadd\ninsert region mixer for devices\nend\n\
        sound translate 0xfe000010\nsound translate 0xfe000010 for devices\nsound remove region mixer\n\
        sound remove region mixer for devices\nsound remove\n";
    let said = say(&with("run_sets", script), &["run", "truck.toml", "script.txt"]).ended(0);
    let answers: Vec<&str> = said.out.lines().map(|line| line.split(" -> ").nth(1).unwrap()).collect();
    assert_eq!(answers.len(), 8, "{}", said.out);
    assert!(answers[3].starts_with("refused (55)") && answers[5].starts_with("refused (54)"), "{}", said.out);
    assert_eq!([answers[4], answers[6], answers[7]], ["0xfe010010", "done", "done"]);
}

#[test]
fn a_list_is_done_whole_or_not_at_all() {
    let lists =
        ["alloc\n  alloc 2", "alloc\n  alloc 20000"].map(|list| format!("replay begin\n  {list}\nend\n"));
    let script = &format!("replay add\n{}replay alloc\n", lists.concat());
    let said = say(&with("run_list", script), &["run", "truck.toml", "script.txt"]).ended(0);
    let wanted = "1: replay add -> done\n2: replay list of 2 requests -> all done\n3:   alloc -> 0x200000000\n\
        4:   alloc 2 -> 0x200001000\n\
        6: replay list of 2 requests -> refused at line 8, and none of it is done (6): Nothing is free that is so \
        long and so aligned. Give something back, or ask for less.\n10: replay alloc -> 0x200003000\n";
    assert_eq!(said.out, wanted);
}

#[test]
fn json_has_an_object_a_line() {
    let script =
        "replay begin\n  add\n  alloc\nend\nreplay alloc\ngraphics alloc\nreplay begin\n  alloc 20000\nend\n";
    let said = say(&with("run_json", script), &["run", "--json", "truck.toml", "script.txt"]).ended(0);
    let lines: Vec<&str> = said.out.lines().collect();
    let wanted = [
        "{\"line\":1,\"machine\":\"replay\",\"number\":1,\"requests\":[{\"line\":2,\"request\":\"add\"},\
         {\"line\":3,\"request\":\"alloc\",\"address\":\"0x200000000\"}],\"answer\":\"done\"}",
        "{\"line\":5,\"machine\":\"replay\",\"number\":1,\"request\":\"replay alloc\",\
         \"answer\":\"done\",\"address\":\"0x200001000\"}",
        "{\"line\":6,\"machine\":\"graphics\",\"number\":2,\"request\":\"graphics alloc\",\
         \"answer\":\"refused\",\"code\":50,\"reason\":\"The machine is not there. Add it first.\"}",
    ];
    assert_eq!(lines[..3], wanted);
    assert!(lines[3].contains("\"code\":6,") && lines[3].ends_with("\"refused_line\":8}"), "{}", lines[3]);
    assert_eq!(lines.len(), 4);
}

#[test]
fn strict_ends_with_1_if_one_is_refused() {
    let folder = with("run_strict", "replay alloc\n");
    say(&folder, &["run", "truck.toml", "script.txt"]).ended(0);
    say(&folder, &["run", "--strict", "truck.toml", "script.txt"]).ended(1);
    put(&folder, "good.txt", "replay add\n");
    say(&folder, &["run", "--strict", "truck.toml", "good.txt"]).ended(0);
}

#[test]
fn compiled_configurations_have_numbers_only() {
    let folder =
        with("run_bytes", "machine 1 add\n#1 alloc\nmachine 1 insert region region-0\nmachine 9 add\n");
    say(&folder, &["compile", "truck.toml", "-o", "truck.bin"]).ended(0);
    let said = say(&folder, &["run", "truck.bin", "script.txt"]).ended(0);
    let lines: Vec<&str> = said.out.lines().collect();
    assert_eq!(
        lines[..3],
        [
            "1: machine 1 add -> done",
            "2: #1 alloc -> 0x200000000",
            "3: machine 1 insert region region-0 -> done"
        ]
    );
    assert!(lines[3].starts_with("4: machine 9 add -> refused (48)"), "{}", lines[3]);
}

#[test]
fn a_mistake_stops_before_anything_is_run() {
    let folder = with("run_mistake", "replay add\nreplay alloc lots\nreplay begin\n");
    let said = say(&folder, &["run", "truck.toml", "script.txt"]).ended(2);
    assert_eq!(said.out, "");
    let lines: Vec<&str> = said.err.lines().collect();
    assert!(lines[0].starts_with("replayframes: script.txt:2: the number of frames"), "{}", said.err);
    assert!(lines[1].starts_with("replayframes: script.txt:3: the list that begins here"), "{}", said.err);
    assert_eq!(lines.len(), 2);
}

#[test]
fn bad_inputs_end_with_2() {
    let folder = with("run_bad", "replay add\n");
    say(&folder, &["run", "truck.toml", "none.txt"]).ended(2);
    say(&folder, &["run", "none.toml", "script.txt"]).ended(2);
    put(&folder, "refused.toml", "[pool]\nhost = 1\npages = 1\n");
    let said = say(&folder, &["run", "refused.toml", "script.txt"]).ended(2);
    assert!(said.err.contains("refused.toml: refused (rule 38)"), "{}", said.err);
    put(&folder, "bytes.txt", [0xff, 0xfe]);
    let said = say(&folder, &["run", "truck.toml", "bytes.txt"]).ended(2);
    assert_eq!(said.err, "replayframes: bytes.txt:1: is no text in UTF-8: a script is text\n");
}

#[test]
fn standard_input_is_not_both_inputs() {
    let folder = folder("run_both");
    for words in [&["run", "-", "-"][..], &["map", "-", "-", "--text"]] {
        let said = say(&folder, words).ended(2);
        let wanted = "standard input can be the configuration or the script, not both\n";
        assert!(said.err.ends_with(wanted) && said.out.is_empty(), "{words:?}: {}", said.err);
    }
}

#[test]
fn the_script_comes_from_standard_input_too() {
    let said = say_to(&with("run_input", ""), &["run", "truck.toml", "-"], "replay add\n").ended(0);
    assert_eq!(said.out, "1: replay add -> done\n");
    let said = say_to(&with("run_input_bad", ""), &["run", "truck.toml", "-"], "replay\n").ended(2);
    assert!(said.err.starts_with("replayframes: standard input:1: "), "{}", said.err);
}

#[test]
fn a_pool_larger_than_what_is_simulated_is_said() {
    let folder = with("run_frames", "replay add\nreplay alloc 16\nreplay alloc\nreplay free 0x200010000\n");
    let said = say(&folder, &["run", "--frames", "16", "truck.toml", "script.txt"]).ended(0);
    assert!(said.err.contains("the pool has 16384 frames; 16 have memory in this run"), "{}", said.err);
    assert!(said.out.contains("3: replay alloc -> refused (6)"), "{}", said.out);
    assert!(said.out.contains("4: replay free 0x200010000 -> refused (14)"), "{}", said.out);
}

#[test]
fn sizes_that_cannot_be_run_are_bad_inputs() {
    let folder = with("run_sizes", "");
    put(&folder, "vast.toml", "[pool]\nhost = 0\npages = 0x8_0000_0000_0000\n");
    say(&folder, &["check", "vast.toml"]).ended(0);
    let said = say(&folder, &["run", "vast.toml", "script.txt"]).ended(2);
    assert!(said.err.contains("vast.toml: a run here has at most"), "{}", said.err);
    say(&folder, &["run", "--frames", "18446744073709551615", "truck.toml", "script.txt"]).ended(0);
    say(&folder, &["run", "--frames", "x", "truck.toml", "script.txt"]).ended(2);
}

#[test]
fn no_machines_and_no_requests_are_fine() {
    let folder = with("run_none", "");
    put(&folder, "none.toml", "[pool]\nhost = 0\npages = 1\n");
    assert_eq!(say(&folder, &["run", "none.toml", "script.txt"]).ended(0).out, "");
    put(&folder, "one.txt", "machine 1 add\n");
    let said = say(&folder, &["run", "none.toml", "one.txt"]).ended(0);
    assert!(said.out.starts_with("1: machine 1 add -> refused (48)"), "{}", said.out);
}

#[test]
fn progress_is_told_where_it_is_asked_for() {
    let folder = with("run_progress", "replay add\n");
    let said = say(&folder, &["run", "--progress", "truck.toml", "script.txt"]).ended(0);
    assert!(said.err.starts_with("replayframes: lending memory"), "{}", said.err);
    assert_eq!(say(&folder, &["run", "truck.toml", "script.txt"]).ended(0).err, "");
}
