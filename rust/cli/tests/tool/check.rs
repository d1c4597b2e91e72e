//! `check`: every rule of a configuration is broken in turn, and the answer names the rule, the machine, the region,
//! the line and what would mend it.
use crate::common::{folder, put, say, TRUCK};

/// A region's lines, eight with its heading, from its name on.
fn region(name: &str, guest: &str, host: &str, pages: &str, kind: &str) -> String {
    format!("[[machine.region]]\nname = \"{name}\"\nguest = {guest}\nhost = {host}\npages = {pages}\nkind = {kind}\n")
}

/// A machine's lines, three with its heading.
fn machine(name: &str, number: u32) -> String {
    format!("[[machine]]\nname = \"{name}\"\nnumber = {number}\n")
}

/// A file of these parts behind the pool, whose host start is on line 2 and whose pages are on line 3.
fn file(host: &str, pages: &str, parts: &[String]) -> String {
    format!("[pool]\nhost = {host}\npages = {pages}\n{}", parts.concat())
}

/// The check of a file refuses it, with this code, and says all of these.
fn refused(name: &str, text: &str, code: u32, wanted: &[&str]) {
    let folder = folder(name);
    put(&folder, "truck.toml", text);
    let said = say(&folder, &["check", "truck.toml"]).ended(1);
    let flat = said.out.split_whitespace().collect::<Vec<_>>().join(" ");
    let rule = format!("truck.toml: refused (rule {code}):");
    for part in [rule.as_str(), "To mend it:"].iter().chain(wanted) {
        assert!(flat.contains(part), "`{part}` is not in:\n{}", said.out);
    }
    assert_eq!(said.err, "");
}

/// Machine `a`, and its region on lines 7 to 12 with these values.
fn one(guest: &str, host: &str, pages: &str, kind: &str) -> String {
    file("0x90000", "4", &[machine("a", 1), region("r", guest, host, pages, kind)])
}

/// Machines `a` and `b` with a region each, `r` on lines 7 to 12 and `s` on lines 16 to 21.
fn two(r: &str, s: &str) -> String {
    file("0x90000", "4", &[machine("a", 1), r.to_string(), machine("b", 2), s.to_string()])
}

/// Machine `a` with regions `r` on lines 7 to 12 and `s` on lines 13 to 18.
fn both(r: &str, s: &str) -> String {
    file("0x90000", "4", &[machine("a", 1), r.to_string(), s.to_string()])
}

#[test]
fn the_truck_is_accepted_with_a_table() {
    let folder = folder("check_truck");
    put(&folder, "truck.toml", TRUCK);
    let said = say(&folder, &["check", "truck.toml"]).ended(0);
    assert!(said.out.starts_with("truck.toml: accepted\n"), "{}", said.out);
    for part in [
        "commentary       4  memory    ordinary",
        "the pool",
        "4 machines with 12 regions",
        "shared: 17 MiB",
        "ordinary: 1728 MiB",
    ] {
        assert!(said.out.contains(part), "`{part}` is not in:\n{}", said.out);
    }
    assert!(said.out.lines().all(|line| line.chars().count() <= 80), "{}", said.out);
}

#[test]
fn too_many_machines() {
    let machines: Vec<String> = (1..=65).map(|number| machine(&format!("m{number}"), number)).collect();
    refused("rule_33", &file("0", "1", &machines), 33, &["line 198: machine m65", "leave out 1 machine"]);
    let folder = folder("rule_33_kept");
    put(&folder, "truck.toml", file("0", "1", &machines[..64]));
    say(&folder, &["check", "truck.toml"]).ended(0);
}

#[test]
fn too_many_regions() {
    let page = |i: u32| region(&format!("r{i}"), &(4096 * i).to_string(), &(4096 * i).to_string(), "1", "0");
    let parts: Vec<String> = std::iter::once(machine("a", 1)).chain((0..33).map(page)).collect();
    refused(
        "rule_34",
        &file("0x90000", "4", &parts),
        34,
        &["line 201: region r32 of machine a", "leave out 1 region"],
    );
}

#[test]
fn unknown_kind() {
    let wanted = ["line 12: region r of machine a has the kind 3", "\"ordinary\", \"device\", \"shared\""];
    refused("rule_35", &one("0", "0", "1", "3"), 35, &wanted);
}

#[test]
fn same_number() {
    let text = file("0", "1", &[machine("a", 1), machine("b", 7), machine("c", 7)]);
    let wanted = ["line 9: machine b has the number 7", "line 12: machine c has the number 7", "such as 2"];
    refused("rule_36", &text, 36, &wanted);
}

#[test]
fn regions_that_are_not_valid() {
    let cases = [
        (
            "no_page",
            one("0", "0", "0", "0"),
            "line 11: region r of machine a, it has no page",
            "give it at least one page, or leave it out",
        ),
        (
            "guest_start",
            one("0x1234", "0", "1", "0"),
            "line 9: region r of machine a",
            "guest = 0x1000 or guest = 0x2000",
        ),
        (
            "host_start",
            one("0", "1", "1", "0"),
            "line 10: region r of machine a",
            "host = 0x0 or host = 0x1000",
        ),
        (
            "guest_end",
            one("'0xffff_ffff_ffff_0000'", "0", "16", "0"),
            "line 9: region r of machine a",
            "pages = 15 or less",
        ),
        (
            "host_end",
            one("0", "0x1000", "0x10_0000_0000_0000", "0"),
            "line 9: region r of machine a",
            "fewer than 2^52",
        ),
        (
            "host_end_alone",
            one("0", "'0xffff_ffff_ffff_f000'", "1", "0"),
            "line 10: region r of machine a",
            "host = \"0xffffffffffffe000\" or less",
        ),
    ];
    for (name, text, place, mend) in cases {
        refused(&format!("rule_37_{name}"), &text, 37, &[place, mend]);
    }
}

#[test]
fn a_pool_that_is_not_valid() {
    let cases = [
        ("no_page", file("0", "0", &[]), "line 3: the pool, it has no page"),
        ("host_start", file("1", "1", &[]), "line 2: the pool, its host start"),
        ("host_end", file("'0xffff_ffff_ffff_f000'", "1", &[]), "line 2: the pool, its host end"),
    ];
    for (name, text, place) in cases {
        refused(&format!("rule_38_{name}"), &text, 38, &[place]);
    }
}

#[test]
fn a_pool_without_pages_cannot_be_left_out() {
    let folder = folder("rule_38_required");
    put(&folder, "truck.toml", file("0", "0", &[]));
    let said = say(&folder, &["check", "truck.toml"]).ended(1);
    assert!(said.out.ends_with("To mend it: give it at least one page\n"), "{}", said.out);
}

#[test]
fn host_memory_of_two_machines() {
    let text = two(&region("r", "0", "0x1000", "2", "0"), &region("s", "0", "0x2000", "1", "2"));
    let wanted = [
        "line 10: region r of machine a (ordinary)",
        "line 19: region s of machine b (shared)",
        "host = 0x3000, which is free",
        "make both",
    ];
    refused("rule_39", &text, 39, &wanted);
}

#[test]
fn host_memory_of_one_machine() {
    let text = both(&region("r", "0", "0x1000", "1", "2"), &region("s", "0x5000", "0x1000", "1", "1"));
    let wanted = ["line 16: region s of machine a (device)", "line 10: region r of machine a (shared)"];
    refused("rule_39_one", &text, 39, &wanted);
}

#[test]
fn shared_regions_that_do_not_coincide() {
    let text = two(&region("r", "0", "0x1000", "2", "2"), &region("s", "0", "0x1000", "1", "2"));
    let wanted = [
        "line 10: region r of machine a",
        "line 19: region s of machine b",
        "give region s of machine b host = 0x1000 and pages = 2",
    ];
    refused("rule_40", &text, 40, &wanted);
    let folder = folder("rule_40_kept");
    put(
        &folder,
        "truck.toml",
        two(&region("r", "0", "0x1000", "2", "2"), &region("s", "0", "0x1000", "2", "2")),
    );
    say(&folder, &["check", "truck.toml"]).ended(0);
}

#[test]
fn shared_regions_of_one_machine() {
    let text = both(&region("r", "0", "0x1000", "2", "2"), &region("s", "0x5000", "0x1000", "2", "2"));
    refused(
        "rule_41",
        &text,
        41,
        &["line 10: region r of machine a", "line 16: region s of machine a", "leave one of them out"],
    );
}

#[test]
fn guest_memory_of_one_machine() {
    let text = both(&region("r", "0x1000", "0x1000", "2", "0"), &region("s", "0x2000", "0x5000", "1", "0"));
    let wanted =
        ["line 9: region r of machine a", "line 15: region s of machine a", "guest = 0x3000, which is free"];
    refused("rule_42", &text, 42, &wanted);
}

#[test]
fn host_memory_of_the_pool() {
    let wanted = ["line 10: region r of machine a", "line 2: the pool", "host = 0x94000, which is free"];
    refused("rule_43", &one("0", "0x93000", "1", "0"), 43, &wanted);
}

/// What the check says would mend a file is written on a line of it, and the check accepts it.
fn mended(name: &str, text: &str, line: usize) {
    let folder = folder(name);
    put(&folder, "truck.toml", text);
    let said =
        say(&folder, &["check", "truck.toml"]).ended(1).out.split_whitespace().collect::<Vec<_>>().join(" ");
    let (before, _) = said.split_once(", which is free").expect("a place is named that is free");
    let (_, value) = before.rsplit_once(" to ").expect("it stands behind `to`");
    let lines: Vec<&str> =
        text.lines().enumerate().map(|(i, old)| if i + 1 == line { value } else { old }).collect();
    put(&folder, "truck.toml", lines.join("\n"));
    say(&folder, &["check", "truck.toml"]).ended(0);
}

#[test]
fn what_is_said_to_mend_it_does() {
    let meet = two(&region("r", "0", "0x1000", "2", "0"), &region("s", "0", "0x2000", "1", "2"));
    mended("mended_39", &meet, 19);
    let part = two(&region("r", "0", "0x1000", "2", "2"), &region("s", "0", "0x1000", "1", "2"));
    mended("mended_40", &part, 19);
    let guest = both(&region("r", "0x1000", "0x1000", "2", "0"), &region("s", "0x2000", "0x5000", "1", "0"));
    mended("mended_42", &guest, 15);
    mended("mended_43", &one("0", "0x93000", "1", "0"), 10);
    let high = ["'0x9000_0000_0000_0000'", "'0x9000_0000_0000_1000'"];
    let meet = two(&region("r", "0", high[0], "2", "0"), &region("s", "0", high[1], "1", "0"));
    mended("mended_high", &meet, 19);
}

#[test]
fn compiled_bytes_have_offsets_for_lines() {
    let folder = folder("check_bytes");
    put(&folder, "truck.toml", TRUCK);
    say(&folder, &["compile", "truck.toml", "-o", "truck.bin"]).ended(0);
    let bytes = std::fs::read(folder.join("truck.bin")).unwrap();
    say(&folder, &["check", "truck.bin"]).ended(0);

    put(&folder, "short.bin", &bytes[..bytes.len() - 1]);
    let said = say(&folder, &["check", "short.bin"]).ended(1);
    let field = format!("byte {}:", bytes.len() - 8);
    assert!(said.out.contains("refused (rule 32)") && said.out.contains(&field), "{}", said.out);

    put(&folder, "long.bin", [bytes.as_slice(), &[0]].concat());
    let said = say(&folder, &["check", "long.bin"]).ended(1);
    let cut = format!("cut it to {} bytes", bytes.len());
    assert!(said.out.contains("refused (rule 44)") && said.out.contains(&cut), "{}", said.out);

    put(&folder, "many.bin", [&[65, 0], &bytes[2..300]].concat());
    let said = say(&folder, &["check", "many.bin"]).ended(1);
    let rule = "many.bin: refused (rule 33): The configuration has more than 64 machines\n";
    let wanted = format!("{rule}  byte 0: it counts 65 machines\n  To mend it: compile");
    assert!(said.out.starts_with(&wanted), "{}", said.out);

    put(&folder, "regions.bin", [&bytes[..4], &[33, 0], &bytes[6..300]].concat());
    let said = say(&folder, &["check", "regions.bin"]).ended(1);
    assert!(said.out.contains("refused (rule 34)"), "{}", said.out);
    assert!(said.out.contains("\n  byte 2: machine 0, counted from 0\n"), "{}", said.out);

    let mut kind = bytes.clone();
    kind[55] = 9;
    put(&folder, "cut.bin", &kind[..300]);
    let said = say(&folder, &["check", "cut.bin"]).ended(1);
    assert!(said.out.contains("refused (rule 35)"), "{}", said.out);
    assert!(said.out.contains("\n  byte 31: region 1 of machine 0, counted from 0\n"), "{}", said.out);

    let mut same = [bytes.as_slice(), &[0]].concat();
    same[81] = 1;
    put(&folder, "same.bin", same);
    let said = say(&folder, &["check", "same.bin"]).ended(1);
    assert!(said.out.contains("refused (rule 36)"), "{}", said.out);
    for place in
        ["byte 2: machine machine-1 has the number 1", "byte 81: machine machine-1-1 has the number 1"]
    {
        assert!(said.out.contains(place), "{}", said.out);
    }

    let mut kind = bytes.clone();
    kind[30] = 9;
    put(&folder, "kind.bin", kind);
    let said = say(&folder, &["check", "kind.bin"]).ended(1);
    assert!(
        said.out.contains("byte 30: region region-0 of machine machine-1 has the kind 9"),
        "{}",
        said.out
    );
}

#[test]
fn what_is_no_toml_is_a_bad_input() {
    let folder = folder("check_bad");
    put(&folder, "bad.toml", "[pool]\nhost = \n");
    let said = say(&folder, &["check", "bad.toml"]).ended(2);
    assert!(said.err.starts_with("replayframes: bad.toml:2: "), "{}", said.err);
    assert_eq!(said.out, "");

    put(&folder, "latin.toml", b"[pool]\nhost = 0\n# caf\xe9\n");
    let said = say(&folder, &["check", "latin.toml"]).ended(2);
    assert!(said.err.starts_with("replayframes: latin.toml:3: is no text in UTF-8"), "{}", said.err);

    let said = say(&folder, &["check", "none.toml"]).ended(2);
    assert!(said.err.starts_with("replayframes: none.toml: cannot be read"), "{}", said.err);

    put(&folder, "large.toml", "#".repeat((1 << 20) + 1));
    let said = say(&folder, &["check", "large.toml"]).ended(2);
    assert!(said.err.contains("large.toml: has more than 1048576 bytes"), "{}", said.err);
}

#[test]
fn standard_input_is_read() {
    let folder = folder("check_input");
    let said = crate::common::say_to(&folder, &["check", "-"], TRUCK).ended(0);
    assert!(said.out.starts_with("standard input: accepted"), "{}", said.out);
}
