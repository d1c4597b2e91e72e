//! The command line: help for each command with an example, the version, wrong usage, and `bench`.
use crate::common::{folder, say};

/// The commands.
const COMMANDS: [&str; 7] = ["check", "compile", "show", "run", "map", "bench", "demo"];

#[test]
fn every_command_has_help_with_an_example() {
    let folder = folder("help");
    let all = say(&folder, &["--help"]).ended(0).out;
    for command in COMMANDS {
        assert!(all.contains(&format!("  {command} ")), "{all}");
        let help = say(&folder, &[command, "--help"]).ended(0).out;
        assert!(help.contains(&format!("replayframes {command}")), "{help}");
        assert!(help.contains("Example"), "{help}");
    }
}

#[test]
fn the_version_is_told() {
    let said = say(&folder("version"), &["--version"]).ended(0);
    assert_eq!(said.out, format!("replayframes {}\n", env!("CARGO_PKG_VERSION")));
}

#[test]
fn wrong_usage_ends_with_2() {
    let folder = folder("usage");
    for words in
        [&[][..], &["chekc"], &["check"], &["check", "a", "b"], &["compile", "a.toml"], &["run", "a.toml"]]
    {
        let said = say(&folder, words).ended(2);
        assert!(said.err.contains("Usage: replayframes"), "{words:?}: {}", said.err);
        assert_eq!(said.out, "");
    }
    let said = say(&folder, &["bench", "--rounds", "0"]).ended(2);
    assert!(said.err.contains("0 is not in 1..=99"), "{}", said.err);
}

#[test]
fn bench_prints_a_table() {
    let said = say(&folder("bench"), &["bench", "--rounds", "1", "--progress"]).ended(0);
    for part in [
        "request",
        "start",
        "translate an address",
        "a list of thirty requests",
        "65536 frames",
        "32 regions",
    ] {
        assert!(said.out.contains(part), "`{part}` is not in:\n{}", said.out);
    }
    assert!(said.out.ends_with("on a machine that does nothing else.\n"), "{}", said.out);
    assert!(said.err.starts_with("replayframes: start, 256 frames\n"), "{}", said.err);
    assert!(said.out.lines().all(|line| line.chars().count() <= 80), "{}", said.out);
}
