"""Builds the command-line tool rust/cli with Debian's crates, runs its tests and its fuzzer, and makes results of what
they say. The archive is the one that `rust.archived` wrote. Run as a program, it installs what the build needs, or
names it.

Each check takes a repository and yields a result for each thing that it looks at."""
import re
import sys
from pathlib import Path

from repository import Result
from rust import cargo_is_missing, left_missing
from toolchain import run

FOLDER = "rust/cli"
# Debian 12's packages that rust/cli/Cargo.toml needs, and where they put crates.
PACKAGES = [f"librust-{name}-dev" for name in ("clap", "clap-derive", "serde", "serde-derive", "toml")]
CRATES = Path("/usr/share/cargo/registry")
NEEDED = ["clap-4", "clap_derive-4", "serde-1", "serde_derive-1", "toml-0.5"]

# The tests take seconds; what does not end is a failure.
SECONDS = "600"
# How long the fuzzer runs.
FUZZED = "10"


def built(repository):
    """rust/cli is built with Debian's crates, and with nothing from the network."""
    fault = cargo_is_missing() or packages_are_missing()
    if not fault:
        status, _ = cargo(repository, "build")
        fault = "" if status == 0 else f"ended with status {status}"
    yield Result(f"{FOLDER}: cargo build", fault)


def tested(repository):
    """The tests of rust/cli: every command, every rule with its line, every request, every mistake."""
    yield from counted(*cargo(repository, "test", "--no-fail-fast"))


def fuzzed(repository):
    """Ten seconds of mutated configurations and scripts: nothing panics, takes long or contradicts itself."""
    status, said = cargo(repository, "run", "--bin", "fuzz", "--", FUZZED)
    yield from survived(status, said)


def cargo(repository, word, *words):
    """Runs cargo in rust/cli, where its configuration names Debian's crates."""
    place = ["env", "-C", FOLDER, "-u", "REPLAYFRAMES_ARCHIVE", "timeout", SECONDS]
    return run(repository, *place, "cargo", word, "--offline", "--locked", *words)


def packages_are_missing():
    """What is to be installed, if anything."""
    missing = ", ".join(left_missing(PACKAGES, missing_crates))
    return f"there is no {missing} in {CRATES}: install Debian 12's packages {' '.join(PACKAGES)}" if missing else ""


def missing_crates():
    """Those of the needed crates that are not there."""
    return [name for name in NEEDED if not list(CRATES.glob(f"{name}.*"))]


def counted(status, said):
    """A result for each test by its name; as many must be counted in the lines that sum them up."""
    told = re.findall(r"(?m)^test (.+?)(?: - should panic)? \.\.\. (ok|FAILED)$", said)
    yield from (Result(f"{FOLDER}: {name}", "" if kind == "ok" else "fails: see above") for name, kind in told)
    sums = re.findall(r"(?m)^test result: \w+\. (\d+) passed; (\d+) failed;", said)
    summed = sum(int(passed) + int(failed) for passed, failed in sums)
    failed = any(kind == "FAILED" for _, kind in told)
    if not told or summed != len(told) or (status != 0) != failed:
        fault = f"ended with status {status} after {len(told)} tests, and counted {summed}"
        yield Result(f"{FOLDER}: cargo test", fault)


def survived(status, said):
    """A result for each form of inputs, some of which must be accepted, and one for the whole."""
    for form, tried, accepted in re.findall(r"(?m)^(toml|bin|txt): (\d+) inputs, (\d+) accepted$", said):
        fault = "" if int(accepted) > 0 else f"none of {tried} inputs was accepted"
        yield Result(f"{FOLDER}: fuzz: {form}", fault)
    whole = status == 0 and re.search(r"(?m)^seed \d+: 0 crashes$", said)
    yield Result(f"{FOLDER}: fuzz", "" if whole else f"ended with status {status}: see above")


RULES = [built, tested, fuzzed]


if __name__ == "__main__":
    sys.exit(cargo_is_missing() or packages_are_missing() or 0)
