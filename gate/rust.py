"""Runs the Rust that stands beside the proofs, and makes results of what it says. rust/README.md says what
it is. The archive is that of the crates as they are: `./archive` proves them for itself.

Each check takes a repository and yields a result for each thing that it looks at."""
import os
import re
import shutil
import subprocess

from repository import Result
from toolchain import run

NEEDED = "the Debian packages cargo and rustc, version 1.63 or later"
PROGRAMS = "rust/target/release"

# What the quick comparison printed.
COMPARED = "target/compare.txt"

# The quick comparison takes about a minute; one that does not end is a failure.
SECONDS = "600"


def stripped(repository):
    """rust/oracle is upstream's source without its ghost parts."""
    status, said = run(repository, "python3", "rust/oracle/strip.py", "--check")
    yield Result("rust/oracle/strip.py --check", "" if status == 0 else said)


def archived(repository):
    """`./archive`: the proved functions are built into the one archive to link."""
    status, _ = run(repository, "./archive")
    yield Result("./archive", "" if status == 0 else f"ended with status {status}")


def built(repository):
    """The Rust programs are built, with the archive, and with nothing from the network."""
    fault = cargo_is_missing()
    if not fault:
        status, _ = run_cargo(repository, "rust", "build", "--release")
        fault = "" if status == 0 else f"ended with status {status}"
    yield Result("cargo build", fault)


def tested(repository):
    """`cargo test`: the crate replayframes does what its tests say, the examples in its documentation run, and the
    rivals answer as the models."""
    status, said = run_cargo(repository, "rust", "test", "--no-fail-fast")
    told = re.findall(r"(?m)^test (.+) \.\.\. (\w+)$", said)
    yield from (Result(f"cargo test: {name}", "" if how == "ok" else f"is {how}") for name, how in told)
    if status != 0 or not told:
        yield Result("cargo test", f"ended with status {status} after {len(told)} tests")


def documented(repository):
    """`cargo rustdoc`: the documentation of the crate replayframes has no fault."""
    status, _ = run_cargo(repository, "rust", "rustdoc", "--package", "replayframes", "--", "-D", "warnings")
    yield Result("cargo rustdoc", "" if status == 0 else f"ended with status {status}")


def example_prints(repository):
    """The program in examples/rust prints what its file stdout holds."""
    status, said = run_cargo(repository, "examples/rust", "run", "--quiet")
    fault = "" if said == repository.read("examples/rust/stdout") else "prints something else than its file stdout"
    yield Result("examples/rust", fault if status == 0 else f"ended with status {status}")


def compared(repository):
    """`compare quick`: ours answers as upstream and plain models do, and differs as the findings say."""
    status, said = run_program(repository, "timeout", SECONDS, f"{PROGRAMS}/compare", "quick")
    (repository.root / COMPARED).write_text(said)
    yield from counted(status, said)


def sampled(repository):
    """The stored answers of bitmap_replay are upstream's."""
    status, said = run_program(repository, f"{PROGRAMS}/sample", "--check")
    yield Result("sample --check", "" if status == 0 else said)


def cargo_is_missing():
    """What is to be installed, if anything."""
    missing = left_missing(["cargo", "rustc"], lambda: not shutil.which("cargo"))
    return f"there is no cargo: install {NEEDED}" if missing else ""


def left_missing(packages, missing):
    """What `missing` says in the end. If it says something and this runs as root, Debian's packages are installed; where
    that does not help, once more after their lists were fetched."""
    install = ["install", "-y", "--no-install-recommends", *packages]
    for words in (install, ["update"], install):
        if missing() and os.geteuid() == 0 and shutil.which("apt-get"):
            subprocess.run(["apt-get", *words])
    return missing()


def run_cargo(repository, folder, command, *words):
    """Runs a command of cargo on the package or workspace in a folder, with the repository's archive, and with nothing
    from the network."""
    place = ["--offline", "--locked", "--manifest-path", f"{folder}/Cargo.toml"]
    return run(repository, "env", "-u", "REPLAYFRAMES_ARCHIVE", "cargo", command, *place, *words)


def run_program(repository, *words):
    """Runs a program that was built, or says that it was not."""
    try:
        return run(repository, *words)
    except FileNotFoundError as error:
        return 127, f"{error.filename} was not built"


def counted(status, said):
    """A result for each comparison, by its name; the last line must count as many."""
    lines = said.strip().splitlines() or [""]
    told = re.findall(r"(?m)^(ok|FAILED): ([^:]*): (.*)$", said)
    yield from (Result(f"compare quick: {name}", "" if kind == "ok" else text) for kind, name, text in told)
    failed = sum(kind == "FAILED" for kind, _, _ in told)
    if lines[-1] != f"{len(told) - failed} passed, {failed} failed" or (status != 0) != (failed != 0):
        yield Result("compare quick", f"ended with status {status} after: {lines[-1]}")


RULES = [stripped, archived, built, compared, sampled, tested, documented, example_prints]
