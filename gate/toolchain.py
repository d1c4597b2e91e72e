"""Runs the toolchain's command `rt`, and makes results of what it says."""
import re
import subprocess

from repository import Result

# The proofs were made with this one: it is what `rt version` prints.
WANTED = "rattle-kit-13f logic dac8208d650f15bf"

# What `rt ci` printed.
SAID = "target/ci.txt"


def run(repository, *words):
    """The exit status of a command, and what it printed, which is shown as it comes."""
    lines = []
    with subprocess.Popen(words, cwd=repository.root, stdout=subprocess.PIPE, stderr=subprocess.STDOUT, text=True) as process:
        for line in process.stdout:
            lines.append(line)
            print(line, end="", flush=True)
    return process.returncode, "".join(lines)


def version():
    """The toolchain's name, or nothing if there is none."""
    try:
        return subprocess.run(["rt", "version"], stdout=subprocess.PIPE, text=True).stdout.strip()
    except FileNotFoundError:
        return ""


def proved(repository):
    """`rt ci`: every file is laid out, every crate proved, every must-fail edit refused, every program run."""
    status, said = run(repository, "rt", "ci")
    file = repository.root / SAID
    file.parent.mkdir(exist_ok=True)
    file.write_text(said)
    yield from counted(status, said)


def counted(status, said):
    """A result for each thing that `rt ci` counts in its last line. Bad edits, which it counts in its line `rt: ok` and
    passes, are a fault."""
    last = re.fullmatch(r"(\d+) passed, (\d+) failed", said.strip().rpartition("\n")[2])
    passed, failed = map(int, last.groups()) if last else (0, 0)
    yield from [Result("rt ci")] * passed
    yield from [Result("rt ci", "see above")] * failed
    ok = re.search(r"(?m)^rt: ok; .*$", said)
    bad = re.search(r", (\d+) bad;", ok.group()) if ok else None
    if bad and int(bad.group(1)) > 0:
        yield Result("rt ci", f"counts {bad.group(1)} bad must-fail edits")
    if status != 0 and failed == 0 or not last:
        yield Result("rt ci", f"ended with status {status} and counted no failure")
    elif failed == 0 and not ok:
        yield Result("rt ci", "does not say that all is ok")
