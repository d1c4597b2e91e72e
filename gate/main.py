"""The gate: runs every check, says what fails, and counts all of it in its last line."""
import sys
from pathlib import Path

import answers
import c
import cli
import contracts
import differences
import expected_cases
import rules
import rust
import selftest
import toolchain
import verdict
from repository import Repository, Result

# Each takes the repository and yields results. Those of `verdict` read what `rt ci` printed, those of `rust` link
# what it proved, those of `differences` read what these printed, and those of `c` and `cli` link the archive.
CHECKS = [
    selftest.results,
    *rules.RULES,
    *contracts.RULES,
    *answers.RULES,
    expected_cases.results,
    toolchain.proved,
    *verdict.RULES,
    *rust.RULES,
    *differences.RULES,
    *c.RULES,
    *cli.RULES,
]


def main():
    found = toolchain.version()
    if not found:
        print(f"There is no rt on the PATH. The toolchain to install is: {toolchain.WANTED}")
        print("0 passed, 1 failed")
        return 1
    if found != toolchain.WANTED:
        print(f"This is the toolchain {found}; the proofs were made with {toolchain.WANTED}.")

    repository = Repository(Path(__file__).resolve().parent.parent)
    passed, faults = 0, []
    for check in CHECKS:
        name = " ".join(check.__doc__.split())
        try:
            results = list(check(repository))
        except Exception as error:
            results = [Result(name, f"the check broke off: {error!r}")]
        bad = [result for result in results if result.fault]
        passed += len(results) - len(bad)
        faults += bad
        print(f"gate: {len(results) - len(bad)} passed, {len(bad)} failed: {name}", flush=True)
    for result in faults:
        print(f"gate: FAILED: {result.what}: {result.fault}")
    print(f"{passed} passed, {len(faults)} failed")
    return 1 if faults else 0


if __name__ == "__main__":
    sys.exit(main())
