"""What must hold of docs/DIFFERENCES.md, the table of the inputs that are answered otherwise than by the original.

Each rule takes a repository and yields a result for each thing that it looks at."""
import re

from repository import Result
from rust import COMPARED

TABLE = "docs/DIFFERENCES.md"
CELLS = 6


def rows(repository):
    """The cells of each row of the table, without its heading."""
    lines = [line for line in repository.read(TABLE).splitlines() if line.startswith("|")]
    return [[cell.strip() for cell in line.strip()[1:-1].split("|")] for line in lines[2:]]


def tests(repository):
    """The names of the tests that passed: the comparisons, by what was printed of them, and the cases of programs."""
    return cases(repository) | set(re.findall(r"(?m)^ok: ([^:\n]*): ", repository.read(COMPARED)))


def cases(repository):
    """The names of the cases that programs print: on each line what stands before the colon and the answer."""
    programs = (crate for crate in repository.crates() if not repository.is_library(crate))
    lines = (line for crate in programs for line in repository.read(f"crates/{crate}/stdout").splitlines())
    return {line.partition(": ")[0] for line in lines if ": " in line}


def differences_are_tested(repository):
    """Each row of the table of differences has all its cells, and names tests that were run and passed."""
    there, table = tests(repository), rows(repository)
    yield Result(f"{TABLE} has rows", "" if table else "has no table with rows")
    for cells in table:
        what = f"{TABLE}: {' '.join(cells[:2]).strip()}"
        if len(cells) != CELLS:
            yield Result(what, f"has {len(cells)} cells, and not {CELLS}")
            continue
        named = re.findall(r"`([^`]+)`", cells[-1])
        absent = [name for name in named if name not in there]
        fault = ", ".join(f"no test {name} passed" for name in absent)
        yield Result(what, fault if named else "names no test")


RULES = [differences_are_tested]
