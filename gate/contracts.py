"""What must hold of docs/CONTRACTS.md, the tables of the original's clauses and of the wrong programs that it accepts.

Each rule takes a repository and yields a result for each thing that it looks at."""
import re
from typing import NamedTuple

from repository import Result, closing

TABLE = "docs/CONTRACTS.md"
HOW = ("same", "stronger", "refused instead of required", "different", "left out")

# The title of the section that has the table of wrong programs. Every other table is one of clauses.
WRONG = "Wrong programs that the original's contracts accept"


class Row(NamedTuple):
    """A row of a table, and the title of its section."""

    section: str
    cells: list


def tables(repository):
    """The rows of every table, without its heading."""
    section, found = "", []
    for line in repository.read(TABLE).splitlines():
        if line.startswith("#"):
            section, found = line.lstrip("# ").strip(), []
        elif line.startswith("|"):
            found.append(line)
            if len(found) > 2:
                yield Row(section, [cell.strip() for cell in line.strip().strip("|").split(" | ")])
        else:
            found = []


def rows(repository):
    """The rows of the tables of clauses."""
    return [row for row in tables(repository) if row.section != WRONG]


def wrong_programs(repository):
    """The rows of the table of wrong programs."""
    return [row for row in tables(repository) if row.section == WRONG]


def names(text):
    """Each name in backquotes."""
    return re.findall(r"`([^`]+)`", text)


def cited(cell):
    """Each name in backquotes, with the file in brackets that follows it, or nothing if none does."""
    at = 0
    for group in re.finditer(r"\((crates/\S+?)\)|$", cell):
        for name in names(cell[at : group.start()]):
            yield name, group.group(1) or ""
        at = group.end()


# ---- what there is here


def defined(repository):
    """The names that each file of a crate defines, by the file's path."""
    found = {}
    for crate in repository.crates():
        for file in repository.files(crate, "*.rt"):
            text = re.sub(r"//.*", "", file.read_text())
            found[str(file.relative_to(repository.root))] = source_names(crate, text)
        for file in repository.files(crate, "*.antt"):
            text = re.sub(r"(?m)--.*$", "", file.read_text())
            found[str(file.relative_to(repository.root))] = logic_names(text)
    return found


def source_names(crate, text):
    """Functions as crate::name, types, and the parts of types as Type.part."""
    found = {f"{crate}::{name}" for name in re.findall(r"\bfn\s+(\w+)", text)}
    for head in re.finditer(r"\b(?:enum|struct)\s+(\w+)\s*\{", text):
        inside = text[head.end() : closing(text, head.end() - 1) - 1]
        found |= {head.group(1)} | {f"{head.group(1)}.{part}" for part in re.findall(r"(?m)^\s*(?:pub\s+)?(\w+)", inside)}
    return found


def logic_names(text):
    """Public definitions and laws, and the fields and constructors of records and data as Type.part."""
    found, owner = set(), ""
    for line in text.splitlines():
        kind = re.match(r"\s*pub (?:record|data) (\S+)", line)
        name = re.match(r"\s*(?:abbrev |unfoldable )?pub (\S+) :", line) or (owner and re.match(r"\s+([A-Z]\S*) :", line))
        if kind:
            owner = kind.group(1)
            found.add(owner)
        elif not line.startswith(" "):
            owner = ""
        if name:
            found.add(f"{owner}.{name.group(1)}" if owner else name.group(1))
    return found


# ---- what the original has


def original(repository):
    """The title of the section of each file of the original, and the file's text without comments."""
    for file in sorted((repository.root / "upstream").glob("*.rs.txt")):
        yield file.name.removesuffix(".txt").replace("--", "/"), re.sub(r"//.*", "", file.read_text())


def public_functions(text):
    """Each public function of the original as Owner::name: those that are `pub`, all of a public trait, and
    all of a state machine, its transitions and properties among them."""
    owners = []
    for head in re.finditer(r"\bpub\s+trait\s+(\w+)|\btokenized_state_machine!\s*\{\s*(\w+)|(?m:^)impl\b([^{]*)", text):
        start = text.index("{", head.end())
        owner = head.group(1) or head.group(2) or implemented(head.group(3))
        owners.append((start, closing(text, start), owner, not head.group(3)))
    for found in re.finditer(r"\b(pub\s+)?(?:[a-z]+(?:\(checked\))?\s+)*?fn\s+(\w+)|\b(?:transition|init|property)!\s*\{\s*(\w+)", text):
        owner, whole = next(((owner, whole) for start, end, owner, whole in owners if start < found.start() < end), ("", False))
        if owner is not None and (found.group(1) or whole):
            name = found.group(2) or found.group(3)
            yield f"{owner}::{name}" if owner else name


def implemented(head):
    """The type whose own functions an `impl` has, or None if they are a trait's."""
    while re.search(r"<[^<>]*>", head):
        head = re.sub(r"<[^<>]*>", "", head)
    return None if re.search(r"\bfor\b", head) else re.search(r"\w+", head).group()


# ---- the rules


def cited_names_exist(repository):
    """Each name that a table cites as what is here is defined, in the file that it names, and each that the last
    column of a table of clauses uses is defined here or by the original."""
    there = defined(repository)
    everywhere = set(repository.crates()).union(*there.values())
    here = [row.cells[2:3] for row in rows(repository)] + [row.cells[4:5] for row in wrong_programs(repository)]
    for name, file in sorted({name for cells in here for name in cited("".join(cells))}):
        if file and file not in there:
            fault = f"there is no {file}"
        elif file and "::" not in name and name not in there[file]:
            fault = f"{file} does not define it"
        else:
            fault = "" if name in everywhere else "no crate defines it"
        yield Result(f"{TABLE} cites {name}", fault)
    everywhere |= {part for _, text in original(repository) for name in public_functions(text) for part in (name, name.split("::")[-1])}
    for name in sorted({name for row in rows(repository) for name in names("".join(row.cells[3:]))}):
        yield Result(f"{TABLE} explains by {name}", "" if name in everywhere else "neither a crate nor the original defines it")


def original_is_covered(repository):
    """Each public function of the original is named in the first column of a row of its file's section."""
    named = {(row.section, name) for row in rows(repository) for name in names(row.cells[0])}
    for section, text in original(repository):
        for name in sorted(set(public_functions(text))):
            yield Result(f"{TABLE} has {name} of {section}", "" if (section, name) in named else "no row names it")


def rows_say_how(repository):
    """Each row of the table of clauses has four cells, and the last says how the clause is given, in the
    words of the introduction."""
    for row in rows(repository):
        cells = " | ".join(row.cells[:2])
        if len(row.cells) != 4:
            yield Result(f"{TABLE}: {cells}", f"has {len(row.cells)} cells")
        else:
            yield Result(f"{TABLE}: {cells}", "" if row.cells[3].startswith(HOW) else "does not say how")


def wrong_programs_are_edits(repository):
    """Each row of the table of wrong programs has five cells, names functions of the original, and is a must-fail edit
    that there is, or a law of the file that it names, or says "none"."""
    functions = {name for _, text in original(repository) for name in public_functions(text)}
    edits = {edit.name for crate in repository.crates() for edit in repository.edits(crate)}
    there = defined(repository)
    programs = wrong_programs(repository)
    yield Result(f"{TABLE} has wrong programs", "" if programs else f"has no table under the title {WRONG}")
    for row in programs:
        what = " | ".join(row.cells[:2])
        if len(row.cells) != 5:
            yield Result(f"{TABLE}: {what}", f"has {len(row.cells)} cells")
            continue
        faults = [f"the original has no {name}" for name in names(row.cells[0]) if name not in functions]
        for name, file in cited(row.cells[3]):
            if file and not ("/proofs/" in file and name in there.get(file, ())):
                faults.append(f"{file} does not prove {name}")
            elif not file and name not in edits:
                faults.append(f"there is no edit {name}")
        if not names(row.cells[3]) and not row.cells[3].startswith("none"):
            faults.append("names no edit and no law")
        yield Result(f"{TABLE}: {what}", ", ".join(faults))


RULES = [cited_names_exist, original_is_covered, rows_say_how, wrong_programs_are_edits]
