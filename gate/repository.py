"""What stands in the repository: the crates, their files, their public functions and must-fail edits."""
import re
from pathlib import Path
from typing import NamedTuple


class Result(NamedTuple):
    """One thing that was checked, and what is wrong with it: nothing, if it passes."""

    what: str
    fault: str = ""


class Edit(NamedTuple):
    """A must-fail edit: crates/CRATE/must-fail/LABEL.edit, and its lines as (key, text)."""

    crate: str
    label: str
    lines: list

    @property
    def name(self):
        return f"{self.crate}/{self.label}"

    def texts(self, key):
        return [text for has, text in self.lines if has == key]


class Repository:
    def __init__(self, root):
        self.root = Path(root)

    def listed(self, file):
        """The lines of a list, without comments and empty lines."""
        lines = (line.partition("#")[0].strip() for line in self.read(file).splitlines())
        return [line for line in lines if line]

    def read(self, file):
        path = self.root / file
        return path.read_text() if path.is_file() else ""

    def crates(self):
        """The names of the crates. In crates.txt a static library has the word `staticlib` behind its name."""
        return [line.partition(":")[0].split()[0] for line in self.listed("crates.txt")]

    def rests_on(self, crate):
        """The names that crates.txt lists with a crate."""
        lines = (line.partition(":") for line in self.listed("crates.txt"))
        return [name for head, _, names in lines if head.split()[0] == crate for name in names.split()]

    def interfaces(self):
        return self.listed("interfaces.txt")

    def is_library(self, crate):
        return not (self.root / "crates" / crate / "src" / "main.rt").exists()

    def files(self, crate, pattern):
        """The files of a crate, without those that `rt` wrote into its folder out/."""
        folder = self.root / "crates" / crate
        return sorted(file for file in folder.rglob(pattern) if file.relative_to(folder).parts[0] != "out")

    def sources(self, crate):
        """The text of each source file, without comments."""
        return [re.sub(r"//.*", "", file.read_text()) for file in self.files(crate, "*.rt")]

    def public_functions(self, crate):
        """Each public function: its name, and what stands between its name and its body."""
        head = re.compile(r'\bpub\s+(?:extern\s+"C"\s+)?fn\s+(\w+)')
        return [(found.group(1), contract(text, found.end())) for text in self.sources(crate) for found in head.finditer(text)]

    def edits(self, crate):
        return [Edit(crate, file.stem, edit_lines(file.read_text())) for file in self.files(crate, "must-fail/*.edit")]


def edit_lines(text):
    return re.findall(r"(?m)^(file|old|new): ?(.*)$", text)


def contract(text, start):
    """The text from `start` up to the brace that opens a function's body. A brace opens the body unless
    a clause's name stands before it."""
    at, in_clause = start, False
    for found in re.finditer(r"\b(?:ghost|requires|ensures)\b|[{}]", text[start:]):
        if start + found.start() < at:
            continue
        if found.group() not in "{}":
            in_clause = True
        elif not in_clause:
            return text[start : start + found.start()]
        else:
            at, in_clause = closing(text, start + found.start()), False
    return text[start:]


def closing(text, start):
    """Just behind the brace that closes the one at `start`."""
    depth = 0
    for found in re.finditer(r"[{}]", text[start:]):
        depth += 1 if found.group() == "{" else -1
        if depth == 0:
            return start + found.end()
    return len(text)
