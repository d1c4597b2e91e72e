"""What must hold of the repository's files, whatever the prover says of them.

Each rule takes a repository and yields a result for each thing that it looks at."""
import re

from repository import Result

EDITS_PER_FUNCTION = 2

# The toolchain's libraries that declare foreign functions, whose contracts are assumed.
FOREIGN = ["libc", "os"]


def assumes_nothing(repository):
    """No crate's file declares an axiom, rests on one of antt's own, or declares a foreign function, and no crate names a
    library that does."""
    for crate in repository.crates():
        faults = [f"rests on {name}" for name in repository.rests_on(crate) if name in FOREIGN]
        if any(re.search(r'\bextern\s+"C"\s*\{', text) for text in repository.sources(crate)):
            faults.append("declares a foreign function")
        for file in repository.files(crate, "*.antt"):
            text = re.sub(r"--.*", "", file.read_text())
            if re.search(r"(?m)^\s*(?:pub\s+)?axiom\b", text) or "Prim.Axiom" in text:
                faults.append(f"{file.name} has an axiom")
        yield Result(f"{crate} declares no axiom and no foreign function", ", ".join(faults))


def interfaces_are_listed(repository):
    """Each interface crate is a crate of the repository."""
    for crate in repository.interfaces():
        yield Result(f"interface crate {crate}", "" if crate in repository.crates() else "is not in crates.txt")


def no_requires(repository):
    """No public function of an interface crate, or that is exported, has a `requires`, and none is another crate's."""
    exporting = [crate for crate in repository.crates() if crate.startswith("replayframes")]
    for crate in dict.fromkeys(repository.interfaces() + exporting):
        functions = repository.public_functions(crate)
        for name, contract in functions:
            yield Result(f"{crate}::{name} takes any arguments", "has a requires" if re.search(r"\brequires\b", contract) else "")
        own = {name for name, _ in functions}
        for text in repository.sources(crate):
            for name in handed_on(text):
                yield Result(f"{crate}::{name} is its own", "" if name in own else "hands on a function of another crate")


def handed_on(text):
    """The functions of other crates that a source hands on: each name in small letters at the end of a path of `pub use`."""
    for paths in re.findall(r"\bpub\s+use\s+([^;]*);", text):
        yield from re.findall(r"(?:::|[{,])\s*([a-z]\w*)\s*(?=[,}]|as\b|$)", paths)


def edits_attack_functions(repository):
    """Each public function of an interface crate has edits enough, and each edit names such a function."""
    for crate in repository.interfaces():
        functions = {name for name, _ in repository.public_functions(crate)}
        attacked = [(edit, edit.label.partition(".")[0]) for edit in repository.edits(crate)]
        for name in sorted(functions):
            count = sum(name == function for _, function in attacked)
            yield Result(f"{crate}::{name} has {EDITS_PER_FUNCTION} must-fail edits", "" if count >= EDITS_PER_FUNCTION else f"has {count}")
        for edit, function in attacked:
            yield Result(f"{edit.name} attacks a public function", "" if function in functions else f"{crate} has no public function {function}")


def edits_keep_the_outline(repository):
    """An edit changes sources or specs, not a proof, and adds or drops no clause of a contract: either would
    be refused whatever the facts are."""
    for crate in repository.crates():
        for edit in repository.edits(crate):
            faults = []
            if any(file.startswith("proofs/") for file in edit.texts("file")):
                faults.append("edits a proof")
            clauses = [len(re.findall(r"\b(?:requires|ensures)\b", " ".join(edit.texts(key)))) for key in ("old", "new")]
            if clauses[0] != clauses[1]:
                faults.append("adds or drops a clause")
            yield Result(f"{edit.name} keeps the outline", ", ".join(faults))


def edits_find_their_text(repository):
    """Each text that an edit replaces stands once in its file."""
    for crate in repository.crates():
        for edit in repository.edits(crate):
            file, faults = "", []
            for key, text in edit.lines:
                if key == "file":
                    file = text
                elif key == "old" and (count := repository.read(f"crates/{crate}/{file}").count(text)) != 1:
                    faults.append(f"{text!r} stands {count} times in {file}")
            yield Result(f"{edit.name} finds its text", ", ".join(faults))


RULES = [assumes_nothing, interfaces_are_listed, no_requires, edits_attack_functions, edits_keep_the_outline, edits_find_their_text]
