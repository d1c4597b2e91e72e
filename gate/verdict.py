"""What `rt ci` printed: what each library rests on, and why each must-fail edit was refused.

Each rule takes a repository and yields a result for each thing that it looks at."""
import re

from repository import Result
from rules import FOREIGN
from toolchain import SAID

# How `rt ci` begins what it says of an edit that the prover refused, before the first thing that was not proved.
REFUSED = "refused, as it must be"

# How the prover speaks where it could not come to a fact, since the proof no longer fits what was edited: a
# goal, a place or a field that is gone, another list of facts or another loop, specs that mean nothing. `rt ci`
# prints the first line of what it says, cut after 160 characters; where that only names a type, what follows says that
# a field is gone, or that this is no tuple.
SHAPE = [
    r"that can be named from here",
    r"has no field",
    r": error: `[^`]*`: (?:record )?`[^`]*`?$",
    r"is not a field of record",
    r"is not in scope",
    r"was not admitted",
    r"takes .* arguments",
    r"expected a type, but `goal\.",
    r"this tuple has \d+ components",
    r"a tuple is checked against",
    r"is a declared record, built with",
    r"this λ is checked against",
    r"a dimension .* is expected here",
    r"expected type `(?:[\w.]*\bList )?[\w.]*ℕ`",
    r"/Invariants\.antt:\S+ error: ",
    r"^(?:\./)?(?:src|specs)/\S+ error: ",
]


def rests_on_nothing(repository):
    """The check of a library reached no axiom and no foreign function. That of a program may: it prints."""
    said = repository.read(SAID)
    for crate in filter(repository.is_library, repository.crates()):
        yield Result(f"{crate} rests on no axiom", ", ".join(assumed(said, crate)))


def assumed(said, crate):
    """What the check of a crate assumed, as `rt ci` says. Of a crate that an earlier run proved on this machine it says
    only that; there, too, the prover refused each axiom of the crate's own and `rt` each foreign function, and
    `rules.assumes_nothing` reads of every crate which libraries it names."""
    if re.search(rf"(?m)^rt: {crate} is kept: ", said):
        return
    check = re.search(rf"(?ms)^== {crate}\n(.*?)^rt: {crate} proved$", said)
    if not check:
        yield "is not proved"
        return
    for library in FOREIGN:
        if re.search(rf"(?m)^(?:library|statements) {library}: modules loaded=(?!0 )", check.group(1)):
            yield f"rests on {library}, which declares foreign functions"
    yield from re.findall(r"(?m)^axioms \S+: (?!none reached).*$", check.group(1))
    yield from re.findall(r"(?m)^logic=proved .*(?: foreign=| axioms=(?!0\b)).*$", check.group(1))


def refused_for_a_fact(repository):
    """Each edit was refused since something is not so, not since the proof has another shape."""
    told = dict(re.findall(r"(?m)^rt: must-fail (\S+)\.edit: (.*)$", repository.read(SAID)))
    for crate in repository.crates():
        for edit in repository.edits(crate):
            yield Result(f"{edit.name} is refused for a fact", unfounded(told.get(edit.name, "nothing is said of it")))


def unfounded(told):
    """Why that which `rt ci` says of an edit is no refusal for a fact, or nothing."""
    if not told.startswith(REFUSED):
        return f"is not refused: {told}"
    reason = told.removeprefix(REFUSED).removeprefix(": ")
    if reason.startswith(" (only "):
        return f"is refused{reason}"
    if any(re.search(shape, reason) for shape in SHAPE):
        return f"is refused for its shape: {reason}"
    is_told = ": error: " in reason or ": it is not proved that " in reason
    return "" if is_told else f"is refused, and nothing says what is not proved: {reason}"


RULES = [rests_on_nothing, refused_for_a_fact]
