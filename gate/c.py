"""Holds the C header against the sources and the archive, and builds and runs the examples in C. The archive is
the one that `rust.archived` wrote.

Each check takes a repository and yields a result for each thing that it looks at."""
import re
import shutil
import subprocess
from typing import NamedTuple

from repository import Result
from rust import run_program
from toolchain import run

HEADER = "include/replayframes.h"
ARCHIVE = "target/libreplayframes.a"
PROGRAMS = "target/examples"

# The commands, and the Debian package of each.
PACKAGES = {"cc": "gcc", "c++": "g++", "make": "make", "nm": "binutils"}

# What the archive may leave to the program that links it.
ALLOWED = {"memcpy", "memmove", "memset"}

# A type of the sources in C.
TYPES = {"u8": "uint8_t", "u16": "uint16_t", "u32": "uint32_t", "u64": "uint64_t", "usize": "size_t"}

# The enums of the header, and where the sources have their numbers: constants of a crate, or arms of a match by
# the enum's name, with what stands before a name in C.
ENUMS = {
    "rf_code": [("codes", None, ""), ("config_codes", "Reason", "RF_CONFIG_")],
    "rf_fault": [("config_codes", "Fault", "RF_FAULT_")],
    "rf_kind": [("region_words", "Kind", "RF_KIND_")],
    "rf_owner": [("replayframes_allocator", None, "")],
}

# The other numbers of the header, and where the sources have them: a crate, and the text around the number.
PLACES = {
    # (what stands where a reason has no fault)
    "enum rf_fault": {
        "RF_FAULT_NOTHING": ("config_codes", r"Reason::UnknownKind\(m, i\) => together\(m, i, (\d+), 0\)"),
    },
    "enum rf_set": {
        "RF_SET_PROCESSORS": ("machine_codes", r"\b(\d+) => Which::Processors,"),
        "RF_SET_DEVICES": ("replayframes_machines", r"if which > (\d+) \{\s*return RF_NO_SET;"),
    },
    "#define": {
        "RF_TABLE_WORDS": ("lending", r"\btable: (\d+),"),
        "RF_FRAME_WORDS": ("lending", r"\bwords: (\d+) \* frames,"),
        "RF_PAGE_BYTES": ("address", r"\baddr / (\d+)\b"),
        "RF_REQUEST_BYTES": ("call_bytes", r"\blen == (\d+) && is_request"),
    },
}


class Function(NamedTuple):
    """What a function gives and takes in C: the type of its result, and its parameters as 'type name'."""

    result: str
    parameters: list

    def __str__(self):
        return f"{self.result} ({', '.join(self.parameters)})"


# ---- the header


def uncommented(text):
    """C without comments."""
    return re.sub(r"(?s)/\*.*?\*/", "", text)


def plain(text):
    """C without comments and without lines for the preprocessor."""
    return re.sub(r"(?m)^#.*$", "", uncommented(text))


def declared(text):
    """The functions that a header declares, by their names."""
    found = re.findall(r"(\w+)\s+(\w+)\(([^)]*)\);", plain(text))
    return {name: Function(result, parameters_in_c(inside)) for result, name, inside in found}


def parameters_in_c(text):
    """Parameters of C as 'type name', in one manner."""
    return [" ".join(one.replace("*", " * ").split()) for one in text.split(",")]


def header_numbers(text):
    """The numbers of each enum, by its name and theirs, and those that are defined."""
    found = re.findall(r"(enum\s+\w+)\s*\{([^}]*)\}", plain(text))
    enums = {enum: numbered(re.findall(r"(\w+)\s*=\s*(\d+)", inside)) for enum, inside in found}
    return {**enums, "#define": numbered(re.findall(r"(?m)^#define (\w+) (\d+)\s*$", uncommented(text)))}


def numbered(pairs):
    """Names and digits as names and numbers."""
    return {name: int(digits) for name, digits in pairs}


# ---- the sources


def exported(repository):
    """The functions that the crates export, as C sees them, by their names."""
    head = re.compile(r'\bpub\s+extern\s+"C"\s+fn\s+(\w+)\s*\(([^)]*)\)\s*->\s*(\w+)')
    texts = [text for crate in repository.crates() for text in repository.sources(crate)]
    found = [function for text in texts for function in head.findall(text)]
    return {name: Function(TYPES.get(result, result), parameters_as_c(inside)) for name, inside, result in found}


def parameters_as_c(text):
    """Parameters of the sources as those of C: a slice is a pointer and a length."""
    seen = []
    for name, borrowed, slice_of, one in re.findall(r"(\w+)\s*:\s*(&mut\s+|&)?(?:\[(\w+)\]|(\w+))", text):
        const = "const " if borrowed.strip() == "&" else ""
        pointer = " *" if borrowed else ""
        seen.append(f"{const}{TYPES.get(slice_of or one, slice_of or one)}{pointer} {name}")
        if slice_of:
            seen.append(f"size_t {name}_len")
    return seen


def source_numbers(repository):
    """The numbers that the header must have: those of each enum, by its name and theirs, and those to define."""
    found = {group: placed(repository, places) for group, places in PLACES.items()}
    for enum, places in ENUMS.items():
        pairs = [pair for place in places for pair in numbers(repository, *place).items()]
        found[f"enum {enum}"] = {**found.get(f"enum {enum}", {}), **dict(pairs)}
    return found


def placed(repository, places):
    """The numbers at places in the sources, by their names; one that is found nowhere, or in two ways, is left out."""
    found = {name: set(re.findall(text, "".join(repository.sources(crate)))) for name, (crate, text) in places.items()}
    return numbered((name, digits.pop()) for name, digits in found.items() if len(digits) == 1)


def numbers(repository, crate, enum, prefix):
    """The constants of a crate, or the arms of a match on an enum that are numbers, by their names in C."""
    text = "".join(repository.sources(crate))
    if enum is None:
        return numbered(re.findall(r"\bpub const (RF_\w+): \w+ = (\d+);", text))
    arms = re.findall(rf"\b{enum}::(\w+)(?:\([^)]*\))? => (\d+),", text)
    return numbered((prefix + re.sub(r"(?<!^)(?=[A-Z])", "_", name).upper(), digits) for name, digits in arms)


# ---- header and sources


def header_declares_the_exports(repository):
    """The header declares the functions that the crates export and no other, with the same results, parameters,
    types and names."""
    inside, outside = exported(repository), declared(repository.read(HEADER))
    for name in sorted(inside.keys() | outside.keys()):
        fault = ""
        if name not in outside:
            fault = f"is exported, and {HEADER} does not declare it: declare it as {inside[name]}"
        elif name not in inside:
            fault = f"is declared in {HEADER}, and no crate exports it"
        elif inside[name] != outside[name]:
            fault = f"is declared in {HEADER} as {outside[name]}, and exported as {inside[name]}"
        yield Result(f"{name} in C", fault)


def header_has_the_numbers(repository):
    """The header has the numbers of the sources, in its enums and its defines, and no other."""
    inside, outside = source_numbers(repository), header_numbers(repository.read(HEADER))
    for group in sorted(inside.keys() | outside.keys()):
        here, there = outside.get(group, {}), inside.get(group, {})
        for name in sorted(here.keys() | there.keys()):
            is_here, is_there = here.get(name, "nothing"), there.get(name, "nothing")
            fault = "" if is_here == is_there else f"is {is_here} in {HEADER}, and {is_there} in the sources"
            yield Result(f"{name} of {group}", fault)


def header_compiles(repository):
    """The header compiles alone, as C99 and as C++, without a warning."""
    strictly = ["-fsyntax-only", "-Wall", "-Wextra", "-Werror", "-pedantic", HEADER]
    for command, language, standard in [("cc", "c", "c99"), ("c++", "c++", "c++11")]:
        words = [command, f"-std={standard}", "-x", language, *strictly]
        yield Result(f"{HEADER} as {standard}", missing(command) or failed(*run(repository, *words)))


# ---- header and archive


def symbols(said):
    """What the members of an archive define for others, and what none of them defines, as `nm -gP` says."""
    found = re.findall(r"(?m)^(\S+) ([A-Za-z])\b", said)
    defined = {name for name, kind in found if kind not in "Uvw"}
    return defined, {name for name, kind in found if kind in "Uvw"} - defined


def archive_faults(said, names):
    """What is wrong with an archive of which `nm -gP` says so, where a header declares these functions."""
    defined, undefined = symbols(said)
    if undefined - ALLOWED:
        yield f"leaves undefined what a program may not have: {', '.join(sorted(undefined - ALLOWED))}"
    if names - defined:
        yield f"lacks what {HEADER} declares: {', '.join(sorted(names - defined))}"
    if defined - names:
        yield f"has what {HEADER} does not declare: {', '.join(sorted(defined - names))}"


def archive_is_as_declared(repository):
    """The archive defines the functions that the header declares and no other, and leaves undefined at most memset,
    memcpy and memmove."""
    fault = missing("nm")
    if not fault:
        nm = subprocess.run(["nm", "-gP", ARCHIVE], cwd=repository.root, capture_output=True, text=True)
        names = set(declared(repository.read(HEADER)))
        fault = nm.stderr if nm.returncode != 0 else "; ".join(archive_faults(nm.stdout, names))
        print(f"{ARCHIVE} leaves undefined: {', '.join(sorted(symbols(nm.stdout)[1])) or 'nothing'}", flush=True)
    yield Result(ARCHIVE, fault)


# ---- the examples


def truck_says(repository):
    """examples/c builds, and prints what examples/c/stdout holds."""
    fault = unbuilt(repository, "examples/c")
    if not fault:
        status, said = run_program(repository, f"{PROGRAMS}/truck")
        fault = "" if said == repository.read("examples/c/stdout") else "prints other than examples/c/stdout"
        fault = fault or failed(status, said)
    yield Result("examples/c", fault)


def freestanding_answers(repository):
    """examples/freestanding builds without a C library, and every answer is the one that it expects."""
    fault = unbuilt(repository, "examples/freestanding")
    if not fault:
        status, _ = run_program(repository, f"{PROGRAMS}/monitor")
        fault = f"check {status} of examples/freestanding/monitor.c fails" if status else ""
    yield Result("examples/freestanding", fault)


def unbuilt(repository, folder):
    """Why an example was not built, or nothing."""
    return missing("cc") or missing("make") or failed(*run(repository, "make", "-s", "-C", folder))


def missing(command):
    """What is to be installed, if the command is not there."""
    return "" if shutil.which(command) else f"there is no {command}: install the Debian package {PACKAGES[command]}"


def failed(status, said):
    """How a command ended that should have ended with 0."""
    return "" if status == 0 else f"ended with status {status}: {said.strip()}"


# Those that read files alone.
FILE_RULES = [header_declares_the_exports, header_has_the_numbers]

RULES = FILE_RULES + [header_compiles, archive_is_as_declared, truck_says, freestanding_answers]
