"""Every answer that a public function of an interface crate can give has an example, or a theorem that it is never given.

The examples of the crate some_crate stand in a file SomeCrate.antt among the proofs of a crate whose name ends in _examples. An
answer is named by the function and the variants on the way to it: `alloc_no_room`, `start_zones_wrong`. Of a Result, an error is
named by its variants, or by its type if that is a struct, and the value by `ok`; a value that is a bool, an Option or an enum is
named by `true` and `false`, by `none` and by `some` with what it has, or by its variants. What stands for it is one of

    NAME          an example: the contract at that answer, met by words and arguments
    NAME_never    a theorem that the contract has no such answer, or none of sound memories
    NAME_each     a theorem that takes every answer beneath NAME from an example of another function's
    FUNCTION_only a theorem that lists the answers that sound memories can give: all others are never given, but for
                  Corrupt, which is what other memories are for, and has an example

The exported functions (replayframes and its like) are left out: they answer with codes.

Each check takes a repository and yields a result for each thing that it looks at."""
import re

from repository import Result


class Struct(str):
    """The name of a struct that is an error: a law that has it speaks of Err."""


def every_answer_has_its_example(repository):
    """Every answer of every public function has its example, or a theorem that it is never given."""
    for crate in repository.interfaces():
        if crate.startswith("replayframes"):
            continue
        laws = laws_of(repository, crate)
        for function, contract in repository.public_functions(crate):
            predicate = predicate_of(contract)
            for path in answers(repository, crate, answer_of(contract)):
                name = snake([function, *path])
                yield Result(f"{crate}: {name}", fault(laws, function, path, predicate))


def laws_of(repository, crate):
    """The laws in the file of a crate's examples: the text of each one's type, by its name."""
    module = "".join(word.capitalize() for word in crate.split("_"))
    laws = {}
    for home in filter(re.compile(r"_examples$").search, repository.crates()):
        if re.search(rf"(?m)^pub mod {module}$", repository.read(f"crates/{home}/proofs/Lib.antt")):
            text = repository.read(f"crates/{home}/proofs/{module}.antt")
            laws.update(re.findall(r"(?m)^pub (\w+) : ((?:.*\n)(?:[ \t].*\n)*)", text))
    return laws


def fault(laws, function, path, predicate):
    """What is wrong with the example of an answer."""
    name = snake([function, *path])
    if name in laws:
        return lacking(laws[name], predicate, *path[-1:])
    if f"{name}_never" in laws:
        return lacking(laws[f"{name}_never"], predicate, *path[-1:], "⊥")
    for length in range(len(path), 0, -1):
        each = laws.get(f"{snake([function, *path[:length]])}_each")
        if each:
            return lacking(each, predicate, path[length - 1], "→")
    only = laws.get(f"{snake([function])}_only", "")
    if lacking(only, predicate, "Sound"):
        return "has no example, and no theorem that it is never given"
    return "has no example" if path[-1] == "Corrupt" or speaks_of(only, path[-1]) else ""


def lacking(law, *words):
    """The first of the words of which a law does not speak, as a fault."""
    spoken = ["Err" if isinstance(word, Struct) else word for word in words]
    return next((f"what stands for it does not speak of {word}" for word in spoken if not speaks_of(law, word)), "")


def speaks_of(law, word):
    """A law has the word, and not only within another."""
    return re.search(rf"(?<!\w){word}(?!\w)" if word.isidentifier() else word, law) is not None


def snake(words):
    """A name of words in lower case with underscores."""
    return "_".join(re.sub(r"(?<=[a-z0-9])(?=[A-Z])", "_", word).lower() for word in words)


def answer_of(contract):
    """The type of a function's answer."""
    found = re.search(r"->\s*(.*?)\s*(?=\b(?:ghost|requires|ensures|where)\b|$)", contract, re.S)
    return found.group(1) if found else ""


def predicate_of(contract):
    """The first word of a function's contract that begins with a capital: what it says of the answer."""
    found = re.search(r"\bensures\b[^{]*\{(.*)", contract, re.S)
    words = re.findall(r"(?<![\w.])([A-Z]\w+)", found.group(1)) if found else []
    return next((word for word in words if word != "List"), "≡")


def answers(repository, crate, kind):
    """The ways to an answer: the variants, from the outside in."""
    name, given = parts(kind)
    if name == "bool":
        return [("true",), ("false",)]
    if name == "Option":
        return [("Some", *way) for way in answers(repository, crate, given[0])] + [("None",)]
    if name == "Result":
        value = answers(repository, crate, given[0])
        return [way or ("Ok",) for way in value] + [way or (Struct(parts(given[1])[0]),) for way in answers(repository, crate, given[1])]
    home, variants, parameters = declared(repository, crate, name)
    if variants is None:
        return [()]
    means = dict(zip(parameters, given))
    ways = []
    for variant, fields in variants:
        inner = [way for field in fields for way in answers(repository, crate if field in means else home, means.get(field, field)) if way]
        ways += [(variant, *way) for way in inner] or [(variant,)]
    return ways


def parts(kind):
    """A type's name without its path, and the types that it is given: `Result<usize, a::NotFull>` is `Result` of two."""
    name, _, inside = kind.strip().partition("<")
    given, depth = [""], 0
    for letter in inside.rpartition(">")[0]:
        depth += {"<": 1, "(": 1, ">": -1, ")": -1}.get(letter, 0)
        if letter == "," and depth == 0:
            given.append("")
        else:
            given[-1] += letter
    return name.rpartition("::")[2].strip(), [it.strip() for it in given if it.strip()]


def declared(repository, crate, kind):
    """Where an enum is declared that a crate's source names, its variants, each with the types of its fields, and its parameters."""
    text = "\n".join(repository.sources(crate))
    found = re.search(rf"\bpub enum {kind}(?:<(.*?)>)? \{{(.*?)\n\}}", text, re.S)
    if found:
        return crate, variants_in(found.group(2)), re.findall(r"\w+", found.group(1) or "")
    other = re.search(rf"\buse (\w+)::(?:{kind}|\{{[^}}]*\b{kind}\b[^}}]*\}});", text)
    return declared(repository, other.group(1), kind) if other and kind else (crate, None, [])


def variants_in(body):
    """The variants in the body of an enum, each with the types of its fields. One that is not on a line of its own, with a
    comma behind it, would be passed over, and so is a fault of this script's."""
    found = re.findall(r"(?m)^\s*(\w+)\s*(?:\((.*?)\)|\{(.*?)\})?,$", body)
    if len(found) != len([line for line in body.splitlines() if line.strip()]):
        raise ValueError(f"not one variant a line: {body}")
    return [(name, re.findall(r"(?:^|[,:])\s*(\w+)\s*(?=,|$)", unnamed or named)) for name, unnamed, named in found]


RULES = [every_answer_has_its_example]
