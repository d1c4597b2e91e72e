"""Counts the places in crates/*/src that an older Rattle would have been written with, point by point of docs/DESIGN-PASS.md.

    python3 tools/design_count.py [--list POINT] [ROOT]

Prints a line for each point: its name and the number of places. With --list it prints the places of that point, as FILE:LINE: TEXT. A
place is something to read, and not yet a fault: docs/DESIGN-PASS.md says which stay, and why."""
import collections
import re
import sys
from pathlib import Path

# Functions whose names say that they compare, copy or convert.
BY_HAND = r"same|equal\w*|copy\w*|one_place|number_of|kind_of|which_of|code_of|fault_number|\w+_code|of_\w+|show|yes|say"


def uncommented(text):
    """The text with its comments blanked, line for line."""
    return re.sub(r"//.*", "", text)


def functions(text):
    """Each function: its line, its name, what stands before its body, and its body."""
    for found in re.finditer(r"(?m)^ *(?:pub )?(?:extern \"C\" )?fn (\w+)", text):
        start = body_of(text, found.end())
        if start is None:
            continue
        yield text.count("\n", 0, found.start()) + 1, found.group(1), text[found.start() : start], text[start : closing(text, start)]


def body_of(text, at):
    """Where a function's body opens: the first brace that no clause's name stands before."""
    in_clause = False
    while True:
        found = re.compile(r"\b(?:ghost|requires|ensures)\b|[{};]").search(text, at)
        if not found or found.group() == ";":
            return None
        if found.group() == "{" and not in_clause:
            return found.start()
        if found.group() == "{":
            at, in_clause = closing(text, found.start()), False
        else:
            at, in_clause = found.end(), True


def closing(text, start):
    """Just behind the brace that closes the one at `start`."""
    depth = 0
    for found in re.compile(r"[{}]").finditer(text, start):
        depth += 1 if found.group() == "{" else -1
        if depth == 0:
            return found.end()
    return len(text)


def parameters(head):
    """The names of a function's parameters."""
    inside = re.search(r"\((.*?)\)\s*(?:->|\n|$|requires|ensures)", head, re.S)
    return re.findall(r"(\w+): ", inside.group(1)) if inside else []


def conjuncts(head):
    """The facts that a function's `requires` clauses join by ×."""
    for clause in re.findall(r"\brequires\b[^{]*\{(.*?)\}\s*(?=requires|ensures|\{|$)", head, re.S):
        yield from (fact.strip(" ()\n") for fact in clause.split("×"))


class Source:
    """The sources of a repository."""

    def __init__(self, root):
        self.root = Path(root)
        self.texts = {}
        for file in sorted(self.root.glob("crates/*/src/**/*.rt")):
            self.texts[str(file.relative_to(self.root))] = uncommented(file.read_text())

    def lines(self, pattern):
        for file, text in self.texts.items():
            for found in re.finditer(pattern, text):
                yield file, text.count("\n", 0, found.start()) + 1, found.group().split("\n")[0].strip()

    def functions(self):
        for file, text in self.texts.items():
            for line, name, head, body in functions(text):
                yield file, line, name, head, body


def own_answers(source):
    """Point 1: own enums that a function answers with, but for the conversions of an error, which are called `from`."""
    answered = {found for _, _, name, head, _ in source.functions() if name != "from" for found in re.findall(r"->\s*(\w+)", head)}
    for file, line, text in source.lines(r"\benum (\w+)"):
        if re.search(r"enum (\w+)", text).group(1) in answered:
            yield file, line, text


def flags(source):
    """Point 1: a bool made by hand of a test."""
    yield from source.lines(r"\{\s*true\s*\} else \{\s*false\s*\}|\{\s*false\s*\} else \{\s*true\s*\}")
    yield from source.lines(r"\{\s*return (?:true|false);\s*\}")


def number_codes(source):
    """Point 1: numbers for kinds and refusals, as constants or as a chain of tests of one number."""
    yield from source.lines(r"pub const [A-Z_]+: (?:usize|u32|u64|u8) = \d+;")
    yield from source.lines(r"if op == \d+ \{")


def twins(source):
    """Point 2: functions whose bodies are alike but for the names, the types and the numbers in them, where a body has two
    statements or more. Left out are the exported functions and the conversions of an error, which are called `from`."""
    alike = collections.defaultdict(list)
    for file, line, name, _, body in source.functions():
        if "replayframes" not in file and name != "from" and body.count(";") + body.count("=>") >= 2:
            shape = re.sub(r"\b(?!let\b|mut\b|if\b|else\b|while\b|for\b|in\b|match\b|return\b)[A-Za-z_]\w*", "x", re.sub(r"\b\d+\b", "0", body))
            alike[re.sub(r"x(?:(?:::|\.)x)*", "x", re.sub(r"\s+", " ", shape))].append((file, line, name))
    for places in alike.values():
        if len(places) > 1:
            for file, line, name in places:
                yield file, line, f"{name}, as {', '.join(other[2] for other in places if other != (file, line, name))}"


def hand_counted(source):
    """Point 3: while loops, and of them those that count an index."""
    for file, line, name, _, body in source.functions():
        if re.search(r"\bwhile\b", body):
            for found in re.finditer(r"\bwhile ([^{]*)\{", body):
                yield file, line + body[: found.start()].count("\n"), f"{name}: while {found.group(1).strip()}"


def by_hand(source):
    """Point 4: comparing, copying, converting and printing by hand."""
    for file, line, name, _, _ in source.functions():
        if re.fullmatch(BY_HAND, name):
            yield file, line, name


def travelling(source):
    """Point 5: parameters that travel together, as pairs of names that stand side by side in the heads of three functions or more."""
    pairs = collections.defaultdict(list)
    for file, line, name, head, _ in source.functions():
        names = parameters(head)
        for pair in zip(names, names[1:]):
            pairs[pair].append((file, line, name))
    for pair, places in sorted(pairs.items()):
        if len(places) >= 3:
            yield *places[0][:2], f"{', '.join(pair)}: {len(places)} functions"


def repeated_facts(source):
    """Point 5: facts that stand in the `requires` of three functions or more."""
    facts = collections.defaultdict(list)
    for file, line, name, head, _ in source.functions():
        for fact in set(conjuncts(head)):
            facts[fact].append((file, line, name))
    for fact, places in sorted(facts.items()):
        if len(places) >= 3:
            yield *places[0][:2], f"{fact}: {len(places)} functions"


def buffers(source):
    """Point 6: a place or a length that is a parameter beside a slice."""
    for file, line, name, head, _ in source.functions():
        if re.search(r"&(?:mut )?\[\w+\](?:,\s*\w+: (?:&(?:mut )?\[\w+\]))*,\s*(?:at|p|from|len|n|slots|end): usize", head):
            yield file, line, name


def switches(source):
    """Point 7: a value that selects which step runs, as an enum without fields that a function matches on to call others."""
    for file, line, name, head, body in source.functions():
        for kind in set(re.findall(r"\w+: (Rule|Each|Which)\b", head)):
            if re.search(rf"\b{kind}::\w+ =>", body):
                yield file, line, f"{name}: {kind}"
    yield from source.lines(r"match request \{")


def answers(source):
    """Point 8: answers of goals, in proofs/."""
    for file in sorted(source.root.glob("crates/*/proofs/**/Answers.antt")):
        for number, text in enumerate(file.read_text().splitlines(), 1):
            if re.match(r"(?:abbrev )?pub \S+ : goal\.", text):
                yield str(file.relative_to(source.root)), number, text


POINTS = {
    "1 own enums that a function answers": own_answers,
    "1 bools made by hand": flags,
    "1 numbers for kinds": number_codes,
    "2 functions alike but for names and numbers": twins,
    "3 while loops": hand_counted,
    "4 compared, copied, converted by hand": by_hand,
    "5 parameters side by side in three functions": travelling,
    "5 facts required by three functions": repeated_facts,
    "6 slices with a place or a length beside them": buffers,
    "7 values that select a step": switches,
    "8 answers in proofs/": answers,
}


def main(words):
    shown = words[words.index("--list") + 1] if "--list" in words else None
    rest = [word for word in words if word not in ("--list", shown)]
    source = Source(rest[0] if rest else Path(__file__).resolve().parent.parent)
    for name, count in POINTS.items():
        places = list(count(source))
        if shown is None:
            print(f"{name}: {len(places)}")
        elif name.startswith(shown):
            print(f"{name}: {len(places)}")
            for file, line, text in places:
                print(f"  {file}:{line}: {text}")


if __name__ == "__main__":
    main(sys.argv[1:])
