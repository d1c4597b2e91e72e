#!/usr/bin/env python3
"""Brings the repository's own definitions and lemmas to the spelling of today's Rattle, once, after the kit's port.py.

Run at the top of the repository: python3 tools/respell.py [--dry]

A word is in snake case and a type in camel case: `nodeBit` and `host-fits` become `node_bit` and `host_fits`, and
`summarised`, which is a fact, `Summarised`. Names of src/, of the generated modules and of the kit's libraries stay.
It renames in crates/*/specs and crates/*/proofs, in the clauses and `ghost use` lines of crates/*/src, and in comments
and pages where a name stands between backticks. Where names would fall together it lists them and writes nothing. A definition may have the name of a function of src/.
"""
import collections
import os
import re
import sys

WORD = r"[^\s(){}.;,@\"«»\[\]\\`]+"
TOKEN = re.compile(r"--[^\n]*|\"(?:[^\"\\]|\\.)*\"|«[^»]*»|" + WORD)
PATH = re.compile(r"Rattle\.[\w.]+")
CAMEL = re.compile(r"^[a-z][\w']*[A-Z]")
MARKS = r"(?:(?:pub|abbrev|unfoldable|axiom)\s+)*"


def files(top, ending):
    for folder, dirs, names in os.walk(top):
        dirs[:] = sorted(d for d in dirs if d != "out")
        for name in sorted(names):
            if name.endswith(ending):
                yield os.path.join(folder, name)


def read(path):
    with open(path, encoding="utf-8") as it:
        return it.read()


def declared(text):
    """Each name that a file of specs/ or proofs/ declares, and whether it is a fact or a type."""
    lines = text.split("\n")
    for i, line in enumerate(lines):
        it = re.match(rf"^{MARKS}(?:record|data|ruleset)\s+({WORD})", line)
        if it:
            yield it.group(1), True
            continue
        it = re.match(rf"^{MARKS}({WORD})\s+:\s(.*)", line)
        if it:
            said = it.group(2)
            if said.startswith("tie.") or "statement M" in said:
                continue
            j = i + 1
            while j < len(lines) and re.match(r"^\s+→", lines[j]):
                said += lines[j]
                j += 1
            yield it.group(1), bool(re.search(r"Type \d\s*$", said))
            continue
        it = re.match(rf"^\s+(?:pub\s+|\|\s*)?({WORD})\s+:\s", line)
        if it:
            yield it.group(1), False


def snake(name):
    parts = re.sub(r"(?<=[a-z0-9])([A-Z])", lambda it: "_" + it.group(1).lower(), name)
    return parts.replace("-", "_")


def spelled(name, fact):
    if "◌" in name or not re.match(r"[A-Za-z]", name):
        return name
    if fact:
        return re.sub(r"(?:^|[-_])([a-z])", lambda it: it.group(1).upper(), name)
    if name[0].isupper():
        return name.replace("-", "_")
    return snake(name) if "-" in name or CAMEL.match(name) else name


def renamed():
    """The new spelling of each own name. Of a lemma and a definition that would be one, the lemma gets `_lem`."""
    facts, tokens = collections.defaultdict(bool), set()
    for path in files("crates", ".antt"):
        text = read(path)
        for name, fact in declared(text):
            facts[name] |= fact
        tokens |= {it.group(0) for it in TOKEN.finditer(PATH.sub("", text))}
    out = {name: spelled(name, fact) for name, fact in facts.items()}
    camel = {b for a, b in out.items() if CAMEL.match(a)}
    for a, b in out.items():
        if "-" in a and (b in camel or b in tokens) or a == b and b in camel:
            out[a] = b + "_lem"
    return {a: b for a, b in out.items() if a != b}


def ticked(text, names):
    return re.sub(r"`[^`\n]+`", lambda it: re.sub(r"[\w'◌][\w'◌-]*", lambda n: names.get(n.group(0), n.group(0)), it.group(0)), text)


def antt(text, names):
    def turn(it):
        token = it.group(0)
        if token.startswith("--"):
            return ticked(re.sub(r"[a-z]\w*[A-Z][\w']*", lambda n: names.get(n.group(0), n.group(0)), token), names)
        if token[0] in '"«':
            return token
        return names.get(token, token)

    return TOKEN.sub(turn, text)


def clause(text, names):
    return re.sub(r"[A-Za-z][\w'-]*", lambda it: names.get(it.group(0), it.group(0)), text)


def rt(text, names):
    """Turns the clauses and ghost items of a source file."""
    out, at = [], 0
    head = re.compile(r"^[ \t]*(?:(?:requires|ensures)\b[^{\n]*\{|ghost\b)", re.M)
    while True:
        it = head.search(text, at)
        if not it:
            break
        out.append(ticked(text[at : it.start()], names))
        end = it.end()
        if it.group(0).endswith("{"):
            depth = 1
            while depth:
                depth += {"{": 1, "}": -1}.get(text[end], 0)
                end += 1
        else:
            end = text.index(";", end)
        out.append(clause(text[it.start() : end], names))
        at = end
    out.append(ticked(text[at:], names))
    return "".join(out)


def together(path, text, names):
    """The names of a file that would be one after the turn."""
    seen = collections.defaultdict(set)
    for it in TOKEN.finditer(PATH.sub("", text)):
        token = it.group(0)
        if not token.startswith("--") and token[0] not in '"«':
            seen[names.get(token, token)].add(token)
    return [f"{path}: {', '.join(sorted(of))} would all be {to}" for to, of in seen.items() if len(of) > 1]


def main():
    names = renamed()
    new, bad = {}, []
    for path in files("crates", ".antt"):
        text = read(path)
        bad += together(path, text, names)
        new[path] = antt(text, names)
    for path in files("crates", ".rt"):
        text = read(path)
        own = set(re.findall(r"\bfn (\w+)", text))
        bad += [it for it in together(path, re.sub(r"//[^\n]*", "", text), names) if it.rsplit(" ", 1)[1] not in own]
        new[path] = rt(text, names)
    for top in ("README.md", "crates/README.md", *files("docs", ".md"), *files("rust", ".md")):
        new[top] = ticked(read(top), names)
    print("\n".join(bad))
    if bad:
        return 1
    if "--dry" not in sys.argv:
        for path, text in new.items():
            if text != read(path):
                with open(path, "w", encoding="utf-8") as it:
                    it.write(text)
    print(f"{len(names)} names")
    return 0


if __name__ == "__main__":
    raise SystemExit(main())
