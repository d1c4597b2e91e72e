#!/usr/bin/env python3
"""Makes this crate's src/bitmap_allocator from upstream's source: its ghost parts are taken out, and nothing
else is changed.

Taken out: the `verus!` around the items and what is imported from vstd; functions marked `spec` or `proof`;
macros that stand for proofs; the clauses of functions and loops; `let ghost`; the names of results; Verus's
own attributes. The doc comments and attributes above an item go with it.

    strip.py            writes the files
    strip.py --check    says whether the files are what it would write, and changes nothing
"""
import re
import sys
from pathlib import Path

CRATE = Path(__file__).resolve().parent
UPSTREAM = CRATE.parent.parent / "upstream"
FILES = ["bitmap_allocator/bitmap_impl.rs", "bitmap_allocator/bitmap_trait.rs", "bitmap_allocator/mod.rs"]

CLAUSES = {"requires", "ensures", "invariant", "invariant_except_break", "decreases"}
QUALIFIERS = {"pub", "open", "broadcast", "spec", "proof"}
OPEN, CLOSE = set("([{"), set(")]}")

# A comment, a word, an arrow, blanks, or any other character. The source has no strings.
TOKEN = re.compile(r"//[^\n]*|/\*.*?\*/|\w+|->|\s+|.", re.DOTALL)


def is_blank(token):
    return token.isspace() or token.startswith(("//", "/*"))


def behind(tokens, at):
    """The next place that is no blank."""
    at += 1
    while at < len(tokens) and is_blank(tokens[at]):
        at += 1
    return at


def closing(tokens, at):
    """The bracket that closes the one at `at`."""
    depth = 0
    for place in range(at, len(tokens)):
        depth += (tokens[place] in OPEN) - (tokens[place] in CLOSE)
        if depth == 0:
            return place
    raise ValueError("a bracket is not closed")


def clauses_end(tokens, at):
    """The `{` or `;` behind the clauses that begin at `at`: the first one with a comma before it."""
    last = ""
    while not (tokens[at] in ("{", ";") and last == ","):
        at = closing(tokens, at) if tokens[at] in OPEN else at
        last = tokens[at]
        at = behind(tokens, at)
    return at


def item_end(tokens, at):
    """The last token of the item or statement that begins at `at`."""
    has_body = tokens[at] not in ("use", "let")
    while tokens[at] != ";":
        if tokens[at] in CLAUSES:
            at = clauses_end(tokens, at)
        elif tokens[at] == "{" and has_body:
            return closing(tokens, at)
        else:
            at = behind(tokens, closing(tokens, at) if tokens[at] in OPEN else at)
    return at


def ghost_end(tokens, at):
    """The last token of the ghost item, attribute or statement that begins at `at`, or -1."""
    words, place = set(), at
    while tokens[place] in QUALIFIERS:
        words.add(tokens[place])
        place = behind(tokens, place)
    if words & {"spec", "proof"}:
        return item_end(tokens, place)
    following = tokens[behind(tokens, at)] if behind(tokens, at) < len(tokens) else ""
    if (tokens[at], following) in {("use", "vstd"), ("let", "ghost")}:
        return item_end(tokens, at)
    if tokens[at] == "macro_rules" and "verus_proof_macro_exprs" in tokens[at : item_end(tokens, at)]:
        return item_end(tokens, at)
    if tokens[at] == "#" and tokens[at + 2] == "verifier":
        return closing(tokens, at + 1)
    return -1


def above_start(out):
    """Where the doc comment or attribute at the end begins, or -1."""
    if out and out[-1].startswith("///"):
        return len(out) - 1
    start = len(out) - 1
    while start > 0 and out[-1] == "]" and out[start] != "[":
        start -= 1
    return start - 1 if start > 0 and out[start - 1 : start + 1] == ["#", "["] else -1


def drop_above(out):
    """Takes the doc comments and attributes off the end, with the blanks between them."""
    while out:
        blanks = out.pop() if out[-1].isspace() else ""
        start = above_start(out)
        if start < 0:
            out.append(blanks)
            return
        del out[start:]


def join(out, tokens, at):
    """Closes the gap that something left before `at`: the blanks on both sides become one. Says where to go on."""
    before = out.pop() if out and out[-1].isspace() else ""
    after = tokens[at] if at < len(tokens) and tokens[at].isspace() else ""
    at += bool(after)
    at_edge = not out or out[-1] == "{" or at == len(tokens) or tokens[at] == "}"
    lines = min(before.count("\n"), 1 if at_edge else 2) if out else 0
    out.append("\n" * lines + after.rpartition("\n")[2])
    return at


def result_type(tokens, at):
    """The type of the named result behind the arrow at `at`, and where it ends; or nothing."""
    start = behind(tokens, at)
    colon = behind(tokens, behind(tokens, start))
    if tokens[start] != "(" or tokens[colon] != ":":
        return None
    end = closing(tokens, start)
    return "".join(tokens[colon + 1 : end]).strip(), end


def strip(text):
    """The text without its ghost parts."""
    tokens = TOKEN.findall(re.sub(r"(?ms)^verus! \{\n(.*)^\} // verus!\n", r"\1", text))
    out, at = [], 0
    while at < len(tokens):
        end = ghost_end(tokens, at)
        named = result_type(tokens, at) if tokens[at] == "->" else None
        if end >= 0:
            drop_above(out)
            at = join(out, tokens, end + 1)
        elif tokens[at] in CLAUSES:
            at = clauses_end(tokens, at)
            out[-1] = " " if tokens[at] == "{" else ""
        elif named:
            out.append("-> " + named[0])
            at = named[1] + 1
        else:
            out.append(tokens[at])
            at += 1
    return "".join(out)


def only_leaves_out(made, source):
    """Whether what was made is upstream's words and signs in their order, some left out and none added."""
    rest = (token for token in TOKEN.findall(source) if not token.isspace())
    return all(token in rest for token in TOKEN.findall(made) if not token.isspace())


def fault(file, write):
    """What is wrong with one of the files, if anything; it is written first where that is asked."""
    source = (UPSTREAM / ("src--" + file.replace("/", "--") + ".txt")).read_text(encoding="utf-8")
    made, path = strip(source), CRATE / "src" / file
    if write:
        path.parent.mkdir(parents=True, exist_ok=True)
        path.write_text(made, encoding="utf-8")
    if not only_leaves_out(made, source):
        return f"src/{file} would have something that upstream's source has not"
    if not path.is_file() or path.read_text(encoding="utf-8") != made:
        return f"src/{file} is not what strip.py makes of upstream's source"
    return ""


def main():
    if sys.argv[1:] not in ([], ["--check"]):
        print(__doc__)
        return 2
    faults = [found for file in FILES if (found := fault(file, write=not sys.argv[1:]))]
    print("\n".join(faults) or f"{len(FILES)} files are upstream's without their ghost parts")
    return 1 if faults else 0


if __name__ == "__main__":
    sys.exit(main())
