#!/usr/bin/env python3
"""Lists what the contract of each public function says, by the labels of its clauses and the comments over them in the sources.

    docs/clauses.py >docs/CLAUSES.md         or: make clauses
    docs/clauses.py --prune docs/PROOF.md    takes the rows out of the tables of PROOF whose last column says nothing, and whose labels are
                                             all in the list, with a comment

It is run at the top of the repository. Crates of tests, and the crate of what tests share, are left out.
"""

import re
import sys
import textwrap
from pathlib import Path

HEAD = """# Clauses

What the contract of each public function says: its labels, behind the comments that stand over them in the sources, in their order.
*Needs* are what a caller must see to; a clause without a label is called `requires` or `ensures`. Where a text is missing, the clause
itself is the shortest one. What isn't said stands in [PROOF.md](PROOF.md). Made of the sources by `make clauses`: change those.
"""
IMPL = re.compile(r"^(?:unsafe )?(impl|pub trait|trait)\b(?:<[^{]*?>)?\s*(.*?)(?:\s*\{|\s+where\b|$)")
FUNCTION = re.compile(r"^\s*(pub )?(?:const )?fn (\w+)")
CLAUSE = re.compile(r"^\s*(requires|ensures)(?: (\w+))? \{")


class Function:
    def __init__(self, name, doc):
        self.name, self.doc = name, doc
        self.needs, self.groups = [], []  # labels; pairs of a text and labels


def bare(name):
    """A type without its parameters."""
    return re.sub(r"<.*", "", name.split(" for ")[-1].strip().lstrip("&")).split("::")[-1]


def clauses_in(function, lines):
    """Reads the clauses of a function's head."""
    text, labels = [], []

    def end():
        if labels:
            function.groups.append((" ".join(text), labels[:]))
        labels.clear()

    for line in lines:
        line = line.strip()
        found = CLAUSE.match(line)
        if line.startswith("//"):
            if labels:
                end()
                text.clear()
            text.append(line.lstrip("/ "))
        elif not line:
            end()
            text.clear()
        elif found and found[1] == "requires":
            function.needs.append(found[2] or "requires")
        elif found:
            labels.append(found[2] or "ensures")
    end()


def head_of(lines):
    """The lines of a function's head, of which the first is the one with its name."""
    depth = 0
    for number, line in enumerate(lines):
        code = line.split("//")[0]
        if depth == 0 and code.strip() == "{":
            return lines[:number]
        begins = CLAUSE.match(line) or re.match(r"^\s*ghost\b", line)
        depth += code.count("{") - code.count("}")
        if depth > 0 and not begins and depth == code.count("{") - code.count("}"):
            return lines[:number]  # (a body, behind a head without clauses)
        if depth == 0 and code.rstrip().endswith(";"):
            return lines[: number + 1]
    return lines


def functions_in(file):
    """The public functions of a source file, and those of a trait's impl that have clauses of their own."""
    lines, inside, is_trait, doc = file.read_text().split("\n"), "", False, []
    at = 0
    while at < len(lines):
        line = lines[at]
        at += 1
        if found := IMPL.match(line):
            inside, is_trait, doc = bare(found[2]), "trait" in found[1], []
        elif line.startswith("}"):
            inside, is_trait, doc = "", False, []
        elif line.strip().startswith("///"):
            doc.append(line.strip().lstrip("/ "))
        elif found := FUNCTION.match(line):
            head = head_of(lines[at - 1 :])
            at += max(len(head) - 1, 0)
            function = Function(f"{inside}::{found[2]}" if inside else found[2], " ".join(it for it in doc if it))
            clauses_in(function, head)
            if found[1] or is_trait or function.groups:
                yield function
            doc = []
        elif not line.strip().startswith(("#[", "//")):
            doc = []


def crates():
    for line in Path("crates.txt").read_text().split("\n"):
        if found := re.match(r"([a-z_0-9]+)", line):
            if not found[1].endswith("_tests") and found[1] != "fixtures":
                yield found[1]


def listed():
    """The functions of each crate, by name, in the order of the sources."""
    for crate in crates():
        found = {}
        for file in sorted(Path("crates", crate, "src").rglob("*.rt")):
            for function in functions_in(file):
                found.setdefault(function.name, function)
        yield crate, found


def filled(text, first="", rest=""):
    return textwrap.fill(text, 140, initial_indent=first, subsequent_indent=rest, break_long_words=False, break_on_hyphens=False)


def show():
    print(HEAD)
    for crate, functions in listed():
        free = [it.name for it in functions.values() if not it.groups and not it.needs]
        with_clauses = [it for it in functions.values() if it.groups or it.needs]
        if not functions:
            continue
        print(f"## Crate `{crate}`\n")
        for it in with_clauses:
            print(filled(f"**`{it.name}`** {it.doc}".rstrip()) + "\n")
            if it.needs:
                print(filled("needs " + ", ".join(f"`{label}`" for label in it.needs), "- ", "  "))
            for text, labels in it.groups:
                told = ", ".join(f"`{label}`" for label in dict.fromkeys(labels))
                print(filled(f"{text.rstrip('.:')}: {told}" if text else told, "- ", "  "))
            print()
        if free:
            print(filled("Without a clause: " + ", ".join(f"`{it}`" for it in free) + ".") + "\n")


def prune(file):
    """A row says no more than the source where its gap is empty and each of its labels stands behind a comment there."""
    told, crate, function, out = {}, "", "", []
    for name, functions in listed():
        for it in functions.values():
            told[name, it.name] = {label for text, labels in it.groups if text for label in labels}
    for line in Path(file).read_text().split("\n"):
        if found := re.match(r"### `(\w+)::(.*)`", line):
            crate, function = found[1], found[2]
        elif line.startswith("#"):
            crate = function = ""
        cells = [it.strip() for it in re.split(r"(?<!\\)\|", line)[1:-1]]
        if function and len(cells) == 4 and cells[3] == "" and cells[2] == "proved" and not cells[0].startswith(".."):
            labels = re.findall(r"`(\w+)`", cells[1])
            if labels and all(it in told.get((crate, function), ()) for it in labels):
                continue
        out.append(line)
    Path(file).write_text("\n".join(out))


prune(sys.argv[2]) if sys.argv[1:2] == ["--prune"] else show()
