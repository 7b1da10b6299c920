#!/usr/bin/env python3
"""Counts what a reader has to read who wants to know what a definition says: all definitions that it names, theirs, and so on.

  bench/closure.py                          the rows of the promise: Headline, KeepsHeadline, KeepsAccount, Run
  bench/closure.py CRATE.FILE.NAME ..       those of any definition, as wol_run.Run.Run
  bench/closure.py --names WORD .. ROOT     besides, which of them name a word, as Manager

Definitions of the standard library, and types that the code declares, aren't counted. It reads the files under crates/ alone.
"""
import os
import re
import sys

ROOTS = [
    "run_laws.Headline.Headline",
    "replay.Headlined.KeepsHeadline",
    "replay.Account.KeepsAccount",
    "replay.Replays.Replayed",
    "wol_run.Run.Run",
]
HEAD = re.compile(r"^( *)(?:abbrev pub |abbrev |unfoldable pub |pub record |record |pub data |data |pub )(\S+)")
USE = re.compile(r"^use Rattle\.(\w+)\.specs\.([\w.]+)\.\{([^}]*)\}", re.S)
WORD = re.compile(r"[A-Za-z_][A-Za-z_0-9']*")


class Definition:
    """A definition: where it stands, its text without comments, and the names that it may mean."""

    def __init__(self, crate, file, name, lines):
        self.crate, self.file, self.name, self.lines = crate, file, name, lines
        self.words = set(WORD.findall("\n".join(lines)))


def statements(text):
    """The lines of a file, with a use that goes over several lines as one."""
    joined, part = [], ""
    for line in text.split("\n"):
        part = part + " " + line.strip() if part else line
        if part.startswith("use ") and "{" in part and "}" not in part:
            continue
        joined.append(part)
        part = ""
    return joined


def read(path, crate, file):
    """The definitions of a file, and what each imported name stands for."""
    found, names, current = {}, {}, None
    for line in statements(open(path, encoding="utf-8").read()):
        if line.lstrip().startswith("--"):
            continue
        use = USE.match(line)
        if use:
            place = use.group(2)
            for word in use.group(3).split(","):
                first, _, last = word.strip().partition(" as ")
                if not place.startswith("declared"):
                    names[last or first] = (use.group(1), place, first)
            continue
        if line.startswith(("use ", "pub use ", "module ")) or not line.strip():
            current = current if line.strip() == "" else None
            continue
        head = HEAD.match(line)
        if head and len(head.group(1)) <= 2 and not (current and len(head.group(1)) > current[0]):
            name = head.group(2).rstrip(":")
            current = (len(head.group(1)), name)
            found[name] = [line]
        elif current:
            found[current[1]].append(line)
    definitions = {name: Definition(crate, file, name, lines) for name, lines in found.items()}
    return definitions, names


def all_definitions(top):
    """Each definition below crates/*/specs by its crate, file and name, and what it names."""
    definitions, named = {}, {}
    for crate in sorted(os.listdir(f"{top}/crates")):
        specs = f"{top}/crates/{crate}/specs"
        for entry in sorted(os.listdir(specs)) if os.path.isdir(specs) else []:
            if not entry.endswith(".antt") or entry == "Lib.antt":
                continue
            file = entry[:-5]
            found, names = read(f"{specs}/{entry}", crate, file)
            for name, definition in found.items():
                key = (crate, file, name)
                definitions[key] = definition
                near = {(crate, file, word) for word in definition.words & found.keys() if word != name}
                far = {names[word] for word in definition.words & names.keys()}
                named[key] = near | far
    return definitions, named


def closure(root, definitions, named):
    """All that a definition names, and how long the longest chain of names is."""
    depth = {}

    def walk(key, seen):
        if key in depth:
            return depth[key]
        below = [walk(it, seen | {key}) for it in named[key] if it in definitions and it not in seen]
        depth[key] = 1 + max(below, default=0)
        return depth[key]

    return (depth, walk(root, frozenset()))


def main(arguments):
    top = os.path.dirname(os.path.dirname(os.path.abspath(__file__)))
    words, roots = [], []
    while arguments:
        first = arguments.pop(0)
        if first == "--names":
            while arguments and "." not in arguments[0]:
                words.append(arguments.pop(0))
        else:
            roots.append(first)
    definitions, named = all_definitions(top)
    sys.setrecursionlimit(10000)
    print("definition                        definitions  lines  crates  files  chain" + "".join(f"  {word}" for word in words))
    for root in roots or ROOTS:
        key = tuple(root.split("."))
        if key not in definitions:
            sys.exit(f"closure: no definition {root}")
        reached, chain = closure(key, definitions, named)
        lines = sum(len(definitions[it].lines) for it in reached)
        crates, files = {it[0] for it in reached}, {it[:2] for it in reached}
        row = f"{root:34}{len(reached):11}{lines:7}{len(crates):8}{len(files):7}{chain:7}"
        for word in words:
            count = sum(word in definitions[it].words for it in reached)
            row += f"{count:{len(word) + 2}}"
        print(row)


if __name__ == "__main__":
    main(sys.argv[1:])
