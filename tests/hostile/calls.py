"""Refuses the program calls of its files, one after another.

usage: calls.py WOL [--tries N] [--rounds N] [--seed S] [--folder F]

For each command it counts the reads, writes, syncs and new lengths of files, and then runs it with one of them refused; with that one
and all later ones, as by a disk that stops; and so that the power goes there, whereby all blocks that weren't synced have their old
content again, or some of them at random. It tries each call in turn, or N of them at random where there are more. The program answers
4, or 6 for a volume that then lacks a logger, and says why, or a client of `nbd` gets an error; each image is what it was, or what the
answered writes left with at most those in flight. Where each call moves a block at most, nothing else comes of it. It needs a C
compiler (cc) for refuse.c. It prints its counts, and ends with 1 and the folder of the first run that went wrong.
"""

import argparse
import random
import shutil
import subprocess
import sys
import tempfile
from collections import Counter
from pathlib import Path

from files import Round, look_after, told
from images import check_text, opened
from memory import KEEPING, formatted_partly, made_library, refusing, remake

COMMANDS = ("check", "dump", "view-add {0} {1}", "view-remove {0} {1}", "clean", "nbd {0}", "replay --each", "replay --each --workers 4")
COMMANDS += ("replay --each --reclaim beside", "soak 7 40", "solo a 0 40", "format")


def try_one(it: Round, words: list[str], usual: subprocess.CompletedProcess, how: dict) -> int:
    """One run with calls refused: its status."""
    before = it.arrays()
    ran = it.run(*words, given=it.given(words), **how)
    told(ran, usual.returncode, 4, 6)
    same = ran.stdout == usual.stdout or words[0] == "nbd" or "4" in words
    assert ran.returncode != usual.returncode or same, f"{words} says {ran.stdout!r}"
    if words[0] == "replay":
        look_after(it.config, before, it.asked, ran, it.arrays())
    elif words[0] in KEEPING:
        assert it.arrays() == before, f"{words} changed a volume"
    elif words[0] == "format":
        assert formatted_partly(opened(it.folder, it.config)), f"{words} left {check_text(it.config, opened(it.folder, it.config))!r}"
    told(it.run("check"), 0, 5, 6)
    return ran.returncode


def one_command(it: Round, command: str, library: Path, tries: int, counts: Counter) -> None:
    words, images = it.words(command), it.bytes_of_images()
    count = it.folder / "count"
    files = refusing(library, 0, False, count, REFUSE_FILES="1")
    usual = it.run(*words, given=it.given(words), **files)
    made = int.from_bytes(count.read_bytes(), "little")
    remake(it.folder, images)
    short = it.run(*words, given=it.given(words), **refusing(library, 0, False, count, REFUSE_FILES="1", REFUSE_SHORT="1"))
    assert (short.returncode, short.stdout) == (usual.returncode, usual.stdout), f"{words}: short calls change what is said"
    for at in range(1, made + 1) if made <= tries else sorted(it.rng.sample(range(1, made + 1), tries)):
        for lost in (None, "", "0", str(it.rng.randrange(1, 2**64))):
            remake(it.folder, images)
            more = {"REFUSE_FILES": "1"} | ({"REFUSE_LOSE": lost} if lost else {})
            try:
                status = try_one(it, words, usual, refusing(library, at, lost is not None, count, **more))
            except AssertionError as wrong:
                raise AssertionError(f"call {at}, {'alone' if lost is None else f'and all later, {lost}'}: {wrong}") from wrong
            counts[f"ended with {status}"] += 1
            counts["lost power"] += bool(lost)
    remake(it.folder, images)


def main() -> int:
    words = argparse.ArgumentParser()
    words.add_argument("wol")
    words.add_argument("--tries", type=int, default=40)
    words.add_argument("--rounds", type=int, default=1)
    words.add_argument("--seed", type=int, default=1)
    words.add_argument("--folder")
    asked_for = words.parse_args()
    wol, counts = str(Path(asked_for.wol).resolve()), Counter()
    folder = Path(tempfile.mkdtemp(prefix="wol-calls-", dir=asked_for.folder))
    library = made_library(folder)
    if not library:
        print("skipped: no C compiler (cc) for refuse.c")
        return 0
    for number in range(asked_for.rounds):
        place = folder / str(number)
        place.mkdir()
        try:
            it = Round(wol, place, random.Random(f"{asked_for.seed} {number}"))
            assert it.ready
            for command in COMMANDS:
                one_command(it, command, library, asked_for.tries, counts)
        except (AssertionError, subprocess.TimeoutExpired) as wrong:
            print(f"round {number} of seed {asked_for.seed} went wrong: {wrong}; its folder is {place}", file=sys.stderr)
            return 1
    shutil.rmtree(folder)
    told_of = ", ".join(f"{count} {what}" for what, count in sorted(counts.items()))
    print(f"calls of files were refused {counts.total() - counts['lost power']} times: {told_of}")
    return 0


if __name__ == "__main__":
    sys.exit(main())
