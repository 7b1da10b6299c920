"""Refuses the program memory, one allocation after another.

usage: memory.py WOL [--tries N] [--seed S] [--folder F]

For each command it counts the allocations, and then runs it with one of them refused, and with that one and all later ones: each of
them in turn, or N of them at random where there are more. The program answers 9 or what it answers otherwise, also where the words
themselves find no memory; each image is what it was, or what the answered writes left with at most those in flight. It needs a C
compiler (cc) for refuse.c, which stands between the program and the C library. It prints its counts, and ends with 1 and the folder of
the first run that went wrong.
"""

import argparse
import os
import random
import shutil
import subprocess
import sys
import tempfile
from collections import Counter
from pathlib import Path

from files import Round, look_after, told
from images import Opened, Refused, check_text, opened

COMMANDS = ("check", "dump", "gen 7 40", "whatif", "view-add {0} {1}", "view-remove {0} {1}", "clean", "nbd {0}", "replay --each")
COMMANDS += ("replay --each --workers 4", "soak 7 40", "solo a 0 40", "format", "nonsense", "solo a 00 40", "replay --workers 65")
KEEPING = ("check", "dump", "gen", "whatif", "view-add", "view-remove", "clean", "nbd", "solo", "nonsense")
# A reply of `nbd` may have the error of memory in place of its data, and its status prints nothing.
FREE = ("replay", "soak", "nbd")


def made_library(folder: Path, source: str = "refuse.c") -> Path | None:
    """This source as the program can load it, where there is a C compiler."""
    if not shutil.which("cc"):
        return None
    library = folder / Path(source).with_suffix(".so")
    subprocess.run(["cc", "-O2", "-shared", "-fPIC", "-o", library, Path(__file__).with_name(source), "-ldl"], check=True)
    return library


def refusing(library: Path, at: int, all_later: bool, count: Path, **more: str) -> dict:
    env = {**os.environ, "LD_PRELOAD": str(library), "REFUSE_AT": str(at), "REFUSE_COUNT": str(count), **more}
    return {"env": env | ({"REFUSE_FROM": "1"} if all_later else {})}


def remake(folder: Path, images: dict[str, bytes]) -> None:
    for path in folder.glob("*.vol"):
        path.unlink()
    for name, data in images.items():
        (folder / name).write_bytes(data)


def formatted_partly(volumes: list) -> bool:
    """Each volume is in order, or is empty or has no label, or logs on one that has none."""
    texts = ("damaged", "length", "logger", "absent")
    return all(isinstance(it, Opened) or isinstance(it, Refused) and it.text.split()[0] in texts for it in volumes)


def try_one(it: Round, words: list[str], usual: subprocess.CompletedProcess, how: dict) -> int:
    """One run with memory refused: its status."""
    before = it.arrays()
    ran = it.run(*words, given=it.given(words), **how)
    text = ran.stdout.decode(errors="replace")
    assert ran.returncode in (9, usual.returncode), f"{words} ends with {ran.returncode}: {text!r}"
    assert ran.returncode == 9 or ran.stdout == usual.stdout or words[0] in FREE, f"{words} says {text!r}"
    assert ran.returncode != 9 or words[0] == "nbd" or text.endswith("fault 9 memory\n"), f"{words} ends with 9 and {text!r}"
    if words[0] == "replay" and not usual.returncode:
        look_after(it.config, before, it.asked, ran, it.arrays())
    elif words[0] in KEEPING:
        assert it.arrays() == before, f"{words} changed a volume"
    elif words[0] == "format":
        assert formatted_partly(opened(it.folder, it.config)), f"{words} left {check_text(it.config, opened(it.folder, it.config))!r}"
    told(it.run("check"), 0, 5, 6)
    return ran.returncode


def one_command(it: Round, command: str, library: Path, tries: int, counts: Counter) -> None:
    words, images = it.words(command), it.bytes_of_images()
    count = it.folder / "count"
    usual = it.run(*words, given=it.given(words), **refusing(library, 0, False, count))
    made = int.from_bytes(count.read_bytes(), "little")
    remake(it.folder, images)
    assert usual.returncode == it.run(*words, given=it.given(words)).returncode, f"{words}: refuse.c alone changes the status"
    chosen = range(1, made + 1) if made <= tries else sorted(it.rng.sample(range(1, made + 1), tries))
    for at in chosen:
        for all_later in (False, True):
            remake(it.folder, images)
            try:
                status = try_one(it, words, usual, refusing(library, at, all_later, count))
            except AssertionError as wrong:
                raise AssertionError(f"allocation {at}{' and all later' if all_later else ''}: {wrong}") from wrong
            counts[f"ended with {status}"] += 1
    remake(it.folder, images)


def main() -> int:
    words = argparse.ArgumentParser()
    words.add_argument("wol")
    words.add_argument("--tries", type=int, default=40)
    words.add_argument("--seed", type=int, default=1)
    words.add_argument("--folder")
    asked_for = words.parse_args()
    wol, counts = str(Path(asked_for.wol).resolve()), Counter()
    folder = Path(tempfile.mkdtemp(prefix="wol-memory-", dir=asked_for.folder))
    library = made_library(folder)
    if not library:
        print("skipped: no C compiler (cc) for refuse.c")
        return 0
    place = folder / "at"
    place.mkdir()
    it = Round(wol, place, random.Random(asked_for.seed))
    try:
        assert it.ready
        for command in COMMANDS:
            one_command(it, command, library, asked_for.tries, counts)
    except (AssertionError, subprocess.TimeoutExpired) as wrong:
        print(f"seed {asked_for.seed} went wrong: {wrong}; its folder is {folder}", file=sys.stderr)
        return 1
    shutil.rmtree(folder)
    told_of = ", ".join(f"{count} {what}" for what, count in sorted(counts.items()))
    print(f"memory was refused {counts.total()} times: {told_of}")
    return 0


if __name__ == "__main__":
    sys.exit(main())
