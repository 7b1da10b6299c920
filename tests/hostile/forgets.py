"""Lets one sync of a run fail, as a system does that forgets what it couldn't write, and looks at what a further run makes of it.

usage: forgets.py WOL [--losses N] [--races N] [--seed S] [--folder F] [--without drop|openings]

forgetful.c, which needs a C compiler (cc), is the system: a failed sync loses blocks that still read as before, until they are dropped;
it is told once to each opening of an image; a sync beside it, over the same opening, may be told in its place. Each round makes sound
images with records in their logs. A first run replays, with one worker or four, reclaim off, between or beside; each of its syncs
fails in turn, once. A second run logs, reclaims, drains and reads. Then the power goes, so that each block that isn't synced is what it
was or what was written. Nothing that either run answered is lost, and the second run reads what stays. N counts these losses.

A race is a replay of four workers whose volumes all log on one image, with a sync that fails, and a loss of power. Nothing that was
answered is lost. `--without drop` has the system drop nothing, and `--without openings` tell a failed sync once for each image, as
they would a program that doesn't ask for it: then this has to go wrong. It prints its counts, and ends with 1 and the folder of the
first round that went wrong.
"""

import argparse
import os
import random
import shutil
import struct
import subprocess
import sys
import tempfile
from collections import Counter
from pathlib import Path

from files import Round, look_after, told
from images import BLOCK, check_text, opened, read_config
from kills import MODES
from memory import remake
from model import Request, payload, random_trace

HEAD = struct.Struct("<qqq")


class System:
    """What forgetful.c keeps: the disk of each image."""

    def __init__(self, library: Path, folder: Path, without: str):
        self.library, self.disks, self.count, self.without = library, folder / "disks", folder / "count", without
        self.begin()

    def begin(self) -> None:
        shutil.rmtree(self.disks, ignore_errors=True)
        self.disks.mkdir()

    def under(self, at: int, seed: int) -> dict:
        env = {**os.environ, "LD_PRELOAD": str(self.library), "FORGET_DISKS": str(self.disks), "FORGET_COUNT": str(self.count)}
        more = {"FORGET_WITHOUT": self.without} if self.without else {}
        return {"env": env | {"FORGET_AT": str(at), "FORGET_SEED": str(seed)} | more}

    def syncs(self) -> int:
        return int.from_bytes(self.count.read_bytes(), "little")

    def images(self, it: Round, stays) -> dict[str, bytes]:
        """The images by their disks; of each block that isn't synced what it reads as, where that stays."""
        found = {}
        for name, data in it.bytes_of_images().items():
            kept = (self.disks / str((it.folder / name).stat().st_ino)).read_bytes()
            blocks = (HEAD.unpack_from(kept)[2] + BLOCK - 1) // BLOCK
            unsynced = kept[HEAD.size : HEAD.size + blocks]
            disk = kept[HEAD.size + blocks :]
            whole = (data if state and stays() else disk for state in unsynced)
            found[name] = b"".join(of[k * BLOCK : k * BLOCK + BLOCK] for k, of in enumerate(whole))[: len(data)]
        return found


def arrays_of(it: Round, images: dict[str, bytes]) -> list[list[bytes]]:
    """The volumes' arrays by these images."""
    place = it.folder / "other"
    place.mkdir(exist_ok=True)
    remake(place, images)
    whole = Round.__new__(Round)
    whole.folder, whole.config = place, it.config
    return whole.arrays()


def replayed(it: Round, trace: bytes, words: list[str], how: dict) -> subprocess.CompletedProcess:
    return it.run("replay", "--each", *words, given=trace, **how)


def one_loss(it: Round, system: System, at: int, counts: Counter) -> None:
    """A first run whose sync fails, a second one, and a loss of power."""
    rng, before = it.rng, it.arrays()
    system.begin()
    first = replayed(it, it.trace, ["--workers", rng.choice("14"), "--reclaim", rng.choice(MODES)], system.under(at, rng.choice((0, rng.randrange(1, 2**64)))))
    told(first, 0, 4, 6)
    counts[f"first runs that ended with {first.returncode}"] += 1
    assert first.returncode or system.syncs() < at, "a sync failed, and nothing is told"
    begins = arrays_of(it, system.images(it, lambda: True))
    look_after(it.config, before, it.asked, first, begins)
    trace, asked = random_trace(rng, it.config, 40)
    second = replayed(it, trace, ["--workers", rng.choice("14"), "--reclaim", rng.choice(MODES)], system.under(0, 0))
    told(second, 0)
    left = system.images(it, lambda: rng.random() < 0.5)
    look_after(it.config, begins, asked, second, arrays_of(it, left))
    remake(it.folder, left)
    ran = it.run("check")
    assert ran.stdout.decode() == check_text(it.config, opened(it.folder, it.config)), "check and the reader differ"
    counts["losses of power"] += 1


def one_round(it: Round, system: System, losses: int, counts: Counter) -> None:
    images = it.bytes_of_images()
    system.begin()
    told(replayed(it, it.trace, ["--reclaim", "between"], system.under(0, 0)), 0)
    made = system.syncs()
    for at in range(1, made + 1):
        if counts["losses of power"] >= losses:
            return
        remake(it.folder, images)
        try:
            one_loss(it, system, at, counts)
        except AssertionError as wrong:
            raise AssertionError(f"sync {at} of {made}: {wrong}") from wrong


# ---- Four workers at one image

RACING = "segment_blocks = 16\nawake_mw = 8000\nstandby_mw = 1000\nwake_mj = 50000\n" + "".join(
    f'[[volume]]\nname = "{name}"\nhost = "{name}"\ndisk = 0\nhome_blocks = 40\nsegments = {segments}\nview = [{view}]\n'
    for name, segments, view in (*((it, 1, '"e"') for it in "abcd"), ("e", 60, ""))
)


def racing_trace(rng: random.Random) -> tuple[bytes, list[Request]]:
    """Windows in which a disk is up whose log takes the writes of four volumes, with a read behind each write."""
    text, asked, moment, line = [], [], 128166372000000000, 0
    for _ in range(4):
        moment += 700_000_000
        line += 1
        text.append(f"{moment},e,0,Read,0,{BLOCK},100\n")
        asked.append(Request(line, 4, False, 0, 1))
        moment += 10_000_000
        for _ in range(20):
            for number in range(4):
                lbn = rng.randrange(40)
                for write in (True, False):
                    line += 1
                    kind = "Write" if write else "Read"
                    text.append(f"{moment},{'abcd'[number]},0,{kind},{lbn * BLOCK},{BLOCK},100\n")
                    asked.append(Request(line, number, write, lbn, 1))
    return "".join(text).encode(), asked


def races(wol: str, folder: Path, library: Path, words: argparse.Namespace, counts: Counter) -> None:
    rng = random.Random(f"{words.seed} races")
    it = Round.__new__(Round)
    it.wol, it.folder, it.rng, it.config = wol, folder, rng, read_config(RACING)
    (folder / "wol.toml").write_text(RACING)
    assert it.run("format").returncode == 0
    images, before, system = it.bytes_of_images(), it.arrays(), System(library, folder, words.without or "")
    ways = ["--workers", "4", "--reclaim", "off"]
    it.trace, it.asked = racing_trace(rng)
    told(replayed(it, it.trace, ways, system.under(0, 0)), 0)
    made = system.syncs()
    while counts["races"] < words.races:
        remake(folder, images)
        system.begin()
        it.trace, it.asked = racing_trace(rng)
        ran = replayed(it, it.trace, ways, system.under(rng.randrange(1, made + 1), 0))
        told(ran, 0, 4, 6)
        look_after(it.config, before, it.asked, ran, arrays_of(it, system.images(it, lambda: False)))
        counts["races"] += 1
        counts["races with a sync that failed"] += bool(ran.returncode)


def main() -> int:
    words = argparse.ArgumentParser()
    words.add_argument("wol")
    words.add_argument("--losses", type=int, default=200)
    words.add_argument("--races", type=int, default=100)
    words.add_argument("--seed", type=int, default=1)
    words.add_argument("--folder")
    words.add_argument("--without", choices=("drop", "openings"))
    asked_for = words.parse_args()
    if not shutil.which("cc"):
        print("skipped: no C compiler (cc) for forgetful.c")
        return 0
    wol, counts = str(Path(asked_for.wol).resolve()), Counter()
    folder = Path(tempfile.mkdtemp(prefix="wol-forgets-", dir=asked_for.folder))
    library = folder / "forgetful.so"
    subprocess.run(["cc", "-O2", "-shared", "-fPIC", "-o", library, Path(__file__).with_name("forgetful.c"), "-ldl"], check=True)
    number, place = 0, folder
    try:
        while counts["losses of power"] < asked_for.losses:
            place = folder / str(number)
            place.mkdir()
            it = Round(wol, place, random.Random(f"{asked_for.seed} {number}"))
            assert it.ready
            one_round(it, System(library, place, asked_for.without or ""), asked_for.losses, counts)
            shutil.rmtree(place)
            number += 1
        place = folder / "races"
        place.mkdir()
        races(wol, place, library, asked_for, counts)
    except (AssertionError, subprocess.TimeoutExpired) as wrong:
        print(f"round {number} of seed {asked_for.seed} went wrong: {wrong}; its folder is {place}", file=sys.stderr)
        return 1
    shutil.rmtree(folder)
    told_of = ", ".join(f"{count} {what}" for what, count in sorted(counts.items()))
    print(f"{told_of}: nothing that was answered is lost")
    return 0


if __name__ == "__main__":
    sys.exit(main())
