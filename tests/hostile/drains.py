"""Takes the power from drains and reclaim turns, at any of their calls, and looks at what any subset of unsynced blocks leaves.

usage: drains.py WOL [--rounds N] [--stops N] [--jobs J] [--seed S] [--folder F]

Each round logs many writes to few blocks, so that these lie in several records, on several disks. Then the program drains a volume by
`view-remove`, or reclaims all behind a read, or serves writes that find logs full, and each of its writes and syncs is written down
(record.c). At N stops between these each block gets one of the values that it had since the last sync of its file: all the oldest, all
the newest, or each at random. The images must be in order and stand for the volumes' content: for the same as before, or for what the
answered writes left, with at most the one in flight. Once a round `wol check` must say the same of such images. It needs a C compiler
(cc). It prints its counts, and ends with 1 and the folder of the first round that went wrong.
"""

import argparse
import os
import random
import shutil
import struct
import subprocess
import sys
import tempfile
from collections import Counter
from functools import partial
from pathlib import Path
from typing import Iterator, NamedTuple

from images import BLOCK, Config, check_text, first_refused, opened_of, read_config, recovered
from kills import call, random_config, until
from memory import made_library
from model import Request, is_cut, pieces

HEAD = struct.Struct("<BBxxIQ")


class Entry(NamedTuple):
    """Something that the program did: W wrote at a place of a file, S synced it, O printed."""

    kind: str
    name: str
    place: int
    data: bytes


def read_entries(data: bytes) -> list[Entry]:
    found, at = [], 0
    while at < len(data):
        kind, name, size, place = HEAD.unpack_from(data, at)
        at += HEAD.size
        found.append(Entry(chr(kind), data[at : at + name].decode(), place, data[at + name : at + name + size]))
        at += name + size
    return found


class Disk:
    """An image of which some blocks have several values, of which a crash leaves any."""

    def __init__(self, data: bytes):
        self.data, self.later = bytearray(data), {}

    def write(self, place: int, data: bytes) -> None:
        assert place % BLOCK == 0 and len(data) % BLOCK == 0, "a write of a part of a block"
        for at in range(0, len(data), BLOCK):
            old = bytes(self.data[place + at : place + at + BLOCK])
            self.later.setdefault(place + at, [old]).append(data[at : at + BLOCK])

    def sync(self) -> None:
        for place, values in self.later.items():
            self.data[place : place + BLOCK] = values[-1]
        self.later = {}

    def left(self, choose) -> bytes:
        data = bytearray(self.data)
        for place, values in self.later.items():
            data[place : place + BLOCK] = choose(values)
        return bytes(data)


def choices(rng: random.Random) -> tuple:
    """Ways to choose one of the values of each block."""
    return (lambda values: values[0], lambda values: values[-1], rng.choice, rng.choice)


class Round:
    """A folder of images with much in their logs, and what is asked of the program then."""

    def __init__(self, wol: str, folder: Path, library: Path, rng: random.Random):
        self.wol, self.folder, self.library, self.rng = wol, folder, library, rng
        text = random_config(rng)
        self.config = read_config(text)
        (folder / "wol.toml").write_text(text)
        assert call(wol, folder, "format").returncode == 0
        self.run(["replay", "--reclaim", "off"], self.crowd(60, 0.9)[0])
        self.before = recovered(folder, self.config)
        self.words, self.trace, self.asked = self.order()

    def run(self, words: list[str], given: bytes = b"", **env: str) -> None:
        ran = subprocess.run([self.wol, *words], cwd=self.folder, input=given, capture_output=True, timeout=120, env={**os.environ, **env})
        assert ran.returncode in (0, 15), f"{words} ends with {ran.returncode}: {ran.stdout!r}"

    def crowd(self, lines: int, writes: float) -> tuple[bytes, list[Request]]:
        """Lines for few blocks of each volume, with quiet times between them, and what they ask for."""
        rng, text, asked, moment = self.rng, [], [], 128166372000000000
        for line in range(1, lines + 1):
            moment += rng.choice((0, 0, 1_000, 3_000_000, 20_000_000, 350_000_000, 700_000_000))
            number = rng.randrange(len(self.config.volumes))
            volume, write = self.config.volumes[number], rng.random() < writes
            offset, size = rng.randrange(8) * BLOCK, rng.randint(1, 6) * BLOCK
            text.append(f"{moment},{volume.host},{volume.disk},{'Write' if write else 'Read'},{offset},{size},100\n")
            asked += [Request(line, number, write, *it) for it in pieces(offset, size, volume, self.config.most)]
        return "".join(text).encode(), asked

    def order(self) -> tuple[list[str], bytes, list[Request]]:
        """The words of a command that drains or reclaims, its trace, and what that asks for."""
        rng = self.rng
        how = rng.randrange(4)
        if how == 0:
            return ["view-remove", *(it.name for it in rng.sample(self.config.volumes, 2))], b"", []
        workers = ["--workers", rng.choice("14")]
        if how == 1:
            return ["replay", "--each", *workers], *self.crowd(1, 0)
        mode = rng.choice(("off", "between", "beside"))
        return ["replay", "--each", "--reclaim", mode, *workers], *self.crowd(30, 0.7)

    def entries(self) -> list[Entry]:
        """What the program does."""
        record = self.folder / "record"
        self.run(self.words, self.trace, LD_PRELOAD=str(self.library), RECORD=str(record))
        return read_entries(record.read_bytes())


def look(it: Round, files: tuple[bytes, ...], printed: bytes) -> None:
    """These images stand for what they may."""
    volumes = opened_of(it.config, files)
    wrong = first_refused(it.config, volumes)
    assert not wrong, f"{wrong[0]} {wrong[1].text}"
    answered = [line.split() for line in printed.decode().splitlines() if line.startswith("read ")]
    for number, (volume, found) in enumerate(zip(it.config.volumes, volumes)):
        through = max((int(line[1]) for line in answered if line[2] == volume.name), default=0)
        writes = [ask for ask in it.asked if ask.volume == number and ask.write]
        acknowledged = sum(ask.line <= through for ask in writes)
        assert is_cut(it.before[number], writes, acknowledged, found.array), f"{volume.name} lost or gained something"


def left_at(it: Round, images: dict[str, bytes], entries: list[Entry], stops: set[int]) -> Iterator[tuple[int, tuple[bytes, ...], bytes]]:
    """What may be left at some stops: how many entries came before, the images, and what was printed."""
    disks, printed = {name: Disk(data) for name, data in images.items()}, b""
    for number, entry in enumerate(entries, 1):
        if entry.kind == "O":
            printed += entry.data
        elif entry.name in disks and entry.kind == "W":
            disks[entry.name].write(entry.place, entry.data)
        elif entry.name in disks:
            disks[entry.name].sync()
        if number in stops:
            for choose in choices(it.rng):
                yield number, tuple(disk.left(choose) for disk in disks.values()), printed


def checked(it: Round, files: tuple[bytes, ...]) -> None:
    """`wol check` says of these images what the reader says."""
    for volume, data in zip(it.config.volumes, files):
        (it.folder / f"{volume.name}.vol").write_bytes(data)
    told = call(it.wol, it.folder, "check")
    assert (told.returncode, told.stdout) == (0, check_text(it.config, opened_of(it.config, files))), f"check says {told.stdout}"


def one_round(wol: str, library: Path, seed: int, most_stops: int, root: str | None, number: int) -> tuple[Counter, str]:
    """What was counted in a round, or what went wrong."""
    rng, counts = random.Random(f"{seed} {number}"), Counter()
    folder = Path(tempfile.mkdtemp(prefix="wol-drains-", dir=root))
    what = "before it is stopped"
    try:
        it = Round(wol, folder, library, rng)
        images = {f"{volume.name}.vol": (folder / f"{volume.name}.vol").read_bytes() for volume in it.config.volumes}
        entries = it.entries()
        # before each sync the most blocks are unsynced
        syncs = [at for at, entry in enumerate(entries) if entry.kind == "S"]
        stops = set(rng.sample(syncs, min(len(syncs), most_stops))) | set(rng.sample(range(len(entries) + 1), min(len(entries), most_stops)))
        seen, last = set(), None
        for at, files, printed in left_at(it, images, entries, stops):
            what = f"`{' '.join(it.words)}`, stopped behind entry {at} of {len(entries)}"
            if (hashed := hash(files)) not in seen:
                look(it, files, printed)
                seen.add(hashed)
                last = files if rng.random() < 0.1 or last is None else last
        if last:
            checked(it, last)
        counts += Counter({"rounds": 1, it.words[0]: 1, "sets of images": len(seen), "syncs": len(syncs)})
    except (AssertionError, subprocess.TimeoutExpired) as wrong:
        return Counter(), f"round {number} of seed {seed} went wrong: {what}: {wrong}; its folder is {folder}"
    shutil.rmtree(folder)
    return counts, ""


def main() -> int:
    words = argparse.ArgumentParser()
    words.add_argument("wol")
    words.add_argument("--rounds", type=int, default=20)
    words.add_argument("--stops", type=int, default=40)
    words.add_argument("--jobs", type=int, default=os.cpu_count())
    words.add_argument("--seed", type=int, default=1)
    # syncs cost nothing in memory
    words.add_argument("--folder", default="/dev/shm" if Path("/dev/shm").is_dir() else None)
    asked_for = words.parse_args()
    wol = str(Path(asked_for.wol).resolve())
    with tempfile.TemporaryDirectory(prefix="wol-record-") as room:
        library = made_library(Path(room), "record.c")
        if not library:
            print("skipped: no C compiler (cc) for record.c")
            return 0
        work = partial(one_round, wol, library, asked_for.seed, asked_for.stops, asked_for.folder)
        counts = until({"rounds": asked_for.rounds}, asked_for.jobs, work)
    if counts is None:
        return 1
    told = ", ".join(f"{count} {what}" for what, count in counts.items())
    print(f"{told}: each is in order, and has what it may")
    return 0


if __name__ == "__main__":
    sys.exit(main())
