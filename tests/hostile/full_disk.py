"""Replays on an ext4 whose disk runs full, goes on when there is room again, and mounts it anew: what a real system makes of failed syncs.

usage: full_disk.py WOL [--rounds N] [--seed S]

The disk is a loop device whose file lies in a small file system of memory. Each round makes sound images there, fills the memory, and
replays: what the file system thinks to have room for can't be written, so syncs fail, and the system takes what they lost for synced.
Then there is room, and a second run replays a further trace and is answered. The disk is mounted anew, which leaves what it has. Nothing
that either run answered is lost, and the second run's reads are what the disk has. It needs root, losetup and mkfs.ext4: elsewhere it
is skipped, which is said. It prints its counts, and ends with 1 and the round that went wrong.
"""

import argparse
import mmap
import os
import random
import shutil
import subprocess
import sys
import tempfile
from collections import Counter
from pathlib import Path

from files import Round, look_after, told
from forgets import arrays_of, replayed
from kills import MODES
from model import random_trace

PAGE = 4096


def done(*words: object) -> str:
    return subprocess.run([str(it) for it in words], check=True, capture_output=True, text=True).stdout.strip()


class FullDisk:
    """An ext4 on a loop device in a file system of memory, both mounted in a folder."""

    def __init__(self, folder: Path):
        self.memory, self.place, self.device = folder / "memory", folder / "disk", ""
        self.memory.mkdir()
        self.place.mkdir()

    def __enter__(self):
        done("mount", "-t", "tmpfs", "-o", "size=16m", "tmpfs", self.memory)
        with open(self.memory / "file", "wb") as file:
            file.truncate(64 << 20)
        self.device = done("losetup", "-f", "--show", self.memory / "file")
        # a request of which the file takes some pages and no more counts as done with this driver
        Path("/sys/block", Path(self.device).name, "queue/max_sectors_kb").write_text(str(PAGE >> 10))
        done("mkfs.ext4", "-q", "-O", "^has_journal", "-b", PAGE, "-E", "nodiscard,lazy_itable_init=0", self.device)
        done("mount", self.device, self.place)
        return self

    def __exit__(self, *_):
        for words in (("umount", self.place), ("losetup", "-d", self.device), ("umount", self.memory)):
            subprocess.run([str(it) for it in words], capture_output=True)

    def fill(self) -> None:
        with open(self.memory / "fill", "wb", buffering=0) as file:
            for size in (1 << 20, PAGE):
                try:
                    while True:
                        file.write(b"f" * size)
                except OSError:
                    pass

    def empty(self) -> None:
        (self.memory / "fill").unlink()

    def mounted_anew(self) -> None:
        done("umount", self.place)
        done("mount", self.device, self.place)


def by_disk(path: Path) -> bytes:
    """What the disk has of a file, past what the system keeps."""
    size = path.stat().st_size
    room = mmap.mmap(-1, (size + PAGE - 1) // PAGE * PAGE)
    file = os.open(path, os.O_RDONLY | os.O_DIRECT)
    try:
        at = 0
        while at < size:
            with memoryview(room)[at:] as rest:
                had = os.preadv(file, [rest], at)
            if not had:
                break
            at += had
    finally:
        os.close(file)
    return room[:size]


def one_round(wol: str, folder: Path, rng: random.Random, counts: Counter) -> None:
    with FullDisk(folder) as disk:
        it = Round(wol, disk.place, rng)
        assert it.ready
        for path in disk.place.glob("*.vol"):
            done("fallocate", "-l", path.stat().st_size, path)
        done("sync", "-f", disk.place)
        before = it.arrays()
        disk.fill()
        first = replayed(it, it.trace, ["--workers", rng.choice("14"), "--reclaim", rng.choice(MODES)], {})
        told(first, 0, 4, 6)
        counts["first runs whose syncs failed"] += bool(first.returncode)
        disk.empty()
        images = {path.name: by_disk(path) for path in sorted(disk.place.glob("*.vol"))}
        counts["of these with copies other than the disk"] += images != it.bytes_of_images()
        begins = arrays_of(it, images)
        shutil.rmtree(disk.place / "other")
        look_after(it.config, before, it.asked, first, begins)
        trace, asked = random_trace(rng, it.config, 40)
        second = replayed(it, trace, ["--workers", rng.choice("14"), "--reclaim", rng.choice(MODES)], {})
        told(second, 0)
        disk.mounted_anew()
        look_after(it.config, begins, asked, second, it.arrays())
        told(it.run("check"), 0)
        counts["rounds"] += 1


def can_mount(folder: Path) -> bool:
    if os.geteuid() or not all(map(shutil.which, ("losetup", "mkfs.ext4", "mount", "fallocate"))):
        return False
    try:
        with FullDisk(folder):
            return True
    except (subprocess.CalledProcessError, OSError):
        return False


def main() -> int:
    words = argparse.ArgumentParser()
    words.add_argument("wol")
    words.add_argument("--rounds", type=int, default=20)
    words.add_argument("--seed", type=int, default=1)
    asked_for = words.parse_args()
    wol, counts = str(Path(asked_for.wol).resolve()), Counter()
    folder = Path(tempfile.mkdtemp(prefix="wol-full-disk-"))
    (folder / "try").mkdir()
    if not can_mount(folder / "try"):
        print("skipped: an ext4 on a loop device needs root, losetup and mkfs.ext4")
        shutil.rmtree(folder)
        return 0
    for number in range(asked_for.rounds):
        place = folder / str(number)
        place.mkdir()
        try:
            one_round(wol, place, random.Random(f"{asked_for.seed} {number}"), counts)
        except (AssertionError, subprocess.TimeoutExpired) as wrong:
            print(f"round {number} of seed {asked_for.seed} went wrong: {wrong}", file=sys.stderr)
            return 1
    shutil.rmtree(folder)
    print(", ".join(f"{count} {what}" for what, count in sorted(counts.items())) + ": nothing that was answered is lost")
    return 0


if __name__ == "__main__":
    sys.exit(main())
