"""Runs the program where the system refuses something: space, rights, files, lengths, or an image that somebody else has.

usage: files.py WOL [--rounds N] [--seed S] [--folder F]

Each round makes sound images with records in their logs, and then: replays on a full file system of a random size; runs each command
under random limits on open files and on the length of files, with a small stack, with an image that may only be read, with a folder, a
pipe, a link to nowhere or a device in an image's place, and beside a process that holds the images. Each run ends by itself with a
status that docs/USAGE.md has for it and says why; every image is what it was, or, after a replay, what the answered writes left, with at
most those in flight. It prints its counts, and ends with 1 and the folder of the first round that went wrong. The full file system needs
a mount namespace; where there is none that part is skipped, which is said.
"""

import argparse
import os
import random
import resource
import shutil
import socket
import struct
import subprocess
import sys
import tempfile
import time
from collections import Counter
from pathlib import Path

from images import BLOCK, Config, Opened, check_text, first_refused, opened, read_config, recovered
from kills import call, random_config
from model import Request, is_cut, random_trace, read_lines

NOBODY = 65534
COMMANDS = ("format", "check", "dump", "replay", "soak 7 40", "view-add {0} {1}", "view-remove {0} {1}", "clean", "nbd {0}", "gen 7 40")
COMMANDS += ("whatif",)
# A READ of a block and a FLUSH for `nbd`.
CLIENT = b"".join(b"\x25\x60\x95\x13" + struct.pack(">HHQQI", 0, *it) for it in ((0, 1, 512, 512), (3, 2, 0, 0)))
TOUCHES_NONE = ("gen", "whatif")


class Round:
    """A folder of sound images, what its volumes are, and a further trace for it."""

    def __init__(self, wol: str, folder: Path, rng: random.Random):
        self.wol, self.folder, self.rng = wol, folder, rng
        text = random_config(rng)
        self.config = read_config(text)
        (folder / "wol.toml").write_text(text)
        self.ready = self.run("format").returncode == 0
        self.trace, self.asked = random_trace(rng, self.config, 60)
        if self.ready:
            sound = random_trace(rng, self.config, 60)[0]
            self.ready = self.run("replay", "--reclaim", "off", given=sound).returncode == 0

    def run(self, *words: str, given: bytes = b"", **how) -> subprocess.CompletedProcess:
        """A command, which must end by itself."""
        return subprocess.run([self.wol, *words], cwd=self.folder, input=given, capture_output=True, timeout=120, **how)

    def words(self, command: str) -> list[str]:
        names = [it.name for it in self.config.volumes]
        return command.format(*self.rng.sample(names, 2)).split()

    def given(self, words: list[str]) -> bytes:
        """What a command gets as its input."""
        return CLIENT if words[0] == "nbd" else self.trace

    def arrays(self) -> list[list[bytes]]:
        return recovered(self.folder, self.config)

    def bytes_of_images(self) -> dict[str, bytes]:
        return {it.name: it.read_bytes() for it in sorted(self.folder.glob("*.vol")) if it.is_file() and not it.is_symlink()}


def told(ran: subprocess.CompletedProcess, *statuses: int) -> None:
    """It ended with one of these statuses, and with its line."""
    command, text = " ".join(ran.args[1:]), ran.stdout.decode(errors="replace")
    assert ran.returncode in statuses, f"{command} ends with {ran.returncode}: {text!r}"
    last = text.splitlines()[-1:]
    looks = ran.args[1] in ("check", "dump") and ran.returncode in (4, 5, 6, 12)
    silent = ran.returncode in (0, 7) or looks or ran.args[1] == "nbd"
    assert silent or last and last[0].startswith(f"fault {ran.returncode} "), f"{command} ends with {ran.returncode}, and {text!r}"


def look_after(config: Config, before: list, asked: list[Request], ran: subprocess.CompletedProcess, after: list) -> None:
    """The reads that a replay printed are those of plain arrays, volume by volume, and the arrays are those of the answered writes."""
    printed = [it.split() for it in ran.stdout.decode().splitlines() if it.startswith("read ")]
    expected = [it.split() for it in read_lines(config, before, asked)]
    for number, volume in enumerate(config.volumes):
        own, wanted = ([it for it in lines if it[2] == volume.name] for lines in (printed, expected))
        assert own == wanted[: len(own)], f"{volume.name}: a read line isn't that of the plain array"
        through = int(own[-1][1]) if own else 0
        writes = [it for it in asked if it.volume == number and it.write]
        acknowledged = len(writes) if ran.returncode == 0 else sum(it.line <= through for it in writes)
        assert is_cut(before[number], writes, acknowledged, after[number]), f"{volume.name} lost or gained something"


def replay_and_look(it: Round, statuses: tuple[int, ...], **how) -> subprocess.CompletedProcess:
    before = it.arrays()
    ran = it.run("replay", "--each", "--workers", it.rng.choice("14"), given=it.trace, **how)
    told(ran, *statuses)
    look_after(it.config, before, it.asked, ran, it.arrays())
    return ran


def every_command(it: Round, statuses: tuple[int, ...], counts: Counter, what: str, **how) -> None:
    """Each command so; no volume changes but by a replay or a format that was done."""
    for command in COMMANDS:
        words = it.words(command)
        keeps = words[0] not in ("format", "replay", "soak")
        before = it.arrays()
        if words[0] == "replay":
            ran = replay_and_look(it, statuses, **how)
        else:
            ran = it.run(*words, given=it.given(words), **how)
            told(ran, *statuses, 15)
        if keeps:
            assert it.arrays() == before, f"{words} changed a volume"
        elif words[0] == "format" and ran.returncode:
            made_again(it)
        counts[what] += 1


def made_again(it: Round) -> None:
    """After a format that failed the reader and `check` tell the same of each image; another format makes all of them."""
    ran = it.run("check")
    assert ran.stdout.decode() == check_text(it.config, opened(it.folder, it.config)), "check and the reader differ"
    assert it.run("format").returncode == 0


# ---- Limits


def limited(kind: int, most: int):
    return lambda: resource.setrlimit(kind, (most, most))


def open_files(it: Round, counts: Counter) -> None:
    for most in it.rng.sample(range(4, 20), 3):
        every_command(it, (0, 4, 6, 7, 8), counts, "under a limit on open files", preexec_fn=limited(resource.RLIMIT_NOFILE, most))


def lengths_of_files(it: Round, counts: Counter) -> None:
    longest = max(len(data) for data in it.bytes_of_images().values())
    for most in (0, it.rng.randrange(longest), longest - 1):
        every_command(it, (0, 4, 6, 7), counts, "under a limit on lengths", preexec_fn=limited(resource.RLIMIT_FSIZE, most))


def small_stacks(it: Round, counts: Counter) -> None:
    every_command(it, (0,), counts, "with a stack of 256 KiB", preexec_fn=limited(resource.RLIMIT_STACK, 262_144))


# ---- Images that can't be had


def as_user(it: Round) -> dict:
    """How a user runs the program to whom rights apply."""
    if os.geteuid():
        return {}
    for path in (it.folder, *it.folder.iterdir()):
        os.chown(path, NOBODY, NOBODY)
    return {"user": NOBODY, "group": NOBODY, "extra_groups": []}


def images_without(it: Round, name: str, counts: Counter, what: str, text: str, status: int, **how) -> None:
    """Commands where one image can't be had: `check` names it, its dependants lack a logger, and no image changes."""
    before = it.bytes_of_images()
    for command in COMMANDS:
        words = it.words(command)
        if words[0] in TOUCHES_NONE or words[0] == "format":
            continue
        ran = it.run(*words, given=it.given(words), **how)
        told(ran, status, 6)
        if words[0] in ("check", "dump"):
            assert f"{name} {text}\n" in ran.stdout.decode(), f"{words} doesn't say {name} {text}"
        else:
            assert ran.stdout.count(b"\n") == (words[0] != "nbd"), f"{words} did something"
        assert it.bytes_of_images() == before, f"{words} wrote an image"
        counts[what] += 1


def read_only(it: Round, counts: Counter) -> None:
    path = it.rng.choice(sorted(it.folder.glob("*.vol")))
    how = as_user(it)
    before = it.arrays()
    path.chmod(0o444)
    images_without(it, path.stem, counts, "with an image that may only be read", "disk bay", 4, **how)
    told(it.run("format", **how), 4)
    path.chmod(0o644)
    assert it.bytes_of_images()[path.name], "format emptied an image that it may not write"
    assert len(before) == len(it.config.volumes)


# What is told of an image in whose place such a thing stands: pipes and devices have no bytes.
ODD_FILES = {"folder": ("disk bay", 4), "pipe": ("length 0", 5), "nowhere": ("absent", 12), "device": ("length 0", 5), "socket": ("disk bay", 4)}


def odd_files(it: Round, counts: Counter) -> None:
    for odd, (text, status) in ODD_FILES.items():
        path = it.rng.choice(sorted(it.folder.glob("*.vol")))
        kept, before = path.with_suffix(".kept"), it.arrays()
        path.rename(kept)
        held = None
        if odd == "folder":
            path.mkdir()
        elif odd == "pipe":
            os.mkfifo(path)
        elif odd == "nowhere":
            path.symlink_to("nowhere")
        elif odd == "device":
            path.symlink_to("/dev/null")
        else:
            held = socket.socket(socket.AF_UNIX)
            held.bind(os.path.relpath(path))
        images_without(it, path.stem, counts, f"with a {odd} for an image", text, status)
        if held:
            held.close()
        path.rmdir() if odd == "folder" else path.unlink()
        kept.rename(path)
        assert it.arrays() == before, f"a {odd} in an image's place cost something"


# ---- A second process


def has_open(process: subprocess.Popen) -> int:
    """How many images a process has open."""
    links = [os.readlink(it) for it in Path(f"/proc/{process.pid}/fd").iterdir() if it.is_symlink()]
    return len({it for it in links if it.endswith(".vol")})


def quiet(it: Round) -> dict[str, bytes]:
    """The images, once nobody has written them for a while."""
    while True:
        held = it.bytes_of_images()
        time.sleep(0.5)
        if it.bytes_of_images() == held:
            return held


def second_process(it: Round, counts: Counter) -> None:
    before = it.arrays()
    lines = it.trace.splitlines(keepends=True)
    words = [it.wol, "replay", "--each", "--workers", it.rng.choice("14"), "--reclaim", it.rng.choice(("off", "between", "beside"))]
    with subprocess.Popen(words, cwd=it.folder, stdin=subprocess.PIPE, stdout=subprocess.PIPE, stderr=subprocess.DEVNULL) as first:
        first.stdin.write(b"".join(lines[: len(lines) // 2]))
        first.stdin.flush()
        while has_open(first) < len(it.config.volumes) and first.poll() is None:
            time.sleep(0.01)
        held = quiet(it)
        for command in COMMANDS:
            words_of = it.words(command)
            ran = it.run(*words_of, given=it.given(words_of))
            touches = ran.args[1] not in TOUCHES_NONE
            told(ran, *((4, 6) if touches else (0,)))
            names = b" disk bay" in ran.stdout or b" missing" in ran.stdout or words_of[0] == "nbd"
            assert not touches or names, f"{ran.args[1:]} says {ran.stdout!r}"
            assert it.bytes_of_images() == held, f"{ran.args[1:]} wrote an image that another process has"
            counts["beside another process"] += 1
        text = first.communicate(b"".join(lines[len(lines) // 2 :]), timeout=120)[0]
    ran = subprocess.CompletedProcess(words, first.returncode, text)
    told(ran, 0)
    look_after(it.config, before, it.asked, ran, it.arrays())


# ---- A full file system


def full_file_systems(wol: str, seed: str, rounds: int, folder: Path) -> Counter:
    """Replays in small file systems of memory, mounted here one after another."""
    counts = Counter()
    for number in range(rounds):
        rng, place = random.Random(f"{seed} full {number}"), folder / "small"
        place.mkdir(exist_ok=True)
        # the images of the round that follows; they are sparse
        config = read_config(random_config(random.Random(f"{seed} full {number}")))
        whole = sum(BLOCK * config.first_block(k, it.segments) for k, it in enumerate(config.volumes))
        size = int(whole * random.Random(number).uniform(0.2, 1.2)) // 1024
        subprocess.run(["mount", "-t", "tmpfs", "-o", f"size={size}k", "tmpfs", place], check=True)
        try:
            it = Round(wol, place, rng)
            if it.ready:
                ran = replay_and_look(it, (0, 4))
                counts["replays on a file system that was full" if ran.returncode else "replays on one with room"] += 1
            volumes = opened(place, it.config)
            wrong, ran = first_refused(it.config, volumes), it.run("check")
            assert ran.returncode == (wrong[1].status if wrong else 0), f"check ends with {ran.returncode}"
            assert ran.stdout.decode() == check_text(it.config, volumes), f"check says {ran.stdout.decode()}"
            counts["full file systems"] += 1
        finally:
            subprocess.run(["umount", place], check=True)
    return counts


# ---- All


def one_round(wol: str, folder: Path, rng: random.Random, counts: Counter) -> None:
    for number, part in enumerate((open_files, lengths_of_files, small_stacks, read_only, odd_files, second_process)):
        place = folder / str(number)
        place.mkdir()
        it = Round(wol, place, rng)
        assert it.ready and all(isinstance(v, Opened) for v in opened(place, it.config)), "the images aren't sound to begin with"
        here = os.getcwd()
        os.chdir(place)
        part(it, counts)
        os.chdir(here)


def in_own_mounts(words: argparse.Namespace) -> bool:
    """Whether the file systems could be mounted; those tries are made by this program in a namespace of its own."""
    tried = subprocess.run(["unshare", "-rm", "mount", "-t", "tmpfs", "tmpfs", tempfile.gettempdir()], capture_output=True)
    if tried.returncode:
        print("skipped: a full file system needs a mount namespace (unshare -rm)")
        return True
    own = [sys.executable, __file__, words.wol, "--rounds", str(words.rounds), "--seed", str(words.seed), "--full"]
    return subprocess.run(["unshare", "-rm", *own]).returncode == 0


def main() -> int:
    words = argparse.ArgumentParser()
    words.add_argument("wol")
    words.add_argument("--rounds", type=int, default=5)
    words.add_argument("--seed", type=int, default=1)
    words.add_argument("--folder")
    words.add_argument("--full", action="store_true", help=argparse.SUPPRESS)
    asked_for = words.parse_args()
    wol, counts = str(Path(asked_for.wol).resolve()), Counter()
    if not asked_for.full and not in_own_mounts(asked_for):
        return 1
    for number in range(asked_for.rounds):
        folder = Path(tempfile.mkdtemp(prefix="wol-files-", dir=asked_for.folder))
        folder.chmod(0o755)
        try:
            if asked_for.full:
                counts += full_file_systems(wol, f"{asked_for.seed} {number}", 10, folder)
            else:
                one_round(wol, folder, random.Random(f"{asked_for.seed} {number}"), counts)
        except (AssertionError, subprocess.TimeoutExpired) as wrong:
            print(f"round {number} of seed {asked_for.seed} went wrong: {wrong}; its folder is {folder}", file=sys.stderr)
            return 1
        shutil.rmtree(folder)
    told_of = ", ".join(f"{count} {what}" for what, count in sorted(counts.items()))
    print(f"{told_of}: each ended with its status, and nothing that was answered is lost")
    return 0


if __name__ == "__main__":
    sys.exit(main())
