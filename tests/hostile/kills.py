"""Kills replays at random moments and looks at what they left.

usage: kills.py WOL [--kills N] [--jobs J] [--seed S] [--folder F] [--devices]

Each round replays a random trace over small volumes with `--each`, kills the program with SIGKILL at a random moment, and then asks:
are the lines that it printed those of the plain arrays, in order; is what each volume's images stand for (by a reader of its own, and
by `wol check`) what the acknowledged writes left, with at most the writes in flight. Then it kills a command that keeps the volumes'
content, and they must have it; the next round goes on with these images. N counts the kills of replays that found some of the writes
done. With `--devices` each image is a loop device, one folder at a time; that needs root and losetup: elsewhere it is skipped, which is
said. It prints its counts, and ends with 1 and the folder of the first round that went wrong.
"""

import argparse
import contextlib
import os
import random
import shutil
import subprocess
import sys
import tempfile
import time
from collections import Counter
from concurrent.futures import ProcessPoolExecutor
from functools import partial
from pathlib import Path

from images import Config, Opened, check_text, opened, read_config, recovered
from model import Request, is_cut, random_trace, read_lines

MODES = ("off", "between", "beside")


def random_config(rng: random.Random) -> str:
    names = ["a", "b", "c", "d"][: rng.randint(2, 4)]
    rows = [f"segment_blocks = {rng.choice((4, 8, 16))}\nawake_mw = 8000\nstandby_mw = 1000\nwake_mj = 50000\nwake_ms = {rng.choice((0, 10_000))}\n"]
    for name in names:
        others = [it for it in names if it != name]
        view = ", ".join(f'"{it}"' for it in rng.sample(others, rng.randint(0, len(others))))
        rows.append(f'[[volume]]\nname = "{name}"\nhost = "{name}"\ndisk = 0\n')
        rows.append(f"home_blocks = {rng.choice((40, 100, 300))}\nsegments = {rng.randint(1, 6)}\nview = [{view}]\n")
    return "".join(rows)


def call(wol: str, folder: Path, *words: str) -> subprocess.CompletedProcess:
    return subprocess.run([wol, *words], cwd=folder, stdin=subprocess.DEVNULL, capture_output=True, text=True, timeout=120)


def killed(wol: str, folder: Path, words: list[str], delay: float) -> tuple[bool, list[str]]:
    """Whether the program was still at work when it was killed, and the whole lines that it had printed."""
    with open(folder / "trace.csv", "rb") as trace, open(folder / "out.txt", "wb") as out:
        run = subprocess.Popen([wol, "replay", "--each", *words], cwd=folder, stdin=trace, stdout=out, stderr=subprocess.DEVNULL)
        try:
            run.wait(delay)
        except subprocess.TimeoutExpired:
            run.kill()
        run.wait()
    if run.returncode not in (0, -9):
        raise AssertionError(f"status {run.returncode}")
    text = (folder / "out.txt").read_text()
    return run.returncode == -9, text[: text.rfind("\n") + 1].splitlines()


def look(wol: str, folder: Path, config: Config, before: list, asked: list[Request], lines: list[str], stopped: bool) -> list:
    """Compares what a replay printed and left with what it may; answers the arrays that the next round begins with."""
    printed = [it for it in lines if it.startswith("read ")]
    expected = read_lines(config, before, asked)
    assert printed == expected[: len(printed)], "a read line isn't that of the plain array"
    assert stopped or len(printed) == len(expected), "a read line is missing"
    # the lines of a window are printed once the whole window was answered
    through = (int(printed[-1].split()[1]) if printed else 0) if stopped else asked[-1].line if asked else 0
    after, text = recovered(folder, config), check_text(config, opened(folder, config))
    for number, volume in enumerate(config.volumes):
        writes = [it for it in asked if it.volume == number and it.write]
        acknowledged = sum(it.line <= through for it in writes)
        assert is_cut(before[number], writes, acknowledged, after[number]), f"{volume.name} lost or gained something"
    told = call(wol, folder, "check")
    assert (told.returncode, told.stdout) == (0, text), f"check ends with {told.returncode}: {told.stdout}"
    assert recovered(folder, config) == after, "check changed what the images stand for"
    return after


def kill(wol: str, folder: Path, rng: random.Random, *words: str) -> bool:
    """Kills a short command; whether it was still at work."""
    run = subprocess.Popen([wol, *words], cwd=folder, stdin=subprocess.DEVNULL, stdout=subprocess.DEVNULL, stderr=subprocess.DEVNULL)
    time.sleep(rng.uniform(0, 0.02))
    run.kill()
    run.wait()
    assert run.returncode in (0, 15, -9), f"{words} ends with {run.returncode}"
    return run.returncode == -9


def kill_keeping(wol: str, folder: Path, config: Config, rng: random.Random, arrays: list) -> bool:
    """Kills a command that may change where content lies, and not what it is."""
    two = [it.name for it in rng.sample(config.volumes, 2)]
    words = rng.choice((["check"], ["dump"], ["clean"], ["clean"], ["view-add", *two], ["view-remove", *two]))
    stopped = kill(wol, folder, rng, *words)
    assert recovered(folder, config) == arrays, f"{words} changed a volume"
    return stopped


def kill_format(wol: str, folder: Path, config: Config, rng: random.Random) -> bool:
    """Kills a format: an image is as it was, has no label, or is whole. What a log that is as it was holds of another volume stays."""
    names = [f"{it.name}.vol" for it in config.volumes]
    old = [(folder / it).read_bytes() for it in names]
    stopped = kill(wol, folder, rng, "format")
    left = [(folder / it).read_bytes() for it in names]
    volumes = opened(folder, config)
    told, text = call(wol, folder, "check"), check_text(config, volumes)
    assert told.stdout == text, f"check says {told.stdout}, and not {text}"
    with tempfile.TemporaryDirectory(dir=folder) as other:
        shutil.copy(folder / "wol.toml", other)
        assert call(wol, Path(other), "format").returncode == 0
        new = [(Path(other) / it).read_bytes() for it in names]
    for number, (volume, it) in enumerate(zip(config.volumes, volumes)):
        # an image that was emptied, and not yet made long
        if isinstance(it, Opened) or it.text not in (f"damaged 0 of {volume.name}", "length 0"):
            assert left[number] in (old[number], new[number]), f"{volume.name} is neither old nor new"
    assert call(wol, folder, "format").returncode == 0, "what a stop left isn't formatted"
    assert [(folder / it).read_bytes() for it in names] == new, "what is formatted then is other than over nothing"
    return stopped


# How long a replay lasts, as far as this process has seen.
LASTS = [0.05]


def one_round(wol: str, folder: Path, config: Config, rng: random.Random, arrays: list, counts: Counter) -> list:
    """A replay that is killed at a random moment, and then a command that keeps what it left; the arrays afterwards."""
    trace, asked = random_trace(rng, config, rng.choice((20, 200, 1500)))
    (folder / "trace.csv").write_bytes(trace)
    options = ["--workers", rng.choice("14"), "--reclaim", rng.choice(MODES)]
    start = time.monotonic()
    stopped, lines = killed(wol, folder, options, rng.uniform(0, 1.3 * LASTS[0]))
    LASTS[0] = 1.2 * LASTS[0] if stopped else time.monotonic() - start
    after = look(wol, folder, config, arrays, asked, lines, stopped)
    counts["replays"] += 1
    counts["replays killed"] += stopped
    counts["kills among writes"] += stopped and after != arrays
    counts["other commands killed"] += kill_keeping(wol, folder, config, rng, after)
    return after


class Devices(contextlib.AbstractContextManager):
    """Loop devices in the place of the images of a folder, as long as these are, each by a link."""

    def __init__(self, folder: Path):
        self.folder, self.made = folder, []

    def attach(self) -> None:
        (self.folder / "disks").mkdir()
        for path in sorted(self.folder.glob("*.vol")):
            disk = path.rename(self.folder / "disks" / path.name)
            found = subprocess.run(["losetup", "-f", "--show", disk], check=True, capture_output=True, text=True)
            self.made.append(found.stdout.strip())
            path.symlink_to(self.made[-1])

    def __exit__(self, *_) -> None:
        for device in self.made:
            subprocess.run(["losetup", "-d", device], check=True)


def has_devices() -> bool:
    """Whether there are loop devices to be had."""
    if os.geteuid() or not shutil.which("losetup"):
        return False
    with tempfile.TemporaryDirectory() as folder, Devices(Path(folder)) as devices:
        (Path(folder) / "probe.vol").write_bytes(bytes(4096))
        try:
            devices.attach()
        except subprocess.CalledProcessError:
            return False
        return True


def one_folder(wol: str, seed: int, root: str | None, on_devices: bool, number: int) -> tuple[Counter, str]:
    """Replays over one folder of images, each over what the one before left: what was counted, or what went wrong."""
    rng, counts = random.Random(f"{seed} {number}"), Counter()
    folder = Path(tempfile.mkdtemp(prefix="wol-kills-", dir=root))
    text = random_config(rng)
    config = read_config(text)
    (folder / "wol.toml").write_text(text)
    try:
        assert call(wol, folder, "format").returncode == 0
        with Devices(folder) as devices:
            if on_devices:
                devices.attach()
            arrays = recovered(folder, config)
            for _ in range(8):
                arrays = one_round(wol, folder, config, rng, arrays, counts)
            counts["formats killed"] += kill_format(wol, folder, config, rng)
    except (AssertionError, subprocess.TimeoutExpired) as wrong:
        return Counter(), f"folder {number} of seed {seed} went wrong: {wrong}; it is {folder}"
    shutil.rmtree(folder)
    return counts, ""


def until(goals: dict[str, int], jobs: int, work) -> Counter | None:
    """Works on numbered folders side by side until so much was counted; nothing where one went wrong, which is said."""
    counts, first = Counter(), 0
    with ProcessPoolExecutor(jobs) as pool:
        while any(counts[what] < goal for what, goal in goals.items()):
            for found, wrong in pool.map(work, range(first, first + 2 * jobs)):
                if wrong:
                    pool.shutdown(cancel_futures=True)
                    print(wrong, file=sys.stderr)
                    return None
                counts += found
            first += 2 * jobs
    return counts


def main() -> int:
    words = argparse.ArgumentParser()
    words.add_argument("wol")
    words.add_argument("--kills", type=int, default=50)
    words.add_argument("--jobs", type=int, default=os.cpu_count())
    words.add_argument("--seed", type=int, default=1)
    words.add_argument("--folder", help="where images are made; a memory file system and a disk show different stops")
    words.add_argument("--devices", action="store_true")
    asked_for = words.parse_args()
    if asked_for.devices and not has_devices():
        print("skipped: loop devices need root and losetup")
        return 0
    wol = str(Path(asked_for.wol).resolve())
    work = partial(one_folder, wol, asked_for.seed, asked_for.folder, asked_for.devices)
    counts = until({"kills among writes": asked_for.kills}, 1 if asked_for.devices else asked_for.jobs, work)
    if counts is None:
        return 1
    told = ", ".join(f"{count} {what}" for what, count in counts.items())
    print(f"{told}: each printed line and each array is as it may be")
    return 0


if __name__ == "__main__":
    sys.exit(main())
