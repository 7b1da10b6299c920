"""Kills the server that has a logger's image, while that logger takes the writes of two other volumes.

usage: remote.py WOL [--kills N] [--seed S]

Three volumes: `a` and `b` log on `c`, whose image is a file of nbdfuse over a server, nbdkit. Each round replays a random trace with
`--each` and kills the server with SIGKILL at a random moment. A run that notices ends with 4, and names a part of `c`. While the server is away
`check` tells that `c` can't be had, and that `a` and `b` lack their logger; their images stay as they are. Then the server is there again:
each volume has what the printed lines say and `check` agrees, and the next round goes on with that. N counts the kills that a run
noticed. It prints its counts, and ends with 1 and the folder of the round that went wrong. It needs nbdkit, nbdfuse, /dev/fuse and
root: elsewhere it is skipped, which is said.
"""

import argparse
import os
import random
import shutil
import signal
import subprocess
import sys
import tempfile
import time
from collections import Counter
from pathlib import Path

from files import look_after, told
from images import Config, check_text, opened, read_config, recovered
from kills import MODES, call
from model import random_trace

TEXT = "segment_blocks = 16\nawake_mw = 8000\nstandby_mw = 1000\nwake_mj = 50000\n" + "".join(
    f'[[volume]]\nname = "{name}"\nhost = "{name}"\ndisk = 0\nhome_blocks = 100\nsegments = {segments}\nview = [{view}]\n'
    for name, segments, view in (("a", 1, '"c"'), ("b", 1, '"c"'), ("c", 12, ""))
)


class Server:
    """nbdkit over a file, and nbdfuse over an image, which then is that file."""

    def __init__(self, room: Path, image: Path):
        self.room, self.image, self.socket, self.disk = room, image, room / "socket", room / "disk"
        self.nbdkit, self.nbdfuse = None, None

    def __enter__(self):
        self.socket.unlink(missing_ok=True)
        words = ["nbdkit", "-f", "-U", self.socket, "file", self.disk]
        self.nbdkit = subprocess.Popen(words, stdin=subprocess.DEVNULL, stderr=subprocess.DEVNULL)
        until(self.socket.exists)
        for _ in range(5):
            if self.mounts():
                return self
        self.kill()
        raise OSError("nbdfuse doesn't start")

    def mounts(self) -> bool:
        """Whether nbdfuse starts. At times it ends at once, by an assertion of its own."""
        words = ["nbdfuse", self.image, f"nbd+unix:///?socket={self.socket}"]
        with open(self.room / "nbdfuse.log", "ab") as log:
            self.nbdfuse = subprocess.Popen(words, stdin=subprocess.DEVNULL, stderr=log)
        until(lambda: os.path.ismount(self.image) or self.nbdfuse.poll() is not None)
        return os.path.ismount(self.image)

    def kill(self) -> None:
        if self.nbdkit.poll() is None:
            self.nbdkit.send_signal(signal.SIGKILL)
        self.nbdkit.wait()

    def __exit__(self, *_) -> None:
        self.kill()
        subprocess.run(["umount", self.image], capture_output=True)
        try:
            self.nbdfuse.wait(5)
        except subprocess.TimeoutExpired:
            subprocess.run(["umount", "-l", self.image], capture_output=True)
            self.nbdfuse.kill()
            self.nbdfuse.wait()


def until(holds) -> None:
    """Waits for it, at most ten seconds."""
    for _ in range(1000):
        if holds():
            return
        time.sleep(0.01)
    raise OSError("the server doesn't start")


# How long a replay lasts, as far as is seen.
LASTS = [0.05]


def replayed(wol: str, folder: Path, rng: random.Random, server: Server, trace: bytes) -> subprocess.CompletedProcess:
    """A replay in which the server is killed."""
    (folder / "trace.csv").write_bytes(trace)
    words = [wol, "replay", "--each", "--workers", rng.choice("14"), "--reclaim", rng.choice(MODES)]
    with open(folder / "trace.csv", "rb") as given:
        begun = time.monotonic()
        run = subprocess.Popen(words, cwd=folder, stdin=given, stdout=subprocess.PIPE, stderr=subprocess.DEVNULL)
        time.sleep(rng.uniform(0, 1.2 * LASTS[0]))
        server.kill()
        out, _ = run.communicate(timeout=120)
    LASTS[0] = 1.2 * LASTS[0] if run.returncode == 6 else time.monotonic() - begun if not run.returncode else LASTS[0]
    return subprocess.CompletedProcess(words, run.returncode, out, b"")


def one_round(wol: str, folder: Path, config: Config, rng: random.Random, place: Path, before: list, counts: Counter) -> list:
    trace, asked = random_trace(rng, config, rng.choice((60, 200, 600)))
    own = [folder / "a.vol", folder / "b.vol"]
    with Server(place, folder / "c.vol") as server:
        ran = replayed(wol, folder, rng, server, trace)
        told(ran, 0, 4, 6)
        last = ran.stdout.decode().splitlines()[-1:]
        assert ran.returncode != 4 or last[0].startswith("fault 4 c disk ") or last[0].endswith(" of c"), f"the run says {last}"
        counts[f"runs that ended with {ran.returncode}"] += 1
        images = [it.read_bytes() for it in own]
        away = call(wol, folder, "check")
        lines = [it for it in away.stdout.splitlines() if it[:2] in ("a ", "b ", "c ")]
        assert away.returncode in (4, 6) and lines[:2] == ["a logger 2 missing", "b logger 2 missing"], f"without the server: {away.stdout}"
        assert lines[2].startswith("c disk "), f"without the server: {away.stdout}"
        assert [it.read_bytes() for it in own] == images, "check without the server changed an image"
    with Server(place, folder / "c.vol"):
        after = recovered(folder, config)
        look_after(config, before, asked, ran, after)
        there = call(wol, folder, "check")
        assert there.stdout == check_text(config, opened(folder, config)), f"with the server: {there.stdout}"
        assert recovered(folder, config) == after, "check changed a volume"
    counts["kills that a run noticed"] += ran.returncode == 4
    return after


def one_folder(wol: str, rng: random.Random, room: Path, most: int, counts: Counter) -> None:
    """Rounds over one folder of images, each over what the one before left."""
    folder, config = room / "bay", read_config(TEXT)
    folder.mkdir()
    (folder / "wol.toml").write_text(TEXT)
    assert call(wol, folder, "format").returncode == 0
    shutil.copy(folder / "c.vol", room / "disk")
    arrays = recovered(folder, config)
    for _ in range(10):
        if counts["kills that a run noticed"] < most:
            arrays = one_round(wol, folder, config, rng, room, arrays, counts)


def can_mount() -> bool:
    return not os.geteuid() and os.path.exists("/dev/fuse") and all(map(shutil.which, ("nbdkit", "nbdfuse", "umount")))


def main() -> int:
    words = argparse.ArgumentParser()
    words.add_argument("wol")
    words.add_argument("--kills", type=int, default=100)
    words.add_argument("--seed", type=int, default=1)
    asked_for = words.parse_args()
    if not can_mount():
        print("skipped: an image behind a server needs root, nbdkit, nbdfuse and /dev/fuse")
        return 0
    wol, counts, number = str(Path(asked_for.wol).resolve()), Counter(), 0
    while counts["kills that a run noticed"] < asked_for.kills:
        room = Path(tempfile.mkdtemp(prefix="wol-remote-"))
        try:
            one_folder(wol, random.Random(f"{asked_for.seed} {number}"), room, asked_for.kills, counts)
        except (AssertionError, OSError, subprocess.TimeoutExpired) as wrong:
            print(f"folder {number} of seed {asked_for.seed} went wrong: {wrong}; it is {room}; {dict(counts)}", file=sys.stderr)
            return 1
        shutil.rmtree(room)
        number += 1
    print(", ".join(f"{count} {what}" for what, count in sorted(counts.items())) + ": nothing that was answered is lost")
    return 0


if __name__ == "__main__":
    sys.exit(main())
