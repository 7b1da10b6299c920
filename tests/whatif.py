"""Compares `wol whatif` with a model of it, byte for byte, and with replays on new images.

usage: whatif.py WOL [--tries N] [--replays N] [--seed S] [--folder F]

First three traces that were worked out by hand. Then N random configurations and traces, each with and without `--long`, `--volumes` and
`--timeout`: output and standard error are those of policies.py. Then N random configurations in which no log is ever full: what `replay`
prints of its volumes and in all is what `whatif --long --volumes` prints of the views of wol.toml. It prints its counts, and ends with 1
and the folder of the first try that went wrong.
"""

import argparse
import random
import re
import shutil
import subprocess
import sys
import tempfile
from collections import Counter
from pathlib import Path

from policies import Config, notes, read_config, run, whatif

TOP = "segment_blocks = 16\ntimeout_ms = 60000\nawake_mw = 8000\nstandby_mw = 1000\nwake_mj = 50000\n"
# Three volumes of 1000 blocks with 4 segments each; two log on others.
THREE = TOP + "".join(
    f'[[volume]]\nname = "{host}0"\nhost = "{host}"\ndisk = 0\nhome_blocks = 1000\nsegments = 4\nview = [{view}]\n'
    for host, view in (("usr", '"web0"'), ("web", ""), ("src", '"web0", "usr0"'))
)
# Two of them log a write while their disks sleep.
OFFLOADS = b"""\
128166372000000000,usr,0,Write,0,4096,100
128166372000000000,web,0,Write,8192,1024,100
128166372500000000,web,0,Read,8192,1024,100
128166373000000000,web,0,Write,0,512,100
128166373005000000,usr,0,Write,0,1024,100
128166373200000000,usr,0,Read,0,1024,100
128166373500000000,src,0,Write,5120,512,100
128166374000000000,usr,0,Read,1024,1024,100
128166374300000000,usr,0,Write,0,512,100
128166375000000000,web,0,Read,0,512,100
128166375200000000,src,0,Read,5120,512,100
128166376000000000,src,0,Read,5120,1024,100
"""
OFFLOADS_LINES = """\
lines 12 blank 0 skipped 0
span 4000000000
spindown wakes 6 sleeps 8 energy 5910000
spindown reads 6 wait 4 p99 10000 p999 10000 sum 40000
spindown writes 6 wait 2 p99 10000 p999 10000 sum 20000
spindown logged 0 blocks 0 segments 0
all wakes 4 sleeps 5 energy 5250000
all reads 6 wait 3 p99 10000 p999 10000 sum 30000
all writes 6 wait 0 p99 0 p999 0 sum 0
all logged 2 blocks 3 segments 2
"""
# Of samples/offload.csv.
SAMPLE_LINES = """\
spindown reads 48 wait 3 p99 10000 p999 10000 sum 30000
spindown writes 18 wait 16 p99 10000 p999 10000 sum 160000
all reads 48 wait 1 p99 10000 p999 10000 sum 10000
all writes 18 wait 0 p99 0 p999 0 sum 0
all logged 17 blocks 92 segments 2
"""
# A read 3.5 s behind the one that wakes the disk waits for the rest, and a write 10 s behind it doesn't wait.
PARTLY = b"""\
128166372000000000,usr,0,Read,0,512,100
128166373000000000,usr,0,Read,0,512,100
128166373035000000,usr,0,Read,0,512,100
128166373100000000,usr,0,Write,0,512,100
"""
PARTLY_LINES = """\
spindown reads 3 wait 2 p99 10000 p999 10000 sum 16500
spindown writes 1 wait 0 p99 0 p999 0 sum 0
"""


class Try:
    """A folder with a configuration, and a trace for it."""

    def __init__(self, wol: str, folder: Path, config: str, trace: bytes):
        self.wol, self.folder, self.config, self.trace = wol, folder, read_config(config), trace
        (folder / "wol.toml").write_text(config)
        (folder / "trace.csv").write_bytes(trace)

    def run(self, *words: str) -> subprocess.CompletedProcess:
        ran = subprocess.run([self.wol, *words], cwd=self.folder, input=self.trace, capture_output=True, timeout=120)
        assert ran.returncode == 0, f"{' '.join(words)} ends with {ran.returncode}: {ran.stdout[-200:]!r}"
        return ran

    def compare(self, *options: str, timeout_ms: int | None = None) -> None:
        """The program and the model tell the same."""
        words = ["whatif", *options]
        config = self.config if timeout_ms is None else self.config._replace(timeout_ms=timeout_ms)
        ran = self.run(*words)
        wanted = whatif(config, self.trace, long="--long" in options, volumes="--volumes" in options)
        for found, told in ((ran.stdout, wanted.out), (ran.stderr, wanted.notes)):
            assert found == told.encode(), f"{' '.join(words)} tells {first_other(found.decode(errors='replace'), told)}"


def first_other(found: str, wanted: str) -> str:
    """The first line that differs."""
    found_lines, lines = found.splitlines(), wanted.splitlines()
    place = next((at for at, pair in enumerate(zip(found_lines, lines)) if pair[0] != pair[1]), min(len(found_lines), len(lines)))
    return f"{''.join(found_lines[place : place + 1])!r}, and not {''.join(lines[place : place + 1])!r}"


# ---- What was worked out by hand


def by_hand(wol: str, folder: Path, counts: Counter) -> None:
    samples = Path(__file__).parent.parent / "samples"
    sample = (samples / "wol.toml").read_text(), (samples / "offload.csv").read_bytes()
    for config, trace, lines in ((THREE, OFFLOADS, OFFLOADS_LINES), (*sample, SAMPLE_LINES), (THREE, PARTLY, PARTLY_LINES)):
        it = Try(wol, folder, config, trace)
        for told in (it.run("whatif", "--long").stdout.decode(), whatif(it.config, trace, long=True).out):
            missing = [line for line in lines.splitlines() if line not in told.splitlines()]
            assert not missing, f"{missing[0]!r} isn't told"
        counts["traces worked out by hand"] += 1


# ---- Random configurations and traces


def random_config(rng: random.Random, room: bool = False) -> str:
    """Some volumes, of which some share a host; with room each has many segments."""
    count = rng.randint(1, 6)
    names, hosts = [f"v{it}" for it in range(count)], [f"h{rng.randrange(count)}" for _ in range(count)]
    rows = [f"segment_blocks = {rng.choice((4, 8, 16, 130))}\n"]
    rows += [f"timeout_ms = {rng.choice((1, 2_000, 10_000, 60_000))}\n"] * (rng.random() < 0.8)
    rows += [f"wake_ms = {rng.choice((0, 1, 77, 3_000, 10_000, 600_000))}\n"] * (rng.random() < 0.6)
    rows += [f"awake_mw = {rng.randrange(20_000)}\nstandby_mw = {rng.randrange(2_000)}\nwake_mj = {rng.randrange(10**6)}\n"]
    for place, name in enumerate(names):
        others = [it for it in names if it != name]
        view = ", ".join(f'"{it}"' for it in rng.sample(others, rng.randint(0, len(others))))
        rows.append(f'[[volume]]\nname = "{name}"\nhost = "{hosts[place]}"\ndisk = {place}\n')
        segments = 200 if room else rng.randrange(20)
        rows.append(f"home_blocks = {rng.choice((1, 20, 100, 300))}\nsegments = {segments}\nview = [{view}]\n")
    return "".join(rows)


def random_line(rng: random.Random, config: Config, moment: int) -> bytes:
    volume = rng.choice(config.volumes)
    host, disk = (volume.host, volume.disk) if rng.random() < 0.9 else rng.choice((("h0", 77), ("other", 0), ("\u00e9", 5)))
    kind = "Write" if rng.random() < 0.6 else "Read"
    offset = rng.randrange(2 * volume.home_blocks) * 512 + rng.choice((0, 0, 0, 100))
    size = rng.randrange(rng.choice((2, 12, 12, 300))) * 512 + rng.choice((0, 0, 7))
    return f"{moment},{host},{disk},{kind},{offset},{size},100".encode() + rng.choice((b"\n", b"\n", b"\n", b"\r\n"))


def random_trace(rng: random.Random, config: Config, lines: int) -> bytes:
    """Lines with quiet times between them, some blank, some of no volume, some back in time."""
    moment, found = rng.choice((0, 128166372000000000)), []
    for _ in range(lines):
        moment += rng.choice((0, 1_000, 3_000_000, 20_000_000, 20_000_000, 700_000_000))
        back = rng.choice((0, 15_000_000, 2_000_000_000)) if rng.random() < 0.05 else 0
        found.append(random_line(rng, config, max(0, moment - back)) if rng.random() < 0.97 else b"\n")
    return b"".join(found)


def one_try(wol: str, folder: Path, rng: random.Random, counts: Counter) -> None:
    config = random_config(rng)
    it = Try(wol, folder, config, random_trace(rng, read_config(config), rng.choice((0, 1, 30, 120, 300))))
    for options in ((), ("--long",), ("--volumes",), ("--volumes", "--long")):
        it.compare(*options)
    timeout_ms = rng.choice((1, 30_000, 86_400_000))
    it.compare("--long", "--timeout", str(timeout_ms), timeout_ms=timeout_ms)
    it.compare(f"--timeout={timeout_ms}", timeout_ms=timeout_ms)
    counts["traces as the model has them"] += 1


# ---- Replays on new images


def used_by(text: str, front: str) -> list[str]:
    """What lines that begin so tell of the uses of disks."""
    return re.findall(f"^{front}((?:volume [^ ]+ )?wakes .*?energy [0-9]+)", text, re.MULTILINE)


def one_replay(wol: str, folder: Path, rng: random.Random, counts: Counter) -> None:
    config = random_config(rng, room=True)
    it = Try(wol, folder, config, random_trace(rng, read_config(config), 300))
    trace, (views,) = run(it.config, it.trace, ("views",))
    if not views.has_room():
        counts["replays passed over, as a log would be full"] += 1
        return
    told = it.run("whatif", "--long", "--volumes").stdout.decode()
    it.run("format")
    ran = it.run("replay")
    replayed = ran.stdout.decode()
    found, wanted = used_by(replayed, "") + used_by(replayed, "total "), used_by(told, "views ")
    assert found == wanted[1:] + wanted[:1], f"replay has {found}, and views {wanted}"
    assert ran.stderr.decode() == notes(trace, of_whatif=False), f"replay tells {ran.stderr!r}"
    counts["replays as views has them"] += 1


# ---- All


def main() -> int:
    words = argparse.ArgumentParser()
    words.add_argument("wol")
    words.add_argument("--tries", type=int, default=10)
    words.add_argument("--replays", type=int, default=5)
    words.add_argument("--seed", type=int, default=1)
    # syncs cost nothing in memory
    words.add_argument("--folder", default="/dev/shm" if Path("/dev/shm").is_dir() else None)
    asked_for = words.parse_args()
    wol, counts = str(Path(asked_for.wol).resolve()), Counter()
    folder = Path(tempfile.mkdtemp(prefix="wol-whatif-", dir=asked_for.folder))
    what = "what was worked out by hand"
    try:
        by_hand(wol, folder, counts)
        for number in range(asked_for.tries):
            what = f"try {number} of seed {asked_for.seed}"
            one_try(wol, folder, random.Random(f"{asked_for.seed} {number}"), counts)
        number = 0
        while counts["replays as views has them"] < asked_for.replays:
            what = f"replay {number} of seed {asked_for.seed}"
            one_replay(wol, folder, random.Random(f"{asked_for.seed} replay {number}"), counts)
            number += 1
    except (AssertionError, subprocess.TimeoutExpired) as wrong:
        print(f"{what} went wrong: {wrong}; the folder is {folder}", file=sys.stderr)
        return 1
    shutil.rmtree(folder)
    print(", ".join(f"{count} {what}" for what, count in sorted(counts.items())))
    return 0


if __name__ == "__main__":
    sys.exit(main())
