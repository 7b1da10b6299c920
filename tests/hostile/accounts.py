"""Compares what `replay` and `soak` use of the disks with what `whatif` reckons without images.

usage: accounts.py WOL [--configs N] [--lines N] [--jobs J] [--seed S] [--folder F]

In each of N configurations all volumes log on all others, in the order of the configuration. On new images `replay` and `soak` of so many
generated lines, with any number of workers, then print the spin-ups, spin-downs and energy that `whatif` prints of the policy `all`. It
prints its counts, and ends with 1 and the folder of the first configuration that went wrong.

No log is ever full: behind each window of requests every record on an awake logger keeps a block that no newer record has, so a volume
holds there at most as many segments as it has blocks, and those of a window.
"""

import argparse
import os
import random
import re
import shutil
import subprocess
import sys
import tempfile
from collections import Counter
from functools import partial
from pathlib import Path

from kills import until


SEGMENTS = 1024
# The blocks of all volumes together. The rest of the segments is more than the writes of a window of generated lines take.
BLOCKS = 700


def random_config(rng: random.Random) -> str:
    count = rng.randint(2, 17)
    names = [f"v{it}" for it in range(count)]
    rows = [f"segment_blocks = {rng.choice((8, 16, 32))}\ntimeout_ms = {rng.choice((5_000, 20_000, 60_000))}\n"]
    rows.append(f"awake_mw = {rng.randrange(20_000)}\nstandby_mw = {rng.randrange(2_000)}\nwake_mj = {rng.randrange(10**6)}\n")
    for place, name in enumerate(names):
        view = ", ".join(f'"{it}"' for it in names if it != name)
        rows.append(f'[[volume]]\nname = "{name}"\nhost = "h{place % 5}"\ndisk = {place}\n')
        rows.append(f"home_blocks = {rng.randint(1, BLOCKS // count)}\nsegments = {SEGMENTS}\nview = [{view}]\n")
    return "".join(rows)


def numbers(text: bytes, word: str) -> str:
    """What the line that begins so tells of the disks."""
    return re.search(f"^{word} (wakes .*)$", text.decode(), re.MULTILINE).group(1)


def one_config(wol: str, lines: int, seed: int, root: str | None, number: int) -> tuple[Counter, str]:
    """What was counted of a configuration, or what went wrong."""
    rng = random.Random(f"{seed} {number}")
    folder = Path(tempfile.mkdtemp(prefix="wol-accounts-", dir=root))
    (folder / "wol.toml").write_text(random_config(rng))
    trace, counts = folder / "trace.csv", Counter()

    def run(*words: str, given: Path | str = os.devnull) -> bytes:
        with open(given, "rb") as source:
            ran = subprocess.run([wol, *words], cwd=folder, stdin=source, capture_output=True, timeout=1200)
        assert ran.returncode == 0, f"{' '.join(words)} ends with {ran.returncode}: {ran.stdout[-200:]!r}"
        return ran.stdout

    try:
        generated = (str(rng.randrange(2**32)), str(lines))
        trace.write_bytes(run("gen", *generated))
        wanted = numbers(run("whatif", given=trace), "all")
        for words, given in (["replay"], trace), (["soak", *generated], os.devnull):
            run("format")
            found = numbers(run(*words, "--workers", rng.choice("124"), given=given), "total")
            assert found == wanted, f"{' '.join(words)} has {found}, and `all` {wanted}"
        counts += Counter({"configurations": 1, "spin-ups": int(wanted.split()[1])})
    except (AssertionError, subprocess.TimeoutExpired) as wrong:
        return Counter(), f"configuration {number} of seed {seed} went wrong: {wrong}; its folder is {folder}"
    shutil.rmtree(folder)
    return counts, ""


def main() -> int:
    words = argparse.ArgumentParser()
    words.add_argument("wol")
    words.add_argument("--configs", type=int, default=10)
    words.add_argument("--lines", type=int, default=2_000)
    words.add_argument("--jobs", type=int, default=os.cpu_count())
    words.add_argument("--seed", type=int, default=1)
    # syncs cost nothing in memory
    words.add_argument("--folder", default="/dev/shm" if Path("/dev/shm").is_dir() else None)
    asked_for = words.parse_args()
    wol = str(Path(asked_for.wol).resolve())
    work = partial(one_config, wol, asked_for.lines, asked_for.seed, asked_for.folder)
    counts = until({"configurations": asked_for.configs}, asked_for.jobs, work)
    if counts is None:
        return 1
    told = ", ".join(f"{count} {what}" for what, count in counts.items())
    print(f"{told}: each replay and each soak used what was reckoned")
    return 0


if __name__ == "__main__":
    sys.exit(main())
