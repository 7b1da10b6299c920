"""Gives the program images, configurations and traces that nobody would write.

usage: mutations.py WOL [--images N] [--lines N] [--configs N] [--jobs J] [--seed S] [--folder F]

It makes sound images with records in their logs and spoils N of them, in copies: bits, blocks of zeros, blocks from elsewhere, heads
with another owner, version, place or mask, cut and grown files. Of each copy `check`, `dump`, a replay and a last `check` have to
print what a reader of this folder's own (images.py) and plain arrays (model.py) make of it, and of each fourth `clean` has to keep the
arrays. It spoils N lines of traces, of which `solo` has to print what model.py makes of them, and N configurations, of which `gen` has
to say whether and why they are none. The program always ends by itself. A seed gives the same inputs each time, whatever J is. It
prints its counts, and ends with 1 and the folder of the first input that went wrong.
"""

import argparse
import os
import random
import shutil
import struct
import subprocess
import sys
import tempfile
from collections import Counter
from concurrent.futures import ProcessPoolExecutor
from functools import partial
from pathlib import Path

import configs
from images import BLOCK, VERSIONS, Config, Opened, check_text, dump_text, first_refused, opened, padded, read_config
from kills import MODES, call, random_config
from model import Request, is_cut, random_trace, read_line, read_lines, solo_text, write_into
from spoiled_lines import VOLUME, spoiled_line

COPIES = 25
TRACES = 200
ENDS = (0, 1, 2, VERSIONS - 1, VERSIONS)


# ---- Images


def forged_head(rng: random.Random) -> bytes:
    """A head whose numbers stand at the ends of their ranges."""
    owner, count = rng.choice((0, 1, 2, 3, 2**32 - 1)), rng.choice((0, 1, 2, 127, 128, 129))
    version, lbn = rng.choice(ENDS), rng.choice((0, 1, 39, 299, 2**32 - 1, 2**32, 2**63))
    numbers = struct.pack("<IQQI", owner, version, lbn, count)
    mask = rng.choice((0, 1, (1 << min(count, 128)) - 1, 2**128 - 1)).to_bytes(16, "little")
    forms = [b"WOLREC01" + struct.pack("<I", rng.choice((0, 1, 2, 3))) + numbers, b"WOLREC02" + bytes(4) + numbers + mask]
    forms += [b"WOLSEGF1", b"WOLSEGO1" + struct.pack("<I", owner), b"WOLVIEW1" + struct.pack("<III", 2, owner, owner)]
    return padded(rng.choice(forms))


def changed_head(rng: random.Random, head: bytes) -> bytes:
    """A head with one of its numbers changed."""
    how = rng.randrange(5)
    if how == 0:
        return head[:16] + struct.pack("<Q", rng.choice((*ENDS, struct.unpack("<Q", head[16:24])[0] ^ 1))) + head[24:]
    if how == 1:
        return head[:12] + struct.pack("<I", rng.randrange(5)) + head[16:]
    if how == 2:
        return head[:24] + struct.pack("<Q", rng.randrange(320)) + head[32:]
    if how == 3:
        return head[:32] + struct.pack("<I", rng.randrange(6)) + head[36:]
    return head[:36] + rng.randbytes(1) + head[37:]


def telling_blocks(config: Config, number: int) -> list[int]:
    """The blocks of an image that aren't data of its own volume."""
    start = config.first_block(number, 0)
    return [0, 1, *range(start, start + config.volumes[number].segments * config.segment_blocks)]


def spoil_images(rng: random.Random, config: Config, images: list[bytearray]) -> None:
    heads = [(data, at) for data in images for at in range(0, len(data), BLOCK) if data[at : at + 6] == b"WOLREC"]
    for _ in range(rng.randint(1, 4)):
        number, other = rng.randrange(len(images)), rng.randrange(len(images))
        data, source = images[number], images[other]
        at, there = (BLOCK * rng.choice(telling_blocks(config, it)) for it in (number, other))
        if rng.random() < 0.2:
            at = rng.randrange(max(1, len(data) // BLOCK)) * BLOCK
        how = rng.choice("bbzsscchhhhfffgk")
        if how == "b":
            data[min(at + rng.randrange(BLOCK), len(data) - 1)] ^= 1 << rng.randrange(8)
        elif how == "z":
            data[at : at + BLOCK] = bytes(BLOCK)
        elif how == "s":
            data[at : at + BLOCK], source[there : there + BLOCK] = source[there : there + BLOCK], data[at : at + BLOCK]
        elif how == "c":
            data[at : at + BLOCK] = source[there : there + BLOCK]
        elif how == "h" and heads:
            data, at = rng.choice(heads)
            if at + BLOCK <= len(data):
                data[at : at + BLOCK] = changed_head(rng, bytes(data[at : at + BLOCK]))
        elif how == "f":
            data[at : at + BLOCK] = forged_head(rng)
        elif how == "g":
            data += bytes(rng.randrange(1, 3000))
        elif how == "k":
            del data[max(1, len(data) - rng.randrange(1, 3000)) :]


def replayed(wol: str, folder: Path, trace: bytes, *words: str) -> tuple[int, str]:
    ran = subprocess.run([wol, "replay", *words], cwd=folder, input=trace, capture_output=True, timeout=120)
    return ran.returncode, ran.stdout.decode(errors="replace")


def expect(what: str, wanted: tuple[int, str], found: tuple[int, str]) -> None:
    assert found == wanted, f"{what} ends with {found[0]} and {found[1]!r}, and not with {wanted[0]} and {wanted[1]!r}"


def has_versions(volume: Opened, number: int, asked: list[Request]) -> bool:
    """Whether its versions suffice, however many of its writes go to logs."""
    return volume.next_version + sum(it.write and it.volume == number for it in asked) <= VERSIONS


def try_replay(wol: str, folder: Path, config: Config, rng: random.Random) -> None:
    """A replay is refused for the first volume that isn't in order, or answers as plain arrays do, as far as versions go."""
    volumes, (trace, asked) = opened(folder, config), random_trace(rng, config, 20)
    ran = replayed(wol, folder, trace, "--each", "--reclaim", rng.choice(MODES), "--workers", rng.choice("14"))
    if wrong := first_refused(config, volumes):
        expect("replay", (wrong[1].status, f"fault {wrong[1].status} {wrong[0]} {wrong[1].text}\n"), ran)
        return
    before = [list(it.array) for it in volumes]
    printed = [it for it in ran[1].splitlines() if it.startswith("read ")]
    wanted = read_lines(config, before, asked)
    if all(has_versions(it, number, asked) for number, it in enumerate(volumes)):
        assert ran[0] == 0 and printed == wanted, f"replay ends with {ran[0]} and {ran[1]!r}"
        acknowledged = len(asked)
    else:
        spent = [f"fault 11 versions {it.name}" for it in config.volumes]
        assert ran[0] == 0 or ran[0] == 11 and ran[1].splitlines()[-1] in spent, f"replay ends with {ran[0]} and {ran[1]!r}"
        acknowledged = 0 if ran[0] else len(asked)
    after = [it.array if isinstance(it, Opened) else [] for it in opened(folder, config)]
    for number, array in enumerate(after):
        writes = [it for it in asked if it.volume == number and it.write]
        if acknowledged:
            for it in writes:
                write_into(before[number], it)
            assert array == before[number], f"{config.volumes[number].name} lost or gained something"
        else:
            assert is_cut(before[number], writes, 0, array), f"{config.volumes[number].name} isn't what some first writes leave"


def look(wol: str, folder: Path, config: Config, command: str) -> None:
    """What `check` or `dump` prints of these images, and that nothing of them is lost by it."""
    volumes = opened(folder, config)
    wrong = first_refused(config, volumes)
    text = check_text(config, volumes) if command == "check" else dump_text(config, volumes)
    ran = call(wol, folder, command)
    expect(command, (wrong[1].status if wrong else 0, text), (ran.returncode, ran.stdout))
    assert check_text(config, opened(folder, config)) == check_text(config, volumes), f"{command} changed what a volume is"


def try_clean(wol: str, folder: Path, config: Config) -> None:
    """A cleaning is refused for the first volume that isn't in order, or leaves each array, as far as versions go."""
    volumes, ran = opened(folder, config), call(wol, folder, "clean")
    if wrong := first_refused(config, volumes):
        expect("clean", (wrong[1].status, f"fault {wrong[1].status} {wrong[0]} {wrong[1].text}\n"), (ran.returncode, ran.stdout))
        return
    assert ran.returncode in (0, 11), f"clean ends with {ran.returncode}"
    assert ran.returncode == 0 or any(2 * it.next_version > VERSIONS for it in volumes), "clean says that versions are spent"
    after = opened(folder, config)
    assert not first_refused(config, after) and [it.array for it in after] == [it.array for it in volumes], "clean changed a volume"


def spoiled_images(wol: str, seed: str, folder: Path) -> Counter:
    """Copies of one folder of sound images, each spoiled."""
    rng, counts = random.Random(seed), Counter()
    text = random_config(rng)
    config = read_config(text)
    (folder / "wol.toml").write_text(text)
    assert call(wol, folder, "format").returncode == 0
    sound, asked = random_trace(rng, config, rng.choice((10, 60)))
    status, said = replayed(wol, folder, sound, "--reclaim", rng.choice(("off", "between")))
    assert status == 0, said
    paths = [folder / f"{it.name}.vol" for it in config.volumes]
    whole = [it.read_bytes() for it in paths]
    for _ in range(COPIES):
        images = [bytearray(it) for it in whole]
        spoil_images(rng, config, images)
        for path, data in zip(paths, images):
            path.write_bytes(data)
        look(wol, folder, config, "check")
        look(wol, folder, config, "dump")
        opens = not first_refused(config, opened(folder, config))
        if rng.random() < 0.25:
            try_clean(wol, folder, config)
        try_replay(wol, folder, config, rng)
        look(wol, folder, config, "check")
        counts["images"] += sum(data != it for data, it in zip(images, whole))
        counts["folders"] += 1
        counts["folders in order"] += opens
    return counts


# ---- Lines


def spoiled_traces(wol: str, seed: str, folder: Path) -> Counter:
    """Traces of spoiled lines. Each ends behind the first line that is refused; what stands behind it must not be looked at."""
    rng, counts = random.Random(seed), Counter()
    for _ in range(TRACES):
        lines = []
        for _ in range(rng.choice((1, 5, 30))):
            lines.append(spoiled_line(rng))
            if isinstance(read_line(lines[-1]), str):
                counts["lines refused"] += 1
                break
        counts["lines"] += len(lines)
        rest = [spoiled_line(rng) for _ in range(rng.choice((0, 0, 2)))]
        trace = b"\n".join(lines + rest) + rng.choice((b"", b"\n"))
        (folder / "trace.csv").write_bytes(trace)
        with open(folder / "trace.csv", "rb") as given:
            words = [wol, "solo", VOLUME.host, str(VOLUME.disk), str(VOLUME.home_blocks)]
            ran = subprocess.run(words, cwd=folder, stdin=given, capture_output=True, timeout=120)
        expect("solo", solo_text(trace, VOLUME), (ran.returncode, ran.stdout.decode(errors="replace")))
    return counts


# ---- Configurations


def spoiled_configs(wol: str, seed: str, folder: Path) -> Counter:
    rng, counts = random.Random(seed), Counter()
    for _ in range(TRACES):
        data = configs.spoiled(rng, random_config(rng).encode())
        (folder / "wol.toml").write_bytes(data)
        ran = call(wol, folder, "gen", "0", "0")
        wanted = configs.why_none(data)
        told = f"fault 2 config {wanted}\n" if wanted else ""
        if wanted == "not toml" and ran.returncode == 0 or ran.stdout != told and wanted == "not toml":
            # the program's TOML has some newer forms
            assert ran.returncode in (0, 2), f"gen ends with {ran.returncode}"
            counts["configurations set aside"] += 1
        else:
            expect("gen", (2 if wanted else 0, told), (ran.returncode, ran.stdout))
        counts["configurations"] += 1
        counts["configurations accepted"] += not ran.returncode
    return counts


# ---- All


def one_task(wol: str, seed: int, root: str | None, kind: str, number: int) -> tuple[Counter, str]:
    """One folder's inputs: what was counted, or what went wrong."""
    folder = Path(tempfile.mkdtemp(prefix=f"wol-{kind}-", dir=root))
    work = {"images": spoiled_images, "lines": spoiled_traces, "configurations": spoiled_configs}[kind]
    try:
        counts = work(wol, f"{seed} {kind} {number}", folder)
    except (AssertionError, subprocess.TimeoutExpired) as wrong:
        return Counter(), f"{kind} {number} of seed {seed} went wrong: {wrong}; its folder is {folder}"
    shutil.rmtree(folder)
    return counts, ""


def main() -> int:
    words = argparse.ArgumentParser()
    words.add_argument("wol")
    words.add_argument("--images", type=int, default=500)
    words.add_argument("--lines", type=int, default=2000)
    words.add_argument("--configs", type=int, default=400)
    words.add_argument("--jobs", type=int, default=os.cpu_count())
    words.add_argument("--seed", type=int, default=1)
    words.add_argument("--folder", help="where inputs are made; a memory file system is quick")
    asked_for = words.parse_args()
    wol, counts = str(Path(asked_for.wol).resolve()), Counter()
    goals = {"images": asked_for.images, "lines": asked_for.lines, "configurations": asked_for.configs}
    with ProcessPoolExecutor(asked_for.jobs) as pool:
        for kind, goal in goals.items():
            first, run = 0, partial(one_task, wol, asked_for.seed, asked_for.folder, kind)
            while counts[kind] < goal:
                batch = 8 * asked_for.jobs
                for found, wrong in pool.map(run, range(first, first + batch)):
                    if wrong:
                        pool.shutdown(cancel_futures=True)
                        print(wrong, file=sys.stderr)
                        return 1
                    counts += found
                first += batch
    told = ", ".join(f"{count} {what}" for what, count in counts.items())
    print(f"{told}: each is told as the readers of this folder tell it")
    return 0


if __name__ == "__main__":
    sys.exit(main())
