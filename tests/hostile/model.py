"""What a trace asks of each volume, and what a volume is after some of it: lines, pieces, payloads and marks as docs/FORMATS.md has
them."""

import random
import re
import struct
from typing import NamedTuple

from images import BLOCK, Config, Volume


class Request(NamedTuple):
    line: int
    volume: int
    write: bool
    lbn: int
    count: int


def payload(line: int, block: int) -> bytes:
    return struct.pack("<QQ", line, block) * (BLOCK // 16)


def pieces(offset: int, size: int, volume: Volume, most: int) -> list[tuple[int, int]]:
    """The runs of blocks that a range asks for: cut at the volume's end, and after each `most` blocks from the last cut."""
    if not size:
        return []
    left = (offset + size + BLOCK - 1) // BLOCK - offset // BLOCK
    lbn, found = offset // BLOCK % volume.home_blocks, []
    while left:
        count = min(left, most, volume.home_blocks - lbn)
        found.append((lbn, count))
        lbn, left = (lbn + count) % volume.home_blocks, left - count
    return found


def random_trace(rng: random.Random, config: Config, lines: int) -> tuple[bytes, list[Request]]:
    """Lines with quiet times between them, so that disks go down, and the requests that they ask for."""
    text, asked, moment = [], [], 128166372000000000
    for line in range(1, lines + 1):
        moment += rng.choice((0, 1_000, 3_000_000, 20_000_000, 700_000_000))
        number = rng.randrange(len(config.volumes))
        volume, write = config.volumes[number], rng.random() < 0.7
        offset = rng.randrange(volume.home_blocks) * BLOCK + rng.choice((0, 0, 0, 100))
        size = rng.randrange(0, 12) * BLOCK + rng.choice((0, 0, 0, 7))
        kind = "Write" if write else "Read"
        text.append(f"{moment},{volume.host},{volume.disk},{kind},{offset},{size},100\n")
        asked += [Request(line, number, write, *it) for it in pieces(offset, size, volume, config.most)]
    return "".join(text).encode(), asked


def write_into(array: list[bytes], request: Request) -> None:
    for block in range(request.lbn, request.lbn + request.count):
        array[block] = payload(request.line, block)


def read_lines(config: Config, arrays: list[list[bytes]], asked: list[Request]) -> list[str]:
    """The lines that `replay --each` prints where each request is answered."""
    arrays, found = [list(it) for it in arrays], []
    for it in asked:
        array = arrays[it.volume]
        if it.write:
            write_into(array, it)
        else:
            marks = (struct.unpack("<Q", array[it.lbn + i][:8])[0] for i in range(it.count))
            name = config.volumes[it.volume].name
            found.append(f"read {it.line} {name} {it.lbn} {it.count} {sum(marks) % 2**64}")
    return found


def is_cut(before: list[bytes], writes: list[Request], acknowledged: int, after: list[bytes]) -> bool:
    """Whether an array is what some first writes leave, at least the acknowledged ones, with at most some blocks of the next one."""
    array = list(before)
    for write in writes[:acknowledged]:
        write_into(array, write)
    for write in [*writes[acknowledged:], None]:
        changed = [block for block, content in enumerate(after) if content != array[block]]
        if not changed:
            return True
        if write is None:
            return False
        span = range(write.lbn, write.lbn + write.count)
        if all(block in span and after[block] == payload(write.line, block) for block in changed):
            return True
        write_into(array, write)
    return False


class Line(NamedTuple):
    """A line of a trace that is one."""

    host: bytes
    disk: int
    write: bool
    offset: int
    size: int


def read_line(line: bytes) -> Line | str | None:
    """The line without its line feed, why it is none, or nothing where it is blank."""
    if len(line) > 4096:
        return "too long"
    if b'"' in line or b"\r" in line[:-1]:
        return "quote"
    line = line.removesuffix(b"\r")
    if not line:
        return None
    fields = line.split(b",")
    if len(fields) != 7:
        return "fields"
    for number in (1, 3, 4, 5, 6, 7):
        field = fields[number - 1]
        if number == 4:
            if field not in (b"Read", b"Write"):
                return "kind"
        elif not re.fullmatch(rb"[0-9]{1,20}", field) or int(field) >= (2**32 if number == 3 else 2**64):
            return f"number {number}"
    offset, size = int(fields[4]), int(fields[5])
    if size > 67_108_864:
        return "too large"
    if offset + size >= 2**64:
        return "past end"
    return Line(fields[1], int(fields[2]), fields[3] == b"Write", offset, size)


def solo_text(trace: bytes, volume: Volume) -> tuple[int, str]:
    """The status of `solo` on a trace, and what it prints."""
    marks, text = {}, []
    blank = skipped = reads = writes = number = 0
    lines = trace.split(b"\n")
    for number, raw in enumerate(lines[:-1] if not lines[-1] else lines, 1):
        line = read_line(raw)
        if isinstance(line, str):
            return 3, "".join(text) + f"fault 3 line {number} {line}\n"
        if line is None:
            blank += 1
            continue
        if line.host != volume.host.encode() or line.disk != volume.disk:
            skipped += 1
            continue
        for lbn, count in pieces(line.offset, line.size, volume, 128):
            if line.write:
                writes += 1
                marks.update((block, number) for block in range(lbn, lbn + count))
            else:
                reads += 1
                mark = sum(marks.get(block, 0) for block in range(lbn, lbn + count)) % 2**64
                text.append(f"read {number} {lbn} {count} {mark}\n")
    return 0, "".join(text) + f"solo lines {number} blank {blank} skipped {skipped} reads {reads} writes {writes}\n"
