"""Reads a folder of images as docs/FORMATS.md spells them and docs/USAGE.md refuses them: a second reader beside the program's own.

A volume's array is its home, and over it each block of the newest record that keeps it, wherever that record lies.
"""

import hashlib
import struct
import tomllib
from functools import lru_cache
from pathlib import Path
from typing import NamedTuple

BLOCK = 512
ZEROS = bytes(BLOCK)
VERSIONS = 2**63


class Damaged(Exception):
    """A block that has to be a label, a view or a head is spelled otherwise: the block, counted from where it was looked for."""


class Record(NamedTuple):
    version: int
    lbn: int
    count: int
    mask: int
    blocks: list[bytes]


class Place(NamedTuple):
    """Where a record's head stands: its logger, the segment and the block in it, and the block of the logger's image."""

    logger: int
    segment: int
    at: int
    block: int


class Volume(NamedTuple):
    name: str
    host: str
    disk: int
    home_blocks: int
    segments: int


class Config(NamedTuple):
    segment_blocks: int
    volumes: tuple[Volume, ...]

    @property
    def most(self) -> int:
        """The most blocks that a piece of a line has."""
        return min(128, self.segment_blocks - 2)

    def first_block(self, number: int, segment: int) -> int:
        return 2 + self.volumes[number].home_blocks + segment * self.segment_blocks


class Refused(NamedTuple):
    """What is wrong with a volume, and the exit status for it."""

    text: str
    status: int


class Opened(NamedTuple):
    """A volume in order: its array, its valid records by rising version, how many segments hold them, its next version, and the digest
    of the array."""

    array: list[bytes]
    records: list[tuple[Record, Place]]
    segments: int
    next_version: int
    digest: str


class Image(NamedTuple):
    blocks: list[bytes]
    view: list[int]
    owners: list[int | None]


def read_config(text: str) -> Config:
    """A configuration that `wol` accepts."""
    said = tomllib.loads(text)
    volumes = (Volume(v["name"], v["host"], v["disk"], v["home_blocks"], v["segments"]) for v in said["volume"])
    return Config(said["segment_blocks"], tuple(volumes))


def padded(spelled: bytes) -> bytes:
    return spelled + bytes(BLOCK - len(spelled))


def label_of(config: Config, number: int) -> bytes:
    volume = config.volumes[number]
    return padded(b"WOLVOL01" + struct.pack("<IQII", number, volume.home_blocks, volume.segments, config.segment_blocks))


def is_label(block: bytes) -> bool:
    home, segments, segment_blocks = struct.unpack("<QII", block[12:28])
    spelled = block[:8] == b"WOLVOL01" and block == padded(block[:28])
    return spelled and 1 <= home <= 2**32 and segments <= 1024 and 4 <= segment_blocks <= 65536


def view_of(block: bytes, own: int) -> list[int] | None:
    """The numbers in a view; none where the block is no view, or one that names its own volume."""
    count = struct.unpack("<I", block[8:12])[0]
    if block[:8] != b"WOLVIEW1" or count > 16 or block != padded(block[: 12 + 4 * count]):
        return None
    view = list(struct.unpack(f"<{count}I", block[12 : 12 + 4 * count]))
    return None if own in view or len(set(view)) < count else view


def owner_of(head: bytes) -> int | None:
    """Who owns a segment by its head; nobody owns a free one."""
    if head == padded(b"WOLSEGF1"):
        return None
    if head != padded(b"WOLSEGO1" + head[8:12]):
        raise Damaged(0)
    return struct.unpack("<I", head[8:12])[0]


def record_at(segment: list[bytes], at: int, owner: int) -> Record | None:
    """The record whose head stands there; none where a gate stands there."""
    head = segment[at]
    if head == ZEROS:
        return None
    state, said, version, lbn, count = struct.unpack("<IIQQI", head[8:36])
    fits = said == owner and 1 <= version < VERSIONS and 1 <= count <= 128 and lbn + count <= 2**32
    if not fits or at + 1 + count > len(segment):
        raise Damaged(at)
    if head[:8] == b"WOLREC01" and state in (1, 2) and head == padded(head[:36]):
        mask = (1 << count) - 1 if state == 1 else 0
    elif head[:8] == b"WOLREC02" and state == 0 and head == padded(head[:52]):
        mask = int.from_bytes(head[36:52], "little")
    else:
        raise Damaged(at)
    if mask >> count:
        raise Damaged(at)
    return Record(version, lbn, count, mask, segment[at + 1 : at + 1 + count])


def records_of(segment: list[bytes], owner: int, home_blocks: int) -> list[tuple[int, Record]]:
    """The records of an owned segment with their places, up to its gate or its end. The scan comes first, then the volume's end."""
    found, at = [], 1
    while at < len(segment) and (one := record_at(segment, at, owner)):
        found.append((at, one))
        at += 1 + one.count
    for at, one in found:
        if one.lbn + one.count > home_blocks:
            raise Damaged(at)
    return found


def read_image(config: Config, number: int, data: bytes | None) -> Image | Refused:
    """An image by itself: its length, label, view and the heads of its segments."""
    volume = config.volumes[number]
    if data is None:
        return Refused("absent", 12)
    if len(data) != BLOCK * config.first_block(number, volume.segments):
        return Refused(f"length {len(data)}", 5)
    blocks = [data[at : at + BLOCK] for at in range(0, len(data), BLOCK)]
    if not is_label(blocks[0]):
        return Refused(f"damaged 0 of {volume.name}", 5)
    view = view_of(blocks[1], number)
    if view is None:
        return Refused(f"damaged 1 of {volume.name}", 5)
    if blocks[0] != label_of(config, number):
        return Refused("label differs", 5)
    owners = []
    for index in range(volume.segments):
        at = config.first_block(number, index)
        try:
            owners.append(owner_of(blocks[at]))
        except Damaged:
            return Refused(f"damaged {at} of {volume.name}", 5)
        if owners[-1] is not None and owners[-1] >= len(config.volumes):
            return Refused(f"damaged {at} of {volume.name}", 5)
    return Image(blocks, view, owners)


def open_volume(config: Config, images: list[Image | Refused], number: int) -> Opened | Refused:
    """A volume by its own image and by those of the volumes that log for it."""
    own = images[number]
    if isinstance(own, Refused):
        return own
    for logger in own.view:
        if logger >= len(images) or isinstance(images[logger], Refused):
            return Refused(f"logger {logger} missing", 6)
    there = [(k, it) for k, it in enumerate(images) if isinstance(it, Image)]
    owned = [(k, index) for k, it in there for index, owner in enumerate(it.owners) if owner == number]
    for logger, index in owned:
        if logger not in own.view:
            return Refused(f"outside view segment {index} of {config.volumes[logger].name}", 5)
    found, top = [], 0
    for logger, index in owned:
        start = config.first_block(logger, index)
        segment = images[logger].blocks[start : start + config.segment_blocks]
        try:
            records = records_of(segment, number, config.volumes[number].home_blocks)
        except Damaged as where:
            return Refused(f"damaged {start + where.args[0]} of {config.volumes[logger].name}", 5)
        top = max([top] + [one.version for _, one in records])
        found += [(one, Place(logger, index, at, start + at)) for at, one in records if one.mask]
    valid = sorted(found, key=lambda it: it[0].version)
    for (one, first), (other, second) in zip(valid, valid[1:]):
        if one.version == other.version:
            first, second = (f"{it.block} of {config.volumes[it.logger].name}" for it in (first, second))
            return Refused(f"twins {first} and {second}", 5)
    array = own.blocks[2 : 2 + config.volumes[number].home_blocks]
    for one, _ in valid:
        for i in range(one.count):
            if one.mask >> i & 1:
                array[one.lbn + i] = one.blocks[i]
    digest = hashlib.sha256(b"".join(array)).hexdigest()
    return Opened(array, valid, len({(it.logger, it.segment) for _, it in valid}), top + 1, digest)


@lru_cache(maxsize=2)
def opened_of(config: Config, files: tuple[bytes | None, ...]) -> tuple[Opened | Refused, ...]:
    """Each volume, as opening all finds it in these images."""
    images = [read_image(config, number, data) for number, data in enumerate(files)]
    return tuple(open_volume(config, images, number) for number in range(len(images)))


def opened(folder: Path, config: Config) -> tuple[Opened | Refused, ...]:
    """Each volume, as opening them all finds it. What is found is read once for images that stay the same: change none of it."""
    paths = [folder / f"{it.name}.vol" for it in config.volumes]
    return opened_of(config, tuple(it.read_bytes() if it.is_file() or it.is_block_device() else None for it in paths))


def first_refused(config: Config, volumes: tuple[Opened | Refused, ...]) -> tuple[str, Refused] | None:
    """The first volume that isn't in order, if there is one: its name and what is wrong."""
    return next(((v.name, it) for v, it in zip(config.volumes, volumes) if isinstance(it, Refused)), None)


def check_text(config: Config, volumes: tuple[Opened | Refused, ...]) -> str:
    """What `check` prints of volumes that were opened so."""
    lines = []
    for volume, it in zip(config.volumes, volumes):
        what = it.text if isinstance(it, Refused) else f"ok sha256 {it.digest} records {len(it.records)} segments {it.segments}"
        lines.append(f"{volume.name} {what}\n")
    return "".join(lines)


def dump_text(config: Config, volumes: tuple[Opened | Refused, ...]) -> str:
    """What `dump` prints of volumes that were opened so."""
    lines = []
    for volume, it in zip(config.volumes, volumes):
        if isinstance(it, Refused):
            lines.append(f"{volume.name} {it.text}\n")
            continue
        newest = {one.lbn + i: one.version for one, _ in it.records for i in range(one.count) if one.mask >> i & 1}
        lines.append(f"{volume.name} records {len(it.records)}\n")
        for one, place in it.records:
            live = sum(1 << i for i in range(one.count) if one.mask >> i & 1 and newest[one.lbn + i] == one.version)
            where = f"{config.volumes[place.logger].name} segment {place.segment} block {place.at}"
            lines.append(f"record {one.version} {one.lbn} {one.count} on {where} live {live:032x} home {0:032x}\n")
    return "".join(lines)


def recovered(folder: Path, config: Config) -> list[list[bytes]]:
    """The array of each volume, where all are in order."""
    volumes = opened(folder, config)
    if wrong := first_refused(config, volumes):
        raise AssertionError(f"{wrong[0]} {wrong[1].text}")
    return [list(it.array) for it in volumes]
