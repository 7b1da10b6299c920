"""Lines of traces that nobody would write, for the volume of `solo`."""

import random

from images import BLOCK, Volume

VOLUME = Volume("solo", "h", 0, 50, 0)

NUMBERS = ["0", "1", "511", "512", "000", "00000000000000000001", "000000000000000000001", "4294967295", "4294967296"]
NUMBERS += ["9223372036854775807", "9223372036854775808", "18446744073709551615", "18446744073709551616", "99999999999999999999"]
NUMBERS += ["", "-1", "+1", " 1", "1 ", "1.0", "1e3", "0x10", "1_0", "\u0661", "\uff11", "\x00", "1\x00", "nan"]
KINDS = ["Read", "Write", "read", "WRITE", "Read ", " Read", "Reads", "", "R", "Re\x00ad"]
HOSTS = [b"h", b"h", b"h", b"", b"H", b"h ", b"hh", b"\x00", b"h\x00", b"\xc3", b"\xe2\x82", b"\xf0\x9f\x92", b"\xff\xfe", b"x" * 64, b"x" * 65]
PARTS = [b",", b"\r", b'"', b"\x00", b"\xef\xbb\xbf", b"\xc3", b" ", b"\t", b"-", b"9", b"0", b"Read", b"\x1a", b"\x7f", b"\x0b", b"\x0c"]


def sound_fields(rng: random.Random) -> list[bytes]:
    offset = rng.randrange(2 * VOLUME.home_blocks) * BLOCK + rng.choice((0, 0, 1, 511))
    size = rng.choice((0, 1, 511, 512, 513, 1024, 4096, 30_000, 70_000))
    fields = [str(rng.randrange(10**18)), "h", "0", rng.choice(("Read", "Write")), str(offset), str(size), "100"]
    return [it.encode() for it in fields]


def spoil_fields(rng: random.Random, fields: list[bytes]) -> None:
    how = rng.randrange(9)
    if how < 4:
        fields[rng.choice((0, 2, 4, 5, 6))] = rng.choice(NUMBERS).encode()
    elif how == 4:
        fields[1] = rng.choice(HOSTS)
    elif how == 5:
        fields[3] = rng.choice(KINDS).encode()
    elif how == 6:
        size = rng.choice((0, 1, 512, 65_536))
        fields[4], fields[5] = str(2**64 - size - rng.choice((0, 1, 1, 2))).encode(), str(size).encode()
    elif how == 7 and rng.random() < 0.05:
        fields[5] = str(rng.choice((67_108_863, 67_108_864, 67_108_865))).encode()
    elif rng.random() < 0.3:
        rng.choice((lambda: fields.pop(rng.randrange(7)), lambda: fields.insert(rng.randrange(8), b"1")))()


def spoil_bytes(rng: random.Random, line: bytearray) -> None:
    at = rng.randrange(len(line) + 1)
    how = rng.randrange(4)
    if how == 0 and line:
        line[min(at, len(line) - 1)] ^= 1 << rng.randrange(8)
    elif how == 1:
        line[at:at] = rng.choice(PARTS)
    elif how == 2:
        del line[at : at + rng.randint(1, 4)]
    else:
        line[at:at] = line[rng.randrange(len(line) + 1) :][:9]


def spoiled_line(rng: random.Random) -> bytes:
    """A line without its line feed."""
    if rng.random() < 0.03:
        return rng.choice((b"", b"\r", b" ", b"\r\r", b"\x00", b",,,,,,", b"," * 4096))
    fields = sound_fields(rng)
    if rng.random() < 0.35:
        spoil_fields(rng, fields)
    line = bytearray(b",".join(fields))
    if rng.random() < 0.12:
        spoil_bytes(rng, line)
    if rng.random() < 0.1:
        line += b"\r"
    if rng.random() < 0.02 and fields[1:2] == [b"h"]:
        # the host fills the line up to a length about the longest one
        at = line.find(b",h,") + 1
        line[at:at] = b"h" * (rng.choice((4095, 4096, 4097, 5000)) - len(line))
    return bytes(line).replace(b"\n", b"\v")
