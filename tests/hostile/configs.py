"""Configurations that nobody would write, and why one is none, as docs/FORMATS.md has it."""

import random
import re
import tomllib

LONGEST = 1_048_576
TOKENS = [b"=", b"[", b"]]", b'"', b"\n", b"\r", b"-1", b"1e9", b"18446744073709551616", b"true", b"\xff", b"\x00", b"view"]
TOKENS += [b"[[volume]]\n", b"[volume]\n", b"#", b"'''", b'"""', b",", b"{", b"}", b"\\u0041", b"\xc3\xa9", b"\xef\xbb\xbf", b".", b" = 1\n"]
VALUES = ["0", "-0", "+1", "-1", "1", "4", "3", "65536", "65537", "1024", "1025", "4294967295", "4294967296", "4294967297", "0x10", "0o7", "1_0"]
VALUES += ["600000", "600001", "1000000", "1000001", "1000000000", "1000000001", "86400000", "86400001", "9223372036854775807", "9223372036854775808"]
VALUES += ["1.0", "inf", "nan", "true", "'a'", '"a"', '"b"', '""', '"A"', '"a,b"', "'a b'", '"' + "a" * 32 + '"', '"' + "a" * 33 + '"']
VALUES += ['"' + "a" * 64 + '"', '"' + "a" * 65 + '"', '"\\u00e9"', '"\\t"', '["a"]', '["b"]', '["a", "a"]', '["b", 1]', "[1]", "[]", "[[]]"]
VALUES += ['["zz"]', "{}", "{a = 1}", "1979-05-27", "07:32:00", '"""a"""', "'''b'''", "1.e1", "01", "--1", "1__0"]

TOP = [("segment_blocks", 4, 65_536), ("timeout_ms", 1, 86_400_000), ("awake_mw", 0, 1_000_000)]
TOP += [("standby_mw", 0, 1_000_000), ("wake_mj", 0, 1_000_000_000), ("wake_ms", 0, 600_000)]
MAY_BE_MISSING = ("timeout_ms", "wake_ms")
EACH = [("disk", 0, 2**32 - 1), ("home_blocks", 1, 2**32), ("segments", 0, 1024)]


def spoiled(rng: random.Random, data: bytes) -> bytes:
    for _ in range(rng.randint(1, 3)):
        lines = data.split(b"\n")
        at, byte = rng.randrange(len(lines)), rng.randrange(len(data) + 1)
        how = rng.randrange(9)
        if how < 4 and b"=" in lines[at]:
            lines[at] = lines[at].split(b"=")[0] + b"= " + rng.choice(VALUES).encode()
            data = b"\n".join(lines)
        elif how == 4:
            del lines[at]
            data = b"\n".join(lines)
        elif how == 5:
            lines.insert(rng.randrange(len(lines)), lines[at])
            data = b"\n".join(lines)
        elif how == 6:
            data = data[:byte] + rng.choice(TOKENS) + data[byte:]
        elif how == 7:
            data = data[:byte] + data[byte + rng.randint(1, 40) :]
        elif data and byte < len(data):
            data = data[:byte] + bytes([data[byte] ^ 1 << rng.randrange(8)]) + data[byte + 1 :]
    if rng.random() < 0.01:
        data += b"#" * (LONGEST - len(data) + rng.choice((-1, 0, 1)))
    return data


def has_great_number(value: object) -> bool:
    """Whether there is an integer past 64 bits."""
    if isinstance(value, dict):
        return any(has_great_number(it) for it in value.values())
    if isinstance(value, list):
        return any(has_great_number(it) for it in value)
    return isinstance(value, int) and not -(2**63) <= value < 2**63


def why_number(table: dict, key: str, least: int, most: int) -> str | None:
    if key not in table:
        return None if key in MAY_BE_MISSING else f"missing {key}"
    value = table[key]
    if type(value) is not int:
        return f"wrong kind {key}"
    return None if least <= value <= most else f"out of range {key}"


def why_text(table: dict, key: str, form: str) -> str | None:
    if key not in table:
        return f"missing {key}"
    if not isinstance(table[key], str):
        return f"wrong kind {key}"
    return None if re.fullmatch(form, table[key]) else f"out of range {key}"


def why_view(table: dict) -> str | None:
    if "view" not in table:
        return "missing view"
    view = table["view"]
    if not isinstance(view, list) or not all(isinstance(it, str) for it in view):
        return "wrong kind view"
    return None if len(view) <= 16 else "out of range view"


def why_volume(table: dict) -> str | None:
    """The first thing that is wrong with the keys of a volume."""
    wrong = why_text(table, "name", "[a-z0-9_-]{1,32}") or why_text(table, "host", "(?![,\"])[!-~]((?![,\"])[!-~]){0,63}")
    for key in EACH:
        wrong = wrong or why_number(table, *key)
    return wrong or why_view(table)


def why_volumes(said: dict) -> str | None:
    if "volume" not in said:
        return "missing volume"
    volumes = said["volume"]
    if not isinstance(volumes, list) or not all(isinstance(it, dict) for it in volumes):
        return "wrong kind volume"
    if not 1 <= len(volumes) <= 64:
        return "out of range volume"
    return next((wrong for it in volumes if (wrong := why_volume(it))), None)


def why_together(volumes: list[dict]) -> str | None:
    """What is wrong among volumes each of which is right."""
    names, disks = set(), set()
    for it in volumes:
        if it["name"] in names or (it["host"], it["disk"]) in disks:
            return f"twice {it['name']}"
        names.add(it["name"])
        disks.add((it["host"], it["disk"]))
    for it in volumes:
        view = it["view"]
        if not set(view) <= names - {it["name"]} or len(set(view)) < len(view):
            return f"bad view {it['name']}"
    return None


def double(text: str) -> float:
    """A number with a point or an exponent; one past the range of doubles is none."""
    if float(text) in (float("inf"), float("-inf")) and "inf" not in text:
        raise ValueError(text)
    return float(text)


def why_none(data: bytes) -> str | None:
    """Why these bytes are no configuration; nothing where they are one."""
    if len(data) > LONGEST:
        return "too long"
    try:
        said = tomllib.loads(data.decode(), parse_float=double)
    except (ValueError, RecursionError):
        return "not toml"
    if has_great_number(said):
        return "not toml"
    for key in TOP:
        if wrong := why_number(said, *key):
            return wrong
    return why_volumes(said) or why_together(said["volume"])
