"""Serves volumes to clients that go away, that send what nobody would send, and that find the program killed.

usage: sessions.py WOL [--sessions N] [--kills N] [--jobs J] [--seed S] [--folder F]

Each round formats small volumes, writes to them, and serves one by `nbd`. Of N sessions some end in the middle of a request, some have
requests with odd flags, types, places or lengths, and some begin with other bytes: replies, status and array have to be those of a
reader of this folder's own. In others the client closes its end while replies are due, or the program is killed with SIGKILL at a
random moment, N times among writes: the volume then has all that was answered, and at most some blocks of what was in flight. All
other volumes stay as they are. It prints its counts, and ends with 1 and the folder of the first session that went wrong.
"""

import argparse
import contextlib
import os
import random
import shutil
import socket
import struct
import subprocess
import sys
import tempfile
import threading
from collections import Counter
from collections.abc import Callable
from functools import partial
from pathlib import Path
from typing import NamedTuple

from images import BLOCK, Config, check_text, opened, read_config, recovered
from kills import call, random_config, until
from model import Request, is_cut, payload, random_trace

MAGIC, REPLY = b"\x25\x60\x95\x13", b"\x67\x44\x66\x98"
READ, WRITE, DISC, FLUSH = range(4)
MOST_BYTES = 33_554_432
HEAD = 28


class Ask(NamedTuple):
    """A request, and the data that follow it."""

    flags: int
    kind: int
    cookie: int
    offset: int
    length: int
    data: bytes = b""

    def spelled(self) -> bytes:
        return MAGIC + struct.pack(">HHQQI", *self[:5]) + self.data

    def with_data(self) -> "Ask":
        """With data that tell the write and the block."""
        if self.kind != WRITE:
            return self
        first, count = self.offset // BLOCK, self.length // BLOCK + 1
        return self._replace(data=b"".join(payload(self.cookie, block) for block in range(first, first + count))[: self.length])

    def error(self, home_blocks: int) -> int:
        """The error of its reply where no disk fails, no memory is short and versions suffice."""
        moves, past = self.kind in (READ, WRITE), self.offset + self.length > BLOCK * home_blocks
        if self.kind > FLUSH or self.flags not in (0, 1) or moves and (self.offset % BLOCK or self.length % BLOCK):
            return 22
        if moves and self.length > MOST_BYTES or self.kind == READ and past:
            return 22
        return 28 if self.kind == WRITE and past else 0

    def pieces(self, number: int, config: Config) -> list[Request]:
        """The writes of the volume that it asks for."""
        if self.kind != WRITE or self.error(config.volumes[number].home_blocks):
            return []
        first, end = self.offset // BLOCK, (self.offset + self.length) // BLOCK
        return [Request(self.cookie, number, True, at, min(config.most, end - at)) for at in range(first, end, config.most)]


def asked_in(sent: bytes) -> tuple[list[Ask], int]:
    """The whole requests in a client's bytes, up to one to go away, and the status of a session of them."""
    asked, at = [], 0
    while at < len(sent):
        head = sent[at : at + HEAD]
        if head[:4] != MAGIC or len(head) < HEAD:
            return asked, 14
        ask, at = Ask(*struct.unpack(">HHQQI", head[4:])), at + HEAD
        if ask.kind == DISC:
            return asked, 0
        long = ask.length if ask.kind == WRITE else 0
        if at + long > len(sent):
            return asked, 14
        asked.append(ask._replace(data=sent[at : at + long]))
        at += long
    return asked, 0


def replies_to(asked: list[Ask], array: list[bytes]) -> list[bytes]:
    """The replies where nothing fails; the array becomes what they leave."""
    found = []
    for ask in asked:
        error = ask.error(len(array))
        reply = REPLY + struct.pack(">IQ", error, ask.cookie)
        if ask.kind == READ and not error:
            reply += b"".join(array[ask.offset // BLOCK : (ask.offset + ask.length) // BLOCK])
        if ask.kind == WRITE and not error:
            blocks = [ask.data[at : at + BLOCK] for at in range(0, ask.length, BLOCK)]
            array[ask.offset // BLOCK : ask.offset // BLOCK + len(blocks)] = blocks
        found.append(reply)
    return found


def random_ask(rng: random.Random, cookie: int, home_blocks: int, odd: float) -> Ask:
    """A request; of so many something is odd."""
    first = rng.randrange(home_blocks)
    count = min(rng.choice((0, 1, 1, 2, 5, 20, 300)), home_blocks - first)
    ask = Ask(rng.choice((0, 0, 1)), rng.choice((READ, WRITE, WRITE, WRITE, FLUSH)), cookie, BLOCK * first, BLOCK * count)
    if rng.random() >= odd:
        return ask
    how = rng.randrange(6)
    if how == 0:
        return ask._replace(flags=rng.choice((2, 3, 4, 256, 65535)))
    if how == 1:
        return ask._replace(kind=rng.choice((4, 5, 6, 7, 65535)))
    if how == 2:
        return ask._replace(offset=ask.offset + rng.choice((1, 511, 256)))
    if how == 3:
        return ask._replace(length=ask.length + rng.choice((1, 511)))
    if how == 4:
        return ask._replace(offset=rng.choice((BLOCK * home_blocks, 2**32 * BLOCK, 2**63, 2**64 - BLOCK, 2**64 - 1)))
    # a write so long is sent with its data, so few are
    lengths = (BLOCK * home_blocks + BLOCK, MOST_BYTES + BLOCK, 2**32 - BLOCK)
    return ask._replace(length=lengths[0] if ask.kind == WRITE else rng.choice(lengths))


def random_session(rng: random.Random, home_blocks: int, count: int, odd: float, first: int) -> bytes:
    return b"".join(random_ask(rng, first + k, home_blocks, odd).with_data().spelled() for k in range(count))


def spoiled(rng: random.Random, sent: bytes) -> bytes:
    """A session that ends early, has other bytes in it, or goes on behind a request to go away."""
    at, how = rng.randrange(len(sent) + 1), rng.randrange(5)
    if how == 0:
        return sent[:at]
    if how == 1 and at < len(sent):
        return sent[:at] + bytes([sent[at] ^ 1 << rng.randrange(8)]) + sent[at + 1 :]
    if how == 2:
        return sent[:at] + rng.randbytes(rng.randint(1, 40)) + sent[at:]
    if how == 3:
        return sent + Ask(rng.choice((0, 1, 9)), DISC, 0, 7, 7).spelled() + rng.randbytes(rng.randint(0, 40))
    return sent


class Served:
    """A folder of volumes, the arrays that they have, and which of them is served."""

    def __init__(self, wol: str, folder: Path, rng: random.Random):
        self.wol, self.folder, self.rng = wol, folder, rng
        text = random_config(rng)
        self.config = read_config(text)
        (folder / "wol.toml").write_text(text)
        assert call(wol, folder, "format").returncode == 0
        trace = random_trace(rng, self.config, 60)[0]
        ran = subprocess.run([wol, "replay", "--reclaim", "off"], cwd=folder, input=trace, capture_output=True, timeout=120)
        assert ran.returncode == 0, ran.stdout
        self.arrays = recovered(folder, self.config)
        self.number = rng.randrange(len(self.config.volumes))
        self.words = [wol, "nbd", self.config.volumes[self.number].name]
        self.cookie = 10**6

    @property
    def home_blocks(self) -> int:
        return self.config.volumes[self.number].home_blocks

    def session(self, count: int, odd: float) -> bytes:
        self.cookie += count
        return random_session(self.rng, self.home_blocks, count, odd, self.cookie)

    def look(self) -> tuple[list[bytes], list[bytes]]:
        """What the volume that is served was, and what it is; all others are as they were."""
        before, self.arrays = self.arrays, recovered(self.folder, self.config)
        for number, volume in enumerate(self.config.volumes):
            assert number == self.number or self.arrays[number] == before[number], f"{volume.name} isn't served, and changed"
        told = call(self.wol, self.folder, "check")
        assert told.stdout == check_text(self.config, opened(self.folder, self.config)), f"check says {told.stdout}"
        return before[self.number], self.arrays[self.number]

    def is_kept(self, asked: list[Ask], answered: int) -> bool:
        """After so many replies the volume has what was answered, and perhaps what was in flight; whether something was written."""
        pieces = [ask.pieces(self.number, self.config) for ask in asked]
        before, after = self.look()
        assert is_cut(before, sum(pieces, []), len(sum(pieces[:answered], [])), after), "the volume lost or gained something"
        return after != before


def whole_session(it: Served, counts: Counter) -> None:
    """A session to its end: what is said and left is what a reader makes of the bytes."""
    sent = spoiled(it.rng, it.session(it.rng.choice((1, 5, 20)), 0.3))
    asked, status = asked_in(sent)
    wanted = list(it.arrays[it.number])
    replies = replies_to(asked, wanted)
    ran = subprocess.run(it.words, cwd=it.folder, input=sent, capture_output=True, timeout=120)
    assert ran.returncode == status, f"a session ends with {ran.returncode}, and not with {status}"
    assert ran.stdout == b"".join(replies), "a reply isn't that of the plain array"
    assert it.look()[1] == wanted, "the volume isn't what the writes left"
    counts["sessions"] += 1
    counts["requests"] += len(asked)
    counts["requests refused"] += sum(bool(ask.error(it.home_blocks)) for ask in asked)
    counts["sessions that end with 14"] += status == 14


def answered_in(said: bytes, replies: list[bytes]) -> int:
    """How many replies are out, the last perhaps in part."""
    assert b"".join(replies).startswith(said), "a reply isn't that of the plain array"
    found = 0
    while said:
        said, found = said[len(replies[found]) :], found + 1
    return found


def client_leaves(it: Served, counts: Counter) -> None:
    """The client closes its end while replies are due."""
    asked = asked_in(sent := it.session(40, 0))[0]
    replies = replies_to(asked, list(it.arrays[it.number]))
    (it.folder / "sent").write_bytes(sent)
    with open(it.folder / "sent", "rb") as given:
        with subprocess.Popen(it.words, cwd=it.folder, stdin=given, stdout=subprocess.PIPE, stderr=subprocess.DEVNULL) as run:
            said = run.stdout.read(it.rng.randrange(16, max(17, len(b"".join(replies)))))
            run.stdout.close()
            assert run.wait(120) in (0, 7), f"a session whose client left ends with {run.returncode}"
    it.is_kept(asked, answered_in(said, replies))
    counts["clients that left"] += run.returncode == 7


def send(to: socket.socket, sent: bytes) -> None:
    with contextlib.suppress(OSError):
        to.sendall(sent)


def at_socket(it: Served, sent: bytes, most: int, leave: Callable[[socket.socket, subprocess.Popen], None]) -> tuple[bytes, int]:
    """A client at a socket, who leaves behind so many bytes of replies: all that came, and how the program ended."""
    ours, theirs = socket.socketpair()
    said = b""
    with subprocess.Popen(it.words, cwd=it.folder, stdin=theirs, stdout=theirs, stderr=subprocess.DEVNULL) as run:
        theirs.close()
        sender = threading.Thread(target=send, args=(ours, sent))
        sender.start()
        while len(said) < most and (more := ours.recv(most - len(said))):
            said += more
        leave(ours, run)
        sender.join()
        with contextlib.suppress(ConnectionResetError):
            while more := ours.recv(65536):
                said += more
        ours.close()
        return said, run.wait(120)


def client_hangs_up(it: Served, counts: Counter) -> None:
    """The client hangs up while requests and replies are on their way."""
    asked = asked_in(sent := it.session(40, 0))[0]
    replies = replies_to(asked, list(it.arrays[it.number]))
    most = it.rng.randrange(16, max(17, len(b"".join(replies))))
    said, status = at_socket(it, sent, most, lambda ours, run: ours.shutdown(socket.SHUT_RDWR))
    assert status in (0, 7, 8, 14), f"a session whose client hung up ends with {status}"
    it.is_kept(asked, answered_in(said, replies))
    counts["clients that hung up"] += status != 0


def killed_session(it: Served, counts: Counter) -> None:
    """The program is killed while requests and replies are on their way."""
    asked = asked_in(sent := it.session(it.rng.choice((40, 400)), 0))[0]
    replies = replies_to(asked, list(it.arrays[it.number]))
    most = it.rng.randrange(16, max(17, len(b"".join(replies))))
    said, status = at_socket(it, sent, most, lambda ours, run: run.kill())
    assert status in (0, -9), f"a session ends with {status}"
    answered = answered_in(said, replies)
    wrote = it.is_kept(asked, answered)
    counts["sessions killed"] += status == -9
    counts["kills among writes"] += status == -9 and wrote and answered < len(asked)


def one_folder(wol: str, seed: int, root: str | None, number: int) -> tuple[Counter, str]:
    """Sessions over one folder of images: what was counted, or what went wrong."""
    rng, counts = random.Random(f"{seed} {number}"), Counter()
    folder = Path(tempfile.mkdtemp(prefix="wol-sessions-", dir=root))
    try:
        it = Served(wol, folder, rng)
        for _ in range(8):
            whole_session(it, counts)
            client_leaves(it, counts)
            client_hangs_up(it, counts)
            killed_session(it, counts)
    except (AssertionError, subprocess.TimeoutExpired) as wrong:
        return Counter(), f"folder {number} of seed {seed} went wrong: {wrong}; it is {folder}"
    shutil.rmtree(folder)
    return counts, ""


def main() -> int:
    words = argparse.ArgumentParser()
    words.add_argument("wol")
    words.add_argument("--sessions", type=int, default=100)
    words.add_argument("--kills", type=int, default=20)
    words.add_argument("--jobs", type=int, default=os.cpu_count())
    words.add_argument("--seed", type=int, default=1)
    words.add_argument("--folder", help="where images are made")
    asked_for = words.parse_args()
    wol = str(Path(asked_for.wol).resolve())
    work = partial(one_folder, wol, asked_for.seed, asked_for.folder)
    counts = until({"sessions": asked_for.sessions, "kills among writes": asked_for.kills}, asked_for.jobs, work)
    if counts is None:
        return 1
    told = ", ".join(f"{count} {what}" for what, count in counts.items())
    print(f"{told}: each reply and each array is as it may be")
    return 0


if __name__ == "__main__":
    sys.exit(main())
