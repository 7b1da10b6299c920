#!/usr/bin/env python3
"""Serves a volume to real NBD clients, as far as they are installed, and to one of its own that is killed in the middle of writes.

usage: clients.py WOL [--kills N] [--mib N] [--seed S] [--folder F]

It says which clients are missing, and fails on none of these: nbdinfo and nbdcopy (Debian's libnbd-bin), qemu-img and qemu-io
(qemu-utils), over a socket of socat or, without socat, one of its own. A disk of N MiB is copied in and out by each client that copies,
and is byte for byte the same. Against the line of socat that docs/USAGE.md has, and against the units of contrib/systemd by
systemd-socket-activate, fio, qemu-io and nbdcopy each come twice in a row, five times: each has to be served, though the session before
may not have ended. Through nbdkit and qemu-nbd, as USAGE starts them, requests of single bytes pass. Then a client of its own writes over blocks, some of which lie in logs, and N times the program is killed
with SIGKILL while it does: `wol check` is content, and each block holds what the last acknowledged write left, or what one behind it
did. It prints MiB a second beside `cp`, and ends with 1 and the folder at the first thing that is wrong.
"""

import argparse
import contextlib
import os
import random
import re
import shlex
import shutil
import signal
import socket
import struct
import subprocess
import sys
import tempfile
import time
from pathlib import Path

CLIENTS = {"nbdinfo": "libnbd-bin", "nbdcopy": "libnbd-bin", "qemu-img": "qemu-utils", "qemu-io": "qemu-utils", "socat": "socat"}
CLIENTS |= {"fio": "fio", "systemd-socket-activate": "systemd", "nbdkit": "nbdkit", "qemu-nbd": "qemu-utils"}
TOP = Path(__file__).resolve().parent.parent
NAME = "disk"
BLOCK = 512
REQUEST, REPLY, OPTION, ANSWER = 0x25609513, 0x67446698, b"IHAVEOPT", 0x3E889045565A9
READ, WRITE, DISC, FLUSH = 0, 1, 2, 3


def config(mib: int) -> str:
    rows = ["segment_blocks = 64\ntimeout_ms = 10000\nawake_mw = 8000\nstandby_mw = 1000\nwake_mj = 50000\n"]
    for name, blocks, view in ((NAME, mib * 2048, '"log"'), ("log", 2048, "")):
        rows.append(f'[[volume]]\nname = "{name}"\nhost = "{name}"\ndisk = 0\nhome_blocks = {blocks}\nsegments = 8\nview = [{view}]\n')
    return "".join(rows)


def call(*words: str, folder: Path, status: int = 0) -> str:
    run = subprocess.run(words, cwd=folder, stdin=subprocess.DEVNULL, capture_output=True, text=True, timeout=600)
    assert run.returncode == status, f"{' '.join(words)} ends with {run.returncode}: {run.stdout}{run.stderr}"
    return run.stdout


# ---- The server's side


class Served:
    """One session at a socket: the program is started for the first client that comes, and ends with 0, where that is asked."""

    def __init__(self, folder: Path, socat: bool):
        self.folder, self.socat, self.path, self.ends = folder, socat, folder / "socket", True

    def leaves(self) -> "Served":
        """For a client that asks to go away and doesn't wait for the reply."""
        other = Served(self.folder, self.socat)
        other.ends = False
        return other

    def __enter__(self) -> str:
        with contextlib.suppress(FileNotFoundError):
            self.path.unlink()
        (self.folder / "status").write_text("")
        if self.socat:
            errors = None if self.ends else subprocess.DEVNULL
            self.run = subprocess.Popen(["socat", f"UNIX-LISTEN:{self.path}", "EXEC:./session"], cwd=self.folder, stderr=errors)
            for _ in range(1000):
                if self.path.exists():
                    break
                time.sleep(0.01)
        else:
            self.run = None
            self.listener = socket.socket(socket.AF_UNIX)
            self.listener.bind(str(self.path))
            self.listener.listen(1)
            self.child = os.fork()
            if self.child == 0:
                connection, _ = self.listener.accept()
                os.dup2(connection.fileno(), 0)
                os.dup2(connection.fileno(), 1)
                os.chdir(self.folder)
                os.execv("./session", ["./session"])
        return f"nbd+unix:///?socket={self.path}"

    def __exit__(self, kind, *_):
        if self.run:
            self.run.wait(60)
        else:
            self.listener.close()
            os.waitpid(self.child, 0)
        if kind is None and self.ends:
            for _ in range(500):
                if (status := (self.folder / "status").read_text().strip()) != "":
                    break
                time.sleep(0.01)
            assert status == "0", f"a session ends with {status or 'no status'}"


# ---- The clients that are installed


def look(served: Served, mib: int) -> None:
    with served as uri:
        text = call("nbdinfo", uri, folder=served.folder)
    for word in (f"export-size: {mib << 20}", "block_size_minimum: 512", "block_size_preferred: 4096", "block_size_maximum: 33554432"):
        assert word in text, f"nbdinfo tells no {word}: {text}"
    for word in ("can_flush: true", "can_fua: true", "is_read_only: false", "can_multi_conn: false"):
        assert word in text, f"nbdinfo tells no {word}: {text}"
    with served.leaves() as uri:
        text = call("nbdinfo", "--list", uri, folder=served.folder)
    assert f'export="{NAME}"' in text, f"nbdinfo lists no {NAME}: {text}"


def copies(served: Served, mib: int, name: str, to: list[str], back: list[str]) -> None:
    """Copies random bytes in and out."""
    folder = served.folder
    (folder / "in.raw").write_bytes(random.Random(name).randbytes(mib << 20))
    seconds = []
    for words in (to, back):
        with served as uri:
            begin = time.monotonic()
            call(*(it.replace("URI", uri) for it in words), folder=folder)
            seconds.append(time.monotonic() - begin)
    call("cmp", "in.raw", "out.raw", folder=folder)
    os.unlink(folder / "out.raw")
    print(f"{name}: {mib} MiB in and out are the same: {mib / seconds[0]:.1f} MiB/s in, {mib / seconds[1]:.1f} MiB/s out", flush=True)


def plain_copy(folder: Path, mib: int) -> None:
    (folder / "in.raw").write_bytes(random.Random("cp").randbytes(mib << 20))
    begin = time.monotonic()
    call("cp", "in.raw", "out.raw", folder=folder)
    call("sync", "out.raw", folder=folder)
    print(f"cp and sync of a file: {mib / (time.monotonic() - begin):.1f} MiB/s", flush=True)
    os.unlink(folder / "out.raw")


def patterns(served: Served, mib: int) -> None:
    """Patterns are written and verified by qemu-io, and reads and writes past the end are refused."""
    asked = ("write -P 0x5a 0 1M", "write -f -P 0x33 3145728 20k", "flush", "read -P 0x5a 0 1M", "read -P 0x33 3145728 20k")
    with served as uri:
        words = [word for line in asked for word in ("-c", line)]
        text = call("qemu-io", "-f", "raw", *words, uri, folder=served.folder)
    assert "verification failed" not in text and text.count("bytes at offset") == 4, text
    with served as uri:
        run = subprocess.run(["qemu-io", "-f", "raw", "-c", f"read {mib << 20} 4k", uri], capture_output=True, text=True, timeout=60)
    assert run.returncode != 0, "a read past the end is done"


# ---- Sessions in a row


def found_in(file: str, form: str) -> str:
    found = re.search(form, (TOP / file).read_text(), re.M)
    assert found, f"{file} has no line {form}"
    return found[1]


def fronts(wol: str, socket_at: str, missing: list[str]) -> dict[str, list[str]]:
    """What starts a session for each connection, as docs/USAGE.md and contrib/systemd have it, with this program, volume and socket."""
    serve = found_in("contrib/systemd/wol-usr0@.service", r"^ExecStart=-(.* serve usr0)$").replace("/usr/local/bin/wol", wol).replace("usr0", NAME)
    line = found_in("docs/USAGE.md", r"^    cd /srv/wol && (socat .*)$")
    words = {"/run/wol/usr0.sock": socket_at, "'": "", "wol serve usr0": f"{wol} serve {NAME}"}
    for old, new in words.items():
        line = line.replace(old, new)
    first, listen, run = line.split(" ", 2)
    both = {"socat": [first, listen, run], "systemd-socket-activate": ["systemd-socket-activate", "--accept", "--inetd", "-l", socket_at, *serve.split()]}
    return {name: front for name, front in both.items() if name not in missing}


@contextlib.contextmanager
def listening(words: list[str], folder: Path, at: str):
    """Something that listens at a socket meanwhile."""
    with contextlib.suppress(FileNotFoundError):
        os.unlink(at)
    with open(folder / "front.log", "ab") as log:
        listener = subprocess.Popen(words, cwd=folder, stdin=subprocess.DEVNULL, stdout=log, stderr=log)
    try:
        for _ in range(1000):
            if os.path.exists(at):
                break
            time.sleep(0.01)
        yield
    finally:
        listener.terminate()
        listener.wait(60)


def in_a_row(wol: str, folder: Path, mib: int, missing: list[str], rounds: int = 5) -> None:
    """Each client twice in a row, at a listener that goes on."""
    at = str(folder / "row.sock")
    uri = f"nbd+unix:///?socket={at}"
    fio = ["fio", "--name=row", "--ioengine=nbd", f"--uri={uri}", "--rw=randwrite", "--bs=4k", "--io_size=256k", "--iodepth=4", "--verify=crc32c"]
    clients = {
        "fio": [*fio, f"--size={mib}m", "--verify_state_save=0"],
        "qemu-io": ["qemu-io", "-f", "raw", "-c", "write -P 0x21 0 64k", "-c", "read -P 0x21 0 64k", uri],
        "nbdcopy": ["nbdcopy", "row.raw", uri],
    }
    (folder / "row.raw").write_bytes(random.Random("row").randbytes(1 << 20))
    for front, words in fronts(wol, at, missing).items():
        with listening(words, folder, at):
            for name in (it for it in clients if it not in missing):
                begin = time.monotonic()
                for number in range(2 * rounds):
                    run = subprocess.run(clients[name], cwd=folder, stdin=subprocess.DEVNULL, capture_output=True, text=True, timeout=600)
                    said = f"{run.stdout}{run.stderr}"
                    well = run.returncode == 0 and "verification failed" not in said
                    assert well, f"{front}, {name}, session {number + 1} of {2 * rounds} in a row: {said[-600:]}\n{(folder / 'front.log').read_text()[-600:]}"
                print(f"{front}: {2 * rounds} sessions of {name} in a row, {time.monotonic() - begin:.1f} s", flush=True)
    for name in (it for it in ("nbdkit", "qemu-nbd") if not {it, "socat", "qemu-io"} & {*missing}):
        through = found_in("docs/USAGE.md", rf"^ *`({name} -f [^`]*)`").replace("/run/wol/usr0.sock", at).replace("/run/wol/", f"{folder}/")
        with listening(fronts(wol, at, missing)["socat"], folder, at), listening(shlex.split(through), folder, f"{folder}/front.sock"):
            asked = ("qemu-io", "-f", "raw", "-c", "write -P 9 3 5", "-c", "read -P 9 3 5", f"nbd+unix:///?socket={folder}/front.sock")
            assert "verification failed" not in call(*asked, folder=folder), f"{name} in front: other bytes are read"
        print(f"{name} in front of it: single bytes are written and read", flush=True)
    # (the last session may still be closing)
    for _ in range(300):
        if subprocess.run([wol, "check"], cwd=folder, stdin=subprocess.DEVNULL, capture_output=True).returncode == 0:
            break
        time.sleep(0.1)
    call(wol, "check", folder=folder)


# ---- A client of its own


class Client:
    """A client on a pair of sockets, which goes on with requests before their replies."""

    def __init__(self, wol: str, folder: Path, word: str = "serve"):
        self.own, other = socket.socketpair()
        self.run = subprocess.Popen([wol, word, NAME], cwd=folder, stdin=other, stdout=other, stderr=subprocess.DEVNULL)
        other.close()
        self.cookie = 0

    def take(self, count: int) -> bytes:
        got = b""
        while len(got) < count:
            more = self.own.recv(count - len(got))
            if not more:
                raise EOFError
            got += more
        return got

    def shake(self) -> int:
        """Goes; answers the size of the export."""
        assert self.take(18) == b"NBDMAGICIHAVEOPT\0\3"
        name = NAME.encode()
        data = struct.pack(">I", len(name)) + name + b"\0\0"
        self.own.sendall(struct.pack(">I", 3) + OPTION + struct.pack(">II", 7, len(data)) + data)
        size = 0
        while True:
            magic, option, kind, length = struct.unpack(">QIII", self.take(20))
            given = self.take(length)
            assert (magic, option) == (ANSWER, 7) and kind in (1, 3), (magic, option, kind)
            if kind == 1:
                return size
            if given[:2] == b"\0\0":
                size = struct.unpack(">Q", given[2:10])[0]

    def ask(self, command: int, offset: int = 0, length: int = 0, given: bytes = b"", flags: int = 0) -> int:
        self.cookie += 1
        self.own.sendall(struct.pack(">IHHQQI", REQUEST, flags, command, self.cookie, offset, length) + given)
        return self.cookie

    def reply(self, length: int = 0) -> tuple[int, int, bytes]:
        magic, error, cookie = struct.unpack(">IIQ", self.take(16))
        assert magic == REPLY
        return cookie, error, self.take(length) if error == 0 else b""

    def read(self, offset: int, length: int) -> bytes:
        cookie = self.ask(READ, offset, length)
        found, error, got = self.reply(length)
        assert (found, error) == (cookie, 0)
        return got

    def leave(self) -> None:
        self.ask(DISC)
        assert self.run.wait(60) == 0
        self.own.close()

    def end(self) -> int:
        self.own.close()
        return self.run.wait(60)


def content(wol: str, folder: Path, blocks: int) -> list[bytes]:
    client = Client(wol, folder)
    client.shake()
    got = b"".join(client.read(at * BLOCK, min(2048, blocks - at) * BLOCK) for at in range(0, blocks, 2048))
    client.leave()
    return [got[k : k + BLOCK] for k in range(0, len(got), BLOCK)]


def bad_clients(wol: str, folder: Path) -> None:
    """Clients that speak no NBD, that go away, and a second one."""
    for said, status in ((b"GET / HTTP/1.1\r\n\r\n", 14), (b"", 0), (b"\0\0\0\3", 0), (b"\0\0\0\3IHAVE", 14), (b"\0\0\0\3" + bytes(16), 14)):
        client = Client(wol, folder)
        client.take(18)
        client.own.sendall(said)
        client.own.shutdown(socket.SHUT_WR)
        assert (found := client.run.wait(60)) == status, f"{said!r} ends with {found}"
        client.own.close()
    first = Client(wol, folder)
    first.shake()
    second = Client(wol, folder)
    assert second.own.recv(1) == b"" and (found := second.end()) == 4, f"a second session ends with {found}"
    first.ask(7, 0, BLOCK)
    assert first.reply()[1] == 22
    first.ask(WRITE, 100, BLOCK, bytes(BLOCK))
    assert first.reply()[1] == 22
    first.leave()


def off_load(wol: str, folder: Path, rng: random.Random, blocks: int) -> None:
    """Puts records into the logs: the disk is asleep when its writes come, and the log's disk is awake."""
    lines = [f"{at},log,0,Read,0,{BLOCK},0" for at in (10**9, 10**9 + 9 * 10**7)]
    for at in range(10**9 + 15 * 10**7, 10**9 + 17 * 10**7, 10**6):
        lines.append(f"{at},{NAME},0,Write,{rng.randrange(blocks - 8) * BLOCK},{rng.randint(1, 8) * BLOCK},0")
    run = subprocess.run([wol, "replay", "--reclaim", "off"], cwd=folder, input="\n".join(lines) + "\n", capture_output=True, text=True, timeout=120)
    assert run.returncode == 0, f"replay ends with {run.returncode}: {run.stdout}"
    assert " records 0 " not in call(wol, "check", folder=folder).splitlines()[0], "nothing was off-loaded"


def killed(wol: str, folder: Path, rng: random.Random, blocks: int, before: list[bytes]) -> bool:
    """One session that is killed among writes; whether it was. The blocks that were there are brought up to date."""
    client = Client(wol, folder)
    client.shake()
    asked, acknowledged, kill_at = [], 0, rng.randint(1, 60)
    try:
        for number in range(100):
            at, count = rng.randrange(blocks - 300), rng.choice((1, 1, 2, 8, 64, 300))
            given = rng.randbytes(BLOCK) * count
            asked.append((at, count, given[:BLOCK]))
            client.ask(WRITE, at * BLOCK, count * BLOCK, given, rng.randint(0, 1))
            while number - acknowledged >= rng.randint(0, 3):
                assert client.reply()[1] == 0
                acknowledged += 1
            if number == kill_at:
                time.sleep(rng.uniform(0, 0.003))
                client.run.send_signal(signal.SIGKILL)
    except (EOFError, ConnectionError):
        pass
    while acknowledged < len(asked):  # replies that were out
        try:
            assert client.reply()[1] == 0
        except (EOFError, ConnectionError):
            break
        acknowledged += 1
    client.end()
    assert client.run.returncode in (0, -9), f"a session that is killed ends with {client.run.returncode}"
    call(wol, "check", folder=folder)
    allowed = [{it} for it in before]
    for number, (at, count, block) in enumerate(asked):
        for k in range(at, at + count):
            allowed[k] = {block} if number < acknowledged else allowed[k] | {block}
    after = content(wol, folder, blocks)
    for k, block in enumerate(after):
        assert block in allowed[k], f"block {k} lost a write that was acknowledged"
    before[:] = after
    return acknowledged < len(asked)


def main() -> None:
    parser = argparse.ArgumentParser(usage=__doc__)
    parser.add_argument("wol")
    parser.add_argument("--kills", type=int, default=100)
    parser.add_argument("--mib", type=int, default=64)
    parser.add_argument("--seed", type=int, default=1)
    parser.add_argument("--folder", type=Path)
    asked = parser.parse_args()
    wol = os.path.abspath(asked.wol)
    folder = asked.folder or Path(tempfile.mkdtemp(prefix="wol-clients-"))
    folder.mkdir(exist_ok=True)
    missing = [it for it in CLIENTS if not shutil.which(it)]
    for it in missing:
        print(f"missing: {it} (Debian's {CLIENTS[it]}), so it isn't tried")
    try:
        (folder / "wol.toml").write_text(config(asked.mib))
        (folder / "session").write_text(f'#!/bin/sh\n"{wol}" serve {NAME}\necho $? >status\n')
        (folder / "session").chmod(0o755)
        call(wol, "format", folder=folder)
        served = Served(folder, "socat" not in missing)
        plain_copy(folder, asked.mib)
        if "nbdinfo" not in missing:
            look(served, asked.mib)
            print("nbdinfo: size, block sizes and flags are told, and the name is listed", flush=True)
        if "nbdcopy" not in missing:
            copies(served, asked.mib, "nbdcopy", ["nbdcopy", "in.raw", "URI"], ["nbdcopy", "URI", "out.raw"])
        if "qemu-img" not in missing:
            into = ["qemu-img", "convert", "-n", "-f", "raw", "-O", "raw", "in.raw", "URI"]
            copies(served, asked.mib, "qemu-img", into, ["qemu-img", "convert", "-f", "raw", "-O", "raw", "URI", "out.raw"])
        if "qemu-io" not in missing:
            patterns(served, asked.mib)
            print("qemu-io: patterns are verified, and a read past the end is refused", flush=True)
        in_a_row(wol, folder, asked.mib, missing)
        bad_clients(wol, folder)
        print("bytes that are no handshake, a second session and bad requests are refused", flush=True)
        call(wol, "check", folder=folder)
        rng, blocks, rounds, kills = random.Random(asked.seed), min(asked.mib * 2048, 8192), 0, 0
        (folder / "wol.toml").write_text(config(4))
        call(wol, "format", folder=folder)
        before = [bytes(BLOCK)] * blocks
        while kills < asked.kills and rounds < 3 * asked.kills:
            if rounds % 5 == 0:
                off_load(wol, folder, rng, blocks)
                before = content(wol, folder, blocks)
            kills += killed(wol, folder, rng, blocks, before)
            rounds += 1
        assert kills == asked.kills, f"{rounds} rounds had {kills} kills in the middle"
        print(f"{kills} kills in the middle of writes, of {rounds} sessions: nothing that was acknowledged is lost", flush=True)
    except (AssertionError, subprocess.TimeoutExpired, EOFError, OSError) as wrong:
        print(f"clients: {wrong!r}; see {folder}")
        sys.exit(1)
    if not asked.folder:
        shutil.rmtree(folder)


main()
