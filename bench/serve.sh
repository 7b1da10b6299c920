#!/usr/bin/env bash
# A served volume beside a file that nbdkit serves: reads and writes of 4 KiB at random places by fio, one or sixteen of them under way, and a copy of
# 128 MB in and out by nbdcopy. Both servers speak on the standard streams of a process that socat starts for a client, and both sync each write before
# they answer it (nbdkit by its filter `fua`). They are run by turns, each client in a session of its own, and the best of RUNS runs counts.
# usage: bench/serve.sh [SECONDS [FOLDER]..]    how long each fio runs (5 if left out), and the folders in which the images are (/dev/shm, which is
# a memory file system, and /var/tmp); RUNS is 3 if left out; the program is build/wol, as `make build` leaves it. It needs fio with its engine
# `nbd`, nbdkit, nbdcopy, socat and flock
set -eu
cd "$(dirname "$0")/.."
seconds=${1:-5}
[ $# -eq 0 ] || shift
[ $# -gt 0 ] || set -- /dev/shm /var/tmp
program=$PWD/build/wol
[ -x "$program" ] || { echo "bench/serve.sh: no build/wol: run 'make build' first" >&2; exit 1; }
for it in fio nbdkit nbdcopy socat flock; do
    command -v "$it" >/dev/null || { echo "bench/serve.sh: $it isn't installed" >&2; exit 1; }
done
python3 - "$program" "$seconds" "${RUNS:-3}" "$@" <<'PYTHON'
import json, os, shutil, subprocess, sys, tempfile, time
program, seconds, runs, *folders = sys.argv[1], int(sys.argv[2]), int(sys.argv[3]), *sys.argv[4:]
MIB = 128
CONFIG = """segment_blocks = 128
timeout_ms = 60000
awake_mw = 8000
standby_mw = 1000
wake_mj = 50000
volume = [
  { name = "disk", host = "disk", disk = 0, home_blocks = %d, segments = 0, view = ["log"] },
  { name = "log", host = "log", disk = 0, home_blocks = 1000, segments = 64, view = [] },
]
""" % (MIB * 2048)
SERVERS = {"wol": [program, "serve", "disk"], "nbdkit": ["nbdkit", "-s", "--filter=fua", "file", "file.img", "fuamode=force"]}


class Served:
    """Sessions of a server, one after another, for clients that come to its socket: fio comes twice."""

    def __init__(self, words):
        self.words = words

    def __enter__(self):
        if os.path.exists("socket"):
            os.unlink("socket")
        with open("session", "w") as file:
            file.write("#!/bin/sh\nexec flock lock %s\n" % " ".join("'%s'" % it for it in self.words))
        os.chmod("session", 0o755)
        self.run = subprocess.Popen(["socat", "UNIX-LISTEN:socket,fork", "EXEC:./session"], stderr=subprocess.DEVNULL)
        while not os.path.exists("socket"):
            time.sleep(0.01)
        return "nbd+unix:///?socket=" + os.path.abspath("socket")

    def __exit__(self, *_):
        self.run.terminate()
        self.run.wait(120)
        called(["flock", "lock", "true"])


def called(words):
    ran = subprocess.run(words, stdin=subprocess.DEVNULL, capture_output=True, text=True, timeout=600)
    if ran.returncode:
        sys.exit("bench/serve.sh: %s ends with %d: %s" % (" ".join(words), ran.returncode, ran.stderr))
    return ran.stdout


def requests(kind, depth):
    def act(uri):
        words = ["fio", "--name=it", "--ioengine=nbd", "--uri=" + uri, "--rw=rand" + kind, "--bs=4k", "--iodepth=%d" % depth, "--size=%dm" % MIB]
        told = called([*words, "--time_based", "--runtime=%d" % seconds, "--output-format=json"])
        return json.loads(told[told.index("{") :])["jobs"][0][kind]["iops"]
    return act


def copy(source, to):
    def act(uri):
        begin = time.monotonic()
        called(["nbdcopy", "--connections=1", *(it or uri for it in (source, to))])
        return MIB / (time.monotonic() - begin)
    return act


works = {"%s of 4 KiB, %d under way, a second" % (kind, depth): requests(kind, depth) for kind in ("read", "write") for depth in (1, 16)}
works |= {"copy of %d MiB in, MiB/s" % MIB: copy("in.raw", None), "copy of %d MiB out, MiB/s" % MIB: copy(None, "out.raw")}
print("| work | wol serve | nbdkit file | ratio |\n|---|---|---|---|")
for folder in folders:
    place = tempfile.mkdtemp(prefix="wol-serve-", dir=folder)
    os.chdir(place)
    with open("wol.toml", "w") as file:
        file.write(CONFIG)
    called([program, "format"])
    with open("in.raw", "wb") as file:
        file.write(os.urandom(MIB << 20))
    shutil.copy("in.raw", "file.img")
    with Served(SERVERS["wol"]) as uri:
        called(["nbdcopy", "--connections=1", "in.raw", uri])
    for work, act in works.items():
        most = {}
        for _ in range(runs):
            for name, words in SERVERS.items():
                with Served(words) as uri:
                    most[name] = max(most.get(name, 0), act(uri))
        print("| %s: %s | %d | %d | %.2f |" % (folder, work, most["wol"], most["nbdkit"], most["wol"] / most["nbdkit"]), flush=True)
    if "ok" not in called([program, "check"]):
        sys.exit("bench/serve.sh: the volumes aren't in order")
    os.chdir("/")
    shutil.rmtree(place)
PYTHON
