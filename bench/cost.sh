#!/usr/bin/env bash
# Processor seconds and the greatest memory of single commands: a soak over 36 volumes, and one of ten times as many lines, whose memory is to be the
# same; lines of nobody, which are only read, beside `wc -l`; four policies on the week of samples/week, where `make week` left its trace; and digests
# of 4 volumes of 51 MB beside `sha256sum` of the same bytes. Images are on a memory file system, just formatted. The least of RUNS runs counts.
# usage: bench/cost.sh [LINES]    lines of the first soak and of nobody (1000000 if left out); RUNS is 3 if left out; the program is build/wol, as
# `make build` leaves it. It needs /usr/bin/time
set -eu
cd "$(dirname "$0")/.."
top=$PWD
program=$top/build/wol
[ -x "$program" ] || { echo "bench/cost.sh: no build/wol: run 'make build' first" >&2; exit 1; }
[ -x /usr/bin/time ] || { echo "bench/cost.sh: no /usr/bin/time" >&2; exit 1; }
room=$(mktemp -d /dev/shm/wol-cost.XXXXXX)
trap 'rm -r "$room"' EXIT
cd "$room"
python3 - "$program" "$top" "${1:-1000000}" "${RUNS:-3}" <<'PYTHON'
import os, shutil, subprocess, sys
program, top, lines, runs = sys.argv[1], sys.argv[2], int(sys.argv[3]), int(sys.argv[4])


def configure(volumes):
    with open("wol.toml", "w") as file:
        file.write("segment_blocks = 128\ntimeout_ms = 60000\nawake_mw = 8000\nstandby_mw = 1000\nwake_mj = 50000\n")
        for k in range(volumes):
            view = ", ".join('"v%d"' % ((k + it) % volumes) for it in (1, 2) if volumes > 2)
            file.write('[[volume]]\nname = "v%d"\nhost = "h%d"\ndisk = 0\nhome_blocks = 100000\nsegments = 64\nview = [%s]\n' % (k, k, view))


def spend(words, given):
    """The seconds of a processor and of the clock that a command takes, and its greatest memory in MB."""
    with open(given, "rb") as trace, open("out.txt", "wb") as out:
        subprocess.run(["/usr/bin/time", "-o", "used.txt", "-f", "%U %S %e %M", *words], stdin=trace, stdout=out, check=True)
    with open("used.txt") as used:
        user, system, clock, kib = map(float, used.read().split())
    return user + system, clock, kib / 1024


def row(work, words, given=os.devnull, beside=None):
    """The least of some runs of a command, and of a plain one by turns."""
    least, plain = None, None
    for _ in range(runs):
        subprocess.run([program, "format"], stdout=subprocess.DEVNULL, check=True)
        got = spend(words, given)
        least = got if least is None else tuple(map(min, least, got))
        if beside:
            cpu = spend(["sh", "-c", beside], given)[0]
            plain = cpu if plain is None else min(plain, cpu)
    told = "`%s`: %.2f CPU s, ratio %.2f" % (beside, plain, least[0] / max(plain, 0.01)) if beside else ""
    print("| %s | %.2f | %.2f | %.1f | %s |" % (work, *least, told), flush=True)


print("| work | CPU s | clock s | greatest memory, MB | beside |\n|---|---|---|---|---|")
configure(36)
for count in lines, 10 * lines:
    row("soak of %d lines, 36 volumes" % count, [program, "soak", "7", str(count)])
with open("nobody.csv", "w") as file:
    for i in range(lines):
        kind = "Write" if i % 4 else "Read"
        file.write("%d0000000,nobody%d,0,%s,%d,4096,100\n" % (12816637200 + i // 64, i % 36, kind, i * 7 % 6000 * 4096))
row("replay of %d lines of nobody" % lines, [program, "replay"], "nobody.csv", "wc -l")
row("whatif of %d lines of nobody" % lines, [program, "whatif"], "nobody.csv", "wc -l")
week = os.path.join(top, "build/week/week.csv")
if os.path.exists(week):
    for it in os.listdir("."):
        if it.endswith(".vol"):
            os.unlink(it)
    shutil.copy(os.path.join(top, "samples/week/wol.toml"), "wol.toml")
    row("whatif of samples/week", [program, "whatif"], week)
for it in os.listdir("."):
    if it.endswith(".vol"):
        os.unlink(it)
configure(4)
row("check of 4 volumes of 51 MB", [program, "check"], beside="head -q -c %d v0.vol v1.vol v2.vol v3.vol | sha256sum" % (100000 * 512))
PYTHON
