#!/usr/bin/env bash
# Twenty works, each beside a plain program in the same place in the same run: replays of generated lines and of windows of 64 lines over 36 volumes
# with 1 and 4 workers, on a memory file system and synced on a disk, beside `dd` with a synced block of 4 KiB a line by as many processes as workers;
# the greatest memory of soaks; a million lines of no volume, and what `whatif` tells of generated lines and of the shipped week, beside awk programs
# that read the same lines; what `whatif` takes for 64 volumes beside 16; digests beside `sha256sum` of as many bytes; and what a served volume does
# beside a file that nbdkit serves, by bench/serve.sh, where what that needs is installed. The works of a group run by turns, each replay on images
# just formatted, and the least of RUNS runs counts of each, and of each plain program. A last line says how the speed of a processor changed
# meanwhile.
# usage: bench/ratios.sh [LINES] [SYNCED]    lines in memory (1000000 if left out) and on the disk (12000); the program is build/wol, as `make build`
# leaves it. RUNS is 3 if left out. DISK is the folder on the disk (/var/tmp), SECONDS_OF_FIO how long each run of fio is (3). The table in the form
# of bench/FIGURES.md is printed
set -eu
cd "$(dirname "$0")/.."
program=$PWD/build/wol
[ -x /usr/bin/time ] || { echo "bench/ratios.sh: no /usr/bin/time" >&2; exit 1; }
[ -x "$program" ] || { echo "bench/ratios.sh: no build/wol: run 'make build' first" >&2; exit 1; }
memory=$(mktemp -d /dev/shm/wol-bench.XXXXXX)
disk=$(mktemp -d "${DISK:-/var/tmp}/wol-bench.XXXXXX")
trap 'rm -r "$memory" "$disk"' EXIT
python3 - "$program" "$memory" "$disk" "$PWD" "${SECONDS_OF_FIO:-3}" "${1:-1000000}" "${2:-12000}" "${RUNS:-3}" <<'PYTHON'
import os, shutil, subprocess, sys, time
program, memory, disk, top, seconds, lines, synced, runs = sys.argv[1:6] + [int(it) for it in sys.argv[6:]]
speeds = []  # what the same work of a processor took before each round
CPU, CLOCK = range(2)
SPIN_DOWN = "awk -F, '{ k = $2 \".\" $3; s = $1 - last[k]; if (s > 600000000) down[k] += s - 600000000; last[k] = $1 } END { for (k in down) print k, down[k] }'"


def configure(volumes):
    with open("wol.toml", "w") as file:
        file.write("segment_blocks = 128\ntimeout_ms = 60000\nawake_mw = 8000\nstandby_mw = 1000\nwake_mj = 50000\n")
        for k in range(volumes):
            view = ", ".join('"v%d"' % ((k + it) % volumes) for it in (1, 2) if volumes > 4)
            file.write('[[volume]]\nname = "v%d"\nhost = "h%d"\ndisk = 0\nhome_blocks = 100000\nsegments = 64\nview = [%s]\n' % (k, k, view))


def windows(count, size, host="h"):
    with open("trace.csv", "w") as file:
        for i in range(count):
            kind = "Write" if i % 4 else "Read"
            second = 12816637200 + i // size
            file.write("%d0000000,%s%d,0,%s,%d,4096,100\n" % (second, host, i % 36, kind, i * 7 % 6000 * 4096))


def generate(count):
    with open("trace.csv", "wb") as file:
        subprocess.run([program, "gen", "7", str(count)], stdout=file, check=True)


def spend(words):
    """CPU seconds, and seconds by the clock, of a command that reads the trace."""
    start = time.monotonic()
    with open("trace.csv", "rb") as trace, open("out.txt", "wb") as out:
        run = subprocess.Popen(words, stdin=trace, stdout=out)
        _, status, used = os.wait4(run.pid, 0)
        run.returncode = status
    if status:
        sys.exit("bench/ratios.sh: %s ends with %d" % (" ".join(words), status))
    return used.ru_utime + used.ru_stime, time.monotonic() - start


def shell(text):
    return lambda: spend(["bash", "-c", text])


def wol(*words, fresh=False):
    def act():
        if fresh:
            subprocess.run([program, "format"], stdout=subprocess.DEVNULL, check=True)
        return spend([program, *words])
    return act


def write_and_sync(count, workers):
    one = "dd if=/dev/zero bs=4096 count=%d oflag=dsync status=none of=limit%%d" % (count // workers)
    return shell("%s wait; rm limit*" % " ".join(one % k + " &" for k in range(workers)))


def table(works):
    """A row for each of some works by turns: the least of what it and its plain program spend."""
    least = {}
    for _ in range(runs):
        speeds.append(shell("head -c 100000000 /dev/zero | sha256sum")()[CPU])
        for name, _, ours, plain in works:
            for key, act in ((name, ours), ((name, ""), plain)):
                got = act()
                least[key] = [min(it) for it in zip(least.get(key, got), got)]
    for name, what, _, _ in works:
        ours, plain = least[name][what], least[name, ""][what]
        print("| %s | %.3g | %.3g | %.2f |" % (name, ours, plain, ours / plain if plain else 0), flush=True)
    return least


def replay(workers, mode="between"):
    return wol("replay", "--workers", str(workers), "--reclaim", mode, fresh=True)


print("| work | wol | plain program | ratio |\n|---|---|---|---|")
os.chdir(memory)
configure(36)
generate(lines)
table([("memory, replay of %d generated lines, %d worker%s, clock s; dd" % (lines, it, "s" if it > 1 else ""), CLOCK, replay(it), write_and_sync(lines, it))
       for it in (1, 4)])


def greatest(*words):
    """The greatest memory of a command that reads the trace, in MB: measured from a small process, since a child begins as large as its parent."""
    shell("exec /usr/bin/time -f %%M -o most.txt %s" % " ".join("'%s'" % it for it in words))()
    with open("most.txt") as file:
        return int(file.read().split()[-1]) / 1000


def soak(count):
    wol("format")()
    return greatest(program, "soak", "7", str(count))


# (how much of the program's file the system maps differs from run to run)
most = [min(soak(count) for _ in range(min(runs, 2))) for count in (lines, 10 * lines)]
plain = greatest("awk", "-F,", "{ n += $6 } END { print n }")
for count, got, beside, plain in (lines, most[0], "awk of a field", plain), (10 * lines, most[1], "a tenth of the lines", most[0]):
    print("| memory, soak of %d lines, greatest MB; %s | %.3g | %.3g | %.2f |" % (count, beside, got, plain, got / plain), flush=True)
for it in os.listdir("."):
    if it.endswith(".vol"):
        os.remove(it)
table([("memory, whatif of %d generated lines, 36 volumes, CPU s; awk of spin-down" % lines, CPU, wol("whatif"), shell(SPIN_DOWN))])
shutil.copy(top + "/samples/week/wol.toml", "wol.toml")
subprocess.run("python3 '%s/samples/week/week.py' | head -n 400000 >trace.csv" % top, shell=True)
table([("memory, whatif of the shipped week's first 400000 lines, CPU s; awk of spin-down", CPU, wol("whatif"), shell(SPIN_DOWN))])
generate(lines // 10)


def whatif(volumes):
    def act():
        configure(volumes)
        return spend([program, "whatif"])
    return act


table([("memory, whatif of %d lines, 64 volumes, CPU s; 16 volumes" % (lines // 10), CPU, whatif(64), whatif(16))])
windows(lines, 64, "nobody")
fields = shell("awk -F, '{ n += $6 } END { print n }'")
table([("memory, %d lines of no volume, CPU s; awk of a field" % lines, CPU, wol("solo", "usr", "0", "1"), fields)])
os.remove("solo.vol")
for place, folder, count in ("memory", memory, lines // 4), ("disk", disk, synced):
    os.chdir(folder)
    configure(36)
    windows(count, 64)
    table([("%s, %d lines, windows of 64, %d worker%s, clock s; dd" % (place, count, it, "s" if it > 1 else ""), CLOCK, replay(it), write_and_sync(count, it))
           for it in (1, 4)])
    for it in os.listdir("."):
        if os.path.isfile(it):
            os.remove(it)
os.chdir(memory)
for volumes in 1, 4:
    configure(volumes)
    open("trace.csv", "w").close()
    subprocess.run([program, "format"], stdout=subprocess.DEVNULL, check=True)
    digests = shell("head -q -c %d %s | sha256sum" % (100000 * 512, " ".join("v%d.vol" % k for k in range(volumes))))
    table([("memory, check of %d volume%s of 51 MB, CPU s; sha256sum" % (volumes, "s" if volumes > 1 else ""), CPU, wol("check"), digests)])
served = subprocess.run([top + "/bench/serve.sh", seconds, "/dev/shm"], stdout=subprocess.PIPE, text=True)
for row in served.stdout.splitlines()[2:]:
    _, work, ours, plain, ratio, _ = row.split("|")
    print("| %s; nbdkit |%s|%s|%s|" % (work.strip().replace("/dev/shm: ", "memory, serve, "), ours, plain, ratio))
print("\nBefore each round of runs `sha256sum` of 100 MB took %.2f to %.2f CPU seconds: a processor's speed." % (min(speeds), max(speeds)))
PYTHON
