#!/usr/bin/env bash
# Lines per second, processor time, calls and peak memory of `wol replay` (or `wol soak`) on generated lines over 36 volumes, whose
# images take 2 GB, sparse. It runs on a memory file system, where a sync costs nothing.
# usage: bench/replay.sh [LINES] [WORKERS] [replay|soak]     the program is build/wol, as `make build` leaves it; strace counts the
# calls where it is installed
set -eu
cd "$(dirname "$0")/.."
lines=${1:-1000000}
workers=${2:-1}
command=${3:-replay}
program=$PWD/build/wol
[ -x "$program" ] || { echo "bench/replay.sh: no build/wol: run 'make build' first" >&2; exit 1; }
echo "$(date -u +%F), $(nproc) processors: $(sed -n 's/^model name.*: //p' /proc/cpuinfo | head -n 1)"
folder=$(mktemp -d /dev/shm/wol-bench.XXXXXX)
trap 'rm -r "$folder"' EXIT
cd "$folder"
{
    printf 'segment_blocks = 128\ntimeout_ms = 60000\nawake_mw = 8000\nstandby_mw = 1000\nwake_mj = 50000\n'
    for k in $(seq 0 35); do
        printf '[[volume]]\nname = "v%d"\nhost = "h%d"\ndisk = 0\nhome_blocks = 100000\nsegments = 64\nview = ["v%d", "v%d"]\n' \
            "$k" "$k" $(((k + 1) % 36)) $(((k + 2) % 36))
    done
} >wol.toml
"$program" format >/dev/null
case $command in
replay)
    "$program" gen 7 "$lines" >trace.csv
    set -- "$program" replay --workers "$workers"
    ;;
soak)
    : >trace.csv
    set -- "$program" soak 7 "$lines" --workers "$workers"
    ;;
*)
    echo "bench/replay.sh: $command is neither replay nor soak" >&2
    exit 1
    ;;
esac

# runs the words with the trace, and prints the wall time, processor time and peak memory
python3 - "$lines" "$@" <<'PYTHON'
import resource, subprocess, sys, time
lines, words = int(sys.argv[1]), sys.argv[2:]
start = time.monotonic()
with open("trace.csv", "rb") as trace, open("out.txt", "wb") as out:
    status = subprocess.run(words, stdin=trace, stdout=out).returncode
wall = time.monotonic() - start
used = resource.getrusage(resource.RUSAGE_CHILDREN)
print("status %d" % status)
print("lines  %.2f s  %d lines/s" % (wall, lines / wall))
print("cpu    %.2f s user  %.2f s system" % (used.ru_utime, used.ru_stime))
print("memory %.1f MiB at most" % (used.ru_maxrss / 1024))
PYTHON
tail -n 1 out.txt
if command -v strace >/dev/null; then
    "$program" format >/dev/null
    strace -f -c -e trace=pread64,pwrite64,fsync,fdatasync,lseek,read,write -o calls.txt "$@" <trace.csv >/dev/null || true
    awk -v lines="$lines" '$NF ~ /^[a-z]/ && $4 ~ /^[0-9]+$/ { printf "%-10s %d calls  %.3f a line\n", $NF, $4, $4 / lines }' calls.txt
fi
