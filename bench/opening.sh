#!/usr/bin/env bash
# Seconds of opening a volume with many records of one block in its log: on a memory file system, and on a disk, from where it is always read
# anew, since opening has the system drop what it keeps of an image. Beside it what `cat` takes for the logger's image, once it was dropped and
# once more. What is timed is a replay of no lines; of each the best of RUNS runs counts (3 if left out).
# usage: bench/opening.sh [RECORDS]     (100000 if left out); the program is build/wol, as `make build` leaves it. DISK is the folder on the disk
# (/var/tmp)
set -eu
cd "$(dirname "$0")/.."
records=${1:-100000}
program=${PROGRAM:-$PWD/build/wol}
[ -x "$program" ] || { echo "bench/opening.sh: no build/wol: run 'make build' first" >&2; exit 1; }
memory=$(mktemp -d /dev/shm/wol-opening.XXXXXX)
disk=$(mktemp -d "${DISK:-/var/tmp}/wol-opening.XXXXXX")
trap 'rm -r "$memory" "$disk"' EXIT
echo "$(date -u +%F), $(nproc) processors: $(sed -n 's/^model name.*: //p' /proc/cpuinfo | head -n 1)"

# best CMD..: the least wall time of some runs, in seconds
best() {
    local start end least=
    for _ in $(seq "${RUNS:-3}"); do
        start=$(date +%s%N)
        "$@" >/dev/null 2>&1
        end=$(date +%s%N)
        [ -n "$least" ] && [ "$least" -le $((end - start)) ] || least=$((end - start))
    done
    awk -v least="$least" 'BEGIN { printf "%.2f", least / 1e9 }'
}

# The logger's disk is up, the volume's is down, and each line is a record of its own.
make_records() {
    cat >wol.toml <<C
segment_blocks = 256
awake_mw = 8000
standby_mw = 1000
wake_mj = 50000
[[volume]]
name = "own"
host = "own"
disk = 0
home_blocks = $records
segments = 0
view = ["log"]
[[volume]]
name = "log"
host = "log"
disk = 0
home_blocks = 4
segments = $((records / 120 + 2))
view = []
C
    "$program" format >/dev/null
    awk -v records="$records" 'BEGIN {
        printf "128166372000000000,log,0,Read,0,512,1\n128166372700000000,log,0,Read,0,512,1\n"
        for (i = 0; i < records; i++) printf "128166372710000000,own,0,Write,%d,512,1\n", i * 512
    }' >trace.csv
    "$program" replay --reclaim off <trace.csv >out.txt
    grep -q "log $records drains 0" out.txt || { echo "bench/opening.sh: not all was logged" >&2; exit 1; }
}

again() { cat log.vol; }

dropped() {
    dd if=log.vol iflag=nocache count=0 2>/dev/null
    cat log.vol
}

for place in "$memory" "$disk"; do
    cd "$place"
    make_records
    echo "$records records, $(($(stat -c %s log.vol) / 1000000)) MB of log, on $(stat -f -c %T .): opened in $(best "$program" replay </dev/null) s;" \
        "the log's bytes alone $(best dropped) s, once more $(best again) s"
done
