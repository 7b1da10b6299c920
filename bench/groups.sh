#!/usr/bin/env bash
# Syncs for each write of a sleeping volume, whose writes go to the log of one that is awake: in windows of 1, 8 and 64 consecutive writes of
# one block. The writes of a window go to the log as groups, each with two syncs. Counted is what a run with 100 windows more syncs more, so
# the claim of the segment, opening and closing are left out.
# usage: bench/groups.sh     the program is build/wol, as `make build` leaves it; it wants strace, which counts the calls
set -eu
cd "$(dirname "$0")/.."
program=$PWD/build/wol
[ -x "$program" ] || { echo "bench/groups.sh: no build/wol: run 'make build' first" >&2; exit 1; }
command -v strace >/dev/null || { echo "bench/groups.sh: strace isn't installed" >&2; exit 1; }
folder=$(mktemp -d)
trap 'rm -r "$folder"' EXIT
cd "$folder"
cat >wol.toml <<'TOML'
segment_blocks = 16384
timeout_ms = 60000
awake_mw = 8000
standby_mw = 1000
wake_mj = 50000
[[volume]]
name = "a"
host = "a"
disk = 0
home_blocks = 10000
segments = 0
view = ["b"]
[[volume]]
name = "b"
host = "b"
disk = 0
home_blocks = 1000
segments = 1
view = []
TOML

# trace WINDOWS WRITES: `b` is read before the disk of `a` goes down and again behind that; then so many windows of so many writes come, 1.1
# seconds apart
trace() {
    awk -v windows="$1" -v writes="$2" 'BEGIN {
        printf "128166372000000000,b,0,Read,0,512,100\n128166372500000000,b,0,Read,0,512,100\n128166373000000000,b,0,Read,0,512,100\n"
        for (i = 0; i < windows; i++) for (k = 0; k < writes; k++)
            printf "12816637%010.0f,a,0,Write,%d,512,100\n", 3011000000 + i * 11000000, (i * writes + k) * 512
    }'
}

# syncs WINDOWS WRITES: how often the program syncs in that run
syncs() {
    "$program" format >/dev/null
    trace "$1" "$2" >trace.csv
    strace -f -c -e trace=fsync,fdatasync -o calls.txt "$program" replay --reclaim off <trace.csv >out.txt
    grep -q "^placed home 0 log $(($1 * $2)) drains 0$" out.txt || { echo "bench/groups.sh: not all writes went to the log" >&2; exit 1; }
    awk '$NF ~ /^f(data)?sync$/ { calls += $4 } END { print calls + 0 }' calls.txt
}

for writes in 1 8 64; do
    first=$(syncs 1 "$writes")
    all=$(syncs 101 "$writes")
    awk -v writes="$writes" -v more=$((all - first)) 'BEGIN { printf "windows of %2d writes: %.3f syncs a write\n", writes, more / (100 * writes) }'
done
