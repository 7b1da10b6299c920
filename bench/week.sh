#!/usr/bin/env bash
# What a week costs: three million generated lines over 36 volumes (samples/week), of which each logs on three others, replayed with
# `--reclaim between`, and the same without views, each on images just formatted. Printed are processor seconds, the best of RUNS runs.
# Let the machine do nothing else. On tmpfs it matters how large its pages are: `mount -o huge=always` makes them large.
# usage: bench/week.sh [FOLDER]    a folder on a memory file system (/dev/shm if left out), with 4 GB; RUNS is 3 if left out. The program is
# build/wol, as `make build` leaves it
set -eu
cd "$(dirname "$0")/.."
folder=${1:-/dev/shm}
runs=${RUNS:-3}
program=$PWD/build/wol
week=$PWD/samples/week
[ -x "$program" ] || { echo "bench/week.sh: no build/wol: run 'make build' first" >&2; exit 1; }
place=$(mktemp -d "$folder/wol-week.XXXXXX")
trap 'rm -r "$place"' EXIT
cd "$place"
echo "$(date -u +%F), $(nproc) processors: $(sed -n 's/^model name.*: //p' /proc/cpuinfo | head -n 1); $(stat -f -c %T .)"
python3 "$week/week.py" >week.csv
for views in with without; do
    if [ "$views" = with ]; then cp "$week/wol.toml" wol.toml; else sed 's/^view = .*/view = []/' "$week/wol.toml" >wol.toml; fi
    for _ in $(seq "$runs"); do
        "$program" format >out.txt
        TIMEFORMAT='%U %S'
        { time "$program" replay --reclaim between <week.csv >out.txt 2>progress.txt; } 2>times.txt
        awk -v views="$views" '{ printf "%s views: %.1f processor seconds, %.1f of them the program, %.1f the kernel\n", views, $1 + $2, $1, $2 }' times.txt
    done | sort -t : -k 2 -n | head -n 1
    tail -n 1 out.txt
done
