#!/usr/bin/env bash
# What `wol solo` takes for a trace that belongs to nobody, by the clock and in processor seconds, beside `wc -l` and an awk program that sums a field of
# the same lines. The best of RUNS runs by turns counts.
# usage: bench/lines.sh [LINES [PROGRAM]..]     lines (1000000 if left out), and the programs, which are compared with the first (build/wol alone if
# left out, as `make build` leaves it); RUNS is 3 if left out
set -eu
cd "$(dirname "$0")/.."
lines=${1:-1000000}
runs=${RUNS:-3}
[ $# -eq 0 ] || shift
[ $# -gt 0 ] || set -- "$PWD/build/wol"
for it in "$@"; do
    [ -x "$it" ] || { echo "bench/lines.sh: no $it: run 'make build' first" >&2; exit 1; }
    shift
    set -- "$@" "$(realpath "$it")"
done
echo "$(date -u +%F), $(nproc) processors: $(sed -n 's/^model name.*: //p' /proc/cpuinfo | head -n 1)"
folder=$(mktemp -d)
trap 'rm -r "$folder"' EXIT
awk -v lines="$lines" 'BEGIN {
    for (i = 0; i < lines; i++)
        printf "128166372%09d,usr,%d,%s,%d,%d,%d\n", i, i % 8, i % 3 ? "Write" : "Read", i * 4096, 512 + i % 16 * 512, 100 + i % 1000
}' >"$folder/trace.csv"
cd "$folder"
cat trace.csv >/dev/null

# best NAME COMMAND..: runs a command once on the trace, and keeps its times under this name
best() {
    local name=$1
    shift
    TIMEFORMAT='%R %U %S'
    { time "$@" <trace.csv >out.txt; } 2>times.txt
    awk '{ print $1, $2 + $3 }' times.txt >>"$name.times"
}

for _ in $(seq "$runs"); do
    number=0
    for it in "$@"; do
        number=$((number + 1))
        best "$number" "$it" solo nobody 0 1
        rm -f solo.vol
    done
    best wc wc -l
    # shellcheck disable=SC2016  # a field of awk
    best awk awk -F, '{ n += $6 } END { print n }'
done
first=
for it in $(seq $#) wc awk; do
    told=$(awk 'NR == 1 || $1 < clock { clock = $1 } NR == 1 || $2 < used { used = $2 } END { print clock, used }' "$it.times")
    : "${first:=$told}"
    name=$it
    if [ $# -gt 0 ]; then
        name=$1
        shift
    fi
    awk -v name="$name" -v lines="$lines" -v told="$told" -v first="$first" 'BEGIN {
        split(told, it, " "); split(first, one, " ")
        printf "%s: %.2f s by the clock, %.2f processor seconds, %d lines a second; %.2f times the processor seconds of the first\n",
            name, it[1], it[2], lines / it[1], one[2] ? it[2] / one[2] : 0
    }'
done
