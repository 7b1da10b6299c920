#!/usr/bin/env bash
# What `wol check` takes for one volume and for four, by the clock and in processor seconds, beside `sha256sum` on as many bytes; and what a large
# formatted volume takes on the disk. The images are in the folder for temporary files, read once before. The best of RUNS runs by turns counts.
# usage: bench/check.sh [BLOCKS]    home blocks of each volume (100000 if left out, which are 51 MB); RUNS is 3 if left out; the program is
# build/wol, as `make build` leaves it
set -eu
cd "$(dirname "$0")/.."
blocks=${1:-100000}
runs=${RUNS:-3}
program=$PWD/build/wol
[ -x "$program" ] || { echo "bench/check.sh: no build/wol: run 'make build' first" >&2; exit 1; }
echo "$(date -u +%F), $(nproc) processors: $(sed -n 's/^model name.*: //p' /proc/cpuinfo | head -n 1)"
folder=$(mktemp -d)
trap 'rm -r "$folder"' EXIT
cd "$folder"
bytes=$((blocks * 512))

# configure VOLUMES: a configuration of so many volumes, none of which logs on another
configure() {
    printf 'segment_blocks = 128\nawake_mw = 8000\nstandby_mw = 1000\nwake_mj = 50000\n'
    for k in $(seq "$1"); do
        printf '[[volume]]\nname = "large%d"\nhost = "large"\ndisk = %d\nhome_blocks = %d\nsegments = 4\nview = []\n' "$k" "$k" "$blocks"
    done
}

# best NAME COMMAND: runs a command once, and keeps the least of its times by the clock and of its processor seconds under this name
best() {
    TIMEFORMAT='%R %U %S'
    { time bash -c "$2" >out.txt; } 2>times.txt
    awk '{ print $1, $2 + $3 }' times.txt >>"$1.txt"
    awk 'NR == 1 || $1 < clock { clock = $1 } NR == 1 || $2 < used { used = $2 } END { print clock, used }' "$1.txt" >"$1.best"
}

for volumes in 1 4; do
    configure "$volumes" >wol.toml
    "$program" format >out.txt
    cat large*.vol >/dev/null
    for _ in $(seq "$runs"); do
        best "ours$volumes" "'$program' check"
        best "theirs$volumes" "head -q -c $bytes large*.vol | sha256sum"
    done
    paste -d ' ' "ours$volumes.best" "theirs$volumes.best" | awk -v volumes="$volumes" -v bytes=$((volumes * bytes)) '{
        printf "volumes of %.0f MB checked: %d; %.2f s by the clock, %.2f processor seconds; sha256sum: %.2f and %.2f; ratio of processor seconds %.2f\n",
            bytes / volumes / 1e6, volumes, $1, $2, $3, $4, $2 / $4
    }'
done
paste -d ' ' ours1.best ours4.best | awk '{ printf "four are checked %.1f times as fast as one\n", 4 * $1 / $3 }'
echo "large1.vol: $(stat -c %s large1.vol) bytes long, $(($(stat -c %b large1.vol) * $(stat -c %B large1.vol))) on the disk"
