#!/usr/bin/env bash
# All figures in one table of twenty rows, by bench/ratios.sh: each work beside a plain program in the same place in the same run. The table is printed,
# and written with the machine and the date to bench/FIGURES.md, whose other parts stay. It takes six minutes. Let the machine do nothing else.
# usage: bench/all.sh [LINES] [SYNCED]    as bench/ratios.sh has them, with RUNS, DISK and SECONDS_OF_FIO; the program is build/wol, as `make build`
# leaves it
set -eu
cd "$(dirname "$0")/.."
[ -x build/wol ] || { echo "bench/all.sh: no build/wol: run 'make build' first" >&2; exit 1; }
load=$(cut -d ' ' -f 1 /proc/loadavg)
began=$(date -u '+%Y-%m-%d %H:%M UTC')
table=$(bench/ratios.sh "$@" | tee /dev/stderr)
others=$(awk '/^## / { others = 1 } others' bench/FIGURES.md)
# shellcheck disable=SC2016  # back quotes are text here
{
    printf '# Figures\n\nMade by `bench/all.sh%s` on %s, by `%s`, on a machine with %s processors (%s) and %s of memory, under %s; ' \
        "${*:+ $*}" "$began" "$(build/wol --version 2>&1 >/dev/null | head -n 1)" "$(nproc)" "$(sed -n 's/^model name[^:]*: //p' /proc/cpuinfo | head -n 1)" \
        "$(awk '/MemTotal/ { printf "%.0f GiB", $2 / 1048576 }' /proc/meminfo)" "$(uname -sr)"
    printf 'when it began the load was %s, at its end %s.\n\n' "$load" "$(cut -d ' ' -f 1 /proc/loadavg)"
    printf 'Behind the semicolon of a work stands the plain program that it is beside: `dd` writes a block of 4 KiB a line and syncs each, by as many\n'
    printf 'processes as workers; `sha256sum` reads as many bytes; the awk programs read the same lines; nbdkit serves a file. A ratio is the first\n'
    printf 'figure over the second: of seconds and MB less is better, of requests and MiB a second more. Of each the best of %s runs by turns counts.\n\n' "${RUNS:-3}"
    printf '%s\n\n%s\n' "$table" "$others"
} >bench/FIGURES.md
