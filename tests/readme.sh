#!/usr/bin/env bash
# What README shows of `make look` and `make week`, beside what they print, a minute each: the lines of the first, where `rt` is there,
# and of the second the energies, what is saved, the spin-ups and how many requests wait.
# usage: tests/readme.sh     it prints each thing that is wrong, and ends with 1 where there is one
# needs: awk make python3
set -u
cd "$(dirname "$0")/.."
export LC_ALL=C.UTF-8
[ -x build/wol ] || { echo "tests/readme.sh: no build/wol: run 'make build' first" >&2; exit 1; }
wrong=0

# fault TEXT: tells of one thing that is wrong
fault() {
    echo "readme: $1"
    wrong=1
}

look() {
    local line printed
    command -v rt >/dev/null || { echo "tests/readme.sh: no rt, so make look wasn't tried" >&2; return 0; }
    printed=$(make -s look 2>/dev/null) || fault "make look fails"
    while IFS= read -r line; do
        grep -qxF "$line" <<<"$printed" || fault "make look doesn't print: $line"
    done < <(awk '/^`make look` prints/ { inside = 1 } /^`host`/ { exit } inside && /^    / { print substr($0, 5) }' README.md)
}

# row POLICY: the row of README's table of a week for a policy of `whatif --long`, as its figures say
row() {
    awk -v policy="$1" '
        /^lines/ { lines = $2 }
        $1 == "always" && $2 == "wakes" { all = $7 }
        $1 == policy && $2 == "wakes" { wakes = $3; energy = $7 }
        $1 == policy && ($2 == "reads" || $2 == "writes") { wait += $5; requests += $3 }
        END {
            printf "%.1f MJ | %.1f %% | %s | %.2f %%", energy / 1e9, 100 - 100 * energy / all, grouped(wakes), 100 * wait / requests
        }
        function grouped(n) { return n < 1000 ? n : int(n / 1000) "," sprintf("%03d", n % 1000) }
    ' build/week/long.txt
}

week() {
    local policy
    make -s week >/dev/null || fault "make week fails"
    (cd build/week && ../wol whatif --long <week.csv >long.txt 2>/dev/null) || fault "wol whatif --long fails on the week"
    for policy in spindown host all; do
        grep -qF "$(row "$policy")" README.md || fault "of a week README doesn't show, for $policy: $(row "$policy")"
    done
    rm -r build/week
}

look
week
exit "$wrong"
