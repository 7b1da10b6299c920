#!/usr/bin/env bash
# Tests contrib/plot.py on the samples: its own sums are those of `whatif`, and the picture has a strip for each disk and policy.
# usage: tests/plot.sh     the program is build/wol, as `make build` leaves it
# needs: python3
set -eu
cd "$(dirname "$0")/.."
top=$PWD
program=$top/build/wol
[ -x "$program" ] || { echo "tests/plot.sh: no build/wol: run 'make build' first" >&2; exit 1; }
folder=$(mktemp -d)
trap 'rm -r "$folder"' EXIT
cd "$folder"

# strips FILE DISKS: the picture is XML, has four bars and two strips for each disk
strips() {
    python3 - "$1" "$2" <<'END'
import sys
import xml.etree.ElementTree as tree
rects = tree.parse(sys.argv[1]).getroot().iter("{http://www.w3.org/2000/svg}rect")
heights = [rect.get("height") for rect in rects]
assert heights.count("13") == 2 * int(sys.argv[2]), heights.count("13")
assert heights.count("24") == 8, heights.count("24")
END
}

# try NAME CONFIG TRACE DISKS
try() {
    cp "$2" wol.toml
    "$program" whatif <"$3" >whatif.txt
    "$top/contrib/plot.py" --config wol.toml --whatif whatif.txt <"$3" >"$1.svg"
    strips "$1.svg" "$4"
    # a line of another energy is told
    sed 's/^all wakes \([0-9]*\) sleeps \([0-9]*\) energy .*/all wakes \1 sleeps \2 energy 1/' whatif.txt >other.txt
    if "$top/contrib/plot.py" --config wol.toml --whatif other.txt <"$3" >other.svg 2>other.log; then
        echo "$1: a line with another energy passed" >&2
        exit 1
    fi
    grep -q '^all .*whatif differs' other.log
    echo "$1: passed"
}

try offload "$top/samples/wol.toml" "$top/samples/offload.csv" 3
"$top/samples/week/week.py" --days 0.1 >hours.csv
try hours "$top/samples/week/wol.toml" hours.csv 36
