#!/usr/bin/env bash
# What `wol whatif` tells beside a second program for it, and replays beside what it reckons: a small table. `make hostile` has the long form.
# needs: python3
#
#   tests/whatif.sh [PROGRAM]      the program (default: build/wol)
set -eu
cd "$(dirname "$0")/.."
exec python3 tests/whatif.py "${1:-build/wol}" --tries 10 --replays 5
