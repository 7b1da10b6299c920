#!/usr/bin/env bash
# What replays on new images use of the disks, beside what `wol whatif` reckons: a few configurations. `make hostile` has the long form.
# needs: python3
#
#   tests/accounts.sh [PROGRAM]      the program (default: build/wol)
set -eu
cd "$(dirname "$0")/.."
exec python3 tests/hostile/accounts.py "${1:-build/wol}" --configs 4 --lines 2000
