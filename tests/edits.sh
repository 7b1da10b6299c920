#!/usr/bin/env bash
# Tries the wrong bodies of tests/edits, which the gate doesn't try for the time that they take: each has to be refused, like those of
# crates/NAME/must-fail, which the gate tries at each run. For each crate both kinds are tried together, in a copy of the repository, so that
# nothing here changes. What earlier checks kept is copied too, up to 5 GB, so that these begin where they ended.
# usage: tests/edits.sh [CRATE..]    the crates (all that have some, if left out); a crate takes 2 to 40 minutes
set -eu
cd "$(dirname "$0")/.."
if [ $# -eq 0 ]; then
    set -- tests/edits/*/
fi
room=$(mktemp -d "${TMPDIR:-/tmp}/wol-edits.XXXXXX")
trap 'rm -rf "$room"' EXIT
mkdir "$room/it"
tar -c --exclude=.git --exclude=./build . | tar -x -C "$room/it"
status=0
for crate in "$@"; do
    crate=$(basename "$crate")
    if [ ! -d "tests/edits/$crate" ]; then
        echo "tests/edits.sh: no wrong bodies of $crate in tests/edits" >&2
        status=1
        continue
    fi
    mkdir -p "$room/it/crates/$crate/must-fail"
    cp "tests/edits/$crate"/*.edit "$room/it/crates/$crate/must-fail/"
    (cd "$room/it" && rt must-fail "$crate") || status=1
done
exit "$status"
