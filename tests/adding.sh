#!/usr/bin/env bash
# `wol format NAME`: a volume is added to others that have records in logs, each refusal, and what is left of the other images.
# usage: tests/adding.sh     it prints each thing that is wrong, and ends with 1 where there is one
# needs: awk
set -u
cd "$(dirname "$0")/.."
export LC_ALL=C.UTF-8
top=$PWD
wol=$top/build/wol
[ -x "$wol" ] || { echo "tests/adding.sh: no build/wol" >&2; exit 1; }
folder=$(mktemp -d)
trap 'rm -r "$folder"' EXIT
passed=0
failed=0

# same NAME WANTED GOT: one thing that has to be so
same() {
    if [ "$2" = "$3" ]; then
        passed=$((passed + 1))
    else
        failed=$((failed + 1))
        printf 'adding: %s: wanted\n%s\nand got\n%s\n' "$1" "$2" "$3"
    fi
}

# run WORDS..: what is printed, and the status, in the folder at hand
run() {
    local printed status=0
    printed=$("$wol" "$@" 2>/dev/null </dev/null) || status=$?
    printf '%s\nstatus %s' "$printed" "$status"
}

# begin NAME: a new folder with three volumes that have records in logs
begin() {
    mkdir "$folder/$1"
    cd "$folder/$1" || exit 1
    cp "$top/samples/wol.toml" .
    run format >/dev/null
    "$wol" replay --reclaim off <"$top/samples/offload.csv" >/dev/null
    sums=$(sha256sum ./*.vol)
    before=$(run check)
}

# add NAME: a further volume at the end of wol.toml
add() {
    printf '\n[[volume]]\nname = "%s"\nhost = "%s"\ndisk = 9\nhome_blocks = 1024\nsegments = 2\nview = ["web0", "src0"]\n' "$1" "$1" >>wol.toml
}

# ---- A fourth volume

begin fourth
same "there are records" 17 "$(awk '{ n += $6 } END { print n }' <<<"$before")"
add new0
same "it isn't there" "fault 12 new0 absent
status 12" "$(run replay)"
same "its line" "format new0 blocks 1154
status 0" "$(run format new0)"
same "nothing was written to another image" "$sums" "$(sha256sum ./src0.vol ./usr0.vol ./web0.vol)"
same "the others are as before" "${before%$'\n'*}" "$(run check | grep -v new0 | grep -v status)"
zeros=$(head -c $((1024 * 512)) /dev/zero | sha256sum | cut -d ' ' -f 1)
same "the new one is zeros" "new0 ok sha256 $zeros records 0 segments 0" "$(run check | grep new0)"
same "again" "fault 15 there new0
status 15" "$(run format new0)"
same "its view is the one of wol.toml" "view new0 loggers web0 src0 usr0
status 0" "$(run view-add new0 usr0)"
same "it may log for others" "view web0 loggers usr0 new0
status 0" "$(run view-add web0 new0)"
same "it serves" "status 0" "$(run soak 3 2000 | tail -n 1)"
same "all are in order" 4 "$(run check | grep -c ' ok ')"
add new1
same "one after the other" "format new1 blocks 1154
status 0" "$(run format new1)"
same "all five are in order" 5 "$(run check | grep -c ' ok ')"

# ---- Refusals, after which each image is as it was

begin refused
same "no such name" "fault 15 unknown nobody
status 15" "$(run format nobody)"
same "a volume that is there" "fault 15 there usr0
status 15" "$(run format usr0)"
same "nothing was written" "$sums" "$(sha256sum ./*.vol)"
mv usr0.vol away
same "another's view names it" "fault 15 in view of web0
status 15" "$(run format usr0)"
same "nothing was written to those that may log there" "$(grep -v usr0 <<<"$sums")" "$(sha256sum ./*.vol)"
mv away usr0.vol
run view-remove web0 usr0 >/dev/null
run view-remove src0 usr0 >/dev/null
sums=$(sha256sum ./*.vol)
mv usr0.vol away
same "its records are on another" "fault 15 records segment 1 of web0
status 15" "$(run format usr0)"
same "no image was made" "" "$(find . -name usr0.vol)"
same "nothing was written there" "$(grep -v usr0 <<<"$sums")" "$(sha256sum ./*.vol)"
mv web0.vol gone
same "another isn't there" "fault 12 web0 absent
status 12" "$(run format usr0)"
mv gone web0.vol
mv away usr0.vol
add new0
head -c 512 /dev/zero | dd of=src0.vol conv=notrunc status=none
same "another is damaged" "fault 5 src0 damaged 0 of src0
status 5" "$(run format new0)"
same "and no image was made" "" "$(find . -name new0.vol)"
begin damaged
add new0
echo nothing >new0.vol
same "what lies there is no image" "fault 5 new0 length 8
status 5" "$(run format new0)"
same "and is as it was" nothing "$(cat new0.vol)"
rm new0.vol
ln -s nowhere new0.vol
same "a link to nothing" "fault 4 new0 disk bay
status 4" "$(run format new0)"
rm new0.vol
mv wol.toml away
same "no wol.toml" "fault 8 config
status 8" "$(run format new0)"
cp away wol.toml
same "two names" "fault 1 words
status 1" "$(run format new0 usr0)"
same "behind dashes" "format new0 blocks 1154
status 0" "$(run format -- new0)"

echo "adding: $passed passed, $failed failed"
[ "$failed" -eq 0 ]
