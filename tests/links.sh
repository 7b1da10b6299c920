#!/usr/bin/env bash
# What `format` and other commands make of an image that is, by a link, another file: an entry of the folder, a file elsewhere, or
# nothing. Who may read what was made, and what lies beside it.
#
#   tests/links.sh [PROGRAM [WORD..]]      the program, and words to put before each command's (default: build/wol)
#
# It prints a line for each test that fails, and how many passed. It ends with 1 if any failed.
# needs: timeout
set -u
cd "$(dirname "$0")/.." || exit 1
top=$PWD
program=("$@")
[ $# -gt 0 ] || program=("$top/build/wol")
case ${program[0]} in
*/*) program[0]=$(realpath "${program[0]}") ;;
esac
room=$(mktemp -d)
trap 'rm -rf "$room"' EXIT
passed=0
failed=0

expect() { # WHAT WANTED FOUND
    if [ "$2" = "$3" ]; then
        passed=$((passed + 1))
    else
        failed=$((failed + 1))
        echo "FAIL $1: wanted $(printf '%q' "$2"), found $(printf '%q' "$3")"
    fi
}

# Runs a command in the folder: its last line and its status.
said() {
    local text status
    text=$(timeout 60 "${program[@]}" "$@" </dev/null 2>/dev/null)
    status=$?
    echo "${text##*$'\n'} $status"
}

# A folder with a configuration of two volumes, and with other things in it.
fresh() {
    rm -rf "$room/at" "$room/elsewhere"
    mkdir "$room/at" "$room/elsewhere"
    cd "$room/at" || exit 1
    cat >wol.toml <<'C'
segment_blocks = 8
timeout_ms = 60000
awake_mw = 8000
standby_mw = 1000
wake_mj = 50000
[[volume]]
name = "usr0"
host = "usr"
disk = 0
home_blocks = 100
segments = 2
view = []
[[volume]]
name = "web0"
host = "web"
disk = 0
home_blocks = 100
segments = 2
view = ["usr0"]
C
    echo backup >other.bak
}

entries() { find . -mindepth 1 -printf '%f ' | tr ' ' '\n' | sort | tr '\n' ' '; }

refused() { # WHAT: format refuses usr0 and leaves each file
    local before after
    before=$(entries)$(cat wol.toml other.bak)
    expect "format of $1" "fault 4 usr0 disk bay 4" "$(said format)"
    after=$(entries)$(cat wol.toml other.bak)
    expect "what stands after format of $1" "$before" "$after"
}

for link in "-s" ""; do
    for target in wol.toml other.bak; do
        fresh
        # shellcheck disable=SC2086 # no word where it is empty
        ln $link "$target" usr0.vol
        refused "usr0.vol as a link ($link) to $target"
    done
done

fresh
ln -s ../at/other.bak ../elsewhere/way
ln -s ../elsewhere/way usr0.vol
refused "a link to a link that comes back to other.bak"

fresh
ln -s "$room/elsewhere/none" usr0.vol
refused "a link to nothing"
expect "what a link to nothing made" "" "$(ls "$room/elsewhere")"

fresh
ln -s $'\xff.bak' usr0.vol
echo backup >$'\xff.bak'
expect "format of a link to an entry whose name is no text" "fault 4 usr0 disk bay 4" "$(said format)"
expect "that entry" backup "$(cat $'\xff.bak')"

fresh
echo kept >"$room/elsewhere/file"
ln "$room/elsewhere/file" usr0.vol
refused "a file with a second name elsewhere"
expect "the file elsewhere" kept "$(cat "$room/elsewhere/file")"

# An image may lie elsewhere, as long as that is its one name.
fresh
: >"$room/elsewhere/disk"
ln -s "$room/elsewhere/disk" usr0.vol
expect "format of an image that lies elsewhere" "format web0 blocks 118 0" "$(said format)"
expect "check of an image that lies elsewhere" 0 "$(said check | grep -o '.$')"
expect "what lies beside it" "disk" "$(ls "$room/elsewhere")"
expect "what lies in the folder" "other.bak usr0.vol web0.vol wol.toml " "$(entries)"

# It isn't opened under a second name, as a copy by links leaves it, and is again when that has gone.
ln "$room/elsewhere/disk" "$room/elsewhere/copy"
expect "replay of an image with a second name" "fault 4 usr0 disk bay 4" "$(said replay)"
rm "$room/elsewhere/copy"
expect "replay of it with one name" "0" "$(said replay | grep -o '.$')"

# What is made is its owner's, whatever the mask; what is there keeps its rights.
for mask in 0000 0022 0077; do
    fresh
    touch usr0.vol
    chmod 640 usr0.vol
    (
        umask $mask
        said format >/dev/null
    )
    expect "rights of an image made under $mask" "640 600" "$(stat -c %a usr0.vol web0.vol | tr '\n' ' ' | sed 's/ $//')"
done

# What opening makes beside an image goes again; a file of one's own that has its name stays as it is, also an empty one.
for text in "" mine; do
    printf '%s' "$text" >usr0.vol-wal
    expect "check beside '$text' of one's own" 0 "$(said check | grep -o '.$')"
    expect "that file" "$text" "$(cat usr0.vol-wal)"
    rm usr0.vol-wal
done
: >usr0.vol-journal
expect "check beside an empty journal" 0 "$(said check | grep -o '.$')"
expect "what lies there then" "other.bak usr0.vol usr0.vol-journal web0.vol wol.toml " "$(entries)"

# A link or a folder in its place, or a journal with something in it, keeps the image from being opened.
echo mine >usr0.vol-journal
expect "replay beside a journal" "fault 4 usr0 disk bay 4" "$(said replay)"
expect "that journal" mine "$(cat usr0.vol-journal)"
rm usr0.vol-journal
ln -s other.bak usr0.vol-wal
expect "replay beside a link" "fault 4 usr0 disk bay 4" "$(said replay)"
expect "where it leads" "other.bak backup" "$(readlink usr0.vol-wal) $(cat other.bak)"
rm usr0.vol-wal
mkdir usr0.vol-wal
expect "replay beside a folder" "fault 4 usr0 disk bay 4" "$(said replay)"
rmdir usr0.vol-wal
expect "replay with none of these" 0 "$(said replay | grep -o '.$')"

# As many volumes as there can be fit the usual limit on open files. Where they don't the first that can't be opened is told.
fresh
{
    sed '/volume/,$d' wol.toml
    for number in $(seq 64); do
        printf '[[volume]]\nname = "v%d"\nhost = "h"\ndisk = %d\nhome_blocks = 4\nsegments = 1\nview = []\n' "$number" "$number"
    done
} >wol.toml.64
mv wol.toml.64 wol.toml
expect "format of 64 volumes" 0 "$(said format | grep -o '.$')"
for limit in 1024 350; do
    expect "replay of 64 volumes with $limit open files" 0 "$(ulimit -n $limit && said replay | grep -o '.$')"
done
expect "replay of 64 volumes with 100 open files" 4 "$(ulimit -n 100 && said replay | grep -o '.$')"
expect "what it names" "disk bay" "$(ulimit -n 100 && said replay | grep -o 'disk bay')"
expect "replay of 64 volumes once more" 0 "$(said replay | grep -o '.$')"

echo "links: $passed passed, $failed failed"
[ "$failed" -eq 0 ]
