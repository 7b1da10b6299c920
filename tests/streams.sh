#!/usr/bin/env bash
# What becomes of the images where the process is started badly: with closed standard streams, under a limit on the
# length of files, with two images that are one file, and where wol.toml is no regular file.
#
#   tests/streams.sh [PROGRAM [WORD..]]      the program, and words to put before each command's (default: build/wol)
#
# It prints a line for each test that fails, and how many passed. It ends with 1 if any failed.
# needs: timeout mkfifo
set -u
cd "$(dirname "$0")/.." || exit 1
top=$PWD
program=("$@")
[ $# -gt 0 ] || program=("$top/build/wol")
case ${program[0]} in
*/*) program[0]=$(realpath "${program[0]}") ;;
esac
room=$(mktemp -d)
trap 'rm -rf "$room"' EXIT
passed=0
failed=0

# The commands, each as its words.
commands=("format" "check" "dump" "replay" "whatif" "clean" "gen 7 40" "soak 7 40" "view-add web0 src0" "view-remove usr0 src0" "solo web 0 64")

wol() { timeout 60 "${program[@]}" "$@"; }

fail() {
    failed=$((failed + 1))
    echo "FAIL $*"
}

expect() { # WHAT WANTED FOUND
    if [ "$2" = "$3" ]; then
        passed=$((passed + 1))
    else
        fail "$1: wanted $(printf '%q' "$2"), found $(printf '%q' "$3")"
    fi
}

# The names and the content of all images in a folder.
images() { (cd "$1" && sha256sum ./*.vol 2>/dev/null); }

# A folder with formatted images, some of whose writes are in logs, and with an image of solo.
fresh() {
    rm -rf "$room/at"
    cp -r "$room/model" "$room/at"
    cd "$room/at" || exit 1
}

run_with_closed() { # CLOSED COMMAND: runs it with these of 0, 1 and 2 closed; the status is that of the command
    local words
    read -ra words <<<"$2"
    (
        case $1 in *0*) exec <&- ;; *) exec <"$room/trace" ;; esac
        case $1 in *1*) exec >&- ;; *) exec >"$room/out" ;; esac
        case $1 in *2*) exec 2>&- ;; *) exec 2>"$room/errors" ;; esac
        wol "${words[@]}"
    )
}

uses_trace() { case $1 in replay* | whatif* | solo*) true ;; *) false ;; esac; }

try_closed() { # CLOSED COMMAND
    local status what="[$2] with {$1} closed"
    fresh
    : >"$room/out"
    run_with_closed "$1" "$2"
    status=$?
    case $1 in
    *1*)
        expect "$what: status" 7 "$status"
        expect "$what: images" "$(images "$room/model")" "$(images .)"
        ;;
    *0*)
        if uses_trace "$2"; then
            expect "$what: status" 8 "$status"
            expect "$what: output" "fault 8 trace" "$(cat "$room/out")"
            expect "$what: images" "$(images "$room/model")" "$(images .)"
        else
            as_ever "$what" "$status" "$2"
        fi
        ;;
    *) as_ever "$what" "$status" "$2" ;;
    esac
}

as_ever() { # WHAT STATUS COMMAND: what is here is what the command makes with all streams open
    expect "$1: status" "$(cat "$room/ever/$3/status")" "$2"
    expect "$1: output" "$(sha256sum <"$room/ever/$3/out")" "$(sha256sum <"$room/out")"
    expect "$1: images" "$(cat "$room/ever/$3/images")" "$(images .)"
}

# What each command does with all streams open.
remember() {
    local command
    for command in "${commands[@]}"; do
        mkdir -p "$room/ever/$command"
        fresh
        run_with_closed "" "$command"
        echo $? >"$room/ever/$command/status"
        cp "$room/out" "$room/ever/$command/out"
        images . >"$room/ever/$command/images"
        expect "[$command] with all streams: status" 0 "$(cat "$room/ever/$command/status")"
    done
}

closed_streams() {
    local command closed
    for command in "${commands[@]}"; do
        for closed in 0 1 2 01 02 12 012; do
            try_closed "$closed" "$command"
        done
    done
    fresh
    run_with_closed 0 "nbd usr0"
    expect "[nbd usr0] with {0} closed: status" 8 $?
    expect "[nbd usr0] with {0} closed: output" "" "$(cat "$room/out")"
    expect "[nbd usr0] with {0} closed: images" "$(images "$room/model")" "$(images .)"
    run_with_closed 1 "nbd usr0"
    expect "[nbd usr0] with {1} closed: status" 7 $?
    run_with_closed 0 "serve usr0"
    expect "[serve usr0] with {0} closed: status" 8 $?
    expect "[serve usr0] with {0} closed: output" "" "$(cat "$room/out")"
    fresh
    run_with_closed 0 "nonsense"
    expect "[nonsense] with {0} closed: status" 1 $?
    run_with_closed 1 "nonsense"
    expect "[nonsense] with {1} closed: status" 7 $?
}

# Under a limit of so many units of 1,024 bytes.
limited() { # UNITS COMMAND
    local words
    read -ra words <<<"$2"
    (ulimit -f "$1" && wol "${words[@]}" <"$room/trace" 2>/dev/null)
}

file_size_limits() {
    local out status
    fresh
    out=$(limited 0 format)
    expect "[format] of old images under a limit: status" 4 $?
    expect "[format] of old images under a limit: output" "fault 4 usr0 disk bay" "$out"
    expect "[format] of old images under a limit: images" "$(images "$room/model")" "$(images .)"
    rm ./*.vol
    out=$(limited 10 format)
    expect "[format] of new images under a limit: status" 4 $?
    expect "[format] of new images under a limit: images" "" "$(images .)"
    fresh
    out=$(limited 1 replay)
    status=$?
    expect "[replay] under a limit: status" 4 "$status"
    expect "[replay] under a limit: last line" "fault 4" "$(tail -n 1 <<<"$out" | cut -c 1-7)"
    wol check >/dev/null 2>&1
    expect "[check] after it: status" 0 $?
    (ulimit -f 1 && wol gen 7 1000 >"$room/out" 2>/dev/null)
    expect "[gen] to a file under a limit: status" 7 $?
    expect "[gen] to a file under a limit: whole lines that fit" 0 "$(($(stat -c %s "$room/out") / 1025))"
    (ulimit -f 0 && wol nonsense >/dev/null 2>"$room/errors")
    expect "[nonsense] with errors to a file under a limit: status" 1 $?
}

one_file_for_two_images() {
    local link out
    for link in "ln -f" "ln -sf"; do
        fresh
        $link usr0.vol web0.vol
        images . >"$room/before"
        out=$(wol format 2>/dev/null)
        expect "[format] after $link: status" 4 $?
        expect "[format] after $link: output" "fault 4 usr0 disk bay" "$out"
        expect "[format] after $link: images" "$(cat "$room/before")" "$(images .)"
    done
    fresh
    ln -s nowhere other.vol
    out=$(wol format 2>/dev/null)
    expect "[format] where another link leads to no image: status" 0 $?
}

no_regular_configuration() {
    local make out
    for make in "mkfifo wol.toml" "mkdir wol.toml" "ln -s /dev/zero wol.toml" "ln -s wol.toml wol.toml"; do
        fresh
        rm wol.toml
        $make
        out=$(wol check 2>/dev/null)
        expect "[check] after $make: status" 8 $?
        expect "[check] after $make: output" "fault 8 config" "$out"
        expect "[check] after $make: images" "$(images "$room/model")" "$(images .)"
    done
    fresh
    mv wol.toml real.toml
    ln -s real.toml wol.toml
    wol check >/dev/null
    expect "[check] with a link to the configuration: status" 0 $?
}

# Small volumes, so that a check of them takes no time. In the trace web0 is read every 40 seconds, and usr0 and src0, whose disks
# sleep meanwhile, are written now and then.
mkdir "$room/model"
sed 's/^segment_blocks = .*/segment_blocks = 32/; s/^home_blocks = .*/home_blocks = 64/; s/^segments = .*/segments = 2/' \
    samples/wol.toml >"$room/model/wol.toml"
cd "$room/model" || exit 1
for i in {0..19}; do
    time=$((128166372000000000 + i * 400000000))
    echo "$time,web,0,Read,0,4096,1000"
    [ $((i % 4)) -ne 3 ] || echo "$((time + 1)),usr,0,Write,$((i * 512)),2048,1000"
    [ $((i % 8)) -ne 6 ] || echo "$((time + 2)),src,0,Write,$((i * 512)),1024,1000"
done >"$room/trace"
for command in "format" "replay" "solo web 0 64"; do
    if ! run_with_closed "" "$command"; then
        echo "FAIL the program does not run: ${program[*]} $command"
        exit 1
    fi
done
remember
closed_streams
file_size_limits
one_file_for_two_images
no_regular_configuration
echo "streams: $passed passed, $failed failed"
[ "$failed" -eq 0 ]
