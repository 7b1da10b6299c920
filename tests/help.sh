#!/usr/bin/env bash
# What is said on standard error: the usage, the version, a line for each status, and the progress of a long trace.
#
#   tests/help.sh [PROGRAM [WORD..]]      the program, and words to put before each command's (default: build/wol)
#
# It prints a line for each test that fails, and how many passed. It ends with 1 if any failed.
# needs: flock timeout
set -u
cd "$(dirname "$0")/.." || exit 1
top=$PWD
program=("$@")
[ $# -gt 0 ] || program=("$top/build/wol")
case ${program[0]} in
*/*) program[0]=$(realpath "${program[0]}") ;;
esac
room=$(mktemp -d)
trap 'rm -rf "$room"' EXIT
: >"$room/advice"
passed=0
failed=0

expect() { # WHAT WANTED FOUND
    if [ "$2" = "$3" ]; then
        passed=$((passed + 1))
    else
        failed=$((failed + 1))
        echo "FAIL $1: wanted $(printf '%q' "$2"), found $(printf '%q' "$3")"
    fi
}

# Runs a command in the folder, with its output in `out` and its errors in `errors`, and keeps its status.
wol() {
    timeout 60 "${program[@]}" "$@" >"$room/out" 2>"$room/errors"
    status=$?
}

errors() { cat "$room/errors"; }

expect_advice() { # WHAT STATUS: the status, and one line on standard error that begins with the program's name
    expect "$1: status" "$2" "$status"
    expect "$1: lines of advice" 1 "$(errors | wc -l)"
    expect "$1: advice" "wol: " "$(errors | cut -c 1-5)"
    if grep -qxF "$(errors)" "$room/advice"; then
        expect "$1: advice of its own" "" "the same as at another status"
    fi
    errors >>"$room/advice"
}

fresh() { # a folder with formatted images of small volumes
    rm -rf "$room/at"
    mkdir "$room/at"
    cd "$room/at" || exit 1
    sed 's/^home_blocks = .*/home_blocks = 64/; s/^segments = .*/segments = 2/' "$top/samples/wol.toml" >wol.toml
    wol format
    expect "format: status" 0 "$status"
    expect "format: errors" "" "$(errors)"
}

usage_and_version() {
    local words
    for words in "--help" "" "replay --workers 0" "gen 7"; do
        # shellcheck disable=SC2086  # several words
        wol $words
        expect "[$words]: status" 1 "$status"
        expect "[$words]: output" "fault 1 words" "$(cat "$room/out")"
        expect "[$words]: lines of the usage" 17 "$(errors | wc -l)"
        for command in "format  " "format NAME" replay check dump whatif clean serve nbd gen soak solo view-add view-remove; do
            expect "[$words]: the usage has $command" 1 "$(errors | grep -c "^  wol $command")"
        done
    done
    wol --version
    expect "--version: status" 1 "$status"
    expect "--version: output" "fault 1 words" "$(cat "$room/out")"
    expect "--version: errors" "wol " "$(errors | cut -c 1-4)"
}

expect_meant() { # LINE COMMAND..: the usage, and this line behind it
    local line=$1
    shift
    wol "$@"
    expect "[$*]: status" 1 "$status"
    expect "[$*]: output" "fault 1 words" "$(cat "$room/out")"
    expect "[$*]: lines of the usage" 17 "$(errors | grep -vc "^wol: ")"
    expect "[$*]: what was meant" "$line" "$(errors | tail -n 1)"
}

meant() {
    expect_meant "wol: whatif reads the trace from its input: put < in front of trace.csv." whatif trace.csv
    expect_meant "wol: whatif reads the trace from its input: put < in front of ./a?b." whatif --timeout 7 --long './a b'
    expect_meant "wol: replay reads the trace from its input: put < in front of trace.csv." replay --workers=2 trace.csv
    expect_meant "wol: solo reads the trace from its input: put < in front of trace.csv." solo web 0 64 trace.csv
    expect_meant "wol: there is no command whatfi; was whatif meant?" whatfi
    expect_meant "wol: there is no command chekc; was check meant?" chekc
    expect_meant "wol: there is no command view_add; was view-add meant?" view_add usr0 web0
    expect_meant "wol: there is no command 12345." 12345
    expect_meant "wol: whatif has no option --time; was --timeout meant?" whatif --time=7
    expect_meant "wol: replay has no option --zzz." replay --zzz
}

statuses() {
    fresh
    wol check
    expect "check: status" 0 "$status"
    expect "check: errors" "" "$(errors)"
    echo nonsense >wol.toml
    wol check
    expect_advice "no configuration" 2
    fresh
    echo nonsense >bad.csv
    wol replay <bad.csv
    expect_advice "a bad line" 3
    {
        echo Timestamp,Hostname,DiskNumber,Type,Offset,Size,ResponseTime
        cat "$top/samples/offload.csv"
    } >bad.csv
    wol whatif <bad.csv
    expect_advice "a heading" 3
    gzip -c "$top/samples/offload.csv" >bad.csv.gz
    wol whatif <bad.csv.gz
    expect_advice "a compressed trace" 3
    exec 9<usr0.vol
    flock 9
    wol check
    exec 9<&-
    expect_advice "an image in use" 4
    fresh
    head -c 4096 </dev/zero | dd of=usr0.vol conv=notrunc 2>/dev/null
    wol check
    expect_advice "a damaged image" 5
    fresh
    timeout 60 "${program[@]}" check >/dev/full 2>"$room/errors"
    status=$?
    expect_advice "a full output" 7
    wol view-add usr0 nobody
    expect_advice "no volume of this name" 15
    timeout 60 "${program[@]}" nbd usr0 <wol.toml >"$room/out" 2>"$room/errors"
    status=$?
    expect "a client that sends no requests: its session" "wol: session over, the client sent no request: reads 0, writes 0, flushes 0, others 0." "$(errors | head -n 1)"
    sed -i 1d "$room/errors"
    expect_advice "a client that sends no requests" 14
    expect "a client that sends no requests: output" "" "$(cat "$room/out")"
    timeout 60 "${program[@]}" serve usr0 <wol.toml >"$room/out" 2>"$room/errors"
    status=$?
    expect "a client that sends no handshake: status" 14 "$status"
    expect "a client that sends no handshake: output" "NBDMAGICIHAVEOPT" "$(head -c 16 "$room/out")"
    timeout 60 "${program[@]}" serve nobody <wol.toml >"$room/out" 2>"$room/errors"
    status=$?
    expect "no volume of this name to serve: status" 15 "$status"
    expect "no volume of this name to serve: output" "" "$(cat "$room/out")"
    rm wol.toml
    wol check
    expect_advice "no file wol.toml" 8
    mkdir wol.toml
    wol check
    expect_advice "a folder wol.toml" 8
    fresh
    wol replay <.
    expect_advice "a folder as the trace" 8
    fresh
    rm usr0.vol
    wol check
    expect_advice "no image" 12
}

progress() {
    fresh
    wol gen 7 40
    cp "$room/out" "$room/trace"
    wol replay <"$room/trace"
    expect "replay to a file: errors" "" "$(errors)"
    (
        cat "$room/trace"
        sleep 1.2
        tail -n 1 "$room/trace"
        sleep 1.2
        tail -n 1 "$room/trace"
    ) | WOL_PROGRESS=1 timeout 60 "${program[@]}" solo web 0 64 >/dev/null 2>"$room/errors"
    expect "a slow trace: what was told last" "wol: 42 lines, " "$(tr '\r' '\n' <"$room/errors" | grep -o '^wol: [0-9]* lines, ' | tail -n 1)"
    expect "a slow trace: the line is ended" 1 "$(errors | wc -l)"
}

# Bytes of a number, the highest in front, of so many bytes.
big() { # BYTES NUMBER
    local n
    for ((n = $1 - 1; n >= 0; n--)); do
        # shellcheck disable=SC2059  # the format is a byte
        printf "\\x$(printf '%02x' $((($2 >> (8 * n)) & 255)))"
    done
}

# A request of NBD: a read, a write of so many bytes, a flush, or the end.
request() { # COMMAND LENGTH
    big 4 $((0x25609513))
    big 2 0
    big 2 "$1"
    big 8 7
    big 8 0
    big 4 "$2"
    [ "$1" -ne 1 ] || head -c "$2" /dev/zero
}

sessions() {
    fresh
    { request 0 512 && request 1 1024 && request 0 512 && request 3 0 && request 2 0; } >client
    timeout 60 "${program[@]}" nbd usr0 <client >"$room/out" 2>"$room/errors"
    expect "a session" "0 wol: session over, the client ended it: reads 2, writes 1, flushes 1, others 0." "$? $(errors)"
    { request 1 512 && request 0 512; } >client
    timeout 60 "${program[@]}" nbd usr0 <client >"$room/out" 2>"$room/errors"
    expect "a session without an end" "0 wol: session over, the client went away: reads 1, writes 1, flushes 0, others 0." "$? $(errors)"
    {
        big 4 1
        printf IHAVEOPT
        big 4 1
        big 4 4
        printf usr0
        cat client
        request 2 0
    } >shaken
    timeout 60 "${program[@]}" serve --wait 0 usr0 <shaken >"$room/out" 2>"$room/errors"
    expect "a session behind a handshake" "0 wol: session over, the client ended it: reads 1, writes 1, flushes 0, others 0." "$? $(errors)"
}

usage_and_version
meant
sessions
statuses
progress
echo "help: $passed passed, $failed failed"
[ "$failed" -eq 0 ]
