#!/usr/bin/env bash
# What is noted on standard error of a trace that was run, and of the configuration: the tables below.
#
#   tests/notes.sh [PROGRAM [WORD..]]     the program, and words to put before each command's (default: build/wol)
#
# It prints a line for each test that fails, and how many passed. It ends with 1 if any failed.
set -u
cd "$(dirname "$0")/.." || exit 1
top=$PWD
program=("$@")
[ $# -gt 0 ] || program=("$top/build/wol")
case ${program[0]} in
*/*) program[0]=$(realpath "${program[0]}") ;;
esac
room=$(mktemp -d)
trap 'rm -rf "$room"' EXIT
passed=0
failed=0

expect() { # WHAT WANTED FOUND
    if [ "$2" = "$3" ]; then
        passed=$((passed + 1))
    else
        failed=$((failed + 1))
        echo "FAIL $1: wanted $(printf '%q' "$2"), found $(printf '%q' "$3")"
    fi
}

# Runs a command on the trace, with its output in `out` and its errors in `errors`, and keeps its status.
wol() {
    timeout 60 "${program[@]}" "$@" <"$room/trace" >"$room/out" 2>"$room/errors"
    status=$?
}

fresh() { # a folder with formatted images of the sample's volumes
    rm -rf "$room/at"
    mkdir "$room/at"
    cd "$room/at" || exit 1
    cp "$top/samples/wol.toml" wol.toml
    : >"$room/trace"
    wol format
    expect "format" "0 " "$status $(cat "$room/errors")"
}

noted() { # WHAT NOTES COMMAND..: the trace is run to its end, and these notes are there
    local what=$1 notes=$2
    shift 2
    wol "$@"
    expect "$what: status" 0 "$status"
    expect "$what: notes" "$notes" "$(cat "$room/errors")"
}

line() { # TIME HOST DISK
    printf '%s,%s,%s,Read,0,512,100\n' "$1" "$2" "$3"
}

sample=$top/samples/offload.csv
fresh

# ---- a trace that is as it should be
cp "$sample" "$room/trace"
noted "the sample" "" whatif
noted "the sample, replayed" "" replay

# ---- the trace of nobody: hosts in capitals
tr '[:lower:]' '[:upper:]' <"$sample" | sed 's/READ/Read/; s/WRITE/Write/' >"$room/trace"
nobody="wol: NO line belongs to a volume of wol.toml: these are idle disks. Line 1 has host WEB, disk 0."
noted "hosts in capitals" "$nobody" whatif
noted "hosts in capitals, replayed" "$nobody" replay

# ---- one of three hosts is another
sed 's/,web,/,www,/' "$sample" >"$room/trace"
noted "one host is another" "wol: 45 of 66 lines belong to no volume of wol.toml; the first is line 1: host www, disk 0.
wol: no line belongs to: web0." whatif

# ---- files behind one another, where they should be merged by time
for host in usr web src; do grep ",$host," "$sample"; done >"$room/trace"
noted "unmerged files" "wol: 50 of 66 lines are earlier than a line before, by up to 29 min 10 s. Is the trace sorted by time?" whatif

# ---- times in seconds
awk -F, '{ for (k = 0; k < 2; k++) print substr($1, 1, 11) ",web,0,Read,0,512,100" }' "$sample" >"$room/trace"
noted "times in seconds" "wol: the trace spans 0 ms only. Do its times count 100 ns?" whatif
noted "times in seconds, replayed" "wol: the trace spans 0 ms only. Do its times count 100 ns?" replay
head -n 99 "$room/trace" >"$room/short"
cp "$room/short" "$room/trace"
noted "times in seconds, 99 lines" "" whatif

# ---- no line
: >"$room/trace"
noted "an empty trace" "wol: the trace has no line, so all numbers are 0." whatif
printf '\n\r\n\n' >"$room/trace"
noted "blank lines" "wol: the trace has no line, so all numbers are 0." replay
noted "no generated line" "wol: the trace has no line, so all numbers are 0." soak 7 0
noted "generated lines" "" soak 7 200

# ---- odd bytes, blank lines, line ends of two bytes, zeros in front of a disk, and no end of the last line
{
    printf '\r\n'
    line 128166372000000000 usr 00 | sed 's/$/\r/'
    printf '\n'
    line 128166372000000000 'a b	c' 7
    line 128166372000000000 web 0
    printf '128166372000000000,src,1,Write,0,512,100'
} >"$room/trace"
noted "odd lines" "wol: 2 of 4 lines belong to no volume of wol.toml; the first is line 4: host a?b?c, disk 7.
wol: no line belongs to: src0." whatif

# ---- lines that come in small pieces
{
    line 128166372000000000 web 0
    line 128166372000000001 web 0
} >"$room/trace"
expect "small pieces" "" "$( (while IFS= read -r -n 7 -d '' part; do printf '%s' "$part"; sleep 0.01; done; printf '%s' "$part") <"$room/trace" | timeout 60 "${program[@]}" whatif 2>&1 >/dev/null)"

# ---- times that go back, by days, hours, minutes and less
{
    line 128166372000000000 web 0
    line 128164000000000000 web 0
    line 128166371999990000 web 0
} >"$room/trace"
noted "days" "wol: 2 of 3 lines are earlier than a line before, by up to 2 d 17 h. Is the trace sorted by time?" replay
{
    line 128166372000000000 web 0
    line 128166300000000000 web 0
} >"$room/trace"
noted "hours" "wol: 1 of 2 lines are earlier than a line before, by up to 2 h 0 min. Is the trace sorted by time?" whatif
{
    line 128166372000000000 web 0
    line 128166371999990000 web 0
} >"$room/trace"
noted "milliseconds" "wol: 1 of 2 lines are earlier than a line before, by up to 1 ms. Is the trace sorted by time?" whatif

# ---- timeouts
cp "$sample" "$room/trace"
short="wol: timeout_ms is less than wake_ms: a disk may go down before it is up."
noted "a short timeout" "$short" whatif --timeout 9999
noted "a timeout as long as a spin-up" "" whatif --timeout=10000
sed -i 's/^timeout_ms = .*/timeout_ms = 500/; s/^wake_ms = .*/wake_ms = 501/' wol.toml
noted "a short timeout that is configured" "$short" whatif
noted "a short timeout, replayed" "" replay
sed -i 's/^wake_ms = .*/wake_ms = 500/' wol.toml
noted "a spin-up that is as short" "" whatif

# ---- keys that mean nothing
cp "$top/samples/wol.toml" wol.toml
sed -i 's/^timeout_ms = .*/timeout_sec = 10/; 0,/^segments = /s/^segments = /segment = 4\n&/; s/^wake_mj/zzz = 1\n&/' wol.toml
noted "unknown keys" "wol: wol.toml: the key timeout_sec is unknown and means nothing; was timeout_ms meant?
wol: wol.toml: the key zzz is unknown and means nothing.
wol: wol.toml, volume usr0: the key segment is unknown and means nothing; was segments meant?" whatif
sed -i '/^timeout_sec = /d; /^zzz/d; /^segment = /d' wol.toml
noted "each key is known" "" whatif

echo "notes: $passed passed, $failed failed"
[ "$failed" -eq 0 ]
