#!/usr/bin/env bash
# Tests contrib/wol-trace and contrib/wol-report on the samples, and the recipe for one's own trace in README.md, line by line.
# usage: tests/trace.sh     the program is build/wol, as `make build` leaves it
# needs: python3 gzip awk
# It prints a line for each test that fails, and how many passed. It ends with 1 if any failed.
set -u
cd "$(dirname "$0")/.." || exit 1
export LC_ALL=C.UTF-8
top=$PWD
[ -x build/wol ] || { echo "tests/trace.sh: no build/wol: run 'make build' first" >&2; exit 1; }
room=$(mktemp -d)
trap 'rm -rf "$room"' EXIT
mkdir "$room/bin"
ln -s "$top/build/wol" "$top/contrib/wol-trace" "$top/contrib/wol-report" "$room/bin"
PATH=$room/bin:$PATH
passed=0
failed=0

expect() { # WHAT WANTED FOUND
    if [ "$2" = "$3" ]; then
        passed=$((passed + 1))
    else
        failed=$((failed + 1))
        printf 'FAIL %s: wanted %q, found %q\n' "$1" "$2" "$3"
    fi
}

# fresh NAME: an empty folder
fresh() {
    mkdir "$room/$1"
    cd "$room/$1" || exit 1
}

# The trace of samples/offload.csv as three files, one a host; that of web is compressed.
split() {
    local host
    for host in usr web src; do
        grep ",$host," "$top/samples/offload.csv" >"$host.csv"
    done
    gzip web.csv
}

# figures: what whatif prints on the trace of the folder, for the volumes of samples/wol.toml
figures() {
    cp "$top/samples/wol.toml" wol.toml
    wol whatif <"$1"
}

# lines_of FILE BEGIN: the lines of the block of FILE whose first one begins so, without comments
lines_of() {
    awk -v begin="    $2" 'index($0, begin) == 1 { inside = 1 } inside && !/^    / { exit } inside { sub(/ +# .*/, ""); print substr($0, 5) }' "$1"
}

# Each line of the recipe in README.md, which begins with the merge; then the images.
recipe() {
    local line wanted lines=0
    fresh recipe
    wanted=$(figures "$top/samples/offload.csv")
    rm wol.toml
    split
    while IFS= read -r line; do
        eval "$line" >>printed 2>>errors
        expect "README: $line: status" 0 $?
        lines=$((lines + 1))
    done < <(lines_of "$top/README.md" "wol-trace merge"; lines_of "$top/README.md" "wol format ")
    expect "README: lines of the recipe" 7 "$lines"
    expect "README: errors of the recipe" "" "$(cat errors)"
    expect "README: the trace, whatever the order of equal times" "$(sort "$top/samples/offload.csv")" "$(sort trace.csv)"
    expect "README: notes" "lines: 66, over 29 min 40 s" "$(grep ^lines: printed)"
    expect "README: figures by the wol.toml of wol-trace config" "$wanted" "$(wol whatif <trace.csv)"
    expect "README: saved" "55.7 %" "$(sed -n 's/^off-load among all.* \([0-9.]* %\).*/\1/p' printed)"
    expect "figures of the merged trace" "$wanted" "$(figures trace.csv)"
    sed -n '/^```toml/,/^```/p' "$top/README.md" | sed '/```/d' >wol.toml
    expect "README: its wol.toml" "format usr0 blocks 2562" "$(wol format)"
}

# Each example of docs/USAGE.md in which these tools are, and its output; the lines that add a volume.
examples() {
    local line shown
    fresh examples
    split
    cp "$top/samples/wol.toml" .
    while IFS= read -r line; do
        shown=$(awk -v line="    \$ $line" '$0 == line { inside = 1; next } inside && (/^    \$/ || /^[^ ]/) { exit } inside { print substr($0, 5) }' "$top/docs/USAGE.md")
        expect "USAGE: $line" "$shown" "$(eval "$line" 2>>errors)"
    done < <(sed -n 's/^    \$ \(.*wol-\(trace\|report\).*\)/\1/p' "$top/docs/USAGE.md")
    expect "USAGE: errors" "" "$(cat errors)"
    wol whatif <trace.csv >whatif.txt
    eval "$(lines_of "$top/docs/USAGE.md" "contrib/plot.py" | sed "s,^,$top/,")" 2>errors
    expect "USAGE: contrib/plot.py" 1 "$(grep -c '</svg>' picture.svg)"
    wol format >/dev/null
    wol replay <trace.csv >/dev/null
    printf '\n[[volume]]\nname = "new0"\nhost = "new"\ndisk = 0\nhome_blocks = 64\nsegments = 2\nview = ["web0"]\n' >>wol.toml
    eval "$(lines_of "$top/docs/USAGE.md" "wol format new0")" >printed
    expect "USAGE: a volume is added" "format new0 blocks 194" "$(head -n 1 printed)"
    expect "USAGE: all are in order" "usr0 ok web0 ok src0 ok new0 ok " "$(awk '/ ok / { printf "%s %s ", $1, $2 }' printed)"
    expect "USAGE: the others keep their records" 6 "$(wol dump | grep -c ^record)"
}

# What docs/USAGE.md says of the order of the tables.
ordered() {
    local order name
    fresh ordered
    awk 'BEGIN {
        for (t = 0; t <= 36000; t++) {
            if (t % 40 == 0) printf "%d0000000,d,0,Read,%d,4096,0\n", 1000 + t, t / 40 * 4096
            k = t % 100 == 0 ? 1 : t % 100 == 33 ? 2 : t % 100 == 66 ? 3 : 0
            if (k) printf "%d0000000,%s,0,Write,%d,4096,0\n", 1000 + t, substr("abc", k, 1), int(t / 100) * 4096
            if (t == 500) print "15000000000,a,0,Read,4194304,4096,0"
        }
    }' >trace.csv
    for order in "a b c d" "d c b a"; do
        grep -v '^#' "$top/samples/wol.toml" | sed '/^\[\[volume/,$d' >wol.toml
        for name in $order; do
            printf '[[volume]]\nname = "%s"\nhost = "%s"\ndisk = 0\nhome_blocks = 16384\nsegments = 0\nview = []\n' "$name" "$name" >>wol.toml
        done
        wol whatif <trace.csv | wol-report | sed -n 's/^off-load among all.* \([0-9.]* %\).*/\1/p' >>saved
    done
    expect "USAGE: the order of the tables decides" "$(grep -o '[0-9.]* % in ten hours\|^[0-9.]* % where d stands first' "$top/docs/USAGE.md" | grep -o '^[0-9.]* %')" "$(cat saved)"
}

merged() {
    fresh merged
    split
    cat usr.csv src.csv >both.csv
    wol-trace merge both.csv web.csv.gz >trace.csv 2>errors
    expect "a file out of order: status" 0 $?
    expect "a file out of order: it is told" 1 "$(grep -c '^wol-trace: both.csv: [0-9]* lines are earlier than one before them, by up to 27 min 35 s; each stays behind that one$' errors)"
    expect "a file out of order: lines" 66 "$(wc -l <trace.csv)"
    printf '5,a,0,Read,0,512,0\r\n\n9,a,0,Read,0,512,0' >one
    printf '5,b,0,Read,0,512,0\n6,b,0,Write,0,512,0\n' >two
    expect "ends of lines, and equal times" "5a 5b 6b 9a " "$(wol-trace merge one two | awk -F , '{ printf "%s%s ", $1, $2 }')"
    expect "the same from standard input" "5a 5b 6b 9a " "$(gzip -c two | wol-trace merge one - | awk -F , '{ printf "%s%s ", $1, $2 }')"
    { echo Timestamp,Hostname; cat two; } >three
    wol-trace merge one three >/dev/null 2>errors
    expect "a heading: status" 1 $?
    expect "a heading: advice" 1 "$(grep -c 'three, line 1: .*a heading? tail -n +2' errors)"
    wol-trace merge one none >/dev/null 2>errors
    expect "no such file: status" 1 $?
    expect "no such file" "wol-trace: none: No such file or directory" "$(cat errors)"
    head -c 100 web.csv.gz >cut.gz
    wol-trace merge cut.gz >/dev/null 2>errors
    expect "a file that was cut: status" 1 $?
}

configured() {
    fresh configured
    wol-trace config --power nas --timeout 30000 --loggers 1 --segments 8 <"$top/samples/offload.csv" >wol.toml
    expect "config: what reads keep awake comes first" "web0 usr0 src0 " "$(sed -n 's/^name = "\(.*\)"/\1/p' wol.toml | tr '\n' ' ')"
    expect "config: words" "timeout_ms = 30000 awake_mw = 5000 segments = 8 " "$(grep -E '^(timeout_ms|awake_mw|segments)' wol.toml | uniq | tr '\n' ' ')"
    expect "config: views" '[] ["web0"] ["web0"] ' "$(sed -n 's/^view = //p' wol.toml | sed '1s/.*/[]/' | tr '\n' ' ')"
    expect "config: wol takes it" 0 "$(wol whatif <"$top/samples/offload.csv" >/dev/null; echo $?)"
    for k in $(seq 0 69); do
        echo "$((1000 + k)),Host\\$k,$k,Write,$((k * 512)),512,0"
        [ "$k" -lt 6 ] || echo "$((2000 + k)),Host\\$k,$k,Read,0,512,0"
    done | sort -n >many.csv
    wol-trace config <many.csv >wol.toml 2>errors
    expect "config of 70 disks: status" 0 $?
    expect "config of 70 disks: volumes" 64 "$(grep -c '^name = ' wol.toml)"
    expect "config of 70 disks: what is left out is told" 1 "$(grep -c 'left out are .*Host.0 0, Host.1 1, Host.2 2, Host.3 3, Host.4 4, Host.5 5$' errors)"
    expect "config of 70 disks: wol takes it" 0 "$(wol whatif <many.csv >/dev/null 2>&1; echo $?)"
    expect "config of 70 disks: their lines are read" "of no volume: 6" "$(wol-trace notes <many.csv | grep -o '^of no volume: [0-9]*')"
    echo nonsense | wol-trace config >/dev/null 2>errors
    expect "config of no trace: status" 1 $?
}

noted() {
    fresh noted
    cp "$top/samples/wol.toml" .
    expect "notes: all is well" "lines: 66, over 29 min 40 s" "$(wol-trace notes <"$top/samples/offload.csv")"
    expect "notes: no configuration" 1 "$(wol-trace notes --config none <"$top/samples/offload.csv" | grep -c '^no none is there')"
    sed 's/,web,/,WEB,/' "$top/samples/offload.csv" >trace.csv
    expect "notes: a host of no volume" "of no volume: 45 of the lines, of which the first is line 1: host WEB, disk 0" "$(wol-trace notes <trace.csv | grep '^of no')"
    expect "notes: a volume without a line" "volumes without a line: web0" "$(wol-trace notes <trace.csv | grep '^volumes')"
    sed 's/,\([a-z]*\),0,/,X\1,0,/' "$top/samples/offload.csv" | gzip >trace.gz
    expect "notes: no line of a volume, compressed" 1 "$(wol-trace notes <trace.gz | grep -c '^of no volume: ALL of the lines, .*idle disks$')"
    tac "$top/samples/offload.csv" >trace.csv
    expect "notes: back in time" "back in time: 65 lines are earlier than one before them, by up to 29 min 40 s" "$(wol-trace notes <trace.csv | grep -o '^back.* s')"
    { echo "Timestamp,Hostname,DiskNumber,Type,Offset,Size,ResponseTime"; cat "$top/samples/offload.csv"; } >trace.csv
    expect "notes: a heading" 1 "$(wol-trace notes <trace.csv | grep -c '^refused: 1 lines, of which the first is line 1 .*a heading?')"
    for k in $(seq 100); do echo "$((1700000000 + k)),usr,0,Read,0,512,0"; done >trace.csv
    expect "notes: times in seconds" 1 "$(wol-trace notes <trace.csv | grep -c 'do its times count 100 ns')"
    expect "notes: no line" "the trace has no line, so all numbers are 0" "$(wol-trace notes </dev/null | tail -n 1)"
}

other_logs() {
    fresh logs
    cat >text <<'END'
  8,16   1        1     0.000000000   697  Q  WS 223490 + 8 [kjournald]
  8,16   1        2     0.000001829   697  G  WS 223490 + 8 [kjournald]
  8,16   1        3     1.500000199   697  Q  RA 0 + 256 [dd]
  8,0    0        1  3600.250000000     0  Q  FN [kworker/0:1]
  8,0    0        2  3600.250000000     0  Q  DS 16 + 8 [fstrim]
CPU0 (8,16):
 Reads Queued:           1,        4KiB	 Writes Queued:           1,        4KiB
END
    wol-trace blkparse --host nas --start 0 <text >trace.csv 2>errors
    expect "blkparse: status" 0 $?
    expect "blkparse" "116444736000000000,nas,8016,Write,114426880,4096,0 116444736015000001,nas,8016,Read,0,131072,0 " "$(tr '\n' ' ' <trace.csv)"
    expect "blkparse: what is passed over" 1 "$(grep -c '2 lines; 2 of action Q' errors)"
    wol-trace blkparse <trace.csv >/dev/null 2>&1
    expect "blkparse of something else: status" 1 $?
    printf 'fio version 3 iolog\n20 f add\n157 f open\n162 f write 61440 4096\n106056 f read 0 512\n200000 g write 512 512\n3034030 f close\n' >three
    expect "fio" "1620,fio,0,Write,61440,4096,0 1060560,fio,0,Read,0,512,0 2000000,fio,1,Write,512,512,0 " "$(wol-trace fio three 2>/dev/null | tr '\n' ' ')"
    printf 'fio version 2 iolog\nf add\nf open\nf wait 250 0\nf write 0 512\nf sync 0 0\nf close\n' >two
    expect "fio, of version 2" "2500,fio,0,Write,0,512,0" "$(wol-trace fio two 2>/dev/null)"
    wol-trace fio trace.csv >/dev/null 2>&1
    expect "fio of something else: status" 1 $?
}

# row MINOR NAME READ WROTE: a line of /proc/diskstats
row() { echo "   8   $1 $2 10 0 $3 5 20 0 $4 5 0 10 10"; }

# next_sample: gives the lines that come in to the sampler, which reads them once; the file for the next time is there before it has them
next_sample() {
    exec 3>stats
    mkfifo next
    mv next stats
    cat >&3
    exec 3>&-
}

sampled() {
    local begin
    fresh sampled
    begin=$(date +%s)
    mkfifo stats
    wol-trace diskstats --every 1 --count 4 --host nas --file stats >trace.csv 2>errors &
    { row 0 sda 100 4294967290; row 1 sda1 100 50; row 16 sdb 7 7; } | next_sample
    { row 0 sda 108 10; row 1 sda1 200 90; row 16 sdb 7 7; } | next_sample
    row 0 sda 108 10 | next_sample
    { row 0 sda 108 10; row 16 sdb 3 3; } | next_sample
    { row 0 sda 108 10; row 16 sdb 3 5; row 32 sdc 9 9; } | next_sample
    wait $!
    expect "diskstats: status" 0 $?
    expect "diskstats: a counter that began again, a disk that came back" "nas,8000,Read,67108864,4096,0 nas,8000,Write,65536,5120,0 nas,8016,Write,131072,1024,0 " \
        "$(cut -d , -f 2- trace.csv | tr '\n' ' ')"
    expect "diskstats: times are of this clock" 3 "$(awk -F , -v a="$begin" -v b="$(date +%s)" '{ t = $1 / 1e7 - 11644473600 } t >= a && t <= b + 1' trace.csv | wc -l)"
    expect "diskstats: disks are told" 1 "$(grep -c '3 lines in .* of host nas; disks: 8000 is sda, 8016 is sdb, 8032 is sdc$' errors)"
    wol-trace config <trace.csv >wol.toml
    expect "diskstats: wol takes it" 0 "$(wol whatif <trace.csv >/dev/null; echo $?)"
    wol-trace diskstats --every 3600 --file stats >trace.csv 2>errors &
    row 0 sda 1 1 | next_sample
    kill -INT $!
    wait $!
    expect "diskstats: Ctrl-C ends it" 0 $?
    expect "diskstats: Ctrl-C, what is told" 1 "$(grep -c '^wol-trace: 0 lines in ' errors)"
}

# field NAME: a value of a policy in JSON
field() { python3 -c 'import json, sys; print(json.load(open("out.json"))["policies"][sys.argv[1]][sys.argv[2]])' "$@"; }

reported() {
    local policy
    fresh reported
    cp "$top/samples/wol.toml" .
    wol whatif <"$top/samples/offload.csv" >lines
    wol-report --format json <lines >out.json
    expect "report: status" 0 $?
    for policy in always spindown host all; do
        expect "report: $policy" "$(grep "^$policy " lines)" "$policy wakes $(field $policy wakes) sleeps $(field $policy sleeps) energy $(field $policy energy)"
    done
    expect "report: saved" "55.7" "$(field all saved_percent)"
    expect "report: spin-ups a disk a day" "16.18" "$(field all wakes_a_disk_a_day)"
    expect "report: a table" 4 "$(wol-report <lines | grep -cE '^(always on|spin-down|off-load)')"
    expect "report: CSV" "all,,1,2,18935000,55.7" "$(wol-report --format csv <lines | tail -n 1 | cut -d , -f 1-6)"
    wol format >/dev/null
    wol replay --each <"$top/samples/offload.csv" >lines
    wol-report --format json <lines >out.json
    expect "report of replay: energy" 18935000 "$(field replay energy)"
    expect "report of replay: saved" 55.7 "$(field replay saved_percent)"
    expect "report of replay: volumes" 3 "$(wol-report <lines | grep -cE '^(usr0|web0|src0) ')"
    wol replay <"$top/samples/bad.csv" 2>/dev/null | wol-report >/dev/null 2>errors
    expect "report of a fault: status" 1 $?
    expect "report of a fault" 1 "$(grep -c '^wol-report: the run failed: fault 3' errors)"
    echo nonsense | wol-report >/dev/null 2>&1
    expect "report of something else: status" 1 $?
}

recipe
examples
ordered
merged
configured
noted
other_logs
sampled
reported
echo "trace: $passed passed, $failed failed"
[ "$failed" -eq 0 ]
