#!/usr/bin/env bash
# Cleaning beside writing: 10,000 records of one volume that lie over one another are cleaned, on a memory file system and on a disk. Beside it
# stand a run that opens and closes the same volumes and does nothing else, a run in which the program itself logs as many blocks as were
# copied, in records as long, on volumes that are new, one that opens and closes these, and `dd`, which writes and syncs as many blocks in the
# same folder. All are run by turns, each on files that are new and synced, and the best of its runs counts; what is compared is the time of
# cleaning and of logging, each less that of opening and closing.
# Cleaning writes the copies in groups, as many as a segment takes, each with two syncs, where logging takes two syncs for each. Besides it reads
# each old record once, and writes and syncs one head for each segment that is given up and for each old record beside copies: at 10,000 records
# 10,160 reads and 324 syncs in all, beside 716 syncs of logging the copies. Of these syncs 180 are of groups and of the 45 segments that are
# claimed for them, 88 of segments that are given up, and 56 of old records that lie in the one segment which copies fill up. It takes 37 million
# instructions of the program, where logging takes 19 million, since the old records leave the index; and the reads, one for each run of blocks
# that an old record has, take about as long as the writes where both go to memory. One read for many neighbours takes no less: what lies between
# their live blocks is copied too. So cleaning takes less time than logging wherever 392 syncs take longer than reading the old records and
# taking them out of the index, which is some 25 ms. Opening syncs once for each image.
# On 29 November 2026, on a machine with 4 processors on which nothing else was proved, cleaning by the proved program took 0.81 times as long as
# logging the copies while the disk synced 64 KiB 9,200 times a second, and 2.22 times on a memory file system, where a sync costs nothing. An
# unproved build took 0.58 times at 5,800 syncs a second and 0.33 times at 2,000, and 0.75 times where each sync in memory was made to last 0.1 ms.
# usage: bench/clean.sh [RECORDS [FOLDER]..]    how many records (10000 if left out), and the folders in which to clean (/dev/shm, which is a
# memory file system, and /tmp or TMPDIR, which lies on a disk or not: `df` tells); RUNS says how many runs of each (7 if it isn't set); the
# program is build/wol, as `make build` leaves it
set -eu
cd "$(dirname "$0")/.."
records=${1:-10000}
runs=${RUNS:-7}
[ $# -eq 0 ] || shift
[ $# -gt 0 ] || set -- /dev/shm "${TMPDIR:-/tmp}"
program=$PWD/build/wol
[ -x "$program" ] || { echo "bench/clean.sh: no build/wol: run 'make build' first" >&2; exit 1; }
before=$(mktemp -d /dev/shm/wol-clean.XXXXXX)
places=("$before")
trap 'rm -r "${places[@]}"' EXIT
cd "$before"

# the volume `a` sleeps, so that each write goes to the log of `b`, which a read keeps awake
cat >wol.toml <<'TOML'
segment_blocks = 1024
timeout_ms = 60000
awake_mw = 8000
standby_mw = 1000
wake_mj = 50000
[[volume]]
name = "a"
host = "a"
disk = 0
home_blocks = 200000
segments = 0
view = ["b"]
[[volume]]
name = "b"
host = "b"
disk = 0
home_blocks = 1000
segments = 400
view = []
TOML
: >empty.csv

# each write has eight blocks, of which the next one takes four again
awk -v records="$records" 'BEGIN {
    printf "128166372000000000,b,0,Read,0,512,100\n128166372500000000,b,0,Read,0,512,100\n"
    for (i = 0; i < records; i++) {
        printf "128166373%09d,a,0,Write,%d,4096,100\n", i, i * 2048
        if (i % 64 == 63) printf "128166373%09d,b,0,Read,0,512,100\n", i
    }
}' >trace.csv

"$program" format >format.txt
"$program" replay --reclaim off <trace.csv >replay.txt
"$program" check >before.txt

# least NAME COMMAND..: runs it, and lowers NAME to the nanoseconds that it takes, where these are fewer
least() {
    local name=$1 start took
    shift
    sync -f .
    start=$(date +%s%N)
    "$@" >out.txt
    took=$(($(date +%s%N) - start))
    [ "$took" -ge "${!name}" ] || printf -v "$name" '%s' "$took"
}

for folder in "$@"; do
    place=$(mktemp -d "$folder/wol-clean.XXXXXX")
    places+=("$place")
    opening=$((1 << 62)) cleaning=$opening fresh=$opening logging=$opening writing=$opening
    for ((run = 0; run < runs; run++)); do
        rm -rf "${place:?}"/*
        mkdir "$place/old" "$place/new"
        cp --sparse=always "$before"/*.vol "$before/wol.toml" "$before/empty.csv" "$place/old"
        cd "$place/old"
        least opening "$program" replay --reclaim off <empty.csv
        least cleaning "$program" clean
        line=$(head -n 1 out.txt)
        copied=$(awk '{ print $8 }' <<<"$line")
        "$program" check >after.txt
        [ "$(awk '{ print $1, $4 }' "$before/before.txt")" = "$(awk '{ print $1, $4 }' after.txt)" ] || { echo "bench/clean.sh: the content is another" >&2; exit 1; }

        # the same blocks, logged by the program in records of 128 on volumes in a new folder
        cp wol.toml empty.csv "$place/new"
        cd "$place/new"
        "$program" format >format.txt
        awk -v copied="$copied" 'BEGIN {
            printf "128166372000000000,b,0,Read,0,512,100\n128166372500000000,b,0,Read,0,512,100\n"
            for (i = 0; i * 128 < copied; i++) printf "128166373%09d,a,0,Write,%d,65536,100\n", i, i * 65536
        }' >copies.csv
        least fresh "$program" replay --reclaim off <empty.csv
        least logging "$program" replay --reclaim off <copies.csv
        least writing dd if=/dev/zero of=limit bs=65536 count=$(((copied + 127) / 128)) oflag=dsync status=none
    done
    awk -v line="$line" -v folder="$folder" -v runs="$runs" -v clean="$cleaning" -v opening="$opening" -v log_="$logging" -v fresh="$fresh" -v dd="$writing" -v copied="$copied" 'BEGIN {
        ms = 1000000
        printf "%s, the best of %d runs of each: %s\n", folder, runs, line
        printf "    clean %.1f ms, of it opening and closing %.1f ms; logging %d blocks %.1f ms, of it opening and closing %.1f ms; dd %.1f ms\n", clean / ms, opening / ms, copied, log_ / ms, fresh / ms, dd / ms
        printf "    cleaning is %.2f times logging, and %.2f times dd\n", (clean - opening) / (log_ - fresh), (clean - opening) / dd
    }'
    cd "$before"
done
