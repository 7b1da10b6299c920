#!/usr/bin/env bash
# Draining: 10,000 records of one block each, in the log of one volume, go home where each sync takes 8 ms: by `view-remove`, which drains the
# volume, and by a reclaim turn, behind a read that wakes home. Counted by a library that is loaded before the C library: syncs, reads and writes of
# files, those of opening and closing among them; and the seconds by the clock and of a processor. A third row has the same run with no record.
# usage: bench/drain.sh [RECORDS [MS]]    how many records (10000 if left out), and how long a sync takes (8); FOLDER is where the images are made
# (/dev/shm); the program is build/wol, as `make build` leaves it. It needs a C compiler (cc)
set -eu
cd "$(dirname "$0")/.."
records=${1:-10000}
ms=${2:-8}
program=$PWD/build/wol
[ -x "$program" ] || { echo "bench/drain.sh: no build/wol: run 'make build' first" >&2; exit 1; }
room=$(mktemp -d "${FOLDER:-/dev/shm}/wol-drain.XXXXXX")
trap 'rm -r "$room"' EXIT
cd "$room"

cat >slow.c <<'C'
#define _GNU_SOURCE
#include <dlfcn.h>
#include <fcntl.h>
#include <stdatomic.h>
#include <stdlib.h>
#include <sys/mman.h>
#include <time.h>
#include <unistd.h>
enum { SYNCS, READS, WRITES, KINDS };
extern ssize_t __pread64(int, void *, size_t, off_t);
extern ssize_t __pwrite64(int, const void *, size_t, off_t);
static atomic_long *counts;
static struct timespec wait;
__attribute__((constructor)) static void begin(void) {
    int file = open(getenv("COUNTS"), O_RDWR | O_CREAT | O_TRUNC, 0600);
    size_t size = KINDS * sizeof *counts;
    if (file < 0 || ftruncate(file, size)) abort();
    counts = mmap(NULL, size, PROT_READ | PROT_WRITE, MAP_SHARED, file, 0);
    close(file);
    wait.tv_nsec = atol(getenv("SYNC_MS")) * 1000000;
}
ssize_t pread64(int file, void *out, size_t size, off_t place) {
    counts[READS]++;
    return __pread64(file, out, size, place);
}
ssize_t pread(int file, void *out, size_t size, off_t place) { return pread64(file, out, size, place); }
ssize_t pwrite64(int file, const void *data, size_t size, off_t place) {
    counts[WRITES]++;
    return __pwrite64(file, data, size, place);
}
ssize_t pwrite(int file, const void *data, size_t size, off_t place) { return pwrite64(file, data, size, place); }
static int slow(const char *name, int file) {
    counts[SYNCS]++;
    nanosleep(&wait, NULL);
    return ((int (*)(int))dlsym(RTLD_NEXT, name))(file);
}
int fsync(int file) { return slow("fsync", file); }
int fdatasync(int file) { return slow("fdatasync", file); }
C
cc -O2 -shared -fPIC -o slow.so slow.c -ldl

# the volume `a` sleeps, so that each write goes to the log of `b`, which a read keeps awake
cat >wol.toml <<'TOML'
segment_blocks = 2048
timeout_ms = 60000
awake_mw = 8000
standby_mw = 1000
wake_mj = 50000
[[volume]]
name = "a"
host = "a"
disk = 0
home_blocks = 200000
segments = 0
view = ["b"]
[[volume]]
name = "b"
host = "b"
disk = 0
home_blocks = 1000
segments = 64
view = []
TOML
awk -v records="$records" 'BEGIN {
    printf "128166372000000000,b,0,Read,0,512,100\n128166372500000000,b,0,Read,0,512,100\n"
    for (i = 0; i < records; i++) printf "128166373%09d,a,0,Write,%d,512,100\n", i, i * 7919 % 200000 * 512
}' >logged.csv
printf '128166374000000000,a,0,Read,0,512,100\n' >read.csv
mkdir model
cp wol.toml model
cd model
"$program" format >/dev/null
"$program" replay --reclaim off <../logged.csv >/dev/null
"$program" check >../before.txt
cd ..
grep -q "records $records " before.txt || { echo "bench/drain.sh: not all writes were logged:" >&2; cat before.txt >&2; exit 1; }

# measure WORK TRACE WORDS..: the command on a copy of the images
measure() {
    local work=$1 trace=$2
    shift 2
    [ -d at ] || cp -r --sparse=always model at
    (
        cd at
        TIMEFORMAT='%R %U %S'
        { time SYNC_MS=$ms COUNTS=$room/counts LD_PRELOAD=$room/slow.so "$program" "$@" <"$trace" >"$room/out.txt"; } 2>"$room/times"
        "$program" check >"$room/after.txt"
    )
    [ "$(awk '{ print $1, $4 }' before.txt)" = "$(awk '{ print $1, $4 }' after.txt)" ] || { echo "bench/drain.sh: $work: the content is another" >&2; exit 1; }
    awk -v work="$work" -v counts="$(od -An -v -t d8 counts | tr '\n' ' ')" '{
        split(counts, n, " ")
        printf "| %s | %d | %d | %d | %.2f | %.2f |\n", work, n[1], n[2], n[3], $1, $2 + $3
    }' times
}

printf '| work, %s ms a sync | syncs | reads | writes | clock s | CPU s |\n|---|---|---|---|---|---|\n' "$ms"
measure "$records records, view-remove" /dev/null view-remove a b
rm -r at
measure "$records records, a reclaim turn" "$room/read.csv" replay --reclaim between
grep -q "^reclaimed blocks $records records $records\$" out.txt || { echo "bench/drain.sh: not all was reclaimed:" >&2; cat out.txt >&2; exit 1; }
measure "no record, the same read" "$room/read.csv" replay --reclaim between
