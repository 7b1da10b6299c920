#!/usr/bin/env bash
# Prints what calls of the index take at 10^2 to 10^6 records of one block each, in nanoseconds a record: adding it; asking for the
# newest record of a block; putting it home and giving it up, all by version (put, trim), in an order in which each record that goes
# lies far from the last one (middle), and as a reclaim does it, the next one that is due and then the next one that may go (due+put,
# go+trim; reclaim is their sum); a reclaim where newer records cover half of all (covered); and a whole drain, which asks each time
# what may go and what is due. That program is proved and built in a folder that is removed afterwards. It measures by the clock, so
# let the machine do nothing else.
# Then, through the program build/wol as `make build` leaves it, on a memory file system, which needs 3 GB: 1,000 to 1,000,000 distinct blocks
# of one volume are off-loaded one by one with `--reclaim off`; a window that finds all disks awake then reclaims them with
# `--reclaim between`. Printed is processor time a record of both, and of opening in between, and how it grows.
# usage: bench/index.sh [RECORDS]..     (100 1000 10000 100000 1000000 if left out)
set -eu
top=$(cd "$(dirname "$0")/.." && pwd)
[ $# -gt 0 ] || set -- 100 1000 10000 100000 1000000
echo "$(date -u +%F), $(nproc) processors: $(sed -n 's/^model name.*: //p' /proc/cpuinfo | head -n 1)"
folder=$(mktemp -d)
trap 'rm -rf "$folder"' EXIT
bench=$folder/crates/index_bench
mkdir -p "$bench/src" "$bench/specs" "$bench/proofs/steps"
for crate in wol_disk wol_model wol_promise block_cells redirect_map garbage_list; do
    mkdir -p "$folder/crates/$crate"
    for part in src specs proofs; do
        cp -r "$top/crates/$crate/$part" "$folder/crates/$crate/"
    done
    grep "^$crate:" "$top/crates.txt" >>"$folder/crates.txt"
done
echo 'index_bench: wol_disk wol_model redirect_map garbage_list' >>"$folder/crates.txt"
# the steps of the tests of indexes, with their proofs
tests=$top/crates/index_tests
cp "$tests/src/steps.rt" "$bench/src/"
cp "$tests/specs/"*.antt "$bench/specs/"
cp "$tests/proofs/"*.antt "$bench/proofs/"
cp -r "$tests/proofs/steps/." "$bench/proofs/steps/"
find "$bench" -type f -exec sed -i 's/index_tests/index_bench/g' {} +
# the invariant of each loop over an index: which variable it counts, and which number all versions are below
for loop in records:version:version put_each:version:count give_each:version:count give_scattered:step:count put_all:step:count give_all:step:count drain:step:count; do
    IFS=: read -r name variable below <<<"$loop"
    mkdir -p "$bench/proofs/$name"
    cat >"$bench/proofs/$name/Invariants.antt" <<PROOF
use Rattle.index_bench.specs.Below.{AreBelow}
use Rattle.index_bench.proofs.$name.Given as goal

abbrev pub invariant-loop-$variable : goal.invariant-loop-$variable
invariant-loop-$variable l = AreBelow l.$below l.index.entries
PROOF
done
cat >"$bench/src/main.rt" <<'MAIN'
// What calls of an index take.
#![tactic(auto)]

ghost use Rattle.std.specs.Prelude.{◌≡◌, ◌<◌, ◌≤◌, ◌+◌, ◌^◌, IfOk};
ghost use Rattle.index_bench.specs.Below.{AreBelow};

mod steps;

use garbage_list::{next_due, next_to_go};
use redirect_map::{Index, Rec};
use std::alloc::Global;
use std::io;
use std::time::{Duration, Instant};
use steps::{add_next, give_up, put_home};
use wol_disk::NoMemory;

const ASKED: u64 = 1_000_000;

const LANES: [bool; 3] = [true; 3];

// One of so many blocks, far from those of the versions before and behind.
fn record_of(version: u64, blocks: u64) -> Rec
    requires few { version ≤ 1000000 }
    requires some { 0 < blocks }
    ensures version { result.version ≡ version }
    ensures lbn { result.lbn < 4000000 }
    ensures count { result.count ≡ 1 }
    ensures keep { result.keep ≡ 1 }
    ensures lane { result.lane ≡ 0 }
{
    Rec {
        version,
        lbn: version % blocks * 1_618_033 % 4_000_000,
        count: 1,
        keep: 1,
        lane: 0,
        segment: 0,
        pos: 1,
    }
}

fn records(alloc: Global, count: u64, blocks: u64) -> Result<Index, NoMemory>
    requires few { count ≤ 1000000 }
    requires some { 0 < blocks }
    ensures { IfOk result (λ index. AreBelow count index.entries) }
{
    let mut index = Index::new(alloc);
    for version in 0..count {
        add_next(&mut index, record_of(version, blocks))?;
    }
    Ok(index)
}

fn ask(index: &Index) -> u64 {
    let mut found = 0u64;
    for time in 0..ASKED {
        let there = index.newest(time * 1_618_033 % 4_000_000).is_some();
        found = found.wrapping_add(u64::from(there));
    }
    found
}

fn put_each(index: &mut Index, count: u64)
    requires { AreBelow count index.old.entries }
    ensures { AreBelow count index.new.entries }
{
    for version in 0..count {
        let _ = put_home(index, count, version);
    }
}

fn give_each(index: &mut Index, count: u64)
    requires { AreBelow count index.old.entries }
    ensures { AreBelow count index.new.entries }
{
    for version in 0..count {
        let _ = give_up(index, count, version);
    }
}

// Each one far from the last one.
fn give_scattered(index: &mut Index, count: u64)
    requires few { count ≤ 1000000 }
    requires below { AreBelow count index.old.entries }
    ensures { AreBelow count index.new.entries }
{
    for step in 0..count {
        let _ = give_up(index, count, step * 7_919 % count);
    }
}

fn put_all(index: &mut Index, count: u64)
    requires { AreBelow count index.old.entries }
    ensures { AreBelow count index.new.entries }
{
    for _step in 0..count {
        if let Some(version) = next_due(index, &LANES) {
            let _ = put_home(index, count, version);
        }
    }
}

fn give_all(index: &mut Index, count: u64)
    requires { AreBelow count index.old.entries }
    ensures { AreBelow count index.new.entries }
{
    for _step in 0..count {
        if let Some(version) = next_to_go(index, &LANES) {
            let _ = give_up(index, count, version);
        }
    }
}

fn drain(index: &mut Index, count: u64, steps: u64)
    requires { AreBelow count index.old.entries }
    ensures { AreBelow count index.new.entries }
{
    for _step in 0..steps {
        if let Some(version) = next_to_go(index, &LANES) {
            let _ = give_up(index, count, version);
        } else if let Some(version) = next_due(index, &LANES) {
            let _ = put_home(index, count, version);
        }
    }
}

fn nanoseconds(took: Duration, calls: u64) -> u128 {
    took.as_nanos() / u128::from(calls.max(1))
}

// What adding takes, asking, and putting home and giving up in version order.
fn print_each(rt: &HostRuntime, alloc: Global, count: u64) -> io::Result<()>
    requires { count ≤ 1000000 }
{
    let start = Instant::now(rt)?;
    let Ok(mut index) = records(alloc, count, count.max(1)) else {
        return Ok(());
    };
    let add = nanoseconds(start.elapsed(rt)?, count);
    let start = Instant::now(rt)?;
    let _ = ask(&index);
    let newest = nanoseconds(start.elapsed(rt)?, ASKED);
    let start = Instant::now(rt)?;
    put_each(&mut index, count);
    let put = nanoseconds(start.elapsed(rt)?, count);
    let start = Instant::now(rt)?;
    give_each(&mut index, count);
    let trim = nanoseconds(start.elapsed(rt)?, count);
    print!(rt; "{count} {add} {newest} {put} {trim} {} ", index.len())
}

// What giving up takes from the middle.
fn print_middle(rt: &HostRuntime, alloc: Global, count: u64) -> io::Result<()>
    requires { count ≤ 1000000 }
{
    let Ok(mut index) = records(alloc, count, count.max(1)) else {
        return Ok(());
    };
    put_each(&mut index, count);
    let start = Instant::now(rt)?;
    give_scattered(&mut index, count);
    let took = nanoseconds(start.elapsed(rt)?, count);
    print!(rt; "{took} {} ", index.len())
}

// What putting home and giving up take, the next one that is due or may go each time.
fn print_next(rt: &HostRuntime, alloc: Global, count: u64, blocks: u64) -> io::Result<()>
    requires few { count ≤ 1000000 }
    requires some { 0 < blocks }
{
    let Ok(mut index) = records(alloc, count, blocks) else {
        return Ok(());
    };
    let start = Instant::now(rt)?;
    put_all(&mut index, count);
    let put = nanoseconds(start.elapsed(rt)?, count);
    let start = Instant::now(rt)?;
    give_all(&mut index, count);
    let trim = nanoseconds(start.elapsed(rt)?, count);
    print!(rt; "{put} {trim} {} ", index.len())
}

fn print_drain(rt: &HostRuntime, alloc: Global, count: u64) -> io::Result<()>
    requires { count ≤ 1000000 }
{
    let Ok(mut index) = records(alloc, count, count.max(1)) else {
        return Ok(());
    };
    let start = Instant::now(rt)?;
    drain(&mut index, count, 2 * count);
    let took = nanoseconds(start.elapsed(rt)?, count);
    println!(rt; "{took} {}", index.len())
}

// One row. Each number of records that are left has to be 0. In the second reclaim newer records cover half of all.
fn print_calls(rt: &HostRuntime, alloc: Global, count: u64) -> io::Result<()>
    requires { count ≤ 1000000 }
{
    print_each(rt, alloc, count)?;
    print_middle(rt, alloc, count)?;
    print_next(rt, alloc, count, count.max(1))?;
    print_next(rt, alloc, count, count / 2 + 1)?;
    print_drain(rt, alloc, count)
}

fn main(rt: HostRuntime) -> io::Result<()> {
    let alloc: Global = rt.alloc();
    COUNTS
    Ok(())
}
MAIN
calls=
for count in "$@"; do
    calls="${calls}print_calls(\&rt, alloc, $count)?; "
done
sed -i "s/^    COUNTS$/    $calls/" "$bench/src/main.rt"
cd "$bench"
rt run >"$folder/out" 2>"$folder/log" || { cat "$folder/log" "$folder/out" >&2; exit 1; }
awk 'BEGIN { form = "%9s %8s %8s %8s %8s %8s %8s %8s %8s %8s %8s"
        printf form "  ns a record\n", "records", "add", "newest", "put", "trim", "middle", "due+put", "go+trim", "reclaim", "covered", "drain" }
    NF != 16 || $6 + $8 + $11 + $14 + $16 { print "a row that is not whole, or records that are left: " $0; next }
    { printf form "\n", $1, $2, $3, $4, $5, $7, $9, $10, $9 + $10, $12 + $13, $15; all[$1] = $2 + $9 + $10 }
    END { if (all[1000] && all[1000000]) printf "from 10^3 to 10^6 records one costs %.1f times as much to add and reclaim\n", all[1000000] / all[1000] }' "$folder/out"

program=${WOL:-$top/build/wol}
[ -x "$program" ] || { echo "bench/index.sh: no build/wol: run 'make build' for what the program takes" >&2; exit 0; }
disk=$(mktemp -d /dev/shm/wol-bench.XXXXXX)
trap 'rm -rf "$folder" "$disk"' EXIT
cd "$disk"
# volume a has blocks for all, and b logs them
printf 'segment_blocks = 4096\ntimeout_ms = 60000\nawake_mw = 8000\nstandby_mw = 1000\nwake_mj = 50000\n' >wol.toml
printf '[[volume]]\nname = "a"\nhost = "h"\ndisk = 0\nhome_blocks = 2000000\nsegments = 1\nview = ["b"]\n' >>wol.toml
printf '[[volume]]\nname = "b"\nhost = "h"\ndisk = 1\nhome_blocks = 1000\nsegments = 512\nview = []\n' >>wol.toml
# the processor time of a call in microseconds
processor() {
    local TIMEFORMAT='%3U %3S' took
    took=$({ time "$program" "$@" >out.txt; } 2>&1 <trace.csv)
    awk '{ print int(($1 + $2) * 1e6) }' <<<"$took"
}
for blocks in 1000 10000 200000 1000000; do
    "$program" format >/dev/null
    # b is read once a second; a falls asleep, and from second 100 on 1,000 of its blocks are written a second
    awk -v blocks="$blocks" 'BEGIN {
        for (s = 0; s < 100; s++) printf "%d0000000,h,1,Read,0,512,0\n", 1000 + s
        for (k = 0; k < blocks; k++) {
            s = 1100 + int(k / 1000)
            if (k % 1000 == 0) printf "%d0000000,h,1,Read,0,512,0\n", s
            printf "%d%07d,h,0,Write,%d,512,0\n", s, k % 1000, (k * 7919 % 1000000) * 1024
        }
    }' >trace.csv
    logging=$(processor replay --reclaim off)
    placed=$(sed -n 's/^placed home [0-9]* log \([0-9]*\) .*/\1/p' out.txt)
    : >trace.csv
    opening=$(processor replay --reclaim off)
    echo '10000000,h,0,Read,512,512,0' >trace.csv
    reclaiming=$(processor replay --reclaim between)
    records=$(sed -n 's/^reclaimed blocks [0-9]* records \([0-9]*\)$/\1/p' out.txt)
    echo "$blocks $placed $logging $opening $((reclaiming - opening)) $records"
done | awk 'BEGIN { printf "%9s %9s %9s %9s %9s  microseconds a record, processor time\n", "blocks", "logged", "write", "open", "reclaim" }
    { printf "%9d %9d %9.2f %9.2f %9.2f\n", $1, $2, $3 / $1, $4 / $1, $5 / $1; all[$1] = ($3 + $4 + $5) / $1; if ($6 != $1) print $6, "records were reclaimed" }
    END { printf "from 10^3 to 10^6 records one costs %.1f times as much\n", all[1000000] / all[1000] }'
