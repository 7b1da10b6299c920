#!/bin/sh
# Prints turns per second of the turn lock and, beside it, of the standard library's Mutex on the same work, which counts up:
# by one thread, and by four at once. The program is proved and built in a folder that is removed afterwards.
# Usage: bench/turns.sh [TURNS]   (turns of each thread; 1000000 if left out)
set -eu
top=$(cd "$(dirname "$0")/.." && pwd)
turns=${1:-1000000}
echo "$(date -u +%F), $(nproc) processors: $(sed -n 's/^model name.*: //p' /proc/cpuinfo | head -n 1)"
folder=$(mktemp -d)
trap 'rm -rf "$folder"' EXIT
bench=$folder/crates/turn_bench
mkdir -p "$bench/src" "$bench/proofs/lock_turns" "$bench/proofs/time_lock"
cp -r "$top/crates/turn_lock" "$top/crates/errands" "$top/crates/turn_lock_tests" "$folder/crates/"
grep '^turn_lock\|^errands' "$top/crates.txt" > "$folder/crates.txt"
echo 'turn_bench: turn_lock turn_lock_tests' >> "$folder/crates.txt"
cp "$top/HANDLES" "$folder/"
cat > "$bench/proofs/lock_turns/Invariants.antt" <<'PROOF'
use Rattle.turn_lock.specs.Passes.{IsPassOf, IsFree}
use Rattle.turn_bench.proofs.lock_turns.Given as goal

abbrev pub invariant-loop : goal.invariant-loop
invariant-loop g l = IsPassOf l.lock l.pass × IsFree l.pass
PROOF
cat > "$bench/proofs/time_lock/Invariants.antt" <<'PROOF'
use Rattle.turn_bench.proofs.time_lock.Given as goal

abbrev pub ghost-new : goal.ghost-new
ghost-new g a = a.value.count
PROOF
cat > "$bench/src/main.rt" <<MAIN
// Turns per second of the turn lock and of the Mutex.
#![tactic(auto)]
ghost use Rattle.std.specs.Prelude.{◌≡◌, ◌≤◌, ◌<◌, All, vec_len};
ghost use Rattle.turn_lock.specs.Passes.{IsPassOf, IsFree};

use std::alloc::Global;
use std::io;
use std::sync::{Mutex, Wait};
use std::thread;
use std::thread::Threads;
use std::time::{Clock, Duration, Instant};
use turn_lock::{Pass, TurnLock};
use turn_lock_tests::{Counter, count_up};

const TURNS: u32 = $turns;

fn lock_turns<R: Wait>(rt: &R, lock: &TurnLock<Counter>, pass: &mut Pass<Counter>)
    requires own { IsPassOf lock.now pass.old }
    requires free { IsFree pass.old }
    ensures own { IsPassOf lock.entry.now pass.new }
    ensures free { IsFree pass.new }
{
    for _ in 0..TURNS {
        count_up(rt, lock, pass);
    }
}

fn all_lock_turns<R: Threads + Wait + Sync>(
    rt: &R,
    lock: &TurnLock<Counter>,
    passes: &mut Vec<Pass<Counter>>,
)
    requires { All (λ p. IsPassOf lock.now p × IsFree p) passes.old.items }
    ensures passes { All (λ p. IsPassOf lock.entry.now p × IsFree p) passes.new.items }
    ensures count { vec_len passes.new ≡ vec_len passes.old }
{
    thread::for_each_mut(
        rt,
        passes.as_mut_slice(),
        4,
        &|_, pass: &mut Pass<Counter>|
            requires { IsPassOf lock.now pass.now × IsFree pass.now }
            ensures { IsPassOf lock.entry.now pass.exit.now × IsFree pass.exit.now }
        { lock_turns(rt, lock, pass) },
    );
}

fn mutex_turns<R: Wait>(rt: &R, mutex: &Mutex<Counter>) {
    for _ in 0..TURNS {
        mutex.lock(rt).count_turn();
    }
}

fn all_mutex_turns<R: Threads + Wait + Sync>(rt: &R, mutex: &Mutex<Counter>, threads: &mut [u32]) {
    thread::for_each_mut(rt, threads, 4, &|_, _: &mut u32| mutex_turns(rt, mutex));
}

// How long so many threads take, and what they counted.
fn time_lock<R: Threads + Wait + Clock + Sync>(
    rt: &R,
    alloc: Global,
    threads: u32,
) -> io::Result<(Duration, u64)>
    requires { (1 ≤ threads) × (threads ≤ 4) }
{
    match TurnLock::new(alloc, Counter { count: 0 }, threads, 0) {
        Ok((lock, mut passes)) => {
            let start = Instant::now(rt);
            all_lock_turns(rt, &lock, &mut passes);
            let counted = lock.close(passes).count;
            Ok((start?.elapsed(rt)?, counted))
        }
        Err((_, _)) => Ok((Duration::from_millis(0), 0)),
    }
}

fn time_mutex<R: Threads + Wait + Clock + Sync>(
    rt: &R,
    threads: u32,
) -> io::Result<(Duration, u64)>
    requires { (1 ≤ threads) × (threads ≤ 4) }
{
    let mutex = Mutex::new(Counter { count: 0 });
    let mut places = [0u32; 4];
    let start = Instant::now(rt)?;
    all_mutex_turns(rt, &mutex, &mut places[..threads as usize]);
    let took = start.elapsed(rt)?;
    Ok((took, mutex.into_inner().count))
}

fn per_second(timed: (Duration, u64)) -> u128 {
    u128::from(timed.1) * 1_000_000_000 / timed.0.as_nanos().max(1)
}

fn main(rt: HostRuntime) -> io::Result<()> {
    let alloc: Global = rt.alloc();
    let alone = per_second(time_lock(&rt, alloc, 1)?);
    println!(rt; "turn lock, one thread:   {alone} turns per second")?;
    let mutex_alone = per_second(time_mutex(&rt, 1)?);
    println!(rt; "mutex, one thread:       {mutex_alone} turns per second")?;
    let four = per_second(time_lock(&rt, alloc, 4)?);
    println!(rt; "turn lock, four threads: {four} turns per second")?;
    let mutex_four = per_second(time_mutex(&rt, 4)?);
    println!(rt; "mutex, four threads:     {mutex_four} turns per second")?;
    Ok(())
}
MAIN
cd "$bench"
rt run > "$folder/out" 2> "$folder/log" || { cat "$folder/log" "$folder/out" >&2; exit 1; }
cat "$folder/out"
