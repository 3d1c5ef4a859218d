#!/usr/bin/env python3
"""Measures counted_desk beside the same machine under the standard library's Mutex, in one run.

usage: bench/desk.py [CALLS] [ROUNDS] [FOLDER]

Makes a small program over the crate, which proves and builds in some minutes; in FOLDER, where one is
given, it is kept, so that a further run is quick. A machine adds up numbers; 1, 2 and 4 threads make so
many calls of it in all (1000000), in so many rounds (15): of a desk, under a Mutex, and under a Mutex
with a journal as the desk keeps it. Printed are the median and the least times per call, from the start
of the threads to their end, and their ratios to those of the Mutex.
"""
import os
import shutil
import statistics
import subprocess
import sys
import tempfile

HERE = os.path.dirname(os.path.dirname(os.path.abspath(__file__)))
CRATES = ("pgw_frames", "proxy_outside", "counted_desk")
PROGRAM = r"""
//! Times calls of a desk, and of the same machine under a Mutex, from one, two and four threads.
#![tactic(auto)]

ghost use Rattle.std.specs.Prelude.{◌≡◌};

use counted_desk::{Closed, Desk, Seat};
use pgw_frames::NoMemory;
use proxy_outside::Machine;
use std::alloc::Global;
use std::io;
use std::rt::Clock;
use std::sync::{Mutex, Wait};
use std::thread::{Threads, join};
use std::time::Instant;

const CALLS: u64 = @CALLS@;
const ROUNDS: u64 = @ROUNDS@;
const MOST: u32 = 4_294_967_295;

/// Adds up the numbers that it is told, and replies the sum.
#[derive(Drop)]
struct Sum {
    all: u64,
}

impl Machine for Sum {
    type Command = u64;

    type Reply = u64;

    ghost use Rattle.std.specs.Prelude.{◌≡◌, ℕ, ◌+◌, ◌%◌, ◌^◌};

    ghost State = { ℕ };

    ghost rules = { record { first = 0; next = λ s c. (s + c) % 2 ^ 64; reply = λ s c. (s + c) % 2 ^ 64 } };

    ghost stands_for = { λ m s. m.all ≡ s };

    fn opening(_alloc: Global) -> Result<Sum, NoMemory> {
        Ok(Sum { all: 0 })
    }

    fn step(&mut self, c: &u64) -> Result<u64, NoMemory> {
        self.all = self.all.wrapping_add(*c);
        Ok(self.all)
    }
}

/// A machine and its calls, as a desk keeps them.
#[derive(Drop)]
struct Kept {
    sum: Sum,
    journal: Vec<(u64, u64)>,
}

impl Kept {
    fn call(&mut self, command: u64) -> Result<u64, NoMemory> {
        let place = self.journal.len() as u64;
        self.journal.push((place, command))?;
        self.sum.step(&command)
    }
}

// ---- one thread

fn call_desk<R: Wait>(rt: &R, desk: &Desk<Sum>, mut seat: Seat<Sum>, calls: u64) -> (Seat<Sum>, u64)
    requires { seat.desk ≡ desk.now }
    ensures { result.0.desk ≡ desk.now }
{
    let mut missed = 0u64;
    for _ in 0..calls {
        if desk.call(rt, &mut seat, 1).is_err() {
            missed = missed.wrapping_add(1);
        }
    }
    (seat, missed)
}

fn call_mutex<R: Wait>(rt: &R, lock: &Mutex<Sum>, calls: u64) -> u64 {
    let mut missed = 0u64;
    for _ in 0..calls {
        if lock.lock(rt).step(&1).is_err() {
            missed = missed.wrapping_add(1);
        }
    }
    missed
}

fn call_kept<R: Wait>(rt: &R, lock: &Mutex<Kept>, calls: u64) -> u64 {
    let mut missed = 0u64;
    for _ in 0..calls {
        if lock.lock(rt).call(1).is_err() {
            missed = missed.wrapping_add(1);
        }
    }
    missed
}

// ---- two threads, and four

fn two_at_desk<R: Threads + Wait + Sync>(
    rt: &R,
    desk: &Desk<Sum>,
    one: Seat<Sum>,
    other: Seat<Sum>,
    calls: u64,
) -> (Seat<Sum>, u64)
    requires one { one.desk ≡ desk.now }
    requires other { other.desk ≡ desk.now }
    ensures { result.0.desk ≡ desk.now }
{
    let (a, b) = join(rt, || call_desk(rt, desk, one, calls), || call_desk(rt, desk, other, calls));
    let (mut one, m) = a;
    let (other, n) = b;
    desk.join(&mut one, other);
    (one, m.wrapping_add(n))
}

fn four_at_desk<R: Threads + Wait + Sync>(
    rt: &R,
    desk: &Desk<Sum>,
    seats: (Seat<Sum>, Seat<Sum>, Seat<Sum>, Seat<Sum>),
    calls: u64,
) -> (Seat<Sum>, u64)
    requires { (seats.0.desk ≡ desk.now) × (seats.1.desk ≡ desk.now) × (seats.2.desk ≡ desk.now) × (seats.3.desk ≡ desk.now) }
    ensures { result.0.desk ≡ desk.now }
{
    let (a, b, c, d) = seats;
    let (left, right) = join(
        rt,
        || -> (Seat<Sum>, u64)
            requires one { a.desk ≡ desk.now }
            requires other { b.desk ≡ desk.now }
            ensures { result.0.desk ≡ desk.entry.now }
        { two_at_desk(rt, desk, a, b, calls) },
        || -> (Seat<Sum>, u64)
            requires one { c.desk ≡ desk.now }
            requires other { d.desk ≡ desk.now }
            ensures { result.0.desk ≡ desk.entry.now }
        { two_at_desk(rt, desk, c, d, calls) },
    );
    let (mut one, m) = left;
    let (other, n) = right;
    desk.join(&mut one, other);
    (one, m.wrapping_add(n))
}

fn two_at_mutex<R: Threads + Wait + Sync>(rt: &R, lock: &Mutex<Sum>, calls: u64) -> u64 {
    let (m, n) = join(rt, || call_mutex(rt, lock, calls), || call_mutex(rt, lock, calls));
    m.wrapping_add(n)
}

fn four_at_mutex<R: Threads + Wait + Sync>(rt: &R, lock: &Mutex<Sum>, calls: u64) -> u64 {
    let (m, n) = join(rt, || two_at_mutex(rt, lock, calls), || two_at_mutex(rt, lock, calls));
    m.wrapping_add(n)
}

fn two_at_kept<R: Threads + Wait + Sync>(rt: &R, lock: &Mutex<Kept>, calls: u64) -> u64 {
    let (m, n) = join(rt, || call_kept(rt, lock, calls), || call_kept(rt, lock, calls));
    m.wrapping_add(n)
}

fn four_at_kept<R: Threads + Wait + Sync>(rt: &R, lock: &Mutex<Kept>, calls: u64) -> u64 {
    let (m, n) = join(rt, || two_at_kept(rt, lock, calls), || two_at_kept(rt, lock, calls));
    m.wrapping_add(n)
}

// ---- times

fn micros<C: Clock>(rt: &C, from: Instant) -> io::Result<u64> {
    Ok(u64::try_from(from.elapsed(rt)?.as_micros()).unwrap_or(u64::MAX))
}

/// The sum in the end. A desk whose calls returned is whole.
fn sum_of(desk: Desk<Sum>, seat: Seat<Sum>) -> u64
    requires { seat.desk ≡ desk }
{
    match desk.close(seat) {
        Closed::Whole(machine, _) => machine.all,
        Closed::Held => 0,
    }
}

fn one_desk<R: Threads + Wait + Sync + Clock + Print>(rt: &R, alloc: Global) -> io::Result<()> {
    let Ok((desk, seat)) = Desk::<Sum>::make(alloc, MOST) else {
        return Ok(());
    };
    let from = Instant::now(rt)?;
    let (seat, missed) = call_desk(rt, &desk, seat, CALLS);
    let took = micros(rt, from)?;
    println!(rt; "desk,1,{took},{missed},{}", sum_of(desk, seat))
}

fn two_desk<R: Threads + Wait + Sync + Clock + Print>(rt: &R, alloc: Global) -> io::Result<()> {
    let Ok((desk, mut a)) = Desk::<Sum>::make(alloc, MOST) else {
        return Ok(());
    };
    let Ok(b) = desk.split(&mut a) else {
        return Ok(());
    };
    let from = Instant::now(rt)?;
    let (seat, missed) = two_at_desk(rt, &desk, a, b, CALLS / 2);
    let took = micros(rt, from)?;
    println!(rt; "desk,2,{took},{missed},{}", sum_of(desk, seat))
}

fn four_desk<R: Threads + Wait + Sync + Clock + Print>(rt: &R, alloc: Global) -> io::Result<()> {
    let Ok((desk, mut a)) = Desk::<Sum>::make(alloc, MOST) else {
        return Ok(());
    };
    let Ok(b) = desk.split(&mut a) else {
        return Ok(());
    };
    let Ok(c) = desk.split(&mut a) else {
        return Ok(());
    };
    let Ok(d) = desk.split(&mut a) else {
        return Ok(());
    };
    let from = Instant::now(rt)?;
    let (seat, missed) = four_at_desk(rt, &desk, (a, b, c, d), CALLS / 4);
    let took = micros(rt, from)?;
    println!(rt; "desk,4,{took},{missed},{}", sum_of(desk, seat))
}

fn at_mutex<R: Threads + Wait + Sync + Clock + Print>(rt: &R) -> io::Result<()> {
    let lock = Mutex::new(Sum { all: 0 });
    let from = Instant::now(rt)?;
    let missed = call_mutex(rt, &lock, CALLS);
    println!(rt; "Mutex,1,{},{missed},{}", micros(rt, from)?, lock.into_inner().all)?;
    let lock = Mutex::new(Sum { all: 0 });
    let from = Instant::now(rt)?;
    let missed = two_at_mutex(rt, &lock, CALLS / 2);
    println!(rt; "Mutex,2,{},{missed},{}", micros(rt, from)?, lock.into_inner().all)?;
    let lock = Mutex::new(Sum { all: 0 });
    let from = Instant::now(rt)?;
    let missed = four_at_mutex(rt, &lock, CALLS / 4);
    println!(rt; "Mutex,4,{},{missed},{}", micros(rt, from)?, lock.into_inner().all)
}

fn empty(alloc: Global) -> Mutex<Kept> {
    Mutex::new(Kept {
        sum: Sum { all: 0 },
        journal: Vec::new(alloc),
    })
}

fn at_kept<R: Threads + Wait + Sync + Clock + Print>(rt: &R, alloc: Global) -> io::Result<()> {
    let lock = empty(alloc);
    let from = Instant::now(rt)?;
    let missed = call_kept(rt, &lock, CALLS);
    println!(rt; "Mutex and journal,1,{},{missed},{}", micros(rt, from)?, lock.into_inner().sum.all)?;
    let lock = empty(alloc);
    let from = Instant::now(rt)?;
    let missed = two_at_kept(rt, &lock, CALLS / 2);
    println!(rt; "Mutex and journal,2,{},{missed},{}", micros(rt, from)?, lock.into_inner().sum.all)?;
    let lock = empty(alloc);
    let from = Instant::now(rt)?;
    let missed = four_at_kept(rt, &lock, CALLS / 4);
    println!(rt; "Mutex and journal,4,{},{missed},{}", micros(rt, from)?, lock.into_inner().sum.all)
}

fn main(rt: HostRuntime) -> io::Result<()> {
    for _ in 0..ROUNDS {
        one_desk(&rt, rt.alloc())?;
        two_desk(&rt, rt.alloc())?;
        four_desk(&rt, rt.alloc())?;
        at_mutex(&rt)?;
        at_kept(&rt, rt.alloc())?;
    }
    Ok(())
}
"""
INVARIANTS = """use Rattle.std.proofs.Common.{◌≡◌}
use Rattle.desk_times.proofs.call_desk.Given as goal

abbrev pub invariant-loop : goal.invariant-loop
invariant-loop g l = l.seat.desk ≡ l.desk
"""


def write(path, text):
    os.makedirs(os.path.dirname(path), exist_ok=True)
    with open(path, "w") as out:
        out.write(text)


def build(folder, calls, rounds):
    """The output of the program, proved and built over copies of the crates."""
    for crate in CRATES:
        shutil.copytree(
            os.path.join(HERE, "crates", crate),
            os.path.join(folder, "crates", crate),
            ignore=shutil.ignore_patterns("out", "must-fail"),
            dirs_exist_ok=True,
        )
    lines = "pgw_frames:\nproxy_outside: pgw_frames\ncounted_desk: pgw_frames proxy_outside atomic_table\n"
    write(os.path.join(folder, "crates.txt"), lines + "desk_times: pgw_frames proxy_outside counted_desk\n")
    shutil.copy(os.path.join(HERE, "HANDLES"), folder)
    crate = os.path.join(folder, "crates", "desk_times")
    source = PROGRAM.lstrip("\n").replace("@CALLS@", str(calls)).replace("@ROUNDS@", str(rounds))
    write(os.path.join(crate, "src", "main.rt"), source)
    write(os.path.join(crate, "proofs", "call_desk", "Invariants.antt"), INVARIANTS)
    run = subprocess.run(["rt", "run"], cwd=crate, capture_output=True, text=True)
    if run.returncode != 0:
        sys.exit(run.stdout + run.stderr)
    return run.stdout


def main():
    calls, rounds = (
        int(sys.argv[i]) if len(sys.argv) > i else default for i, default in ((1, 1_000_000), (2, 15))
    )
    if len(sys.argv) > 3:
        lines = build(sys.argv[3], calls, rounds).splitlines()
    else:
        with tempfile.TemporaryDirectory() as folder:
            lines = build(folder, calls, rounds).splitlines()
    times = {}
    for name, threads, micros, missed, total in (line.split(",") for line in lines):
        if int(missed) != 0 or int(total) != calls // int(threads) * int(threads):
            sys.exit(f"{name} with {threads} threads missed calls: {missed}, sum {total}")
        times.setdefault((int(threads), name), []).append(int(micros) * 1000 / calls)
    print(f"{calls} calls in all, {rounds} rounds\n")
    print("| threads | calls of | median ns | of a Mutex | least ns | of a Mutex |")
    print("|---|---|---|---|---|---|")
    for (threads, name), nanos in sorted(times.items(), key=lambda t: t[0][0]):
        bare = times[threads, "Mutex"]
        median, least = statistics.median(nanos), min(nanos)
        ratios = median / statistics.median(bare), least / min(bare)
        print(f"| {threads} | {name} | {median:.0f} | {ratios[0]:.2f} | {least:.0f} | {ratios[1]:.2f} |")


if __name__ == "__main__":
    main()
