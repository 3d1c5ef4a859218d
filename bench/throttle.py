#!/usr/bin/env python3
"""Measures login_throttle beside bare look-ups in a map of the standard library, in one run.

usage: bench/throttle.py [PAIRS] [CALLS] [ROUNDS]

Makes a small program over the crate in a temporary folder, which proves and builds in some minutes. It
fills a throttle and a bare map with so many pairs of address and tenant (1000000), and then makes so
many calls (1000000) on pairs in no order, each kind in turn, in so many rounds (5). Printed are the
median times per call, and their ratios to a bare look-up.
"""
import os
import shutil
import statistics
import subprocess
import sys
import tempfile

HERE = os.path.dirname(os.path.dirname(os.path.abspath(__file__)))
CRATES = ("pgw_frames", "proxy_outside", "login_throttle")
PROGRAM = r"""
//! Times calls of a throttle and bare look-ups over the same pairs.
#![tactic(auto)]

use login_throttle::{Allowance, Throttle};
use pgw_frames::NoMemory;
use proxy_outside::{Addr, TenantId};
use std::alloc::Global;
use std::collections::BTreeMap;
use std::io;
use std::rt::Clock;
use std::time::Instant;

const PAIRS: u64 = @PAIRS@;
const CALLS: u64 = @CALLS@;
const ROUNDS: u64 = @ROUNDS@;

type Bare = BTreeMap<(TenantId, Addr), (u32, u64)>;

/// Pairs with different numbers differ.
fn pair(i: u64) -> (TenantId, Addr) {
    let address = ((i % 0x1_0000_0000) as u32).wrapping_mul(0x9e37_79b1);
    (TenantId((i % 1_000) as u32), Addr::V4(address))
}

/// Numbers below PAIRS in no order.
fn number(call: u64) -> u64 {
    let mixed = call.wrapping_mul(0x9e37_79b9_7f4a_7c15);
    let mixed = (mixed ^ (mixed >> 32)).wrapping_mul(0xd6e8_feb8_6659_fd93);
    (mixed ^ (mixed >> 32)) % PAIRS
}

fn fill(bare: &mut Bare, throttle: &mut Throttle) -> Result<(), NoMemory> {
    for i in 0..PAIRS {
        let (tenant, addr) = pair(i);
        throttle.report(&addr, tenant, false, 1_000)?;
        bare.insert((tenant, addr), (1, 1_000))?;
    }
    Ok(())
}

fn look_up(bare: &Bare, shift: u64) -> u64 {
    let mut found = 0u64;
    for call in 0..CALLS {
        if bare.contains_key(&pair(number(call).wrapping_add(shift))) {
            found = found.wrapping_add(1);
        }
    }
    found
}

fn check(throttle: &Throttle, shift: u64) -> u64 {
    let mut barred = 0u64;
    for call in 0..CALLS {
        let (tenant, addr) = pair(number(call).wrapping_add(shift));
        if throttle.check(&addr, tenant, 1_000) != Allowance::Go {
            barred = barred.wrapping_add(1);
        }
    }
    barred
}

fn report(throttle: &mut Throttle, ok: bool, shift: u64) -> Result<(), NoMemory> {
    for call in 0..CALLS {
        let (tenant, addr) = pair(number(call).wrapping_add(shift));
        throttle.report(&addr, tenant, ok, 1_000)?;
    }
    Ok(())
}

fn micros<C: Clock>(rt: &C, from: Instant) -> io::Result<u64> {
    Ok(u64::try_from(from.elapsed(rt)?.as_micros()).unwrap_or(u64::MAX))
}

fn round(rt: &HostRuntime, bare: &Bare, throttle: &mut Throttle) -> io::Result<()> {
    let from = Instant::now(rt)?;
    let found = look_up(bare, 0);
    println!(rt; "look-up,{},{found}", micros(rt, from)?)?;
    let from = Instant::now(rt)?;
    let barred = check(throttle, 0);
    println!(rt; "check,{},{barred}", micros(rt, from)?)?;
    let from = Instant::now(rt)?;
    let barred = check(throttle, PAIRS);
    println!(rt; "check of a pair with no failure,{},{barred}", micros(rt, from)?)?;
    let from = Instant::now(rt)?;
    let done = report(throttle, false, 0).is_ok();
    println!(rt; "report of a further failure,{},{done}", micros(rt, from)?)?;
    let from = Instant::now(rt)?;
    let done = report(throttle, true, PAIRS).is_ok();
    println!(rt; "report of a success with no failure,{},{done}", micros(rt, from)?)?;
    let from = Instant::now(rt)?;
    let done = report(throttle, false, PAIRS).is_ok();
    println!(rt; "report of a first failure,{},{done}", micros(rt, from)?)?;
    let from = Instant::now(rt)?;
    let done = report(throttle, true, PAIRS).is_ok();
    println!(rt; "report of a success that clears,{},{done}", micros(rt, from)?)?;
    Ok(())
}

fn main(rt: HostRuntime) -> io::Result<()> {
    let alloc: Global = rt.alloc();
    let mut bare: Bare = BTreeMap::new(alloc);
    let mut throttle = Throttle::new(alloc);
    if fill(&mut bare, &mut throttle).is_err() {
        println!(rt; "no memory")?;
        return Ok(());
    }
    for _ in 0..ROUNDS {
        round(&rt, &bare, &mut throttle)?;
    }
    Ok(())
}
"""


def build(folder, pairs, calls, rounds):
    """The program, proved and built over copies of the crates."""
    for crate in CRATES:
        shutil.copytree(
            os.path.join(HERE, "crates", crate),
            os.path.join(folder, "crates", crate),
            ignore=shutil.ignore_patterns("out", "must-fail"),
        )
    with open(os.path.join(folder, "crates.txt"), "w") as out:
        out.write("pgw_frames:\nproxy_outside: pgw_frames\n")
        out.write("login_throttle: pgw_frames proxy_outside\n")
        out.write("throttle_times: pgw_frames proxy_outside login_throttle\n")
    crate = os.path.join(folder, "crates", "throttle_times")
    os.makedirs(os.path.join(crate, "src"))
    source = PROGRAM.lstrip("\n")
    for name, number in (("PAIRS", pairs), ("CALLS", calls), ("ROUNDS", rounds)):
        source = source.replace(f"@{name}@", str(number))
    with open(os.path.join(crate, "src", "main.rt"), "w") as out:
        out.write(source)
    run = subprocess.run(["rt", "run"], cwd=crate, capture_output=True, text=True)
    if run.returncode != 0:
        sys.exit(run.stdout + run.stderr)
    return run.stdout


def main():
    pairs, calls, rounds = (
        int(sys.argv[i]) if len(sys.argv) > i else default
        for i, default in ((1, 1_000_000), (2, 1_000_000), (3, 5))
    )
    with tempfile.TemporaryDirectory() as folder:
        lines = build(folder, pairs, calls, rounds).splitlines()
    times = {}
    for name, micros, _ in (line.split(",") for line in lines):
        times.setdefault(name, []).append(int(micros) * 1000 / calls)
    bare = statistics.median(times["look-up"])
    print(f"{pairs} pairs, {calls} calls, medians of {rounds} rounds\n")
    print("| call | ns | of a look-up |")
    print("|---|---|---|")
    for name, nanos in times.items():
        median = statistics.median(nanos)
        print(f"| {name} | {median:.0f} | {median / bare:.2f} |")


if __name__ == "__main__":
    main()
