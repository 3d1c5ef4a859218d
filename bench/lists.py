#!/usr/bin/env python3
"""Measures a verdict of access_lists by how many entries other tenants have, in one run.

usage: bench/lists.py [CALLS] [ROUNDS]

Makes a small program over the crate in a temporary folder, which proves and builds in some minutes. The tenant
that is judged has ten networks in its allow list; 1,000 other tenants have 0, 10,000 and 100,000 entries together.
So many verdicts (100000) are asked of each lists in turn, in so many rounds (5). Printed are the median times per
verdict, beside that with no other entries.
"""
import os
import shutil
import statistics
import subprocess
import sys
import tempfile

HERE = os.path.dirname(os.path.dirname(os.path.abspath(__file__)))
CRATES = ("pgw_frames", "proxy_outside", "access_lists")
OTHERS = (0, 10_000, 100_000)
PROGRAM = r"""
//! Times verdicts over lists of several lengths.
#![tactic(auto)]

use access_lists::{Lists, Net, Verdict};
use pgw_frames::NoMemory;
use proxy_outside::{Addr, TenantId};
use std::alloc::Global;
use std::io;
use std::rt::Clock;
use std::time::Instant;

const CALLS: u64 = @CALLS@;
const ROUNDS: u64 = @ROUNDS@;

/// Lists in which tenant 0 has ten networks, and 1,000 other tenants have so many entries together.
fn lists(alloc: Global, others: u64) -> Result<Lists, NoMemory> {
    let mut lists = Lists::new(alloc);
    for i in 0..others {
        let addr = Addr::V4((i % 0x1_0000_0000) as u32);
        let tenant = TenantId((i % 1_000) as u32 + 1);
        lists.add_allow(tenant, Some(Net { addr, prefix: 32 }))?;
    }
    for i in 0..10u64 {
        let addr = Addr::V4((i % 0x1_0000_0000) as u32);
        lists.add_allow(TenantId(0), Some(Net { addr, prefix: 32 }))?;
    }
    Ok(lists)
}

fn judge(lists: &Lists) -> u64 {
    let mut passed = 0u64;
    for call in 0..CALLS {
        let addr = Addr::V4((call % 20) as u32);
        if lists.judge(&addr, TenantId(0), 1) == Verdict::Pass {
            passed = passed.wrapping_add(1);
        }
    }
    passed
}

fn micros<C: Clock>(rt: &C, from: Instant) -> io::Result<u64> {
    Ok(u64::try_from(from.elapsed(rt)?.as_micros()).unwrap_or(u64::MAX))
}

fn time(rt: &HostRuntime, others: u64) -> io::Result<()> {
    let Ok(lists) = lists(rt.alloc(), others) else {
        println!(rt; "no memory,0,0")?;
        return Ok(());
    };
    let from = Instant::now(rt)?;
    let passed = judge(&lists);
    println!(rt; "{others},{},{passed}", micros(rt, from)?)?;
    Ok(())
}

fn main(rt: HostRuntime) -> io::Result<()> {
    for _ in 0..ROUNDS {
        time(&rt, 0)?;
        time(&rt, 10_000)?;
        time(&rt, 100_000)?;
    }
    Ok(())
}
"""


def build(folder, calls, rounds):
    """The program, proved and built over copies of the crates."""
    for crate in CRATES:
        shutil.copytree(
            os.path.join(HERE, "crates", crate),
            os.path.join(folder, "crates", crate),
            ignore=shutil.ignore_patterns("out", "must-fail"),
        )
    with open(os.path.join(folder, "crates.txt"), "w") as out:
        out.write("pgw_frames:\nproxy_outside: pgw_frames\n")
        out.write("access_lists: pgw_frames proxy_outside itoa\n")
        out.write("list_times: pgw_frames proxy_outside access_lists itoa\n")
    crate = os.path.join(folder, "crates", "list_times")
    os.makedirs(os.path.join(crate, "src"))
    source = PROGRAM.lstrip("\n")
    for name, number in (("CALLS", calls), ("ROUNDS", rounds)):
        source = source.replace(f"@{name}@", str(number))
    with open(os.path.join(crate, "src", "main.rt"), "w") as out:
        out.write(source)
    run = subprocess.run(["rt", "run"], cwd=crate, capture_output=True, text=True)
    if run.returncode != 0:
        sys.exit(run.stdout + run.stderr)
    return run.stdout


def main():
    calls, rounds = (
        int(sys.argv[i]) if len(sys.argv) > i else default
        for i, default in ((1, 100_000), (2, 5))
    )
    with tempfile.TemporaryDirectory() as folder:
        lines = build(folder, calls, rounds).splitlines()
    times = {}
    for others, micros, _ in (line.split(",") for line in lines):
        times.setdefault(others, []).append(int(micros) * 1000 / calls)
    bare = statistics.median(times["0"])
    print(f"{calls} verdicts, medians of {rounds} rounds\n")
    print("| entries of other tenants | ns a verdict | beside none |")
    print("|---|---|---|")
    for others, nanos in times.items():
        median = statistics.median(nanos)
        print(f"| {int(others):,} | {median:.0f} | {median / bare:.2f} |")


if __name__ == "__main__":
    main()
