#!/usr/bin/env python3
"""Measures the reading of a startup packet by the number of its names, in one run.

usage: bench/startup.py [ROUNDS]

Makes a small program over pgw_messages in a temporary folder, which proves and builds in some minutes.
It reads packets of 2,000, 64,000, 128,000, 500,000 and 1,000,000 names of eight bytes, and beside each
one of the same bytes in which all names are one and the same, in so many rounds (5). Printed are the
median times, and what a name takes.
"""
import os
import shutil
import statistics
import subprocess
import sys
import tempfile

HERE = os.path.dirname(os.path.dirname(os.path.abspath(__file__)))
CRATES = ("pgw_frames", "pgw_messages")
COUNTS = (2_000, 64_000, 128_000, 500_000, 1_000_000)
PROGRAM = r"""
//! Times the reading of startup packets.
#![tactic(auto)]

use pgw_frames::NoMemory;
use pgw_messages::read_params;
use std::alloc::Global;
use std::io;
use std::rt::Clock;
use std::time::Instant;

const COUNTS: [u64; @LEN@] = [@COUNTS@];
const ROUNDS: u64 = @ROUNDS@;

/// Eight letters that differ for different numbers, in no order.
fn name(i: u64) -> [u8; 8] {
    let mixed = ((i & 0xffff_ffff) as u32).wrapping_mul(0x9e37_79b1).to_be_bytes();
    let [a, b, c, d] = mixed;
    let half = |b: u8| b'a' + b / 16;
    let rest = |b: u8| b'a' + b % 16;
    [half(a), rest(a), half(b), rest(b), half(c), rest(c), half(d), rest(d)]
}

/// What stands behind the version, with so many names, or with one name so often.
fn packet(alloc: Global, count: u64, differ: bool) -> Result<Vec<u8>, NoMemory> {
    let mut body = Vec::new(alloc);
    for i in 0..count {
        let number = if differ { i } else { 0 };
        body.extend_from_slice(&name(number))?;
        body.extend_from_slice(b"\0v\0")?;
    }
    body.push(0)?;
    Ok(body)
}

fn micros<C: Clock>(rt: &C, from: Instant) -> io::Result<u64> {
    Ok(u64::try_from(from.elapsed(rt)?.as_micros()).unwrap_or(u64::MAX))
}

fn read(rt: &HostRuntime, count: u64, differ: bool) -> io::Result<()> {
    let alloc: Global = rt.alloc();
    let Ok(body) = packet(alloc, count, differ) else {
        println!(rt; "no memory")?;
        return Ok(());
    };
    let from = Instant::now(rt)?;
    let names = match read_params(alloc, body.as_slice()) {
        Ok(params) => params.len(),
        Err(_) => 0,
    };
    println!(rt; "{count},{differ},{},{names}", micros(rt, from)?)?;
    Ok(())
}

fn main(rt: HostRuntime) -> io::Result<()> {
    for _ in 0..ROUNDS {
        for count in COUNTS {
            read(&rt, count, true)?;
            read(&rt, count, false)?;
        }
    }
    Ok(())
}
"""


def build(folder, rounds):
    """What the program prints, proved and built over copies of the crates."""
    for crate in CRATES:
        shutil.copytree(
            os.path.join(HERE, "crates", crate),
            os.path.join(folder, "crates", crate),
            ignore=shutil.ignore_patterns("out", "must-fail"),
        )
    with open(os.path.join(folder, "crates.txt"), "w") as out:
        out.write("pgw_frames:\npgw_messages: pgw_frames\n")
        out.write("startup_times: pgw_frames pgw_messages\n")
    crate = os.path.join(folder, "crates", "startup_times")
    os.makedirs(os.path.join(crate, "src"))
    source = PROGRAM.lstrip("\n")
    counts = ", ".join(str(count) for count in COUNTS)
    for name, text in (("LEN", len(COUNTS)), ("COUNTS", counts), ("ROUNDS", rounds)):
        source = source.replace(f"@{name}@", str(text))
    with open(os.path.join(crate, "src", "main.rt"), "w") as out:
        out.write(source)
    run = subprocess.run(["rt", "run"], cwd=crate, capture_output=True, text=True)
    if run.returncode != 0:
        sys.exit(run.stdout + run.stderr)
    return run.stdout


def main():
    rounds = int(sys.argv[1]) if len(sys.argv) > 1 else 5
    with tempfile.TemporaryDirectory() as folder:
        lines = build(folder, rounds).splitlines()
    times = {}
    for count, differ, micros, names in (line.split(",") for line in lines):
        if int(names) != (int(count) if differ == "true" else 1):
            sys.exit(f"{count} names were read as {names}")
        times.setdefault((int(count), differ == "true"), []).append(int(micros))
    print(f"medians of {rounds} rounds\n")
    print("| names | ms | ns a name | all one name, ms | ratio |")
    print("|---|---|---|---|---|")
    for count in COUNTS:
        differ = statistics.median(times[count, True])
        same = statistics.median(times[count, False])
        print(
            f"| {count:,} | {differ / 1000:.2f} | {differ * 1000 / count:.0f} "
            f"| {same / 1000:.2f} | {differ / max(same, 1):.1f} |"
        )


if __name__ == "__main__":
    main()
