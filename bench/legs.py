#!/usr/bin/env python3
"""Measures run_legs beside a plain loop over the same bytes, in one run.

usage: bench/legs.py [ROUNDS] [FOLDER]

Makes a small program over the crates, which proves and builds in some minutes; in FOLDER, where one is
given, it is kept, so that a further run is quick. The client's leg hands on 1,000,000 messages of 7
bytes, and then 1 GiB in messages of 64 KiB; the pod's leg has nothing to hand on. The plain loop cuts
the same messages from the same reads, 8,192 bytes at once, in a buffer of its own, and writes them one by
one. Sources repeat a text, and sinks copy what they take into a buffer of 64 KiB. In so many rounds (5).
Printed are nanoseconds a small message, seconds a GiB of large ones, and the ratios.
"""
import os
import shutil
import statistics
import subprocess
import sys
import tempfile

HERE = os.path.dirname(os.path.dirname(os.path.abspath(__file__)))
CRATES = {
    "pgw_frames": "",
    "proxy_outside": "pgw_frames",
    "pgw_messages": "pgw_frames",
    "session_model": "pgw_frames proxy_outside pgw_messages base64 hex",
    "processor_core": "pgw_frames session_model pgw_messages proxy_outside base64 hex",
    "proxy_links": "pgw_frames proxy_outside",
    "link_io": "pgw_frames proxy_outside proxy_links",
    "session_legs": "pgw_frames proxy_outside pgw_messages session_model processor_core proxy_links link_io base64 hex",
}
PROGRAM = r"""
//! Times a leg, and a plain loop over the same bytes.
#![tactic(auto)]

ghost use Rattle.std.specs.Prelude.{◌≡◌, ◌≤◌, ◌<◌, drop, length, vec_len, None};

use pgw_frames::NoMemory;
use processor_core::{Request, Response};
use proxy_links::{BackMarks, FrontMarks, Look};
use proxy_outside::{Gave, Sink, Source, Took};
use session_legs::{LegEnd, run_legs};
use std::alloc::Global;
use std::io;
use std::rt::Clock;
use std::sync::Wait;
use std::thread::Threads;
use std::time::Instant;

const ROUNDS: u64 = @ROUNDS@;
const PIECE: usize = 8192;
const SMALL: u64 = 1_000_000;
const LARGE: u64 = 16_384;

/// Repeats a text, until so many bytes were given.
#[derive(Drop)]
struct Repeated {
    text: Vec<u8>,
    at: usize,
    left: u64,
    ended: bool,
}

/// Copies what it takes over and over into its buffer.
#[derive(Drop)]
struct Drain {
    bytes: Vec<u8>,
    taken: u64,
}

/// Says Go.
#[derive(Drop)]
struct Open {
    looks: u64,
}

/// Copies some bytes from a place on to the front.
fn copy_some(from: &[u8], at: usize, most: usize, to: &mut [u8]) -> usize
    ensures within { result ≤ length to.old }
    ensures most { result ≤ most }
    ensures others { drop result to.new ≡ drop result to.old }
{
    if at > from.len() {
        return 0;
    }
    let count = to.len().min(from.len() - at).min(most);
    to[..count].copy_from_slice(&from[at..at + count]);
    count
}

impl Source for Repeated {
    ghost origin = { λ s. record { taken = None; left = None; faults = 0; waits = 0; ended = s.ended; link = 0 } };

    fn read(&mut self, buf: &mut [u8]) -> Took {
        if self.ended {
            return Took::End;
        }
        let most = usize::try_from(self.left).unwrap_or(usize::MAX);
        let count = copy_some(self.text.as_slice(), self.at, most, buf);
        if count == 0 {
            self.ended = true;
            return Took::End;
        }
        self.left = self.left.saturating_sub(count as u64);
        self.at = self.at.saturating_add(count);
        if self.at >= self.text.len() {
            self.at = 0;
        }
        Took::Got(count)
    }
}

impl Sink for Drain {
    ghost target = { λ k. record { contents = None; faults = 0; link = 0 } };

    fn write(&mut self, bytes: &[u8]) -> Gave {
        let _count = copy_some(bytes, 0, usize::MAX, self.bytes.as_mut_slice());
        self.taken = self.taken.saturating_add(bytes.len() as u64);
        Gave::Took(bytes.len())
    }
}

impl FrontMarks for Open {
    ghost half = { λ f. record { looks = f.looks; parks = 0; overs = 0 } };

    fn look(&mut self, _qs: u64) -> Look {
        self.looks = self.looks.saturating_add(1);
        Look::Go
    }

    fn finish(&mut self, _qs: u64) {}

    fn abort(&mut self) {}
}

impl BackMarks for Open {
    ghost half = { λ b. record { looks = b.looks; parks = 0; overs = 0 } };

    fn look(&mut self, _zs: u64) -> Look {
        self.looks = self.looks.saturating_add(1);
        Look::Go
    }

    fn abort(&mut self) {}
}

// ---- the plain loop

/// How many bytes the message at the front takes, or 0 where none stands there whole.
fn message_len(bytes: &[u8]) -> usize
    ensures { result ≤ length bytes.now }
{
    if bytes.len() < 5 {
        return 0;
    }
    let length = u32::from_be_bytes([bytes[1], bytes[2], bytes[3], bytes[4]]);
    if length < 4 || length > 16_777_220 || bytes.len() <= length as usize {
        return 0;
    }
    length as usize + 1
}

/// Writes the whole messages at the front, and says how many bytes are left.
fn hand_on<K: Sink>(sink: &mut K, bytes: &[u8]) -> usize {
    let mut rest = bytes;
    for _ in 0..bytes.len() {
        let count = message_len(rest);
        if count == 0 {
            return rest.len();
        }
        match sink.write(&rest[..count]) {
            Gave::Took(_) => {}
            Gave::Failed => return rest.len(),
        }
        rest = rest.split_at(count).1;
    }
    rest.len()
}

/// What was read and not yet written.
#[derive(Drop)]
struct Held {
    bytes: Vec<u8>,
    start: usize,
    end: usize,
    ghost order: { start ≤ end },
    ghost within: { end ≤ vec_len bytes },
}

impl Held {
    /// Reads once more, and says whether something came.
    fn fill<S: Source>(&mut self, source: &mut S) -> bool {
        if self.bytes.len() - self.end < PIECE {
            let count = self.end - self.start;
            self.bytes.as_mut_slice().copy_within(self.start..self.end, 0);
            self.start = 0;
            self.end = count;
        }
        let end = self.end.saturating_add(PIECE).min(self.bytes.len());
        if end <= self.end {
            return false;
        }
        match source.read(&mut self.bytes.as_mut_slice()[self.end..end]) {
            Took::Got(n) => {
                self.end += n;
                true
            }
            Took::End | Took::Idle | Took::Failed => false,
        }
    }

    /// Writes the whole messages.
    fn empty<K: Sink>(&mut self, sink: &mut K) {
        let left = hand_on(sink, &self.bytes.as_slice()[self.start..self.end]);
        self.start = self.end - left.min(self.end - self.start);
    }
}

fn plain<S: Source, K: Sink>(held: &mut Held, source: &mut S, sink: &mut K) {
    for _ in 0..u64::MAX {
        if !held.fill(source) {
            return;
        }
        held.empty(sink);
    }
}

// ---- times

fn micros<C: Clock>(rt: &C, from: Instant) -> io::Result<u64> {
    Ok(u64::try_from(from.elapsed(rt)?.as_micros()).unwrap_or(u64::MAX))
}

/// Messages of CopyData, or of a Query of one digit.
fn text_of(alloc: Global, is_small: bool) -> Result<Vec<u8>, NoMemory> {
    let mut text = Vec::new(alloc);
    if is_small {
        for _ in 0..100_000 {
            text.extend_from_slice(b"Q\0\0\0\x061\0")?;
        }
    } else {
        text.extend_from_slice(b"d\0\0\xff\xff")?;
        text.extend_from_slice(vec![in alloc; 7u8; 65_531]?.as_slice())?;
    }
    Ok(text)
}

fn source_of(alloc: Global, is_small: bool) -> Result<Repeated, NoMemory> {
    Ok(Repeated {
        text: text_of(alloc, is_small)?,
        at: 0,
        left: if is_small { SMALL * 7 } else { LARGE * 65_536 },
        ended: false,
    })
}

fn sink_of(alloc: Global) -> Result<Drain, NoMemory> {
    Ok(Drain {
        bytes: vec![in alloc; 0; 65_536]?,
        taken: 0,
    })
}

fn silent(alloc: Global) -> Repeated {
    Repeated {
        text: Vec::new(alloc),
        at: 0,
        left: 0,
        ended: false,
    }
}

/// Microseconds of both legs, and the bytes that the pod took.
fn time_legs<R: Threads + Wait + Sync + Clock>(
    rt: &R,
    alloc: Global,
    source: Repeated,
    sinks: (Drain, Drain),
) -> io::Result<(u64, u64)> {
    let (tx, out) = sinks;
    let from = Instant::now(rt)?;
    let (one, _two) = run_legs(
        rt,
        source,
        tx,
        Open { looks: 0 },
        Request::new(alloc),
        silent(alloc),
        out,
        Open { looks: 0 },
        Response::new(alloc),
    );
    let took = micros(rt, from)?;
    let taken = if one.why == LegEnd::Ended { one.tx.taken } else { 0 };
    Ok((took, taken))
}

fn time_plain<R: Clock>(rt: &R, held: Held, source: Repeated, sink: Drain) -> io::Result<(u64, u64)> {
    let mut held = held;
    let mut source = source;
    let mut sink = sink;
    let from = Instant::now(rt)?;
    plain(&mut held, &mut source, &mut sink);
    let took = micros(rt, from)?;
    Ok((took, sink.taken))
}

fn run<R: Threads + Wait + Sync + Clock + Print>(rt: &R, alloc: Global, is_small: bool) -> io::Result<()> {
    let (Ok(source), Ok(tx), Ok(out)) = (source_of(alloc, is_small), sink_of(alloc), sink_of(alloc)) else {
        return Ok(());
    };
    let (took, taken) = time_legs(rt, alloc, source, (tx, out))?;
    println!(rt; "legs,{is_small},{took},{taken}")?;
    let (Ok(source), Ok(sink), Ok(bytes)) = (source_of(alloc, is_small), sink_of(alloc), vec![in alloc; 0; 262_144]) else {
        return Ok(());
    };
    let held = Held {
        bytes,
        start: 0,
        end: 0,
    };
    let (took, taken) = time_plain(rt, held, source, sink)?;
    println!(rt; "plain,{is_small},{took},{taken}")
}

fn main(rt: HostRuntime) -> io::Result<()> {
    for _ in 0..ROUNDS {
        run(&rt, rt.alloc(), true)?;
        run(&rt, rt.alloc(), false)?;
    }
    Ok(())
}
"""
BYTES = {"true": 7_000_000, "false": 1 << 30}


def write(path, text):
    os.makedirs(os.path.dirname(path), exist_ok=True)
    with open(path, "w") as out:
        out.write(text)


def build(folder, rounds):
    """The output of the program, proved and built over copies of the crates."""
    lines = []
    for crate, below in CRATES.items():
        shutil.copytree(
            os.path.join(HERE, "crates", crate),
            os.path.join(folder, "crates", crate),
            ignore=shutil.ignore_patterns("out", "must-fail"),
            dirs_exist_ok=True,
        )
        lines.append(f"{crate}: {below}".rstrip())
    lines.append("leg_times: " + " ".join(CRATES) + " base64 hex")
    write(os.path.join(folder, "crates.txt"), "\n".join(lines) + "\n")
    shutil.copy(os.path.join(HERE, "HANDLES"), folder)
    crate = os.path.join(folder, "crates", "leg_times")
    write(os.path.join(crate, "src", "main.rt"), PROGRAM.lstrip("\n").replace("@ROUNDS@", str(rounds)))
    run = subprocess.run(["rt", "run"], cwd=crate, capture_output=True, text=True)
    if run.returncode != 0:
        sys.exit(run.stdout + run.stderr)
    return run.stdout


def main():
    rounds = int(sys.argv[1]) if len(sys.argv) > 1 else 5
    if len(sys.argv) > 2:
        lines = build(sys.argv[2], rounds).splitlines()
    else:
        with tempfile.TemporaryDirectory() as folder:
            lines = build(folder, rounds).splitlines()
    times = {}
    for line in lines:
        if line.count(",") != 3:
            continue
        name, is_small, micros, taken = line.split(",")
        if int(taken) != BYTES[is_small]:
            sys.exit(f"{name} handed on {taken} of {BYTES[is_small]} bytes")
        times.setdefault(is_small, {}).setdefault(name, []).append(int(micros))
    print(f"{rounds} rounds, medians\n")
    print("| messages | legs | plain loop | ratio |")
    print("|---|---|---|---|")
    for is_small, label, scale, unit in (
        ("true", "1,000,000 of 7 bytes", 1_000, "ns each"),
        ("false", "1 GiB in 64 KiB", 1_000_000, "s a GiB"),
    ):
        legs, plain = (statistics.median(times[is_small][name]) / scale for name in ("legs", "plain"))
        print(f"| {label} | {legs:.2f} {unit} | {plain:.2f} {unit} | {legs / plain:.2f} |")


if __name__ == "__main__":
    main()
