#!/usr/bin/env python3
"""Measures the commands of proxy_hub with few and with many live sessions, in one run.

usage: bench/hub.py [FEW] [MANY] [ROUNDS] [FOLDER]

Makes a small program over the crates, which proves and builds in some minutes; in FOLDER, where one is given, it
is kept, so that a further run is quick. It fills a hub with few sessions (10000) and one with many (100000), of 100
tenants with 20 pods each, and asks each command of one and then of the other, in so many rounds (15) and in two
orders: of sessions that come and go while these live on, as connections ask; and of the live ones in no order,
beside a read of an array that has a row of 128 bytes for each. Printed are the median times of a command, and how
much they grow.
"""
import os
import shutil
import statistics
import subprocess
import sys
import tempfile

HERE = os.path.dirname(os.path.dirname(os.path.abspath(__file__)))
PROGRAM = r"""
//! Times the commands of a hub.
#![tactic(auto)]

use access_lists::Lists;
use pgw_frames::NoMemory;
use pgw_messages::PodKey;
use proxy_hub::{Hub, HubCommand, HubReply};
use proxy_outside::{Addr, ClientKey, Machine, Place, PodNo, SessionNo, TenantId};
use std::alloc::Global;
use std::io;
use std::rt::Clock;
use std::time::Instant;
use tenant_directory::{Pod, PodState, TenantRow};

const ROUNDS: u64 = @ROUNDS@;
const TENANTS: u64 = 100;
const PODS: u32 = 20;

/// How often a command is asked in a round.
const ASKS: u64 = 2_000;

/// The same of one that looks at all sessions of a tenant.
const LONG_ASKS: u64 = 40;

/// The same of an end in no order: no session ends twice in all the rounds.
const ENDS: u64 = 200;

#[derive(Clone, Copy)]
enum Kind {
    Admit,
    GiveKey,
    Pick,
    Assign,
    Bind,
    Report,
    Target,
    Plan,
    Find,
    Release,
}

/// Which sessions are asked for.
#[derive(Clone, Copy)]
enum Order {
    /// Those that come and go in this round.
    Newest,
    /// Any of those that live on.
    Any,
    /// The same, and none twice.
    Once,
}

fn name_of(kind: Kind) -> &'static str {
    match kind {
        Kind::Admit => "Admit",
        Kind::GiveKey => "GiveKey",
        Kind::Pick => "Pick",
        Kind::Assign => "Assign",
        Kind::Bind => "Bind",
        Kind::Report => "Report",
        Kind::Target => "Target",
        Kind::Plan => "Plan",
        Kind::Find => "Find",
        Kind::Release => "Release",
    }
}

fn asks_of(order: Order, kind: Kind) -> u64 {
    match (order, kind) {
        (_, Kind::Target | Kind::Plan) => LONG_ASKS,
        (Order::Once, _) => ENDS,
        (_, _) => ASKS,
    }
}

/// The session that the ask at this place of this round is for, counted from 0.
fn asked(order: Order, sessions: u64, round: u64, place: u64) -> u64 {
    match order {
        Order::Newest => sessions.wrapping_add(round.wrapping_mul(ASKS)).wrapping_add(place),
        Order::Any => {
            let n = mixed(round.wrapping_mul(ASKS).wrapping_add(place));
            n.checked_rem(sessions).unwrap_or(0)
        }
        Order::Once => {
            let n = round.wrapping_mul(ENDS).wrapping_add(place);
            n.wrapping_mul(7_919).checked_rem(sessions).unwrap_or(0)
        }
    }
}

/// Numbers in no order.
fn mixed(i: u64) -> u64 {
    let n = i.wrapping_mul(0x9e37_79b9_7f4a_7c15);
    let n = (n ^ (n >> 32)).wrapping_mul(0xd6e8_feb8_6659_fd93);
    n ^ (n >> 32)
}

fn addr(i: u64) -> Addr {
    Addr::V4((mixed(i) % 0x1_0000_0000) as u32)
}

fn tenant(i: u64) -> TenantId {
    TenantId((i % TENANTS) as u32)
}

fn place(pod: u32) -> Place {
    Place {
        pod: PodNo(pod),
        addr: Addr::V4(pod),
        port: 26_257,
    }
}

/// The session of this number, counted from 0.
fn session(i: u64) -> SessionNo {
    SessionNo(((i % 0x1_0000_0000) as u32).wrapping_add(1))
}

/// A command that speaks of the session of this number, which is of the tenant that `tenant` says.
fn command(kind: Kind, i: u64) -> HubCommand {
    let session = session(i);
    match kind {
        Kind::Admit => HubCommand::Admit {
            addr: addr(i),
            tenant: tenant(i),
            now: 1_000,
        },
        Kind::GiveKey => HubCommand::GiveKey {
            session,
            addr: addr(i),
            word: i,
        },
        Kind::Pick => HubCommand::Pick {
            tenant: tenant(i),
            first: None,
            second: None,
        },
        Kind::Assign => HubCommand::Assign {
            session,
            place: place(((i / TENANTS) % 20) as u32),
        },
        Kind::Bind => HubCommand::Bind {
            session,
            key: PodKey {
                process: 1,
                secret: 2,
            },
        },
        Kind::Report => HubCommand::Report {
            addr: addr(i),
            tenant: tenant(i),
            ok: true,
            now: 1_000,
        },
        Kind::Target => HubCommand::Target { session },
        Kind::Plan => HubCommand::Plan { tenant: tenant(i) },
        Kind::Find => HubCommand::Find {
            key: ClientKey {
                process: session.0,
                secret: (i % 0x1_0000_0000) as u32,
            },
            addr: addr(i),
        },
        Kind::Release => HubCommand::Release { session },
    }
}

fn row(alloc: Global, tenant: u64, version: u64) -> Result<TenantRow, NoMemory> {
    let mut pods = Vec::new(alloc);
    for pod in 0..PODS {
        pods.push(Pod {
            place: place(pod),
            state: PodState::Running,
        })?;
    }
    match TenantRow::of(alloc, TenantId((tenant % TENANTS) as u32), version, pods.as_slice()) {
        Ok(row) => Ok(row),
        Err(_) => Err(NoMemory),
    }
}

fn update(hub: &mut Hub, alloc: Global, version: u64) -> Result<(), NoMemory> {
    for i in 0..TENANTS {
        hub.step(&HubCommand::Update(row(alloc, i, version)?))?;
    }
    Ok(())
}

/// A hub with so many sessions, each with a key and a home.
fn filled(alloc: Global, sessions: u64) -> Result<Hub, NoMemory> {
    let mut hub = Hub::opening(alloc)?;
    update(&mut hub, alloc, 1)?;
    for i in 0..sessions {
        for kind in [Kind::Admit, Kind::GiveKey, Kind::Assign, Kind::Bind] {
            hub.step(&command(kind, i))?;
        }
    }
    Ok(hub)
}

fn micros<C: Clock>(rt: &C, from: Instant) -> io::Result<u64> {
    Ok(u64::try_from(from.elapsed(rt)?.as_micros()).unwrap_or(u64::MAX))
}

/// Asks, and says how many asks were served.
fn ask(hub: &mut Hub, order: Order, kind: Kind, sessions: u64, round: u64) -> Result<u64, NoMemory> {
    let mut served = 0u64;
    for place in 0..asks_of(order, kind) {
        let reply = hub.step(&command(kind, asked(order, sessions, round, place)))?;
        if !matches!(reply, HubReply::NoSession | HubReply::NoKey | HubReply::No(_)) {
            served = served.wrapping_add(1);
        }
    }
    Ok(served)
}

fn told(
    rt: &HostRuntime,
    column: &str,
    name: &str,
    sessions: u64,
    from: Instant,
    asks: u64,
    served: Result<u64, NoMemory>,
) -> io::Result<()> {
    let took = micros(rt, from)?;
    println!(rt; "{column},{name},{sessions},{took},{asks},{}", served.unwrap_or(0))
}

fn block(rt: &HostRuntime, hub: &mut Hub, order: Order, kind: Kind, sessions: u64, round: u64) -> io::Result<()> {
    let column = match order {
        Order::Newest => "newest",
        Order::Any | Order::Once => "any",
    };
    let from = Instant::now(rt)?;
    let served = ask(hub, order, kind, sessions, round);
    told(rt, column, name_of(kind), sessions, from, asks_of(order, kind), served)
}

/// Reads rows in no order, and adds up.
fn read(rows: &[[u64; 16]], sessions: u64, round: u64) -> u64 {
    let mut sum = 0u64;
    for place in 0..ASKS {
        let n = asked(Order::Any, sessions, round, place) as usize;
        if let Some(row) = rows.get(n) {
            sum = sum.wrapping_add(row[0]);
        }
    }
    sum
}

fn row_block(rt: &HostRuntime, rows: &[[u64; 16]], sessions: u64, round: u64) -> io::Result<()> {
    let from = Instant::now(rt)?;
    let sum = read(rows, sessions, round);
    told(rt, "any", "array", sessions, from, ASKS, Ok(sum))
}

fn rows_of(alloc: Global, sessions: u64) -> Result<Vec<[u64; 16]>, NoMemory> {
    let mut rows = Vec::new(alloc);
    for _ in 0..sessions {
        rows.push([1; 16])?;
    }
    Ok(rows)
}

fn tenants_block(rt: &HostRuntime, hub: &mut Hub, sessions: u64, round: u64) -> io::Result<()> {
    let alloc: Global = rt.alloc();
    let from = Instant::now(rt)?;
    let done = update(hub, alloc, round.wrapping_add(2)).is_ok();
    told(rt, "newest", "Update", sessions, from, TENANTS, Ok(if done { TENANTS } else { 0 }))?;
    let from = Instant::now(rt)?;
    let done = hub.step(&HubCommand::SetLists(Lists::new(alloc))).is_ok();
    told(rt, "newest", "SetLists", sessions, from, 1, Ok(if done { 1 } else { 0 }))
}

/// What a connection asks, in its order, of many connections at a time; then the same of those that live on.
fn round(rt: &HostRuntime, hub: &mut Hub, rows: &[[u64; 16]], sessions: u64, n: u64) -> io::Result<()> {
    for kind in [
        Kind::Admit,
        Kind::GiveKey,
        Kind::Pick,
        Kind::Assign,
        Kind::Bind,
        Kind::Report,
        Kind::Target,
        Kind::Plan,
        Kind::Find,
        Kind::Release,
    ] {
        block(rt, hub, Order::Newest, kind, sessions, n)?;
    }
    for kind in [Kind::GiveKey, Kind::Assign, Kind::Bind, Kind::Find] {
        block(rt, hub, Order::Any, kind, sessions, n)?;
    }
    row_block(rt, rows, sessions, n)?;
    tenants_block(rt, hub, sessions, n)
}

/// A hub with so many sessions, and as many rows of an array.
#[derive(Drop)]
struct Busy {
    sessions: u64,
    hub: Hub,
    rows: Vec<[u64; 16]>,
}

fn both(alloc: Global) -> Result<[Busy; 2], NoMemory> {
    let few = @FEW@u64;
    let many = @MANY@u64;
    Ok([
        Busy {
            sessions: few,
            hub: filled(alloc, few)?,
            rows: rows_of(alloc, few)?,
        },
        Busy {
            sessions: many,
            hub: filled(alloc, many)?,
            rows: rows_of(alloc, many)?,
        },
    ])
}

fn times(rt: &HostRuntime, mut all: [Busy; 2]) -> io::Result<()> {
    for n in 0..ROUNDS {
        for one in all.iter_mut() {
            round(rt, &mut one.hub, one.rows.as_slice(), one.sessions, n)?;
        }
    }
    for n in 0..ROUNDS {
        for one in all.iter_mut() {
            block(rt, &mut one.hub, Order::Once, Kind::Release, one.sessions, n)?;
        }
    }
    Ok(())
}

fn main(rt: HostRuntime) -> io::Result<()> {
    match both(rt.alloc()) {
        Ok(all) => times(&rt, all),
        Err(_) => println!(rt; "no memory"),
    }
}
"""


def lines_below(name):
    """The lines of crates.txt that the crate stands on, in order, with its own."""
    with open(os.path.join(HERE, "crates.txt")) as text:
        lines = [line.rstrip("\n") for line in text if line.strip()]
    wanted = {name}
    for line in reversed(lines):
        crate, _, below = line.partition(":")
        if crate in wanted:
            wanted.update(below.split())
    return [line for line in lines if line.partition(":")[0] in wanted]


def write(path, text):
    os.makedirs(os.path.dirname(path), exist_ok=True)
    with open(path, "w") as out:
        out.write(text)


def build(folder, numbers):
    """The output of the program, proved and built over copies of the crates."""
    lines = lines_below("proxy_hub")
    for line in lines:
        crate = line.partition(":")[0]
        shutil.copytree(
            os.path.join(HERE, "crates", crate),
            os.path.join(folder, "crates", crate),
            ignore=shutil.ignore_patterns("out", "must-fail"),
            dirs_exist_ok=True,
        )
    names = " ".join(line.partition(":")[0] for line in lines)
    write(os.path.join(folder, "crates.txt"), "\n".join([*lines, f"hub_times: {names} itoa", ""]))
    shutil.copy(os.path.join(HERE, "HANDLES"), folder)
    crate = os.path.join(folder, "crates", "hub_times")
    source = PROGRAM.lstrip("\n")
    for name, number in numbers.items():
        source = source.replace(f"@{name}@", str(number))
    write(os.path.join(crate, "src", "main.rt"), source)
    run = subprocess.run(["rt", "run"], cwd=crate, capture_output=True, text=True)
    if run.returncode != 0:
        sys.exit(run.stdout + run.stderr)
    return run.stdout


def cells(found, column, few, many):
    """The medians of a column, and how much they grow."""
    if (column, few) not in found:
        return "| | |"
    small, large = (statistics.median(found[column, n]) for n in (few, many))
    return f"{small:.2f} | {large:.2f} | {large / small if small else 0:.2f} |"


def main():
    few, many, rounds = (
        int(sys.argv[i]) if len(sys.argv) > i else default for i, default in ((1, 10_000), (2, 100_000), (3, 15))
    )
    numbers = {"FEW": few, "MANY": many, "ROUNDS": rounds}
    if len(sys.argv) > 4:
        lines = build(sys.argv[4], numbers).splitlines()
    else:
        with tempfile.TemporaryDirectory() as folder:
            lines = build(folder, numbers).splitlines()
    times = {}
    for column, name, sessions, micros, asks, served in (line.split(",") for line in lines):
        if served != asks:
            sys.exit(f"{name} with {sessions} sessions: {served} of {asks} were served")
        times.setdefault(name, {}).setdefault((column, int(sessions)), []).append(int(micros) / int(asks))
    print(f"| command | µs with {few} sessions | with {many} | times | of any: with {few} | with {many} | times |")
    print("|---|---|---|---|---|---|---|")
    for name, found in times.items():
        print(f"| `{name}` |", *(cells(found, column, few, many) for column in ("newest", "any")))


if __name__ == "__main__":
    main()
