#!/usr/bin/env python3
"""Runs a harness of loads over the proxy and its peers, and prints one table.

usage: bench/peers.py HARNESS [--rounds N] [--seconds S] [--groups stub,pg] [--peers NAME,..] [--idle N] [--proxy PROGRAM] [--raw FILE]

HARNESS is the folder of the harness, which stands outside this repository: its `peers.sh` starts a backend that costs
next to nothing (stub), a PostgreSQL (pg) and the peers before both, and its `suite.py` runs the loads. It needs root, since
it installs Debian's packages that are missing and starts servers as another user. The proxy is started before the same
backends, by bin/sqlproxy unless another is named, and its loads run in turn with those of the peers, each beside direct ones.

Printed are medians over N rounds (5): the share of what a direct client reaches, the proxy's processor time, and the memory
of idle clients, of which there are 1,000. All that is started is ended.
"""
import argparse
import json
import os
import shutil
import statistics
import subprocess
import sys
import tempfile

from programs import ROOT, Program, free_ports, proxy_settings, put, table

PEERS = "two-threads-batch,two-threads-raw,haproxy,pgbouncer-session"
MEASURES = "q16,ext16,copy,rows,conn"
# The harness's clients name no cluster but by their database.
DATABASE = "koala-7.bench"
NAME = "sqlproxy"


class Harness:
    """The harness, up."""

    def __init__(self, at, folder):
        self.at = at
        self.environment = {**os.environ, "BENCH_STATE": f"{folder}/state", "PYTHONDONTWRITEBYTECODE": "1"}
        self.run("peers.sh", "up")
        with open(f"{folder}/state", encoding="utf-8") as it:
            self.environment["PGLOAD"] = f"{it.read().strip()}/bin/pgload"
        lines = self.run("peers.sh", "targets").splitlines()
        self.direct = {}
        for group, name, port, pid in (it.split() for it in lines):
            if name == "direct":
                self.direct[group] = (int(port), int(pid))

    def run(self, program, *words):
        ran = subprocess.run([f"{self.at}/{program}", *words], env=self.environment, stdout=subprocess.PIPE, text=True, check=True)
        return ran.stdout

    def down(self):
        subprocess.run([f"{self.at}/peers.sh", "down"], env=self.environment, stdout=subprocess.DEVNULL, check=False)


def make_database(port):
    """The PostgreSQL database that a direct client of the proxy's name is in, as the harness makes its own."""
    for user, database, sql in (
        ("postgres", "postgres", f'CREATE DATABASE "{DATABASE}" OWNER bench'),
        ("bench", DATABASE, "CREATE UNLOGGED TABLE sink (v text)"),
    ):
        subprocess.run(["psql", "-qX", "-h", "127.0.0.1", "-p", str(port), "-U", user, "-d", database, "-c", sql], check=True)


def run_rounds(asked, harness, proxies, raw):
    groups = ["--groups", ",".join(proxies)]
    added = []
    for group, (port, proxy) in proxies.items():
        place, pid = harness.direct[group]
        added += ["--add", f"{group}:direct:{place}:{pid}", "--add", f"{group}:{NAME}:{port}:{proxy.pid}"]
    for number in range(asked.rounds):
        idle = ["--idle", str(asked.idle if number == 0 else 0)]
        common = ["--rounds", "1", "--seconds", str(asked.seconds), "--measures", MEASURES, "--raw", raw, *groups, *idle]
        harness.run("suite.py", *common, "--only", asked.peers)
        harness.run("suite.py", *common, "--no-peers", "--database", DATABASE, *added)


def median(results, group, name, measure, field):
    found = [it[field] for it in results if (it["group"], it["target"], it["measure"]) == (group, name, measure) and field in it]
    return statistics.median(found) if found else None


def told(value, digits, scale=1.0):
    return "-" if value is None else f"{value * scale:.{digits}f}"


def line_of(results, group, name):
    """The line of a target in a group."""

    def of(measure, field, digits, scale=1.0):
        return told(median(results, group, name, measure, field), digits, scale)

    def both(measure, field, digits, scale=1.0):
        return f"{of(measure, 'ratio', 2)}, {of(measure, field, digits, scale)}"

    private, stack, base = (median(results, group, name, "idle", it) for it in ("private_kib", "kernel_stack_kib", "base_pss_kib"))
    each = None if private is None else private + stack
    whole = None if each is None else (base + 1000 * each) / 1024
    return [
        name, both("q16", "cpu_s_per_m_query", 0), both("ext16", "cpu_s_per_m_query", 0), both("copy", "cpu_s_per_gib", 2),
        both("rows", "cpu_s_per_gib", 2), both("conn", "cpu_s_per_k_conn", 2), told(each, 1), told(whole, 1),
    ]


def print_tables(asked, results):
    head = [
        "proxy", "small query: of direct, µs", "prepared query: of direct, µs", "COPY in: of direct, s/GiB",
        "result rows: of direct, s/GiB", "connection: of direct, ms", "idle client KiB", "1,000 idle clients MiB",
    ]
    for group in asked.groups:
        names = [it for it in [NAME, *asked.peers.split(",")] if any(r["group"] == group and r["target"] == it for r in results)]
        print(f"\nBefore {'a PostgreSQL' if group == 'pg' else 'a backend that costs next to nothing'}:\n")
        print(table(head, [line_of(results, group, it) for it in names]))
    for it in results:
        if "error" in it or it.get("errors"):
            print(f"failed: {it['group']} {it['target']} {it['measure']}: {it.get('error', 'errors in answers')}", file=sys.stderr)
    others = [it["others"] for it in results if "others" in it]
    if others:
        print(f"\nProcessors that other work took meanwhile, in the median: {statistics.median(others):.1f}")


def measured(asked, folder):
    harness = Harness(asked.harness, folder)
    proxies = {}
    try:
        for group in asked.groups:
            port = free_ports(1)[0]
            put(f"{folder}/{group}.toml", proxy_settings(port, [harness.direct[group][0]]))
            proxies[group] = (port, Program(asked.proxy, "serve", "--config", f"{folder}/{group}.toml"))
        if "pg" in asked.groups:
            make_database(harness.direct["pg"][0])
        raw = asked.raw or f"{folder}/raw"
        run_rounds(asked, harness, proxies, raw)
        with open(raw, encoding="utf-8") as it:
            return [json.loads(line) for line in it]
    finally:
        for _, proxy in proxies.values():
            proxy.end()
        harness.down()


def asked_of(words):
    parser = argparse.ArgumentParser(description=__doc__, formatter_class=argparse.RawDescriptionHelpFormatter)
    parser.add_argument("harness", metavar="HARNESS")
    parser.add_argument("--rounds", type=int, default=5)
    parser.add_argument("--seconds", type=float, default=1.2)
    parser.add_argument("--groups", type=lambda it: it.split(","), default=["stub"])
    parser.add_argument("--peers", default=PEERS)
    parser.add_argument("--idle", type=int, default=1000)
    parser.add_argument("--proxy", default=f"{ROOT}/bin/sqlproxy")
    parser.add_argument("--raw", default="")
    return parser.parse_args(words)


def main(words):
    asked = asked_of(words)
    for it in ("peers.sh", "suite.py"):
        if not os.path.exists(f"{asked.harness}/{it}"):
            print(f"{asked.harness} has no {it}", file=sys.stderr)
            return 2
    folder = tempfile.mkdtemp()
    try:
        results = measured(asked, folder)
        print_tables(asked, results)
        return 1 if any("error" in it or it.get("errors") for it in results) else 0
    finally:
        shutil.rmtree(folder)


if __name__ == "__main__":
    sys.exit(main(sys.argv[1:]))
