#!/usr/bin/env python3
"""Runs the gate and tells what each crate costs it, in processor seconds, worst first.

usage: bench/gate.py [--anew] [CRATE ..]

The words go to `rt ci`, whose output is written to standard error; its status is this one's. While it runs, the
checker's processes are looked at twice a second: a process over a copy that begins `rt-edit-` tries a must-fail
edit or makes its start, one with the word `--test` proves and builds tests, any other proves the crate. What an
earlier run on this machine kept is not proved again, and counts for nothing here: for the whole cost run
`bench/gate.py --anew`, on a machine with nothing else to do. Lines are those of src/, specs/ and proofs/.
"""
import os
import subprocess
import sys
import threading
import time

HERE = os.path.dirname(os.path.dirname(os.path.abspath(__file__)))
TICKS = os.sysconf("SC_CLK_TCK")
KINDS = ("proof", "tests", "edits")
# How often the processes are looked at, in seconds.
EVERY = 0.5
# What a new crate may cost: processor seconds a thousand lines.
BUDGET = 300


def processes():
    """Gives each process as (parent, own seconds, seconds of its ended children), by number."""
    found = {}
    for name in filter(str.isdigit, os.listdir("/proc")):
        try:
            with open(f"/proc/{name}/stat", encoding="utf-8", errors="replace") as it:
                fields = it.read().rsplit(")", 1)[1].split()
        except OSError:
            continue
        times = [int(it) / TICKS for it in fields[11:15]]
        found[int(name)] = (int(fields[1]), sum(times[:2]), sum(times[2:]))
    return found


def told(number):
    """Gives the crate and the kind of work of a checker's process, if it is one."""
    try:
        with open(f"/proc/{number}/cmdline", encoding="utf-8", errors="replace") as it:
            words = it.read().split("\0")
        folder = os.readlink(f"/proc/{number}/cwd")
    except OSError:
        return None
    if os.path.basename(words[0]) != "rattle" or "--crate-name" not in words:
        return None
    crate = words[words.index("--crate-name") + 1].removesuffix("_tests")
    is_edit = "/rt-edit-" in f"{folder}/" or words[1] == "check"
    return crate, "edits" if is_edit else "tests" if "--test" in words else "proof"


def under(root, found):
    """Gives the processes below this one."""
    inside = {root}
    grew = True
    while grew:
        more = {it for it, (parent, _, _) in found.items() if parent in inside} - inside
        inside |= more
        grew = bool(more)
    return inside - {root}


class Watch:
    """Adds up what the checker's topmost processes took, each by what was seen of it last."""

    def __init__(self, root):
        self.root, self.seen, self.kinds = root, {}, {}

    def look(self):
        found = processes()
        below = under(self.root, found)
        for number in below:
            if number not in self.kinds:
                self.kinds[number] = told(number)
        tops = [it for it in below if self.kinds[it] and not self.kinds.get(found[it][0])]
        for top in tops:
            whole = [top, *under(top, found)]
            spent = sum(found[it][1] + found[it][2] for it in whole)
            self.seen[top] = max(spent, self.seen.get(top, 0))

    def table(self):
        rows = {}
        for number, spent in self.seen.items():
            crate, kind = self.kinds[number]
            rows.setdefault(crate, dict.fromkeys(KINDS, 0.0))[kind] += spent
        return rows


def lines_of(crate):
    count = 0
    for part in ("src", "specs", "proofs"):
        for at, _, files in os.walk(f"{HERE}/crates/{crate}/{part}"):
            for name in files:
                with open(f"{at}/{name}", encoding="utf-8") as it:
                    count += sum(1 for _ in it)
    return count


def print_table(rows, wall):
    print("| crate | lines | proof s | tests s | edits s | all s | s a thousand lines |")
    print("|---|---|---|---|---|---|---|")
    costs = [(sum(it.values()), crate, it) for crate, it in rows.items()]
    for whole, crate, it in sorted(costs, reverse=True):
        lines = lines_of(crate)
        rate = 1000 * whole / lines if lines else 0
        mark = " over" if rate > BUDGET else ""
        parts = " | ".join(f"{it[kind]:.0f}" for kind in KINDS)
        print(f"| `{crate}` | {lines} | {parts} | {whole:.0f} | {rate:.0f}{mark} |")
    whole = sum(it[0] for it in costs)
    parts = " | ".join(f"{sum(it[2][kind] for it in costs):.0f}" for kind in KINDS)
    print(f"| all | {sum(lines_of(it[1]) for it in costs)} | {parts} | {whole:.0f} | |")
    print(f"\n{whole / 60:.0f} processor minutes in {wall / 60:.0f} minutes")


def main():
    began = time.monotonic()
    with subprocess.Popen(["rt", "ci", *sys.argv[1:]], cwd=HERE, stdout=sys.stderr) as gate:
        watch, done = Watch(gate.pid), threading.Event()

        def go_on():
            while not done.wait(EVERY):
                watch.look()

        looking = threading.Thread(target=go_on)
        looking.start()
        status = gate.wait()
        done.set()
        looking.join()
    print_table(watch.table(), time.monotonic() - began)
    return status


if __name__ == "__main__":
    sys.exit(main())
