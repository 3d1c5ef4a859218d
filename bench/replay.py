#!/usr/bin/env python3
"""Measures sqlproxy-replay beside sha256sum, in one run.

usage: bench/replay.py [ROUND_TRIPS] [RUNS]

Makes schedules from the number of round trips (125000, eight lines each), runs the built program and
sha256sum over the same files in turn, and prints the median processor times with their ratios, the
most memory, and what twice the schedule costs. Then it prints the time a line of whole moves beside that
of round trips, and the time per byte of single frames that are read in pieces of 1, 64 and 65,535 bytes.
"""
import os
import statistics
import subprocess
import sys
import tempfile

HERE = os.path.dirname(os.path.dirname(os.path.abspath(__file__)))
PROGRAM = os.path.join(HERE, "crates", "sqlproxy_replay", "out", "sqlproxy_replay")
ROUND_TRIP = (
    "give 51000000063100\nread 64\nforward\ndeliver 65535\npod\nback 65535\npass\npass\n"
)


def round_trips(path, count):
    """Small Query round trips, behind the greeting."""
    with open(path, "w") as out:
        out.write("back 65535\npass\npass\npass\n")
        for _ in range(count // 1000):
            out.write(ROUND_TRIP * 1000)
        out.write(ROUND_TRIP * (count % 1000))


MOVE = (
    "stop\npark\nhold\nstart 000102030405060708090a0b0c0d0e0f\nmove\ndeliver 999\npod\n" + "move\n" * 6
    + "deliver new 999\npod new\n" + "move\n" * 4 + "deliver new 999\npod new\n" + "move\n" * 4
)


def moves(path, count):
    """Whole moves with a Query round trip after each, behind a first round trip."""
    with open(path, "w") as out:
        out.write("back 65535\npass\npass\npass\n" + ROUND_TRIP)
        for _ in range(count):
            out.write(MOVE + ROUND_TRIP)
    return 12 + count * ((MOVE + ROUND_TRIP).count("\n"))


def one_frame(path, size, piece):
    """One CopyData of so many bytes, read in pieces, and what the pod makes of it."""
    frame = b"d" + (size - 1).to_bytes(4, "big") + bytes(size - 5)
    with open(path, "w") as out:
        for at in range(0, size, 4096):
            out.write("give " + frame[at:at + 4096].hex() + "\n")
        for at in range(0, size, piece):
            out.write(f"read {min(piece, size - at)}\n")
        out.write("forward\n")
        for at in range(0, size, 65535):
            out.write("deliver 65535\n")
        out.write("pod\nback 65535\npass\n")


def cost(words, path):
    """Processor seconds and the most memory, in KiB, of one run over the file."""
    with open(path, "rb") as schedule, open(os.devnull, "wb") as nowhere:
        child = subprocess.Popen(words, stdin=schedule, stdout=nowhere)
        _, status, usage = os.wait4(child.pid, 0)
    if status != 0:
        sys.exit(f"{' '.join(words)} ended with {status}")
    return usage.ru_utime + usage.ru_stime, usage.ru_maxrss


def medians(path, runs):
    """Of the program and of sha256sum, run in turn."""
    ours, theirs, most = [], [], 0
    for _ in range(runs):
        seconds, memory = cost([PROGRAM, "run"], path)
        ours.append(seconds)
        most = max(most, memory)
        theirs.append(cost(["sha256sum"], path)[0])
    return statistics.median(ours), statistics.median(theirs), most


def main():
    count = int(sys.argv[1]) if len(sys.argv) > 1 else 125_000
    runs = int(sys.argv[2]) if len(sys.argv) > 2 else 7
    if not os.path.exists(PROGRAM):
        sys.exit("build the program first: bin/sqlproxy-replay run < examples/first.schedule")
    with tempfile.TemporaryDirectory() as folder:
        path = os.path.join(folder, "schedule")
        print("| schedule | lines | bytes | replay s | sha256sum s | ratio | memory / file |")
        print("|---|---|---|---|---|---|---|")
        single = None
        for factor in (1, 2):
            round_trips(path, count * factor)
            size = os.path.getsize(path)
            ours, theirs, most = medians(path, runs)
            print(
                f"| round trips | {count * factor * 8 + 4} | {size} | {ours:.3f} | {theirs:.3f} "
                f"| {ours / theirs:.2f} | {most * 1024 / size:.2f} |"
            )
            single = single or ours
        print(f"\ntwice the schedule costs {ours / single:.2f} times as much\n")
        each = ours / (count * 2 * 8 + 4)
        print("| schedule | lines | replay s | ns a line | beside round trips |")
        print("|---|---|---|---|---|")
        for whole in (10_000, 20_000):
            lines = moves(path, whole)
            seconds, _, _ = medians(path, runs)
            print(
                f"| {whole} moves | {lines} | {seconds:.3f} | {seconds * 1e9 / lines:.0f} "
                f"| {seconds / lines / each:.2f} |"
            )
        print()
        print("| frame | piece | bytes of schedule | replay s | ns a byte |")
        print("|---|---|---|---|---|")
        for size in (1 << 16, 1 << 20, (1 << 24) + 5):
            for piece in (1, 64, 65535):
                one_frame(path, size, piece)
                bytes_ = os.path.getsize(path)
                seconds = statistics.median(cost([PROGRAM, "run"], path)[0] for _ in range(3))
                print(
                    f"| {size} | {piece} | {bytes_} | {seconds:.3f} "
                    f"| {seconds * 1e9 / bytes_:.1f} |"
                )


if __name__ == "__main__":
    main()
