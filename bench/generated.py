#!/usr/bin/env python3
"""Measures generated runs beside sha256sum over the texts of the same schedules, in one run.

usage: bench/generated.py [NUMBER] [RUNS]

Writes the schedules of a number (1) as text, by a generator of its own, checks that a run over such a text
ends as `gen` says it does and as a reckoning without any transfer says, and prints the median processor times with their ratio, the most memory, and what
twice the messages cost.
"""
import hashlib
import os
import statistics
import subprocess
import sys
import tempfile

from replay import PROGRAM, cost

MASK = (1 << 64) - 1
STREAM = 54
OPENING = "back 65535\npass\npass\npass\n"
UP_TO_DIAL = "stop\npark\nhold\nstart {key}\nmove\ndeliver 65535\npod\n" + "move\n" * 5
REST = "move\n" + ("deliver new 65535\npod new\n" + "move\n" * 4) * 2
NEW_CUT = "move\ncut new 0\nmove\n"


class Pcg32:
    """PCG XSH RR 64/32, as its authors' demonstration in C has it."""

    def __init__(self, number):
        self.increment = (STREAM << 1) | 1
        self.state = (number + self.increment) & MASK
        self.step()

    def step(self):
        self.state = (self.state * 6364136223846793005 + self.increment) & MASK

    def word(self):
        old = self.state
        self.step()
        mixed = (((old >> 18) ^ old) >> 27) & 0xFFFFFFFF
        turn = old >> 59
        return (mixed >> turn | mixed << (-turn & 31)) & 0xFFFFFFFF


def frame(tag, body=b""):
    return tag + (len(body) + 4).to_bytes(4, "big") + body


def sends(frames, second, replies):
    """The client gives these messages at once, and they are read in pieces."""
    text, piece = b"".join(frames), 1 + second % 64
    return (
        f"give {text.hex()}\n" + f"read {piece}\n" * -(-len(text) // piece) + "forward\n" * len(frames)
        + "deliver 65535\n" + "pod\n" * len(frames) + "back 65535\n" + "pass\n" * replies
    )


def turn(at, words):
    kind, second = words.word() % 8, words.word()
    if kind < 5:
        return sends([frame(b"Q", b"%d\0" % at)], second, 2)
    if kind == 5:
        return sends([frame(b"S")], second, 1)
    if kind == 6:
        return sends([frame(b"Q", b"COPY t FROM STDIN\0"), frame(b"d", b"x"), frame(b"c")], second, 3)
    key = "".join(f"{words.word():08x}" for _ in range(4))
    dialed = UP_TO_DIAL.format(key=key)
    return [dialed + REST, dialed + REST, "nodial\n" + dialed, dialed + NEW_CUT][second % 4]


def replies_to(kind, tally):
    """What a tally session replies to the messages of a turn, the tally being what it comes to."""
    ready = frame(b"Z", b"I")
    if kind < 5:
        return [frame(b"C", b"TALLY %d\0" % tally), ready]
    return [ready] if kind == 5 else [frame(b"G", b"\0\0\0"), frame(b"C", b"COPY 1\0"), ready]


def reckoned(number, messages):
    """The summary of a schedule that is played by nobody: what the client hears is what one session says."""
    words = Pcg32(number)
    key = (1).to_bytes(4, "big") + (16909060).to_bytes(4, "big")
    heard = [frame(b"R", b"\0\0\0\0"), frame(b"K", key), frame(b"Z", b"I")]
    events, tally, moves, failed, forwarded, no_dial = OPENING.count("\n"), 0, 0, 0, 0, False
    for at in range(messages):
        ahead = Pcg32(0)
        ahead.state, kind, second = words.state, words.word() % 8, words.word()
        events += "".join(turn(at, ahead)).count("\n")
        words.state = ahead.state
        if kind < 7:
            tally += kind < 5
            heard += replies_to(kind, tally)
            forwarded += 3 if kind == 6 else 1
            continue
        no_dial = no_dial or second % 4 == 2
        if forwarded:
            fails = no_dial or second % 4 == 3
            moves, failed, no_dial = moves + (not fails), failed + fails, False
    received = b"".join(heard)
    return {
        "events": events, "moves": moves, "failed": failed, "forwarded": forwarded, "passed": len(heard),
        "received": len(received), "sha256": hashlib.sha256(received).hexdigest(),
    }


def write_schedule(path, number, messages):
    words = Pcg32(number)
    with open(path, "w") as out:
        out.write(OPENING)
        for at in range(messages):
            out.write(turn(at, words))


def told(words, path):
    """What a run prints, by the first word of each line."""
    with open(path, "rb") as schedule:
        lines = subprocess.run([PROGRAM, *words], stdin=schedule, check=True, capture_output=True, text=True)
    return [line.split(" ") for line in lines.stdout.splitlines()]


def check(path, number, messages):
    """The run over the text ends as the summary of its number says."""
    summary = {line[0]: line[-1] for line in told(["gen", str(number), str(messages)], os.devnull)}
    report = told(["run", "tally"], path)
    counts = {line[0]: line[-1] for line in report if len(line) == 2}
    received = bytes.fromhex("".join(line[0] for line in report if len(line) == 1 and line[0] != "end"))
    with open(path) as schedule:
        counts["events"] = str(sum(1 for _ in schedule))
    counts["sha256"] = hashlib.sha256(received).hexdigest()
    for name, count in reckoned(number, messages).items():
        if summary[name] != str(count):
            sys.exit(f"{messages} messages: {name} is {summary[name]} by gen, {count} by reckoning")
    for name in ("events", "phase", "moves", "failed", "forwarded", "passed", "received", "sha256"):
        if summary[name] != counts[name]:
            sys.exit(f"{messages} messages: {name} is {summary[name]} by gen, {counts[name]} by run")
    return summary["events"]


def main():
    number = int(sys.argv[1]) if len(sys.argv) > 1 else 1
    runs = int(sys.argv[2]) if len(sys.argv) > 2 else 7
    if not os.path.exists(PROGRAM):
        sys.exit("build the program first: bin/sqlproxy-replay run < examples/first.schedule")
    sizes = (20_000, 40_000, 100_000)
    # A child's most memory is at least its parent's, so that it is taken before this process grows.
    memory = {n: cost([PROGRAM, "gen", str(number), str(n)], os.devnull)[1] for n in sizes}
    with tempfile.TemporaryDirectory() as folder:
        path, ours = os.path.join(folder, "schedule"), {}
        print("| messages | events | bytes | gen s | sha256sum s | ratio | memory MiB |")
        print("|---|---|---|---|---|---|---|")
        for messages in sizes:
            write_schedule(path, number, messages)
            events = check(path, number, messages)
            words = [PROGRAM, "gen", str(number), str(messages)]
            pairs = [(cost(words, os.devnull)[0], cost(["sha256sum"], path)[0]) for _ in range(runs)]
            ours[messages], theirs = map(statistics.median, zip(*pairs))
            print(
                f"| {messages} | {events} | {os.path.getsize(path)} | {ours[messages]:.3f} | {theirs:.3f} "
                f"| {ours[messages] / theirs:.2f} | {memory[messages] / 1024:.1f} |"
            )
        print(f"\n40,000 messages cost {ours[40_000] / ours[20_000]:.2f} times what 20,000 do")


if __name__ == "__main__":
    main()
