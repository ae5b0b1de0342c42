#!/usr/bin/env python3
"""Compares the audit of a log of several connections with the audit of each connection as a log of version 1.

Use: tests/gate/multi_connection.py [CASES] [SEED]. CASES is the number of random logs of version 2 (default 1500),
SEED is 1 by default. Many have an entry that breaks a rule, or an unreadable line. Each log is split at an `up` that
directly follows a `down`. If the time goes back there, the log fails by `Backwards`. Otherwise it fails at the first
line at which one of its parts fails, for the same reason. If each part passes, it passes with the sums of their
counts, except that `waiting` is that of the last part.

It runs what `rt ci` has built, and knows no rule of a session. The last lines give the numbers of connections in the
logs, and the number of verdicts that differ. The status is 1 if one differs, or if no log of three connections passed.
"""
import os
import re
import sys
from collections import Counter
from concurrent.futures import ThreadPoolExecutor

sys.dont_write_bytecode = True
sys.path.insert(0, os.path.abspath(f"{__file__}/../../.."))

from tests.support.command import LONGEST_SHOWN, answer_of
from tests.support.reference import random_logs
from tests.support.reference.random_messages import Chance

WORKERS = 2
CONNECTION = re.compile(rb"(0|[1-9][0-9]{0,19}) (up|down)\r?")
COUNTS = re.compile(r"(\w+)=(\d+)")


def log_of_several(seed):
    """The first log of version 2 that this seed gives."""
    chance = Chance(seed)
    while True:
        log = random_logs.random_log(chance)
        if log.startswith(b"hsms-log 2 "):
            return log


def verdict_of(log):
    return answer_of(["audit"], log).output.decode().rstrip("\n")


def carries_nothing(line):
    return line in (b"", b"\r") or line.startswith(b"#")


class Part:
    """The lines of one connection, and the number of lines before them."""

    def __init__(self, before, first):
        self.before, self.first, self.lines = before, first, []

    def verdict(self):
        """The verdict on them as a log of version 1, and of the failing line its number in the whole log."""
        told = verdict_of(b"\n".join([self.first, *self.lines]))
        return re.sub(r"line=(\d+)", lambda found: f"line={int(found.group(1)) - 1 + self.before}", told)


def parts_of(log):
    """The parts of a log; or, after those before it, the verdict on an `up` whose time is less than the `down`'s."""
    lines = log.split(b"\n")
    first = re.sub(rb"^hsms-log 2 ", b"hsms-log 1 ", lines[0])
    part, down = Part(1, first), None
    for number, line in enumerate(lines[1:], 2):
        found = CONNECTION.fullmatch(line)
        if found and found.group(2) == b"up" and down is not None:
            yield part
            if int(found.group(1)) < down:
                yield f"fail line={number} rule=Backwards"
                return
            part = Part(number - 1, first)
        if not carries_nothing(line):
            down = int(found.group(1)) if found and found.group(2) == b"down" else None
        part.lines.append(line)
    yield part


def wanted(log):
    """What the verdicts on the parts say of the whole, and how many parts were looked at."""
    sums, parts = Counter(), 0
    for part in parts_of(log):
        verdict = part if isinstance(part, str) else part.verdict()
        parts += 1
        if not verdict.startswith("pass "):
            return verdict, parts
        sums["waiting"] = 0
        sums.update({name: int(count) for name, count in COUNTS.findall(verdict)})
    names = ("entries", "sent", "taken", "discarded", "expired", "waiting")
    return " ".join(["pass", *[f"{name}={sums[name]}" for name in names]]), parts


def compared(seed):
    log = log_of_several(seed)
    return log, *wanted(log), verdict_of(log)


def main():
    count = int(sys.argv[1]) if len(sys.argv) > 1 else 1500
    seed = sys.argv[2] if len(sys.argv) > 2 else "1"
    with ThreadPoolExecutor(WORKERS) as pool:
        answers = list(pool.map(compared, [f"{seed} connections {number}" for number in range(count)]))
    differing = [(log, want, told) for log, want, _, told in answers if want != told]
    for log, want, told in sorted(differing, key=lambda each: len(each[0]))[:1]:
        print(f"{log[:LONGEST_SHOWN].hex()}\nwanted: {want}\ntold: {told}")
    passing = Counter(parts for _, want, parts, _ in answers if want.startswith("pass "))
    failing = Counter(parts for _, want, parts, _ in answers if want.startswith("fail "))
    print("connections of logs that pass: " + ", ".join(f"{parts}: {passing[parts]}" for parts in sorted(passing)))
    print("connection that fails: " + ", ".join(f"{parts}: {failing[parts]}" for parts in sorted(failing)))
    print(f"logs of several connections: {count}, {len(differing)} differ")
    return 1 if differing or not passing[3] else 0


if __name__ == "__main__":
    sys.exit(main())
