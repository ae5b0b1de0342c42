#!/usr/bin/env python3
"""Explains logs whose clock was set, and compares with the explanation of the same log before that.

Of each log of a host there are three others: with one time ten years ahead, with the times an hour back from a line on,
and with the times 4 s back from a line on. At most three failures more are shown, each line that is shown is the one
that did it, and T3Overdue is counted as often.

Use: tests/gate/clock_steps.py [LOGS] [SEED]. LOGS is the number of logs (default 100), SEED is 1 by default. It runs
what `rt ci` has built. The last line is `N passed, M failed`.
"""
import json
import os
import sys
from concurrent.futures import ProcessPoolExecutor
from typing import Dict, List, NamedTuple, Optional, Tuple

sys.dont_write_bytecode = True
sys.path.insert(0, os.path.abspath(f"{__file__}/../../.."))

from tests.support.command import answer_of
from tests.support.reference.random_messages import Chance

FIRST = "hsms-log 1 host active 0 45000 6000 10000 5000 1048576 32"
SELECTED = [(0, "up"), (0, "> ffff0000000100000001"), (4, "< ffff0000000200000001")]

HOUR, YEARS, STEP = 3_600_000, 315_360_000_000, 4_000

Entries = List[Tuple[int, str]]


class Explained(NamedTuple):
    """How often each rule fails, and the failures that are shown in full, each with its line."""

    counts: Dict[str, int]
    failures: List[Tuple[int, dict]]


def log_of(entries: Entries) -> bytes:
    return "".join(f"{line}\n" for line in [FIRST, *(f"{time} {words}" for time, words in entries)]).encode()


def entries_of(chance: Chance, count: int) -> Entries:
    """Primaries of both ends and their replies, the time at first an hour and more; every 20th reply comes after T3."""
    entries, now = [(HOUR * 2 + time, words) for time, words in SELECTED], HOUR * 2 + 10
    for system in range(2, count + 2):
        stream, function, out, back = chance.one((1, 1, ">", "<"), (1, 3, ">", "<"), (6, 11, "<", ">"))
        entries.append((now, f"{out} 0000{stream + 128:02x}{function:02x}0000{system:08x}"))
        is_late = out == ">" and chance.happens(0.05)
        now += 45_000 + chance.randint(5_000, 9_000) if is_late else chance.randint(1, 300)
        entries.append((now, f"{back} 0000{stream:02x}{function + 1:02x}0000{system:08x}"))
        now += chance.randint(1, 900)
    return entries


def explained(entries: Entries) -> Explained:
    words = ["explain", "--only", "failures", "--around", "0", "--format", "json"]
    objects = [json.loads(it) for it in answer_of(words, log_of(entries)).output.splitlines()]
    failures = [(it["line"], failing) for it in objects if it["type"] == "line" for failing in it.get("failures", []) if "like" not in failing]
    return Explained(next(it["rules"] for it in objects if it["type"] == "failures"), failures)


def moved(entries: Entries, first: int, last: int, by: int) -> Entries:
    """The entries, with the times of some of them moved."""
    return [(time + by if first <= at < last else time, words) for at, (time, words) in enumerate(entries)]


def fault_of(name: str, entries: Entries, plain: Explained, at: int, line: int) -> Optional[str]:
    """What is wrong with the explanation of entries whose clock was set at a position. `line` is the one to be named."""
    told = explained(entries)
    backwards = [(number, it) for number, it in told.failures if it["rule"] == "Backwards"]
    if len(backwards) > 3 or {it: count for it, count in told.counts.items() if it != "Backwards"} != plain.counts:
        return f"{name} at line {at + 2}: {told.counts}, without it {plain.counts}"
    number, failing = backwards[0]
    named = [number, failing.get("expected_line")]
    if line not in named or (name == "ahead" and f"line {line} is" not in failing["expected"]):
        return f"{name} at line {at + 2}: line {line} is not named by {failing}"
    return None


def check(seed: str) -> List[str]:
    """The faults of a log, of all places where its clock is set."""
    chance = Chance(f"clock {seed}")
    entries, faults = entries_of(chance, 40), []
    plain = explained(entries)
    # An odd position is that of a primary: nothing is open there. If its time is wrong, no wait for its reply is known, so
    # its reply is in time.
    at = chance.choice([at for at in range(3, 77, 2) if entries[at + 1][0] - entries[at][0] <= 45_000])
    ahead = moved(entries, at, at + 1, YEARS)
    faults.append(fault_of("ahead", ahead, plain, at, at + 2))
    hour = moved(entries, at, len(entries), -HOUR)
    faults.append(fault_of("an hour back", hour, plain, at, at + 2))
    step = moved(entries, at, len(entries), -STEP)
    if step[at][0] < step[at - 1][0]:
        faults.append(fault_of("4 s back", step, plain, at, at + 2))
    return [it for it in faults if it]


def main() -> int:
    count, seed = int(sys.argv[1]) if len(sys.argv) > 1 else 100, sys.argv[2] if len(sys.argv) > 2 else "1"
    with ProcessPoolExecutor() as pool:
        faults = list(pool.map(check, [f"{seed} {number}" for number in range(count)]))
    print(*(words for told in faults for words in told), sep="\n", end="\n" * any(faults))
    failed = sum(bool(it) for it in faults)
    print(f"{count - failed} passed, {failed} failed")
    return 1 if failed else 0


if __name__ == "__main__":
    sys.exit(main())
