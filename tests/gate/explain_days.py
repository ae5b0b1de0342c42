#!/usr/bin/env python3
"""Checks that the first page of `hsms explain --only failures` names the line that did it.

Use: tests/gate/explain_days.py [LOGS] [SEED]. LOGS is the number of logs (default 300), SEED is 1 by default. Each log
is that of one end of a tool in production, with one slip of the kinds of `tests/support/day_logs.py`, in turn. Without
the slip it passes. The first page is the first 25 lines of the output. It names a line if a failure is below that
line, or if what is below a failure has `line N`. What fails later because of the slip has to be named on some page.

    tests/gate/explain_days.py --write FOLDER [PRIMARIES] [SEED]

writes a log of each kind, with the number of the line that did it in NAME.truth. There are two lines for each of the
primaries (default 100,000, of a day).

It runs what `rt ci` has built. The last lines give, for each kind, the logs and how many of them are named.
"""
import os
import re
import sys
from concurrent.futures import ProcessPoolExecutor
from typing import List, NamedTuple, Optional, Set

sys.dont_write_bytecode = True
sys.path.insert(0, os.path.abspath(f"{__file__}/../../.."))

from tests.support.command import answer_of
from tests.support.day_logs import SLIPS, DayLog, day_log

# The lines of a page, and the number of primaries of a log.
PAGE, PRIMARIES = 25, 150

# The number of a line of the log, what a line closes, and a line that is named.
NUMBER = re.compile(rb" {0,5}(\d+) ")
CLOSING = re.compile(rb" {7}(answers|rejects|T3 timeout of) line ")
NAMED = re.compile(rb"\bline (\d+)\b")


def named_on(lines: List[bytes]) -> Set[int]:
    """The lines that a part of the output names: those that fail, and those that failures name."""
    found: Set[int] = set()
    number = 0
    for line in lines:
        own = NUMBER.match(line)
        if own and not line.startswith(b" " * 7):
            number = int(own[1])
        elif line.startswith(b"       FAIL"):
            found.add(number)
        elif line.startswith(b" " * 12):
            found |= {int(it) for it in NAMED.findall(line)}
    return found


class Outcome(NamedTuple):
    """The kind of a slip, and what is wrong with the page of its log."""

    kind: str
    fault: Optional[str]


def fault_of(log: DayLog) -> Optional[str]:
    valid = answer_of(["audit"], log.valid)
    if not valid.output.startswith(b"pass "):
        return f"without the slip: {valid}"
    told = answer_of(["explain", "--only", "failures"], log.text)
    lines = told.output.split(b"\n")
    page = b"\n".join(lines[:PAGE]).decode(errors="replace")
    if told.status != 1 or log.line not in named_on(lines[:PAGE]):
        return f"status {told.status}, line {log.line} is not named on the first page:\n{page}"
    if log.later is not None and log.later not in named_on(lines):
        return f"line {log.later} is named on no page, of which the first is:\n{page}"
    return None


def outcome_of(seed: str) -> Outcome:
    number = int(seed.rsplit(" ", 1)[1])
    slip = SLIPS[number % len(SLIPS)]
    return Outcome(slip.__name__, fault_of(day_log(seed, slip, PRIMARIES)))


def write(folder: str, primaries: int, seed: str):
    for slip in SLIPS:
        log = day_log(seed, slip, primaries)
        with open(f"{folder}/{slip.__name__}.log", "wb") as file:
            file.write(log.text)
        with open(f"{folder}/{slip.__name__}.truth", "w", encoding="utf-8") as file:
            file.write(f"{log.line}\n")


def main() -> int:
    given = sys.argv[1:]
    if given[:1] == ["--write"]:
        write(given[1], int(given[2]) if len(given) > 2 else 100_000, given[3] if len(given) > 3 else "1")
        return 0
    count, seed = int(given[0]) if given else 300, given[1] if len(given) > 1 else "1"
    with ProcessPoolExecutor() as pool:
        outcomes = list(pool.map(outcome_of, [f"{seed} day {number}" for number in range(count)]))
    for outcome in outcomes:
        if outcome.fault:
            print(f"{outcome.kind}: {outcome.fault}")
    for slip in SLIPS:
        faults = [it.fault for it in outcomes if it.kind == slip.__name__]
        print(f"{slip.__name__}: {faults.count(None)} of {len(faults)} named")
    failed = sum(it.fault is not None for it in outcomes)
    print(f"{count - failed} passed, {failed} failed")
    return 1 if failed else 0


if __name__ == "__main__":
    sys.exit(main())
