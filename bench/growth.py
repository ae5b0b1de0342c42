#!/usr/bin/env python3
"""Instructions for a line of the audit as a log grows, by the order in which transactions are closed; and for a line of
each log in a comparison of both ends, if all requests are answered, and if some are not.

Use: bench/growth.py [LINES..], 10,000 and 100,000 if left out. It runs what `rt ci` or the first use of `hsms` has
built. From half of a log to its end no line may take 10 % more instructions in a longer log: otherwise the row ends in
`grows`, and the status is 1.
"""
import itertools
import random
import sys
import tempfile

sys.dont_write_bytecode = True
from audit import log, traffic
from running import PROGRAM, Runner, write

def opening(time, system):
    return f"{time} > 000081010000{system:08x}\n"


def closing(time, system):
    return f"{time} < 000001020000{system:08x}\n"


def asked(time, system):
    return f"{time} < 000081010000{system:08x}\n"


def answered(time, system):
    return f"{time} > 000001020000{system:08x}\n"


def in_turns(order):
    """A quarter of the lines are opened at once, and closed in this order; again and again."""

    def lines(count):
        many = max(count // 4, 1)
        for turn in range(count // many // 2):
            yield from (opening(turn, system) for system in range(many))
            yield from (closing(turn, system) for system in order(many))

    return lines


def at_random(many):
    systems = list(range(many))
    random.Random(1).shuffle(systems)
    return systems


def used_again(count):
    """A quarter of the lines are opened; then the oldest is closed and its system bytes are used again at once."""
    many = max(count // 4, 1)
    yield from (opening(0, system) for system in range(many))
    for place in range((count - many) // 2):
        yield closing(0, place % many)
        yield opening(0, place % many)


ROWS = (
    ("ordinary traffic", lambda count: itertools.islice(traffic(), count)),
    ("all open", lambda count: (opening(0, system) for system in range(count))),
    ("closed oldest first", in_turns(range)),
    ("closed newest first", in_turns(lambda many: reversed(range(many)))),
    ("closed at random", in_turns(at_random)),
    ("used again at once", used_again),
)


def answered_but(one_of):
    """The equipment is asked, and does not answer one of so many requests."""

    def lines(count):
        for system in range(count):
            yield asked(0, system)
            if (system + 1) % one_of:
                yield answered(0, system)

    return lines


COMPARED = (
    ("compare, all answered", answered_but(10**9)),
    ("compare, one of 40 not answered", answered_but(40)),
)


def other_end(pieces):
    """The log of the other end."""
    for piece in pieces:
        yield piece.translate(bytes.maketrans(b"<>", b"><")).replace(b"equipment passive", b"host active")


def audit(text, path):
    """Writes the log, and returns the words that audit it."""
    write(path, lambda size: log(text), len(text))
    return [PROGRAM, "audit"]


def compare(text, path):
    """Writes the logs of both ends, and returns the words that compare them."""
    write(path, lambda size: log(text), len(text))
    write(f"{path}-other", lambda size: other_end(log(text)), len(text))
    return [PROGRAM, "compare", "-", f"{path}-other"]


def each_line(runner, path, words_for, lines, count):
    """The instructions for each line of the second half of a log."""
    counts = []
    for part in (count // 2, count):
        text = list(itertools.islice(lines(count), part))
        counts.append((len(text), runner.instructions(words_for(text, path), path)))
    (fewer, before), (more, after) = counts
    return (after - before) / (more - fewer)


def main():
    sizes = [int(word) for word in sys.argv[1:]] or [10_000, 100_000]
    grown = False
    with tempfile.TemporaryDirectory(prefix="hsms-bench-") as room:
        runner = Runner(room)
        rows = [(audit, *row) for row in ROWS] + [(compare, *row) for row in COMPARED]
        for words_for, what, lines in rows:
            taken = [each_line(runner, f"{room}/input", words_for, lines, count) for count in sizes]
            grows = taken[-1] > 1.1 * taken[0]
            grown = grown or grows
            figures = ", ".join(f"{each:,.0f} at {count:,}" for each, count in zip(taken, sizes))
            print(f"{what}: {figures} lines{'; grows' if grows else ''}", flush=True)
    sys.exit(grown)


if __name__ == "__main__":
    main()
