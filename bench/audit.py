#!/usr/bin/env python3
"""What the audit of a log costs, by the kind of log: MB/s and lines/s of processor time, the middle of three runs;
instructions for an octet of the log, where valgrind is installed; and the most memory that was held.

Use: bench/audit.py [MEGABYTES [WORD..]], 100 if left out; with words only the logs in whose description one stands. It
runs what `rt ci` or the first use of `hsms` has built. Logs with many transactions open at once have 96,000 lines,
and logs of many connections 100,000 connections, whatever the size. Instructions are counted over 3 MB of a log, over
9,600 lines with up to 2,400 open, or over all connections. Every log passes.
"""
import os
import sys
import tempfile

sys.dont_write_bytecode = True
from commands import log as one_at_a_time
from commands import notation, report, stream
from running import MB, PROGRAM, Runner, lines_of, write

LINES = 96_000
CONNECTIONS = 100_000
SELECTED = b"""\
hsms-log 1 equipment passive 0 3600000 6000 10000 5000 1048576 32
0 up
0 < ffff0000000100000001
0 > ffff0000000200000001
"""
SEVERAL = b"hsms-log 2 equipment passive 0 3600000 6000 10000 5000 1048576 32\n"


def log(lines, front=SELECTED):
    """A log of these lines after the selection, or another front, as pieces of some 100 KB."""
    yield front
    piece, size = [], 0
    for line in lines:
        piece.append(line)
        size += len(line)
        if size > 100_000:
            yield "".join(piece).encode()
            piece, size = [], 0
    yield "".join(piece).encode()


def sized(make):
    """A log of at least this many octets, of the lines that `make` goes on giving."""

    def made(size):
        count = 0
        for piece in log(make()):
            yield piece
            count += len(piece)
            if count >= size:
                return

    return made


def traffic():
    """Event reports sent and commands taken, each answered once 200 more of its direction are open; linktests."""
    text = report(8).hex()
    place = 0
    while True:
        time, system = 7 * place, place % 0xFFFFFFFF + 1
        yield f"{time} > 0000860b0000{system:08x}{text}\n"
        yield f"{time + 1} < 000082290000{system:08x}{text}\n"
        if place >= 200:
            answered = (place - 200) % 0xFFFFFFFF + 1
            yield f"{time + 3} < 0000060c0000{answered:08x}210100\n"
            yield f"{time + 4} > 0000022a0000{answered:08x}210100\n"
        if place % 20 == 0:
            yield f"{time + 5} < ffff00000005{system + 0x80000000:08x}\n"
            yield f"{time + 5} > ffff00000006{system + 0x80000000:08x}\n"
        place += 1


def headers():
    """Linktests and questions with no text, each answered in the next line."""
    place = 0
    while True:
        time, system = 7 * place, place % 0xFFFFFFFF + 1
        yield f"{time} < ffff00000005{system:08x}\n"
        yield f"{time} > ffff00000006{system:08x}\n"
        yield f"{time + 1} > 000081010000{system:08x}\n"
        yield f"{time + 2} < 000001020000{system:08x}\n"
        place += 1


def comments():
    """Comments alone, as someone has written them who looked at the log."""
    place = 0
    while True:
        yield f"# {7 * place} a comment of the one who looked at it\n"
        place += 1


def texts(text):
    """Messages that want no answer, with this text."""

    def made():
        place = 0
        while True:
            yield f"{7 * place} > 0000060b0000{place % 0xFFFFFFFF + 1:08x}{text.hex()}\n"
            place += 1

    return made


def nested():
    """A list of a name and a list, 32 deep."""
    return b"\x01\x02\x41\x08WaferMap" * 31 + b"\x01\x00"


def empty_lists():
    """A list of 200 empty lists."""
    return b"\x01\xc8" + b"\x01\x00" * 200


def open_at_once(count, newest_first):
    """Lines that open this many transactions and then close them, again and again."""

    def made(lines):
        return log(pairs(lines))

    def pairs(lines):
        for turn in range(lines // (2 * count)):
            for system in range(count):
                yield f"{turn} > 000081010000{system:08x}\n"
            for system in reversed(range(count)) if newest_first else range(count):
                yield f"{turn} < 000001020000{system:08x}\n"

    return made


def frames_of_connection(turn, status):
    """Select, and then a question and its answer, with the same system bytes on each connection."""
    yield f"{turn} < ffff0000000100000001\n"
    yield f"{turn} > ffff00{status:02x}000200000001\n"
    yield f"{turn} > 00008101000000000002\n"
    yield f"{turn} < 00000102000000000002\n"


def connections(open_at_end=0, open_at_first=0):
    """Lines of many connections; at the end of each, or of one that comes first, so many questions are open."""

    def made(count):
        return log(lines(count), SEVERAL)

    def questions(turn, many):
        for system in range(3, 3 + many):
            yield f"{turn} > 000081010000{system:08x}\n"

    def lines(count):
        for turn in range(count):
            yield f"{turn} up\n"
            yield from frames_of_connection(turn, 0)
            yield from questions(turn, open_at_end + (0 if turn else open_at_first))
            yield f"{turn} down\n"

    return made


def one_connection(count):
    """The frames of as many connections in one: each later Select is answered by another status."""
    return log((line for turn in range(count) for line in frames_of_connection(turn, 1)))


def logs(size):
    """Each kind of log: what it is, how it is made, its size, and the size over which instructions are counted."""
    yield "ordinary traffic, one open at a time", lambda size: [one_at_a_time(size)], size, 3 * MB
    yield "ordinary traffic, 200 open each way", sized(traffic), size, 3 * MB
    yield "bare headers", sized(headers), size, 3 * MB
    yield "comments", sized(comments), size, 3 * MB
    yield "nested to 32", sized(texts(nested())), size, 3 * MB
    yield "lists of empty lists", sized(texts(empty_lists())), size, 3 * MB
    for count in (24, 240, 2_400, 24_000):
        for newest_first in (True, False):
            closed = "newest" if newest_first else "oldest"
            counted = LINES // 10 if count < 24_000 else LINES // 2
            yield f"{count:,} open at once, closed {closed} first", open_at_once(count, newest_first), LINES, counted
    many = f"{CONNECTIONS:,} connections"
    of_connections = [
        (f"{many}, all in one", one_connection),
        (many, connections()),
        (f"{many}, one question open at the end of each", connections(open_at_end=1)),
        (f"{many} after one with 24,000 questions open", connections(open_at_first=24_000)),
    ]
    for what, make in of_connections:
        yield what, make, CONNECTIONS, CONNECTIONS


def others(size):
    """Inputs of the other commands."""
    yield "show", "ordinary traffic", lambda size: [stream(size)], size, 3 * MB
    yield "encode", "ordinary traffic", lambda size: [notation(size)], min(size, 67 * MB), 3 * MB


def instructions(runner, path, words, make, counted):
    """The instructions an octet, which are those that the second half of an input takes, and the instructions a line of
    the whole input; or None where they can't be counted."""
    counts = []
    for size in (counted // 2, counted):
        write(path, make, size)
        counts.append((os.path.getsize(path), runner.instructions([PROGRAM, *words], path)))
    (half, fewer), (whole, more) = counts
    return None if more is None else ((more - fewer) / (whole - half), more / lines_of(path))


def measure(runner, path, words, what, make, size, counted):
    """Prints what a command costs over one input."""
    write(path, make, size)
    octets = os.path.getsize(path)
    taken, held = runner.run([PROGRAM, *words], path, times=3)
    lines = f", {lines_of(path) / taken:,.0f} lines/s" if words == ["audit"] else ""
    each = instructions(runner, path, words, make, counted)
    counted_as = "" if each is None else f", {each[0]:.1f} instructions an octet, {each[1]:.0f} a line"
    rate = f"{octets / MB / taken:.1f} MB/s{lines}{counted_as}"
    print(f"hsms {words[0]}, {what}, {octets / MB:.0f} MB: {rate}, {held:.1f} MB held", flush=True)


def main():
    size = int(sys.argv[1] if len(sys.argv) > 1 else 100) * MB
    wanted = sys.argv[2:]
    with tempfile.TemporaryDirectory(prefix="hsms-bench-") as room:
        runner = Runner(room)
        path = f"{room}/input"
        write(path, log, [])
        _, held = runner.run([PROGRAM, "audit"], path)
        print(f"hsms audit, four lines: {held:.1f} MB held")
        for what, make, octets, counted in logs(size):
            if not wanted or any(word in what for word in wanted):
                measure(runner, path, ["audit"], what, make, octets, counted)
        for command, what, make, octets, counted in others(size):
            if not wanted or command in wanted:
                measure(runner, path, [command], what, make, octets, counted)


if __name__ == "__main__":
    main()
