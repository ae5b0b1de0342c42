#!/usr/bin/env python3
"""Runs commands at a pseudo-terminal: colors of failures and headings.

A colored line is the line without color between two sequences, by its first word; nothing else changes. In a pipe there
is no color, unless `--color always` asks for it.

It runs what `rt ci` has built, or the given program. The last line is `N passed, M failed`.
"""
import os
import re
import subprocess
import sys
import tempfile

sys.dont_write_bytecode = True
sys.path.insert(0, os.path.abspath(f"{__file__}/../../.."))

from tests.support.command import LONGEST_RUN, TOP, program_given
from tests.support.comparisons import status_of
from tests.support.terminals import run_at_terminal

PROGRAM = program_given()
RED, BOLD, PLAIN = "\x1b[31m", "\x1b[1m", "\x1b[0m"
ERASED = "\r\x1b[K"

LATE, PASSING = "examples/late-reply.log", "examples/session.log"
PAIR = ["examples/host.log", "examples/equipment.log"]

# Commands, and which of their lines are marked: by the first word after a name and a colon, or by the first word.
MARKED = [
    ["audit", LATE], ["audit", PASSING], ["audit", LATE, PASSING, LATE], ["audit", "--quiet", LATE],
    ["explain", LATE], ["explain", PASSING], ["explain", "examples/many-failures.log", "--only", "failures"],
    ["explain", "examples/unreadable.log"], ["compare", *PAIR], ["compare", PASSING, "examples/equipment.log"],
    ["capture", "--t3", "1000", "examples/late-reply.pcap"], ["capture", "--t3", "2000", "examples/late-reply.pcap"],
]
# Commands whose output has no color.
UNMARKED = [
    ["show", "examples/session.bin"], ["encode", "--hex", "examples/session.txt"], ["--help"], ["audit", "--help"],
    ["explain", "--format", "json", LATE], ["explain", "--format", "html", LATE], ["audit", "--format", "json", LATE],
    ["audit", "--format", "junit", LATE], ["capture", "--log", "host", "examples/late-reply.pcap"],
]


def run(words, more=(), env=None):
    """The status of a run, and what it writes to standard output, which is a terminal."""
    plain = {"TERM": "xterm", "NO_COLOR": None, "HSMS_VERBOSE": None}
    return run_at_terminal([PROGRAM, *words, *more], "stdout", {**plain, **(env or {})}, cwd=TOP)


def piped(words, more=(), env=None):
    ran = subprocess.run(
        [PROGRAM, *words, *more], cwd=TOP, capture_output=True, timeout=LONGEST_RUN, stdin=subprocess.DEVNULL,
        env={**os.environ, **(env or {})},
    )
    return ran.returncode, ran.stdout.decode(errors="surrogateescape")


def mark_of(words, line):
    """The sequence before a line."""
    if words[0] == "explain":
        first = line.strip(" ")
    else:
        first = line.rsplit(": ", 1)[-1]
    first = re.split("[ =]", first)[0]
    if first in ("FAIL", "fail", "disagree"):
        return RED
    return BOLD if first in ("pass", "agree", "undecided", "logs", "connection", "failures") else ""


def marked(words, output):
    lines = output.split("\n")[:-1]
    marks = [mark_of(words, line) for line in lines]
    return "".join(f"{mark}{line}{PLAIN if mark else ''}\n" for mark, line in zip(marks, lines))


def colors():
    for words in MARKED:
        status, plain = piped(words)
        wanted = (status, marked(words, plain))
        called = " ".join(words)
        yield f"a line is marked: {called}", wanted == (status, plain), False
        yield f"terminal: {called}", run(words), wanted
        yield f"terminal, auto: {called}", run(words, ["--color", "auto"]), wanted
        yield f"terminal, first: {called}", run(["--color=auto", *words]), wanted
        yield f"terminal, never: {called}", run(words, ["--color=never"]), (status, plain)
        yield f"terminal, NO_COLOR: {called}", run(words, env={"NO_COLOR": "1"}), (status, plain)
        yield f"terminal, empty NO_COLOR: {called}", run(words, env={"NO_COLOR": ""}), wanted
        yield f"terminal, dumb: {called}", run(words, env={"TERM": "dumb"}), (status, plain)
        yield f"pipe, always: {called}", piped(words, ["--color", "always"], env={"NO_COLOR": "1"}), wanted
        yield f"pipe, auto: {called}", piped(words, ["--color", "auto"]), (status, plain)
    for words in UNMARKED:
        status, plain = piped(words)
        yield f"no color: {' '.join(words)}", piped(words, ["--color", "always"]), (status, plain)
        yield f"no color at a terminal: {' '.join(words)}", run(words), (status, plain)


def names(room):
    """Only the first word counts, and a line stays whole: names and logs with verdicts in them."""
    log = "hsms-log 1 host active 0 45000 6000 10000 5000 1048576 32\n# fail line=2\n# FAIL T3Overdue: x: fail\n\n0 up\n"
    name = f"{room}/a: fail b.log"
    with open(name, "w", encoding="utf-8") as file:
        file.write(log)
    for words in (["explain", name], ["audit", name, name]):
        status, plain = piped(words)
        yield f"names: {words[0]}", piped(words, ["--color=always"]), (status, marked(words, plain))
    yield "a comment is not marked", RED in piped(["explain", name], ["--color=always"])[1], False
    # (after `--` it is the name of a file)
    ran = subprocess.run([PROGRAM, "audit", "--", "--color"], cwd=room, capture_output=True, timeout=LONGEST_RUN)
    yield "a file named --color", (ran.returncode, ran.stderr), (2, b"hsms: Open file=--color\n")


def tries():
    yield from colors()
    with tempfile.TemporaryDirectory() as room:
        yield from names(room)


if __name__ == "__main__":
    sys.exit(status_of(tries()))
