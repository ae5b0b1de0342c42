#!/usr/bin/env python3
"""Checks that output appears while the input is still open.

`audit` names a failing line while its writer may still write. `show` writes each message before the next one arrives.
`explain` and `capture` work on an open pipe: the verdict on a connection appears when it has ended. A growing log is
explained from its first line by `tail -n +1 -f`.

It runs what `rt ci` has built. The last line is `N passed, M failed`.
"""
import os
import select
import subprocess
import sys
import tempfile
import time

# The module below leaves no compiled file in the repository.
sys.dont_write_bytecode = True
sys.path.insert(0, os.path.abspath(f"{__file__}/../../.."))

from tests.support.command import PROGRAM
from tests.support.pcap_writer import ACTIVE, SELECT, Capture, Talk
from tests.support.retry import is_held


# How long a verdict may take that has to come, and how long one is waited for that must not, in seconds.
SOON = 30
A_WHILE = 0.5

FIRST = b"hsms-log 1 host active 0 45000 6000 10000 5000 1048576 32\n"
FRONT = FIRST + b"0 up\n0 > ffff0000000100000001\n"

# The longest first line has 256 bytes, and with a MAX of 256 the longest later one 576, each without a CR after.
NARROW = FIRST.replace(b" 1048576 ", b" 256 ")
SHORT_LOG = b"pass entries=1 sent=0 taken=0 discarded=0 expired=0 waiting=0\n"

AGAIN = FRONT.replace(b"hsms-log 1", b"hsms-log 2") + b"5 down\n90000 up\n"

# Each begins a log, and fails at once, whatever follows.
FAILING = [
    (b"x\n", b"fail line=1 unreadable\n"),
    (b"x" * 257, b"fail line=1 unreadable\n"),
    (b"x" * 256 + b"\r\r", b"fail line=1 unreadable\n"),
    (NARROW + b"#" * 577, b"fail line=2 unreadable\n"),
    (NARROW + b"#" * 576 + b"\r\r", b"fail line=2 unreadable\n"),
    (FRONT + b"3 < 00008101000000000002\n", b"fail line=4 rule=NotSelected\n"),
    (AGAIN + b"90003 < 00008101000000000002\n", b"fail line=6 rule=NotSelected\n"),
    (AGAIN + b"90003 up\n", b"fail line=6 rule=NotUp\n"),
    (FRONT + b"# a comment\n" * 6000 + b"3 < 00008101000000000002\n", b"fail line=6004 rule=NotSelected\n"),
]

# Each begins a log of which no line fails yet. The second ends it.
PASSING = [
    (b"x" * 256, b"\n", b"fail line=1 unreadable\n"),
    (b"x" * 256 + b"\r", b"\n", b"fail line=1 unreadable\n"),
    (NARROW + b"#" * 576, b"\n0 up\n", SHORT_LOG),
    (NARROW + b"#" * 576 + b"\r", b"\n0 up\n", SHORT_LOG),
    (FRONT, b"", b"pass entries=2 sent=1 taken=0 discarded=0 expired=0 waiting=0\n"),
    (FRONT + b"3 < 000081010000", b"00000002\n", b"fail line=4 rule=NotSelected\n"),
    (AGAIN, b"", b"pass entries=4 sent=1 taken=0 discarded=0 expired=0 waiting=0\n"),
    (AGAIN + b"90003 down\n", b"90004 up\n", b"pass entries=6 sent=1 taken=0 discarded=0 expired=0 waiting=0\n"),
]

# Messages and their lines, which come cut at each place.
MESSAGES = bytes.fromhex("0000000affff0000000100000001" "0000000c0000810d000000000001" "0100")
LINES = b"select.req ffff 00000001\ndata 0000 00000001 S1F13 W <L [0]> .\n"
CUTS = [[MESSAGES[:at], MESSAGES[at:]] for at in range(1, len(MESSAGES))]

# A message that is longer than what is read at a time, between others.
BODY = bytes(200_000)
LONG = (200_014).to_bytes(4, "big") + bytes.fromhex("00008101000000000003" "23030d40") + BODY
LONG_LINE = b"data 0000 00000003 S1F1 W <B [200000]" + b" 0x00" * len(BODY) + b"> .\n"
PIECES = [MESSAGES + LONG[:100_000], LONG[100_000:199_999], LONG[199_999:] + MESSAGES]

SHOWN = [(pieces, LINES) for pieces in CUTS] + [(PIECES, LINES + LONG_LINE + LINES)]

# The same in lines of hexadecimal.
HEX = b"0000000affff0000000100000001\n0000000c0000810d0000000000010100\n"
HEX_SHOWN = [([HEX[:at], HEX[at:]], LINES) for at in range(1, len(HEX), 7)]
HEX_LONG = LONG.hex().encode()
HEX_SHOWN.append(([HEX + HEX_LONG[:200_000], HEX_LONG[200_000:] + b"\n" + HEX], LINES + LONG_LINE + LINES))

# A log with a failing line, and its verdict.
LATE = FRONT + b"5 < ffff0000000200000001\n10 > 00008101000000000002\n46000 down\n"
LATE_TOLD = b"""\
     1         hsms-log 1 host active 0 45000 6000 10000 5000 1048576 32
     2       0 up
     3       0 > select.req ffff 00000001
     4       5 < select.rsp ffff 00000001 0
       answers line 3 after 5 ms
     5      10 > data 0000 00000002 S1F1 W .
     6   46000 down
       FAIL T3Overdue: no reply came within T3, and no `t3` is logged
            S1F1 W 00000002 of line 5 waited 45990 ms (T3 45000)
            continues as if `45010 t3 00000002` were logged before it
"""

# A log of more lines than the ten that `tail` alone begins with.
LONG_LOG = FRONT + b"# a comment\n" * 20
LONG_TOLD = b"".join(LATE_TOLD.splitlines(True)[:3]) + b"".join(b"%6d         # a comment\n" % n for n in range(4, 24))

# The same in JSON.
LATE_OBJECTS = b"""\
{"type":"line","line":1,"text":"hsms-log 1 host active 0 45000 6000 10000 5000 1048576 32"}
{"type":"line","line":2,"time":0,"kind":"up"}
{"type":"line","line":3,"time":0,"mark":">","kind":"select.req","session":"ffff","system":"00000001"}
{"type":"line","line":4,"time":5,"mark":"<","kind":"select.rsp","session":"ffff","system":"00000001","status":0,\
"answers":3,"after":5}
{"type":"line","line":5,"time":10,"mark":">","kind":"data","session":"0000","system":"00000002",\
"stream":1,"function":1,"wait":true,"notation":"S1F1 W ."}
{"type":"line","line":6,"time":46000,"kind":"down",\
"failures":[{"rule":"T3Overdue","sentence":"no reply came within T3, and no `t3` is logged","concerns":5,\
"overdue":"S1F1 W 00000002 of line 5 waited 45990 ms (T3 45000)","waited":45990,\
"remedy":"continues as if `45010 t3 00000002` were logged before it","put":"45010 t3 00000002"}]}
"""

# A connection of a capture that goes on, and the verdicts on it; and the log of its host.
ENDS = ("10.0.0.1:40000 10.0.0.2:5000 host active: ", "10.0.0.1:40000 10.0.0.2:5000 equipment passive: ")
OVER = "".join(f"{end}pass entries=4 sent=1 taken=1 discarded=0 expired=0 waiting=0\n" for end in ENDS).encode()
LOGGED = b"""\
hsms-log 2 host active 0 45000 6000 10000 5000 1048576 32
# packet 3
1700000000000 up
# packet 4
1700000000001 > ffff0000000100000001
# packet 5
1700000000002 < ffff0000000200000001
# packet 6
1700000000003 down
"""


def capture_of(form):
    """A capture of a connection that is over, and its last packet."""
    talk = Talk(Capture(form))
    talk.say(1, *SELECT[0])
    talk.say(2, *SELECT[1])
    before = len(talk.capture.octets)
    talk.end(3, ACTIVE)
    return talk.capture.octets, talk.capture.octets[before:]


# How long a piece is given to be read by itself, in seconds.
A_MOMENT = 0.03


def shown_in_pieces(pieces, *options):
    """What is shown of messages that come in these pieces."""
    with started("show", *options) as show:
        for piece in pieces:
            given(show, piece)
            time.sleep(A_MOMENT)
        return show.communicate(None, SOON)[0]


def told_of(command, wanted, octets, *options):
    """The output of a command for these bytes while the pipe is open, up to the expected length."""
    with started(command, *options) as telling:
        given(telling, octets)
        told = b""
        while len(told) < len(wanted) and select.select([telling.stdout], [], [], SOON)[0]:
            octets = os.read(telling.stdout.fileno(), len(wanted))
            if not octets:
                break
            told += octets
        telling.kill()
        return told


def explained_after_tail(log, wanted):
    """Returns what `tail -n +1 -f FILE | hsms explain` writes of a log while the file may still grow."""
    with tempfile.NamedTemporaryFile() as file:
        file.write(log)
        file.flush()
        follow = ["timeout", str(SOON), "tail", "-n", "+1", "-f", file.name]
        with subprocess.Popen(follow, stdout=subprocess.PIPE) as tail:
            with subprocess.Popen([PROGRAM, "explain"], stdin=tail.stdout, stdout=subprocess.PIPE) as explain:
                lines = [explain.stdout.readline() for _ in wanted.splitlines()]
                explain.kill()
            tail.terminate()
    return b"".join(lines)


def started(*words):
    return subprocess.Popen([PROGRAM, *words], stdin=subprocess.PIPE, stdout=subprocess.PIPE, stderr=subprocess.STDOUT)


def given(audit, octets):
    audit.stdin.write(octets)
    audit.stdin.flush()


def told_while_open(octets):
    """What the audit of these bytes has written when it ends by itself, while the pipe is open."""
    with started("audit") as audit:
        given(audit, octets)
        try:
            audit.wait(SOON)
        except subprocess.TimeoutExpired:
            audit.kill()
            return b"nothing while the pipe was open"
        return audit.stdout.read()


def told_at_the_end(front, rest):
    """What the audit writes once the pipe is closed after the rest; before that, it may write nothing."""
    with started("audit") as audit:
        given(audit, front)
        try:
            audit.wait(A_WHILE)
            return b"too early: " + audit.stdout.read()
        except subprocess.TimeoutExpired:
            return audit.communicate(rest, SOON)[0]


def tries():
    """The cases: the command, its input and the expected output."""
    yield from ((told_while_open, [octets], wanted) for octets, wanted in FAILING)
    yield from ((told_at_the_end, [front, rest], wanted) for front, rest, wanted in PASSING)
    yield from ((shown_in_pieces, [pieces], wanted) for pieces, wanted in SHOWN)
    yield from ((shown_in_pieces, [pieces, "--hex"], wanted) for pieces, wanted in HEX_SHOWN)
    yield from ((told_of, ["show", LINES, HEX + rest, "--hex"], LINES) for rest in (b"", HEX[:28]))
    yield from ((told_of, ["show", LINES, MESSAGES + rest], LINES) for rest in (b"", MESSAGES[:17]))
    for told, *form in ((LATE_TOLD,), (LATE_OBJECTS, "--format", "json")):
        yield from ((told_of, ["explain", told, LATE + rest, *form], told) for rest in (b"", b"46001 up"))
    yield explained_after_tail, [LATE, LATE_TOLD], LATE_TOLD
    yield explained_after_tail, [LONG_LOG, LONG_TOLD], LONG_TOLD
    for form in ("pcap<", "pcapng>"):
        capture, packet = capture_of(form)
        for told, *log in ((OVER,), (LOGGED, "--log", "host")):
            yield from ((told_of, ["capture", told, capture + rest, *log], told) for rest in (b"", packet[:10], packet[:-1]))


def tell(told_by, words, wanted):
    told = told_by(*words)
    if told != wanted:
        raise AssertionError(f"wanted {wanted!r}, told {told!r}")


def main():
    passed = [is_held(told_by.__name__, tell, told_by, words, wanted) for told_by, words, wanted in tries()]
    print(f"{passed.count(True)} passed, {passed.count(False)} failed")
    return 0 if all(passed) else 1


if __name__ == "__main__":
    sys.exit(main())
