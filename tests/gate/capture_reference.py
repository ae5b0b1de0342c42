#!/usr/bin/env python3
"""Compares `hsms capture` with the reference and with the known sessions.

The captures are of random sessions (session_generator.py), with packets that are retransmitted, out of order or
missing. For the verdicts and for the logs of host and equipment, output, standard error and status are byte for byte
those of the reference. No message is invented or out of order, no valid session fails, missing data is reported if the
capture shows it, and the audit of a log gives the verdict of its connection. Then come corrupt captures, the smallest
capture for each rule about TCP streams, in captures/, and captures and other files whose answers are written here.

Use: tests/gate/capture_reference.py [CAPTURES] [SEED], or tests/gate/capture_reference.py FILE .. CAPTURES is the
number of random captures (default 2,000), SEED is 1 by default. With files, options of `hsms capture` may follow. It
runs what `rt ci` has built, or `--program P`. With `--alone` it runs no program, and compares the reference with the
known sessions. The last line is `N passed, M failed`.
"""
import argparse
import gzip
import os
import struct
import sys
from concurrent.futures import ProcessPoolExecutor
from dataclasses import fields, replace
from functools import partial
from typing import Dict, Iterable, Iterator, List, Optional, Tuple

sys.dont_write_bytecode = True
sys.path.insert(0, os.path.abspath(f"{__file__}/../../.."))

from tests.support import capture_examples
from tests.support.command import PROGRAM, TOP, Answer, answer_of
from tests.support.pcap_writer import ACK, ACTIVE, BEGIN, PASSIVE, PUSH, SELECT, SYN, Capture, Talk, message
from tests.support.reference import capture_audit
from tests.support.reference.capture_audit import Options
from tests.support.reference.session import audit
from tests.support.session_generator import NOT_ONE_MESSAGE, ONE_MESSAGE, Made, damaged, made

# The number of random captures in a hundred that are corrupt.
DAMAGED = 40
LONGEST_TOLD = 6000

# Captures of more bytes are audited, or written as a log, alone.
LARGE = 200_000


def second(octets: bytes, options: Options) -> Answer:
    """What the reference answers."""
    read = capture_audit.capture(octets, options)
    return Answer(read.status, read.output, read.error)


def compared(case: Made, program: Optional[str]) -> Optional[str]:
    """What is wrong with the answers to a capture: of the verdicts, and of both logs."""
    answers = {}
    for role in (None, "host", "equipment") if len(case.octets) < LARGE else (case.options.log,):
        options = replace(case.options, log=role)
        words = ["capture", *options.words()]
        wanted = answers[role] = second(case.octets, options)
        if program:
            told = answer_of(words, case.octets, program)
            if told != wanted:
                return f"{' '.join(words)}\n  reference: {shown(wanted)}\n  command: {shown(told)}"
    if len(answers) == 1:
        return None
    return audited(answers, program) or (known(case, answers) if case.sessions is not None else None)


def shown(answer: Answer) -> str:
    output = answer.output.decode("latin-1")
    return f"status {answer.status}, error {answer.error!r}, output\n{output[:LONGEST_TOLD]}"


def verdicts_in(answer: Answer) -> List[str]:
    """The verdict lines of an answer, without the ends."""
    lines = answer.output.decode().splitlines()
    return [line.split(": ", 1)[1] for line in lines if not line.startswith("#")]


def audited(answers: Dict[Optional[str], Answer], program: Optional[str]) -> Optional[str]:
    """If one connection was established, its logs have the reported verdicts."""
    lines = [line for line in answers[None].output.decode().splitlines() if not line.startswith("#")]
    if len(lines) != 2 or not answers["host"].output.startswith(b"hsms-log"):
        return None
    for line in lines:
        role = line.split()[2]
        log = answers[role].output
        verdict = answer_of(["audit"], log, program).output.decode().strip() if program else audit(log).verdict
        words = line.split(": ", 1)[1].split()
        if words[0] == "incomplete":
            words = words[2:]
        if words[0] == "fail":
            words.pop(2)
        if " ".join(words) != verdict:
            return f"the log of the {role} has the verdict {verdict}, and its line is\n{line}"
    return None


# What is known of random sessions.


def known(case: Made, answers: Dict[Optional[str], Answer]) -> Optional[str]:
    """What an answer says that is not so."""
    verdicts = verdicts_in(answers[None])
    if case.is_lawful and (answers[None].status == 1 or any("fail" in verdict for verdict in verdicts)):
        return f"a lawful session fails: {verdicts}"
    read = capture_audit.Capture(case.octets, case.options)
    for outcome in read.outcomes:
        frames = [(one.end, one.octets[4:].hex()) for one in outcome.told.happenings if one.what == "message"]
        if not any(frames == session.frames[:len(frames)] for session in case.sessions):
            return f"no session said {frames}"
    if not case.is_lawful:
        return None
    if all(session.is_exact for session in case.sessions):
        return known_whole(case, answers)
    if len(case.sessions) == 1 and case.sessions[0].is_up and case.sessions[0].ends in ("none", "rst"):
        shows, told = case.sessions[0].shows_loss(), any(verdict.startswith("incomplete") for verdict in verdicts)
        if shows != told:
            return f"the capture {'shows' if shows else 'does not show'} that it lacks something: {verdicts}"
    return None


def known_whole(case: Made, answers: Dict[Optional[str], Answer]) -> Optional[str]:
    """The same where nothing is missing: each session that came up passes, with all that was said."""
    wanted, last = [], {}
    for session in case.sessions:
        if last.get(session.pair) is not None:
            wanted[last[session.pair]] += 1  # the `down` of a connection that is replaced
        last[session.pair] = len(wanted) if session.is_up and session.ends == "none" else None
        if session.is_up:
            wanted.append(1 + len(session.frames) + (session.ends != "none"))
    verdicts = verdicts_in(answers[None])
    told = [int(verdict.split()[1].split("=")[1]) for verdict in verdicts if verdict.startswith("pass")]
    if sorted(told) != sorted(wanted * 2):
        return f"sessions of {wanted} entries are told as {verdicts}"
    status = 2 if not wanted or case.has_unjudged else 0
    return None if answers[None].status == status else f"status {answers[None].status}"


def tried(case: Made, program: Optional[str]) -> Optional[str]:
    """The same as `compared`. The reference that breaks down, and a command that does not end, are wrong too."""
    try:
        return compared(case, program)
    except Exception as why:
        return f"{type(why).__name__} {str(why)[:LONGEST_TOLD]}"


def checked(job: Tuple[str, int, str], program: Optional[str]) -> Optional[str]:
    """What is wrong with a random capture, with its size in front."""
    seed, number, kind = job
    case = (damaged if kind == "damaged" else made)(f"{seed} {number}")
    wrong = tried(case, program)
    return f"{len(case.octets):9} octets, {kind} {seed} {number} {case.options.words()}: {wrong}" if wrong else None


# The smallest capture of each rule, by its file: the verdicts on the active host and on the passive equipment, and what
# standard error has.
SMALLEST = {
    "refused": (None, None, "NoConnection"),
    "up-late": ("pass entries=3 sent=1 taken=1", None, None),
    "syn-ack-again": ("pass entries=3 sent=1 taken=1", None, None),
    "half-open": (None, None, "NoConnection"),
    "rst-behind-gap": (
        "incomplete packet=9 pass entries=4 sent=2 taken=1 discarded=0 expired=0 waiting=1",
        "incomplete packet=9 pass entries=4 sent=1 taken=2", "Lost packet=9",
    ),
    "rst-without-ack": (
        "pass entries=5 sent=1 taken=2", "pass entries=5 sent=2 taken=1 discarded=0 expired=0 waiting=1", None,
    ),
    "separate-crossed": ("pass entries=4 sent=2 taken=1", "pass entries=4 sent=1 taken=2", None),
    "separate-again": ("pass entries=4 sent=2 taken=1", "pass entries=4 sent=1 taken=2", None),
    "keep-alive-fills": (
        "incomplete packet=9 pass entries=4 sent=2 taken=1 discarded=0 expired=0 waiting=1",
        "incomplete packet=9 pass entries=4 sent=1 taken=2", "Lost packet=9",
    ),
    "span-and-loss": ("incomplete packet=8 pass entries=3 sent=1 taken=1", None, "Lost packet=8"),
    "own-order": ("pass entries=5 sent=2 taken=2", None, None),
    "stale-ack": ("pass entries=3 sent=1 taken=1", None, None),
    "keep-alive-and-gap": (
        "pass entries=5 sent=2 taken=2 discarded=0 expired=0 waiting=1", "pass entries=5 sent=2 taken=2", None,
    ),
    "reset-old": ("fail line=11 packet=10 rule=T3Overdue", "pass entries=5 sent=2 taken=2", None),
    "reset-behind-gap": (
        "pass entries=4 sent=2 taken=1 discarded=0 expired=0 waiting=1", "pass entries=4 sent=1 taken=2", None,
    ),
    "reset-with-text": ("pass entries=4 sent=1 taken=1", None, None),
    "gap-at-end": ("incomplete packet=7 pass entries=3 sent=1 taken=1", None, "Lost packet=7"),
    "clock": ("pass entries=5 sent=2 taken=2", None, None),
}
COUNTS = " discarded=0 expired=0 waiting=0"
ENDS = ("10.0.0.1:40000 10.0.0.2:5000 host active: ", "10.0.0.1:40000 10.0.0.2:5000 equipment passive: ")


def whole_line(front: str, verdict: str) -> str:
    return front + verdict + (COUNTS if "taken=" in verdict and "waiting" not in verdict else "")


def lines_of(host: str, equipment: Optional[str] = None) -> List[str]:
    return [whole_line(ENDS[0], host), whole_line(ENDS[1], equipment or host)]


# A case: its name, the file, the options, the lines of its output, standard error, the status.
Case = Tuple[str, bytes, Options, List[str], Optional[str], int]


def smallest_cases() -> Iterator[Case]:
    for name, (host, equipment, fault) in SMALLEST.items():
        lines = lines_of(host, equipment) if host else []
        status = 1 if any(" fail " in line for line in lines) else 2 if fault else 0
        yield name, contents(f"{TOP}/tests/captures/{name}.pcap"), Options(), lines, fault, status


def contents(path: str) -> bytes:
    with open(path, "rb") as file:
        return file.read()


def selected(capture=None, **how) -> Talk:
    return selected_on(Talk(capture or Capture(), **how))


def selected_on(talk: Talk) -> Talk:
    talk.say(1, *SELECT[0])
    talk.say(2, *SELECT[1])
    return talk


def cut_talk(octets: int) -> bytes:
    return selected().capture.octets[:octets]


def of_link(link: int) -> bytes:
    octets = bytearray(capture_examples.late_reply().octets)
    octets[20:24] = struct.pack("<I", link)
    return bytes(octets)


def two_at_once(hosts=((1, 2), (1, 2)), ports=(40000, 40001)) -> bytes:
    """Two connections, of which the second comes up while the first is up."""
    capture = Capture()
    talks = []
    for second, (ends, port) in enumerate(zip(hosts, ports)):
        capture.ports = (port, 5000)
        talks.append(hosted(capture, ends, second))
    return capture.octets


def hosted(capture: Capture, hosts, second: int, ends=False) -> Talk:
    """A connection between two hosts that begins the given number of seconds late."""
    segment = capture.segment
    capture.segment = partial(segment, hosts=hosts)
    talk = selected(capture, firsts=(1000 + second, 2000), when=BEGIN + second * 10**6)
    if ends:
        talk.end(3)
    capture.segment = segment
    return talk


def one_after_another(hosts, ports=(40000, 40000), ends=True) -> bytes:
    capture = Capture()
    for second, (pair, port) in enumerate(zip(hosts, ports)):
        capture.ports = (port, 5000)
        hosted(capture, pair, second, ends=ends)
    return capture.octets


def other_octets_again() -> bytes:
    """A copy of a byte that is not acknowledged is another one."""
    talk = selected()
    talk.at(3)
    talk.segment(ACTIVE, 0, PUSH | ACK, b"\0\0\0\x0a")
    talk.segment(ACTIVE, 2, PUSH | ACK, b"\0\x0b\0\0")
    return talk.capture.octets


def never_told_again(later: int) -> bytes:
    """An event that is not captured, and that many later packets of the connection."""
    talk = selected()
    talk.next[PASSIVE] += 14
    for _ in range(later):
        talk.segment(PASSIVE, 0, ACK)
    return talk.capture.octets


def comes_late(later: int) -> bytes:
    """An event is acknowledged, and is captured that many packets later."""
    talk = selected()
    talk.next[PASSIVE] += 14
    for _ in range(later):
        talk.segment(ACTIVE, 0, ACK)
    talk.segment(PASSIVE, -14, PUSH | ACK, message("0000060b000000000001"))
    return talk.capture.octets


def probed() -> bytes:
    """An end that has no room is asked with the next byte, takes it not, and is sent all of the message later."""
    talk, data = selected(), message("00008101000000000002")
    talk.at(3)
    talk.segment(PASSIVE, 0, ACK, window=0)
    talk.segment(ACTIVE, 0, ACK, data[:1])
    talk.segment(PASSIVE, 0, ACK, window=0)
    talk.at(9)
    talk.segment(PASSIVE, 0, ACK)
    talk.segment(ACTIVE, 0, PUSH | ACK, data)
    return talk.capture.octets


def cut_otherwise() -> bytes:
    talk, data = selected(), message("00008101000000000002")
    talk.at(3)
    for begin, end in ((0, 6), (3, 10), (0, len(data))):
        talk.segment(ACTIVE, begin, PUSH | ACK, data[begin:end])
    return talk.capture.octets


def without_fin(way: int) -> bytes:
    talk = selected()
    talk.next[way] += 1
    talk.at(3)
    talk.segment(1 - way, 0, ACK)
    return talk.capture.octets


def one_direction(way: int) -> bytes:
    """A connection of which what one end sends is captured alone, its SYN first."""
    capture = Capture()
    talk = Talk(capture, shakes_hands=False)
    talk.next[1 - way] += 1
    talk.segment(way, 0, SYN if way == ACTIVE else SYN | ACK)
    talk.next[way] += 1
    talk.say(1, way, SELECT[way][1])
    return capture.octets


def answer_first(with_syn: bool) -> bytes:
    """The SYN is captured after the SYN and ACK, or not at all."""
    talk = Talk(Capture(), shakes_hands=False)
    talk.next[ACTIVE] += 1
    talk.segment(PASSIVE, 0, SYN | ACK)
    talk.next[PASSIVE] += 1
    if with_syn:
        talk.segment(ACTIVE, -1, SYN)
    talk.segment(ACTIVE, 0, ACK)
    return selected_on(talk).capture.octets


def syn_with_octets() -> bytes:
    """The SYN brings the Select.req."""
    talk = Talk(Capture(), shakes_hands=False)
    talk.segment(ACTIVE, 0, SYN, message(SELECT[ACTIVE][1]))
    talk.next[ACTIVE] += 15
    talk.segment(PASSIVE, 0, SYN | ACK)
    talk.next[PASSIVE] += 1
    talk.say(1, *SELECT[PASSIVE])
    return talk.capture.octets


def reply_before_primary() -> bytes:
    talk, data = selected(), message("00008101000000000002")
    talk.next[ACTIVE] += len(data)
    talk.say(4, PASSIVE, "00000102000000000002")
    talk.segment(ACTIVE, -len(data), PUSH | ACK, data)
    return talk.capture.octets


def clock_set_back() -> bytes:
    """A primary is captured after its ACK, and the clock is set back between them, by an hour."""
    talk, hour = selected(), 3_600_000
    talk.next[PASSIVE] += 14
    talk.at(60_000)
    talk.segment(ACTIVE, 0, ACK)
    talk.at(60_000 - hour)
    talk.segment(PASSIVE, -14, PUSH | ACK, message("00008601000000000001"))
    talk.say(61_000 - hour, ACTIVE, "00000602000000000001")
    return talk.capture.octets


def ack_behind_a_gap() -> bytes:
    """A message is not captured, and its end's next packet brings nothing."""
    talk = selected()
    talk.next[ACTIVE] += 14
    talk.segment(ACTIVE, 0, ACK)
    return talk.capture.octets


def acknowledged_behind_a_gap(later: int) -> bytes:
    """The same, and that many packets later the other end acknowledges the message."""
    talk = selected()
    talk.next[ACTIVE] += 14
    for _ in range(later):
        talk.segment(ACTIVE, 0, ACK)
    talk.segment(PASSIVE, 0, ACK)
    return talk.capture.octets


def before_a_gap_is_acknowledged(frame: Optional[str]) -> bytes:
    """The same, and before that the other end says something, or closes, without having the message."""
    talk = selected()
    talk.at(3)
    talk.segment(ACTIVE, 14, ACK)
    if frame:
        talk.say(4, PASSIVE, frame)
    else:
        talk.end(4, PASSIVE)
        talk.next[PASSIVE] += 1
    talk.next[ACTIVE] += 14
    talk.segment(PASSIVE, 0, ACK)
    return talk.capture.octets


def separate_not_captured() -> bytes:
    """After a Separate it counts for nothing that the reply comes past T3."""
    talk = selected()
    talk.say(3, ACTIVE, "00008101000000000002")
    talk.segment(ACTIVE, 14, ACK)
    talk.say(50_000, PASSIVE, "00000102000000000002")
    talk.next[ACTIVE] += 14
    talk.segment(PASSIVE, 0, ACK)
    return talk.capture.octets


def reply_behind(foreign: bytes) -> bytes:
    """Bytes of another protocol are before a reply, and long after it the other end says something."""
    talk = selected()
    talk.say(3, ACTIVE, "00008101000000000002")
    talk.at(4)
    talk.segment(PASSIVE, 0, PUSH | ACK, foreign)
    talk.next[PASSIVE] += len(foreign)
    talk.say(5, PASSIVE, "00000102000000000002")
    talk.say(100_000, ACTIVE, "ffff0000000500000003")
    return talk.capture.octets


def without_answer(later: int) -> bytes:
    """The SYN and ACK is not captured, and that many packets follow the SYN."""
    capture = Capture()
    talk = Talk(capture, shakes_hands=False)
    talk.segment(ACTIVE, 0, SYN)
    talk.next[ACTIVE] += 1
    for _ in range(later):
        talk.segment(ACTIVE, 0, ACK)
    return capture.octets


def without_time(flags=ACK) -> bytes:
    """A simple block of pcapng has no time."""
    talk = selected(Capture("pcapng<"))
    whole = Capture("pcapng<")
    front = len(whole.octets)
    Talk(whole, shakes_hands=False).segment(ACTIVE, 0, flags)
    block = whole.octets[front:]
    size = struct.unpack_from("<I", block, 20)[0]
    talk.capture.octets += whole.block(3, struct.pack("<I", size) + block[28:28 + size])
    return talk.capture.octets


def far_ahead() -> bytes:
    """A packet within 2^26 bytes, which ends past them."""
    talk = selected()
    talk.segment(ACTIVE, (1 << 26) - 10, PUSH | ACK, bytes(20))
    return talk.capture.octets


def changed(octets: bytes, at: int, value: bytes) -> bytes:
    return octets[:at] + value + octets[at + len(value):]


def left_out_cases() -> Iterator[Case]:
    talk = selected()
    capture = talk.capture
    ethernet = bytes(12) + b"\x08\x00"
    ip = bytes.fromhex("4500002800000000400600000a0000010a000002")
    capture.packet(talk.when, ethernet + ip[:5])
    capture.packet(talk.when, ethernet + ip[:6] + b"\x20\x00" + ip[8:] + bytes(20))
    capture.packet(talk.when, ethernet + ip + bytes(12) + b"\x40" + bytes(7))
    capture.packet(talk.when, ethernet + ip + bytes(20), kept=50)
    capture.packet(talk.when, ethernet + ip[:9] + b"\x11" + ip[10:] + bytes(8))
    pass_lines = lines_of("pass entries=3 sent=1 taken=1")
    yield (
        "packets that are left out", capture.octets, Options(),
        [*pass_lines, "# 4 packets skipped: short 1, fragment 1, truncated 1, header 1"], None, 0,
    )
    one = selected()
    one.capture.packet(one.when, b"")
    yield "one that is left out", one.capture.octets, Options(), [*pass_lines, "# 1 packet skipped: short 1"], None, 0
    yield from checksum_cases(pass_lines)


def checksum_cases(pass_lines: List[str]) -> Iterator[Case]:
    """Wrong checksums, and those that are not computed."""
    copy = contents(f"{TOP}/tests/captures/damaged.pcap")
    yield "a damaged copy", copy, Options(), [
        *lines_of("pass entries=4 sent=1 taken=2", "pass entries=4 sent=2 taken=1"), "# 1 packet skipped: damaged 1"], None, 0
    for kind in ("right", "partial", "large"):
        yield f"checksums {kind}", with_checksums(kind).capture.octets, Options(), pass_lines, None, 0
    talk = with_checksums("right")
    for bit in (32, 8 * 16, 8 * 45):
        talk.capture.segment(talk.when, PASSIVE, talk.next[PASSIVE], PUSH | ACK, bytes(14), talk.next[ACTIVE], flipped=bit)
    lines = [*pass_lines, "# 3 packets skipped: damaged 3"]
    yield "damaged packets", talk.capture.octets, Options(), lines, None, 0
    odd = with_checksums("right")
    odd.segment(ACTIVE, 0, PUSH | ACK, b"\0\0\0")
    yield "checksums of an odd length", odd.capture.octets, Options(), pass_lines, None, 0
    wide = Capture(is_ipv6=True)
    wide.checksums = ["right", "right"]
    names = [line.replace("10.0.0.1", "[fe80::1]").replace("10.0.0.2", "[fe80::2]") for line in pass_lines]
    yield "checksums over IPv6", selected(wide).capture.octets, Options(), names, None, 0


def with_checksums(kind: str) -> Talk:
    capture = Capture()
    capture.checksums = [kind, kind]
    return selected(capture)


def worked_cases() -> Iterator[Case]:
    late = capture_examples.late_reply().octets
    short = lines_of("pass entries=3 sent=1 taken=1")
    front = selected().capture.octets
    log = ["hsms-log 2 host active 0 45000 6000 10000 5000 1048576 32"]
    for packet, entry in ((3, "0 up"), (4, f"1 > {SELECT[0][1]}"), (5, f"2 < {SELECT[1][1]}")):
        time, words = entry.split(" ", 1)
        log += [f"# packet {packet}", f"{BEGIN // 1000 + int(time)} {words}"]
    yield "late reply", late, Options(t3=1000), lines_of(
        "fail line=15 packet=9 rule=T3Overdue", "pass entries=12 sent=4 taken=6"), None, 1
    yield "late reply, a T3 as long", late, Options(t3=1250), lines_of(
        "pass entries=12 sent=6 taken=4 discarded=0 expired=0 waiting=1", "pass entries=12 sent=4 taken=6"), None, 0
    yield "another role", front, Options(active="equipment"), [
        f"{' '.join(ENDS[0].split()[:2])} {end}: {line.split(': ')[1]}"
        for end, line in zip(("equipment active", "host passive"), short)], None, 0
    yield "the log of the host", front, Options(log="host"), log, None, 0
    yield "no file", b"", Options(), [], "CutOff", 2
    yield "three octets", b"\xd4\xc3\xb2", Options(), [], "CutOff", 2
    yield "a header that is cut", front[:23], Options(), [], "CutOff", 2
    yield "a header alone", front[:24], Options(), [], "NoConnection", 2
    yield "a header alone, of which a log is asked", front[:24], Options(log="host"), [], "NoConnection", 2
    yield "a log", b"hsms-log 2 host", Options(), [], "Capture Unknown octet=0", 2
    yield "gzip", gzip.compress(late), Options(), [], "Capture Gzip octet=0", 2
    yield "zstd", bytes.fromhex("28b52ffd") + late, Options(log="host"), [], "Capture Zstd octet=0", 2
    yield "almost zstd", bytes.fromhex("28b52ffc") + late, Options(), [], "Capture Unknown octet=0", 2
    yield "almost gzip", bytes.fromhex("1f8a0800") + late, Options(), [], "Capture Unknown octet=0", 2
    yield "another port", late, Options(port=5001), ["# not judged: HSMS at another port: 5000"], "NoConnection", 2
    yield "another link", of_link(147), Options(), ["# 14 packets skipped: link 14"], "NoConnection", 2
    yield "cut within a packet", front[:-1], Options(), lines_of(
        "incomplete packet=5 pass entries=2 sent=1 taken=0", "incomplete packet=5 pass entries=2 sent=0 taken=1"
    ), "CutOff", 2
    yield "a log cut within a packet", front[:-1], Options(log="host"), log[:5], "CutOff", 2
    yield "cut behind the SYN and ACK", cut_talk(24 + 2 * 88 + 7), Options(), [
        end + "incomplete packet=3" for end in ENDS], "CutOff", 2
    yield "cut behind the SYN", cut_talk(24 + 88 + 7), Options(), [], "CutOff", 2
    long_record = 24 + 4 * (16 + 72)  # after four packets, the last of which has 14 bytes more
    yield "a record that is too long", changed(front, long_record + 14 + 8, b"\1\0\0\2"), Options(), lines_of(
        "incomplete packet=5 pass entries=2 sent=1 taken=0", "incomplete packet=5 pass entries=2 sent=0 taken=1"
    ), f"Capture Length octet={long_record + 14}", 2
    yield "no time", without_time(), Options(), lines_of(
        "incomplete packet=6 pass entries=3 sent=1 taken=1"), "Time packet=6", 2
    yield "a log without a time", without_time(), Options(log="host"), log, "Time packet=6", 2
    yield "another octet", other_octets_again(), Options(), lines_of(
        "incomplete packet=7 pass entries=3 sent=1 taken=1"), "Differs packet=7", 2
    yield "a length of 9", capture_examples.wrong_length("00000009ffff00000009000000").octets, Options(), lines_of(
        "incomplete packet=6 pass entries=3 sent=1 taken=1"), "Length packet=6", 2
    past = capture_examples.wrong_length("00000101" + "00" * 257).octets
    yield "a length past the limit", past, Options(max=256), lines_of(
        "incomplete packet=6 pass entries=3 sent=1 taken=1"), "Length packet=6", 2
    for name, data, is_told in (
        ("of which the length alone is there", "00000009", True), ("of text at the port", b"HTTP/1.1 200".hex(), True),
        ("that is one past what is held", "03fffffd", True), ("as great as is held", "03fffffc0000", False),
    ):
        front = "incomplete packet=6 " if is_told else ""
        yield f"a length {name}", capture_examples.wrong_length(data).octets, Options(), lines_of(
            front + "pass entries=3 sent=1 taken=1"), "Length packet=6" if is_told else None, 2 if is_told else 0
    yield from segment_cases()
    yield "a pure ACK behind what was not captured", ack_behind_a_gap(), Options(), lines_of(
        "incomplete packet=6 pass entries=3 sent=1 taken=1"), "Lost packet=6", 2
    behind = (
        ("that is acknowledged with the next packet", acknowledged_behind_a_gap(1), 7),
        ("that is acknowledged 4,096 packets later", acknowledged_behind_a_gap(4096), 4102),
        ("that is acknowledged 4,097 packets later", acknowledged_behind_a_gap(4097), 6),
        ("and an event, before it is acknowledged", before_a_gap_is_acknowledged("0000060b000000000001"), 8),
        ("and a FIN, before it is acknowledged", before_a_gap_is_acknowledged(None), 8),
    )
    for name, octets, packet in behind:
        yield f"a gap {name}", octets, Options(), lines_of(
            f"incomplete packet={packet} pass entries=3 sent=1 taken=1"), f"Lost packet={packet}", 2
    yield "a Separate that was not captured, and a late reply", separate_not_captured(), Options(), lines_of(
        "incomplete packet=9 pass entries=4 sent=2 taken=1 discarded=0 expired=0 waiting=1",
        "incomplete packet=9 pass entries=4 sent=1 taken=2"), "Lost packet=9", 2
    yield "a reply within a foreign length", reply_behind(b"GET / HTTP/1.1\r\n"), Options(), lines_of(
        "incomplete packet=7 pass entries=4 sent=2 taken=1 discarded=0 expired=0 waiting=1",
        "incomplete packet=7 pass entries=4 sent=1 taken=2"), "Length packet=7", 2
    for later, is_lost in ((4096, False), (4097, True)):
        verdict = "incomplete packet=6 pass entries=3 sent=1 taken=1" if is_lost else None
        lines = lines_of(verdict or "pass entries=4 sent=1 taken=2", verdict or "pass entries=4 sent=2 taken=1")
        fault = "Lost packet=6" if is_lost else None
        yield f"captured {later} packets late", comes_late(later), Options(), lines, fault, 2 if fault else 0
    lost = lines_of("incomplete packet=6 pass entries=3 sent=1 taken=1")
    yield "never captured", never_told_again(4200), Options(), lost, "Lost packet=6", 2
    for later in (1, 4096, 4097):
        yield f"no SYN and ACK before {later}", without_answer(later), Options(), [
            end + "incomplete packet=2" for end in ENDS], "Lost packet=2", 2
    yield from wide_cases(log)
    yield from unjudged_cases(log)
    yield from left_out_cases()


def segment_cases() -> Iterator[Case]:
    """Segments as TCP sends them in what seldom happens."""
    whole = lines_of("pass entries=4 sent=2 taken=1 discarded=0 expired=0 waiting=1", "pass entries=4 sent=1 taken=2")
    yield "a window of zero, and a probe", probed(), Options(), whole, None, 0
    yield "cut otherwise when sent again", cut_otherwise(), Options(), whole, None, 0
    for ends, verdict in ((ACTIVE, "incomplete packet=6 "), (PASSIVE, "incomplete packet=6 ")):
        yield f"a FIN that was not captured, of {ends}", without_fin(ends), Options(), lines_of(
            verdict + "pass entries=3 sent=1 taken=1"), "Lost packet=6", 2
    for way, packet in ((ACTIVE, 2), (PASSIVE, 1)):
        yield f"one direction alone, {way}", one_direction(way), Options(), [
            f"{end}incomplete packet={packet}" for end in ENDS], f"Lost packet={packet}", 2
    yield "a SYN and ACK first, and then the SYN", answer_first(True), Options(), lines_of(
        "pass entries=3 sent=1 taken=1"), None, 0
    yield "a SYN and ACK first, and no SYN", answer_first(False), Options(), [
        f"{end}incomplete packet=1" for end in ENDS], "Lost packet=1", 2
    yield "a SYN with octets that are acknowledged with it", syn_with_octets(), Options(), [
        f"{end}incomplete packet={packet}" for packet in (1, 2) for end in ENDS], "Lost packet=1", 2
    both = lines_of("pass entries=5 sent=2 taken=2")
    yield "a reply before its primary", reply_before_primary(), Options(), both, None, 0
    yield "a primary behind its ACK, and a clock that is set back", clock_set_back(), Options(), both, None, 0
    yield from header_cases()


def header_cases() -> Iterator[Case]:
    """Headers before the segment."""
    short = lines_of("pass entries=3 sent=1 taken=1")
    wide = [line.replace("10.0.0.1", "[fe80::1]").replace("10.0.0.2", "[fe80::2]") for line in short]
    left_out = "# 5 packets skipped: "
    header, fragment = [left_out + "header 5"], [left_out + "fragment 5"]
    for shape, lines in ((1, wide), (8, wide), ("routing", wide), (9, header), ("fragment", fragment)):
        capture = Capture(is_ipv6=True)
        capture.segment = partial(capture.segment, shape=shape)
        fault = None if lines is wide else "NoConnection"
        yield f"headers of IPv6 {shape}", selected(capture).capture.octets, Options(), lines, fault, 2 if fault else 0
    for tags, lines in (("91000005", short), ("88a80001" * 16, short), ("81000001" * 17, header)):
        capture = Capture()
        capture.link_header = lambda tags=tags: bytes(12) + bytes.fromhex(tags) + b"\x08\x00"
        octets, fault = selected(capture).capture.octets, None if lines is short else "NoConnection"
        yield f"tags {tags[:8]}, {len(tags) // 8}", octets, Options(), lines, fault, 2 if fault else 0


def wide_cases(log: List[str]) -> Iterator[Case]:
    """Several connections."""
    both = [line.replace(":40000", port) for port in (":40000", ":40001")
            for line in lines_of("pass entries=3 sent=1 taken=1")]
    yield "two at once", two_at_once(), Options(), both, None, 0
    yield "two at once, in a log", two_at_once(), Options(log="host"), log, "Overlap packet=8", 2
    same, other = [(1, 2), (1, 2)], [(1, 2), (3, 2)]
    one = lines_of("pass entries=4 sent=1 taken=1")
    yield "a port again", one_after_another(same), Options(), one + one, None, 0
    more = log + ["# packet 6", f"{BEGIN // 1000 + 3} down"]
    yield "two peers, in a log", one_after_another(other), Options(log="host"), more, "Peer packet=9", 2
    others = ["# not judged: 1 session of other addresses (--peer)"]
    yield "one of two peers", one_after_another(other), Options(peer="10.0.0.1"), one + others, None, 0
    yield "both, by the address of the one that listens", one_after_another(other), Options(peer="10.0.0.2"), one + [
        line.replace("10.0.0.1", "10.0.0.3") for line in one], None, 0
    none = ["# not judged: 2 sessions of other addresses (--peer)"]
    yield "none of two peers", one_after_another(other), Options(peer="::1"), none, "NoConnection", 2
    again = [f"# packet {int(line.split()[2]) + 6}" if line.startswith("#") else
             f"{int(line.split()[0]) + 1000} {line.split(' ', 1)[1]}" for line in more[1:]]
    first = Options(log="host", peer="10.0.0.1")
    yield "one of two peers, in a log", one_after_another(other), first, more + others, None, 0
    later = [more[0]] + again
    second_one = Options(log="host", peer="10.0.0.3")
    yield "the other one, in a log", one_after_another(other), second_one, later + others, None, 0
    yield "a port again, in a log", one_after_another(same), Options(log="host"), more + again, None, 0
    equals = selected(Capture(ports=(5000, 5000))).capture.octets
    short = lines_of("pass entries=3 sent=1 taken=1")
    yield "both ends at the port", equals, Options(), [line.replace(":40000", ":5000") for line in short], None, 0
    yield from either_way_cases()
    yield "addresses of IPv6", selected(Capture("pcapng>", is_ipv6=True)).capture.octets, Options(), [
        line.replace("10.0.0.1", "[fe80::1]").replace("10.0.0.2", "[fe80::2]") for line in short], None, 0
    yield "with an address of IPv6", selected(Capture("pcapng>", is_ipv6=True)).capture.octets, Options(
        peer="FE80:0:0:0::0.0.0.1"), [line.replace("10.0.0.1", "[fe80::1]").replace("10.0.0.2", "[fe80::2]") for line in short], None, 0
    cut = lines_of("incomplete packet=12 pass entries=3 sent=1 taken=1")
    yield "a port again, cut", one_after_another(same)[:-1], Options(), one + cut, "CutOff", 2
    replaced = contents(f"{TOP}/tests/captures/replaced.pcap")
    yield "replaced", replaced, Options(), lines_of("pass entries=4 sent=1 taken=1") + lines_of(
        "pass entries=3 sent=1 taken=1"), None, 0
    lines = [log[0]]
    for packet, time, words in ((3, 2, "up"), (4, 3, f"> {SELECT[0][1]}"), (5, 4, f"< {SELECT[1][1]}"), (0, 4, "down"),
                                (9, 5002, "up"), (10, 5003, f"> {SELECT[0][1]}"), (11, 5004, f"< {SELECT[1][1]}")):
        lines += [f"# packet {packet}" if packet else "# assumed: replaced by a new connection", f"{BEGIN // 1000 + time} {words}"]
    yield "replaced, in a log", replaced, Options(log="host"), lines, None, 0
    yield "more than is held", far_ahead(), Options(), lines_of(
        "incomplete packet=6 pass entries=3 sent=1 taken=1"), "Full packet=6", 2


def either_way_cases() -> Iterator[Case]:
    """Both ends have the port, and each connects to the other."""
    ways, own = [(1, 2), (2, 1), (1, 2)], [5000] * 3
    lines = lines_of("pass entries=4 sent=1 taken=1")
    first = [line.replace(":40000", ":5000") for line in lines]
    second = [line.replace("10.0.0.1:40000 10.0.0.2:5000", "10.0.0.2:5000 10.0.0.1:5000") for line in lines]
    yield "either way", one_after_another(ways, own), Options(), first + second + first, None, 0
    open_first = [line.replace("entries=4", "entries=3") for line in first]
    to_itself = Capture(ports=own[:2])
    hosted(to_itself, (1, 1), 0, ends=True)
    yield "an end to itself", to_itself.octets, Options(), [], "NoConnection", 2
    yield "either way, the one before replaced", one_after_another(ways, own, ends=False), Options(), (
        first + second + open_first), None, 0


def differing(case: Case, program: Optional[str]) -> Optional[str]:
    """What is wrong with the answers to a case: the reference's, and the command's to each role."""
    name, octets, options, lines, fault, status = case
    error = f"hsms: {fault}\n".encode() if fault else b""
    wanted = Answer(status, "".join(line + "\n" for line in lines).encode(), error)
    read = second(octets, options)
    if read != wanted:
        return f"{name}\n  wanted: {shown(wanted)}\n  reference: {shown(read)}"
    wrong = tried(Made(octets, options), program)
    return f"{name}: {wrong}" if wrong else None


LINKTEST = message("ffff0000000500000007")


def with_more(ports: Iterable[Tuple[int, int]], way=ACTIVE, data=LINKTEST, octets=None, **how) -> bytes:
    """A connection that passes, or another capture, and then a segment with these bytes of each of these ports."""
    capture = Capture()
    if octets is None:
        selected(capture).end(3)
    else:
        capture.octets = octets
    for ends in ports:
        capture.segment(BEGIN + 10**7, way, 77, PUSH | ACK, data, 99, ports=ends, **how)
    return capture.octets


def unjudged_cases(log: List[str]) -> Iterator[Case]:
    """Sessions that are not audited."""
    passes, is_refused = lines_of("pass entries=4 sent=1 taken=1"), ("NotJudged", 2)
    one = "# not judged: 1 session that was running before the capture (--midstream)"
    running = contents(f"{TOP}/tests/captures/running.pcap")
    open_one = lines_of("pass entries=3 sent=1 taken=1")
    yield "running", running, Options(), open_one + [one], *is_refused
    later = [f"# packet {int(line.split()[2]) + 3}" if line.startswith("#") else line for line in log]
    later = [line if line[0] in "#h" else f"{int(line.split(' ', 1)[0]) + 12} {line.split(' ', 1)[1]}" for line in later]
    yield "running, in a log", running, Options(log="host"), later + [one], *is_refused
    several = one.replace("1 session that was", "2 sessions that were")
    devices = contents(f"{TOP}/tests/captures/devices.pcap")
    yield "devices, running", devices, Options(), [several], "NoConnection", 2
    both = with_more([(41000, 5000)], octets=with_more([(41000, 5000)]), way=PASSIVE)
    yield "both directions are one session", both, Options(), passes + [one], *is_refused
    equal = with_more([(5000, 5000)], octets=with_more([(5000, 5000)]), way=PASSIVE)
    yield "both directions, both at the port", equal, Options(), passes + [one], *is_refused
    most = with_more((port, 5000) for port in range(50001, 50001 + 4096))
    more = with_more([(49000, 5000)], octets=most)
    yield "4096 running", most, Options(), passes + [several.replace("2", "4096", 1)], *is_refused
    yield "4097 running", more, Options(), passes + [several.replace("2", "4096 or more", 1)], *is_refused
    ports = [(41000, 5019 - number) for number in range(9)]
    listed = "# not judged: HSMS at other ports: 5011, 5012, 5013, 5014, 5015, 5016, 5017, 5018"
    at_one = "# not judged: HSMS at another port: "
    yield "nine other ports", with_more(ports), Options(), passes + [f"{listed} .."], *is_refused
    seen_twice = with_more(ports[1:] * 2)
    yield "eight other ports", seen_twice, Options(), passes + [listed.replace("5011", "5011")], *is_refused
    yield "the lower port", with_more([(4999, 6000)]), Options(), passes + [f"{at_one}4999"], *is_refused
    with_late = with_more([(41000, 5000)], octets=capture_examples.late_reply().octets)
    yield "a log fails", with_late, Options(t3=1000), lines_of(
        "fail line=15 packet=9 rule=T3Overdue", "pass entries=12 sent=4 taken=6") + [one], None, 1
    capture = Capture(ports=(40000, 5001))
    selected(capture)
    given_port = with_more([(41000, 5000)], octets=capture.octets)
    named = [line.replace(":5000", ":5001") for line in open_one]
    yield "a port is given", given_port, Options(port=5001), named + [f"{at_one}5000"], None, 0
    peer = Options(peer="10.0.0.1")
    elsewhere = with_more([(41000, 5000), (41000, 5010)], hosts=(3, 4))
    of_others = "# not judged: 2 sessions of other addresses (--peer)"
    yield "an address is given", elsewhere, peer, passes + [of_others], None, 0
    all_of_it = with_more([(41000, 5010), (41000, 5000)], octets=elsewhere)
    parts = f"{one}; {of_others[14:]}; {at_one[14:]}5010"
    yield "three parts", all_of_it, peer, passes + [parts], *is_refused
    for data in ONE_MESSAGE:
        octets = with_more([(41000, 5010)], data=bytes.fromhex(data))
        yield f"one message {data}", octets, Options(), passes + [f"{at_one}5010"], *is_refused
    for data in NOT_ONE_MESSAGE:
        octets = with_more([(41000, 5010), (41000, 5000)], data=bytes.fromhex(data))
        yield f"not one message {data}", octets, Options(), passes, None, 0


def given() -> argparse.Namespace:
    parser = argparse.ArgumentParser(description=__doc__, formatter_class=argparse.RawDescriptionHelpFormatter)
    parser.add_argument("words", nargs="*", metavar="CAPTURES SEED | FILE ..")
    parser.add_argument("--program", default=PROGRAM)
    parser.add_argument("--alone", action="store_true")
    for one in fields(Options):
        kind = int if isinstance(one.default, int) else str
        parser.add_argument(f"--{one.name.rstrip('_')}", dest=one.name, default=one.default, type=kind)
    return parser.parse_args()


def main() -> int:
    words = given()
    program = None if words.alone else words.program
    if words.words and os.path.exists(words.words[0]):
        options = Options(**{one.name: getattr(words, one.name) for one in fields(Options)})
        answers = [compared(Made(contents(path), options), program) for path in words.words]
        wrong = [f"{path}: {told}" for path, told in zip(words.words, answers) if told]
    else:
        count, seed = int(words.words[0]) if words.words else 2000, words.words[1] if words.words[1:] else "1"
        jobs = [(seed, number, "damaged" if number % 100 < DAMAGED else "made") for number in range(count)]
        cases = [*smallest_cases(), *worked_cases()]
        with ProcessPoolExecutor() as pool:
            random = pool.map(partial(checked, program=program), jobs, chunksize=10)
            answers = [*pool.map(partial(differing, program=program), cases), *random]
        wrong = [told for told in answers if told]
        failing = sorted(told for told in wrong if " octets, " in told[:30])
        wrong = [told for told in wrong if told not in failing] + failing
    for told in wrong[:10]:
        print(told)
    print(f"{len(answers) - len(wrong)} passed, {len(wrong)} failed")
    return 1 if wrong else 0


if __name__ == "__main__":
    sys.exit(main())
