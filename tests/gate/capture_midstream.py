#!/usr/bin/env python3
"""Compares `hsms capture --midstream` with the reference, on sessions that started before the capture.

The captures are of random valid sessions (session_generator.py) without the packets up to some packet, or without
those of one direction. Some also have sessions of other devices and at other ports, or the session is of another
device. For the verdicts and for the logs of host and equipment, output, standard error and status are byte for byte
those of the reference. No log of a valid session fails, and no message is invented or out of order. If no packet is
out of order and no missing data is reported, the log is complete from some message on. The smallest captures, in
captures/, come first. Without `--midstream` each of them shows no connection, but a session that was running.

Use: tests/gate/capture_midstream.py [SESSIONS] [SEED]. SESSIONS is their number (default 1,000), SEED is 1 by default.
It runs what `rt ci` has built, or `--program P`. With `--alone` it runs no program, and compares the reference with
the known sessions. The last line is `N passed, M failed`.
"""
import argparse
import os
import random
import sys
from dataclasses import replace
from functools import partial
from typing import List, Optional, Tuple

sys.dont_write_bytecode = True
sys.path.insert(0, os.path.abspath(f"{__file__}/../../.."))

from tests.support.command import PROGRAM, TOP, Answer, answer_of
from tests.support.pcap_writer import ACK, ACTIVE, BEGIN, FIN, PASSIVE, PUSH, RST, SELECT, SYN, Capture, Talk, message
from tests.support.reference import midstream
from tests.support.reference.capture_audit import Options, write_log
from tests.support.reference.packets import read_file, segment_of
from tests.support.reference.session import audit
from tests.support.reference.tcp import Seen
from tests.support.reference.unaudited import Unjudged
from tests.support.session_generator import ONE_MESSAGE, Session, captured_of, random_session

PORT, ACTIVE_PORT = 5000, 40000
NAMES = "10.0.0.1:40000 10.0.0.2:5000"
SIDES = ["active", "passive"]

# What each end of the smallest captures says, how many replies it waits for, and which packet is named where something
# is missing.
SMALLEST = {
    "status-1": ("entries=7 sent=3 taken=3", 0, "entries=7 sent=3 taken=3", 0, None),
    "linktest": ("entries=5 sent=2 taken=2", 0, "entries=5 sent=2 taken=2", 0, None),
    "one-way": ("entries=4 sent=2 taken=1", 1, "entries=4 sent=1 taken=2", 0, 2),
    "two-pieces": ("entries=6 sent=3 taken=2", 0, "entries=6 sent=2 taken=3", 0, None),
    "in-flight": ("entries=6 sent=4 taken=1", 0, "entries=6 sent=1 taken=4", 0, None),
    "false-front": ("entries=5 sent=1 taken=3", 0, "entries=5 sent=3 taken=1", 0, None),
}


# What the reference answers.


def seen_in(octets: bytes, active_port: int = ACTIVE_PORT) -> List[Seen]:
    """The segments of a connection of a capture, by the port of its active end."""
    found = []
    for packet in read_file(octets).packets:
        segment = segment_of(packet)
        if {segment.source[1], segment.target[1]} == {active_port, PORT}:
            end = PASSIVE if segment.source[1] == PORT else ACTIVE
            flags = [bool(segment.flags & flag) for flag in (SYN, FIN, PUSH, RST)]
            found.append(Seen(end, packet.number, packet.time, segment.number, segment.acknowledged, segment.data, *flags))
    return found


def unjudged_in(octets: bytes, options: Options) -> Unjudged:
    """What is not audited of a capture. Connections of other active ports are captured last, and are not reported."""
    unjudged, active_ports = Unjudged(options), set()
    for packet in read_file(octets).packets:
        segment = segment_of(packet)
        ports = {segment.source[1], segment.target[1]}
        if PORT in ports:
            active_ports |= ports - {PORT}
        else:
            unjudged.take(segment)
    for port in active_ports:
        unjudged.give_up(midstream.told_of(seen_in(octets, port), options).given_up)
    return unjudged


def verdicts(told: midstream.Told, options: Options) -> List[str]:
    """The verdicts on both logs, where it is one that came up, with the packet of a line that fails."""
    found = []
    for end in (ACTIVE, PASSIVE):
        words = [f"incomplete packet={told.missing}"] if told.fault else []
        if told.lines:
            log = midstream.log_of(told, end, options)
            audited = audit(log)
            packet = packet_of(log, audited.line) if audited.verdict.startswith("fail") else 0
            words.append(audited.verdict.replace(" rule", f" packet={packet} rule"))
        found.append(" ".join(words))
    return found


def packet_of(log: bytes, line: int) -> int:
    """The packet of a line of a log, which the last comment above it names."""
    comments = [words.split() for words in log.decode().splitlines()[:line] if words.startswith("# packet ")]
    return max((int(words[2]) for words in comments if len(words) == 3), default=0)


def second(told: midstream.Told, options: Options, unjudged: Unjudged) -> Answer:
    """The answer of the reference to a capture of one connection with these events, and what is not audited."""
    fault = "{} packet={}".format(*told.fault) if told.fault else None if told.lines else "NoConnection"
    fault = fault or ("NotJudged" if unjudged.is_refused else None)
    error = f"hsms: {fault}\n".encode() if fault else b""
    status, comment = 2 if fault else 0, "".join(f"{line}\n" for line in unjudged.lines()).encode()
    if options.log:
        end = ACTIVE if options.log == options.active else PASSIVE
        log = midstream.log_of(told, end, options) if told.lines else b""
        return Answer(status, log if told.fault else log + comment, error)
    if not told.lines and not told.fault:
        return Answer(status, comment, error)
    said = verdicts(told, options)
    lines = [f"{NAMES} {options.role_of(end)} {SIDES[end]}: {said[end]}\n" for end in (ACTIVE, PASSIVE)]
    if any("fail line=" in verdict for verdict in said):
        status, error = 1, b""
    return Answer(status, "".join(lines).encode() + comment, error)


def differs(octets: bytes, told: midstream.Told, options: Options, program: Optional[str]) -> Optional[str]:
    """Returns what is wrong with the command's answers to a capture with these events."""
    for role in (None, "host", "equipment") if program else ():
        asked = replace(options, log=role)
        words = ["capture", "--midstream", *asked.words()]
        found, wanted = answer_of(words, octets, program), second(told, asked, unjudged_in(octets, asked))
        if found != wanted:
            return f"{' '.join(words)}\n  reference: {wanted}\n  command: {found}"
    return None


# The smallest captures.


def wrong_with_smallest(name: str, program: Optional[str]) -> Optional[str]:
    with open(f"{TOP}/tests/captures/joined-{name}.pcap", "rb") as file:
        octets = file.read()
    told = midstream.told_of(seen_in(octets), Options())
    *ends, missing = SMALLEST[name]
    lack = f"incomplete packet={missing} " if missing else ""
    each = zip(ends[::2], ends[1::2])
    wanted = [f"{lack}pass {counts} discarded=0 expired=0 waiting={waiting}" for counts, waiting in each]
    found = verdicts(told, Options())
    if found != wanted:
        return f"{found}, incomplete by {told.missing}"
    running = b"# not judged: 1 session that was running before the capture (--midstream)\n"
    if program and answer_of(["capture"], octets, program) != Answer(2, running, b"hsms: NoConnection\n"):
        return "without --midstream it is passed over"
    return differs(octets, told, Options(), program)


def wrong_with_devices(program: Optional[str]) -> Optional[str]:
    """Sessions of two devices: that of the other one is not audited, and neither is the one of both, without --device."""
    with open(f"{TOP}/tests/captures/devices.pcap", "rb") as file:
        octets = file.read()
    counts = ["entries=5 sent=2 taken=2", "entries=5 sent=2 taken=2"]
    ends = ["host active", "equipment passive"]
    for device, port, other in ((0, 40002, 5), (5, 40001, 0)) if program else ():
        names = NAMES.replace("40000", str(port))
        fails = "fail line=15 packet=4 rule=T3Overdue"
        verdict = [f"pass {count} discarded=0 expired=0 waiting=0" for count in counts]
        if device == 5:
            verdict = [fails, "pass entries=7 sent=3 taken=3 discarded=0 expired=0 waiting=0"]
        lines = "".join(f"{names} {end}: {each}\n" for end, each in zip(ends, verdict))
        comment = f"# not judged: 1 session of another device: {other}\n"
        wanted = Answer(1, (lines + comment).encode(), b"") if device else Answer(
            2, (lines + comment).encode(), b"hsms: NotJudged\n")
        found = answer_of(["capture", "--midstream", "--device", str(device)], octets, program)
        if found != wanted:
            return f"--device {device}: {found}"
    neither = answer_of(["capture", "--midstream", "--device", "7"], octets, program) if program else None
    both = Answer(2, b"# not judged: 2 sessions of other devices: 0, 5\n", b"hsms: NoConnection\n")
    return None if neither in (None, both) else str(neither)


def replaced() -> bytes:
    """A session that was running, and then the next connection of the same ends, with no end of the first one."""
    talk = Talk(Capture(), shakes_hands=False)
    for number in range(3):
        talk.say(10 * number + 1, ACTIVE, f"000081010000{number:08x}")
        talk.say(10 * number + 2, PASSIVE, f"000001020000{number:08x}")
    later = Talk(talk.capture, firsts=(70000, 80000), when=talk.when + 1_000_000)
    later.say(1, *SELECT[0])
    later.say(2, *SELECT[1])
    return talk.capture.octets


def wrong_with_replaced(program: Optional[str]) -> Optional[str]:
    if not program:
        return None
    counts = ["entries=10 sent=4 taken=4", "entries=10 sent=4 taken=4", "entries=3 sent=1 taken=1", "entries=3 sent=1 taken=1"]
    ends = ["host active", "equipment passive"] * 2
    lines = [f"{NAMES} {end}: pass {count} discarded=0 expired=0 waiting=0\n" for end, count in zip(ends, counts)]
    found = answer_of(["capture", "--midstream"], replaced(), program)
    return None if found == Answer(0, "".join(lines).encode(), b"") else str(found)


def left_out(is_told: bool) -> bytes:
    """A session of which a reply and a Linktest.rsp were captured, maybe a request that is not left out, and then the
    next connection of the same ends.
    """
    talk = Talk(Capture(), shakes_hands=False)
    talk.say(1, PASSIVE, "00000102000000000001")
    talk.say(2, PASSIVE, "ffff0000000600000002")
    if is_told:
        talk.say(3, ACTIVE, "ffff0000000500000003")
    later = Talk(talk.capture, firsts=(70000, 80000), when=talk.when + 1_000_000)
    later.say(1, *SELECT[0])
    later.say(2, *SELECT[1])
    return talk.capture.octets


def wrong_with_left_out(program: Optional[str]) -> Optional[str]:
    """A session whose messages are all left out is not one, and of another one they are after what is assumed."""
    for is_told in (False, True) if program else ():
        counts = ["entries=5 sent=2 taken=1", "entries=5 sent=1 taken=2"] if is_told else []
        counts += ["entries=3 sent=1 taken=1"] * 2
        ends = ["host active", "equipment passive"] * 2
        lines = [f"{NAMES} {end}: pass {count} discarded=0 expired=0 waiting=0\n" for end, count in zip(ends, counts)]
        octets = left_out(is_told)
        found = answer_of(["capture", "--midstream"], octets, program)
        if found != Answer(0, "".join(lines).encode(), b""):
            return str(found)
        log = answer_of(["capture", "--midstream", "--log", "host"], octets, program).output.decode()
        if log.count(" up\n") != (2 if is_told else 1) or log.count("skipped") != (2 if is_told else 0):
            return log
        if is_told and not log.index("ffffffff\n") < log.index("# packet 1 skipped") < log.index("# packet 3\n"):
            return log
    return None


def linktest_first() -> bytes:
    """A Linktest.req, and then responses of both kinds with its system bytes."""
    talk = Talk(Capture(), shakes_hands=False)
    talk.say(1, ACTIVE, "ffff0000000500000007")
    talk.say(2, PASSIVE, "ffff0000000200000007")
    talk.say(3, PASSIVE, "ffff0000000600000007")
    return talk.capture.octets


def wrong_with_linktest_first(program: Optional[str]) -> Optional[str]:
    """A Linktest.req does not ask for a Select.rsp: the Select.req is before the capture."""
    octets, options = linktest_first(), Options()
    told = midstream.told_of(seen_in(octets), options)
    log = midstream.log_of(told, ACTIVE, options).decode().splitlines()[1:]
    lines = [line for line in log if not line.startswith("#")]
    found = [f"{int(time) - BEGIN // 1000} {words}" for time, words in (line.split(" ", 1) for line in lines)]
    wanted = ["1 up", "1 > ffff0000000100000007", "1 > ffff0000000500000007", "2 < ffff0000000200000007",
              "3 < ffff0000000600000007"]
    return differs(octets, told, options, program) if found == wanted else str(found)


def forgotten(later: int) -> bytes:
    """A connection between two ends of the port, that many later ones, and then what both say on another one."""
    capture = Capture(ports=(PORT, PORT))
    talk = Talk(capture)
    talk.say(1, *SELECT[0])
    talk.say(2, *SELECT[1])
    talk.end(3)
    for number in range(later):
        capture.segment(talk.when, ACTIVE, 0, SYN, ports=(10000 + number, PORT))
    for way, frame in ((ACTIVE, "00008101000000000008"), (PASSIVE, "00000102000000000008")):
        first = 70000 if way == ACTIVE else 80000
        data = message(frame)
        capture.segment(talk.when, way, first, PUSH | ACK, data, 80000 if way == ACTIVE else 70014, hosts=(2, 1))
    return capture.octets


def wrong_with_forgotten(program: Optional[str]) -> Optional[str]:
    """Where both ends have the port, a connection that is forgotten does not say any more which of them connected."""
    first, second = "10.0.0.1:5000 10.0.0.2:5000", "10.0.0.2:5000 10.0.0.1:5000"
    for later, names in ((4095, [first]), (4096, [first, second])) if program else ():
        counts = {first: "entries=4 sent=1 taken=1", second: "entries=5 sent=2 taken=2"}
        lines = [f"{name} {end}: pass {counts[name]} discarded=0 expired=0 waiting=0\n"
                 for name in names for end in ("host active", "equipment passive")]
        found = answer_of(["capture", "--midstream"], forgotten(later), program)
        if found != Answer(0, "".join(lines).encode(), b""):
            return f"{later} later ones: {found}"
    return None


def two_at_once(hosts) -> bytes:
    """Two sessions that were running, one captured after the other, the second one between these hosts."""
    capture = Capture()
    segment = capture.segment
    for ends, port in (((1, 2), 40000), (hosts, 40001)):
        capture.ports, capture.segment = (port, PORT), partial(segment, hosts=ends)
        talk = Talk(capture, shakes_hands=False)
        for number in range(3):
            talk.say(10 * number + 1, ACTIVE, f"000081010000{number:08x}")
            talk.say(10 * number + 2, PASSIVE, f"000001020000{number:08x}")
    return capture.octets


def wrong_with_two_at_once(program: Optional[str]) -> Optional[str]:
    """In one log the second session is refused where it would begin, after all of the first one."""
    for hosts, fault in (((1, 2), "Overlap"), ((3, 2), "Peer")) if program else ():
        found = answer_of(["capture", "--midstream", "--log", "host"], two_at_once(hosts), program)
        lines = found.output.decode().splitlines()
        if (found.status, found.error) != (2, f"hsms: {fault} packet=7\n".encode()) or len(lines) != 1 + 2 * (3 + 6):
            return f"{fault}: {found}"
        if lines[-2:] != ["# packet 6", f"{BEGIN // 1000 + 22} < 00000102000000000002"]:
            return f"{fault}: {lines[-2:]}"
    return None


def in_log_behind(octets: bytes, options: Options) -> Answer:
    """The log of a role, of a connection of port 40001 and then of a session that was running, of port 40000."""
    *lines, _ = write_log(octets, options).lines
    told = midstream.told_of(seen_in(octets), options)
    if midstream.is_too_early(told, int(lines[-1].split()[0])):
        error = f"hsms: Overlap packet={told.start}\n".encode()
        return Answer(2, "".join(f"{line}\n" for line in lines).encode(), error)
    log = midstream.log_of(told, ACTIVE if options.log == options.active else PASSIVE, options).decode()
    return Answer(0, "".join(f"{line}\n" for line in lines + log.splitlines()[1:]).encode(), b"")


def after_another(milliseconds: int) -> bytes:
    """A connection, and then a short session that was running: its clock is that far from the last entry before."""
    capture = Capture(ports=(40001, PORT))
    talk = Talk(capture)
    talk.say(1, *SELECT[0])
    talk.say(2, *SELECT[1])
    talk.end(3)
    capture.ports = (ACTIVE_PORT, PORT)
    running = Talk(capture, shakes_hands=False, when=talk.when + 1000 * milliseconds)
    running.say(0, ACTIVE, "00008101000000000008")
    running.say(1, PASSIVE, "00000102000000000008")
    return capture.octets


def wrong_with_late(program: Optional[str]) -> Optional[str]:
    """A session that is found at the end is in the log only behind what happened before it: no time is raised."""
    with open(f"{TOP}/tests/captures/joined-late.pcap", "rb") as file:
        late = file.read()
    told = midstream.told_of(seen_in(late), Options())
    if "fail line=11 packet=3 rule=T3Overdue" not in verdicts(told, Options())[0]:
        return f"the late reply is not found: {verdicts(told, Options())}"
    cases = [(late, 2), (after_another(-1), 2), (after_another(0), 0), (after_another(1), 0)]
    for octets, status in cases:
        for role in ("host", "equipment"):
            options = Options(log=role)
            wanted = in_log_behind(octets, options)
            words = ["capture", "--midstream", *options.words()]
            found = answer_of(words, octets, program) if program else wanted
            if found != wanted or found.status != status:
                return f"{' '.join(words)}\n  reference: {wanted}\n  command: {found}"
    return None


# Random sessions.


def made(rng, session: Session, others: int) -> Tuple[bytes, bool]:
    """A capture of a session that lacks its beginning, and maybe a direction, and whether it lacks one. After it
    follow as many messages of other devices or at other ports.
    """
    syns = [place for place, packet in enumerate(session.captured) if packet.flags & SYN]
    first = max(syns, default=-1) + 1
    captured = session.captured[rng.randrange(first, len(session.captured)):] if first < len(session.captured) else []
    is_one_way = rng.random() < 0.1
    if is_one_way:
        way = rng.choice([ACTIVE, PASSIVE])
        captured = [packet for packet in captured if packet.way == way]
    capture, when = Capture(), BEGIN
    for packet in captured:
        when += packet.pause
        capture.segment(when, packet.way, packet.number, packet.flags, packet.data, packet.acknowledged)
    for number in range(others):
        data = bytes.fromhex(rng.choice([one for one in ONE_MESSAGE if one[8:12] not in ("ffff", "0000")]))
        port = rng.choice([PORT, PORT, 5010, 6036])
        capture.segment(when, rng.randrange(2), 77, PUSH | ACK, data, 99, ports=(41000 + number, port))
    return capture.octets, is_one_way


def is_within(said: List, session: List) -> bool:
    """Whether these messages were said, in this order."""
    left = iter(session)
    return all(any(one == other for other in left) for one in said)


def wrong_with(seed: str, program: Optional[str]) -> Optional[str]:
    """What is wrong with what is read of a random session."""
    rng = random.Random(f"joined {seed}")
    session = random_session(rng, (1, 2), (40000, PORT), rng.random() < 0.3)
    swaps, losses = rng.choice([0, 0, 0.1, 0.3]), rng.choice([0, 0, 1])
    captured_of(rng, session, swaps, losses)
    others, device = rng.choice([0, 0, 0, 1, 3, 10]), rng.choice([0] * 9 + [7])
    octets, is_one_way = made(rng, session, others)
    options = Options(active=rng.choice(["host", "equipment"]), t3=rng.choice([45000, 45000, 45000, 5]), device=device)
    told = midstream.told_of(seen_in(octets), options)
    wrong = differs(octets, told, options, program)
    if wrong or not told.lines or device:
        return wrong
    said = [(line.end, line.octets[4:].hex()) for line in told.lines if line.octets and line.packet]
    if not is_within(said, session.frames):
        return f"no session said {said}"
    is_plain = session.is_exact and not swaps and not is_one_way
    if is_plain and told.missing is None and said != session.frames[len(session.frames) - len(said):]:
        return f"not all is told: {said} of {session.frames}"
    found = verdicts(told, options)
    fails = options.t3 == 45000 and any("fail" in one for one in found)
    return f"a lawful session fails: {found}" if fails else None


def main():
    parser = argparse.ArgumentParser(description=__doc__, formatter_class=argparse.RawDescriptionHelpFormatter)
    parser.add_argument("sessions", nargs="?", type=int, default=1000)
    parser.add_argument("seed", nargs="?", default="1")
    parser.add_argument("--program", default=PROGRAM)
    parser.add_argument("--alone", action="store_true")
    given = parser.parse_args()
    program = None if given.alone else given.program
    seeds = [f"{given.seed} {number}" for number in range(given.sessions)]
    wrong = [(f"joined-{name}", wrong_with_smallest(name, program)) for name in SMALLEST]
    wrong += [("devices", wrong_with_devices(program))]
    wrong += [("replaced", wrong_with_replaced(program))]
    wrong += [("left out", wrong_with_left_out(program))]
    wrong += [("a Linktest.req first", wrong_with_linktest_first(program))]
    wrong += [("forgotten", wrong_with_forgotten(program))]
    wrong += [("two at once", wrong_with_two_at_once(program))]
    wrong += [("a session that is found late", wrong_with_late(program))]
    wrong += [(seed, wrong_with(seed, program)) for seed in seeds]
    told = [f"{name}: {why}" for name, why in wrong if why]
    print("\n".join(told + [f"{len(wrong) - len(told)} passed, {len(told)} failed"]))
    return 1 if told else 0


if __name__ == "__main__":
    sys.exit(main())
