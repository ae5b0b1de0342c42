#!/usr/bin/env python3
"""Runs `hsms capture` on captures that it writes itself, and compares the logs with the known sessions.

- Random sessions in all supported file formats. The segments are split anywhere, retransmitted, overlapping or out of
  order. Each log has the frames in order, at the milliseconds of their last bytes, and passes `hsms audit`.
- Sessions with lost packets and packets out of order. Each log has the frames up to the loss and passes. Missing data
  is reported exactly if the capture shows it.
- Captures of errors, each with its log, verdict or error.

It runs what `rt ci` has built. The last line is `N passed, M failed`. `capture_formats.py --example FILE` writes the
capture that the documents show.
"""
import os
import random
import sys

sys.dont_write_bytecode = True
sys.path.insert(0, os.path.abspath(f"{__file__}/../../.."))

from tests.support.capture_examples import (
    after_separate, clock_set_back, cut_short, damaged, data_after_fin, ends_out_of_order, gap, half_a_packet,
    late_reply, midstream, never_selected, no_connection, other_octets, other_packets, replaced, slow_message,
    two_connections, wrong_length,
)
from tests.support.command import answer_of
from tests.support.pcap_writer import (
    ACK, ACTIVE, BEGIN, FIN, FORMS, LINKS, PASSIVE, PUSH, RST, SELECT, Capture, Talk, message, pieces,
)

SETTINGS = "hsms-log 2 {} 0 45000 6000 10000 5000 1048576 32"
RANDOM = 60
LOSSY = 150


def random_frames(rng):
    frames = list(SELECT)
    for system in range(2, rng.randrange(3, 26)):
        way, count = rng.randrange(2), rng.choice([3, 300, 5000])
        text = rng.choice(["", "0100", f"23{count:06x}" + rng.getrandbits(8 * count).to_bytes(count, "big").hex()])
        frames += [(way, f"0000810d0000{system:08x}{text}"), (1 - way, f"0000010e0000{system:08x}{text}")]
    return frames


def random_case(seed):
    """A capture of a random session, and the lines of the active end's log."""
    rng = random.Random(seed)
    capture = Capture(rng.choice(FORMS), rng.choice(list(LINKS)), rng.random() < 0.3)
    firsts = [rng.choice([0, 1000, 2**32 - 300, rng.getrandbits(32)]) for _ in range(2)]
    talk = Talk(capture, firsts, BEGIN + rng.randrange(10**6))
    frames, lines = random_frames(rng), [f"{at(talk)} up"]
    while frames:
        way, count = frames[0][0], 1
        while count < min(3, len(frames)) and frames[count][0] == way:
            count += 1
        group, frames = [frame for _, frame in frames[:count]], frames[count:]
        stream, ends = b"", []
        for frame in group:
            stream += message(frame)
            ends.append(len(stream))
        have, done = [False] * len(stream), 0
        for place, data in pieces(rng, stream):
            talk.when += rng.randrange(1, 90_000)
            talk.segment(way, place, PUSH | ACK, data)
            have[place:place + len(data)] = [True] * len(data)
            while done < len(group) and all(have[:ends[done]]):
                lines.append(f"{at(talk)} {'><'[way]} {group[done]}")
                done += 1
        talk.next[way] += len(stream)
    talk.when += 2000
    talk.segment(rng.randrange(2), 0, RST | ACK)
    return capture, [*lines, f"{at(talk)} down"]


def at(talk):
    """The time of a talk, in milliseconds since the beginning of captures."""
    return talk.when // 1000 - BEGIN // 1000


def lossy_case(seed):
    """A capture that lacks packets or has them in another order, the frames of its session, and what is captured."""
    rng = random.Random(seed)
    segments, frames, next_places = [], random_frames(rng), [1001, 2001]
    for way, frame in frames:
        data = message(frame)
        cuts = sorted({0, len(data), *(rng.randrange(len(data)) for _ in range(rng.randrange(3)))})
        for begin, end in zip(cuts, cuts[1:]):
            segments.append((way, next_places[way] + begin, PUSH | ACK, data[begin:end], next_places[1 - way]))
        next_places[way] += len(data)
        if rng.random() < 0.5:
            segments.append((1 - way, next_places[1 - way], ACK, b"", next_places[way]))
    segments.append((ACTIVE, next_places[ACTIVE], FIN | ACK, b"", next_places[PASSIVE]))
    lost = {rng.randrange(len(segments)) for _ in range(rng.choice([0, 0, 1, 1, 2]))}
    captured = [segment for place, segment in enumerate(segments) if place not in lost]
    for place in range(len(captured) - 1):
        if rng.random() < 0.15:
            captured[place], captured[place + 1] = captured[place + 1], captured[place]
    capture = Capture(rng.choice(FORMS), rng.choice(list(LINKS)))
    talk = Talk(capture)
    for way, place, flags, data, acknowledged in captured:
        talk.when += rng.randrange(1, 1000)
        capture.segment(talk.when, way, place, flags, data, acknowledged)
    is_told = any(segments[place][3] for place in lost) and is_seen(captured, segments, lost)
    return capture, [f"{'><'[way]} {frame}" for way, frame in frames], is_told


def is_seen(captured, segments, lost):
    """Whether the capture shows that bytes are missing: acknowledged, or in front of other packets."""
    for place in lost:
        way, begin, _, data, _ = segments[place]
        for other, start, _, _, acknowledged in captured:
            if data and (acknowledged > begin if other != way else start > begin):
                return True
    return False


HOST, EQUIPMENT = ["--log", "host"], ["--log", "equipment"]
ENDS = {"host": "host active", "equipment": "equipment passive"}
SELECTED = ["1 > ffff0000000100000001", "2 < ffff0000000200000001"]
AGAIN = ["1000 up", "1001 > ffff0000000100000001", "1002 < ffff0000000200000001"]

# A capture, the options of `hsms capture`, then the lines of the log without comments; the verdict; the status; what
# standard error has. Where one of them is None it is not compared.
CASES = [
    (late_reply, [*HOST, "--t3", "1000"], None, "fail line=15 rule=T3Overdue", 0, ""),
    (late_reply, [*EQUIPMENT, "--t3", "1000"], None,
     "pass entries=12 sent=4 taken=6 discarded=0 expired=0 waiting=0", 0, ""),
    (late_reply, [*HOST, "--t3", "1250"], None,
     "pass entries=12 sent=6 taken=4 discarded=0 expired=0 waiting=1", 0, ""),
    (midstream, HOST, [], "fail line=1 unreadable", 2, "hsms: NoConnection\n"),
    (midstream, [*HOST, "--midstream"],
     ["0 up", "0 > ffff00000001ffffffff", "0 < ffff00000002ffffffff", "20 > 00008101000000000008",
      "30 < 00000102000000000008", "40 down"],
     "pass entries=6 sent=2 taken=2 discarded=0 expired=0 waiting=0", 0, ""),
    (midstream, [*HOST, "--midstream", "--port", "5001"], [], "fail line=1 unreadable", 2, "hsms: NoConnection\n"),
    (gap, HOST, ["0 up", *SELECTED, "3 < 0000060b000000000001"],
     "pass entries=4 sent=1 taken=2 discarded=0 expired=0 waiting=0", 2, "hsms: Lost packet=8\n"),
    (cut_short, HOST, ["0 up", *SELECTED],
     "pass entries=3 sent=1 taken=1 discarded=0 expired=0 waiting=0", 2, "hsms: Lost packet=7\n"),
    (wrong_length, HOST, ["0 up", *SELECTED],
     "pass entries=3 sent=1 taken=1 discarded=0 expired=0 waiting=0", 2, "hsms: Length packet=6\n"),
    (after_separate, HOST, ["0 up", *SELECTED, "3 > ffff0000000900000002", "5 down"],
     "pass entries=5 sent=2 taken=1 discarded=0 expired=0 waiting=0", 0, ""),
    (after_separate, EQUIPMENT, None, "pass entries=5 sent=1 taken=2 discarded=0 expired=0 waiting=0", 0, ""),
    (never_selected, EQUIPMENT, ["0 up", "10020 down"], "fail line=5 rule=LinkOverdue", 0, ""),
    (slow_message, HOST, ["0 up", SELECTED[0], "6002 < ffff0000000200000001"], None, 0, ""),
    (clock_set_back, HOST, ["0 up", "5 > ffff0000000100000001", "5 < ffff0000000200000001"], None, 0, ""),
    (data_after_fin, HOST, ["0 up", *SELECTED, "3 down"], None, 0, ""),
    (ends_out_of_order, HOST, ["0 up", *SELECTED, "4 < ffff0000000900000003", "4 down"],
     "pass entries=5 sent=1 taken=2 discarded=0 expired=0 waiting=0", 0, ""),
    (two_connections, HOST, ["0 up", *SELECTED, "3 down", *AGAIN, "1004 down"],
     "pass entries=8 sent=2 taken=2 discarded=0 expired=0 waiting=0", 0, ""),
    (replaced, HOST, None, "pass entries=7 sent=2 taken=2 discarded=0 expired=0 waiting=0", 0, ""),
    (half_a_packet, HOST, ["0 up", *SELECTED, "3 down", *AGAIN],
     "pass entries=7 sent=2 taken=2 discarded=0 expired=0 waiting=0", 2, "hsms: CutOff\n"),
    (other_packets, HOST, ["0 up", *SELECTED], "pass entries=3 sent=1 taken=1 discarded=0 expired=0 waiting=0", 0, ""),
    (damaged, HOST, [], "", 2, "hsms: Capture Interface octet=176\n"),
    (no_connection, HOST, [], "", 2, "hsms: NoConnection\n"),
    (other_octets, HOST, [], "", 2, "hsms: Capture Unknown octet=0\n"),
]


class Read:
    """What `hsms capture` writes of a capture with these options, and ends with."""

    def __init__(self, capture, words):
        answer = answer_of(["capture", *words], bytes(capture.octets))
        self.log, self.error, self.status = answer.output, answer.error.decode(), answer.status

    @property
    def settings(self):
        return self.log.decode().splitlines()[:1]

    @property
    def lines(self):
        """The entries, at times since the beginning of captures."""
        lines = [line for line in self.log.decode().splitlines()[1:] if not line.startswith("#")]
        return [f"{int(time) - BEGIN // 1000} {words}" for time, words in (line.split(" ", 1) for line in lines)]

    @property
    def verdict(self):
        return answer_of(["audit"], self.log).output.decode().rstrip("\n") if self.log else ""


def flipped(lines):
    """The lines of the other end's log."""
    return [line.translate(str.maketrans("<>", "><")) for line in lines]


def random_answers():
    for seed in range(RANDOM):
        capture, lines = random_case(seed)
        for words, wanted in ((HOST, lines), (EQUIPMENT, flipped(lines))):
            read = Read(capture, words)
            told = [read.settings, read.lines, read.verdict[:4], read.status, read.error]
            yield f"random session {seed} {words}", told, [[SETTINGS.format(ENDS[words[1]])], wanted, "pass", 0, ""]


def lossy_answers():
    for seed in range(LOSSY):
        capture, frames, is_told = lossy_case(seed)
        for words in (HOST, EQUIPMENT):
            read = Read(capture, words)
            said = [line.split(" ", 1)[1] for line in read.lines]
            found = [line for line in said if line not in ("up", "down")]
            wanted = (frames if words is HOST else flipped(frames))[:len(found)]
            told = [found, read.verdict[:4], read.status]
            yield f"lossy session {seed} {words}", told, [wanted, "pass", 2 if is_told else 0]


def worked_answers():
    for capture, words, *wanted in CASES:
        read = Read(capture(), words)
        found = [read.lines, read.verdict, read.status, read.error]
        told = [None if wish is None else answer for wish, answer in zip(wanted, found)]
        yield f"{capture.__name__} {words}", told, wanted


def main():
    if sys.argv[1:2] == ["--example"]:
        with open(sys.argv[2], "wb") as file:
            file.write(late_reply().octets)
        return 0
    passed = failed = 0
    for answers in (random_answers, lossy_answers, worked_answers):
        for name, told, wanted in answers():
            passed, failed = passed + (told == wanted), failed + (told != wanted)
            if told != wanted:
                print(f"{name}\nwanted {wanted}\ntold {told}")
    print(f"{passed} passed, {failed} failed")
    return 1 if failed else 0


if __name__ == "__main__":
    sys.exit(main())
