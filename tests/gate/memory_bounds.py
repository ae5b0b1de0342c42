#!/usr/bin/env python3
"""Measures the most memory that the command, or an endpoint, allocates for inputs that claim more than they hold.

Each input is compared with one of about the same size that claims nothing. It may take a little more, but not in
proportion to the claim. In the same way a log of many connections that each leave a primary open is compared with one
whose primaries are answered.

The memory is what the command allocates, used or not. It runs what `rt ci` has built. The last line is `N passed, M
failed`.
"""
import os
import re
import struct
import sys
import tempfile
from dataclasses import dataclass

sys.dont_write_bytecode = True
sys.path.insert(0, os.path.abspath(f"{__file__}/../../.."))

from tests.support.command import DRIVER, PROGRAM, Answer, answer_of, call_failer
from tests.support.pcap_writer import ACK, ACTIVE, BEGIN, PUSH, SELECT, Capture, Talk
from tests.support.reference.conversations import Maker, Told
from tests.support.reference.endpoint_inputs import Answering, Listed
from tests.support.reference.session import Settings
from tests.support.worked_examples import ENTRIES, message, octets, refused

# How much more an input may take than one that claims nothing, in bytes.
MORE = 65_536

GREATEST = 33_554_432
HEADER = "00008101000000000002"
LOG = f"hsms-log 1 host active 0 45000 6000 10000 5000 {GREATEST} 100\n{ENTRIES}"
CONNECTIONS = 10_000


@dataclass(frozen=True)
class Claim:
    """Words, an input that claims much, one of about as many bytes that does not, and what the first is answered."""

    words: str
    given: bytes
    beside: bytes
    answer: Answer
    program: str = PROGRAM


def shown(text):
    return Answer(0, f"data 0000 00000002 S1F1 W ! {text}\n".encode(), b"")


def in_message(words, text):
    """The text of a message claims much. Next to it is one of as many bytes, a list or a body of binary bytes."""
    size = len(octets(text))
    plain = "21" + bytes([size - 2]).hex() + "00" * (size - 2) if size < 258 else ""
    plain = plain or "22" + (size - 3).to_bytes(2, "big").hex() + "00" * (size - 3)
    return Claim(words, message(HEADER + text), message(HEADER + plain), shown(text))


def in_notation(words, text, fault):
    """Beside a text with counts is the same text without any."""
    return Claim(words, text.encode(), re.sub(r" \[\d+\]", "", text).encode(), refused(fault))


def list_with(piece):
    """The list of an end that is selected, to which these bytes come then."""
    settings = Settings("equipment", "passive", 0, 45000, 6000, 10000, 5000, GREATEST, 100)
    told = [Told("start", 0), Told("hear", message("ffff0000000100000001")), Told("hear", piece)]
    return Listed(Maker(settings, b"", 1), told)


def at_end(piece, beside):
    listed = list_with(piece)
    answer = Answer(0, Answering(listed).text().encode(), b"")
    return Claim("", listed.text().encode(), list_with(beside).text().encode(), answer, program=DRIVER)


def connections(*ending):
    """A log of many connections, each with a primary of system bytes of its own, and after it these lines."""
    lines = ["up", "> ffff0000000100000001", "< ffff0000000200000001", "> 000081010000{0:08x}", *ending, "down"]
    numbers = range(2, 2 + CONNECTIONS)
    log = "".join(f"{number} {line.format(number)}\n" for number in numbers for line in lines)
    return f"hsms-log 2 host active 0 45000 6000 10000 5000 1048576 32\n{log}".encode()


def many_packets(count):
    """A capture of packets that carry no TCP."""
    capture = Capture()
    for number in range(count):
        capture.packet(BEGIN + number, bytes(1000))
    return bytes(capture.octets)


def claiming_packet(length):
    """A capture whose first packet has fewer bytes than its record says."""
    return bytes(Capture().octets) + struct.pack("<IIII", 1, 0, length, length) + bytes(400)


def far_ahead(place):
    """A connection whose host sends one byte, this many bytes after a gap."""
    talk = Talk(Capture())
    talk.say(10, *SELECT[0])
    talk.say(20, *SELECT[1])
    talk.at(30)
    talk.segment(ACTIVE, place, PUSH | ACK, b"\1")
    return bytes(talk.capture.octets)


def claims():
    verdict = Answer(1, b"fail line=5 rule=Text\n", b"")
    counts = f"entries={5 * CONNECTIONS} sent={2 * CONNECTIONS} taken={CONNECTIONS} discarded=0 expired=0 waiting=1"
    waits = Answer(0, f"pass {counts}\n".encode(), b"")
    too_long, cut_off = refused(f"TooLong length={0xFFFFFFFF}"), refused("CutOff")
    greatest = f"show --max {GREATEST}"
    ends = [("host active", "sent=1 taken=1"), ("equipment passive", "sent=1 taken=1")]
    lines = [f"10.0.0.1:40000 10.0.0.2:5000 {end}: incomplete packet=6 pass entries=3 {counts}" for end, counts in ends]
    gap = "".join(f"{line} discarded=0 expired=0 waiting=0\n" for line in lines)
    incomplete = Answer(2, gap.encode(), b"hsms: Lost packet=6\n")
    series = Answer(2, b"# from packet 1: -\n", b"hsms: CutOff file=/dev/null\n")
    return [
        in_message("show --depth 100", "03ffffff" * 100),
        in_message("show --depth 100", "03ffffff"),
        in_message("show --depth 100", "03ffffff" + "0100" * 400),
        in_message("show --depth 100", "43ffffff" + "41" * 400),
        in_message("show --depth 100", "a3fffff8" + "00" * 400),
        Claim(greatest, octets("ffffffff" + HEADER), octets("0000000a" + HEADER), too_long),
        Claim(greatest, octets("ffffffff" + HEADER) * 40, octets("0000000a" + HEADER) * 40, too_long),
        Claim(greatest, octets("ffffffff"), octets("0000"), cut_off),
        Claim(greatest, octets("02000000"), octets("0000"), cut_off),
        Claim("show", octets("02000000" + HEADER), octets("0000000a" + HEADER), refused(f"TooLong length={GREATEST}")),
        Claim(greatest, octets("02000000" + HEADER), octets("0000000a" + HEADER), cut_off),
        in_notation("encode", "S1F1 <L [99999999]> .", "Count at=8"),
        in_notation("encode", 'S1F1 <A [99999999] "a"> .', "Count at=8"),
        in_notation("encode", "S1F1 <U8 [99999999] 1> .", "Count at=9"),
        in_notation("encode --depth 100", "S1F1 " + "<L [99999999] " * 100, "Syntax at=1405"),
        in_notation("encode", "S1F1 <L [18446744073709551615]> .", "Count at=8"),
        Claim("audit", f"{LOG}6 > {HEADER}{'03ffffff' * 100}\n".encode(), f"{LOG}6 > {HEADER}\n".encode(), verdict),
        Claim("audit", f"{LOG}6 > {HEADER}43ffffff41\n".encode(), f"{LOG}6 > {HEADER}\n".encode(), verdict),
        Claim("capture", far_ahead(67_000_000), far_ahead(1), incomplete),
        Claim("capture - /dev/null", many_packets(3000), many_packets(1), series),
        Claim("capture - /dev/null", claiming_packet(0xFFFFFF), claiming_packet(1000), refused("CutOff")),
        Claim("audit", connections(), connections("< 000001020000{0:08x}"), waits),
        at_end(octets("ffffffff" + HEADER), octets("0000000b" + HEADER)),
        at_end(octets("02000000" + HEADER), octets("0000000b" + HEADER)),
        at_end(octets("02000000" + HEADER) + bytes(1000), octets("00000400" + HEADER) + bytes(1000)),
        at_end(message(HEADER + "03ffffff" * 100), message(HEADER + "22018d" + "00" * 397)),
        at_end(message(HEADER + "43ffffff" + "41" * 400), message(HEADER + "420191" + "41" * 401)),
    ]


class Measure:
    def __init__(self, room):
        self.held = f"{room}/held"
        self.env = {"LD_PRELOAD": call_failer(room), "HELD": self.held}

    def most(self, claim, given):
        """What the program of a claim answers, and the most bytes that it held."""
        with open(self.held, "wb") as file:
            file.write(bytes(16))
        answer = answer_of(claim.words.split(), given, claim.program, env=self.env)
        with open(self.held, "rb") as file:
            return answer, struct.unpack("<qq", file.read())[1]


def main():
    passed = failed = 0
    with tempfile.TemporaryDirectory(prefix="hsms-claims-") as room:
        measure = Measure(room)
        for claim in claims():
            answer, held = measure.most(claim, claim.given)
            _, beside = measure.most(claim, claim.beside)
            is_well = answer == claim.answer and 0 < beside and held <= beside + MORE
            passed, failed = passed + is_well, failed + (not is_well)
            told = f"held {held}, beside {beside}" if answer == claim.answer else str(answer)
            name = f"hsms {claim.words}, {claim.given[:60]!r}" if claim.words else f"an end, {claim.given[-60:]!r}"
            print(f"{name}: {told}")
    print(f"{passed} passed, {failed} failed")
    return 1 if failed or not passed else 0


if __name__ == "__main__":
    sys.exit(main())
