"""Captures of random sessions whose messages are known, whatever the capture shows of them.

One to three connections are split into segments anywhere, retransmitted, overlapping or out of order. The capture may
swap the directions, as mirror ports do, and lose packets; a copy with a wrong checksum may come before a packet. Each
session is valid, so no verdict on it may be a failure.
Some captures also have messages of sessions that are not audited.
"""
import random
from dataclasses import dataclass, field, replace
from typing import List, Optional, Tuple

from tests.support.pcap_writer import (
    ACK, ACTIVE, BEGIN, FIN, MORE_FORMS, MORE_LINKS, PASSIVE, PUSH, RST, SELECT, SYN, Capture, message, pieces,
)
from tests.support.reference.capture_audit import Options

NUMBERS = 1 << 32

# Microseconds, longer than each timer.
LONG_PAUSE = 70_000_000


@dataclass(frozen=True)
class Sent:
    """A packet that an end sends; `number` and `acknowledged` are counted on past 2^32."""

    way: int
    number: int
    flags: int
    data: bytes
    acknowledged: int
    pause: int

    @property
    def length(self) -> int:
        """How many numbers it takes. One byte without PSH asks whether the other end is there, and takes none, as a
        RST.
        """
        if len(self.data) == 1 and not self.flags & PUSH or self.flags & RST:
            return 0
        return len(self.data) + bool(self.flags & SYN) + bool(self.flags & FIN)


@dataclass
class Session:
    """A connection: the addresses and ports of the active and the passive end, what is sent, and what was said.

    `is_exact` says that the capture shows all of it. `ends` is how it ends: fin, rst, bare (a RST without ACK), none.
    """

    hosts: Tuple[int, int]
    ports: Tuple[int, int]
    sent: List[Sent] = field(default_factory=list)
    frames: List[Tuple[int, str]] = field(default_factory=list)
    captured: List[Sent] = field(default_factory=list)
    ends: str = "none"
    is_exact: bool = True
    is_up: bool = True

    @property
    def pair(self):
        """Its two ends, whichever of them connected."""
        return frozenset(zip(self.hosts, self.ports))

    @property
    def begins(self) -> bool:
        """Whether the capture has a SYN of it."""
        return any(packet.flags & SYN for packet in self.captured)

    def shows_loss(self) -> bool:
        """Whether a packet of the capture acknowledges what is not in it, or is after it."""
        for way in (ACTIVE, PASSIVE):
            own = [packet for packet in self.captured if packet.way == way]
            held = {packet.number + at for packet in own for at in range(packet.length)}
            first = next(packet.number for packet in self.sent if packet.way == way)
            missing = next(number for number in range(first, first + len(held) + 1) if number not in held)
            behind = any(packet.number > missing for packet in own)
            if behind or any(packet.way != way and packet.acknowledged > missing for packet in self.captured):
                return True
        return False


@dataclass
class Made:
    """A capture file, the options with which it is read, and its sessions, if its truth is known."""

    octets: bytes
    options: Options
    sessions: Optional[List[Session]] = None
    is_in_turn: bool = True  # whether each connection is over before the next one begins
    has_pauses: bool = False
    has_unjudged: bool = False

    @property
    def is_lawful(self) -> bool:
        """Whether each session keeps the rules by the options."""
        is_plain = replace(self.options, port=5000, active="host", log=None) == Options()
        return is_plain and self.sessions is not None


def random_text(rng) -> str:
    count = rng.choice([3, 3, 40, 300, 5000])
    filled = f"23{count:06x}" + rng.getrandbits(8 * count).to_bytes(count, "big").hex()
    return rng.choice(["", "0100", "0100", filled])


def random_frames(rng) -> List[Tuple[int, str]]:
    """A valid talk. Each frame but the first is sent by an end that knows all before it."""
    frames = list(SELECT)
    for system in range(2, rng.choice([2, 4, 8, 20])):
        way, kind = rng.randrange(2), rng.random()
        if kind < 0.15:
            frames += [(way, f"ffff00000005{system:08x}"), (1 - way, f"ffff00000006{system:08x}")]
        elif kind < 0.4:
            frames.append((way, f"0000060b0000{system:08x}{random_text(rng)}"))
        else:
            frames.append((way, f"0000810d0000{system:08x}{random_text(rng)}"))
            frames.append((1 - way, f"0000010e0000{system:08x}{random_text(rng)}"))
    if rng.random() < 0.4:
        frames.append((rng.randrange(2), "ffff00000009000000ff"))
    return frames


class Speaker:
    """Puts the packets of a connection one after the other."""

    def __init__(self, rng, session: Session, firsts):
        self.rng, self.session, self.next = rng, session, list(firsts)

    def send(self, way, flags, data=b"", away=0, pause=None):
        """A packet whose first byte is so far from the next one; it acknowledges all that was said."""
        pause = self.rng.randrange(1, 60_000) if pause is None else pause
        acknowledged = self.next[1 - way] if flags & ACK else 0
        self.session.sent.append(Sent(way, self.next[way] + away, flags, data, acknowledged, pause))

    def shake_hands(self):
        for way, flags in ((ACTIVE, SYN), (PASSIVE, SYN | ACK)):
            for _ in range(self.rng.choice([1, 1, 1, 2])):
                self.send(way, flags)
            self.next[way] += 1
        self.send(ACTIVE, ACK)

    def say(self, way, frames):
        """Frames of one end, in pieces, and mostly their ACK."""
        stream = b"".join(message(frame) for frame in frames)
        for place, data in pieces(self.rng, stream):
            self.send(way, PUSH | ACK, data, place)
        self.next[way] += len(stream)
        if self.rng.random() < 0.5:
            self.send(1 - way, ACK)
            if self.rng.random() < 0.2:
                self.send(way, ACK, stream[-1:], -1)  # a keep-alive, and its answer
                self.send(1 - way, ACK)

    def close(self):
        way, ends = self.rng.randrange(2), self.session.ends
        if ends == "fin":
            self.send(way, FIN | ACK)
            self.next[way] += 1
            if self.rng.random() < 0.7:
                self.send(1 - way, FIN | ACK)
                self.next[1 - way] += 1
                self.send(way, ACK)
        elif ends in ("rst", "bare"):
            text = self.rng.choice([b"", b"", b"closed", b"tcp_close, during connect"])
            self.send(way, RST | ACK if ends == "rst" else RST, text)


def random_session(rng, hosts, ports, has_pauses) -> Session:
    session = Session(hosts, ports)
    firsts = [rng.choice([0, 1000, NUMBERS - 300, rng.getrandbits(32)]) for _ in range(2)]
    if ports[0] in (40000, 5000):
        firsts[ACTIVE] = rng.getrandbits(32)  # a port that is used again has another number
    speaker = Speaker(rng, session, firsts)
    kind = rng.random()
    if kind < 0.1:  # nobody listens, or nobody answers
        speaker.send(ACTIVE, SYN)
        speaker.next[ACTIVE] += 1
        speaker.send(PASSIVE, rng.choice([RST | ACK, SYN | ACK]))
        session.is_up = False
        return session
    speaker.shake_hands()
    session.frames = random_frames(rng) if kind < 0.95 else []
    frames = list(session.frames)
    while frames:
        way, count = frames[0][0], 1
        while count < 3 and count < len(frames) and frames[count][0] == way:
            count += 1
        speaker.say(way, [frame for _, frame in frames[:count]])
        frames = frames[count:]
        if has_pauses and rng.random() < 0.2 and is_idle(session.frames[:len(session.frames) - len(frames)]):
            speaker.send(rng.randrange(2), ACK, pause=LONG_PAUSE)
    session.ends = rng.choice(["fin", "fin", "rst", "bare", "none"])
    speaker.close()
    return session


def is_idle(frames) -> bool:
    """Whether nobody owes an answer, and the session is selected."""
    primaries = sum(frame[4:8] == "810d" or frame[8:12] in ("0001", "0005") for _, frame in frames)
    replies = sum(frame[4:8] == "010e" or frame[8:12] in ("0002", "0006") for _, frame in frames)
    return len(frames) > 1 and primaries == replies


def captured_of(rng, session: Session, swaps, losses) -> List[Sent]:
    """What of a connection is captured, in the order of the capture."""
    lost = {rng.randrange(len(session.sent)) for _ in range(losses)}
    if rng.random() < 0.1 and losses:
        lost.add(rng.randrange(min(4, len(session.sent))))
    captured = [packet for place, packet in enumerate(session.sent) if place not in lost]
    for place in range(len(captured) - 1):
        if rng.random() < swaps and max(one.pause for one in captured[place:place + 2]) < LONG_PAUSE:
            captured[place], captured[place + 1] = captured[place + 1], captured[place]
    session.captured = captured
    may_end_early = swaps and (session.ends == "bare" or not session.frames)
    session.is_exact = not lost and not may_end_early
    return captured


def put_old_reset(rng, captured):
    """Puts a RST in that comes late: its place was acknowledged before."""
    at = rng.randrange(len(captured) + 1)
    way = rng.randrange(2)
    acknowledged = [max((one.acknowledged for one in captured[:at] if one.way == end), default=0) for end in (0, 1)]
    first = next((one.number for one in captured if one.way == way and one.flags & SYN), None)
    if first is None or acknowledged[1 - way] <= first:
        return
    number = acknowledged[1 - way] - rng.choice([1, 1, min(14, acknowledged[1 - way] - first)])
    flags = rng.choice([RST, RST | ACK]) if acknowledged[way] else RST
    text = rng.choice([b"", b"closed"])
    captured.insert(at, Sent(way, number, flags, text, acknowledged[way] if flags & ACK else 0, rng.randrange(1, 60_000)))


def make_up_octets(rng, captured):
    """Gives keep-alives another byte than was sent, where the capture shows before that its place was acknowledged."""
    acknowledged = [0, 0]
    for at, packet in enumerate(captured):
        if packet.flags == ACK and len(packet.data) == 1 and packet.number < acknowledged[1 - packet.way]:
            captured[at] = replace(packet, data=rng.choice([packet.data, b"\0", b"\xff"]))
        acknowledged[packet.way] = max(acknowledged[packet.way], packet.acknowledged)


def noise(rng, capture, when):
    """A packet that is none of the connections': of another port, no TCP, a fragment, not whole, or an odd one."""
    kind = rng.randrange(7)
    front = capture.link_header()
    if kind == 0:
        capture.segment(when, rng.randrange(2), 77, PUSH | ACK, b"GET", 99, ports=(40000, 80))
    elif kind == 1:
        capture.packet(when, front + bytes(rng.randrange(60)))
    elif kind == 2:
        capture.packet(when, front + bytes.fromhex("450000200000200040060000") + bytes(20))
    elif kind == 3:
        capture.segment(when, rng.randrange(2), 77, ACK, bytes(40), 99, kept=len(front) + 65, ports=(41000, 5000))
    elif kind == 4:
        capture.packet(when, rng.getrandbits(320).to_bytes(40, "big")[:rng.randrange(41)])
    elif kind == 5:
        capture.packet(when, front + bytes.fromhex("450000280000000040060000") + bytes(20) + b"\x40" + bytes(7))
    elif capture.form.startswith("pcapng"):
        capture.octets += capture.block(rng.choice([0xBAD, 0x40000BAD, 5, 4]), bytes(12))
        if rng.random() < 0.3:
            capture.order = rng.choice("<>")
            capture.octets += capture.section()


# The messages of sessions that are not audited, and segments that are not one message of HSMS: data without a stream,
# or with no text and no system bytes, no device, another session ID of a control message, a text, another type, a text
# that is not one item, two messages, a part of one.
ONE_MESSAGE = [
    "0000000affff0000000500000001", "0000000affff000000090000ffff", "0000000a00008101000000000001",
    "0000000c7fff060b0000000000000100", "0000000f00050102000000000007210305ab00",
]
NOT_ONE_MESSAGE = [
    "0000000a00008001000000000001", "0000000a00008101000000000000", "0000000a80008101000000000001",
    "0000000a00000000000500000001", "0000000cffff00000005000000010100", "0000000affff0000000300000001",
    "0000000affff0000010500000001", "0000000d0000060b00000000000121030b", "0000000e0000060b00000000000121000100",
    2 * "0000000affff0000000500000001", "0000000affff00000005000000", "00000009ffff00000005000000", "0000000a",
]


def stranger(rng, capture, when) -> bool:
    """A segment of a session that is not audited, or one that is not HSMS. Whether it is of such a session."""
    is_message = rng.random() < 0.5
    data = bytes.fromhex(rng.choice(ONE_MESSAGE if is_message else NOT_ONE_MESSAGE))
    ports = rng.choice([(41000, 5010), (41001, 6036), (41000 + rng.randrange(20), rng.randrange(5001, 5020)), (5000, 5000),
                        (42000 + rng.randrange(3), 5000)])
    flags = rng.choice([PUSH | ACK, PUSH | ACK, ACK, RST | ACK])
    capture.segment(when, rng.randrange(2), 77, flags, data, 99, ports=ports, hosts=(7, rng.choice([2, 8])))
    return is_message and (not flags & RST or 5000 not in ports)


def merged(rng, captured: List[List[Sent]], is_in_turn) -> List[Tuple[int, Sent]]:
    """The packets of all connections, each with the number of its own: one after the other, or at once."""
    if is_in_turn:
        return [(number, packet) for number, packets in enumerate(captured) for packet in packets]
    left, found = [list(packets) for packets in captured], []
    while any(left):
        number = rng.choice([number for number, packets in enumerate(left) if packets])
        found.append((number, left[number].pop(0)))
    return found


def random_options(rng) -> Options:
    if rng.random() < 0.6:
        return Options(active=rng.choice(["host", "host", "equipment"]))
    return Options(
        active=rng.choice(["host", "equipment"]), device=rng.choice([0, 0, 7]), t3=rng.choice([1, 100, 1000, 45000]),
        t6=rng.choice([1, 100, 6000]), t7=rng.choice([100, 10000, 10000]), t8=rng.choice([1, 5000]),
        max=rng.choice([256, 4096, 1048576]), depth=rng.choice([1, 32]),
    )


def random_sessions(rng, has_pauses) -> List[Session]:
    """One to three connections, mostly between the same addresses; their ports may be used again. Of some captures both
    ends have the port, and either connects.
    """
    sessions, is_either_way = [], rng.random() < 0.1
    for number in range(rng.choice([1, 1, 2, 3])):
        hosts = (1, 2) if rng.random() < 0.9 else (3 + number, 2)
        ports = (40000 if rng.random() < 0.6 else 40001 + number, 5000)
        if is_either_way:
            hosts, ports = rng.choice([hosts, hosts[::-1]]), (5000, 5000)
        sessions.append(random_session(rng, hosts, ports, has_pauses))
    return sessions


def made(seed) -> Made:
    """A capture whose truth is known."""
    rng = random.Random(f"captured {seed}")
    is_in_turn = rng.random() < 0.8
    has_pauses = is_in_turn and rng.random() < 0.3
    sessions = random_sessions(rng, has_pauses)
    is_in_turn |= len({session.pair for session in sessions}) < len(sessions)
    capture = Capture(rng.choice(MORE_FORMS), rng.choice(list(MORE_LINKS)), rng.random() < 0.3)
    swaps, losses = rng.choice([0, 0, 0.1, 0.3]), rng.choice([0, 0, 0, 1, 2])
    captured = [captured_of(rng, session, swaps, losses) for session in sessions]
    for packets in captured:
        if rng.random() < 0.2:
            put_old_reset(rng, packets)
        make_up_octets(rng, packets)
    noises, backwards = rng.choice([0, 0, 0.1]), rng.choice([0, 0, 0.1])
    shape = rng.choice([None, None, "options", "offload"])
    when = BEGIN + rng.randrange(10**6)
    other = random.Random(f"strangers {seed}")
    strangers, has_unjudged = other.choice([0, 0, 0, 0.02, 0.2]), False
    summing = random.Random(f"checksums {seed}")
    capture.checksums = [summing.choice(["none", "right", "right", "partial", "large"]) for _ in range(2)]
    flips = summing.choice([0, 0, 0.05, 0.2])
    for number, packet in merged(rng, captured, is_in_turn):
        session = sessions[number]
        when += packet.pause
        if rng.random() < noises:
            noise(rng, capture, when)
        if other.random() < strangers:
            has_unjudged |= stranger(other, capture, when)
        if capture.checksums[packet.way] == "right" and summing.random() < flips:
            flipped = summing.randrange(32, 8 * (32 + len(packet.data)))
            capture.segment(
                when, packet.way, packet.number, packet.flags, packet.data, packet.acknowledged, ports=session.ports,
                hosts=session.hosts, shape=shape, flipped=flipped,
            )
        capture.segment(
            when - (rng.randrange(50_000) if rng.random() < backwards else 0), packet.way, packet.number,
            packet.flags, packet.data, packet.acknowledged, ports=session.ports, hosts=session.hosts, shape=shape,
        )
    if not all(session.begins for session in sessions):
        sessions = None
    return Made(capture.octets, random_options(rng), sessions, is_in_turn, has_pauses, has_unjudged)


def damaged(seed) -> Made:
    """A capture that is cut anywhere, or has a byte changed, or some taken out or put in: nobody knows its truth. Of
    some the connections of one address alone are looked at.
    """
    whole = made(seed)
    rng = random.Random(f"damaged {seed}")
    octets, kind = bytearray(whole.octets), rng.random()
    place = rng.randrange(len(octets)) if rng.random() < 0.7 else rng.randrange(min(200, len(octets)))
    if kind < 0.3:
        del octets[place:]
    elif kind < 0.8:
        for _ in range(rng.choice([1, 1, 1, 3])):
            octets[place] = rng.choice([0, 1, 255, octets[place] ^ 1 << rng.randrange(8), rng.randrange(256)])
            place = rng.randrange(len(octets))
    elif kind < 0.9:
        del octets[place:place + rng.choice([1, 4, 16, 60])]
    else:
        octets[place:place] = rng.getrandbits(128).to_bytes(16, "big")[:rng.choice([1, 4, 16])]
    peer = rng.choice(["10.0.0.1", "10.0.0.2", "10.0.0.4", "fe80::1"]) if rng.random() < 0.2 else None
    port = rng.choice([5010, 5005]) if rng.random() < 0.1 else 5000
    return Made(bytes(octets), replace(whole.options, peer=peer, port=port))
