"""What the packets show of one connection: when it was established, its messages in order, when it was closed.

It is computed from all packets of the connection, by the definitions: offsets, in-order delivery, the first loss, the
first conflicting retransmission. Each event also has the packet at which it is final for a reader that sees one packet
at a time.
"""
from bisect import bisect_left
from dataclasses import dataclass, field
from typing import List, Optional, Tuple

ACTIVE, PASSIVE = 0, 1

# How far a place may be from what is there, and how many bytes may wait.
FARTHEST = 1 << 26

# How many later packets of the connection may bring what is missing.
LATER = 4096

# The least length of a message, and the greatest of one that can be held.
SHORTEST, LONGEST = 10, FARTHEST - 4

# The cells of a stream: the SYN and the FIN have places as bytes have.
SYN, OCTET, FIN = 1, 2, 3


@dataclass(frozen=True)
class Seen:
    """A segment of the connection, by the end that sent it."""

    end: int
    packet: int
    time: int
    number: int
    acknowledged: Optional[int]
    data: bytes
    has_syn: bool = False
    has_fin: bool = False
    is_pushed: bool = False
    is_reset: bool = False

    def cells(self) -> Tuple[bytes, bytes]:
        """The kinds of its cells, and their values."""
        kinds = bytes([SYN] * self.has_syn) + bytes([OCTET]) * len(self.data) + bytes([FIN] * self.has_fin)
        return kinds, bytes(self.has_syn) + self.data + bytes(self.has_fin)


@dataclass
class Placed:
    """The same by places, at the greatest time so far. Cells from `place` up to `to`."""

    end: int
    packet: int
    time: int
    place: int
    to: int
    acknowledged: int
    is_reset: bool
    is_bare: bool  # a reset that acknowledges nothing


@dataclass(frozen=True)
class Happening:
    """Something that happens at a packet: `up`, `message` of an end, `down`; at the packet `known` it is sure."""

    packet: int
    time: int
    what: str
    known: int
    end: int = ACTIVE
    octets: bytes = b""


@dataclass
class Told:
    """The events of a connection; how they end, if not by themselves: an error and its packet; and the packet at which
    the connection is over, if it is."""

    happenings: List[Happening] = field(default_factory=list)
    fault: Optional[Tuple[str, int]] = None
    over: Optional[int] = None

    @property
    def came_up(self) -> bool:
        return bool(self.happenings)

    @property
    def is_down(self) -> bool:
        return self.came_up and self.happenings[-1].what == "down"


class Stream:
    """The cells of a direction by their places: the first copy of each counts."""

    def __init__(self):
        self.kinds, self.values = bytearray(), bytearray()
        self.end = 0  # the first place that is missing
        self.flags: List[int] = []  # places at which a SYN or a FIN came

    def differs(self, place: int, kinds: bytes, values: bytes, acknowledged: int) -> bool:
        """Whether a cell that is not acknowledged yet is another one than is there."""
        begin, end = max(place, acknowledged), min(place + len(kinds), len(self.kinds))
        return any(
            self.kinds[at] and (self.kinds[at], self.values[at]) != (kinds[at - place], values[at - place])
            for at in range(begin, end)
        )

    def lay(self, place: int, kinds: bytes, values: bytes):
        to = place + len(kinds)
        if len(self.kinds) < to:
            more = bytes(to - len(self.kinds))
            self.kinds += more
            self.values += more
        if self.kinds.count(0, place, to) == to - place:
            self.kinds[place:to], self.values[place:to] = kinds, values
        else:
            for at in range(place, to):
                if not self.kinds[at]:
                    self.kinds[at], self.values[at] = kinds[at - place], values[at - place]
        self.flags += [place] * (kinds[0] == SYN) + [to - 1] * (kinds[-1] == FIN)
        missing = self.kinds.find(0, self.end)
        self.end = len(self.kinds) if missing < 0 else missing

    def message_size(self, place: int, end: int) -> Optional[int]:
        """How many cells the message at a place has, if it is there whole up to an end: it ends with a SYN or FIN, and
        after a length that no message has."""
        size = 4
        if self.kinds[place:min(place + 4, end)] == bytes([OCTET]) * 4:
            length = int.from_bytes(self.values[place:place + 4], "big")
            size += length if SHORTEST <= length <= LONGEST else 0
        last = min(place + size, end)
        flags = [at for at in self.flags if place <= at < last and self.kinds[at] != OCTET]
        if flags:
            return min(flags) - place + 1
        return size if last == place + size else None


def place_near(known: int, base: int, number: int) -> Optional[int]:
    """The place of a sequence number that is nearest to a known one, if it is not too far."""
    away = (number - base - known + (1 << 31)) % (1 << 32) - (1 << 31)
    return known + away if abs(away) <= FARTHEST and known + away >= 0 else None


class Wire:
    """A connection that begins with a SYN, by the numbers of both SYNs and all of its segments."""

    def __init__(self, bases: Tuple[int, int], seen: List[Seen]):
        self.bases = bases
        self.streams = [Stream(), Stream()]
        self.placed: List[Placed] = []
        self.turns: List[Tuple[int, int]] = []  # at which packet, and whose, as positions of `placed`
        self.waiting: List[List[int]] = [[], []]  # packets after a gap, in the order of places
        self.received = [0, 0]  # up to which place the other end's turns acknowledge each direction
        self.confirmed = [0, 0]  # the same of its packets, whether they had their turn or not
        self.ends: List[List[int]] = [[], []]  # after each packet, where each direction's gap begins
        self.acked: List[List[int]] = [[], []]  # and up to where it is acknowledged
        self.difference: Optional[int] = None
        self.reset_at: Optional[int] = None  # at which packet a reset is sure that ends it
        self.passed: List[Tuple[int, List[int]]] = []  # the packet at which the events of both directions are final up to there
        for segment in seen:
            self.take(segment)

    def take(self, segment: Seen):
        own, other = segment.end, 1 - segment.end
        stream, at = self.streams[own], len(self.placed)
        place = place_near(stream.end, self.bases[own], segment.number)
        if place is None:
            return
        acknowledged = None
        if segment.acknowledged is not None:
            acknowledged = place_near(self.streams[other].end, self.bases[other], segment.acknowledged)
        kinds, values = segment.cells()
        is_old = place < self.confirmed[own]
        asks = kinds == bytes([OCTET]) and not segment.is_pushed and is_old  # whether the other end is there still
        if asks or segment.is_reset:
            kinds, values = b"", b""
        time = max(segment.time, self.placed[-1].time if self.placed else 0)
        has_ack = segment.acknowledged is not None
        is_reset = segment.is_reset and not is_old and (has_ack or place <= stream.end)
        is_bare = is_reset and not has_ack
        self.placed.append(
            Placed(own, segment.packet, time, place, place + len(kinds), acknowledged or 0, is_reset, is_bare)
        )
        if self.difference is None and stream.differs(place, kinds, values, self.received[own]):
            self.difference = at
        self.confirmed[other] = max(self.confirmed[other], acknowledged or 0)
        gap = stream.end
        if kinds:
            stream.lay(place, kinds, values)
        self.take_turns(at, own, place, gap)
        for end in (ACTIVE, PASSIVE):
            self.ends[end].append(self.streams[end].end)
            self.acked[end].append(self.received[end])

    def take_turns(self, at: int, own: int, place: int, gap: int):
        if place > gap:
            self.waiting[own].append(at)
            return
        freed = [one for one in self.waiting[own] if self.placed[one].place <= self.streams[own].end]
        self.waiting[own] = [one for one in self.waiting[own] if one not in freed]
        for one in [at, *sorted(freed, key=lambda one: self.placed[one].place)]:
            self.turns.append((at, one))
            self.received[1 - own] = max(self.received[1 - own], self.placed[one].acknowledged)

    # Loss.

    def settled(self) -> List[Optional[int]]:
        """For each packet the first one, it or a later one, after which nothing is missing that it acknowledges or
        is after; None where that never comes."""
        found = []
        for at, packet in enumerate(self.placed):
            own, other = self.ends[packet.end], self.ends[1 - packet.end]
            first = max(at, bisect_left(own, packet.place), bisect_left(other, packet.acknowledged))
            found.append(first if first < len(self.placed) else None)
        return found

    def shown(self, loss: int) -> int:
        """The number of the packet that shows a loss: the first one, of it and the next packets, that acknowledges what
        none of these brings; or its own."""
        last = min(loss + LATER, len(self.placed) - 1)
        for packet in self.placed[loss:last + 1]:
            if packet.acknowledged > self.ends[1 - packet.end][last]:
                return packet.packet
        return self.placed[loss].packet

    def told(self) -> Told:
        """The events if no packet follows."""
        settled = self.settled()
        late = [at for at, first in enumerate(settled) if first is None or first > at + LATER]
        loss, difference = late[0] if late else None, self.difference
        limit = min([at for at in (loss, difference) if at is not None], default=len(self.placed))
        known, latest = [], 0
        for first in settled[:limit]:
            latest = max(latest, first)
            known.append(latest)
        told = Told(self.happenings(limit, known))
        if told.is_down:
            told.over = told.happenings[-1].known
        elif self.reset_at is not None:
            told.over = self.placed[self.reset_at].packet
        elif limit < len(self.placed):
            is_lost = limit == loss and limit != difference
            told.fault = ("Lost", self.shown(limit)) if is_lost else ("Differs", self.placed[limit].packet)
            sure = max(limit, latest) if limit == difference else limit + LATER
            told.over = self.placed[sure].packet if sure < len(self.placed) else None
        return told

    def full(self) -> Optional[int]:
        """The first packet that ends too far after what is held of its direction, which is what is not emitted or is
        not acknowledged.
        """
        for at, packet in enumerate(self.placed):
            if packet.to > max(packet.place, FARTHEST):
                told = [place[packet.end] for known, place in self.passed if known < at]
                held = min(max(told, default=0), self.acked[packet.end][at - 1] if at else 0)
                if packet.to > held + FARTHEST:
                    return packet.packet
        return None

    # What happens.

    def happenings(self, limit: int, known: List[int]) -> List[Happening]:
        """What happens at the turns before a packet, of each of which it is known at which packet it is sure."""
        turns = self.up_to_reset([turn for turn in self.turns if turn[0] < limit])
        shown, place = [], [0, 0]
        for at, own in turns:
            packet = self.placed[own]
            for end, upto in ((1 - packet.end, packet.acknowledged), (packet.end, packet.to)):
                shown += [(at, *what) for what in self.cut(end, place, upto)]
            self.passed.append((known[at], list(place)))
        if turns and self.placed[turns[-1][1]].is_reset and self.ends_by_reset(turns):
            self.reset_at = known[turns[-1][0]]
            shown.append((turns[-1][0], "down", ACTIVE, b""))
        answers = [at for at, own in turns if self.placed[own].end == ACTIVE and self.placed[own].acknowledged >= 1]
        messages = [at for at, what, _, _ in shown if what == "message"]
        if not answers and not messages:
            return []
        first = min(answers[:1] + messages[:1])
        told, separated = [(first, "up", ACTIVE, b"")], None
        for at, what, end, octets in shown:
            if at < first or what == "message" and separated == 1 - end:
                continue
            told.append((at, what, end, octets))
            if what == "down":
                break
            if separated is None and octets[8:10] == b"\0\x09":
                separated = end
        times = [self.placed[at].time for at, _, _, _ in told]
        if told[-1][1] == "down" and self.placed[told[-1][0]].is_bare:
            times[-1] = times[-2]  # nobody knows when the other end had it
        return [
            Happening(self.placed[at].packet, time, what, self.placed[known[at]].packet, end, octets)
            for time, (at, what, end, octets) in zip(times, told)
        ]

    def cut(self, end: int, place: List[int], upto: int):
        """The messages of a direction that end by a place, after those that were cut off."""
        stream = self.streams[end]
        while place[end] < stream.end:
            size = stream.message_size(place[end], stream.end)
            if size is None or place[end] + size > upto:
                return
            begin, place[end] = place[end], place[end] + size
            last = stream.kinds[place[end] - 1]
            if last == OCTET:
                yield "message", end, bytes(stream.values[begin:place[end]])
            elif last == FIN:
                yield "down", end, b""

    def is_open(self, own: int) -> bool:
        """Whether a packet shows that the connection is open."""
        packet = self.placed[own]
        return packet.acknowledged >= (1 if packet.end == ACTIVE else 2) or packet.to >= 2

    def up_to_reset(self, turns):
        """The turns up to the first reset of the connection, where it is open."""
        opened = False
        for position, (_, own) in enumerate(turns):
            opened |= self.is_open(own)
            if opened and self.placed[own].is_reset:
                return turns[:position + 1]
        return turns

    def ends_by_reset(self, turns) -> bool:
        return any(self.is_open(own) for _, own in turns)


def told_of(bases: Tuple[int, int], seen: List[Seen]) -> Told:
    """The events of a connection whose SYNs have these sequence numbers and that has these segments."""
    wire = Wire(bases, seen)
    told, full = wire.told(), wire.full()
    if full is None or told.over is not None and told.over < full:
        return told
    before = Wire(bases, [segment for segment in seen if segment.packet < full]).told()
    return Told(before.happenings, ("Full", full), full)
