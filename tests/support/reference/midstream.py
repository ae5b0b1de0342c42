"""A session that started before the capture: the sync points, the assumptions, and the responses that are skipped.

It is computed from all packets of the connection, none of which is a SYN, from the first one on that does not reset
it. The first packets are buffered, and checked whenever their number is a power of two, until each direction begins
with three messages. Then a connection is read whose SYNs come directly before the first bytes.
"""
from dataclasses import dataclass, field, replace
from itertools import dropwhile
from typing import Dict, List, Optional, Tuple

from tests.support.reference.capture_audit import Options
from tests.support.reference.items import fault_of_text
from tests.support.reference.messages import CONTROL_KINDS, HEADER, Frame
from tests.support.reference.tcp import ACTIVE, FARTHEST, LATER, PASSIVE, Seen, Wire

MODULUS = 1 << 32

# How far a byte may be from the first number that is known of its direction.
REACH = 1 << 25

# The number of bytes that show whose a message is, and the number of consecutive messages that are checked.
FRONT = 14
LOOKED_AT = 3

CONTROL_SESSION = 0xFFFF
SUPPOSED_SYSTEM = "ffffffff"

# Which requests a response answers: those of data, or those of control messages.
ASKS = {"reply": "data", "select.rsp": "select.req", "linktest.rsp": "linktest.req"}


# The place at which a direction begins.


def is_of(frame: Frame, length: int, options: Options) -> bool:
    """Whether a message of the session may have this header, and that many bytes of header and text."""
    if frame.is_data:
        return frame.session == options.device
    is_bare = length == HEADER and frame.kind in CONTROL_KINDS.values()
    return is_bare and (frame.kind == "reject" or frame.session == CONTROL_SESSION)


def size_at(octets: bytes, place: int, options: Options) -> Optional[int]:
    """How many bytes the message at a place has: 0 where it is not there whole, None where something else is."""
    if len(octets) - place < FRONT:
        return 0
    length = int.from_bytes(octets[place:place + 4], "big")
    frame = Frame(octets[place + 4:place + 4 + max(length, HEADER)])
    if not HEADER <= length <= options.max or not is_of(frame, length, options):
        return None
    if place + 4 + length > len(octets):
        return 0
    return None if fault_of_text(frame.text, options.depth) else 4 + length


def row(octets: bytes, place: int, options: Options) -> Optional[int]:
    """How many messages are whole one after another, three at most; None where something else is among them."""
    for count in range(LOOKED_AT):
        size = size_at(octets, place, options)
        if not size:
            return None if size is None else count
        place += size
    return LOOKED_AT


def begins_at(octets: bytes, options: Options) -> Optional[int]:
    """The first place of bytes, after which none follow, from which on whole messages are read."""
    return next((place for place in range(len(octets)) if row(octets, place, options)), None)


def away(number: int, first: int) -> int:
    return (number - first + MODULUS // 2) % MODULUS - MODULUS // 2


def octets_by_place(seen: List[Seen], end: int, first: int) -> Dict[int, int]:
    """The bytes of a direction by their places, of which the first copy counts. One that only asks is none, and a RST
    has none."""
    found, acknowledged = {}, 0
    for one in seen:
        if one.end != end:
            if one.acknowledged is not None:
                acknowledged = max(acknowledged, (one.acknowledged - first + REACH) % MODULUS)
            continue
        place = (one.number - first + REACH) % MODULUS
        asks = len(one.data) == 1 and not one.is_pushed and place < acknowledged
        if place + len(one.data) <= 2 * REACH and not asks and not one.is_reset:
            for at, octet in enumerate(one.data, place):
                found.setdefault(at, octet)
    return found


def first_number(seen: List[Seen], end: int) -> int:
    """The first number that is known of a direction: that of its first packet or of the first ACK of it, whichever
    comes later.
    """
    own = next((one.number for one in seen if one.end == end), None)
    acknowledged = next((one.acknowledged for one in seen if one.end != end and one.acknowledged is not None), None)
    if own is None or acknowledged is None:
        return acknowledged or own or 0
    return acknowledged if away(acknowledged, own) > 0 else own


def beginning(seen: List[Seen], end: int, options: Options) -> Tuple[int, bool]:
    """The number of the byte at which a direction begins, and whether three messages are there. Where none begins a
    message it is that after the last byte, or the first one that is known, whichever comes later. Bytes before the
    first number that is known do not count where one is missing after them: it was sent before the capture."""
    first = first_number(seen, end)
    octets = octets_by_place(seen, end, first)
    low = REACH
    while low - 1 in octets:
        low -= 1
    places = sorted(place for place in octets if place >= low)
    starts = [place for place in places if place == low or place - 1 not in octets]
    for start in starts:
        run = bytearray()
        while start + len(run) in octets:
            run.append(octets[start + len(run)])
        found = begins_at(bytes(run), options)
        if found is not None:
            return (first + start + found - REACH) % MODULUS, row(bytes(run), found, options) == LOOKED_AT
    last = max([place + 1 for place in places], default=REACH)
    return (first + max(last, REACH) - REACH) % MODULUS, False


def beginnings(seen: List[Seen], options: Options) -> Tuple[List[int], List[Seen]]:
    """The numbers at which both directions begin, by the packets that are kept, and these packets if one is not sure."""
    count = octets = 0
    for count, one in enumerate(seen, 1):
        octets += len(one.data)
        is_last = one.is_reset or count in (LATER, len(seen)) or octets >= FARTHEST
        if is_last or count & (count - 1) == 0:
            found = [beginning(seen[:count], end, options) for end in (ACTIVE, PASSIVE)]
            are_sure = all(is_sure for _, is_sure in found)
            if is_last or are_sure:
                return [number for number, _ in found], [] if are_sure else seen[:count]
    return [0, 0], []


# What happens.


@dataclass
class Line:
    """An entry of a log, or a response that is left out of it. `packet` is 0 where it is assumed."""

    packet: int
    time: int
    what: str
    end: int = ACTIVE
    octets: bytes = b""


@dataclass
class Told:
    """The events of a connection, and the error with its packet."""

    lines: List[Line] = field(default_factory=list)
    fault: Optional[Tuple[str, int]] = None
    given_up: List[bytes] = field(default_factory=list)  # what the packets bring that are kept, if a beginning is not sure
    start: int = 0  # the packet with which both directions have begun

    @property
    def missing(self) -> Optional[int]:
        return self.fault[1] if self.fault else None


def behind(one: Seen, begins: List[int]) -> Seen:
    """The part of a segment that is from the beginning on."""
    begin = begins[one.end]
    place = away(one.number, begin)
    has_fin = one.has_fin and away(one.number + len(one.data), begin) >= 0
    if place >= 0:
        return replace(one, has_syn=False, has_fin=has_fin)
    kept = one.data[-place:] if -place < len(one.data) else b""
    return replace(one, number=begin, data=kept, has_syn=False, has_fin=has_fin)


def both_have_begun(seen: List[Seen], begins: List[int]) -> Optional[int]:
    """The position of the packet from which on something was captured of both directions, or acknowledged."""
    begun = [False, False]
    for position, one in enumerate(seen):
        place = away(one.number, begins[one.end])
        begun[one.end] |= place <= 0 <= place + len(one.data)
        if one.acknowledged is not None:
            begun[1 - one.end] |= away(one.acknowledged, begins[1 - one.end]) >= 0
        if all(begun):
            return position
    return None


def told_of(seen: List[Seen], options: Options) -> Told:
    """The events of a connection that was up before the capture and has these segments."""
    seen = list(dropwhile(lambda one: one.is_reset, seen))
    begins, kept = beginnings(seen, options)
    return replace(told_from(seen, begins, options), given_up=[one.data for one in kept])


def told_from(seen: List[Seen], begins: List[int], options: Options) -> Told:
    """The same, where its directions begin at these numbers."""
    start = both_have_begun(seen, begins)
    if start is None:
        return Told()
    bases = ((begins[ACTIVE] - 1) % MODULUS, (begins[PASSIVE] - 1) % MODULUS)
    syns = [
        Seen(ACTIVE, 0, 0, bases[ACTIVE], None, b"", has_syn=True),
        Seen(PASSIVE, 0, 0, bases[PASSIVE], begins[ACTIVE], b"", has_syn=True),
        Seen(ACTIVE, 0, 0, begins[ACTIVE], begins[PASSIVE], b""),
    ]
    told = Wire(bases, syns + [behind(one, begins) for one in seen]).told()
    begun = max(one.time for one in seen[:start + 1])
    bare = [one.packet for one in seen if one.is_reset and one.acknowledged is None]
    messages = []
    for one in told.happenings:
        if one.what == "down" and one.packet < seen[start].packet:
            return Told()
        if one.what == "up" or one.packet < seen[start].packet:
            continue
        if one.what == "message" and not HEADER <= len(one.octets) - 4 <= options.max:
            return Told(supposed(messages, begun, options), ("Length", one.packet), start=seen[start].packet)
        is_bare = one.what == "down" and one.packet in bare
        messages.append(Line(one.packet, 0 if is_bare else max(one.time, begun), one.what, one.end, one.octets))
    return Told(supposed(messages, begun, options), told.fault, start=seen[start].packet)


# What is before.


def is_asked(frame: Frame, said: List[Frame]) -> bool:
    """Whether one of the messages of the other end asks for this response."""
    return any(asks(one) == ASKS[frame.kind] and one.system == frame.system for one in said)


def asks(frame: Frame) -> Optional[str]:
    if frame.kind == "primary":
        return "data" if frame.wait else None
    return frame.kind if frame.kind in ("select.req", "linktest.req") else None


def decided_by(frame: Frame, said: List[Frame]) -> Optional[Tuple[str, Optional[int]]]:
    """What a message says of what was before, if it decides that, and the system bytes of what it answers."""
    if frame.is_data or frame.kind == "select.rsp" and frame.byte3 == 1:
        return "selected", None
    if frame.kind == "select.rsp":
        return "asked", None if is_asked(frame, said) else frame.system
    return None


def first_decision(lines: List[Line]) -> Tuple[str, Optional[int], int]:
    """What was before, by the first message that decides it, and who sent what is assumed: selected, if none."""
    said: Tuple[List[Frame], List[Frame]] = ([], [])
    for line in lines[:LATER + 1]:
        if line.what == "message":
            frame = Frame(line.octets[4:])
            decided = decided_by(frame, said[1 - line.end])
            if decided:
                return (*decided, 1 - line.end)
            said[line.end].append(frame)
    return "selected", None, ACTIVE


def control(stype: int, system: str) -> bytes:
    return bytes.fromhex(f"0000000affff0000{0:02x}{stype:02x}{system}")


def supposed(lines: List[Line], begun: int, options: Options) -> List[Line]:
    """The lines of a log: what is assumed, and what was captured, but for responses to what was before. None where no
    message is written."""
    if not any(line.what == "message" for line in lines):
        return []
    what, system, end = first_decision(lines)
    found = [Line(0, begun, "up")]
    said: Tuple[List[Frame], List[Frame]] = ([], [])
    if what == "selected":
        found.append(Line(0, begun, "message", ACTIVE, control(1, SUPPOSED_SYSTEM)))
        found.append(Line(0, begun, "message", PASSIVE, control(2, SUPPOSED_SYSTEM)))
    elif system is not None:
        found.append(Line(0, begun, "message", end, control(1, f"{system:08x}")))
        said[end].append(Frame(found[-1].octets[4:]))
    for line in lines:
        if line.what == "message":
            frame = Frame(line.octets[4:])
            if frame.kind in ASKS and not is_asked(frame, said[1 - line.end]) and line.time - begun <= options.t3:
                line = replace(line, what="left out")
            said[line.end].append(frame)
        if line.what == "down":  # one whose time is not known has that of the line before
            line = replace(line, time=max(line.time, *(one.time for one in found if one.what != "left out")))
        found.append(line)
    return found if any(line.what == "message" and line.packet for line in found) else []


def is_too_early(told: Told, last: int) -> bool:
    """Whether a log whose last entry has this time may not go on with a session: its times would be raised."""
    return bool(told.lines) and told.lines[0].time < last


def log_of(told: Told, end: int, options: Options) -> bytes:
    """The log of an end."""
    lines = [options.settings(end)]
    for line in told.lines:
        mark = ">" if line.end == end else "<"
        comment = f"# packet {line.packet}" if line.packet else "# assumed: before the capture"
        if line.what == "left out":
            lines.append(f"{comment} skipped: its request is not in the capture")
            continue
        lines.append(comment)
        said = f"{mark} {line.octets[4:].hex()}" if line.what == "message" else line.what
        lines.append(f"{line.time} {said}")
    return "".join(line + "\n" for line in lines).encode()
