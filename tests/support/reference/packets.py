"""Capture files: the packets of pcap and pcapng, and the TCP segment in a packet, by docs/FORMATS.md."""
import struct
from dataclasses import dataclass, field
from typing import List, Optional, Tuple, Union

# No record or block is longer, in bytes.
LONGEST = 1 << 24

# Byte order and how many parts of a second are a millisecond, by the first bytes of a file of pcap.
PCAP = {
    b"\xd4\xc3\xb2\xa1": ("<", 1000),
    b"\xa1\xb2\xc3\xd4": (">", 1000),
    b"\x4d\x3c\xb2\xa1": ("<", 1000000),
    b"\xa1\xb2\x3c\x4d": (">", 1000000),
}
SECTION = b"\x0a\x0d\x0d\x0a"
ORDERS = {b"\x1a\x2b\x3c\x4d": ">", b"\x4d\x3c\x2b\x1a": "<"}
INTERFACE, OLD, SIMPLE, ENHANCED = 1, 2, 3, 6
CUSTOM = (0xBAD, 0x40000BAD)

FIN, SYN, RST, PSH, ACK = 1, 2, 4, 8, 16

# Why a packet is left out that may carry a segment, in the order of the output.
KINDS = ["link", "short", "fragment", "truncated", "header", "damaged"]


@dataclass(frozen=True)
class Packet:
    """A packet: its number from 1 on, its time in milliseconds since 1970 if it has one, and what of it is there."""

    number: int
    time: Optional[int]
    link: int
    octets: bytes


class Stopped(Exception):
    """Why a file is not read on, as the command writes it."""


@dataclass
class File:
    """What was read of a capture file: its packets, how many it counts, and why it is not read on."""

    packets: List[Packet] = field(default_factory=list)
    count: int = 0
    fault: Optional[str] = None

    def add(self, time, link, octets):
        self.count += 1
        self.packets.append(Packet(self.count, time, link, octets))


def read_file(octets: bytes) -> File:
    file = File()
    try:
        front = octets[:4]
        if len(front) < 4:
            raise Stopped("CutOff")
        if front in PCAP:
            read_pcap(file, octets, *PCAP[front])
        elif front == SECTION:
            read_pcapng(file, octets)
        else:
            packed = {b"\x1f\x8b": "Gzip", b"\x28\xb5": "Zstd" if front[2:] == b"\x2f\xfd" else "Unknown"}
            raise Stopped(f"Capture {packed.get(front[:2], 'Unknown')} octet=0")
    except Stopped as why:
        file.fault = str(why)
    return file


def read_pcap(file: File, octets: bytes, order: str, parts: int):
    if len(octets) < 24:
        raise Stopped("CutOff")
    link = struct.unpack_from(order + "I", octets, 20)[0] & 0xFFFF
    place = 24
    while place < len(octets):
        if place + 16 > len(octets):
            raise Stopped("CutOff")
        seconds, part, held = struct.unpack_from(order + "3I", octets, place)
        if held > LONGEST:
            raise Stopped(f"Capture Length octet={place}")
        if place + 16 + held > len(octets):
            raise Stopped("CutOff")
        file.add(seconds * 1000 + part // parts, link, octets[place + 16:place + 16 + held])
        place += 16 + held


# pcapng, block by block.


@dataclass
class Interface:
    link: int
    snap: int
    resolution: int = 6
    offset: int = 0

    def time(self, ticks: int) -> int:
        """The milliseconds of that many ticks. A time before 1970 is 0."""
        return max(0, ticks * 1000 // self.ticks_of_second() + self.offset * 1000)

    def ticks_of_second(self) -> Optional[int]:
        if self.resolution < 20:
            return 10 ** self.resolution
        return 2 ** (self.resolution - 128) if 128 <= self.resolution < 192 else None


def read_pcapng(file: File, octets: bytes):
    order, interfaces, place = "<", [], 0
    while place < len(octets):
        if place + 12 > len(octets):
            raise Stopped("CutOff")
        is_section = octets[place:place + 4] == SECTION
        if is_section:
            order, interfaces = ORDERS.get(octets[place + 8:place + 12]), []
            if order is None:
                raise Stopped(f"Capture Order octet={place}")
        block = block_at(octets, place, order)
        if not is_section:
            read_block(file, block, order, interfaces, place)
        place += len(block)


def block_at(octets: bytes, place: int, order: str) -> bytes:
    """The whole block at a place."""
    size = struct.unpack_from(order + "I", octets, place + 4)[0]
    if size < 12 or size > LONGEST or size % 4:
        raise Stopped(f"Capture Length octet={place}")
    block = octets[place:place + size]
    if len(block) < size:
        raise Stopped("CutOff")
    if block[-4:] != block[4:8]:
        raise Stopped(f"Capture Trailer octet={place}")
    return block


def read_block(file: File, block: bytes, order: str, interfaces: List[Interface], place: int):
    kind = struct.unpack_from(order + "I", block)[0]
    if kind == INTERFACE:
        if len(block) < 20:
            raise Stopped(f"Capture Length octet={place}")
        interfaces.append(interface_of(block, order))
    elif kind in (ENHANCED, OLD):
        read_timed(file, block, order, interfaces, kind, place)
    elif kind == SIMPLE:
        if not interfaces:
            raise Stopped(f"Capture Interface octet={place}")
        if len(block) < 16:
            raise Stopped(f"Capture Length octet={place}")
        length = struct.unpack_from(order + "I", block, 8)[0]
        held = min(length, interfaces[0].snap or length, len(block) - 16)
        file.add(None, interfaces[0].link, block[12:12 + held])
    elif kind in CUSTOM:
        file.count += 1


def read_timed(file: File, block: bytes, order: str, interfaces: List[Interface], kind: int, place: int):
    """An enhanced block or an old one, which differ in the width of the interface's number."""
    if len(block) < 32:
        raise Stopped(f"Capture Length octet={place}")
    which = struct.unpack_from(order + ("H" if kind == OLD else "I"), block, 8)[0]
    if which >= len(interfaces):
        raise Stopped(f"Capture Interface octet={place}")
    interface = interfaces[which]
    if interface.ticks_of_second() is None:
        raise Stopped(f"Capture Resolution octet={place}")
    high, low, held = struct.unpack_from(order + "3I", block, 12)
    if held > len(block) - 32:
        raise Stopped(f"Capture Length octet={place}")
    file.add(interface.time((high << 32) + low), interface.link, block[28:28 + held])


def interface_of(block: bytes, order: str) -> Interface:
    link, _, snap = struct.unpack_from(order + "HHI", block, 8)
    interface = Interface(link, snap)
    options = block[16:-4]
    while len(options) >= 4:
        code, length = struct.unpack_from(order + "HH", options)
        padded = (length + 3) // 4 * 4
        if code == 0 or len(options) - 4 < padded:
            break
        if code == 9 and length == 1:
            interface.resolution = options[4]
        if code == 14 and length == 8:
            interface.offset = struct.unpack_from(order + "q", options, 4)[0]
        options = options[4 + padded:]
    return interface


# What a packet carries.


@dataclass(frozen=True)
class Segment:
    """A TCP segment. Its ends are addresses with their ports, as the command writes them."""

    source: Tuple[str, int]
    target: Tuple[str, int]
    number: int
    acknowledged: Optional[int]
    flags: int
    data: bytes


class LeftOut(Exception):
    """Why a packet is not read that may carry a segment: one of the kinds."""


def segment_of(packet: Packet) -> Union[Segment, str, None]:
    """The segment that a packet carries; why it is left out; or None, where it carries none."""
    try:
        return at_link(packet)
    except LeftOut as why:
        return str(why)


def number_at(octets: bytes, place: int, size: int = 2) -> int:
    return int.from_bytes(octets[place:place + size], "big")


def need(octets: bytes, size: int):
    if len(octets) < size:
        raise LeftOut("short")


def at_link(packet: Packet) -> Optional[Segment]:
    octets = packet.octets
    headers = {1: (14, 12), 113: (16, 14), 276: (20, 0)}  # size, and where the protocol is
    if packet.link in headers:
        size, place = headers[packet.link]
        need(octets, size)
        return at_protocol(number_at(octets, place), octets[size:])
    if packet.link in (12, 14, 101, 228, 229, 0, 108):
        rest = octets[4:] if packet.link in (0, 108) else octets
        need(rest, 1)
        return at_protocol({4: 0x0800, 6: 0x86DD}.get(rest[0] >> 4, 0), rest)
    raise LeftOut("link")


def at_protocol(protocol: int, rest: bytes) -> Optional[Segment]:
    tags = 0
    while protocol in (0x8100, 0x88A8, 0x9100):
        if tags == 16:
            raise LeftOut("header")
        need(rest, 4)
        protocol, rest, tags = number_at(rest, 2), rest[4:], tags + 1
    if protocol == 0x0800:
        return at_ipv4(rest)
    return at_ipv6(rest) if protocol == 0x86DD else None


def at_ipv4(rest: bytes) -> Optional[Segment]:
    need(rest, 20)
    if rest[9] != 6:
        return None
    if number_at(rest, 6) & 0x3FFF:
        raise LeftOut("fragment")
    if rest[0] & 15 < 5:
        raise LeftOut("header")
    ends = [".".join(map(str, rest[place:place + 4])) for place in (12, 16)]
    return at_tcp(ends, rest[12:20], rest, (rest[0] & 15) * 4, number_at(rest, 2))


def at_ipv6(rest: bytes) -> Optional[Segment]:
    need(rest, 40)
    ends = [f"[{ipv6_text(rest[place:place + 16])}]" for place in (8, 24)]
    following, place, count = rest[6], 40, 0
    while following in (0, 43, 60):
        if count == 8:
            raise LeftOut("header")
        need(rest, place + 8)
        following, place, count = rest[place], place + 8 + 8 * rest[place + 1], count + 1
    if following == 44:
        raise LeftOut("fragment")
    size = number_at(rest, 4)
    return at_tcp(ends, rest[8:40], rest, place, size and 40 + size) if following == 6 else None


def is_damaged(addresses: bytes, tcp: bytes) -> bool:
    """Whether the checksum is there, and is neither right nor that of the pseudo header, with its length or without."""
    checksum = number_at(tcp, 16)
    pseudo = addresses + struct.pack(">II", 6, len(tcp))
    sums = [carried(pseudo), carried(addresses + struct.pack(">I", 6))]
    return checksum not in (0, *sums) and carried(pseudo + tcp) != 0xFFFF


def carried(octets: bytes) -> int:
    """The sum of numbers of two bytes, to which each carry is added again."""
    total = sum(number_at(octets + bytes(len(octets) % 2), place) for place in range(0, len(octets), 2))
    while total > 0xFFFF:
        total = (total & 0xFFFF) + (total >> 16)
    return total


def at_tcp(ends: List[str], addresses: bytes, rest: bytes, place: int, end: int) -> Segment:
    """The segment from a place on, in a packet of IP with this end: 0 says that it has all that there is."""
    if end > len(rest):
        raise LeftOut("truncated")
    header, tcp = 20, rest[place:end or len(rest)]
    if len(tcp) >= header:
        header = (tcp[12] >> 4) * 4
    if header < 20 or len(tcp) < header:
        raise LeftOut("header")
    if is_damaged(addresses, tcp):
        raise LeftOut("damaged")
    flags = tcp[13]
    return Segment(
        (ends[0], number_at(tcp, 0)), (ends[1], number_at(tcp, 2)), number_at(tcp, 4, 4),
        number_at(tcp, 8, 4) if flags & ACK else None, flags, tcp[header:],
    )


def ipv6_text(octets: bytes) -> str:
    """An address as RFC 5952 has it: the longest run of zeros is left out, of several the first."""
    if octets[:12] == bytes(10) + b"\xff\xff":
        return "::ffff:" + ".".join(map(str, octets[12:]))
    groups = [number_at(octets, place) for place in range(0, 16, 2)]
    begin, length = 0, 0
    for place in range(8):
        zeros = next((at for at in range(place, 8) if groups[at]), 8) - place
        if zeros > length:
            begin, length = place, zeros
    words = [f"{group:x}" for group in groups]
    if length < 2:
        return ":".join(words)
    return ":".join(words[:begin]) + "::" + ":".join(words[begin + length:])
