"""Writes capture files for tests: TCP packets in each file format and link type, and conversations of endpoints."""
import struct

FIN, SYN, RST, PUSH, ACK = 1, 2, 4, 8, 16
BEGIN = 1_700_000_000_000_000  # microseconds
ACTIVE, PASSIVE = 0, 1

SELECT = [(ACTIVE, "ffff0000000100000001"), (PASSIVE, "ffff0000000200000001")]
LINKS = {"ethernet": 1, "vlan": 1, "cooked": 113, "cooked2": 276, "raw": 101, "loopback": 0}
MORE_LINKS = {**LINKS, "tags": 1, "loop": 108, "raw12": 12, "raw14": 14, "raw by version": 228}
FORMS = ["pcap<", "pcap>", "nanoseconds<", "nanoseconds>"]
FORMS += ["pcapng<", "pcapng>", "pcapng-nanoseconds<", "pcapng-binary>"]
MORE_FORMS = [*FORMS, "pcapng-old<", "pcapng-old>", "pcapng-offset<", "pcapng-offset>", "pcapng-two<", "pcapng-two>"]

# The interfaces of a file of pcapng, by its form: the resolution's byte, the ticks a second, an offset in seconds.
INTERFACES = {
    "pcapng-nanoseconds": [(9, 10**9, 0)],
    "pcapng-binary": [(0x9E, 2**30, 0)],
    "pcapng-offset": [(6, 10**6, 1_600_000_000)],
    "pcapng-two": [(9, 10**9, 0), (3, 10**3, -86_400)],
}


class Capture:
    """A capture file in one of the forms and link types, to which packets are added."""

    def __init__(self, form="pcap<", link="ethernet", is_ipv6=False, ports=(40000, 5000)):
        self.form, self.order, self.link, self.is_ipv6, self.ports = form[:-1], form[-1], link, is_ipv6, ports
        self.count, self.checksums = 0, ["none", "none"]
        if self.form.startswith("pcapng"):
            self.octets = self.section()
            self.octets += self.block(5, self.pack("III", 0, 0, 0))  # statistics, which are passed over
        else:
            magic = 0xA1B23C4D if self.form == "nanoseconds" else 0xA1B2C3D4
            self.octets = self.pack("IHHiIII", magic, 2, 4, 0, 0, 262144, MORE_LINKS[self.link])

    def section(self):
        """The front of a section of pcapng."""
        octets = self.block(0x0A0D0D0A, self.pack("IHHq", 0x1A2B3C4D, 1, 0, -1))
        for resolution, _, offset in INTERFACES.get(self.form, [(6, 10**6, 0)]):
            options = self.pack("HHB3x", 9, 1, resolution) if resolution != 6 else b""
            options += self.pack("HHq", 14, 8, offset) if offset else b""
            options += self.pack("HH", 0, 0) if options else b""
            octets += self.block(1, self.pack("HHI", MORE_LINKS[self.link], 0, 0) + options)
        return octets

    def pack(self, form, *values):
        return struct.pack(self.order + form, *values)

    def block(self, kind, body):
        length = 12 + (len(body) + 3) // 4 * 4
        return self.pack("II", kind, length) + body.ljust(length - 12, b"\0") + self.pack("I", length)

    def packet(self, when, octets, kept=None):
        """Adds a packet at a time in microseconds, of which the first bytes are kept, or all."""
        kept = octets[:kept]
        counts = len(kept), len(octets)
        self.count += 1
        if self.form.startswith("pcapng"):
            interfaces = INTERFACES.get(self.form, [(6, 10**6, 0)])
            which = self.count % len(interfaces)
            _, per_second, offset = interfaces[which]
            ticks = -(-(when - offset * 10**6) * per_second // 10**6)
            parts = ticks >> 32, ticks & 0xFFFFFFFF, *counts
            if self.form == "pcapng-old":
                self.octets += self.block(2, self.pack("HHIIII", which, 0xFFFF, *parts) + kept)
            else:
                self.octets += self.block(6, self.pack("IIIII", which, *parts) + kept)
        else:
            part = when % 10**6 * (1000 if self.form == "nanoseconds" else 1)
            self.octets += self.pack("IIII", when // 10**6, part, *counts) + kept

    def segment(self, when, way, sequence, flags, data=b"", acknowledged=0, kept=None, **how):
        """Adds a segment that one end sends to the other. A bit of it, counted from its first one, may be `flipped`."""
        ports = how.pop("ports", self.ports)
        checksum, flipped = how.pop("checksum", self.checksums[way]), how.pop("flipped", None)
        hosts = how.pop("hosts", (1, 2))
        window = how.pop("window", 65535)
        if way != ACTIVE:
            ports, hosts = ports[::-1], hosts[::-1]
        tcp = struct.pack(">HHIIBBHHH", *ports, sequence % 2**32, acknowledged % 2**32, 8 << 4, flags, window, 0, 0)
        tcp = checked(tcp + bytes([1] * 12) + data, addresses(self.is_ipv6, hosts), checksum)
        if flipped is not None:
            tcp = (int.from_bytes(tcp, "big") ^ 1 << 8 * len(tcp) - 1 - flipped).to_bytes(len(tcp), "big")
        shape = how.pop("shape", None)
        ip = ipv6(hosts, tcp, shape) if self.is_ipv6 else ipv4(hosts, tcp, shape)
        filling = bytes(6) if self.link == "ethernet" and shape != "offload" else b""
        self.packet(when, self.link_header() + ip + filling, kept)

    def link_header(self):
        protocol = b"\x86\xdd" if self.is_ipv6 else b"\x08\x00"
        return {
            "ethernet": bytes(12) + protocol,
            "vlan": bytes(12) + b"\x81\x00\x00\x05" + protocol,
            "tags": bytes(12) + b"\x88\xa8\x00\x05\x81\x00\x00\x07" + protocol,
            "cooked": bytes(14) + protocol,
            "cooked2": protocol + bytes(18),
            "loopback": self.pack("I", 30 if self.is_ipv6 else 2),
            "loop": struct.pack(">I", 24 if self.is_ipv6 else 2),
        }.get(self.link, b"")


def addresses(is_ipv6, hosts):
    return b"".join(bytes([0xFE, 0x80]) + bytes(13) + bytes([host]) if is_ipv6 else bytes([10, 0, 0, host]) for host in hosts)


def checked(tcp, ends, kind):
    """A segment with its checksum: the `right` one; the `partial` sum of the pseudo header, or that with a length of 0, as
    of a `large` segment, which a network card completes; or `none`."""
    pseudo = ends + struct.pack(">II", 6, 0 if kind == "large" else len(tcp))
    summed = pseudo + tcp + bytes(len(tcp) % 2) if kind == "right" else pseudo
    total = sum(struct.unpack(f">{len(summed) // 2}H", summed)) % 0xFFFF or 0xFFFF
    number = {"right": 0xFFFF - total, "none": 0}.get(kind, total)
    return tcp[:16] + struct.pack(">H", number) + tcp[18:]


def ipv4(hosts, tcp, shape=None):
    """A packet of IPv4; `options` has some, and `offload` leaves its length out, as a network card is given it."""
    options = bytes([1, 1, 1, 0]) if shape == "options" else b""
    length = 0 if shape == "offload" else 20 + len(options) + len(tcp)
    front = 0x45 + len(options) // 4
    return struct.pack(">BBHHHBBH", front, 0, length, 0, 0x4000, 64, 6, 0) + addresses(False, hosts) + options + tcp


def ipv6(hosts, tcp, shape=None):
    """A packet of IPv6; `options` has a header of options before the segment, `routing` and `fragment` such a header, a
    number that many headers of options, and `offload` leaves its length out."""
    named = {"options": [60], "routing": [43], "fragment": [44]}
    kinds = [60] * shape if isinstance(shape, int) else named.get(shape, [])
    options = b"".join(bytes([after, 0, 1, 4, 0, 0, 0, 0]) for after in [*kinds[1:], 6][:len(kinds)])
    length = 0 if shape == "offload" else len(options) + len(tcp)
    return struct.pack(">IHBB", 6 << 28, length, kinds[0] if kinds else 6, 64) + addresses(True, hosts) + options + tcp


class Talk:
    """A connection in a capture: its sequence numbers and its clock, in microseconds."""

    def __init__(self, capture, firsts=(1000, 2000), when=BEGIN, shakes_hands=True):
        self.capture, self.next, self.when, self.zero = capture, list(firsts), when, when
        if shakes_hands:
            self.segment(ACTIVE, 0, SYN)
            self.next[ACTIVE] += 1
            self.when = when + 300
            self.segment(PASSIVE, 0, SYN | ACK)
            self.next[PASSIVE] += 1
            self.when = self.zero = when + 500
            self.segment(ACTIVE, 0, ACK)

    def segment(self, way, place, flags, data=b"", **more):
        """A segment of one end, which acknowledges what the other one has said."""
        acknowledged = self.next[1 - way] if flags & ACK else 0
        self.capture.segment(self.when, way, self.next[way] + place, flags, data, acknowledged, **more)

    def at(self, milliseconds):
        self.when = self.zero + milliseconds * 1000

    def say(self, milliseconds, way, *frames, **more):
        """Frames in one segment."""
        self.at(milliseconds)
        data = b"".join(map(message, frames))
        self.segment(way, 0, PUSH | ACK, data, **more)
        self.next[way] += len(data)

    def end(self, milliseconds, way=ACTIVE, flags=FIN | ACK):
        self.at(milliseconds)
        self.segment(way, 0, flags)


def message(frame):
    octets = bytes.fromhex(frame)
    return struct.pack(">I", len(octets)) + octets


def pieces(rng, stream):
    """A stream as segments, each its place and bytes: cut anywhere, some again, swapped or overlapping."""
    cuts = [0]
    while cuts[-1] < len(stream):
        cuts.append(min(len(stream), cuts[-1] + rng.choice([1, 3, 4, 14, 200, 1448, 1448, 9000])))
    found = [(begin, stream[begin:end]) for begin, end in zip(cuts, cuts[1:])]
    if rng.random() < 0.4:
        place = rng.randrange(len(found))
        found.insert(min(len(found), place + rng.randrange(1, 4)), found[place])
    if rng.random() < 0.3 and len(found) > 1:
        place = rng.randrange(len(found) - 1)
        found[place], found[place + 1] = found[place + 1], found[place]
    if rng.random() < 0.2 and len(found) > 1:
        place = rng.randrange(1, len(found))
        begin, data = found[place]
        found[place] = (begin - 1, stream[begin - 1:begin] + data) if begin else (begin, data)
    return found
