#!/usr/bin/env python3
"""How fast the commands are: MB/s of their input in processor time, beside `cat` over the same input in the same run,
the instructions for an octet of it, where valgrind is installed, and the most memory that they held.

Use: bench/commands.py [MEGABYTES [WORD..]], 100 if left out; with words only the inputs in whose description one
stands. It runs what `rt ci` or the first use of `hsms` has built. The texts of `encode` are kept below its limit of
67,108,864 octets. Instructions are counted over 3 MB.
"""
import itertools
import os
import struct
import subprocess
import sys
import tempfile

sys.dont_write_bytecode = True
from running import MB, PROGRAM, Runner, lines_of, write


def frame(header, text=b""):
    octets = bytes.fromhex(header) + text
    return len(octets).to_bytes(4, "big") + octets


def report(count):
    """The octets of an event report: two numbers and a list of values with a name each."""
    value = b"\x01\x02" + b"\x41\x08WaferMap" + b"\xb1\x04\x00\x01\x86\xa0"
    numbers = b"\xb1\x04\x00\x00\x00\x07" + b"\xb1\x04\x00\x00\x01\x00"
    return b"\x01\x03" + numbers + b"\x01" + bytes([count]) + value * count


def unit_of_stream():
    """Linktests, event reports and their replies, and a recipe."""
    recipe = b"\x01\x02\x41\x06RECIPE\x22\x10\x00" + bytes(range(256)) * 16
    return b"".join(
        [
            frame("ffff0000000500000003"),
            frame("ffff0000000600000003"),
            *[frame("0000860b000000000002", report(8)) + frame("0000060c000000000002", b"\x21\x01\x00")] * 20,
            frame("00008703000000000008", recipe),
            frame("00000704000000000008", b"\x21\x01\x00"),
        ]
    )


def stream(size):
    """Linktests, event reports and their replies, and a recipe now and then."""
    unit = unit_of_stream()
    return unit * (size // len(unit))


def shown(octets):
    """The data messages of a stream in notation, as `hsms show` prints them."""
    lines = subprocess.run([PROGRAM, "show"], input=octets, stdout=subprocess.PIPE, check=True).stdout.splitlines()
    return b"".join(line.split(b" ", 3)[3] + b"\n" for line in lines if line.startswith(b"data "))


def notation(size):
    unit = shown(unit_of_stream())
    return unit * (size // len(unit))


# a data message whose text is a number in 31 lists of one element
NESTED = frame("00008101000000000002", b"\x01\x01" * 31 + b"\xa5\x01\x07")


def nested(size):
    return NESTED * (size // len(NESTED))


def empty_lists(size):
    """Data messages whose text is a list of 255 lists, of which each holds none."""
    unit = frame("00008101000000000002", b"\x01\xff" + b"\x01\x00" * 255)
    return unit * (size // len(unit))


def no_items(size):
    """Data messages whose texts are no item: they are shown in hexadecimal."""
    unit = frame("00008101000000000002", b"\xff" + bytes(range(256)) * 4)
    return unit * (size // len(unit))


# a data message of 200 BOOLEANs
BOOLEANS = frame("00008101000000000002", b"\x25\xc8" + b"\x00\x01\x01\x00\x01" * 40)

# a data message of sixteen texts of 32 octets
TEXTS = frame("00008101000000000002", b"\x01\x10" + b"\x41\x20a text of two and thirty octets." * 16)


def booleans(size):
    return BOOLEANS * (size // len(BOOLEANS))


def notation_of(message):
    """What makes a notation of this message, again and again."""

    def make(size):
        unit = shown(message)
        return unit * (size // len(unit))

    return make


def small_notation(size):
    unit = b"S1F1 W .\nS1F2 <L [0]> .\nS2F17 W .\n"
    return unit * (size // len(unit))


# the most octets of an item, nearly
LONG = 16_000_000


def long_texts(size):
    """How long the texts are of a message of so many octets, or nearly."""
    return [min(LONG, size - 40 - place) for place in range(0, size - 40, LONG)]


def long_message(size):
    """A message of so many octets: a list of texts."""
    texts = [b"\x43" + length.to_bytes(3, "big") + b"r" * length for length in long_texts(size)]
    return frame("00008703000000000002", bytes([1, len(texts)]) + b"".join(texts))


def long_notation(size):
    """Such a message in notation."""
    texts = [b'<A "' + b"r" * length + b'">' for length in long_texts(size)]
    return b"S7F3 W <L " + b" ".join(texts) + b"> .\n"


def log(size):
    lines = [
        "hsms-log 1 equipment passive 0 45000 6000 10000 5000 1048576 32",
        "0 up",
        "0 < ffff0000000100000001",
        "0 > ffff0000000200000001",
    ]
    text = report(8).hex()
    made, time, system = 0, 0, 1
    while made < size:
        time, system = time + 7, system % 0xFFFFFFFF + 1
        pair = [f"{time} > 0000860b0000{system:08x}{text}", f"{time + 3} < 0000060c0000{system:08x}210100"]
        if system % 20 == 0:
            pair += [f"{time + 4} < ffff00000005{system:08x}", f"{time + 4} > ffff00000006{system:08x}"]
        lines += pair
        made += sum(len(line) + 1 for line in pair)
    return "\n".join(lines).encode() + b"\n"


class Wire:
    """A capture (pcap, Ethernet, IPv4) of one connection at port 5000."""

    PORTS, FIN, SYN, PSH, ACK = (40000, 5000), 1, 2, 8, 16

    def __init__(self):
        self.octets = bytearray(struct.pack("<IHHiIII", 0xA1B2C3D4, 2, 4, 0, 0, 262144, 1))
        self.milliseconds, self.numbers = 0, [1000, 5000]

    def put(self, end, flags, text=b""):
        """One packet more, which acknowledges all that the other end has sent, but for the first of all."""
        own, other = self.PORTS[end], self.PORTS[1 - end]
        acknowledged = self.numbers[1 - end] % 2**32 if flags & self.ACK else 0
        segment = struct.pack(">HHIIBBHHH", own, other, self.numbers[end] % 2**32, acknowledged, 80, flags, 8192, 0, 0)
        addresses = bytes([10, 0, 0, 1 + end, 10, 0, 0, 2 - end])
        length = 40 + len(text)
        packet = bytes(12) + b"\x08\x00\x45\x00" + struct.pack(">HHHBBH", length, 0, 0, 64, 6, 0) + addresses
        packet += segment + text
        seconds, milliseconds = divmod(self.milliseconds, 1000)
        self.octets += struct.pack("<IIII", seconds, 1000 * milliseconds, len(packet), len(packet)) + packet
        self.numbers[end] += len(text) + (flags & self.SYN > 0)
        self.milliseconds += 1

    def tell(self, end, *messages):
        """Messages in a packet each, and what acknowledges them."""
        for message in messages:
            self.put(end, self.PSH | self.ACK, message)
        self.put(1 - end, self.ACK)


def selected():
    """A connection whose session is selected."""
    return select(Wire())


def select(wire):
    """A connection comes up, and its session is selected."""
    wire.put(0, wire.SYN)
    wire.put(1, wire.SYN | wire.ACK)
    wire.put(0, wire.ACK)
    wire.tell(0, frame("ffff0000000100000001"))
    wire.tell(1, frame("ffff0000000200000001"))
    return wire


def captured(size):
    """Event reports, two in a row, and their replies, each in a packet, every other packet acknowledged."""
    wire = selected()
    system, text = 1, report(8)
    while len(wire.octets) < size:
        names = [f"{(system + more) % 2**32:08x}" for more in range(2)]
        wire.tell(1, *[frame(f"0000860b0000{name}", text) for name in names])
        wire.tell(0, *[frame(f"0000060c0000{name}", b"\x21\x01\x00") for name in names])
        system += 2
    return bytes(wire.octets)


def captured_long(size):
    """Messages of 16 kB in segments of 1,460 octets, every other one acknowledged, and their replies."""
    wire = selected()
    system, text = 1, b"\x01\x02\x41\x06RECIPE\x23\x00\x40\x00" + bytes(range(256)) * 64
    while len(wire.octets) < size:
        message = frame(f"0000860b0000{system % 2**32:08x}", text)
        segments = [message[place : place + 1460] for place in range(0, len(message), 1460)]
        for place in range(0, len(segments), 2):
            wire.tell(1, *segments[place : place + 2])
        wire.tell(0, frame(f"0000060c0000{system % 2**32:08x}", b"\x21\x01\x00"))
        system += 1
    return bytes(wire.octets)


def captured_again(size):
    """Messages of 16 kB in segments of 1,460 octets, of which the first of each 64 messages is sent again behind them."""
    wire = selected()
    system, text = 1, b"\x01\x02\x41\x06RECIPE\x23\x00\x40\x00" + bytes(range(256)) * 64
    while len(wire.octets) < size:
        names = [f"{(system + more) % 2**32:08x}" for more in range(64)]
        told = b"".join(frame(f"0000060b0000{name}", text) for name in names)
        first = wire.numbers[1]
        wire.numbers[1] += 1460
        for place in range(1460, len(told), 1460):
            wire.put(1, wire.PSH | wire.ACK, told[place : place + 1460])
        last, wire.numbers[1] = wire.numbers[1], first
        wire.put(1, wire.PSH | wire.ACK, told[:1460])
        wire.numbers[1] = last
        wire.put(0, wire.ACK)
        system += 64
    return bytes(wire.octets)


def reconnecting(ports):
    """What makes connections, one after another, from so many ports in turn: their sessions are selected."""

    def make(size):
        wire = Wire()
        for number in itertools.count():
            if len(wire.octets) >= size:
                return bytes(wire.octets)
            wire.PORTS, wire.numbers = (10_000 + number % ports, 5000), [number, 5000]
            select(wire)
            wire.put(0, wire.FIN | wire.ACK)

    return make


def main():
    size = int(sys.argv[1] if len(sys.argv) > 1 else 100) * MB
    words = sys.argv[2:]
    bare = frame("ffff0000000500000003")
    runs = [
        ("show", "ordinary traffic", stream, size),
        ("show", "bare headers", lambda size: bare * (size // len(bare)), size),
        ("show", "lists nested to 32", nested, size),
        ("show", "lists of empty lists", empty_lists, size),
        ("show", "texts that are no item", no_items, size),
        ("show", "BOOLEANs", booleans, size),
        ("show --max 33554432", "one message", long_message, 33 * MB),
        ("encode", "ordinary traffic", notation, min(size, 67 * MB)),
        ("encode", "small messages", small_notation, min(size, 67 * MB)),
        ("encode", "lists nested to 32", notation_of(NESTED), min(size, 67 * MB)),
        ("encode", "texts of 32 octets", notation_of(TEXTS), min(size, 67 * MB)),
        ("encode", "BOOLEANs", notation_of(BOOLEANS), min(size, 67 * MB)),
        ("encode --hex", "small messages", small_notation, min(size, 67 * MB)),
        ("encode --hex --max 33554432", "one message", long_notation, 33 * MB),
        ("audit", "ordinary traffic", log, size),
        ("explain --only failures", "ordinary traffic", log, size),
        ("explain", "ordinary traffic", log, size),
        ("explain --format json", "ordinary traffic", log, size),
        ("explain --format html --all", "ordinary traffic", log, size),
        ("explain --format html", "ordinary traffic", log, size),
        ("capture", "ordinary traffic, each message in a packet", captured, size),
        ("capture", "messages of 16 kB in segments of 1,460 octets", captured_long, size),
        ("capture", "the same, the first of each 720 segments sent again behind the others", captured_again, size),
        ("capture", "connections from a port", reconnecting(1), size),
        ("capture", "connections from 4,000 ports in turn", reconnecting(4_000), size),
        ("capture", "connections from 50,000 ports", reconnecting(50_000), size),
        ("capture --log host", "ordinary traffic, each message in a packet", captured, size),
    ]
    with tempfile.TemporaryDirectory(prefix="hsms-bench-") as room:
        runner = Runner(room)
        for command, what, make, size in runs:
            if not words or any(word in f"{command}, {what}" for word in words):
                print(told(runner, command, what, make, size), flush=True)


def told(runner, command, what, make, size):
    """The line that tells of a command over an input."""
    path = f"{runner.room}/input"
    write(path, lambda size: [make(size)], size)
    given = os.path.getsize(path)
    copied, _ = runner.run(["cat"], path)
    taken, held = runner.run([PROGRAM, *command.split()], path)
    lines = f", {lines_of(path) / taken / 1e6:.2f} million lines/s" if make is log else ""
    speed = f"{given / MB / taken:.0f} MB/s{lines}, {taken / max(copied, 1e-3):.0f} times cat"
    return f"hsms {command}, {what}, {given // MB} MB: {speed}, {per_octet(runner, command, make)}{held:.0f} MB held"


def per_octet(runner, command, make):
    """How many instructions an octet takes: those of two inputs, one twice as long as the other, less one another."""
    path, counts = f"{runner.room}/small", []
    for size in (3 * MB, 6 * MB):
        write(path, lambda size: [make(size)], size)
        count = runner.instructions([PROGRAM, *command.split()], path)
        if count is None:
            return ""
        counts.append((count, os.path.getsize(path)))
    (few, short), (many, long) = counts
    return f"{(many - few) / (long - short):.1f} instructions an octet, "


if __name__ == "__main__":
    main()
