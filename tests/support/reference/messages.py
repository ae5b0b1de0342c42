"""Messages as bytes (SEMI E37, section 8): frames, headers and kinds; the answers of `hsms show` and `hsms encode`."""
import re
from dataclasses import dataclass
from typing import List, Optional, Tuple

from tests.support.reference import items, notation
from tests.support.reference.items import Fault

HEADER = 10
GREATEST_INPUT = 67_108_864

# Bytes in digits, with blanks before, between and after them.
OCTETS = re.compile(rb"[ \t]*(?:[0-9A-Fa-f]{2}[ \t]*)*")

CONTROL_KINDS = {1: "select.req", 2: "select.rsp", 5: "linktest.req", 6: "linktest.rsp", 7: "reject", 9: "separate"}


class Frame:
    """A message without its length bytes: the fields of its header, and its text."""

    def __init__(self, octets: bytes):
        self.octets = octets
        self.session = int.from_bytes(octets[0:2], "big")
        self.byte2 = octets[2]
        self.byte3 = octets[3]
        self.ptype = octets[4]
        self.stype = octets[5]
        self.system = int.from_bytes(octets[6:10], "big")
        self.text = octets[10:]
        self.kind = self.kind_of_header()
        self.is_data = self.kind in ("primary", "reply")
        self.is_control = self.kind in CONTROL_KINDS.values()

    def kind_of_header(self) -> str:
        if self.ptype != 0:
            return "other-ptype"
        if self.stype == 0:
            return "primary" if self.byte3 % 2 == 1 else "reply"
        return CONTROL_KINDS.get(self.stype, "other-stype")

    @property
    def wait(self) -> bool:
        """The W bit of data: bit 8 of byte 2."""
        return self.byte2 & 0x80 != 0

    @property
    def stream(self) -> int:
        return self.byte2 & 0x7F

    @property
    def function(self) -> int:
        return self.byte3


def frame_at(octets: bytes, place: int, greatest: int) -> Tuple[Frame, int]:
    """The message at a place before the end, and the place after it. Its faults are those of a stream of bytes."""
    rest = len(octets) - place
    length = int.from_bytes(octets[place:place + 4], "big")
    if rest >= 4 and length < HEADER:
        raise Fault("TooShort", length=length)
    if rest >= 4 + HEADER and length > greatest:
        raise Fault("TooLong", length=length)
    if rest < 4 or rest < 4 + length:
        raise Fault("CutOff")
    end = place + 4 + length
    return Frame(octets[place + 4:end]), end


def frames_of(octets: bytes, greatest: int) -> Tuple[List[Frame], Optional[Fault]]:
    """The messages of a stream of bytes up to its end or its first fault, and that fault."""
    frames, place = [], 0
    while place < len(octets):
        try:
            frame, place = frame_at(octets, place, greatest)
        except Fault as fault:
            return frames, fault
        frames.append(frame)
    return frames, None


def shown(frame: Frame, depth: int) -> str:
    """The line of a message (this project's own form)."""
    name = "data" if frame.is_data else frame.kind
    front = f"{name} {frame.session:04x} {frame.system:08x}"
    if frame.is_data:
        return f"{front} {shown_data(frame, depth)}"
    behind = f" ! {frame.text.hex()}" if frame.text else ""
    return front + shown_header_bytes(frame) + behind


def shown_data(frame: Frame, depth: int) -> str:
    """A data message in notation, or where its text is not readable, with the text in hexadecimal."""
    try:
        item = items.decode_text(frame.text, depth)
    except Fault:
        wait = " W" if frame.wait else ""
        return f"S{frame.stream}F{frame.function}{wait} ! {frame.text.hex()}"
    return notation.printed(notation.Message(frame.stream, frame.function, frame.wait, item))


def shown_header_bytes(frame: Frame) -> str:
    """What a message other than data has in the header bytes that its kind uses."""
    if frame.kind == "select.rsp":
        return f" {frame.byte3}"
    if frame.kind == "reject":
        return f" {frame.byte2} {frame.byte3}"
    if frame.kind == "other-stype":
        return f" {frame.stype}"
    if frame.kind == "other-ptype":
        return f" {frame.ptype}"
    return ""


@dataclass(frozen=True)
class Options:
    """The options of `hsms show` and `hsms encode`, each as it is where it is left out."""

    device: int = 0
    system: int = 1
    max: int = 1_048_576
    depth: int = 32
    hex: bool = False
    bare: bool = False


def frame_of_line(line: bytes, number: int, options: Options) -> Optional[Frame]:
    """The message of a line of hexadecimal with this number, or None where the line has no byte."""
    if len(line) > 4 * options.max + 64:
        raise Fault("NoMessage", line=number)
    digits = line[:-1] if line.endswith(b"\r") else line
    if not OCTETS.fullmatch(digits):
        raise Fault("NoHex", line=number)
    octets = bytes.fromhex(digits.translate(None, b" \t").decode())
    if not octets:
        return None
    content = octets if options.bare else octets[4:]
    is_counted = options.bare or (len(octets) >= 4 and int.from_bytes(octets[:4], "big") == len(content))
    if not is_counted or not HEADER <= len(content) <= options.max:
        raise Fault("NoMessage", line=number)
    return Frame(content)


def frames_of_lines(text: bytes, options: Options) -> Tuple[List[Frame], Optional[Fault]]:
    """The messages of lines of hexadecimal up to their end or the first fault, and that fault."""
    frames = []
    for number, line in enumerate(text.split(b"\n"), 1):
        try:
            frame = frame_of_line(line, number, options)
        except Fault as fault:
            return frames, fault
        frames += [frame] if frame else []
    return frames, None


def frames_given(given: bytes, options: Options) -> Tuple[List[Frame], Optional[Fault]]:
    """The messages of what `hsms show` is given, up to its end or its first fault, and that fault."""
    return frames_of_lines(given, options) if options.hex else frames_of(given, options.max)


def show(given: bytes, options: Options) -> Tuple[bytes, Optional[Fault]]:
    """The output of `hsms show` for an input, and its error."""
    frames, fault = frames_given(given, options)
    lines = [shown(frame, options.depth) + "\n" for frame in frames]
    return "".join(lines).encode(), fault


def encode(text: bytes, options: Options) -> Tuple[bytes, Optional[Fault]]:
    """The output of `hsms encode` for messages in notation, and its error. With an error there is no output."""
    try:
        if len(text) > GREATEST_INPUT:
            raise Fault("Input")
        messages = notation.read_all(text, options.depth)
        frames = [encoded(message, number, options) for number, message in enumerate(messages)]
    except Fault as fault:
        return b"", fault
    if options.hex:
        return b"".join(frame.hex().encode() + b"\n" for frame in frames), None
    return b"".join(frames), None


def encoded(message: notation.Message, number: int, options: Options) -> bytes:
    """The bytes of the message of a number from 0 on. System bytes are counted up; 0 follows ffffffff."""
    text = items.encode(message.item) if message.item else b""
    length = HEADER + len(text)
    if length > options.max:
        raise Fault("TooLong", length=length)
    system = (options.system + number) % (1 << 32)
    byte2 = 0x80 * message.wait + message.stream
    header = options.device.to_bytes(2, "big") + bytes([byte2, message.function, 0, 0]) + system.to_bytes(4, "big")
    return length.to_bytes(4, "big") + header + text
