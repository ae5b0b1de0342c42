"""HSMS in a capture that is not audited, and the line that reports it."""
from dataclasses import dataclass, field
from typing import Iterable, List, Optional, Set

from tests.support.reference.items import fault_of_text
from tests.support.reference.messages import HEADER, Frame
from tests.support.reference.packets import RST, SYN, Segment

CONTROL_SESSION = 0xFFFF
MAX_DEVICE = 0x7FFF

# As many pairs of endpoints are counted, and as many numbers are listed.
MAX_PAIRS = 4096
LISTED = 8


def message_in(octets: bytes, options) -> Optional[Frame]:
    """The one HSMS message that the bytes of a segment are, if they are one."""
    length = int.from_bytes(octets[:4], "big")
    if length < HEADER or len(octets) != 4 + length or length > options.max:
        return None
    frame = Frame(octets[4:])
    if frame.is_data:
        has_any = bool(frame.text) or frame.system != 0
        is_one = frame.session <= MAX_DEVICE and frame.stream != 0 and has_any
    else:
        is_one = frame.is_control and frame.session == CONTROL_SESSION and not frame.text
    return frame if is_one and fault_of_text(frame.text, options.depth) is None else None


def listed(numbers: Iterable[int]) -> str:
    """The lowest numbers, and two dots if there are more."""
    found = sorted(set(numbers))
    return ", ".join(map(str, found[:LISTED])) + (" .." if found[LISTED:] else "")


def sessions_of(pairs: Set) -> str:
    if len(pairs) > MAX_PAIRS:
        return f"{MAX_PAIRS} or more sessions"
    return f"{len(pairs)} session{'' if len(pairs) == 1 else 's'}"


@dataclass
class Unjudged:
    """The sessions and ports that are not audited: sessions by their two endpoints, or for each that is given up."""

    options: object
    running: Set[frozenset] = field(default_factory=set)
    elsewhere: Set[frozenset] = field(default_factory=set)
    given_up: int = 0
    devices: Set[int] = field(default_factory=set)
    ports: Set[int] = field(default_factory=set)

    def take(self, segment: Segment):
        """Takes a segment at another port or of other addresses."""
        if segment.source != segment.target and message_in(segment.data, self.options):
            ports = segment.source[1], segment.target[1]
            if not self.options.looks_at(segment):
                self.elsewhere.add(frozenset((segment.source, segment.target)))
            elif self.options.port not in ports:
                self.ports.add(min(ports))

    def run(self, segment: Segment):
        """Takes a segment at the port, of a pair that has no connection."""
        if not segment.flags & (SYN | RST) and message_in(segment.data, self.options):
            self.running.add(frozenset((segment.source, segment.target)))

    def give_up(self, payloads: List[bytes]):
        """Takes the packets that are kept of a session that was running, if no beginning is sure."""
        frames = [message_in(octets, self.options) for octets in payloads]
        devices = {frame.session for frame in frames if frame and frame.is_data}
        if devices and self.options.device not in devices:
            self.given_up += 1
            self.devices |= devices

    def lines(self) -> List[str]:
        """The line, if there is anything to say."""
        parts = []
        if self.running:
            were = "was" if len(self.running) == 1 else "were"
            parts.append(f"{sessions_of(self.running)} that {were} running before the capture (--midstream)")
        if self.elsewhere:
            parts.append(f"{sessions_of(self.elsewhere)} of other addresses (--peer)")
        if self.given_up:
            of = "another device" if len(self.devices) == 1 else "other devices"
            count = f"{self.given_up} session{'' if self.given_up == 1 else 's'}"
            parts.append(f"{count} of {of}: {listed(self.devices)}")
        if self.ports:
            at = "another port" if len(self.ports) == 1 else "other ports"
            parts.append(f"HSMS at {at}: {listed(self.ports)}")
        return [f"# not judged: {'; '.join(parts)}"] if parts else []

    @property
    def is_refused(self) -> bool:
        """Whether some of it is left out by no option. The tests give --port where it is not 5000."""
        return bool(self.running or self.given_up or self.ports and self.options.port == 5000)
