"""The output of `hsms capture` for a capture file: the verdicts on both ends of connections, or the log of a role.

It reads the whole file first, and then sorts the output into the order of a reader that sees one packet at a time.
"""
from dataclasses import dataclass, field, fields
from ipaddress import ip_address
from typing import Dict, List, Optional, Tuple

from tests.support.reference.packets import ACK, FIN, KINDS, PSH, RST, SYN, Packet, Segment, read_file, segment_of
from tests.support.reference.session import audit
from tests.support.reference.tcp import ACTIVE, LATER, PASSIVE, Happening, Seen, Told, told_of
from tests.support.reference.unaudited import Unjudged

MODULUS = 1 << 32

# After this many later connections, one that is over, or never had both numbers, is forgotten.
REMEMBERED = 4096

# After all packets.
NEVER = 1 << 70

OTHER_ROLE = {"host": "equipment", "equipment": "host"}

@dataclass(frozen=True)
class Options:
    """The options of the command, each as it is where it is left out."""

    port: int = 5000
    peer: Optional[str] = None
    active: str = "host"
    log: Optional[str] = None
    device: int = 0
    t3: int = 45000
    t6: int = 6000
    t7: int = 10000
    t8: int = 5000
    max: int = 1048576
    depth: int = 32

    def words(self) -> List[str]:
        """The words of the command line that say what is not left out."""
        given = [(one.name, getattr(self, one.name)) for one in fields(self) if getattr(self, one.name) != one.default]
        return [word for name, value in given for word in (f"--{name.rstrip('_')}", str(value))]

    def looks_at(self, segment: Segment) -> bool:
        """Whether an end of the segment's connection has the address that is asked for, if one is."""
        ends = [ip_address(address.strip("[]")) for address, _ in (segment.source, segment.target)]
        return not self.peer or ip_address(self.peer) in ends

    def role_of(self, end: int) -> str:
        return self.active if end == ACTIVE else OTHER_ROLE[self.active]

    def settings(self, end: int) -> str:
        numbers = f"{self.device} {self.t3} {self.t6} {self.t7} {self.t8} {self.max} {self.depth}"
        return f"hsms-log 2 {self.role_of(end)} {['active', 'passive'][end]} {numbers}"


@dataclass
class Connection:
    """A connection at the port: its ends, the numbers of its SYNs, and its segments.

    It is `closed` at a packet where another one takes its place, or where it is not waited for any more.
    """

    ends: Tuple[Tuple[str, int], Tuple[str, int]]
    place: int
    number: int
    answer: Optional[int] = None
    seen: List[Seen] = field(default_factory=list)
    closed: Optional[int] = None

    def names(self) -> str:
        return " ".join(f"{address}:{port}" for address, port in self.ends)

    def told(self, options: Options) -> Told:
        """Its events if no packet follows."""
        if self.answer is None:
            waiting = [one for one in self.seen if shows_answer(one)]
            return Told([], ("Lost", waiting[0].packet) if waiting else None, self.closed)
        told = told_of((self.number, self.answer), self.seen)
        for position, one in enumerate(told.happenings):
            length = len(one.octets) - 4
            if one.what == "message" and not 10 <= length <= options.max:
                return Told(told.happenings[:position], ("Length", one.packet), one.known)
        return told


def shows_answer(one: Seen) -> bool:
    """Whether a packet shows that the passive end's SYN was there."""
    return bool(one.data) and not one.is_reset or one.end == ACTIVE and one.acknowledged is not None


class Port:
    """The connections at a port."""

    def __init__(self, options: Options):
        self.options = options
        self.all: List[Connection] = []
        self.latest: Dict[frozenset, Connection] = {}
        self.unjudged = Unjudged(options)

    def is_over(self, connection: Connection) -> bool:
        return connection.closed is not None or connection.told(self.options).over is not None

    def known(self, pair: frozenset) -> Optional[Connection]:
        """The pair's connection, if it is not forgotten."""
        connection = self.latest.get(pair)
        is_old = connection and len(self.all) - connection.place > REMEMBERED
        return None if is_old and self.is_idle(connection) else connection

    def is_idle(self, connection: Connection) -> bool:
        """Whether a connection has no more events unless more of its packets arrive."""
        return self.is_over(connection) or connection.answer is None and not connection.told(self.options).fault

    def begin(self, packet: Packet, ends, number: int, old: Optional[Connection]) -> Connection:
        if old and not self.is_over(old):
            old.closed = packet.number
        connection = Connection(ends, len(self.all), number)
        self.all.append(connection)
        self.latest[frozenset(ends)] = connection
        return connection

    def take(self, packet: Packet, segment: Segment) -> bool:
        """Takes a segment. False where it has no time and belongs to a connection that is not over."""
        pair = frozenset((segment.source, segment.target))
        if len(pair) < 2 or self.options.port not in (segment.source[1], segment.target[1]):
            self.unjudged.take(segment)
            return True
        if not self.options.looks_at(segment):
            self.unjudged.take(segment)
            return True
        connection, begun = self.known(pair), self.begun_by(segment)
        is_new = begun and (not connection or (connection.ends, connection.number) != begun)
        if not is_new and connection is None:
            self.unjudged.run(segment)
            return True
        if not is_new and connection.closed is not None:
            return True
        if packet.time is None or packet.time >= 1 << 64:
            return not is_new and self.is_over(connection)
        if is_new:
            connection = self.begin(packet, *begun, connection)
        if begun and segment.flags & ACK and connection.answer is None:
            connection.answer = segment.number
        connection.seen.append(seen_of(packet, segment, connection))
        if connection.answer is None and len(connection.seen) > LATER:
            connection.closed = packet.number
        return True

    def begun_by(self, segment: Segment):
        """The ends and the SYN's sequence number of the connection that a segment opens, if it is a SYN."""
        kind = segment.flags & (SYN | ACK)
        if kind == SYN and segment.target[1] == self.options.port:
            return (segment.source, segment.target), segment.number
        if kind == SYN | ACK and segment.source[1] == self.options.port:
            return (segment.target, segment.source), (segment.acknowledged - 1) % MODULUS
        return None


def seen_of(packet: Packet, segment: Segment, connection: Connection) -> Seen:
    end = ACTIVE if segment.source == connection.ends[ACTIVE] else PASSIVE
    flags = [bool(segment.flags & flag) for flag in (SYN, FIN, PSH, RST)]
    return Seen(end, packet.number, packet.time, segment.number, segment.acknowledged, segment.data, *flags)


@dataclass
class Outcome:
    """The events of a connection, and the packet at which it is finished: `NEVER` if it is not before the end."""

    connection: Connection
    told: Told
    over: int
    is_replaced: bool = False

    @property
    def fault(self) -> Optional[str]:
        return "{} packet={}".format(*self.told.fault) if self.told.fault else None


class Capture:
    """A capture file, as far as it is read: its connections, packets that are left out, and why it is not read on."""

    def __init__(self, octets: bytes, options: Options):
        self.options = options
        file = read_file(octets)
        self.fault, self.last, self.left_out = file.fault, file.count, []
        port = Port(options)
        for packet in file.packets:
            segment = segment_of(packet)
            if isinstance(segment, str):
                self.left_out.append(segment)
            elif segment is not None and not port.take(packet, segment):
                self.fault, self.last = f"Time packet={packet.number}", packet.number - 1
                break
        self.unjudged = port.unjudged
        self.outcomes = [outcome for outcome in map(self.outcome, port.all) if outcome]

    def outcome(self, connection: Connection) -> Optional[Outcome]:
        """The events of a connection: None if it was never established and nothing is missing."""
        told = connection.told(self.options)
        closed = NEVER if connection.closed is None else connection.closed
        over = min(closed, NEVER if told.over is None else told.over)
        is_open = over == NEVER and connection.answer is not None
        if self.fault and is_open and not told.fault:
            told.fault = (self.fault.split()[0], self.last + 1)
        is_replaced = over == closed != NEVER and told.over is None and told.fault is None and told.came_up
        return Outcome(connection, told, over, is_replaced) if told.came_up or told.fault else None

    def first_fault(self, faults: List[Tuple[int, str]]) -> Optional[str]:
        """The first of the faults of connections and of the file, which is found before the file's end is looked at."""
        of_file = [(NEVER - 1, self.fault)] if self.fault else []
        return min([*of_file, *faults], key=lambda fault: fault[0], default=(0, None))[1]

    def line_of_left_out(self) -> List[str]:
        """What is said of packets that are left out."""
        kinds = self.left_out
        if not kinds:
            return []
        each = ", ".join(f"{kind} {kinds.count(kind)}" for kind in KINDS if kind in kinds)
        return [f"# {len(kinds)} packet{'s' if kinds[1:] else ''} skipped: {each}"]


def line_of(happening: Happening, end: int, time: int) -> str:
    if happening.what != "message":
        return f"{time} {happening.what}"
    return f"{time} {'>' if happening.end == end else '<'} {happening.octets[4:].hex()}"


def log_of(outcome: Outcome, end: int, options: Options) -> Tuple[str, List[int]]:
    """The log of an end of a connection, and the packets of its entries."""
    lines, time = [options.settings(end)], 0
    for happening in outcome.told.happenings:
        lines += [f"# packet {happening.packet}", line_of(happening, end, happening.time)]
        time = happening.time
    if outcome.is_replaced:
        lines += ["# assumed: replaced by a new connection", f"{time} down"]
    return "".join(line + "\n" for line in lines), [happening.packet for happening in outcome.told.happenings]


def verdict_of(outcome: Outcome, end: int, options: Options) -> str:
    log, packets = log_of(outcome, end, options)
    words = [f"incomplete packet={outcome.told.fault[1]}"] if outcome.told.fault else []
    if outcome.told.came_up:
        audited = audit(log.encode())
        verdict = audited.verdict
        if verdict.startswith("fail"):
            verdict = verdict.replace(" rule", f" packet={packets[audited.line // 2 - 1]} rule")
        words.append(verdict)
    return f"{outcome.connection.names()} {options.role_of(end)} {['active', 'passive'][end]}: {' '.join(words)}"


@dataclass
class Answer:
    """The output of the command, and its status. `fault` is its standard error."""

    lines: List[str]
    fault: Optional[str]
    status: int

    @property
    def output(self) -> bytes:
        return "".join(line + "\n" for line in self.lines).encode()

    @property
    def error(self) -> bytes:
        return f"hsms: {self.fault}\n".encode() if self.fault else b""


def judge(octets: bytes, options: Options) -> Answer:
    """The verdicts on both ends of each connection, in the order in which connections are over."""
    capture = Capture(octets, options)
    outcomes = sorted(capture.outcomes, key=lambda outcome: outcome.over)
    lines = [verdict_of(outcome, end, options) for outcome in outcomes for end in (ACTIVE, PASSIVE)]
    fails = any(" fail line=" in line for line in lines)
    fault = capture.first_fault([(one.over, of_file(capture, one)) for one in outcomes if one.told.fault])
    if not outcomes and not fault:
        fault = "NoConnection"
    lines += capture.line_of_left_out() + capture.unjudged.lines()
    return Answer(lines, None, 1) if fails else answer_of(lines, fault, capture)


def answer_of(lines: List[str], fault: Optional[str], capture: Capture) -> Answer:
    """The answer where no log fails: a fault, or that something is not audited."""
    fault = fault or ("NotJudged" if capture.unjudged.is_refused else None)
    return Answer(lines, fault, 2 if fault else 0)


def of_file(capture: Capture, outcome: Outcome) -> str:
    """The error of a connection as it is written. An error of the file is written as such."""
    is_files = capture.fault and outcome.told.fault[0] == capture.fault.split()[0]
    return capture.fault if is_files else outcome.fault


def write_log(octets: bytes, options: Options) -> Answer:
    """The log of a role, of all connections between the same two addresses."""
    capture = Capture(octets, options)
    end = ACTIVE if options.log == options.active else PASSIVE
    steps = []
    for outcome in capture.outcomes:
        place = outcome.connection.place
        steps += [(one.known, place, outcome, one) for one in outcome.told.happenings]
        steps.append((outcome.over, place, outcome, None))
    lines, peers, current, time = [], None, None, 0
    for moment, _, outcome, happening in sorted(steps, key=lambda step: step[:2]):
        addresses = [address for address, _ in outcome.connection.ends]
        fault = None
        if happening is None:
            if outcome.is_replaced:
                lines += ["# assumed: replaced by a new connection", f"{time} down"]
            fault = outcome.told.fault and of_file(capture, outcome)
            current = None if current is outcome else current
        elif happening.what == "up" and peers not in (None, addresses):
            fault = f"Peer packet={happening.packet}"
        elif happening.what == "up" and current is not None:
            fault = f"Overlap packet={happening.packet}"
        else:
            if peers is None:
                lines.append(options.settings(end))
            peers, current, time = addresses, outcome, max(time, happening.time)
            lines += [f"# packet {happening.packet}", line_of(happening, end, time)]
            if happening.what == "down":
                current = None
        if fault:
            return Answer(lines, capture.first_fault([(moment, fault)]), 2)
    fault = capture.fault or (None if capture.outcomes else "NoConnection")
    return answer_of(lines + capture.line_of_left_out() + capture.unjudged.lines(), fault, capture)


def capture(octets: bytes, options: Options) -> Answer:
    """What the command writes of a capture file."""
    return write_log(octets, options) if options.log else judge(octets, options)
