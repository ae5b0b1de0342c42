"""The comparison of the session logs of both ends of a connection, by its definition.

Two logs agree if some order of all their entries is possible: at each time what an end has received is a prefix of what
the other end has sent. A contradiction is repaired in one defined way, so that later ones are found too. The cause of a
request that was not answered in time is found by positions in the logs, never by system bytes. Times are compared within
one log only.
"""
import json
from dataclasses import dataclass, field
from typing import Dict, List, Optional, Tuple

from tests.support.reference import session
from tests.support.reference.explain import times_of
from tests.support.reference.messages import Frame
from tests.support.reference.session import DISCARDED, SENT, TAKEN, Entry, Settings

HOST, EQUIPMENT = "host", "equipment"
OTHER = {HOST: EQUIPMENT, EQUIPMENT: HOST}

# How many entries of a connection are its beginning, and how many messages are searched.
BEGINNING = 256
SEARCHED = 256

# How many kinds of requests of an end have times of their own.
KINDS = 64

CONTRADICTIONS = ("skipped", "swapped", "again", "differs", "unsent", "order")
COUNTS = ("alone", "beyond", "apart", "skipped", "swapped", "again", "differs", "unsent", "unfound", "order", "times", "failed")


@dataclass(frozen=True)
class Options:
    """`data`: only data messages are compared. `headers`: two messages are equal if their headers are. `skip`: how many
    connections of each log are left out."""

    data: bool = False
    headers: bool = False
    skip: Tuple[int, int] = (0, 0)


class Invalid(Exception):
    """The logs are not those of the two ends of a connection."""


# ---- the logs


@dataclass
class Place:
    """An entry with its line."""

    line: int
    entry: Entry


@dataclass
class Connection:
    """The entries of a connection. It is open if it may go on behind them."""

    places: List[Place]
    is_open: bool
    options: Options

    def is_message(self, place: Place) -> bool:
        return place.entry.frame is not None and (place.entry.frame.is_data or not self.options.data)

    def messages(self, events: Tuple[str, ...]) -> List[int]:
        return [at for at, it in enumerate(self.places) if it.entry.event in events and self.is_message(it)]

    @property
    def sent(self) -> List[int]:
        return self.messages((SENT,))

    @property
    def received(self) -> List[int]:
        return self.messages((TAKEN, DISCARDED))

    def frame(self, at: int) -> Frame:
        return self.places[at].entry.frame

    def line(self, at: int) -> int:
        return self.places[at].line

    def time(self, at: int) -> int:
        return self.places[at].entry.time

    @property
    def beginning(self) -> "Connection":
        is_longer = len(self.places) > BEGINNING
        return Connection(self.places[:BEGINNING], self.is_open or is_longer, self.options)

    @property
    def has_received_data(self) -> bool:
        return any(self.frame(at).is_data for at in self.received)

    def counts(self) -> str:
        return f"line={self.line(0)} sent={len(self.sent)} received={len(self.received)}"

    @property
    def session_end(self) -> Optional[int]:
        """Where the session ends: the first Separate or cut."""
        return next((at for at, it in enumerate(self.places) if ends_session(it.entry)), None)


def ends_session(entry: Entry) -> bool:
    return entry.event == "cut" or entry.flows and entry.frame.kind == "separate"


@dataclass
class Log:
    """A log: its settings, its entries up to the first unreadable line, and the verdict on it."""

    settings: Settings
    front: List[Place]
    connections: List[Connection]
    verdict: str

    @classmethod
    def read(cls, text: bytes, options: Options) -> "Log":
        lines = session.lines_of(text)
        settings = session.settings_of(lines[0] if lines else b"")
        places = []
        for number, line in enumerate(lines[1:], start=2):
            try:
                entry = session.entry_of(line, settings)
            except session.Unreadable:
                break
            is_cut_off = number == len(lines) and not text.endswith(b"\n")
            if entry is not None and not (is_cut_off and entry.frame is not None):
                places.append(Place(number, entry))
        ups = [at for at, it in enumerate(places) if it.entry.event == "up"]
        bounds = list(zip(ups, [*ups[1:], len(places)]))
        parts = [places[start:end] for start, end in bounds]
        connections = [
            Connection(part, part is parts[-1] and part[-1].entry.event != "down", options) for part in parts
        ]
        return cls(settings, places[: ups[0] if ups else len(places)], connections, session.audit(text).verdict)


def read_both(texts: Tuple[bytes, bytes], options: Options) -> Dict[str, Log]:
    """Returns the logs by the roles of their ends."""
    logs = []
    for number, text in enumerate(texts, start=1):
        try:
            logs.append(Log.read(text, options))
        except session.Unreadable:
            raise Invalid(f"FirstLine operand={number}") from None
    one, other = (it.settings for it in logs)
    if one.role == other.role:
        raise Invalid("SameRole")
    if one.link == other.link:
        raise Invalid("SameLink")
    if one.device != other.device:
        raise Invalid("Device")
    return {it.settings.role: it for it in logs}


# ---- the messages of one direction


def same(options: Options, one: Frame, other: Frame) -> bool:
    return same_header(one, other) if options.headers else one.octets == other.octets


def same_header(one: Frame, other: Frame) -> bool:
    return one.octets[:10] == other.octets[:10]


@dataclass
class Direction:
    """What the receiver's messages are of the sender's, by numbers of both lists, and what contradicts."""

    sender: Connection
    receiver: Connection
    match: Dict[int, int] = field(default_factory=dict)
    skipped: Dict[int, int] = field(default_factory=dict)
    facts: List[tuple] = field(default_factory=list)
    trailing: List[int] = field(default_factory=list)
    next: int = 0
    is_given_up: bool = False
    is_unfound: bool = False

    def __post_init__(self):
        self.sent, self.received = self.sender.sent, self.receiver.received
        for number in range(len(self.received)):
            if not self.is_given_up:
                self.take(number)

    def is_same(self, sent: int, received: int) -> bool:
        return same(self.sender.options, self.sender.frame(self.sent[sent]), self.receiver.frame(self.received[received]))

    def first_same(self, numbers, received: int) -> Optional[int]:
        return next((it for it in numbers if self.is_same(it, received)), None)

    @property
    def is_at_open_end(self) -> bool:
        return self.next == len(self.sent) and self.sender.is_open

    def has_next_header(self, received: int) -> bool:
        if self.next == len(self.sent):
            return False
        return same_header(self.sender.frame(self.sent[self.next]), self.receiver.frame(self.received[received]))

    def take(self, received: int):
        """Takes the next received message."""
        known = len(self.sent)
        found = self.first_same(range(self.next, min(self.next + SEARCHED, known)), received)
        before = range(max(0, self.next - SEARCHED), self.next)
        late = self.first_same([it for it in before if it in self.skipped], received)
        if found is not None:
            self.settle()
            self.skipped.update(dict.fromkeys(range(self.next, found), received))
            self.match[received], self.next = found, found + 1
        elif late is not None:
            self.settle()
            del self.skipped[late]
            self.match[received] = late
            self.facts.append(("swapped", late, received))
        elif self.has_next_header(received):
            self.settle()
            self.facts.append(("differs", self.next, received))
            self.match[received], self.next = self.next, self.next + 1
        elif self.first_same(before, received) is not None and not self.is_at_open_end:
            self.settle()
            self.facts.append(("again", None, received))
        else:
            self.trailing.append(received)
            self.is_given_up = len(self.trailing) == SEARCHED

    def settle(self):
        """Names those before the message that was found as unsent."""
        self.facts += [("unsent", None, it) for it in self.trailing]
        self.trailing = []

    def finish(self, back: "Direction"):
        """Says what the received messages behind the last one that was found are."""
        if not self.trailing:
            return
        if self.is_at_open_end:
            shown = [back.sent[it] for it in back.match.values()]
            last = max(shown, default=-1)
            later = [it for it in self.trailing if self.received[it] > last]
            self.trailing = [it for it in self.trailing if it not in later]
            self.settle()
            if later:
                self.facts.append(("later", len(later), later[0]))
        elif self.is_given_up or len(self.sent) - self.next >= SEARCHED:
            self.is_unfound = True
            self.facts.append(("unfound", None, self.trailing[0]))
        else:
            self.settle()

    def own_of(self, place: int) -> Optional[int]:
        """Returns where the receiver's log has what was sent at a place."""
        return next((self.received[it] for it, sent in self.match.items() if self.sent[sent] == place), None)

    def sent_of(self, place: int) -> Optional[int]:
        """Returns where the sender's log has what was received at a place."""
        return next((self.sent[sent] for it, sent in self.match.items() if self.received[it] == place), None)

    def is_skipped(self, place: int) -> bool:
        return any(self.sent[it] == place for it in self.skipped)

    def is_unsent(self, place: int) -> bool:
        """Returns whether the sender's log never has what was received at a place."""
        return any(name in ("unsent", "again") and self.received[it] == place for name, _, it in self.facts)

    def all_facts(self) -> List[tuple]:
        """Returns each fact with the sender's line and the receiver's, in order."""
        found = self.facts + [("skipped", sent, received) for sent, received in self.skipped.items()]
        lines = []
        for name, first, received in found:
            line = self.receiver.line(self.received[received])
            is_of_sender = name in ("skipped", "swapped", "differs")
            lines.append((line, self.sender.line(self.sent[first]) if is_of_sender else 0, name, first))
        return sorted(lines, key=lambda it: it[:2])


# ---- two connections


@dataclass
class Pair:
    """The connections of both logs that are one, compared."""

    host: Connection
    equipment: Connection
    settings: Dict[str, Settings]
    is_in_doubt: bool

    def __post_init__(self):
        self.of = {HOST: self.host, EQUIPMENT: self.equipment}
        self.to = {EQUIPMENT: Direction(self.host, self.equipment), HOST: Direction(self.equipment, self.host)}
        for end, direction in self.to.items():
            direction.finish(self.to[OTHER[end]])
        self.orders = self.find_orders()

    def find_orders(self) -> List[Tuple[int, int]]:
        """Goes through both logs as far as each message is sent before it is received. Where neither log can go on, the
        next entries of both are in no possible order: both are taken."""
        at, found = {HOST: 0, EQUIPMENT: 0}, []
        while any(at[end] < len(self.of[end].places) for end in at):
            ready = [end for end in at if at[end] < len(self.of[end].places) and self.may_go_on(end, at)]
            if not ready:
                found.append((at[HOST], at[EQUIPMENT]))
            for end in ready[:1] or at:
                at[end] += 1
        return found

    def may_go_on(self, end: str, at: Dict[str, int]) -> bool:
        sent = self.to[end].sent_of(at[end])
        return sent is None or sent < at[OTHER[end]]

    def requests(self, end: str) -> List["Request"]:
        own = self.of[end]
        return [Request(self, end, at) for at in own.sent if session.opens(own.places[at].entry)]


class Request:
    """A sent message that opens a transaction, and what became of it."""

    def __init__(self, pair: Pair, end: str, at: int):
        self.pair, self.end, self.at = pair, end, at
        self.own, self.peer = pair.of[end], pair.of[OTHER[end]]
        self.entry = self.own.places[at].entry
        self.frame = self.entry.frame
        settings = pair.settings[end]
        self.limit = settings.t3 if self.frame.is_data else settings.t6
        self.going, self.coming = pair.to[OTHER[end]], pair.to[end]
        self.closing = next((it for it in self.behind() if session.closes(self.entry, self.own.places[it].entry)), None)
        self.fate = self.find_fate()
        self.find_places()
        self.find_times()

    def behind(self) -> range:
        return range(self.at + 1, len(self.own.places))

    def past(self, at: int) -> int:
        return self.own.time(at) - self.entry.time

    def find_fate(self) -> str:
        if self.closing is not None:
            closing = self.own.places[self.closing].entry
            if closing.event == "t3":
                return "expired"
            if closing.frame.kind == "reject":
                return "rejected"
            return "answered" if self.past(self.closing) <= self.limit else "late"
        cuts = [it for it in self.behind() if self.own.places[it].entry.cause == "t6"]
        if self.frame.is_control and any(self.past(it) >= self.limit for it in cuts):
            return "expired"
        end = self.own.session_end
        if any(self.past(it) > self.limit for it in self.behind() if end is None or it <= end):
            return "overdue"
        return "open" if self.own.is_open else "ended"

    def closes(self, frame: Frame) -> bool:
        is_reject = frame.kind == "reject" and frame.system == self.frame.system
        return is_reject or session.answers(self.frame, frame)

    def find_places(self):
        """Finds where the peer's log has the request, and what closes it, and where the own log has that. If the peer's log
        has no answer: where the own log first has one."""
        self.arrived = self.going.own_of(self.at)
        self.answer = self.reply = None
        if self.arrived is not None:
            behind = [it for it, place in enumerate(self.peer.places) if it > self.arrived and place.entry.event == SENT]
            self.answer = next((it for it in behind if self.closes(self.peer.frame(it))), None)
        if self.answer is not None:
            self.reply = self.coming.own_of(self.answer)
        else:
            received = [it for it in self.own.received if it > self.at]
            self.reply = next((it for it in received if session.answers(self.frame, self.own.frame(it))), None)
        self.is_own_reply = self.answer is not None and self.reply is not None

    def find_times(self):
        self.took = self.after = self.between = None
        if self.arrived is not None and self.answer is not None:
            self.took = max(0, self.peer.time(self.answer) - self.peer.time(self.arrived))
        if self.reply is not None:
            self.after = max(0, self.past(self.reply))
        if self.took is not None and self.after is not None:
            self.between = max(0, self.after - self.took)

    @property
    def kind(self) -> str:
        frame = self.frame
        return f"S{frame.stream}F{frame.function} W" if frame.is_data else frame.kind

    def peer_end(self) -> Tuple[int, bool]:
        """Returns where the peer's session ends behind the request, and whether that is said by an entry."""
        for at in range(self.arrived + 1, len(self.peer.places)):
            entry = self.peer.places[at].entry
            if ends_session(entry) or entry.event == "down":
                return at, True
        return len(self.peer.places) - 1, False

    def without_request(self) -> str:
        """Returns the cause where the peer's log lacks the request."""
        if self.going.is_skipped(self.at):
            return "request-skipped"
        if self.going.is_unfound or self.peer.is_open:
            return "unknown"
        return "request-missing" if self.reply is None else "request-skipped"

    def without_answer(self) -> str:
        """Returns the cause where the peer's log lacks an answer."""
        if self.coming.is_unfound:
            return "unknown"
        if self.reply is not None:
            return "reply-unsent" if self.coming.is_unsent(self.reply) else "unknown"
        at, is_said = self.peer_end()
        if self.peer.time(at) - self.peer.time(self.arrived) <= self.limit:
            return "ended" if is_said or not self.peer.is_open else "unknown"
        return "unanswered"

    def without_reply(self) -> str:
        """Returns the cause where the own log lacks the answer."""
        if self.coming.is_skipped(self.answer):
            return "reply-skipped"
        is_compared = self.peer.is_message(self.peer.places[self.answer])
        return "unknown" if self.coming.is_unfound or self.own.is_open or not is_compared else "reply-missing"

    @property
    def cause(self) -> str:
        if self.pair.is_in_doubt:
            return "unknown"
        if self.fate == "rejected":
            return "rejected"
        if self.arrived is None:
            return self.without_request()
        if self.peer.places[self.arrived].entry.event == DISCARDED:
            return "discarded"
        if self.answer is None:
            return self.without_answer()
        if self.reply is not None and self.after < self.limit:
            return "in-time"
        if self.took > self.limit:
            return "answered-late"
        if self.reply is not None:
            return "peer" if self.took >= self.between else "between"
        return self.without_reply()

    def details(self) -> List[Tuple[str, int]]:
        """Returns the lines and times that are shown."""
        if self.pair.is_in_doubt:
            return []
        cause, found = self.cause, []
        if self.arrived is not None:
            is_taken = self.peer.places[self.arrived].entry.event == TAKEN
            found.append(("received" if is_taken else "discarded", self.peer.line(self.arrived)))
        if cause == "rejected":
            sent = self.coming.sent_of(self.closing)
            return found + ([("rejected", self.peer.line(sent))] if sent is not None else [])
        if self.answer is not None:
            is_reject = self.peer.frame(self.answer).kind == "reject"
            found.append(("rejected" if is_reject else "answered", self.peer.line(self.answer)))
        times = [("took", self.took), ("reply", self.reply and self.own.line(self.reply)), ("after", self.after)]
        found += [it for it in [*times, ("between", self.between)] if it[1] is not None]
        if cause == "ended" and self.peer_end()[1]:
            found.append(("ended", self.peer.line(self.peer_end()[0])))
        return found

    @property
    def is_timed(self) -> bool:
        """Whether its times count: an answer closes it, which both logs have, and the peer took it."""
        if self.pair.is_in_doubt or self.fate not in ("answered", "late") or self.arrived is None:
            return False
        is_taken = self.peer.places[self.arrived].entry.event == TAKEN
        return is_taken and self.is_own_reply and self.reply == self.closing


# ---- the connections


def contradicts(sender: Connection, receiver: Connection) -> bool:
    """Whether the beginnings of two connections contradict each other in a direction."""
    sent, received = sender.sent, receiver.received
    pairs = zip(sent, received)
    if any(not same(sender.options, sender.frame(one), receiver.frame(other)) for one, other in pairs):
        return True
    return len(received) > len(sent) and not sender.is_open


def data_that_is_sent(receiver: Connection, sender: Connection) -> Tuple[int, int]:
    """Returns how many of the data messages that one end received the other end sent, and how many there are."""
    sent = [sender.frame(at) for at in sender.sent]
    received = [receiver.frame(at) for at in receiver.received if receiver.frame(at).is_data]
    return sum(any(same(sender.options, one, it) for one in sent) for it in received), len(received)


class Comparison:
    """What two logs say of each other, as the lines of `hsms compare`."""

    def __init__(self, texts: Tuple[bytes, bytes], options: Options = Options()):
        self.options = options
        self.logs = read_both(texts, options)
        self.objects: List[dict] = []
        self.counts = dict.fromkeys(COUNTS, 0)
        self.pairs: List[Pair] = []
        self.stats: Dict[str, Dict[tuple, List[Request]]] = {HOST: {}, EQUIPMENT: {}}
        self.unlike: List[Request] = []
        for end in (HOST, EQUIPMENT):
            self.tell_front(end)
        self.compare_connections()
        self.tell_statistics()
        self.tell_verdict()

    def add(self, name: str, **members):
        self.objects.append({"type": name, **members})
        if name in self.counts:
            self.counts[name] += 1

    def tell_front(self, end: str):
        front = self.logs[end].front
        if front:
            part = Connection(front, False, self.options)
            self.add("front", end=end, line=front[0].line, sent=len(part.sent), received=len(part.received))

    @property
    def is_version_1(self) -> bool:
        return all(it.settings.version == 1 for it in self.logs.values())

    def compare_connections(self):
        skip = dict(zip((HOST, EQUIPMENT), self.options.skip))
        self.connections = {end: log.connections[skip[end]:] for end, log in self.logs.items()}
        at = {HOST: 0, EQUIPMENT: 0}
        while all(at[end] < len(self.connections[end]) for end in at):
            host, equipment = (self.connections[end][at[end]] for end in (HOST, EQUIPMENT))
            alone = self.alone(host.beginning, equipment.beginning)
            if alone == "apart":
                self.add("apart", host=host.line(0), equipment=equipment.line(0))
                return
            if alone:
                self.tell_one("alone", alone, self.connections[alone][at[alone]])
                at[alone] += 1
                continue
            self.tell_pair(host, equipment, at)
            at = {end: place + 1 for end, place in at.items()}
        for end in at:
            for connection in self.connections[end][at[end]:]:
                self.tell_one("beyond", end, connection)

    def alone(self, host: Connection, equipment: Connection) -> str:
        """Returns the end whose connection the other log lacks, `apart`, or an empty text for a pair."""
        if self.is_version_1:
            return ""
        of = {HOST: host, EQUIPMENT: equipment}
        for receiver in (EQUIPMENT, HOST):
            if contradicts(of[OTHER[receiver]], of[receiver]):
                for end in (OTHER[receiver], receiver):
                    if not of[end].has_received_data:
                        return end
                counts = [data_that_is_sent(of[end], of[OTHER[end]]) for end in of]
                found, known = (sum(it) for it in zip(*counts))
                return "" if 2 * found > known else "apart"
        return ""

    def tell_one(self, kind: str, end: str, connection: Connection):
        self.add(kind, end=end, line=connection.line(0), sent=len(connection.sent), received=len(connection.received))

    def is_in_doubt(self, host: Connection, equipment: Connection, at: Dict[str, int]) -> bool:
        if self.is_version_1 or host.has_received_data or equipment.has_received_data:
            return False
        if not host.received and not equipment.received:
            return True
        active = next(end for end, log in self.logs.items() if log.settings.link == "active")
        own, place = self.connections[active], at[active]
        near = [own[it] for it in (place - 1, place + 1) if 0 <= it < len(own)]
        firsts = [self.first_sent(it.beginning) for it in (own[place], *near)]
        return any(firsts[0] and other and same(self.options, firsts[0], other) for other in firsts[1:])

    def first_sent(self, connection: Connection) -> Optional[Frame]:
        sent = connection.sent
        return connection.frame(sent[0]) if sent else None

    def tell_pair(self, host: Connection, equipment: Connection, at: Dict[str, int]):
        settings = {end: log.settings for end, log in self.logs.items()}
        pair = Pair(host, equipment, settings, self.is_in_doubt(host, equipment, at))
        self.pairs.append(pair)
        self.add(
            "connection", host=host.line(0), equipment=equipment.line(0), host_sent=len(host.sent),
            host_received=len(host.received), equipment_sent=len(equipment.sent), equipment_received=len(equipment.received),
        )
        for receiver in (EQUIPMENT, HOST):
            self.tell_direction(receiver, pair.to[receiver])
        for one, other in pair.orders:
            self.add(
                "order", host=host.line(one), host_from=equipment.line(pair.to[HOST].sent_of(one)),
                equipment=equipment.line(other), equipment_from=host.line(pair.to[EQUIPMENT].sent_of(other)),
            )
        for end in (HOST, EQUIPMENT):
            for request in pair.requests(end):
                self.tell_request(request)

    def tell_direction(self, receiver: str, direction: Direction):
        for line, sent, kind, first in direction.all_facts():
            if sent:
                self.add(kind, sender=OTHER[receiver], **{OTHER[receiver]: sent, receiver: line})
            elif kind == "later":
                self.add(kind, end=receiver, line=line, received=first)
            else:
                self.add(kind, end=receiver, line=line)

    def tell_request(self, request: Request):
        if request.is_timed:
            kind = (request.frame.is_data, request.kind)
            kinds = self.stats[request.end]
            kinds.setdefault(kind if kind in kinds or len(kinds) < KINDS else (True, "others W"), []).append(request)
        if not request.pair.is_in_doubt and request.is_own_reply and request.took is not None:
            if 1000 * (request.took - request.after) > 20000 + request.took:
                self.unlike.append(request)
        if request.fate != "answered":
            self.add(
                "transaction", fate=request.fate, end=request.end, line=request.own.line(request.at), **kind_members(request),
                system=f"{request.frame.system:08x}", cause=request.cause, **dict(request.details()),
            )
            self.counts["failed"] += 1

    def tell_statistics(self):
        for end in (HOST, EQUIPMENT):
            for kind in sorted(self.stats[end], key=kind_order):
                requests = self.stats[end][kind]
                members = {"kind": "others"} if kind[1] == "others W" else kind_members(requests[0])
                took = times_of([(it.took, it.peer.line(it.answer)) for it in requests])
                between = times_of([(it.between, it.own.line(it.reply)) for it in requests])
                for name, times in (("took", took), ("between", between)):
                    self.objects.append({"type": name, "end": end, **members, "answered": len(requests), **times})
        self.counts["times"] = len(self.unlike)
        if self.unlike:
            worst = max(self.unlike, key=lambda it: (it.took - it.after, it.end == HOST))
            self.objects.append({
                "type": "times", "end": worst.end, "line": worst.own.line(worst.at), "took": worst.took, "after": worst.after,
            })

    @property
    def verdict(self) -> str:
        if any(self.counts[it] for it in CONTRADICTIONS):
            return "disagree"
        if self.counts["unfound"] or self.counts["apart"] or not self.pairs:
            return "undecided"
        return "agree"

    def tell_verdict(self):
        for end in (HOST, EQUIPMENT):
            self.objects.append({"type": "audit", "end": end, **audit_members(self.logs[end].verdict)})
        self.objects.append({"type": "verdict", "verdict": self.verdict, "connections": len(self.pairs), **self.counts})

    @property
    def status(self) -> int:
        if self.verdict == "disagree" or any(log.verdict.startswith("fail") for log in self.logs.values()):
            return 1
        return 0 if self.verdict == "agree" else 2

    def text(self) -> str:
        return "".join(f"{text_of(it)}\n" for it in self.objects)

    def json(self) -> str:
        return "".join(json.dumps(it, separators=(",", ":")) + "\n" for it in self.objects)


def kind_order(kind: Tuple[bool, str]) -> tuple:
    is_data, name = kind
    if name == "others W":
        return 1, 0, 0
    if not is_data:
        return (2, 0, 0) if name == "select.req" else (3, 0, 0)
    stream, function = name[1:].removesuffix(" W").split("F")
    return 0, int(stream), int(function)


def kind_members(request: Request) -> dict:
    if not request.frame.is_data:
        return {"kind": request.frame.kind}
    return {"kind": "data", "stream": request.frame.stream, "function": request.frame.function}


def audit_members(verdict: str) -> dict:
    name, *words = verdict.split()
    members = {"verdict": name}
    for word in words:
        key, is_named, value = word.partition("=")
        members[key] = (int(value) if value.isdigit() else value) if is_named else True
    return members


# ---- the text


def kind_text(members: dict) -> str:
    if members["kind"] == "data":
        return f"S{members['stream']}F{members['function']} W"
    return "others W" if members["kind"] == "others" else members["kind"]


def words_of(members: dict, names) -> str:
    return "".join(f" {name}={members[name]}" for name in names if name in members)


def text_of(it: dict) -> str:
    """Returns the line of an object."""
    kind = it["type"]
    if kind == "connection":
        ends = (f"{end} line={it[end]} sent={it[f'{end}_sent']} received={it[f'{end}_received']}" for end in (HOST, EQUIPMENT))
        return f"connection {' '.join(ends)}"
    if kind in ("skipped", "swapped", "differs"):
        sender, receiver = it["sender"], OTHER[it["sender"]]
        return f"{kind} {sender} line={it[sender]} {receiver} line={it[receiver]}"
    if kind == "order":
        return f"order host line={it['host']} from={it['host_from']} equipment line={it['equipment']} from={it['equipment_from']}"
    if kind == "apart":
        return f"apart host line={it['host']} equipment line={it['equipment']}"
    if kind == "transaction":
        names = ("received", "discarded", "answered", "rejected", "took", "reply", "after", "between", "ended")
        front = f"{it['fate']} {it['end']} line={it['line']} {kind_text(it)} {it['system']} cause={it['cause']}"
        return front + words_of(it, names)
    if kind in ("took", "between"):
        return f"{kind} {it['end']} {kind_text(it)}" + words_of(it, ("answered", "min", "median", "p99", "max", "line"))
    if kind == "audit":
        words = words_of(it, [name for name in it if name not in ("type", "end", "verdict")])
        return f"{it['end']}: {it['verdict']}{words.replace(' unreadable=True', ' unreadable')}"
    if kind == "verdict":
        counts = "".join(f" {name}={it[name]}" for name in COUNTS if it[name])
        return f"{it['verdict']} connections={it['connections']}{counts}"
    return f"{kind} {it['end']} line={it['line']}" + words_of(it, ("sent", "received", "took", "after"))
