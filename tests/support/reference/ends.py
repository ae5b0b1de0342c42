"""One endpoint of a session, by docs/SERVE.md: what it logs and sends.

The rules in `session` decide what it accepts. This endpoint never runs out of memory.
"""
from collections import Counter
from dataclasses import dataclass
from typing import Callable, List, Optional, Sequence

from tests.support.reference.items import BY_NAME, Fault, Item, decode_text, encode
from tests.support.reference.messages import HEADER, Frame, frame_at
from tests.support.reference.notation import Message
from tests.support.reference.session import (
    DISCARDED, SENT, TAKEN, Before, Entry, Settings, closes, opens, rule_of_frame,
)

MOST_OWN = 64
REJECT_REASONS = {"PType": 2, "SType": 1, "NotSelected": 4}


class Refused(Exception):
    """A call that was refused, by the name of its fault. It changed nothing."""


# The desks.


@dataclass(frozen=True)
class Answer:
    """What a desk says: `reply`, with an item, or `quiet`, `no stream`, `no function`, `illegal`."""

    says: str
    item: Optional[Item] = None


# It gets a primary, and the number of earlier ones with its stream and function on the connection.
Desk = Callable[[Message, int], Answer]


def list_of(*elements: Item) -> Item:
    return Item(BY_NAME["L"], list(elements))


def desk_with(identity: Item, nine: str) -> Desk:
    """A message handler that gives an identity in S1F2 and S1F14, and this for stream 9."""

    def answer(message: Message, _before: int) -> Answer:
        name = (message.stream, message.function)
        if name == (1, 1):
            return Answer("reply", identity)
        if name == (1, 13):
            return Answer("reply", list_of(Item(BY_NAME["B"], b"\x00"), identity))
        if name == (2, 25):
            is_binary = message.item is not None and message.item.form.name == "B"
            return Answer("reply", message.item) if is_binary else Answer("illegal")
        if message.stream in (1, 2):
            return Answer("no function")
        return Answer(nine if message.stream == 9 else "no stream")

    return answer


def equipment_desk(model: bytes, revision: bytes) -> Desk:
    return desk_with(list_of(Item(BY_NAME["A"], model), Item(BY_NAME["A"], revision)), "no stream")


def host_desk() -> Desk:
    return desk_with(list_of(), "quiet")


def obliging_desk() -> Desk:
    """A desk that answers each primary by a reply without an item."""
    return lambda message, _before: Answer("reply")


def scripted_desk(replies: Sequence[Message], own: Desk) -> Desk:
    """A desk that gives the items of the replies to a primary in turn, the last one again and again, or aborts it where
    one of its stream says so."""

    def answer(message: Message, before: int) -> Answer:
        of_stream = [reply for reply in replies if reply.stream == message.stream]
        given = [reply for reply in of_stream if reply.function == message.function + 1]
        if given:
            return Answer("reply", given[min(before, len(given) - 1)].item)
        return Answer("quiet") if any(reply.function == 0 for reply in of_stream) else own(message, before)

    return answer


# Frames that an end sends.


def frame_of(session: int, byte2: int, byte3: int, stype: int, system: int, text: bytes = b"") -> Frame:
    header = session.to_bytes(2, "big") + bytes([byte2, byte3, 0, stype]) + system.to_bytes(4, "big")
    return Frame(header + text)


def control(stype: int, system: int, byte3: int = 0) -> Frame:
    return frame_of(0xFFFF, 0, byte3, stype, system)


def reject_of(frame: Frame, reason: int) -> Frame:
    rejected = frame.ptype if reason == 2 else frame.stype
    return frame_of(frame.session, rejected, reason, 7, frame.system)


def nesting(item: Item) -> int:
    if not item.form.is_list:
        return 0
    return 1 + max((nesting(element) for element in item.values), default=0)


class Log(Before):
    """What is so after the entries of an end, kept as they come: those of one connection."""

    up: Optional[Entry] = None
    is_down = is_selected = is_over = False

    def __init__(self, settings: Settings):
        super().__init__(settings, [])

    def add(self, entry: Entry):
        self.open = [opener for opener in self.open if not closes(opener, entry)]
        if opens(entry):
            self.open.append(entry)
        self.entries.append(entry)
        one = Before(self.settings, [entry])
        self.up = self.up or one.up
        self.is_down |= one.is_down
        self.is_selected |= one.is_selected
        self.is_over |= one.is_over

    @property
    def is_up(self) -> bool:
        return self.up is not None and not self.is_down

    @property
    def own_open(self) -> List[Entry]:
        return [opener for opener in self.open if opener.event == SENT]


class End:
    """An end of a session. Each call answers the new entries, or is refused."""

    def __init__(self, settings: Settings, desk: Desk, first_system: int):
        self.settings = settings
        self.desk = desk
        self.log = Log(settings)
        self.moment = 0
        self.next_number = first_system
        self.pending = b""
        self.heard = 0
        self.asked: Counter = Counter()

    # Its inputs.

    def start(self, now: int) -> List[Entry]:
        if self.log.up is not None:
            raise Refused("NotUp")
        self.moment = now
        return self.entries_of(self.come_up)

    def tick(self, now: int) -> List[Entry]:
        self.need_up()
        self.moment = max(self.moment, now)
        return self.entries_of(self.expire)

    def hear(self, octets: bytes) -> List[Entry]:
        self.need_up()
        self.pending += octets
        if octets:
            self.heard = self.moment
        return self.entries_of(self.receive)

    def send(self, message: Message) -> List[Entry]:
        self.need_up()
        if not self.log.is_selected:
            raise Refused("NotSelected")
        if message.function % 2 == 0:
            raise Refused("NotPrimary")
        if message.stream == 9:
            raise Refused("Nine")
        if message.wait:
            self.need_room()
        if message.item is not None and nesting(message.item) > self.settings.depth:
            raise Refused("TooDeep")
        text = self.text_of(message.item)
        if text is None:
            raise Refused("TooLong")
        byte2 = message.stream | (0x80 if message.wait else 0)
        device = self.settings.device
        return self.entries_of(lambda: self.ask(lambda n: frame_of(device, byte2, message.function, 0, n, text)))

    def linktest(self) -> List[Entry]:
        self.need_up()
        self.need_room()
        return self.entries_of(lambda: self.ask(lambda number: control(5, number)))

    def separate(self) -> List[Entry]:
        self.need_up()
        return self.entries_of(self.part)

    def lost(self) -> List[Entry]:
        self.need_up()
        return self.entries_of(lambda: self.note("down"))

    def test_due(self, pause: int) -> Optional[int]:
        """From when on whoever drives the end tests its link, after so long a pause: while it is selected, no own
        Linktest.req is open, and one more transaction may be."""
        is_free = not self.log.sent_control and len(self.log.own_open) < MOST_OWN
        if not self.log.is_up or not self.log.is_selected or not is_free:
            return None
        return max(self.heard, self.log.entries[-1].time) + pause

    # What is common to them.

    def need_up(self):
        if not self.log.is_up:
            raise Refused("NotUp")

    def need_room(self):
        if len(self.log.own_open) >= MOST_OWN:
            raise Refused("Full")

    def entries_of(self, act: Callable[[], None]) -> List[Entry]:
        before = len(self.log.entries)
        act()
        return self.log.entries[before:]

    def note(self, event: str, **fields):
        self.log.add(Entry(self.moment, event, **fields))

    def put(self, frame: Frame):
        """Sends a frame."""
        self.note(SENT, frame=frame)

    def ask(self, made: Callable[[int], Frame]):
        """Sends a frame with own system bytes: the first number from the next one on that no open own one has."""
        used = {opener.frame.system for opener in self.log.own_open}
        number = self.next_number
        while number in used:
            number = (number + 1) % (1 << 32)
        self.put(made(number))
        self.next_number = (number + 1) % (1 << 32)

    def cut(self, cause: str):
        self.note("cut", cause=cause)
        self.note("down")

    def come_up(self):
        self.note("up")
        if self.settings.link == "active":
            self.ask(lambda number: control(1, number))

    def part(self):
        self.ask(lambda number: control(9, number))
        self.note("down")

    def complain(self, function: int, header: bytes):
        """Equipment sends a message of stream 9 with the header of the message in error. A host sends none."""
        if self.settings.role == "equipment":
            text = b"\x21\x0a" + header
            self.ask(lambda number: frame_of(self.settings.device, 9, function, 0, number, text))

    def text_of(self, item: Optional[Item]) -> Optional[bytes]:
        """The text of an item, or None where the item nests too deep, has no bytes, or is too long for a frame."""
        if item is None:
            return b""
        if nesting(item) > self.settings.depth:
            return None
        try:
            text = encode(item)
        except Fault:
            return None
        return text if HEADER + len(text) <= self.settings.max else None

    # Timers.

    def expire(self):
        late = [opener for opener in self.log.sent_data if self.moment - opener.time > self.settings.t3]
        for opener in late:
            self.note("t3", system=opener.frame.system)
        cause = self.overdue_cause()
        if cause is not None:
            self.cut(cause)
            return
        for opener in late:
            self.complain(9, opener.frame.octets[:HEADER])

    def overdue_cause(self) -> Optional[str]:
        if self.log.waited_past_t6(self.moment):
            return "t6"
        if self.log.waited_past_t7(self.moment):
            return "t7"
        if self.pending and self.moment - self.heard > self.settings.t8:
            return "t8"
        return None

    # What is received.

    def receive(self):
        while self.log.is_up and self.pending:
            try:
                frame, end = frame_at(self.pending, 0, self.settings.max)
            except Fault as fault:
                if fault.name == "TooLong":
                    self.complain_of_length(Frame(self.pending[4:4 + HEADER]))
                if fault.name != "CutOff":
                    self.cut("length")
                return
            self.pending = self.pending[end:]
            self.handle(frame)

    def complain_of_length(self, front: Frame):
        if self.log.is_selected and front.is_data and front.session == self.settings.device:
            self.complain(11, front.octets)

    def handle(self, frame: Frame):
        """A whole message: its entry, and what follows it at once."""
        rule = rule_of_frame(self.log, TAKEN, frame)
        was_selected = self.log.is_selected
        self.note(DISCARDED if rule else TAKEN, frame=frame)
        if rule:
            self.after_discarded(frame, rule, was_selected)
        else:
            self.after_taken(frame, was_selected)

    def after_taken(self, frame: Frame, was_selected: bool):
        if frame.kind == "select.req":
            self.put(control(2, frame.system, 1 if was_selected else 0))
        elif frame.kind == "linktest.req":
            self.put(control(6, frame.system))
        elif frame.kind == "separate":
            self.note("down")
        elif frame.kind == "primary":
            item = decode_text(frame.text, self.settings.depth)
            name = (frame.stream, frame.function)
            answer = self.desk(Message(*name, frame.wait, item), self.asked[name])
            self.asked[name] += 1
            self.after_primary(frame, answer)

    def after_primary(self, frame: Frame, answer: Answer):
        functions = {"no stream": 3, "no function": 5, "illegal": 7}
        if answer.says in functions:
            self.complain(functions[answer.says], frame.octets[:HEADER])
        if not frame.wait:
            return
        text = self.text_of(answer.item)
        if answer.says == "reply" and frame.function != 255 and text is not None:
            self.put(frame_of(self.settings.device, frame.stream, frame.function + 1, 0, frame.system, text))
        else:
            self.put(frame_of(self.settings.device, frame.stream, 0, 0, frame.system))

    def after_discarded(self, frame: Frame, rule: str, was_selected: bool):
        if rule in REJECT_REASONS:
            self.put(reject_of(frame, REJECT_REASONS[rule]))
        elif rule == "NoTransaction" and frame.kind in ("select.rsp", "linktest.rsp"):
            self.put(reject_of(frame, 3))
        elif rule == "Session" and frame.is_data and was_selected:
            self.complain(1, frame.octets[:HEADER])
        elif rule == "Text":
            self.complain(7, frame.octets[:HEADER])


# The text of its log.


def line_of(entry: Entry) -> str:
    if entry.frame is not None:
        return f"{entry.time} {entry.event} {entry.frame.octets.hex()}"
    if entry.event == "t3":
        return f"{entry.time} t3 {entry.system:08x}"
    return f"{entry.time} {entry.event} {entry.cause}".rstrip()


def first_line(given: Settings) -> str:
    numbers = (given.device, given.t3, given.t6, given.t7, given.t8, given.max, given.depth)
    return " ".join(["hsms-log", str(given.version), given.role, given.link, *map(str, numbers)])


def log_of(end: End) -> bytes:
    lines = [first_line(end.settings), *map(line_of, end.log.entries)]
    return "".join(line + "\n" for line in lines).encode()
