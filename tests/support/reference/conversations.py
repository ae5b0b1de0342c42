"""Random conversations of two endpoints: long lists of inputs, jumps of the clock, bytes in pieces, garbage.

The endpoints are those of `ends`. Whether their logs pass is for the command to say.
"""
from dataclasses import dataclass
from typing import Any, List, Set, Tuple

from tests.support.reference.ends import End, Refused, equipment_desk, host_desk, obliging_desk, scripted_desk
from tests.support.reference.messages import Frame
from tests.support.reference.notation import Message
from tests.support.reference.random_messages import Chance, Draft, random_item, random_text
from tests.support.reference.session import DISCARDED, SENT, TAKEN, Before, Entry, Settings, rule_of_frame

LIMITS = (256, 256, 300, 1_048_576)
NAMES_OF_DATA = [
    *[(1, 1), (1, 13), (2, 25), (2, 17), (9, 1), (9, 3), (64, 7), (1, 2), (0, 0)],
    *[(5, 251), (6, 253), (127, 255)],
]
REVISION = b"1"
NAMES_OF_CONTROL = {"select.rsp": "Select.rsp", "reject": "Reject"}

# What the talks have to reach: what an end sends, why it throws away, its timers, its faults.
TO_REACH = [
    *["Select.req", "Select.rsp 0", "Select.rsp 1", "Linktest.req", "Linktest.rsp", "Separate.req", "primary", "reply"],
    *["Reject 1", "Reject 2", "Reject 3", "Reject 4"],
    *["S9F1", "S9F3", "S9F5", "S9F7", "S9F9", "S9F11", "SxF0"],
    *["SxF252", "SxF254", "SxF0 in place of a reply"],
    *["a reply of a script", "SxF0 of a script"],
    *["! PType", "! SType", "! ControlText", "! Session", "! Direction", "! NotSelected", "! WBit", "! Text"],
    "! NoTransaction",
    *["t3", "cut t6", "cut t7", "cut t8", "cut length", "down"],
    *["NotUp", "NotSelected", "NotPrimary", "Nine", "Full", "TooDeep", "TooLong"],
]


@dataclass(frozen=True)
class Told:
    """An input of an endpoint: the call, and the time, the bytes or the message that it passes, if any."""

    call: str
    given: Any = None


@dataclass(frozen=True)
class Maker:
    """What an end is made of. The message handler of equipment gives the model; the obliging one may be in place of
    any, and each answers what the replies of a script do not, if there is one.
    """

    settings: Settings
    model: bytes
    first_system: int
    is_obliging: bool = False
    replies: Tuple[Message, ...] = ()

    def new_end(self) -> End:
        """An endpoint before its first input."""
        desk = host_desk() if self.settings.role == "host" else equipment_desk(self.model, REVISION)
        desk = obliging_desk() if self.is_obliging else desk
        return End(self.settings, scripted_desk(self.replies, desk), self.first_system)

    def names_of(self, entries: List[Entry]) -> Set[str]:
        """What entries of its end are, as the list of what is to be reached has it."""
        names = {name_of(entry) for entry in entries}
        if self.is_obliging:
            replies = [entry.frame for entry in entries if entry.event == SENT and entry.frame.kind == "reply"]
            names |= {f"SxF{frame.function}" if frame.function else "SxF0 in place of a reply" for frame in replies}
        return names | self.of_script(entries)

    def of_script(self, entries: List[Entry]) -> Set[str]:
        """What entries of its end come of the replies of its script."""
        sent = {(entry.frame.stream, entry.frame.function) for entry in entries if entry.event == SENT}
        given = sent & {(reply.stream, reply.function) for reply in self.replies}
        return {"a reply of a script" if function else "SxF0 of a script" for _, function in given}


class Party:
    """One of the two ends, and the bytes that it sent and that the other one did not get yet."""

    def __init__(self, chance: Chance, role: str, link: str, replies: Tuple[Message, ...] = ()):
        timers = (chance.one(20, 60, 3600), chance.one(60, 200, 1000), chance.one(100, 1000), chance.one(50, 200, 1000))
        device = chance.one(0, 0, 0, 0, 0, 1)
        limits = (chance.choice(LIMITS), chance.one(1, 2, 4, 32, chance.randrange(91, 101)))
        self.settings = Settings(role, link, device, *timers, *limits, chance.one(1, 1, 2))
        model, first_system = bytes(chance.one(0, 1, 6, 240)), chance.one(0, 1, 5, (1 << 32) - 2)
        self.maker = Maker(self.settings, model, first_system, chance.happens(0.2), replies)
        self.end = self.maker.new_end()
        self.line = b""
        self.reached: Set[str] = set()
        self.told: List[Told] = []

    def tell(self, call, *given):
        """Tells the end something. What it sends goes on the line, what is refused leads to nothing."""
        self.told.append(Told(call.__name__, *given))
        try:
            entries = call(*given)
        except Refused as refused:
            self.reached.add(str(refused))
            return
        self.reached |= self.maker.names_of(entries)
        for entry in entries:
            if entry.event == SENT:
                self.line += len(entry.frame.octets).to_bytes(4, "big") + entry.frame.octets

    def take(self, count: int) -> bytes:
        taken, self.line = self.line[:count], self.line[count:]
        return taken

    def reasons(self) -> Set[str]:
        """Why the end threw frames away."""
        entries = self.end.log.entries
        thrown = [(at, entry.frame) for at, entry in enumerate(entries) if entry.event == DISCARDED]
        return {f"! {rule_of_frame(Before(self.settings, entries[:at]), TAKEN, frame)}" for at, frame in thrown}


def name_of(entry: Entry) -> str:
    """What an entry is, as the list of what is to be reached has it."""
    if entry.event != SENT:
        return f"{entry.event} {entry.cause}".rstrip()
    frame = entry.frame
    if frame.kind in NAMES_OF_CONTROL:
        return f"{NAMES_OF_CONTROL[frame.kind]} {frame.byte3}"
    if frame.is_control:
        return {1: "Select.req", 5: "Linktest.req", 6: "Linktest.rsp", 9: "Separate.req"}[frame.stype]
    if frame.kind == "reply":
        return "reply" if frame.function else "SxF0"
    return f"S9F{frame.function}" if frame.stream == 9 else "primary"


class Talk:
    """Two endpoints, their inputs, and the time."""

    def __init__(self, chance: Chance, script: Tuple[Message, ...] = ()):
        self.chance = chance
        links = chance.one(("active", "passive"), ("passive", "active"), ("active", "passive"), ("passive", "passive"))
        self.parties = [Party(chance, role, link, script) for role, link in zip(("host", "equipment"), links)]
        self.now = chance.one(0, 5, 1_000_000)

    def run(self, count: int):
        is_asking = self.chance.happens(0.15)
        for party in self.parties:
            party.tell(party.end.start, self.now)
        for _ in range(count):
            if self.chance.happens(0.5):
                self.now += self.chance.one(0, 1, 1, 2, 3, 5) if self.chance.happens(0.99) else self.jump()
            party, other = self.chance.sample(self.parties, 2)
            if is_asking and party.end.log.is_selected and self.chance.happens(0.95):
                party.tell(party.end.send, Message(1, 1, True, None))
            else:
                self.step(party, other)

    def jump(self) -> int:
        """To a timer's end and a little past it."""
        settings = self.chance.choice(self.parties).settings
        return self.chance.one(settings.t3, settings.t6, settings.t7, settings.t8) + self.chance.one(0, 1)

    def step(self, party: Party, other: Party):
        kind = self.chance.random()
        if kind < 0.3:
            party.tell(party.end.tick, max(0, self.now - self.chance.one(0, 0, 0, 7)))
        elif kind < 0.45:
            party.tell(party.end.send, self.message(party.settings))
        elif kind < 0.48:
            party.tell(party.end.linktest)
        elif kind < 0.482:
            party.tell(*self.chance.one((party.end.separate,), (party.end.lost,), (party.end.start, self.now)))
        else:
            party.tell(party.end.hear, self.octets(party, other))

    def octets(self, party: Party, other: Party) -> bytes:
        """What comes to an end: what the other one sent, or garbage where it sent nothing."""
        if other.line or self.chance.happens(0.6):
            return other.take(self.chance.one(0, 1, 4, 13, 14, 1000, 1000, 1000))
        if self.chance.happens(0.02):
            return self.chance.one(bytes([0, 0, 0, 9]), bytes([0, 0, 0]), self.long(party.settings))
        frame = self.garbage(party).octets()
        return len(frame).to_bytes(4, "big") + frame

    def long(self, settings: Settings) -> bytes:
        """The front of a message past the limit."""
        device = self.chance.one(settings.device, settings.device, 77)
        header = Draft(device, 0x81, 1, ptype=self.chance.one(0, 0, 0, 1), system=self.system(), text=b"").octets()
        return (settings.max + 1).to_bytes(4, "big") + header

    def system(self) -> int:
        return self.chance.one(0, 1, 2, 3, 4, 5, 6, (1 << 32) - 1)

    def garbage(self, party: Party) -> Draft:
        """A message that may be right or wrong at an end."""
        own = [opener.frame for opener in party.end.log.own_open if opener.frame.is_data]
        kind = self.chance.random()
        if kind < 0.3:
            return self.any_control(party.settings)
        if own and kind < 0.5:
            return self.nearly_reply(party.settings, self.chance.choice(own))
        return self.any_data(party.settings)

    def any_control(self, settings: Settings) -> Draft:
        chance = self.chance
        stype = chance.one(1, 1, 2, 3, 4, 5, 6, 7, 7, 200) if chance.happens(0.9) else chance.one(9, chance.octet())
        text = b"" if chance.happens(0.8) else b"\x41\x00"
        session = chance.one(0xFFFF, 0xFFFF, 0xFFFF, settings.device)
        return Draft(session, 0, chance.one(0, 0, 1, 4), chance.one(0, 0, 0, 1), stype, self.system(), text)

    def nearly_reply(self, settings: Settings, asked: Frame) -> Draft:
        next_function = (asked.function + 1) % 256
        function = self.chance.one(0, next_function, next_function, 2)
        text = self.chance.one(b"", b"", b"\x41\x00", b"\x40")
        return Draft(settings.device, asked.stream, function, system=asked.system, text=text)

    def any_data(self, settings: Settings) -> Draft:
        chance = self.chance
        stream, function = chance.choice(NAMES_OF_DATA)
        device = settings.device if chance.happens(0.9) else settings.device ^ 0x100
        text = b"\x21\x02\x01\x02" if stream == 2 and chance.happens(0.5) else self.text(settings)
        byte2 = stream | chance.one(0, 0x80, 0x80)
        return Draft(device, byte2, function, chance.one(*[0] * 9, 1), system=self.system(), text=text)

    def text(self, settings: Settings) -> bytes:
        text = random_text(self.chance, settings.depth, settings.max)
        return text if len(text) <= 204 else b""

    def message(self, settings: Settings) -> Message:
        """A message to be sent, which may be refused."""
        chance = self.chance
        stream = chance.one(1, 1, 2, 2, 5, 6, 9, 127)
        function = {1: chance.one(1, 13), 2: chance.one(25, 25, 17)}.get(stream, chance.one(1, 11, 251, 253, 255))
        function += chance.one(*[0] * 9, 1) if function < 255 else 0
        item = None if chance.happens(0.4) else random_item(chance, chance.one(1, 2, 3, settings.depth + 1))
        return Message(stream, function, stream != 9 and chance.happens(0.7), item)


def random_replies(chance: Chance) -> Tuple[Message, ...]:
    """The replies of a script, of which some have the same name."""
    names = [chance.choice(NAMES_OF_DATA) for _ in range(chance.randrange(6))]
    functions = [0 if function == 255 or chance.happens(0.3) else function + function % 2 for _, function in names]
    items = [None if chance.happens(0.3) else random_item(chance, chance.one(1, 2, 3)) for _ in names]
    return tuple(Message(stream, function, False, item) for (stream, _), function, item in zip(names, functions, items))


def parties_of(chance: Chance, *lengths: int, script: Tuple[Message, ...] = ()) -> List[Party]:
    """The two parties of a talk of one of these lengths, after it."""
    whole = Talk(chance, script)
    whole.run(chance.one(*lengths))
    return whole.parties


def talk(seed: str) -> List[Tuple[End, Set[str]]]:
    """The two ends of a talk, after it, and what each did."""
    parties = parties_of(Chance(seed), 20, 100, 200, 400, script=random_replies(Chance(f"{seed} script")))
    return [(party.end, party.reached | party.reasons()) for party in parties]
