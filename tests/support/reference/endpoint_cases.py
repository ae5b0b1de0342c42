"""Lists of inputs of an endpoint in which one thing decides.

They have each message to host and equipment, active and passive, selected or not; each timer at its limit and past it,
by what is open; prefixes of messages that are too long or too short; and messages to send, at the limits.
"""
from functools import lru_cache
from itertools import combinations, product
from typing import Iterator, List, Tuple

from tests.support.reference.conversations import Maker, Told
from tests.support.reference.ends import End, Refused
from tests.support.reference.items import BY_NAME, Item
from tests.support.reference.notation import Message
from tests.support.reference.random_messages import Draft
from tests.support.reference.session import Settings

DEVICE = 7
T3, T6, T7, T8, MAX = 1000, 500, 800, 700, 256
OTHER_SYSTEM = 99

ENDS = list(product(("host", "equipment"), ("active", "passive")))
NO_ITEM, TEXT, OCTETS = b"\x40", b"\x41\x01A", b"\x21\x01\0"

LIST = Item(BY_NAME["L"], [])

# Select.req and Separate.req, by their session ID and SType.
CHANGING = [(0xFFFF, 1), (0xFFFF, 9)]
NAMES = [(0, 1), (1, 1), (1, 3), (1, 13), (1, 255), (2, 17), (2, 25), (3, 1), (9, 1), (9, 3), (64, 7), (127, 253)]
NAMES += [(0, 0), (1, 0), (1, 2), (2, 26), (9, 2)]


class Table:
    """An endpoint, and its inputs."""

    def __init__(self, role: str, link: str, is_obliging: bool = False, first_system: int = 1):
        settings = Settings(role, link, DEVICE, T3, T6, T7, T8, MAX, 1)
        self.maker = Maker(settings, b"M", first_system, is_obliging)
        self.end = self.maker.new_end()
        self.told: List[Told] = []
        self.tell("start", 0)

    def tell(self, call: str, *given):
        self.told.append(Told(call, *given))
        try:
            getattr(End, call)(self.end, *given)
        except Refused:
            pass

    def hear(self, *drafts: Draft):
        """Messages come at once."""
        messages = [draft.octets() for draft in drafts]
        self.tell("hear", b"".join(len(octets).to_bytes(4, "big") + octets for octets in messages))

    def answer_select(self, status: int = 0):
        """The session is selected, or a selection is refused."""
        if self.maker.settings.link == "active":
            self.hear(Draft(byte3=status, stype=2, system=self.maker.first_system))
        elif status == 0:
            self.hear(Draft(stype=1, system=1))

    def ask(self) -> int:
        """Sends S1F1, and returns its system bytes."""
        self.tell("send", Message(1, 1, True, None))
        return self.number()

    def number(self) -> int:
        return self.end.log.own_open[-1].frame.system if self.end.log.own_open else OTHER_SYSTEM

    def listed(self) -> Tuple[Maker, List[Told]]:
        return self.maker, self.told


def messages() -> Iterator[Draft]:
    """Messages of each kind, but for those that select the session or end it, and then these."""
    for stype in range(1, 11):
        yield from (Draft(session, 0, byte3, 0, stype, OTHER_SYSTEM)
                    for session, byte3 in product((0xFFFF, DEVICE), (0, 1)) if (session, stype) not in CHANGING)
        yield Draft(0xFFFF, 0, 0, 0, stype, OTHER_SYSTEM, b"\0")
        yield Draft(0xFFFF, 0, 0, 1, stype, OTHER_SYSTEM)
    for (stream, function), wait in product(NAMES, (0, 0x80)):
        for session, ptype, text in ((DEVICE, 0, b""), (8, 0, b""), (DEVICE, 1, b""), (DEVICE, 0, NO_ITEM)):
            yield Draft(session, stream | wait, function, ptype, 0, OTHER_SYSTEM, text)
    for function, text in product((1, 13, 25), (TEXT, OCTETS)):
        yield Draft(DEVICE, 0x80 | (2 if function == 25 else 1), function, system=OTHER_SYSTEM, text=text)
    for stype in (1, 1, 9):
        yield Draft(stype=stype, system=OTHER_SYSTEM)


def tables_of_messages(role: str, link: str) -> Iterator[Table]:
    for is_obliging, is_selected in product((False, True), (False, True)):
        table = Table(role, link, is_obliging)
        if is_selected:
            table.answer_select()
        for draft in messages():
            table.hear(draft)
        yield table


def table_of_answers(role: str, link: str) -> Table:
    """What comes in place of an answer, and then the answer."""
    table = Table(role, link)
    table.answer_select()
    reply = Draft(DEVICE, 1, 2)
    for fields in ({}, {"byte3": 0}, {"byte3": 4}, {"byte2": 2}, {"byte2": 0x81}, {"text": NO_ITEM}, {"session": 8},
                   {"session": 0x1234, "byte2": 0, "byte3": 9, "stype": 7}, {"session": 0xFFFF, "stype": 6}):
        system = table.ask()
        table.hear(Draft(**{**reply.__dict__, "system": system, **fields}))
        table.hear(Draft(**{**reply.__dict__, "system": system}))
    for stype in (6, 2, 7):
        table.tell("linktest")
        system = table.number()
        table.hear(Draft(byte3=1, stype=stype, system=system))
        table.hear(Draft(stype=6, system=system))
    return table


# Timers.

OF_A_LINK = ["a Linktest.req", "an octet"]
OF_A_SESSION = ["a primary", "a later primary", *OF_A_LINK]
PAST = [T6 + 1, T8 + 1, T7 + 1, T3 + 1, T3 + 11]
EDGES = sorted([*PAST, T6, T8, T7, T3])


def parts_of(things: List[str]) -> List[Tuple[str, ...]]:
    return [part for count in range(len(things) + 1) for part in combinations(things, count)]


def tables_of_timers(role: str, link: str) -> Iterator[Table]:
    """What is waited for, and when time goes past an edge at once, or from edge to edge. The session is selected, or
    is not yet, or its selection was refused."""
    waits = [(0, part) for part in parts_of(OF_A_SESSION)]
    waits += [(None, part) for part in parts_of(OF_A_LINK)]
    waits += [(1, part) for part in parts_of(OF_A_LINK) if link == "active"]
    for (status, waiting), moments in product(waits, [[moment] for moment in PAST] + [EDGES]):
        table = Table(role, link)
        if status is not None:
            table.answer_select(status)
        wait_for(table, waiting)
        for moment in moments:
            table.tell("tick", moment)
        yield table


def wait_for(table: Table, waiting: Tuple[str, ...]):
    if "a primary" in waiting:
        table.ask()
    if "a Linktest.req" in waiting:
        table.tell("linktest")
    if "an octet" in waiting:
        table.tell("hear", b"\0")
        table.tell("tick", 5)
        table.tell("hear", b"")
    if "a later primary" in waiting:
        table.tell("tick", 10)
        table.ask()


def tables_of_lengths(role: str, link: str) -> Iterator[Table]:
    """The front of a message, selected or not."""
    fronts = [(length, 0, 0, DEVICE) for length in (0, 9, 10, MAX, 0xFFFFFFFF)]
    fronts += [(MAX + 1, *fields) for fields in product((0, 1), (0, 1), (DEVICE, 8))]
    for is_selected, (length, stype, ptype, session) in product((False, True), fronts):
        table = Table(role, link)
        if is_selected:
            table.answer_select()
        front = length.to_bytes(4, "big") + Draft(session, 0x81, 1, ptype, stype, OTHER_SYSTEM).octets()
        for piece in (front[:4], front[4:13], front[13:] + b"\0\0"):
            table.tell("hear", piece)
        table.tell("tick", T8 + 1)
        yield table


def tables_of_sends(role: str, link: str) -> Iterator[Table]:
    """What is sent: own numbers that begin again, streams and functions at their edges, a message as long as any may be
    and one byte longer, lists as deep as any may be and one deeper; and what comes after a Separate. Each primary is
    answered."""
    for first_system in ((1 << 32) - 1, (1 << 31) - 1, 0):
        table = Table(role, link, first_system=first_system)
        table.answer_select()
        for stream, function, wait in product((0, 1, 8, 9, 10, 127), (0, 1, 2, 253, 255), (False, True)):
            table.tell("send", Message(stream, function, wait, None))
            table.hear(Draft(DEVICE, stream, (function + 1) % 256, system=table.number()))
        table.tell("linktest")
        table.hear(Draft(stype=6, system=table.number()))
        yield table
    table = Table(role, link)
    table.answer_select()
    for length in (MAX - 10 - 2, MAX - 10 - 1):
        table.tell("send", Message(1, 1, False, Item(BY_NAME["A"], b"x" * length)))
    for item in (LIST, Item(BY_NAME["L"], [LIST])):
        table.tell("send", Message(1, 1, False, item))
    table.tell("separate")
    yield table
    table = Table(role, link)
    table.answer_select()
    table.hear(*(Draft(stype=stype, system=OTHER_SYSTEM) for stype in (5, 9, 5)))
    yield table


@lru_cache(maxsize=None)
def lists() -> List[Tuple[Maker, List[Told]]]:
    tables: List[Table] = []
    for role, link in ENDS:
        tables += [*tables_of_messages(role, link), table_of_answers(role, link)]
        tables += [*tables_of_timers(role, link), *tables_of_lengths(role, link), *tables_of_sends(role, link)]
    return [table.listed() for table in tables]


# What each end has to do in them.
OF_EACH = [
    *["Select.req", "Select.rsp 0", "Linktest.req", "Linktest.rsp", "primary", "reply", "SxF0"],
    *["Reject 1", "Reject 2", "Reject 3", "Reject 4", "t3", "cut t6", "cut t7", "cut t8", "cut length", "down"],
]
OF_EQUIPMENT = ["S9F1", "S9F3", "S9F5", "S9F7", "S9F9", "S9F11"]
ONE_SIDED = [("Select.req", "active"), ("Select.rsp 0", "passive")]


def does(what: str, role: str, link: str) -> bool:
    of_link = [other for one, other in ONE_SIDED if one == what]
    return link in of_link if of_link else role == "equipment" or what not in OF_EQUIPMENT


TO_REACH = [
    f"{what}, {role} {link}" for what in OF_EACH + OF_EQUIPMENT for role, link in ENDS if does(what, role, link)
]
