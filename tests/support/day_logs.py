"""Logs of production with one slip in each, and the line that did it.

The messages are those of `two_ends`, with the traffic of a tool: event reports, polls, commands, alarms and linktests.
Without the slip the log passes. A slip is what goes wrong between two implementations, or in the program that logs.
None of them is a single time that is far ahead: the lines after it fail then, and it is not named.
"""
from dataclasses import replace
from typing import Callable, Dict, List, NamedTuple, Optional, Tuple, Union

from tests.support.reference.ends import equipment_desk, first_line, host_desk, line_of, scripted_desk
from tests.support.reference.items import BY_NAME, Item
from tests.support.reference.messages import Frame
from tests.support.reference.notation import Message
from tests.support.reference.random_messages import Chance
from tests.support.reference.session import OTHER_DIRECTION, SENT, TAKEN, Entry, Settings, closes, opens
from tests.support.reference.two_ends import EQUIPMENT, HOST, OTHER, Clock, Connection, text_of

# The mean time between two primaries, in ms.
PAUSE = 860


# Traffic.

OK = Item(BY_NAME["B"], b"\x00")


def unsigned(*values: int) -> Item:
    return Item(BY_NAME["U4"], list(values))


def listed(*elements: Item) -> Item:
    return Item(BY_NAME["L"], list(elements))


def values_of(chance: Chance) -> Item:
    """The values of a report."""
    lot, count = Item(BY_NAME["A"], b"LOT-%d" % chance.randrange(100)), unsigned(chance.randrange(1 << 32))
    return listed(*[lot, count, OK][: chance.one(1, 2, 3)])


def event_report(chance: Chance) -> Message:
    report = listed(unsigned(chance.randrange(9)), values_of(chance))
    return Message(6, 11, True, listed(unsigned(0), unsigned(chance.randrange(100)), listed(report)))


def alarm(chance: Chance) -> Message:
    code, text = Item(BY_NAME["B"], b"\x86"), Item(BY_NAME["A"], b"DOOR")
    return Message(5, 1, True, listed(code, unsigned(chance.randrange(99)), text))


def trace(chance: Chance) -> Message:
    return Message(6, 1, False, listed(unsigned(1), unsigned(chance.randrange(999)), values_of(chance)))


def poll(chance: Chance) -> Message:
    return Message(1, 3, True, listed(*map(unsigned, chance.sample(range(1000), chance.one(1, 2, 5)))))


def command(_chance: Chance) -> Message:
    return Message(2, 41, True, listed(Item(BY_NAME["A"], b"START"), listed()))


def unknown(_chance: Chance) -> Message:
    """A message that the equipment reports by stream 9."""
    return Message(2, 99, True, None)


def online(_chance: Chance) -> Message:
    return Message(1, 1, True, None)


TRAFFIC = {
    EQUIPMENT: [event_report] * 12 + [alarm, trace, trace, online],
    HOST: [poll] * 10 + [command] * 4 + [unknown, online],
}

def desks(chance: Chance) -> Dict[str, Callable]:
    values = [Message(1, 4, False, listed(unsigned(chance.randrange(1 << 32)), values_of(chance))) for _ in range(50)]
    of_equipment = [*values, Message(2, 42, False, listed(OK, listed()))]
    of_host = [Message(6, 12, False, OK), Message(5, 2, False, OK)]
    own = equipment_desk(b"MDLN", b"1")
    return {HOST: scripted_desk(of_host, host_desk()), EQUIPMENT: scripted_desk(of_equipment, own)}


class DayConnection(Connection):
    """A connection of a tool in production. The network is fast, mostly."""

    starts = 1.0

    def plan_messages(self, end: int):
        for _ in range((end - self.now) // PAUSE):
            self.plan(self.chance.randrange(self.now, end), self.send, self.chance.one(HOST, EQUIPMENT, EQUIPMENT))

    def delay(self) -> int:
        kind = self.chance.random()
        return self.chance.randrange(1, 40) if kind < 0.9 else self.chance.randrange(40, 400 if kind < 0.98 else 1_500)

    def send(self, role: str):
        if self.chance.happens(0.03):
            self.tell(role, "linktest")
        else:
            self.tell(role, "send", self.chance.choice(TRAFFIC[role])(self.chance))


class Day:
    """A conversation with about that many primaries. The entries are those of the end that logs."""

    def __init__(self, chance: Chance, primaries: int, connections: int):
        self.chance = chance
        role, link = chance.one(HOST, EQUIPMENT), chance.one("active", "passive")
        t3, device = chance.one(10_000, 45_000), chance.one(0, 1, 300)
        version = 2 if connections > 1 else chance.one(1, 2)
        owner = Settings(role, link, device, t3, 5_000, 10_000, 5_000, 1_048_576, 32, version)
        peer = replace(owner, role=OTHER[role], link="passive" if link == "active" else "active")
        self.settings: Dict[str, Settings] = {it.role: it for it in (owner, peer)}
        self.owner, self.desks = owner, desks(chance)
        self.clocks = {role: Clock(chance) for role in self.settings}
        self.entries: List[Entry] = []
        now = 0
        for _ in range(connections):
            connection = DayConnection(self, now)
            connection.run(primaries * PAUSE // connections)
            self.entries += connection.ends[role].log.entries
            now = connection.now + chance.randrange(1, 60_000)

    def limits(self) -> List[int]:
        """Of each entry the place at which what it waits for no longer matters: that of the end of its connection."""
        found, limit = [], len(self.entries)
        for at in reversed(range(len(self.entries))):
            entry = self.entries[at]
            if entry.event in ("down", "cut", "up") or entry.frame is not None and entry.frame.kind == "separate":
                limit = at
            found.append(limit)
        return found[::-1]

    def transactions(self) -> List[Tuple[int, int]]:
        """The places of what opens a transaction, and of what closes it."""
        found, waiting = [], {}
        for at, entry in enumerate(self.entries):
            if entry.event == "up":
                waiting = {}
            key = (OTHER_DIRECTION.get(entry.event), entry.frame.system if entry.frame else None)
            opener = waiting.get(key)
            if opener is not None and closes(self.entries[opener], entry):
                found.append((waiting.pop(key), at))
            if opens(entry):
                waiting[entry.event, entry.frame.system] = at
        return found

    def replies(self) -> List[Tuple[int, int]]:
        """The places of primaries with W, and of what answers them, but not what aborts."""
        ends = [(at, end, self.frame(end)) for at, end in self.transactions()]
        return [(at, end) for at, end, reply in ends if reply.kind == "reply" and reply.function]

    def frame(self, at: int) -> Frame:
        return self.entries[at].frame

    def data(self) -> List[int]:
        return [at for at, entry in enumerate(self.entries) if entry.flows and entry.frame.is_data]


# A line of a log: an entry, or the text of a line.
Line = Union[Entry, str]


class Slip(NamedTuple):
    """The lines of a log, the one that did it, and one that fails later because of it."""

    lines: List[Line]
    culprit: Line
    later: Optional[Line] = None


def changed(entry: Entry, **fields: int) -> Entry:
    """The entry with other fields in its header."""
    octets = bytearray(entry.frame.octets)
    places = {"session": (0, 2), "byte2": (2, 3), "byte3": (3, 4), "system": (6, 10)}
    for name, value in fields.items():
        first, end = places[name]
        octets[first:end] = value.to_bytes(end - first, "big")
    return replace(entry, frame=Frame(bytes(octets)))


def put(day: Day, at: int, entry: Line) -> Slip:
    """The log with another line in that place, which did it."""
    return Slip([*day.entries[:at], entry, *day.entries[at + 1:]], entry)


def without(day: Day, at: int, culprit: Line) -> Slip:
    return Slip([*day.entries[:at], *day.entries[at + 1:]], culprit)


def put_at_time(lines: List[Line], entry: Entry) -> List[Line]:
    """The lines with an entry after those that are not later."""
    at = next(at for at, it in enumerate(lines) if it.time > entry.time)
    return [*lines[:at], entry, *lines[at:]]


def awaited(day: Day, spare: int) -> Tuple[int, int]:
    """A primary that the owner sent, and its reply; the connection lasts some ms longer than T3 from then on."""
    limits, last = day.limits(), day.owner.t3 + spare
    found = [
        (at, end) for at, end in day.replies()
        if day.entries[at].event == SENT and day.entries[limits[at] - 1].time > day.entries[at].time + last
    ]
    return day.chance.choice(found)


# The slips. One that the day has no place for raises IndexError.


def reply_is_late(day: Day) -> Slip:
    """It comes after T3, is accepted, and no `t3` is logged. Its primary waits for too long, before it comes."""
    late = day.chance.randrange(1, 5_000)
    at, end = awaited(day, late)
    primary = day.entries[at]
    reply = replace(day.entries[end], time=primary.time + day.owner.t3 + late)
    return Slip(put_at_time(without(day, end, primary).lines, reply), primary, reply)


def reply_is_missing(day: Day) -> Slip:
    at, end = awaited(day, 1)
    return without(day, end, day.entries[at])


def reply_has_another_function(day: Day) -> Slip:
    _, end = day.chance.choice(day.replies())
    return put(day, end, changed(day.entries[end], byte3=day.frame(end).byte3 + day.chance.one(2, 4)))


def reply_has_other_system_bytes(day: Day) -> Slip:
    _, end = day.chance.choice(day.replies())
    system = day.frame(end).system ^ day.chance.one(1 << 31, 1 << 24, 1 << 20)
    return put(day, end, changed(day.entries[end], system=system))


def system_bytes_are_used_twice(day: Day) -> Slip:
    """A request has those of an open one: it is sent again, or is another one, whose reply has them too."""
    pairs = day.replies()
    if day.chance.happens(0.3):
        at, _ = day.chance.choice(pairs)
        again = replace(day.entries[at])
        return Slip([*day.entries[: at + 1], again, *day.entries[at + 1:]], again)
    both = [
        (one, two) for one, two in zip(pairs, sorted(pairs)[1:])
        if one[0] < two[0] < one[1] and day.entries[one[0]].event == day.entries[two[0]].event
    ]
    one, two = day.chance.choice(both)
    system, lines = day.frame(one[0]).system, list(day.entries)
    for at in two:
        lines[at] = changed(lines[at], system=system)
    return Slip(lines, lines[two[0]])


def data_is_before_select(day: Day) -> Slip:
    """A data message goes before the response that selects."""
    selects = [at for at, it in enumerate(day.entries) if it.frame is not None and it.frame.kind == "select.rsp"]
    select = day.chance.choice(selects)
    at = next(at for at in day.data() if at > select and opens(day.entries[at]))
    early = replace(day.entries[at], time=day.entries[select].time)
    return Slip([*day.entries[:select], early, *day.entries[select:at], *day.entries[at + 1:]], early)


def message_has_another_device(day: Day) -> Slip:
    at = day.chance.choice(day.data())
    return put(day, at, changed(day.entries[at], session=day.owner.device + day.chance.one(1, 7)))


def w_bit_is_wrong(day: Day) -> Slip:
    """A reply has it, or a primary that is answered lacks it."""
    at, end = day.chance.choice(day.replies())
    at = day.chance.one(at, end)
    return put(day, at, changed(day.entries[at], byte2=day.frame(at).byte2 ^ 0x80))


def reply_follows_reject(day: Day) -> Slip:
    """A primary is rejected, and answered nevertheless; or its T3 expires, as if it were open."""
    at, end = awaited(day, 1)
    primary, reply = day.entries[at], day.entries[end]
    octets = primary.frame.octets[:2] + bytes([0, 4, 0, 7]) + primary.frame.octets[6:10]
    reject = Entry(reply.time, TAKEN, Frame(octets))
    if day.chance.happens(0.5):
        return Slip([*day.entries[:end], reject, *day.entries[end:]], reply)
    expiry = Entry(primary.time + day.owner.t3, "t3", system=primary.frame.system)
    return Slip(put_at_time([*day.entries[:end], reject, *day.entries[end + 1:]], expiry), expiry)


def time_goes_back(day: Day) -> Slip:
    """Two threads log in the wrong order, or the clock is set back."""
    lines, data = list(day.entries), day.data()
    if day.chance.happens(0.5):
        tied = {*day.transactions()}
        pairs = [pair for pair in zip(data, data[1:]) if pair[0] + 1 == pair[1] and pair not in tied]
        one, two = day.chance.choice([pair for pair in pairs if lines[pair[0]].time < lines[pair[1]].time])
        lines[one], lines[two] = lines[two], lines[one]
        return Slip(lines, lines[two])
    step = day.chance.one(2_000, 60_000, 3_600_000)
    places = [at for at in data if lines[at].time >= step and lines[at].time - step < lines[at - 1].time]
    at = day.chance.choice(places)
    lines[at:] = [replace(it, time=it.time - step) if it.time >= step else it for it in lines[at:]]
    return Slip(lines, lines[at])


def down_is_missing(day: Day) -> Slip:
    at = day.chance.choice([at for at, it in enumerate(day.entries[:-1]) if it.event == "down"])
    return without(day, at, day.entries[at + 1])


def line_is_cut(day: Day) -> Slip:
    """The log has only the first part of a line, and then the next one."""
    at = day.chance.choice([at for at in day.data() if day.frame(at).text])
    line = line_of(day.entries[at])
    digits = len(line) - 2 * len(day.frame(at).text)
    return put(day, at, line[: day.chance.choice([*range(1, digits), *range(digits + 1, len(line))])])


def line_1_is_wrong(day: Day) -> Slip:
    """The device, the link, the role or the version."""
    owner, peer = day.owner, next(it for it in day.settings.values() if it is not day.owner)
    others = [replace(owner, device=owner.device + 1), replace(owner, link=peer.link)]
    if any(it.frame is not None and it.frame.kind == "primary" and it.frame.stream == 9 for it in day.entries):
        others.append(replace(owner, role=peer.role))
    if sum(it.event == "up" for it in day.entries) > 1:
        others.append(replace(owner, version=1))
    first = first_line(day.chance.choice(others))
    return Slip([first, *day.entries], first)


def linktest_is_unanswered(day: Day) -> Slip:
    """The peer does not answer, and the end does not cut the connection after T6."""
    limits, entries = day.limits(), day.entries
    found = [
        (at, end) for at, end in day.transactions()
        if day.frame(at).kind == "linktest.req" and entries[at].event == SENT
        and entries[limits[at] - 1].time > entries[at].time + day.owner.t6
    ]
    at, end = day.chance.choice(found)
    return without(day, end, entries[at])


SLIPS: List[Callable[[Day], Slip]] = [
    reply_is_late, reply_is_missing, reply_has_another_function, reply_has_other_system_bytes,
    system_bytes_are_used_twice, data_is_before_select, message_has_another_device, w_bit_is_wrong, reply_follows_reject,
    time_goes_back, down_is_missing, line_is_cut, line_1_is_wrong, linktest_is_unanswered,
]


class DayLog(NamedTuple):
    """A log, the same without the slip, the number of the line that did it, and that of one that fails later."""

    text: bytes
    valid: bytes
    line: int
    later: Optional[int]


def with_first(day: Day, lines: List[Line]) -> List[Line]:
    return lines if isinstance(lines[0], str) and lines[0].startswith("hsms-log") else [first_line(day.owner), *lines]


def written(lines: List[Line]) -> bytes:
    return text_of([it if isinstance(it, str) else line_of(it) for it in lines])


def day_log(seed: str, slip: Callable[[Day], Slip], primaries: int) -> DayLog:
    """Returns the first log by the seed that has a place for the slip."""
    for attempt in range(100):
        chance = Chance(f"{seed} {slip.__name__} {attempt}")
        several = slip is down_is_missing or chance.happens(0.3)
        day = Day(chance, primaries, chance.one(2, 3) if several else 1)
        try:
            made = slip(day)
        except (IndexError, StopIteration):
            continue
        lines = with_first(day, made.lines)
        numbers = {id(it): number for number, it in enumerate(lines, 1)}
        valid = with_first(day, list(day.entries))
        return DayLog(written(lines), written(valid), numbers[id(made.culprit)], numbers.get(id(made.later)))
    raise ValueError(f"no log by {seed} has a place for {slip.__name__}")
