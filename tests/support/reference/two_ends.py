"""Random conversations of a host and an equipment over a network that delays and breaks off, and their logs.

The endpoints are those of `ends`. Each has a clock of its own, which is off and may run fast or slow. What is sent last may
be lost. `Damage` changes a log in a known way.
"""
import heapq
from dataclasses import replace
from typing import Callable, Dict, List, Tuple

from tests.support.reference.ends import End, Refused, equipment_desk, first_line, host_desk, line_of, obliging_desk
from tests.support.reference.notation import Message
from tests.support.reference.random_messages import Chance, random_item
from tests.support.reference.session import SENT, Settings

HOST, EQUIPMENT = "host", "equipment"
OTHER = {HOST: EQUIPMENT, EQUIPMENT: HOST}
NAMES = ((1, 1), (1, 3), (2, 25), (2, 41), (5, 1), (6, 11), (7, 3), (1, 13))


class Clock:
    """The clock of an end: it is off, and runs fast or slow."""

    def __init__(self, chance: Chance):
        self.offset = chance.one(0, 700_000, 1_764_000_000_000)
        self.drift = chance.one(0, 0, 1, -1, 50)

    def at(self, now: int) -> int:
        """Returns the time of the clock, in ms."""
        return max(0, self.offset + now + now * self.drift // 1_000_000)


class Connection:
    """One connection of two ends, from its start to its end."""

    # How probable it is that the end that listens starts.
    starts = 0.9

    def __init__(self, talk: "TwoEnds", start: int):
        self.talk, self.chance, self.now = talk, talk.chance, start
        self.ends = {role: End(settings, talk.desks[role], 1) for role, settings in talk.settings.items()}
        self.events: List[Tuple[int, int, Callable, tuple]] = []
        self.arrivals = {HOST: 0, EQUIPMENT: 0}
        self.early = {HOST: b"", EQUIPMENT: b""}
        self.count = 0

    def plan(self, time: int, act: Callable, *given):
        self.count += 1
        heapq.heappush(self.events, (time, self.count, act, given))

    def run(self, length: int):
        """Runs the connection, for some ms at most. Returns when it is over."""
        active = next(role for role, it in self.talk.settings.items() if it.link == "active")
        self.plan(self.now, self.tell, active, "start")
        if self.chance.happens(self.starts):
            self.plan(self.now + self.delay(), self.tell, OTHER[active], "start")
        end = self.now + length
        self.plan_messages(end)
        self.plan(end, self.finish)
        for time in range(self.now, end + 100_000, 500):
            self.plan(time, self.tick)
        while self.events and self.now < end + 100_000 and not self.is_over():
            self.now, _, act, given = heapq.heappop(self.events)
            act(*given)

    def plan_messages(self, end: int):
        for _ in range(self.chance.one(0, 2, 6, 20)):
            self.plan(self.chance.randrange(self.now, end), self.send, self.chance.one(HOST, EQUIPMENT))

    def is_over(self) -> bool:
        return all(it.log.up is not None and not it.log.is_up for it in self.ends.values())

    def delay(self) -> int:
        return self.chance.one(0, 1, 2, 5, 40) if self.chance.happens(0.95) else self.chance.one(3_000, 50_000)

    def tell(self, role: str, call: str, *given):
        """Tells an end something. What it sends is on its way."""
        end = self.ends[role]
        time = self.talk.clocks[role].at(self.now)
        if call == "hear" and end.log.up is None:
            self.early[role] += given[0]
            return
        try:
            if call == "start":
                entries = end.start(time) + end.hear(self.early[role])
            else:
                entries = end.tick(time)
                entries += getattr(end, call)(*given) if call != "tick" else []
        except Refused:
            return
        for entry in entries:
            if entry.event == SENT:
                octets = len(entry.frame.octets).to_bytes(4, "big") + entry.frame.octets
                self.arrivals[role] = max(self.arrivals[role], self.now + self.delay())
                self.plan(self.arrivals[role], self.tell, OTHER[role], "hear", octets)
        if end.log.up is not None and not end.log.is_up:
            self.plan(self.now + self.delay(), self.tell, OTHER[role], "lost")

    def tick(self):
        for role in self.ends:
            self.tell(role, "tick")

    def send(self, role: str):
        stream, function = self.chance.choice(NAMES)
        item = None if self.chance.happens(0.5) else random_item(self.chance, 1)
        if self.chance.happens(0.1):
            self.tell(role, "linktest")
        else:
            self.tell(role, "send", Message(stream, function, self.chance.happens(0.8), item))

    def finish(self):
        """Ends the connection: by Separate, or it breaks and what is on its way is lost."""
        role = self.chance.one(HOST, EQUIPMENT)
        if self.chance.happens(0.6):
            self.tell(role, "separate")
        else:
            self.events = [it for it in self.events if it[2] == self.tick]
            heapq.heapify(self.events)
            for one in self.ends:
                self.plan(self.now + self.chance.one(0, 30, 9_000), self.tell, one, "lost")


class TwoEnds:
    """A conversation over one connection, or over several, and the logs of both ends."""

    def __init__(self, seed: str, connections: int = 1):
        self.chance = chance = Chance(seed)
        links = chance.one(("active", "passive"), ("passive", "active"))
        version = 2 if connections > 1 else chance.one(1, 2)
        timers = [(chance.one(2_000, 45_000), chance.one(2_000, 6_000), 10_000, 5_000) for _ in links]
        self.settings: Dict[str, Settings] = {
            role: Settings(role, link, 0, *times, 1_048_576, 32, version)
            for role, link, times in zip((HOST, EQUIPMENT), links, timers)
        }
        equipment = chance.one(equipment_desk(b"MDLN", b"1"), obliging_desk())
        self.desks = {HOST: chance.one(host_desk(), obliging_desk()), EQUIPMENT: equipment}
        self.clocks = {role: Clock(chance) for role in self.settings}
        self.lines: Dict[str, List[str]] = {role: [first_line(it)] for role, it in self.settings.items()}
        now = chance.one(0, 1_000)
        for _ in range(connections):
            connection = Connection(self, now)
            connection.run(chance.one(1_000, 20_000, 120_000))
            for role, end in connection.ends.items():
                self.lines[role] += map(line_of, end.log.entries)
            now = connection.now + chance.one(0, 10_000)

    def text(self, role: str) -> bytes:
        """Returns the log of an end."""
        return text_of(self.lines[role])


def text_of(lines: List[str]) -> bytes:
    return "".join(line + "\n" for line in lines).encode()


# ---- damage. Each takes the lines of a log, and returns its text.


def cut_anywhere(chance: Chance, lines: List[str]) -> bytes:
    """The log ends earlier, in the midst of a line too."""
    text = text_of(lines)
    return text[: chance.randrange(len(lines[0]) + 1, len(text) + 1)]


def begins_later(chance: Chance, lines: List[str]) -> bytes:
    """The log begins with a later connection."""
    ups = [at for at, line in enumerate(lines) if line.endswith(" up")]
    return text_of([lines[0], *lines[chance.choice(ups):]]) if ups else text_of(lines)


def line_removed(chance: Chance, lines: List[str]) -> bytes:
    at = chance.randrange(1, len(lines))
    return text_of(lines[:at] + lines[at + 1:])


def line_changed(chance: Chance, lines: List[str]) -> bytes:
    """One digit of a frame is another."""
    frames = [at for at, line in enumerate(lines[1:], start=1) if line.split(" ")[1] in "<>!"]
    if not frames:
        return text_of(lines)
    at = chance.choice(frames)
    digit = chance.randrange(len(lines[at].rsplit(" ", 1)[0]) + 1, len(lines[at]))
    other = f"{int(lines[at][digit], 16) ^ chance.randrange(1, 16):x}"
    return text_of([*lines[:at], lines[at][:digit] + other + lines[at][digit + 1:], *lines[at + 1:]])


def lines_swapped(chance: Chance, lines: List[str]) -> bytes:
    if len(lines) < 3:
        return text_of(lines)
    at = chance.randrange(1, len(lines) - 1)
    return text_of([*lines[:at], lines[at + 1], lines[at], *lines[at + 2:]])


def line_doubled(chance: Chance, lines: List[str]) -> bytes:
    at = chance.randrange(1, len(lines))
    return text_of([*lines[: at + 1], *lines[at:]])


# What only lets parts be missing, and what is a contradiction or none.
MISSING = (cut_anywhere, begins_later)
WRONG = (line_removed, line_changed, lines_swapped, line_doubled)


def of_other_device(talk: TwoEnds, role: str) -> bytes:
    """Returns the log of an end with another device in its first line."""
    settings = replace(talk.settings[role], device=talk.settings[role].device + 1)
    return text_of([first_line(settings), *talk.lines[role][1:]])
