"""Logs of endpoints that test their links, some with a line at another time, for tests/tools/mutate_reference.py.

An endpoint of the reference receives input at random times, and tests its link when docs/SERVE.md requires it.
"""
from typing import List, NamedTuple

from tests.support.reference.ends import End, control, equipment_desk, first_line, frame_of, line_of
from tests.support.reference.linktest import LATE
from tests.support.reference.messages import Frame
from tests.support.reference.random_messages import Chance
from tests.support.reference.session import Settings

T6 = 150


class Paused(NamedTuple):
    """The lines of a log, and what its end was made of."""

    lines: List[str]
    settings: Settings
    pause: int


def framed(frame: Frame) -> bytes:
    return len(frame.octets).to_bytes(4, "big") + frame.octets


class Tested:
    """An end that tests its link, and a peer that says something now and then."""

    def __init__(self, chance: Chance):
        self.chance = chance
        self.pause = chance.one(30, 60, 100)
        self.settings = Settings("equipment", "passive", 0, 45000, T6, 10000, 5000, 1048576, 32)
        self.end = End(self.settings, equipment_desk(b"M", b"1"), 1)
        self.system = 100

    def talk(self) -> List[str]:
        """The lines of its log."""
        self.end.start(self.chance.one(0, 0, 7))
        self.come(self.end.moment + self.chance.one(0, 5), control(1, self.system))
        for _ in range(12):
            self.go_on(self.end.moment + self.chance.one(0, 1, 20, 50, 120, 300))
            if not self.end.log.is_up:
                break
            self.say()
        self.leave()
        return [first_line(self.settings), *map(line_of, self.end.log.entries)]

    def go_on(self, until: int):
        """Time goes on, and the link is tested where that is due; what is open may be answered."""
        while self.end.log.is_up:
            due = self.end.test_due(self.pause)
            opened = [entry.time for entry in self.end.log.sent_control]
            moments = [moment for moment in (due, *(time + T6 + 1 for time in opened)) if moment is not None]
            moment = min(moments, default=until + 1)
            if moment > until:
                return
            self.end.tick(moment + (self.chance.one(0, 0, 1, LATE) if moment == due else 0))
            if self.end.log.is_up and moment == due:
                self.end.linktest()
                self.answer()

    def answer(self):
        """The peer answers a test, or does not."""
        if self.chance.happens(0.8):
            asked = self.end.log.sent_control[-1]
            self.come(asked.time + self.chance.one(0, 3), control(6, asked.frame.system))

    def say(self):
        self.system += 1
        if self.chance.happens(0.5):
            self.come(self.end.moment, control(5, self.system))
        else:
            self.come(self.end.moment, frame_of(0, 0x81, self.chance.one(1, 3), 0, self.system))

    def leave(self):
        """The peer separates, or just closes the connection."""
        if self.end.log.is_up and self.chance.happens(0.5):
            self.come(self.end.moment, control(9, self.system))
        elif self.end.log.is_up:
            self.end.lost()

    def come(self, moment: int, frame: Frame):
        self.end.tick(moment)
        if self.end.log.is_up:
            self.end.hear(framed(frame))


def shifted(line: str, by: int) -> str:
    time, event = line.split(" ", 1)
    return f"{max(0, int(time) + by)} {event}"


def moved(chance: Chance, lines: List[str]) -> List[str]:
    """The lines, of which one test and what follows it come so much sooner or later; or the test is there twice."""
    tests = [at for at, line in enumerate(lines) if " > ffff00000005" in line]
    if not tests:
        return lines
    first, by = chance.choice(tests), chance.one(-LATE, -1, 0, 1, LATE, LATE + 1)
    return lines[:first + (by == 0)] + [shifted(line, by) for line in lines[first:]]


def paused(number: int) -> Paused:
    """The log of this number: as an end wrote it, or with a test at another time."""
    chance = Chance(f"1 pause {number}")
    tested = Tested(chance)
    lines = tested.talk()
    return Paused(moved(chance, lines) if number % 2 else lines, tested.settings, tested.pause)
