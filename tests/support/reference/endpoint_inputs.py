"""Corrupt lists of inputs of an endpoint, as `hsms_ends_driver` reads them, and the answers of the reference.

A list is the inputs of an endpoint in a conversation, with bytes that are cut off, flipped or wrong, in other pieces,
at other times, in another order.
"""
from dataclasses import dataclass, replace
from typing import List, Set

from tests.support.reference import corruption, endpoint_cases, full_endpoints, notation
from tests.support.reference.conversations import REVISION, Maker, Told, parties_of
from tests.support.reference.ends import End, Refused, first_line, line_of
from tests.support.reference.full_endpoints import faults_of
from tests.support.reference.random_messages import Chance

WORDS = {"hear": "bytes"}
GREATEST_MOMENT = (1 << 64) - 1


@dataclass(frozen=True)
class Listed:
    """An endpoint, and its inputs."""

    maker: Maker
    told: List[Told]

    def text(self) -> str:
        """The lines of it."""
        return "\n".join([first_line(self.maker.settings), self.desk(), *map(line_of_told, self.told), "end\n"])

    def desk(self) -> str:
        maker = self.maker
        if maker.is_obliging:
            return f"obliging {maker.first_system}"
        return f"desk {maker.first_system} {digits(maker.model)} {digits(REVISION)}"


def digits(octets: bytes) -> str:
    return octets.hex() or "-"


def line_of_told(told: Told) -> str:
    word = WORDS.get(told.call, told.call)
    if told.given is None:
        return word
    if isinstance(told.given, bytes):
        return f"{word} {digits(told.given)}"
    return f"{word} {notation.printed(told.given) if told.call == 'send' else told.given}"


# Damages.


def place_of(chance: Chance, told: List[Told], *calls: str) -> int:
    """The place of one that is of these calls, or of the first one."""
    return chance.choice([at for at, each in enumerate(told) if each.call in calls] or [0])


def with_octets(chance: Chance, told: List[Told]) -> List[Told]:
    """Bytes that come are corrupt."""
    at = place_of(chance, told, "hear")
    octets = told[at].given
    if not isinstance(octets, bytes) or not octets:
        return told
    damaged = chance.choice(corruption.DAMAGES["show"])(chance, octets)
    return [*told[:at], Told("hear", damaged), *told[at + 1:]]


def in_two_pieces(chance: Chance, told: List[Told]) -> List[Told]:
    """Bytes come in two pieces, at one time or with a tick between."""
    at = place_of(chance, told, "hear")
    octets = told[at].given
    if not isinstance(octets, bytes):
        return told
    cut = chance.randrange(len(octets) + 1)
    between = chance.one([], [], [replace(each, call="tick") for each in told[:at] if each.call == "tick"][-1:])
    return [*told[:at], Told("hear", octets[:cut]), *between, Told("hear", octets[cut:]), *told[at + 1:]]


def in_one_piece(chance: Chance, told: List[Told]) -> List[Told]:
    """All bytes from a place on come at once."""
    at = place_of(chance, told, "hear")
    octets = b"".join(each.given for each in told[at:] if each.call == "hear")
    return [*told[:at], Told("hear", octets), *(each for each in told[at:] if each.call != "hear")]


def at_another_moment(chance: Chance, told: List[Told]) -> List[Told]:
    at = place_of(chance, told, "tick", "start")
    now = told[at].given
    if not isinstance(now, int):
        return told
    edges = (0, now - 1, now + 1, now * 2, 1 << 32, GREATEST_MOMENT - 1, GREATEST_MOMENT)
    timers = (20, 60, 100, 200, 1000, 3600)
    moment = chance.one(*edges, *(now + timer + past for timer in timers for past in (0, 1)))
    return [*told[:at], replace(told[at], given=min(max(0, moment), GREATEST_MOMENT)), *told[at + 1:]]


def with_garbage(chance: Chance, told: List[Told]) -> List[Told]:
    """Bytes by chance come in between."""
    at = chance.randrange(len(told) + 1)
    octets = chance.octets(chance.one(1, 3, 4, 14, 60))
    return [*told[:at], Told("hear", octets), *told[at:]]


def without_some(chance: Chance, told: List[Told]) -> List[Told]:
    begin, end = corruption.part(chance, told)
    return told[:begin] + told[end:]


def with_some_again(chance: Chance, told: List[Told]) -> List[Told]:
    begin, end = corruption.part(chance, told)
    return told[:end] + told[begin:end] * chance.one(1, 1, 2, 5) + told[end:]


def in_another_order(chance: Chance, told: List[Told]) -> List[Told]:
    begin, end = corruption.part(chance, told)
    return told[:begin] + chance.sample(told[begin:end], end - begin) + told[end:]


DAMAGES = [
    *[with_octets] * 6,
    *[in_two_pieces, in_one_piece, at_another_moment, at_another_moment, with_garbage],
    *[without_some, with_some_again, in_another_order],
]


def damaged(seed: str, number: int) -> Listed:
    """The list of a number from 0 on: some as they are made, the others corrupt."""
    chance = Chance(f"{seed} driven {number}")
    if chance.happens(0.03):
        return Listed(*full_endpoints.crowd(chance))
    party = chance.choice(parties_of(chance, 20, 20, 60, 100, 200))
    told = party.told
    for _ in range(chance.one(0, 1, 1, 2, 3, 8)):
        if told:
            told = chance.choice(DAMAGES)(chance, told)
    return Listed(party.maker, told)


def listed(seed: str, number: int) -> Listed:
    """The list of a number from 0 on: those of tables first, then those by chance."""
    of_tables = endpoint_cases.lists()
    return Listed(*of_tables[number]) if number < len(of_tables) else damaged(seed, number - len(of_tables))


# What is answered.


class Answering:
    """An endpoint of the reference on a list of inputs, the lines of each call's result, and what it did."""

    def __init__(self, listed: Listed):
        self.maker = listed.maker
        self.end = self.maker.new_end()
        self.reached: Set[str] = set()
        self.calls = [self.lines_of(told) for told in listed.told]

    def lines_of(self, told: Told) -> List[str]:
        call = getattr(End, told.call)
        later = faults_of(self.end, told)[1:]
        try:
            entries = call(self.end) if told.given is None else call(self.end, told.given)
        except Refused as refused:
            self.reached |= {str(refused), *(f"{told.call}: {refused} before {fault}" for fault in later)}
            return [f"refused {refused}"]
        names = self.maker.names_of(entries)
        settings = self.maker.settings
        self.reached |= names | {f"{name}, {settings.role} {settings.link}" for name in names}
        return [line_of(entry) for entry in entries]

    def text(self) -> str:
        lines = [line for lines in self.calls for line in lines]
        return "".join(line + "\n" for line in [*lines, f"pending {digits(self.end.pending)}", "end"])
