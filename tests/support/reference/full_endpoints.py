"""Lists of inputs of an endpoint with the maximum of open transactions, and calls with several errors each."""
from itertools import combinations
from typing import List, Tuple

from tests.support.reference.conversations import Maker, Told
from tests.support.reference.ends import MOST_OWN, End, nesting
from tests.support.reference.items import BY_NAME, Fault, Item, encode
from tests.support.reference.messages import HEADER
from tests.support.reference.notation import Message
from tests.support.reference.random_messages import Chance
from tests.support.reference.session import Settings

# The faults of `send`, in the order in which the page on ends has them, and those of `linktest`.
FAULTS_OF_SEND = ["NotUp", "NotSelected", "NotPrimary", "Nine", "Full", "TooDeep", "TooLong"]
FAULTS_OF_LINKTEST = ["NotUp", "Full"]

# Each two faults that hold of one call, the first of which is answered.
TO_REACH = [f"send: {first} before {second}" for first, second in combinations(FAULTS_OF_SEND, 2)]
TO_REACH += ["linktest: NotUp before Full"]


def faults_of(end: End, told: Told) -> List[str]:
    """The faults for which an end has to refuse a `send` or `linktest`, each by itself, in their order."""
    if told.call not in ("send", "linktest"):
        return []
    is_full = len(end.log.own_open) >= MOST_OWN
    if told.call == "linktest":
        return [fault for fault, holds in zip(FAULTS_OF_LINKTEST, (not end.log.is_up, is_full)) if holds]
    message = told.given
    holding = [
        not end.log.is_up,
        not end.log.is_selected,
        message.function % 2 == 0,
        message.stream == 9,
        message.wait and is_full,
        message.item is not None and nesting(message.item) > end.settings.depth,
        is_too_long(message, end.settings),
    ]
    return [fault for fault, holds in zip(FAULTS_OF_SEND, holding) if holds]


def is_too_long(message: Message, settings: Settings) -> bool:
    try:
        return message.item is not None and HEADER + len(encode(message.item)) > settings.max
    except Fault:
        return True


def item_of(depth: int, length: int) -> Item:
    """A binary item of the given number of bytes, in the given number of lists."""
    item = Item(BY_NAME["B"], bytes(length))
    for _ in range(depth):
        item = Item(BY_NAME["L"], [item])
    return item


def any_send(chance: Chance, settings: Settings) -> Told:
    """A message that may be wrong in each way."""
    item = item_of(settings.depth + chance.one(0, 1), chance.one(0, settings.max)) if chance.happens(0.8) else None
    return Told("send", Message(chance.one(1, 2, 9), chance.one(1, 1, 2), chance.happens(0.7), item))


def calls(chance: Chance, settings: Settings, count: int) -> List[Told]:
    return [any_send(chance, settings) if chance.happens(0.8) else Told("linktest") for _ in range(count)]


def selecting(settings: Settings, first_system: int) -> Told:
    """What the peer says so that the session is selected."""
    stype, system = (1, 1) if settings.link == "passive" else (2, first_system)
    header = bytes.fromhex("ffff000000") + bytes([stype]) + system.to_bytes(4, "big")
    return Told("hear", len(header).to_bytes(4, "big") + header)


def crowd(chance: Chance) -> Tuple[Maker, List[Told]]:
    """An end that opens as many transactions as it may, selected or not, and its inputs before, then and after."""
    limits = (256, chance.one(1, 2, 4))
    role, link = chance.one("host", "equipment"), chance.one("active", "passive")
    settings = Settings(role, link, chance.one(0, 7), 45_000, 6000, 10_000, 5000, *limits)
    maker = Maker(settings, b"", chance.one(0, 1, (1 << 32) - 40))
    open_one = chance.one(Told("linktest"), Told("send", Message(1, 1, True, None)))
    told = [*calls(chance, settings, 5), Told("start", 0), *calls(chance, settings, 5)]
    told += [selecting(settings, maker.first_system)] if open_one.call == "send" or chance.happens(0.3) else []
    told += [open_one] * (MOST_OWN + chance.one(-1, 0, 1))
    told += [*calls(chance, settings, 30), Told(chance.one("lost", "separate")), *calls(chance, settings, 10)]
    return maker, told
