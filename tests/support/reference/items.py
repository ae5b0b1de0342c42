"""Data items (SEMI E5): which bytes are an item, what is wrong with other bytes, and the shortest encoding."""
from dataclasses import dataclass
from typing import Any, Optional, Tuple

GREATEST_LENGTH = 16_777_215


class Fault(Exception):
    """What is wrong with an input: the fault's name and, where it has one, its number, which is a place or a length."""

    def __init__(self, name: str, **numbers: int):
        super().__init__(name)
        self.name = name
        self.numbers = numbers

    def words(self) -> str:
        """The error as the command writes it after `hsms: ` (this project's own form)."""
        return "".join([self.name, *(f" {name}={number}" for name, number in self.numbers.items())])


@dataclass(frozen=True)
class Format:
    """A format (SEMI E5): its name, its code (bits 8 to 3 of the format byte), the bytes of a value (0 of a list)."""

    name: str
    code: int
    width: int

    @property
    def is_list(self) -> bool:
        return self.name == "L"

    @property
    def holds_octets(self) -> bool:
        return self.name in ("B", "A", "J", "C2")

    @property
    def is_signed(self) -> bool:
        return self.name in ("I1", "I2", "I4", "I8")

    @property
    def is_unsigned(self) -> bool:
        return self.name in ("U1", "U2", "U4", "U8")

    @property
    def is_float(self) -> bool:
        return self.name in ("F4", "F8")


FORMATS = [
    Format("L", 0o00, 0),
    Format("B", 0o10, 1),
    Format("BOOLEAN", 0o11, 1),
    Format("A", 0o20, 1),
    Format("J", 0o21, 1),
    Format("C2", 0o22, 1),
    Format("I8", 0o30, 8),
    Format("I1", 0o31, 1),
    Format("I2", 0o32, 2),
    Format("I4", 0o34, 4),
    Format("F8", 0o40, 8),
    Format("F4", 0o44, 4),
    Format("U8", 0o50, 8),
    Format("U1", 0o51, 1),
    Format("U2", 0o52, 2),
    Format("U4", 0o54, 4),
]

BY_CODE = {form.code: form for form in FORMATS}
BY_NAME = {form.name: form for form in FORMATS}


@dataclass(frozen=True)
class Item:
    """An item: its format, and its values.

    A list holds a list of items; B, A, J and C2 hold bytes; BOOLEAN holds a list of bools, the formats of numbers lists
    of ints, and F4 and F8 lists of bytes, each of them a value.
    """

    form: Format
    values: Any


def header_at(octets: bytes, place: int, depth: int) -> Tuple[Format, int, int]:
    """The format, the place of the body and its length (of a list the count of elements) of the item at a place.

    A faulty header is reported by its first error in the order of this project's table; its place is that of the
    header.
    """
    if place >= len(octets):
        raise Fault("Truncated", at=place)
    length_octets = octets[place] & 0b11
    if length_octets == 0:
        raise Fault("NoLength", at=place)
    form = BY_CODE.get(octets[place] >> 2)
    if form is None:
        raise Fault("Format", at=place)
    if form.is_list and depth == 0:
        raise Fault("Deep", at=place)
    body = place + 1 + length_octets
    if body > len(octets):
        raise Fault("Truncated", at=place)
    length = int.from_bytes(octets[place + 1:body], "big")
    if not form.is_list and length % form.width != 0:
        raise Fault("Ragged", at=place)
    if not form.is_list and body + length > len(octets):
        raise Fault("Truncated", at=place)
    return form, body, length


def item_at(octets: bytes, place: int, depth: int) -> Tuple[Item, int]:
    """The item at a place, its lists nested within the depth, and the place after it."""
    form, place, length = header_at(octets, place, depth)
    if not form.is_list:
        return Item(form, values_of(form, octets[place:place + length])), place + length
    elements = []
    for _ in range(length):
        element, place = item_at(octets, place, depth - 1)
        elements.append(element)
    return Item(form, elements), place


def values_of(form: Format, body: bytes) -> Any:
    """The values of a body (SEMI E5): the most significant byte first, signed numbers in two's complement."""
    if form.holds_octets:
        return body
    parts = [body[start:start + form.width] for start in range(0, len(body), form.width)]
    if form.name == "BOOLEAN":
        return [part != b"\x00" for part in parts]
    if form.is_float:
        return parts
    return [int.from_bytes(part, "big", signed=form.is_signed) for part in parts]


def decode_text(octets: bytes, depth: int) -> Optional[Item]:
    """The item of a message's text, or None of an empty text. A text is empty or exactly one item."""
    if not octets:
        return None
    item, end = item_at(octets, 0, depth)
    if end < len(octets):
        raise Fault("Trailing", at=end)
    return item


def fault_of_text(octets: bytes, depth: int) -> Optional[str]:
    """The name of the fault of a message's text, or None."""
    try:
        decode_text(octets, depth)
    except Fault as fault:
        return fault.name
    return None


def body_of(item: Item) -> bytes:
    """The bytes of an item's values. True is written as 01."""
    if item.form.is_list:
        return b"".join(encode(element) for element in item.values)
    if item.form.holds_octets:
        return item.values
    if item.form.name == "BOOLEAN":
        return bytes(1 if value else 0 for value in item.values)
    if item.form.is_float:
        return b"".join(item.values)
    width, is_signed = item.form.width, item.form.is_signed
    return b"".join(value.to_bytes(width, "big", signed=is_signed) for value in item.values)


def encode(item: Item) -> bytes:
    """The shortest spelling of an item: the fewest length bytes in each header."""
    body = body_of(item)
    length = len(item.values) if item.form.is_list else len(body)
    if length > GREATEST_LENGTH:
        raise Fault("TooLarge")
    length_octets = 1 if length <= 0xFF else 2 if length <= 0xFFFF else 3
    return bytes([item.form.code << 2 | length_octets]) + length.to_bytes(length_octets, "big") + body
