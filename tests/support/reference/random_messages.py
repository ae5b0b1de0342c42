"""Random inputs for `hsms show` and `hsms encode`: streams of messages, and messages in notation.

They are mostly valid, so that what follows the prefix is read too, and then often a little wrong.
"""
import random
from dataclasses import dataclass, replace
from typing import List, Tuple

from tests.support.reference.items import FORMATS, Format, Item, body_of, values_of
from tests.support.reference.messages import Options

# Bytes that mean something somewhere, and all bytes.
OCTETS = (0, 1, 2, 3, 5, 6, 7, 9, 10, 0x20, 0x22, 0x7E, 0x7F, 0x80, 0x81, 0xFF) * 16 + tuple(range(256))
VALUE_FORMATS = [form for form in FORMATS if not form.is_list]
LIST = FORMATS[0]


class Chance(random.Random):
    """A source of chance. What it gives depends on its seed alone."""

    def happens(self, probability: float) -> bool:
        return self.random() < probability

    def one(self, *choices):
        return self.choice(choices)

    def octet(self) -> int:
        return self.choice(OCTETS)

    def octets(self, count: int) -> bytes:
        return bytes(self.choices(OCTETS, k=count))

    def place(self, things) -> int:
        return self.randrange(len(things))


# Items, and the texts of messages.


def random_item(chance: Chance, depth: int) -> Item:
    """An item of lists nested within the depth."""
    if depth > 0 and chance.happens(0.45):
        return Item(LIST, [random_item(chance, depth - 1) for _ in range(chance.one(0, 1, 1, 2, 4))])
    form = chance.choice(VALUE_FORMATS)
    count = chance.one(0, 0, 1, 1, 2, 3, 5)
    if chance.happens(0.03):
        count = chance.choice([254, 255, 256, 257] * 4 + [0xFFFF // form.width, 0x10000 // form.width])
    return Item(form, values_of(form, chance.octets(count * form.width)))


def any_spelling(chance: Chance, item: Item) -> bytes:
    """One of the many spellings of an item: length fields may be longer than they have to be, true is not only 01."""
    if item.form.is_list:
        return spelled(chance, item.form, len(item.values), b"".join(any_spelling(chance, e) for e in item.values))
    body = body_of(item)
    if item.form.name == "BOOLEAN":
        body = bytes(octet and chance.one(1, 2, 0x80, 0xFF) for octet in body)
    return spelled(chance, item.form, len(body), body)


def spelled(chance: Chance, form: Format, length: int, body: bytes) -> bytes:
    least = 1 if length < 0x100 else 2 if length < 0x10000 else 3
    length_octets = max(least, chance.one(1, 1, 1, 1, 2, 3))
    return bytes([form.code << 2 | length_octets]) + length.to_bytes(length_octets, "big") + body


def ragged(chance: Chance) -> bytes:
    """An item of values whose body mostly ends within a value."""
    body = chance.octets(chance.one(1, 3, 5, 6, 9, 12))
    return spelled(chance, chance.choice(VALUE_FORMATS), len(body), body)


def nested(chance: Chance, depth: int) -> bytes:
    """Lists nested about as deep as the depth, and within them something that is right or wrong there."""
    lists = depth + chance.one(-1, 0, 0, 0)
    return b"\x01\x01" * lists + chance.one(b"\x01\x00", b"\x41\x00", b"\x01", b"\x03\x00\x00\x00", b"")


def of_length(chance: Chance, length: int) -> bytes:
    """A text of that many bytes that is an item."""
    body = length - 2
    if body <= 0xFF:
        return bytes([0x21, body]) + bytes(body)
    return b"\x42" + (body - 1).to_bytes(2, "big") + bytes(chance.one(0x41, 0x22, 0x00) for _ in range(body - 1))


def random_text(chance: Chance, depth: int, greatest: int) -> bytes:
    """The text of a message: mostly empty or an item, sometimes at the edge of what is allowed, sometimes disturbed."""
    kind = chance.random()
    if kind < 0.3:
        return b""
    if kind < 0.4:
        return nested(chance, depth)
    if kind < 0.45 and greatest < 1000:
        return of_length(chance, greatest - 10 + chance.one(-1, 0, 1))
    if kind < 0.5:
        return ragged(chance)
    text = any_spelling(chance, random_item(chance, min(depth, 3)))
    return text if kind < 0.75 else disturbed(chance, text)


def disturbed(chance: Chance, octets: bytes) -> bytes:
    """Bytes of which a few were taken away, put in or changed."""
    changed = bytearray(octets)
    for _ in range(chance.one(1, 1, 2)):
        kind = chance.randrange(6)
        if kind == 0 or not changed:
            changed += chance.octets(chance.one(1, 2))
        elif kind == 1:
            del changed[chance.place(changed):]
        elif kind == 2:
            del changed[chance.place(changed)]
        elif kind == 3:
            changed.insert(chance.place(changed), chance.octet())
        elif kind == 4:
            changed[chance.place(changed)] ^= 1 << chance.randrange(8)
        else:
            changed[min(chance.randrange(4), len(changed) - 1)] = chance.octet()
    return bytes(changed)


# Messages as bytes.


@dataclass(frozen=True)
class Draft:
    """A message that is being made."""

    session: int = 0xFFFF
    byte2: int = 0
    byte3: int = 0
    ptype: int = 0
    stype: int = 0
    system: int = 0
    text: bytes = b""

    def octets(self) -> bytes:
        front = self.session.to_bytes(2, "big") + bytes([self.byte2, self.byte3, self.ptype, self.stype])
        return front + self.system.to_bytes(4, "big") + self.text

    @property
    def opens(self) -> bool:
        return self.stype in (1, 5) or self.stype == 0 and self.byte2 >= 0x80 and self.byte3 % 2 == 1


def random_draft(chance: Chance, depth: int, greatest: int) -> Draft:
    """Any message, mostly data."""
    draft = Draft(
        session=chance.one(0, 1, 0xFFFF, chance.randrange(1 << 16)),
        byte2=chance.octet(),
        byte3=chance.octet(),
        system=chance.one(0, 1, 0xFFFFFFFF, chance.randrange(1 << 32)),
        text=random_text(chance, depth, greatest),
    )
    if chance.happens(0.7):
        return draft
    text = b"" if chance.happens(0.7) else draft.text
    return replace(draft, stype=chance.octet() % 12, ptype=chance.one(0, 0, 0, 0, 1, 0xFF), text=text)


def random_stream(chance: Chance) -> Tuple[bytes, Options]:
    """A stream of messages and the options with which it is shown."""
    options = Options(max=chance.one(256, 257, 300, 1_048_576, 33_554_432), depth=chance.one(1, 2, 3, 32, 100))
    stream = b""
    for _ in range(chance.one(0, 1, 1, 2, 3, 6)):
        octets = random_draft(chance, options.depth, options.max).octets()
        stream += len(octets).to_bytes(4, "big") + octets
    kind = chance.random()
    if kind < 0.10:
        length = chance.one(0, 9, 10, 11, options.max, options.max + 1, 0xFFFFFFFF)
        stream += length.to_bytes(4, "big") + chance.octets(chance.one(0, 1, 9, 10, 10, 11, 20))
    elif kind < 0.18:
        stream = stream[:chance.randrange(len(stream) + 1)]
    elif kind < 0.24:
        stream = disturbed(chance, stream)
    return stream, options


def in_digits(chance: Chance, octets: bytes) -> bytes:
    """Bytes in digits, with blanks at places, and now and then one at a wrong place or a wrong digit."""
    blank = chance.one(b"", b"", b" ", b"\t", b"  ")
    pairs = [b"%02x" % octet if chance.happens(0.9) else b"%02X" % octet for octet in octets]
    digits = chance.one(b"", b"", b" ") + blank.join(pairs) + chance.one(b"", b"", b" \t")
    kind = chance.random()
    if kind < 0.04:
        place = chance.randrange(len(digits) + 1)
        digits = digits[:place] + chance.one(b" ", b"g", b"\r", b"\x00", b"0", b":") + digits[place:]
    elif kind < 0.08:
        digits = digits[:chance.randrange(len(digits) + 1)]
    return digits


def random_lines(chance: Chance) -> Tuple[bytes, Options]:
    """Lines of hexadecimal and the options with which they are shown."""
    bare = chance.happens(0.5)
    options = Options(max=chance.one(256, 300, 1_048_576), depth=chance.one(1, 2, 32, 100), hex=True, bare=bare)
    lines = []
    for _ in range(chance.one(0, 1, 1, 2, 3, 6)):
        octets = random_draft(chance, options.depth, options.max).octets()
        if not bare:
            length = len(octets) + chance.choice([0] * 20 + [-1, 1, 256])
            octets = length.to_bytes(4, "big") + octets
        if chance.happens(0.03):
            octets = chance.one(octets[:9], octets[:3], octets + octets, octets + bytes(options.max % 1000))
        lines.append(in_digits(chance, octets))
        if chance.happens(0.2):
            lines.append(chance.one(b"", b"", b" ", b"\t \t"))
    if options.max < 1000 and chance.happens(0.1):
        longest = 4 * options.max + 64
        lines.append(b" " * (longest + chance.one(-1, 0, 1)) + chance.one(b"", b"\r"))
    text = b"".join(line + chance.one(b"\n", b"\n", b"\n", b"\r\n") for line in lines)
    return (text[:-1] if chance.happens(0.2) else text), options


# Messages in notation.

ODD_TOKENS = (
    "< > [ ] . W w L B BOOLEAN A J C2 I1 I2 I4 I8 U1 U2 U4 U8 F4 F8 I3 l Boolean T F t TRUE 0 1 -1 -0 00 01 -01 --1 1- "
    "- 0x0 0x00 0xFF 0xfF 0X00 0x000 0xG0 0x00000000 0x3f800000 0x3F8000000 0x0000000000000000 0x000000000000000g "
    '"" "a" "a\x7f" "a "\n" "\x80" "\x1f" , +1 \x00 \xe4 \x0b \x0c # / '
    "S1F1 S127F255 S128F1 S1F256 S01F1 S1F01 S00F0 S0F0 SF1 S1F S1 s1f1 S1F1W S-1F1 S1F-1 S1F1F1 "
    "S99999999999999999999F1 18446744073709551615 18446744073709551616 99999999999999999999999"
)
ODD_WORDS = [token.encode("latin-1") for token in ODD_TOKENS.split(" ")]
WORD_OCTETS = frozenset(b"-0123456789ABCDEFGHIJKLMNOPQRSTUVWXYZabcdefghijklmnopqrstuvwxyz")


def near_edge(chance: Chance) -> bytes:
    """A number at the edge of a type's range."""
    bits = chance.one(7, 8, 15, 16, 31, 32, 63, 64)
    return str(chance.one(1, 1, -1) * (1 << bits) + chance.one(-1, 0, 0, 1)).encode()


def item_tokens(chance: Chance, item: Item) -> List[bytes]:
    number = len(item.values) + chance.choice([0] * 40 + [-1, 1])
    count = [b"[", str(number).encode(), b"]"] if chance.happens(0.5) else []
    return [b"<", item.form.name.encode(), *count, *value_tokens(chance, item), b">"]


def value_tokens(chance: Chance, item: Item) -> List[bytes]:
    if item.form.is_list:
        return [token for element in item.values for token in item_tokens(chance, element)]
    if item.form.name == "A":
        return ascii_tokens(chance, item.values)
    if item.form.name == "BOOLEAN":
        return [b"T" if value else b"F" for value in item.values]
    if item.form.holds_octets:
        return [hexadecimal(chance, bytes([octet])) for octet in item.values]
    if item.form.is_float:
        return [hexadecimal(chance, value) for value in item.values]
    return [str(value).encode() for value in item.values]


def hexadecimal(chance: Chance, octets: bytes) -> bytes:
    digits = octets.hex()
    return b"0x" + chance.one(digits, digits.upper()).encode()


def ascii_tokens(chance: Chance, body: bytes) -> List[bytes]:
    """Bytes in quotes, as they are joined by chance, and in hexadecimal."""
    made: List[bytes] = [b'""'] if chance.happens(0.1) else []
    for octet in body:
        if octet not in range(0x20, 0x7F) or octet == 0x22 or chance.happens(0.2):
            made.append(hexadecimal(chance, bytes([octet])))
        elif made and made[-1].startswith(b'"') and chance.happens(0.8):
            made[-1] = made[-1][:-1] + bytes([octet]) + b'"'
        else:
            made.append(b'"' + bytes([octet]) + b'"')
    return made


def message_tokens(chance: Chance, depth: int) -> List[bytes]:
    stream = chance.one(0, 1, 9, 127, chance.randrange(128))
    function = chance.one(0, 1, 254, 255, chance.randrange(256))
    made = [f"S{stream}F{function}".encode()]
    if chance.happens(0.5):
        made.append(b"W")
    if chance.happens(0.8):
        made += item_tokens(chance, random_item(chance, chance.randrange(min(depth, 4) + 1)))
    return [*made, b"."]


def nested_tokens(chance: Chance, depth: int) -> List[bytes]:
    """Lists nested about as deep as the depth."""
    lists = depth + chance.one(-1, 0, 1)
    inner = chance.one([], [b"<", b"A", b">"], [b"<", b"L", b">"], [b"<", b"L"], [b"<", b"U1", b"1", b">"], [b"<"])
    return [b"S1F1", *[b"<", b"L"] * lists, *inner, *[b">"] * (lists + chance.one(-1, 0, 0, 0, 1)), b"."]


def long_tokens(chance: Chance, length: int) -> List[bytes]:
    """A message whose text has that many bytes, between two short ones."""
    body = length - 2 if length - 2 < 0x100 else length - 3
    values = chance.one([b"B"] + [b"0x00"] * body, [b"A", b'"' + b"x" * body + b'"'], [b"U1"] + [b"7"] * body)
    behind = chance.one([], [b"S1F2", b"."], [b"S1F1", b"<", b"U1", b"256", b">", b"."])
    return [b"S5F1", b".", b"S1F1", b"W", b"<", *values, b">", b".", *behind]


def odd_tokens(chance: Chance, tokens: List[bytes]) -> List[bytes]:
    """Tokens of which one or two were changed."""
    changed = list(tokens)
    for _ in range(chance.one(1, 1, 2)):
        at = chance.randrange(len(changed) + 1)
        odd = near_edge(chance) if chance.happens(0.2) else chance.choice(ODD_WORDS)
        kind = chance.randrange(4)
        if kind == 0:
            del changed[at:at + 1]
        elif kind == 1:
            changed.insert(at, odd)
        elif kind == 2:
            changed[at:at + 1] = [odd]
        else:
            changed[at:at + 2] = reversed(changed[at:at + 2])
    return changed


def joined(chance: Chance, tokens: List[bytes]) -> bytes:
    """Tokens with white space between them, at least where two words meet."""
    text = b""
    for token in tokens:
        words_meet = bool(text) and text[-1] in WORD_OCTETS and token[:1] != b"" and token[0] in WORD_OCTETS
        if words_meet or chance.happens(0.5):
            text += chance.one(b" ", b" ", b"\n", b"\t", b"\r\n", b"\r", b"  ")
        text += token
    return text + chance.one(b"", b"", b"\n", b"  ")


def random_notation(chance: Chance) -> Tuple[bytes, Options]:
    """Messages in notation and the options with which they are encoded."""
    options = Options(
        device=chance.one(0, 0, 1, 300, 32_767),
        system=chance.one(0, 1, 77, 0x80000000, 0xFFFFFFFE, 0xFFFFFFFF),
        max=chance.one(256, 257, 300, 1_048_576, 33_554_432),
        depth=chance.one(1, 2, 3, 32, 100),
        hex=chance.happens(0.5),
    )
    kind = chance.random()
    if kind < 0.06:
        tokens = nested_tokens(chance, options.depth)
    elif kind < 0.12:
        tokens = long_tokens(chance, min(options.max, 300) - 10 + chance.one(-1, 0, 1))
    elif kind < 0.24:
        words = [near_edge(chance) for _ in range(chance.one(1, 2))]
        tokens = [b"S1F1", b"<", chance.choice(VALUE_FORMATS).name.encode(), *words, b">", b"."]
    else:
        messages = [message_tokens(chance, options.depth) for _ in range(chance.one(0, 1, 1, 2, 3))]
        tokens = [token for message in messages for token in message]
    if chance.happens(0.4):
        tokens = odd_tokens(chance, tokens)
    text = joined(chance, tokens)
    return (disturbed(chance, text) if chance.happens(0.1) else text), options


# Near misses, and what is beside them.
ODD_NOTATIONS = [
    "S127F255 W .",
    "S128F1 .",
    "S1F256 .",
    "S01F1 .",
    "S1F01 .",
    "SF1 .",
    "S1F1F1 .",
    "S1F1 W W .",
    "S1F1 w .",
    "S1F1 . W",
    "S1F1\x0b.",
    "S1F1 <B 0X00> .",
    "S1F1 <B 0x0> .",
    "S1F1 <F4 0x000000000> .",
    "S1F1 <BOOLEAN t> .",
    "S1F1 <U1 -0> .",
    "S1F1 <I1 -0> .",
    "S1F1 <I3> .",
    "S1F1 <L 1> .",
    "S1F1 <L> <L> .",
    'S1F1 <J "a"> .',
    'S1F1 <U1 1 "> .',
    'S1F1 <A "\x7f"> .',
    'S1F1 <A "\x1f"> .',
    'S1F1 <A "a',
    "S1F1 <L [18446744073709551615]> .",
    "S1F1 <L [18446744073709551616]> .",
    "S1F1 <L [00]> .",
    "S1F1 <L [0] [0]> .",
    "S1F1 <L []> .",
    "S1F1 <L [1",
    "S1F1 <L [",
    "S1F1 <L",
]


# Quoted texts in the place of words and marks.
QUOTED = [
    *['"S1F1" .', 'S1F1 "W" .', 'S1F1 "." .', 'S1F1 ".', 'S1F1 "<" L> .', 'S1F1 <"L"> .', 'S1F1 <L ">" .'],
    *['S1F1 <A ">"> .', 'S1F1 <L "["0]> .', 'S1F1 <L ["0"]> .', 'S1F1 <L [0"]"> .', 'S1F1 <U1 "1"> .'],
    *['S1F1 <BOOLEAN "T"> .', 'S1F1 <B "0x01"> .', "S1F1 <W> .", "S1F1 W <W> .", "S1F1 L .", "S1F1 <[0]> ."],
    *["S1F1 <<> .", "<L> .", ". .", "W ."],
]

# How deep lists may be nested, at edges.
DEPTHS = (1, 2, 32, 99, 100)


def nested_at_edges() -> List[Tuple[bytes, Options]]:
    """Lists as deep as they may be nested, and one deeper, empty or around a value."""
    return [(f"S1F1 {'<L ' * lists}{inner}{'>' * lists} .".encode(), Options(depth=depth))
            for depth in DEPTHS for lists in (depth, depth + 1) for inner in ("", "<U1 1>")]


# What is around a byte: a value's place, quotes, a word in front, a number in front.
AROUND = [(b"S1F1 <A ", b"> ."), (b'S1F1 <A "a', b'"> .'), (b"S1F1 W", b" ."), (b"S1F1 <U1 1", b"> .")]


def notations_at_edges() -> List[Tuple[bytes, Options]]:
    """Near misses; numbers at the edges of their types; bodies, lists and inputs at the edges of their lengths; each
    byte where it is white, a token, of a word or quoted, or none of these."""
    texts = ODD_NOTATIONS + QUOTED
    for form in VALUE_FORMATS:
        if form.is_signed or form.is_unsigned:
            count = 1 << (8 * form.width)
            least = -count // 2 if form.is_signed else 0
            numbers = (least - 1, least, least + count - 1, least + count)
            texts += [f"S1F1 <{form.name} {number}> ." for number in numbers]
    texts += [f'S1F1 <A "{"x" * length}"> .' for length in (0xFF, 0x100, 0xFFFF, 0x10000, 0xFFFFFF, 0x1000000)]
    texts += [f"S1F1 <L {'<L> ' * length}> ." for length in (0xFF, 0x100)]
    texts += [" " * length for length in (67_108_864, 67_108_865)]
    octets = [front + bytes([octet]) + behind for front, behind in AROUND for octet in range(256)]
    around_max = [(f'S1F1 <A "{"x" * length}"> .'.encode(), Options(max=256)) for length in range(242, 247)]
    found = [(text, Options(max=33_554_432)) for text in [*map(str.encode, texts), *octets]]
    return [*found, *around_max, *nested_at_edges()]
