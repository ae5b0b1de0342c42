"""The project-specific notation of data messages: tokens, parsing, errors and their positions, the printed form."""
import re
from dataclasses import dataclass
from typing import Any, Iterator, List, NamedTuple, Optional, Tuple

from tests.support.reference.items import BY_NAME, Fault, Format, Item

WHITE_SPACE = re.compile(rb"[ \t\r\n]*")
WORD = re.compile(rb"[A-Za-z0-9-]+")
QUOTABLE = re.compile(rb"[\x20-\x21\x23-\x7e]*")
HEAD = re.compile(rb"S([0-9]+)F([0-9]+)")
NUMBER = re.compile(rb"0|[1-9][0-9]*")
HEXADECIMAL = re.compile(rb"0x([0-9A-Fa-f]*)")
RUN_OF_ASCII = re.compile(rb"[\x20-\x21\x23-\x7e]+|[^\x20-\x21\x23-\x7e]")


@dataclass(frozen=True)
class Message:
    """A data message (SEMI E5): its stream and function, whether it asks for a reply, and its item."""

    stream: int
    function: int
    wait: bool
    item: Optional[Item]


class Token(NamedTuple):
    """A token: `word`, `quoted`, `mark`, the `end` of the text, or what is `broken` and may be nowhere."""

    kind: str
    place: int
    octets: bytes


def tokens(text: bytes) -> Iterator[Token]:
    """The tokens of a text from its front on, up to the first that is broken, or to the end."""
    place = 0
    while True:
        place = WHITE_SPACE.match(text, place).end()
        if place == len(text):
            yield Token("end", place, b"")
            return
        token, place = token_at(text, place)
        yield token
        if token.kind == "broken":
            return


def token_at(text: bytes, place: int) -> Tuple[Token, int]:
    """The token that begins at a place, and the place after it."""
    word = WORD.match(text, place)
    if word:
        return Token("word", place, word[0]), word.end()
    octet = text[place:place + 1]
    if octet in (b"<", b">", b"[", b"]", b"."):
        return Token("mark", place, octet), place + 1
    if octet != b'"':
        return Token("broken", place, b""), place
    end = QUOTABLE.match(text, place + 1).end()
    if text[end:end + 1] != b'"':
        return Token("broken", end, b""), end
    return Token("quoted", place, text[place + 1:end]), end + 1


def number_below(word: bytes, bound: int) -> Optional[int]:
    """The number that a word is: `0`, or a digit 1 to 9 and any digits. None where it is none below the bound."""
    if not NUMBER.fullmatch(word) or len(word) > len(str(bound)):
        return None
    number = int(word)
    return number if number < bound else None


def signed_number(word: bytes, bits: int) -> Optional[int]:
    """The number in the range of a signed type that a word is. `-` is only before a number other than 0."""
    if not word.startswith(b"-"):
        return number_below(word, 1 << (bits - 1))
    number = number_below(word[1:], (1 << (bits - 1)) + 1)
    return -number if number else None


def value_of(form: Format, word: bytes) -> Any:
    """The value of a type that a word is, or None. Words of B, J, C2 and A are a byte each."""
    if form.is_unsigned:
        return number_below(word, 1 << (8 * form.width))
    if form.is_signed:
        return signed_number(word, 8 * form.width)
    if form.name == "BOOLEAN":
        return {b"T": True, b"F": False}.get(word)
    digits = HEXADECIMAL.fullmatch(word)
    if not digits or len(digits[1]) != 2 * form.width:
        return None
    return bytes.fromhex(digits[1].decode())


class Reader:
    """Reads messages token by token. The first token that may not occur where it does is the error."""

    def __init__(self, text: bytes, depth: int):
        self.depth = depth
        self.following = tokens(text)
        self.token = next(self.following)

    def take(self) -> Token:
        """The token at hand; the next one comes to hand."""
        token = self.token
        self.token = next(self.following)
        return token

    def refuse(self) -> Fault:
        return Fault("Syntax", at=self.token.place)

    def is_mark(self, mark: bytes) -> bool:
        return self.token.kind == "mark" and self.token.octets == mark

    def take_mark(self, mark: bytes) -> Token:
        if not self.is_mark(mark):
            raise self.refuse()
        return self.take()

    def messages(self) -> List[Message]:
        """Any number of messages. The text may end where one would begin."""
        messages = []
        while self.token.kind != "end":
            messages.append(self.message())
        return messages

    def message(self) -> Message:
        stream, function = self.head()
        wait = self.token.kind == "word" and self.token.octets == b"W"
        if wait:
            self.take()
        item = self.item(0) if self.is_mark(b"<") else None
        self.take_mark(b".")
        return Message(stream, function, wait, item)

    def head(self) -> Tuple[int, int]:
        """The stream and the function. A word of another form than `S` digits `F` digits is no head at all."""
        parts = HEAD.fullmatch(self.token.octets) if self.token.kind == "word" else None
        if not parts:
            raise self.refuse()
        stream, function = number_below(parts[1], 128), number_below(parts[2], 256)
        if stream is None or function is None:
            raise Fault("Number", at=self.token.place)
        self.take()
        return stream, function

    def item(self, lists_around: int) -> Item:
        opening = self.take_mark(b"<")
        form = BY_NAME.get(self.token.octets.decode()) if self.token.kind == "word" else None
        if form is None:
            raise self.refuse()
        if form.is_list and lists_around == self.depth:
            raise Fault("Deep", at=opening.place)
        self.take()
        bracket, count = self.count()
        values = self.elements(lists_around + 1) if form.is_list else self.values(form)
        if not self.is_mark(b">"):
            raise self.refuse()
        if bracket and count != len(values):
            raise Fault("Count", at=bracket.place)
        self.take()
        return Item(form, values)

    def count(self) -> Tuple[Optional[Token], Optional[int]]:
        """The opening bracket and the number after it, where they are written."""
        if not self.is_mark(b"["):
            return None, None
        bracket = self.take()
        if self.token.kind != "word":
            raise self.refuse()
        count = number_below(self.token.octets, 1 << 64)
        if count is None:
            raise Fault("Number", at=self.token.place)
        self.take()
        self.take_mark(b"]")
        return bracket, count

    def elements(self, lists_around: int) -> List[Item]:
        elements = []
        while self.is_mark(b"<"):
            elements.append(self.item(lists_around))
        return elements

    def values(self, form: Format) -> Any:
        """The values of an item that is no list. Quoted texts are in A alone."""
        values = []
        while self.token.kind == "word" or self.token.kind == "quoted" and form.name == "A":
            value = self.token.octets if self.token.kind == "quoted" else value_of(form, self.token.octets)
            if value is None:
                raise Fault("Number", at=self.token.place)
            values.append(value)
            self.take()
        return b"".join(values) if form.holds_octets else values


def read_all(text: bytes, depth: int) -> List[Message]:
    """The messages of a text, lists nested within the depth."""
    return Reader(text, depth).messages()


def printed(message: Message) -> str:
    """The one printed form of a message."""
    wait = " W" if message.wait else ""
    item = " " + printed_item(message.item) if message.item else ""
    return f"S{message.stream}F{message.function}{wait}{item} ."


def printed_item(item: Item) -> str:
    return "<" + " ".join([item.form.name, f"[{len(item.values)}]", *printed_values(item)]) + ">"


def printed_values(item: Item) -> List[str]:
    if item.form.is_list:
        return [printed_item(element) for element in item.values]
    if item.form.name == "A":
        return [printed_run(run) for run in RUN_OF_ASCII.findall(item.values)]
    if item.form.name == "BOOLEAN":
        return ["T" if value else "F" for value in item.values]
    if item.form.holds_octets:
        return [f"0x{octet:02X}" for octet in item.values]
    if item.form.is_float:
        return ["0x" + value.hex().upper() for value in item.values]
    return [str(value) for value in item.values]


def printed_run(run: bytes) -> str:
    """A longest run of bytes that may be quoted, or one that may not."""
    return f'"{run.decode()}"' if QUOTABLE.fullmatch(run) else f"0x{run[0]:02X}"
