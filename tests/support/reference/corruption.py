"""Corrupt inputs: examples and random inputs that are truncated, have flipped bits, or claim wrong lengths and counts.

Logs also have connections that are established twice or continue, and other versions.
"""
import glob
import re
from typing import List, Tuple

from tests.support.command import TOP
from tests.support.reference import random_logs, random_messages
from tests.support.reference.cases import Case, audit_case, encode_case, show_case
from tests.support.reference.messages import Options
from tests.support.reference.random_messages import Chance

EXAMPLES = f"{TOP}/examples"
ENDINGS = {"show": ".bin", "encode": ".txt", "audit": ".log"}
MAKERS = {
    "show": lambda chance: random_messages.random_stream(chance)[0],
    "encode": lambda chance: random_messages.random_notation(chance)[0],
    "audit": random_logs.random_log,
}
COMMANDS = list(ENDINGS)

# Lengths and counts that lie, in bytes and in words.
CLAIMS = [bytes.fromhex(claim) for claim in "00 01 02 7f 80 fe ff 0000 00ff 0100 ffff 03ffffff ffffff 00ffffff".split()]
LENGTHS = (0, 1, 9, 10, 11, 255, 256, 257, 1_048_576, 1_048_577, 33_554_432, 33_554_433, 0x7FFFFFFF, 0xFFFFFFFF)
NUMBERS = (0, 1, 2, 9, 255, 256, 3_600_001, 16_777_216, 99_999_999, (1 << 32) - 1, 1 << 32, (1 << 64) - 1, 1 << 64)


def examples(command: str) -> List[bytes]:
    """The examples of inputs of a command."""
    texts = []
    for path in sorted(glob.glob(f"{EXAMPLES}/**/*{ENDINGS[command]}", recursive=True)):
        with open(path, "rb") as file:
            texts.append(file.read())
    return texts


SOURCES = {command: examples(command) for command in COMMANDS}


def cut(chance: Chance, octets: bytes) -> bytes:
    return octets[:chance.randrange(len(octets) + 1)]


def flip(chance: Chance, octets: bytes) -> bytes:
    changed = bytearray(octets)
    for _ in range(chance.one(1, 1, 1, 2, 8)):
        changed[chance.place(changed)] ^= 1 << chance.randrange(8)
    return bytes(changed)


def claim(chance: Chance, octets: bytes) -> bytes:
    """Bytes somewhere are another length or count."""
    told = chance.choice(CLAIMS)
    at = chance.randrange(len(octets))
    return octets[:at] + told + octets[at + len(told):]


def claim_of_message(chance: Chance, octets: bytes) -> bytes:
    """A message of a stream claims another length."""
    places, place = [0], 0
    while place + 4 <= len(octets) and len(places) < 100:
        place += 4 + int.from_bytes(octets[place:place + 4], "big")
        places.append(place)
    at = chance.choice(places)
    length = int.from_bytes(octets[at:at + 4], "big")
    told = chance.one(*LENGTHS, max(0, length - 1), length + 1, length * 2) & 0xFFFFFFFF
    return octets[:at] + told.to_bytes(4, "big") + octets[at + 4:]


def claim_in_words(chance: Chance, octets: bytes) -> bytes:
    """A number that is written in digits is another one."""
    numbers = list(re.finditer(rb"[0-9]+", octets))
    if not numbers:
        return claim(chance, octets)
    found = chance.choice(numbers)
    before = int(found.group()[:30])
    told = chance.one(*NUMBERS, max(0, before - 1), before + 1, before * 10)
    return octets[:found.start()] + str(told).encode() + octets[found.end():]


def other_digit(chance: Chance, octets: bytes) -> bytes:
    """A hexadecimal digit is another one."""
    digits = list(re.finditer(rb"[0-9a-f]", octets))
    if not digits:
        return claim(chance, octets)
    at = chance.choice(digits).start()
    return octets[:at] + bytes([chance.choice(b"0123456789abcdef")]) + octets[at + 1:]


def part(chance: Chance, octets: bytes) -> Tuple[int, int]:
    """The places where a part of some bytes begins and ends."""
    begin = chance.randrange(len(octets) + 1)
    return begin, min(len(octets), begin + chance.one(0, 1, 2, 4, 10, 14, 60, len(octets)))


def repeat(chance: Chance, octets: bytes) -> bytes:
    begin, end = part(chance, octets)
    return octets[:end] + octets[begin:end] * chance.one(1, 1, 2, 20) + octets[end:]


def leave_out(chance: Chance, octets: bytes) -> bytes:
    begin, end = part(chance, octets)
    return octets[:begin] + octets[end:]


def mix(chance: Chance, octets: bytes) -> bytes:
    """A part of another input comes in between."""
    other = chance.choice(SOURCES[chance.choice(COMMANDS)])
    begin, end = part(chance, other)
    at = chance.randrange(len(octets) + 1)
    return octets[:at] + other[begin:end] + octets[at:]


def reconnect(chance: Chance, octets: bytes) -> bytes:
    """An `up` or a `down` of a log occurs twice, is left out or is the other one; or one more comes in between."""
    lines = octets.split(b"\n")
    places = [at for at, line in enumerate(lines) if line.endswith((b" up", b" down"))]
    if not places or chance.happens(0.2):
        at = chance.place(lines)
        time = lines[at].split(b" ")[0]
        lines.insert(at, time + chance.one(b" up", b" down"))
    else:
        at = chance.choice(places)
        time, word = lines[at].rsplit(b" ", 1)
        other = time + (b" down" if word == b"up" else b" up")
        lines[at:at + 1] = chance.one([lines[at]] * 2, [], [other], [lines[at], other], [other, lines[at]])
    return b"\n".join(lines)


def other_version(chance: Chance, octets: bytes) -> bytes:
    """The first line of a log has another version, mostly one of the two that there are."""
    version = chance.one(b"1", b"2", b"1", b"2", b"0", b"3", b"01", b"02", b"2.0", b"")
    return re.sub(rb"^hsms-log [^ \n]*", b"hsms-log " + version, octets)


def fill(chance: Chance, octets: bytes) -> bytes:
    begin, end = part(chance, octets)
    return octets[:begin] + chance.octets(end - begin) + octets[end:]


DAMAGES = {
    "show": [cut, flip, flip, claim, claim, claim_of_message, claim_of_message, repeat, leave_out, mix, fill],
    "encode": [cut, flip, other_digit, claim_in_words, claim_in_words, repeat, leave_out, mix, fill],
    "audit": [
        *[cut, flip, *[other_digit] * 4, claim_in_words, claim_in_words, repeat, leave_out, mix, fill],
        *[reconnect, reconnect, other_version],
    ],
}


def damaged(chance: Chance, command: str) -> bytes:
    """An input of a command with a damage or more."""
    octets = chance.choice(SOURCES[command]) if chance.happens(0.5) else MAKERS[command](chance)
    for _ in range(chance.one(1, 1, 1, 2, 3, 5)):
        if octets:
            octets = chance.choice(DAMAGES[command])(chance, octets)
    return octets


def case(seed: str, number: int) -> Case:
    """The run of a number from 0 on: mostly of the command whose input was corrupt, else of another one."""
    chance = Chance(f"{seed} damaged {number}")
    command = COMMANDS[number % len(COMMANDS)]
    given = damaged(chance, command)
    if chance.happens(0.1):
        command = chance.choice(COMMANDS)
    options = Options(max=chance.one(256, 300, 1_048_576, 1_048_576, 33_554_432), depth=chance.one(1, 3, 32, 32, 100))
    if command == "show":
        return show_case(given, options)
    if command == "encode":
        return encode_case(given, Options(chance.one(0, 32_767), 1, options.max, options.depth, chance.happens(0.5)))
    return audit_case(given)
