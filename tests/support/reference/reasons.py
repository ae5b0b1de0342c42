"""Why a line of a log cannot be read: the column, from 1, the reason and a hint, in words."""
import re
from typing import Callable, List, NamedTuple, Optional, Tuple

from tests.support.reference.random_messages import Chance
from tests.support.reference.session import LIMITS, LONGEST_FIRST_LINE

SETTINGS = "hsms-log VERSION ROLE LINK DEVICE T3 T6 T7 T8 MAX DEPTH"
ENTRY = "TIME up, TIME > HEX, TIME < HEX, TIME ! HEX, TIME t3 SYSTEM, TIME cut CAUSE or TIME down"
FRAME = "TIME > HEX, TIME < HEX or TIME ! HEX"
EXPIRY = "TIME t3 SYSTEM"
CUT = "TIME cut t6, TIME cut t7, TIME cut t8 or TIME cut length"

# How other kinds of files begin, in the order in which they are tried.
FILES = {
    rb"\xef\xbb\xbf": "a byte order mark",
    rb"\xff\xfe|\xfe\xff|h\0|\0h": "text in UTF-16",
    rb"\x1f\x8b": "a file compressed by gzip",
    rb"%PDF": "a PDF document",
    rb"\xd4\xc3\xb2\xa1|\xa1\xb2\xc3\xd4|\x4d\x3c\xb2\xa1|\xa1\xb2\x3c\x4d": "a packet capture, which hsms capture reads",
}


class Why(NamedTuple):
    column: int
    reason: str
    form: str

    def words(self) -> str:
        return f"column {self.column}: {self.reason}; expected {self.form}"


EMPTY = Why(1, "the log is empty", SETTINGS)

# What is wrong with a word: the byte of it, from 0, and the reason. Its length represents the byte after it.
Wrong = Optional[Tuple[int, str]]
Check = Callable[[bytes], Wrong]


def of_words(*known: bytes) -> Check:
    return lambda word: None if word in known else (0, "an unknown word")


def of_number(least: int, greatest: int) -> Check:
    def check(word: bytes) -> Wrong:
        if not word.isdigit():
            return re.match(rb"[0-9]*", word).end(), "no decimal number"
        if len(word) > 1 and word[:1] == b"0":
            return 0, "a number with a leading zero"
        return None if least <= int(word) <= greatest else (0, "a number out of its range")

    return check


def of_version(word: bytes) -> Wrong:
    return of_number(0, 2**64 - 1)(word) or (None if word in (b"1", b"2") else (0, "a version other than 1 and 2"))


def of_digits(check: Check) -> Check:
    def checks(word: bytes) -> Wrong:
        digits = re.match(rb"[0-9A-Fa-f]*", word).end()
        return (digits, "no hexadecimal digit") if digits < len(word) else check(word)

    return checks


@of_digits
def of_frame(word: bytes) -> Wrong:
    if len(word) < 20:
        return len(word), "fewer than 20 hexadecimal digits"
    return (len(word), "an odd number of hexadecimal digits") if len(word) % 2 else None


@of_digits
def of_system(word: bytes) -> Wrong:
    return None if len(word) == 8 else (len(word), "not eight hexadecimal digits")


FIRST = [
    of_words(b"hsms-log"),
    of_version,
    of_words(b"host", b"equipment"),
    of_words(b"active", b"passive"),
    *(of_number(least, greatest) for _, least, greatest in LIMITS),
]
LATER = [of_number(0, 2**64 - 1), of_words(b"up", b"down", b">", b"<", b"!", b"t3", b"cut")]
LAST = {FRAME: [of_frame], EXPIRY: [of_system], CUT: [of_words(b"t6", b"t7", b"t8", b"length")], ENTRY: []}
FORMS = {b">": FRAME, b"<": FRAME, b"!": FRAME, b"t3": EXPIRY, b"cut": CUT}


def wrong_in(line: bytes, checks: List[Check]) -> Tuple[int, str]:
    """The first byte, from 0, that cannot be there in a line of words that have to pass these checks, and why."""
    at = 0
    for number, check in enumerate(checks):
        if number > 0:
            if at == len(line):
                return at, "too few words"
            at += 1
        end = re.compile(rb"[^ \t\r]*").match(line, at).end()
        if end == at:
            return no_word(line, at)
        if line[end : end + 1] in (b"\t", b"\r"):
            return no_word(line, end)
        wrong = check(line[at:end])
        if wrong:
            return at + wrong[0], wrong[1]
        at = end
    rest = line[at + 1 :]
    if rest.strip(b" ") == b"":
        return at, "a space at the end"
    return at + 1, "two spaces" if rest[:1] == b" " else "too many words"


def no_word(line: bytes, at: int) -> Tuple[int, str]:
    """Why no word begins, or ends, at a place of a line."""
    octet = line[at : at + 1]
    if octet in (b"\t", b"\r"):
        return at, "a tab" if octet == b"\t" else "a carriage return within the line"
    if at == 0:
        return 0, "a space at the start" if octet else "too few words"
    return (at - 1, "a space at the end") if line[at:].strip(b" ") == b"" else (at, "two spaces")


def of_first_line(line: bytes) -> Why:
    """Why the first line, which cannot be read, cannot be."""
    return Why(*in_first_line(line), SETTINGS)


def in_first_line(line: bytes) -> Tuple[int, str]:
    for front, reason in FILES.items():
        if re.match(front, line):
            return 1, reason
    first = re.match(rb"[^ \t\r]*", line[:LONGEST_FIRST_LINE])[0]
    if first not in (b"", b"hsms-log"):
        return 1, "no line of settings"
    if b"\r" in line[:LONGEST_FIRST_LINE]:
        return line.index(b"\r") + 1, "a carriage return within the line"
    if len(line) > LONGEST_FIRST_LINE:
        return LONGEST_FIRST_LINE + 1, "longer than its limit"
    at, reason = wrong_in(line, FIRST)
    return at + 1, reason


def of_later_line(line: bytes, limit: int) -> Why:
    """Why a line that is not the first, which cannot be read, cannot be."""
    words = re.match(rb"[^ \t\r]*[ \t\r]([^ \t\r]*)", line)
    form = FORMS.get(words[1], ENTRY) if words else ENTRY
    if len(line) > limit:
        return Why(limit + 1, "longer than its limit", form)
    at, reason = wrong_in(line, LATER + LAST[form])
    return Why(at + 1, reason, form)


# What a byte of a line is corrupt to, and how other files begin.
OTHERS = b" \t\r0158aAfFgzZ>#<!\x00\x1b\x7f\x9b\xc2\xff"
FRONTS = [
    b"\xef\xbb\xbf", b"\xff\xfeh\0", b"\xfe\xff\0h", b"h\0s\0", b"\0h\0s", b"\x1f\x8b\x08\0", b"%PDF-1.7\n", b"%PD",
    b"\xd4\xc3\xb2\xa1\x02\0", b"\xa1\xb2\xc3\xd4", b"\x4d\x3c\xb2\xa1", b"\xa1\xb2\x3c\x4d", b"\x0a\x0d\x0d\x0a", b"",
]
LINES = [
    b"7 up", b"7 down", b"7 > ffff0000000500000001", b"7 < 00000001000000000002", b"7 ! ffff000000050000000100", b"7 t3 00000009",
    b"7 cut t6", b"7 cut length", b"18446744073709551615 up", b"# a comment",
]
SETTINGS_LINE = b"hsms-log 1 host active 0 45000 6000 10000 5000 256 32"


def damaged(chance: Chance, line: bytes) -> bytes:
    """The line with some bytes more, fewer or other ones, or a word more or less."""
    for _ in range(chance.one(1, 1, 1, 2, 3)):
        at = chance.randint(0, len(line))
        other = bytes([chance.choice(OTHERS)])
        words = line.split(b" ")
        line = chance.one(
            line[:at] + other + line[at:], line[:at] + line[at + 1 :], line[:at] + other + line[at + 1 :], line[:at], line + other,
            b" ".join(words[:-1]), b" ".join([*words, chance.choice(words)]), b" ".join(chance.sample(words, len(words))),
        )
    return line.replace(b"\n", b"")


def damaged_logs(seed: str, count: int) -> List[bytes]:
    """Logs of which a line or more cannot be read, mostly: the first one of some, a later one of the others."""
    front = SETTINGS_LINE + b"\n"
    logs = [it + rest for it in FRONTS for rest in (b"", front, front + b"0 up\n")]
    logs += [b"x" * size + end for size in (255, 256, 257, 258, 600) for end in (b"", b"\n", b"\r\n", b"\r\r\n")]
    logs += [front[:-1] + b" " * size + b"\n" for size in (1, 2, 202, 203, 204, 205)]
    logs += [front + b"7 > " + b"0" * size + end for size in (571, 572, 573, 574, 700) for end in (b"\n", b"\r\n", b"")]
    for number in range(count):
        chance = Chance(f"{seed} damaged {number}")
        if chance.happens(0.3):
            logs.append(damaged(chance, SETTINGS_LINE) + chance.one(b"", b"\n", b"\r\n", b"\n0 up\n"))
            continue
        lines = [damaged(chance, chance.choice(LINES)) for _ in range(chance.one(1, 1, 2, 5))]
        logs.append(front + b"0 up\n" + chance.one(b"\n", b"\r\n").join(lines) + chance.one(b"", b"\n"))
    return logs
