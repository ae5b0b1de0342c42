#!/usr/bin/env python3
"""Converts a text log to a session log. The text log has messages as bytes, as hex dumps, or as SML with system bytes.

    text2log.py [OPTION ..] [FILE ..] > session.log

FILE is the text log, or its parts in order. Without FILE, or for `-`, it reads standard input. `-->` and SEND mark the
messages that the program with the log sent. `<--` and RECV mark those that it received:

    2024-03-01 10:00:00.000 CONNECTED
    2024-03-01 10:00:00.001 SEND 00 00 00 0A FF FF 00 00 00 01 00 00 00 01
    2024-03-01 10:00:00.020 <-- Select.rsp SystemBytes=00000001 Status=0
    2024-03-01 10:00:00.350 --> S1F3 W SystemBytes=00000002
    <L [1]
      <U4 1001>          /* SVID */
    >.
    2024-03-01 10:00:00.412 RECV
      0000: 00 00 00 14 00 00 01 04  00 00 00 00 00 02 01 01  ................
      0010: 91 04 41 BC 00 00                                 ..A...
    2024-03-01 10:00:45.351 T3 TIMEOUT SystemBytes=00000003
    2024-03-01 10:00:50.000 DISCONNECTED

STAMP and FORMS below describe a line: adapt them to your log. A line that matches none of FORMS becomes a comment in
the session log. But the line is an error if MEANT finds signs of a message, connection or timeout in it. It is also an
error if OTHER_STAMP finds another format of date and time. Blank lines, comments in SML and the text column of a dump
are skipped. `hsms encode` encodes SML.

Exit status: 0; 2 if a line is invalid, no line is an entry, or a file or `hsms` cannot be used. With status 2 no log is
written, and standard error has the line number, the reason and the text.
"""
import argparse
import codecs
import os
import re
import struct
import subprocess
import sys
from datetime import datetime, timedelta
from typing import NamedTuple

# The date and time of a line: both, in ISO 8601 or with a space between them, or only the time of day.
STAMP = re.compile(
    r"(?:(?P<date>\d{4}-\d\d-\d\d)[ T])?(?P<time>\d{1,2}:\d\d:\d\d)(?:[.,](?P<fraction>\d+))?"
    r"(?P<zone>Z|[+-]\d\d:?\d\d)?\s+(?P<what>.*)"
)

# The text after the date and time, by the kind of the entry.
WORDS = r"(?:\s+(?:[0-9A-Fa-f]{2})+)*"
SYSTEM = r"(?:SystemBytes=)?(?P<system>(?:0x)?[0-9A-Fa-f]+)"
FORMS = {
    "octets": re.compile(rf"(?P<mark>SEND|RECV)(?:\s+\d+ bytes)?(?P<octets>{WORDS})"),
    "sml": re.compile(rf"(?P<mark>-->|<--)\s+(?P<head>S\d+F\d+)(?P<wait>\s+W)?\s+{SYSTEM}"),
    "control": re.compile(rf"(?P<mark>-->|<--)\s+(?P<type>\w+\.\w+)\s+{SYSTEM}(?:\s+Status=(?P<status>\d+))?"),
    "t3": re.compile(rf"T3 TIMEOUT\s+{SYSTEM}"),
    "cut": re.compile(r"T(?P<timer>[678]) TIMEOUT"),
    "up": re.compile(r"CONNECT(?:ED)?"),
    "down": re.compile(r"DISCONNECT(?:ED)?"),
}
MARKS = {"-->": ">", "<--": "<", "SEND": ">", "RECV": "<"}

# Signs that a line is an entry: keywords and marks of FORMS, an item or its end, ten consecutive bytes, or the first
# fourteen bytes of a message.
TYPES = "L B BOOLEAN A J C2 I1 I2 I4 I8 F4 F8 U1 U2 U4 U8".split()
MEANT = re.compile(
    r"\b(?:(?:DIS)?CONNECT(?:ED)?|SEND|RECV)\b|-->|<--|\b[sS]\d+[fF]\d+\b|(?i:system ?bytes|\w\.(?:req|rsp)\b)"
    rf"|(?i:\bT[3678]\b.*(?:time-?out|expir)|(?:time-?out|expir).*\bT[3678]\b)|(?i:<\s*(?:{'|'.join(TYPES)})\b)|^\s*>"
    r"|(?<![0-9A-Fa-f])[0-9A-Fa-f]{2}(?:\s+[0-9A-Fa-f]{2}){9}|(?<!\S)00(?:\s*[0-9A-Fa-f]{2}){13}"
)

# Signs of a date and time in another format than STAMP: a time near the start of a line.
OTHER_STAMP = re.compile(r".{0,30}?\d:\d\d:\d\d")

# A line of bytes, and a line of a dump: an offset, at most sixteen bytes, three spaces, and a text column.
PLAIN = re.compile(rf"\s*(?P<octets>(?:[0-9A-Fa-f]{{2}})+{WORDS})\s*")
DUMP = re.compile(
    r"\s*(?P<offset>[0-9A-Fa-f]{4}(?:[0-9A-Fa-f]{4})?):?\s+"
    r"(?P<octets>[0-9A-Fa-f]{2}(?:[ \t]{1,2}[0-9A-Fa-f]{2}(?!\S)){0,15})(?!\S)"
)

S_TYPES = {"select.req": 1, "select.rsp": 2, "linktest.req": 5, "linktest.rsp": 6, "separate.req": 9}
MARKED = {codecs.BOM_UTF8: "utf-8", codecs.BOM_UTF16_LE: "utf-16", codecs.BOM_UTF16_BE: "utf-16"}
HALF_A_DAY = 12 * 3600 * 1000

TOKEN = re.compile(r"""/\*.*?\*/|//[^\n]*|"[^"\n]*"|'[^'\n]*'|\[[^\]\n]*\]|[<>]|\.(?=\s*$)|[^\s<>\[\]"']+|\s+""", re.S)
FLOATS = {"F4": ">f", "F8": ">d"}
TRUTHS = {"TRUE": "T", "T": "T", "FALSE": "F", "F": "F"}


class Invalid(Exception):
    """An invalid input: its position, the reason, and the invalid text."""

    def __str__(self):
        position, reason, text = self.args
        text = "".join(c if c.isprintable() else c.encode("unicode_escape").decode() for c in text.strip())
        return ": ".join(part for part in (position, reason, text[:100] + " .." if len(text) > 100 else text) if part)


class Line(NamedTuple):
    """A line of a text log. Its position is its number, after the name of the file if one is given."""

    position: str
    text: str

    def invalid(self, reason, text=None):
        return Invalid(self.position, reason, self.text if text is None else text)


class Group(NamedTuple):
    """A line with a date and time, and the lines up to the next such line. The first group of a log has only `rest`."""

    line: Line
    stamp: re.Match
    rest: list


class Message(NamedTuple):
    """A data message in SML: its line, the time and mark of its entry, the notation, and the system bytes."""

    line: Line
    begin: str
    notation: str
    system: str


def octets_of_file(name):
    """Reads a file, or standard input if its name is `-`."""
    try:
        if name == "-":
            return sys.stdin.buffer.read()
        with open(name, "rb") as file:
            return file.read()
    except OSError as error:
        raise Invalid(name, error.strerror, "") from None


def lines_of(name):
    """Returns the lines of a file without line ends and byte-order marks."""
    octets, file = octets_of_file(name), "" if name == "-" else f"{name}: "
    encoding = encoding_of(octets)
    try:
        texts = octets.decode(encoding).split("\n")
    except UnicodeDecodeError as error:
        number = octets[:error.start].decode(encoding, "ignore").count("\n") + 1
        raise Invalid(f"{file}line {number}", f"invalid {encoding}", octets[error.start:error.end].hex(" ")) from None
    lines = []
    for number, text in enumerate(texts, 1):
        lines.append(Line(f"{file}line {number}", (text[:-1] if text.endswith("\r") else text).lstrip("\ufeff")))
        if "\0" in text:
            raise lines[-1].invalid("a NUL byte: this is not text")
    return lines


def encoding_of(octets):
    """Returns the encoding of a text. A byte-order mark or a NUL byte in the first character decides it. Otherwise the
    text is UTF-8, or Latin-1 if it is not valid UTF-8."""
    for mark, encoding in MARKED.items():
        if octets.startswith(mark):
            return encoding
    if b"\0" in octets[:2]:
        return "utf-16-be" if octets[0] == 0 else "utf-16-le"
    try:
        octets.decode("utf-8")
        return "utf-8"
    except UnicodeDecodeError:
        return "latin-1"


def groups_of(lines):
    """Returns the groups of a log without its blank lines."""
    groups = [Group(None, None, [])]
    for line in lines:
        stamp = STAMP.fullmatch(line.text.rstrip())
        if stamp:
            groups.append(Group(line, stamp, []))
        elif line.text.strip():
            groups[-1].rest.append(line)
    return groups


def form_of(group):
    """Returns the form of a group's first line, and the parts of that line. For a comment the form is None."""
    for form, pattern in FORMS.items():
        found = pattern.fullmatch(group.stamp["what"])
        if found:
            return form, found.groupdict()
    return None, {}


class Clock:
    """Converts date and time stamps, in their order, to milliseconds."""

    def __init__(self):
        self.form = self.last = None
        self.days = 0

    def time_of(self, group):
        """Returns the time of a group. A time of day that is twelve hours or more earlier is on the next day."""
        stamp = group.stamp
        form = stamp["date"] is not None, stamp["zone"] is not None
        self.form = self.form or form
        if form != self.form:
            raise group.line.invalid("another date and time format than before")
        try:
            day = datetime(*map(int, (stamp["date"] or "2000-01-01").split("-")))
            now = day - datetime(2000, 1, 1) + time_of_day(stamp)
        except ValueError:
            raise group.line.invalid("invalid date or time") from None
        now = now // timedelta(milliseconds=1) + int((stamp["fraction"] or "").ljust(3, "0")[:3])
        if not stamp["date"]:
            now += self.days * 2 * HALF_A_DAY
            if self.last is not None and now <= self.last - HALF_A_DAY:
                self.days += 1
                now += 2 * HALF_A_DAY
        self.last = now
        return now


def time_of_day(stamp):
    """Returns the time since midnight, in UTC if there is a time zone."""
    hours, minutes, seconds = map(int, stamp["time"].split(":"))
    if hours > 23 or minutes > 59 or seconds > 59:
        raise ValueError
    zone = (stamp["zone"] or "Z").replace("Z", "+0000").replace(":", "")
    ahead = timedelta(hours=int(zone[1:3]), minutes=int(zone[3:]))
    return timedelta(hours=hours, minutes=minutes, seconds=seconds) - (ahead if zone[0] == "+" else -ahead)


class Converter:
    """Converts groups to the lines of a session log. A message in SML is a `Message` until it is encoded."""

    def __init__(self, options):
        self.options = options
        self.clock = Clock()
        self.first = None

    def entries_of(self, group):
        """Yields the lines of the session log for a group."""
        if group.line is None:
            yield from self.comments(group.rest)
            return
        if self.is_comment(group.line):
            yield from map(self.comment, [group.line, *group.rest])
            return
        time = self.clock.time_of(group)
        form, parts = form_of(group)
        if form is None:
            yield from self.comments([group.line, *group.rest])
            return
        begin, rest = self.begin_of(time, form, group), group.rest
        if form == "octets":
            octets, rest = octets_of(group, parts)
            yield from (f"{begin} {MARKS[parts['mark']]} {digits}" for digits in self.messages_of(group.line, octets))
        elif form == "sml":
            notation, rest = f"{parts['head']}{' W' if parts['wait'] else ''} {items_of(rest)} .", []
            yield Message(group.line, f"{begin} {MARKS[parts['mark']]}", notation, self.system_of(group.line, parts))
        else:
            yield f"{begin} {self.words_of(group.line, form, parts)}"
        yield from self.comments(rest)

    def words_of(self, line, form, parts):
        """Returns the part of an entry after its time. The entry is not a data message."""
        if form == "control":
            return f"{MARKS[parts['mark']]} {control(line, parts, self.system_of(line, parts))}"
        if form == "t3":
            return f"t3 {self.system_of(line, parts)}"
        return f"cut t{parts['timer']}" if form == "cut" else form

    def is_comment(self, line):
        return self.options.comment is not None and self.options.comment.search(line.text) is not None

    def comments(self, lines):
        """Yields lines as comments. Checks that none of them is an entry."""
        for line in lines:
            stamp = STAMP.fullmatch(line.text.rstrip())
            if not self.is_comment(line):
                if not stamp and OTHER_STAMP.match(line.text):
                    raise line.invalid("expected a date and time like 2024-03-01 10:00:00.000")
                if MEANT.search(stamp["what"] if stamp else line.text):
                    raise line.invalid("unknown line format" if stamp else "no date and time")
            yield self.comment(line)

    def comment(self, line):
        """Returns a comment, truncated to the maximum length of a line."""
        return f"# {line.text}".encode()[:2 * self.options.max + 64].decode(errors="ignore")

    def begin_of(self, time, form, group):
        """Returns the time of an entry since the first entry, which must be `up`."""
        if self.first is None:
            if form != "up":
                raise group.line.invalid("an entry before the connection is up")
            self.first = time
        if time < self.first:
            raise group.line.invalid("the time is earlier than the first entry's")
        return time - self.first

    def system_of(self, line, parts):
        """Returns system bytes as eight hexadecimal digits."""
        digits = parts["system"]
        if self.options.decimal:
            if not digits.isdigit() or int(digits) >= 1 << 32:
                raise line.invalid("invalid decimal system bytes")
            return f"{int(digits):08x}"
        digits = digits[2:] if digits.startswith("0x") else digits
        if len(digits) != 8:
            raise line.invalid("expected system bytes of eight hexadecimal digits (or use --decimal)")
        return digits.lower()

    def messages_of(self, line, octets):
        """Yields the consecutive messages of a line, each in hexadecimal without its length bytes."""
        if not octets:
            raise line.invalid("expected hexadecimal bytes")
        while octets:
            size, begin = int.from_bytes(octets[:4], "big"), 4
            if self.options.no_length:
                if size == len(octets) - 4:
                    raise line.invalid("this message has length bytes: remove --no-length", shown(octets))
                size, begin = len(octets), 0
            end = begin + size
            if len(octets) < end:
                reason = "message length does not match its length bytes (if it has none: --no-length)"
                raise line.invalid(reason, shown(octets))
            if not 10 <= size <= self.options.max:
                reason = f"message length {size} is out of range 10 to {self.options.max} (--max)"
                raise line.invalid(reason, shown(octets))
            yield octets[begin:end].hex()
            octets = octets[end:]


def shown(octets):
    """Returns the first bytes of a message in hexadecimal."""
    return octets[:32].hex(" ").upper() + (" .." if len(octets) > 32 else "")


def octets_of(group, parts):
    """Returns the bytes of a group, and the lines of the group after them."""
    octets = bytes.fromhex(parts["octets"])
    for row, line in enumerate(group.rest):
        dump, plain = DUMP.match(line.text), PLAIN.fullmatch(line.text)
        if dump:
            offset = dump["offset"]
            if len(octets) not in (int(offset, 16), int(offset) if offset.isdigit() else -1):
                raise line.invalid(f"unexpected offset {offset} after {len(octets)} bytes")
        elif not plain:
            if line.text[0].isspace():
                raise line.invalid("expected hexadecimal bytes")
            return octets, group.rest[row:]
        octets += bytes.fromhex((dump or plain)["octets"])
    return octets, []


def control(line, parts, system):
    """Returns a control message in hexadecimal."""
    name, status = parts["type"].lower(), parts["status"]
    if name not in S_TYPES:
        raise line.invalid("unknown control message", parts["type"])
    if name == "select.rsp" and status is None:
        raise line.invalid("Select.rsp without a status")
    if int(status or 0) > 255:
        raise line.invalid("status above 255")
    return f"ffff00{int(status or 0):02x}00{S_TYPES[name]:02x}{system}"


def items_of(lines):
    """Returns items in SML as the notation that `hsms encode` reads."""
    text = "\n".join(line.text for line in lines)
    words, kind, is_first, offset, row = [], "", False, 0, 0
    while offset < len(text):
        found = TOKEN.match(text, offset)
        if not found:
            raise lines[row].invalid("invalid SML", text[offset:].split("\n")[0])
        token, offset, line = found[0], found.end(), lines[row]
        row += token.count("\n")
        if token.isspace() or token.startswith(("/*", "//")):
            continue
        if token == "." and offset < len(text.rstrip()):
            raise line.invalid("invalid SML", text[offset - 1:].split("\n")[0])
        if token == "<":
            is_first = True
        elif is_first:
            kind, is_first = token.upper(), False
            if kind not in TYPES:
                raise line.invalid("unknown item type", token)
            token = kind
        elif token not in (">", ".") and not token.startswith("["):
            if not kind:
                raise line.invalid("invalid SML", token)
            token = value_of(kind, token, line)
        words.append(token)
    return " ".join(words[:-1] if words[-1:] == ["."] else words)


def value_of(kind, token, line):
    """Returns a value in notation."""
    is_hex = token.lower().startswith("0x")
    if token[0] in "\"'":
        if not all(" " <= letter <= "~" for letter in token):
            raise line.invalid("not printable ASCII", token)
        return " 0x22 ".join(f'"{part}"' for part in token[1:-1].split('"'))
    try:
        if kind in FLOATS and not is_hex:
            return "0x" + struct.pack(FLOATS[kind], float(token)).hex().upper()
        if kind == "BOOLEAN":
            return TRUTHS[token.upper()]
        if kind == "B" and not is_hex:
            return f"0x{int(token):02X}"
        if kind[0] in "IU" and is_hex:
            return str(int(token, 16))
        if is_hex and kind in ("A", "B", "J", "C2"):
            return f"0x{int(token, 16):02X}"
    except (KeyError, ValueError, OverflowError, struct.error):
        raise line.invalid(f"invalid {kind} value", token) from None
    return token


def encoded(messages, options):
    """Returns the entry of each message in SML."""
    if not messages:
        return []
    octets, fault = encode(messages, options)
    if fault is None:
        return [f"{m.begin} {digits[:12]}{m.system}{digits[20:]}" for m, digits in zip(messages, octets)]
    encoded_to, rejected_at = 0, len(messages)
    while rejected_at - encoded_to > 1:
        half = (encoded_to + rejected_at) // 2
        _, of_half = encode(messages[:half], options)
        if of_half is None:
            encoded_to = half
        else:
            rejected_at, fault = half, of_half
    raise messages[rejected_at - 1].line.invalid(f"hsms encode rejects this message: {fault}")


def encode(messages, options):
    """Returns the messages that `hsms encode` writes, in hexadecimal without length bytes, and its error or None."""
    words = [options.hsms, "encode", "--hex", "--max", str(options.max), "--device", str(options.device)]
    given = "\n".join(message.notation for message in messages).encode()
    quiet = {**os.environ, "HSMS_VERBOSE": "0"}
    try:
        ran = subprocess.run(words, input=given, stdout=subprocess.PIPE, stderr=subprocess.PIPE, env=quiet, check=False)
    except OSError as error:
        raise Invalid("", f"cannot run {options.hsms} (--hsms)", error.strerror) from None
    error = ran.stderr.decode(errors="replace").strip().split("hsms: ")[-1]
    return [line[8:] for line in ran.stdout.decode().split()], error if ran.returncode else None


def log_of(lines, options):
    """Returns the lines of the session log."""
    converter = Converter(options)
    entries = [entry for group in groups_of(lines) for entry in converter.entries_of(group)]
    if converter.first is None:
        raise Invalid("", "no connection, message or timeout found", "")
    texts = iter(encoded([entry for entry in entries if isinstance(entry, Message)], options))
    timers = f"{options.t3} {options.t6} {options.t7} {options.t8}"
    settings = f"hsms-log 2 {options.role} {options.link} {options.device} {timers} {options.max} {options.depth}"
    return [settings, *(next(texts) if isinstance(entry, Message) else entry for entry in entries)]


def number_in(minimum, maximum):
    """Returns the type of an option whose value is a number in a range."""

    def number(text):
        if not (text.isascii() and text.isdigit() and minimum <= int(text) <= maximum):
            raise argparse.ArgumentTypeError(f"not a number from {minimum} to {maximum}: {text}")
        return int(text)

    return number


def pattern(text):
    """Returns the value of an option that is a regular expression."""
    try:
        return re.compile(text)
    except re.error as error:
        raise argparse.ArgumentTypeError(f"not a regular expression: {error}") from None


def parsed(arguments):
    """Returns the options of a command line."""
    parser = argparse.ArgumentParser(description=__doc__, formatter_class=argparse.RawDescriptionHelpFormatter)
    add = parser.add_argument
    add("files", nargs="*", metavar="FILE", help="a text log, or - for standard input (default)")
    add("--role", choices=["host", "equipment"], default="host", help="role of the end with the log (default host)")
    modes = ["active", "passive"]
    add("--link", choices=modes, default="active", help="active connects, passive listens (default active)")
    add("--device", type=number_in(0, 32767), default=0, metavar="N", help="device ID (default 0)")
    for timer, default in {"t3": 45000, "t6": 6000, "t7": 10000, "t8": 5000}.items():
        about = f"{timer.upper()} in ms (default {default})"
        add(f"--{timer}", type=number_in(1, 3600000), default=default, metavar="MS", help=about)
    about = "maximum length of header and text in bytes (default 1048576)"
    add("--max", type=number_in(256, 33554432), default=1048576, metavar="N", help=about)
    add("--depth", type=number_in(1, 100), default=32, metavar="N", help="maximum nesting of lists (default 32)")
    add("--no-length", action="store_true", help="messages have no length bytes")
    add("--decimal", action="store_true", help="system bytes are decimal numbers")
    about = "write lines that match PATTERN as comments, with their following lines up to the next date and time"
    add("--comment", type=pattern, metavar="PATTERN", help=about)
    add("--hsms", default="hsms", metavar="PROGRAM", help="the program that encodes SML (default: hsms on the PATH)")
    return parser.parse_args(arguments)


def main():
    options = parsed(sys.argv[1:])
    try:
        lines = [line for name in options.files or ["-"] for line in lines_of(name)]
        log = log_of(lines, options)
    except Invalid as error:
        print(f"text2log: {error}", file=sys.stderr)
        return 2
    sys.stdout.buffer.write("".join(f"{line}\n" for line in log).encode())
    return 0


if __name__ == "__main__":
    sys.exit(main())
