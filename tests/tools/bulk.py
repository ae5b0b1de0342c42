#!/usr/bin/env python3
"""Compares the command with the reference on very many small inputs. It runs by hand, and is no part of the gate.

Use: tests/tools/bulk.py COMMAND [CASES [SEED]] [--seconds N] [--program P]. COMMAND is audit, show, encode or capture.
CASES is the number of inputs (default 10,000), all different; SEED is 1 by default. With --seconds it ends after that
time. It runs what `rt ci` has built, or P, and takes two processors.

The inputs are the small ones among the random inputs of reference_check.py and capture_reference.py, and many corrupt
variants of each: changed bytes and digits; lines, messages, words and packets that are moved, repeated or missing;
other headers, times and settings. The reference computes each answer. bulk_runner.c runs the command for each, in a
process of its own, and compares output, error and status.

Now and then a case is repeated with a changed answer, which has to be reported as a difference. The output counts the
answers by kind, then shows the smallest input with a difference, and at last the number of differences. The status is
1 if there is one.
"""
import argparse
import os
import re
import struct
import subprocess
import sys
import tempfile
import time
from collections import Counter
from dataclasses import dataclass, replace
from itertools import count
from typing import BinaryIO, Callable, Dict, Iterator, List, Tuple

sys.dont_write_bytecode = True
sys.path.insert(0, os.path.abspath(f"{__file__}/../../.."))

from tests.support import session_generator
from tests.support.command import LONGEST_SHOWN, PROGRAM, TOP, Answer
from tests.support.reference import capture_audit, corruption, messages, random_logs, random_messages, session
from tests.support.reference.cases import ended, words_of
from tests.support.reference.random_messages import Chance, disturbed

# How many inputs are made of one, it among them, and the longest of which others are made, in bytes.
BRANCHES = 24
LONGEST = {"audit": 1000, "show": 400, "encode": 600, "capture": 3000}

# Past this many bytes, an input is not kept that a damage has made longer.
LONGEST_DAMAGED = 20_000

# How often a case is given once more with another answer, and what is after that answer's output.
CONTROL, CHANGED = 10_000, b"\0changed"

# Bytes of a header that mean something, of SECS-II, HSMS or TCP.
TELLING = (0, 1, 2, 3, 4, 5, 6, 7, 8, 9, 10, 13, 16, 17, 18, 20, 24, 69, 0x7F, 0x80, 0x81, 0x82, 0x89, 0xFE, 0xFF)

Damage = Callable[[Chance, bytes], bytes]


# Parts of an input that change places, come again, or are missing.


def moved(chance: Chance, parts: List[bytes]) -> List[bytes]:
    """Parts of which two are exchanged, one is missing, or one occurs once more, there or elsewhere."""
    changed, kind = list(parts), chance.randrange(4)
    if not changed:
        return changed
    at, other = chance.place(changed), chance.place(changed)
    if kind == 0:
        changed[at], changed[other] = changed[other], changed[at]
    elif kind == 1:
        del changed[at]
    elif kind == 2:
        changed.insert(at, changed[at])
    else:
        changed.insert(other, changed[at])
    return changed


def lines_moved(chance: Chance, octets: bytes) -> bytes:
    """The first line of a log stays mostly where it is."""
    first, *others = octets.split(b"\n")
    if chance.happens(0.03):
        return b"\n".join(moved(chance, [first, *others]))
    return b"\n".join([first, *moved(chance, others)])


# Logs.

FRAME = re.compile(rb"(?<= [<>!] )[0-9A-Fa-f]{20}")
FRAMES = re.compile(rb"(?<= [<>!] )([0-9A-Fa-f]{20})((?:[0-9A-Fa-f]{2})*)")
TIMES = re.compile(rb"^[0-9]+(?= )", re.M)
MARKS = re.compile(rb"(?<=[0-9] )[<>!](?= )")


def replaced(octets: bytes, found, by: bytes) -> bytes:
    return octets[:found.start()] + by + octets[found.end():]


def any_found(chance: Chance, form, octets: bytes):
    found = list(form.finditer(octets))
    return chance.choice(found) if found else None


def other_time(chance: Chance, log: bytes) -> bytes:
    """A time is that of another line, or about a timer later than that."""
    found, other = any_found(chance, TIMES, log), any_found(chance, TIMES, log)
    if not found:
        return log
    timers = [int(word) for word in log.split(b"\n", 1)[0].split(b" ")[5:8] if word.isdigit() and len(word) < 9]
    later = chance.choice([0, 0, *timers, *timers]) + chance.one(-1, 0, 0, 1)
    return replaced(log, found, str(max(0, int(other[0][:30]) + later)).encode())


def later_from_a_line(chance: Chance, log: bytes) -> bytes:
    """From a line on all times are about a timer later."""
    found = any_found(chance, TIMES, log)
    if not found:
        return log
    timers = [int(word) for word in log.split(b"\n", 1)[0].split(b" ")[5:8] if word.isdigit() and len(word) < 9]
    later = chance.choice([1, *timers]) + chance.one(-1, 0, 1, 1)
    at = found.start()
    return log[:at] + TIMES.sub(lambda time: str(int(time[0][:30]) + later).encode(), log[at:])


def another_text_of_frame(chance: Chance, log: bytes) -> bytes:
    """A frame has a text that is disturbed, or one by chance."""
    found = any_found(chance, FRAMES, log)
    if not found:
        return log
    text = bytes.fromhex(found[2].decode())
    text = random_messages.random_text(chance, chance.one(1, 2, 3), chance.one(256, 1000)) if chance.happens(0.5) else disturbed(
        chance, text)
    return replaced(log, found, found[1] + text.hex().encode())


def other_mark(chance: Chance, log: bytes) -> bytes:
    found = any_found(chance, MARKS, log)
    return replaced(log, found, chance.one(b"<", b">", b"!")) if found else log


def other_octet_of_header(chance: Chance, log: bytes) -> bytes:
    """A byte of a frame's header is another one."""
    found = any_found(chance, FRAME, log)
    if not found:
        return log
    header = bytearray.fromhex(found[0].decode())
    at = chance.place(header)
    header[at] = chance.one(chance.choice(TELLING), chance.octet(), header[at] ^ 0x80, (header[at] + 1) & 0xFF)
    return replaced(log, found, header.hex().encode())


def header_of_another(chance: Chance, log: bytes) -> bytes:
    """A frame has the system bytes of another one, or all of its header."""
    found, other = any_found(chance, FRAME, log), any_found(chance, FRAME, log)
    if not found:
        return log
    front = chance.one(0, 12, 12)
    return replaced(log, found, found[0][:front] + other[0][front:])


def other_setting(chance: Chance, log: bytes) -> bytes:
    """A word of the first line is another one that may be there, or nearly."""
    first, _, rest = log.partition(b"\n")
    words = first.split(b" ")
    if len(words) != 11:
        return log
    numbers = (b"1", b"2", b"5", b"20", b"3600000", b"0", b"3600001")
    others = [(b"hsms-log",), (b"1", b"2"), (b"host", b"equipment"), (b"active", b"passive")]
    others += [(b"0", b"1", b"256", b"32768"), *[numbers] * 4]
    others += [(b"256", b"257", b"300", b"255"), (b"1", b"2", b"3", b"100", b"101")]
    at = chance.randrange(1, 11)
    words[at] = chance.choice(others[at])
    return b" ".join(words) + b"\n" + rest


def one_more_line(chance: Chance, log: bytes) -> bytes:
    """An entry without a frame comes in between, at the time of a line."""
    lines = log.split(b"\n")
    at = chance.place(lines)
    systems = [found[0][12:] for found in FRAME.finditer(log)] or [b"00000001"]
    words = chance.one(b"up", b"down", b"cut t6", b"cut t7", b"cut t8", b"cut length", b"t3 " + chance.choice(systems))
    lines.insert(at + 1, lines[at].split(b" ")[0] + b" " + words)
    return b"\n".join(lines)


def within_a_line(chance: Chance, log: bytes) -> bytes:
    """A line of which a word, a space or a byte is another one."""
    lines = log.split(b"\n")
    at = chance.place(lines)
    lines[at] = random_logs.odd_line(chance, lines[at])
    return b"\n".join(lines)


OF_LOGS: List[Damage] = [
    *[lines_moved] * 8, *[other_time] * 4, *[later_from_a_line] * 8, *[other_mark] * 4, *[other_octet_of_header] * 8,
    *[header_of_another] * 6, *[another_text_of_frame] * 4, *[other_setting] * 3, *[one_more_line] * 4, within_a_line,
    corruption.reconnect, corruption.other_version, corruption.other_digit, corruption.other_digit,
    corruption.claim_in_words, corruption.cut,
    corruption.flip, corruption.repeat, corruption.leave_out, corruption.mix, corruption.fill,
]


# Messages in bytes, in digits, and in notation.


def messages_of(stream: bytes) -> List[bytes]:
    """The messages of a stream with their lengths, and what is left after them."""
    found, place = [], 0
    while place + 4 <= len(stream):
        end = place + 4 + int.from_bytes(stream[place:place + 4], "big")
        if end > len(stream):
            break
        found.append(stream[place:end])
        place = end
    return found + [stream[place:]]


def messages_moved(chance: Chance, stream: bytes) -> bytes:
    return b"".join(moved(chance, messages_of(stream)))


def within_a_message(chance: Chance, stream: bytes) -> bytes:
    """A byte of a message is another one, mostly of its header or of the front of its text; its length stays."""
    parts = messages_of(stream)
    at = chance.place(parts)
    part = bytearray(parts[at])
    if len(part) > 4:
        place = chance.randrange(4, min(len(part), chance.one(14, 20, 40, len(part))) if len(part) > 14 else len(part))
        part[place] = chance.one(chance.choice(TELLING), chance.octet(), part[place] ^ 1 << chance.randrange(8))
    return b"".join([*parts[:at], bytes(part), *parts[at + 1:]])


def another_text(chance: Chance, stream: bytes) -> bytes:
    """A message has a text that is disturbed, and its length is that of it, mostly."""
    parts = messages_of(stream)
    at = chance.place(parts)
    content = parts[at][4:14] + disturbed(chance, parts[at][14:])
    length = len(content) + chance.choice([0] * 12 + [1, -1])
    return b"".join([*parts[:at], (max(0, length)).to_bytes(4, "big") + content, *parts[at + 1:]])


def blanks(chance: Chance, text: bytes) -> bytes:
    """White space at a place of lines of digits."""
    at = chance.randrange(len(text) + 1)
    return text[:at] + chance.one(b" ", b"\t", b"\n", b"\r\n", b"\r", b"  ") + text[at:]


OF_STREAMS: List[Damage] = [
    *[messages_moved] * 4, *[within_a_message] * 10, *[another_text] * 8, corruption.claim_of_message, corruption.claim,
    disturbed, corruption.flip, corruption.cut, corruption.repeat, corruption.leave_out, corruption.mix,
    corruption.fill,
]

OF_DIGITS: List[Damage] = [
    *[lines_moved] * 3, *[corruption.other_digit] * 8, blanks, blanks, disturbed, corruption.flip, corruption.cut,
    corruption.repeat,
    corruption.leave_out, corruption.mix, corruption.fill,
]

TOKENS = re.compile(rb'"[^"]*"|[A-Za-z0-9-]+|[ \t\r\n]+|.', re.S)
NUMBERS = re.compile(rb"[0-9]+")
QUOTED = re.compile(rb'"[^"]*"')
VALUES = re.compile(rb'(<\s*[A-Z0-9]+)(?:\s*\[\s*[0-9]+\s*\])?\s+("[^"]*"|[0-9A-Fa-fxTF-]+)')
QUOTABLE = bytes(octet for octet in range(0x20, 0x7F) if octet != 0x22)


def words_moved(chance: Chance, text: bytes) -> bytes:
    return b"".join(moved(chance, TOKENS.findall(text)))


def another_word(chance: Chance, text: bytes) -> bytes:
    """A word or mark is another one: of any kind, of the same kind, or a number near an edge."""
    words = TOKENS.findall(text)
    solid = [at for at, word in enumerate(words) if word.strip()]
    if not solid:
        return text
    at, other = chance.choice(solid), chance.choice(solid)
    odd = chance.choice(random_messages.ODD_WORDS)
    words[at] = chance.one(odd, words[other], random_messages.near_edge(chance), words[at] + b" " + words[at])
    return b"".join(words)


def another_number(chance: Chance, text: bytes) -> bytes:
    """A number is a little more or less."""
    found = any_found(chance, NUMBERS, text)
    return replaced(text, found, str(max(0, int(found[0][:30]) + chance.one(-1, 1, 1, 10))).encode()) if found else text


def other_white_space(chance: Chance, text: bytes) -> bytes:
    """White space occurs or is missing where words or marks meet."""
    words = [word for word in TOKENS.findall(text) if word.strip() or chance.happens(0.9)]
    words.insert(chance.randrange(len(words) + 1), chance.one(b" ", b"\t", b"\r\n", b"\n", b"\r", b"  "))
    return b"".join(words)


def more_values(chance: Chance, text: bytes) -> bytes:
    """A value occurs several times, and what is in front of it has no count."""
    found = any_found(chance, VALUES, text)
    many = chance.one(2, 3, 100, 245, 300)
    return replaced(text, found, found[1] + (b" " + found[2]) * many) if found else text


def other_quoted(chance: Chance, text: bytes) -> bytes:
    """A quoted text is another one."""
    quoted = bytes(chance.choice(QUOTABLE) for _ in range(chance.one(0, 1, 1, 2, 5, 20)))
    found = any_found(chance, QUOTED, text)
    return replaced(text, found, b'"' + quoted + b'"') if found else text


OF_NOTATION: List[Damage] = [
    *[words_moved] * 3, *[another_word] * 3, *[another_number] * 6, *[other_white_space] * 6, *[more_values] * 4,
    *[other_quoted] * 4, *[corruption.other_digit] * 3, corruption.claim_in_words, disturbed, disturbed, corruption.cut,
    corruption.flip, corruption.repeat, corruption.leave_out, corruption.mix, corruption.fill,
]


# Capture files.


def packets_of(octets: bytes) -> List[bytes]:
    """The records or blocks of a capture file, its header in front and what is left after them."""
    order = "<" if octets[:2] in (b"\xd4\xc3", b"\x4d\x3c") or octets[8:9] == b"\x4d" else ">"
    is_new = octets[:4] == b"\x0a\x0d\x0d\x0a"
    place, found = (0, []) if is_new else (24, [octets[:24]])
    while place + 16 <= len(octets):
        size = struct.unpack_from(order + "I", octets, place + (4 if is_new else 8))[0] + (0 if is_new else 16)
        if size < 12 or place + size > len(octets):
            break
        found.append(octets[place:place + size])
        place += size
    return [*found, octets[place:]]


def packets_moved(chance: Chance, octets: bytes) -> bytes:
    first, *others = packets_of(octets)
    return b"".join([first, *moved(chance, others)])


def within_a_packet(chance: Chance, octets: bytes) -> bytes:
    """Bytes of a packet are others, mostly of its headers."""
    parts = packets_of(octets)
    at = chance.place(parts)
    part = bytearray(parts[at])
    for _ in range(chance.one(1, 1, 1, 2) if part else 0):
        place = chance.randrange(min(len(part), chance.one(30, 60, 110, 110, len(part))))
        part[place] = chance.one(
            chance.choice(TELLING), chance.octet(), part[place] ^ 1 << chance.randrange(8), (part[place] + 1) & 0xFF
        )
    return b"".join([*parts[:at], bytes(part), *parts[at + 1:]])


def put_in(chance: Chance, octets: bytes) -> bytes:
    at = chance.randrange(len(octets) + 1)
    return octets[:at] + chance.octets(chance.one(1, 4, 16)) + octets[at:]


OF_CAPTURES: List[Damage] = [
    *[packets_moved] * 6, *[within_a_packet] * 8, corruption.flip, corruption.claim, corruption.cut,
    corruption.leave_out, put_in,
]


# Cases.


@dataclass(frozen=True)
class Many:
    """A case, and what its answer is counted as."""

    words: List[str]
    given: bytes
    wanted: Answer
    counted: str


def audits(chance: Chance) -> Iterator[Many]:
    for log in branches(chance, "audit", random_logs.random_log(chance), OF_LOGS):
        verdict = session.audit(log).verdict
        passes = verdict.startswith("pass")
        answer = Answer(0 if passes else 1, verdict.encode() + b"\n", b"")
        yield Many(["audit"], log, answer, "pass" if passes else verdict.split(" ")[-1].replace("rule=", ""))


def other_limits(chance: Chance, options: messages.Options) -> messages.Options:
    if chance.happens(0.9):
        return options
    return replace(options, max=chance.one(256, 300, 1_048_576, 33_554_432), depth=chance.one(1, 2, 3, 32, 100))


def shows(chance: Chance) -> Iterator[Many]:
    in_digits = chance.happens(0.4)
    stream, options = random_messages.random_lines(chance) if in_digits else random_messages.random_stream(chance)
    for given in branches(chance, "show", stream, OF_DIGITS if in_digits else OF_STREAMS):
        options = other_limits(chance, options)
        output, fault = messages.show(given, options)
        kinds = "".join(sorted({line.split(b" ")[0].decode() for line in output.splitlines()})[:1])
        counted = f"{fault.name if fault else 'no fault'}{', something shown' if kinds else ''}"
        yield Many(["show", *words_of(options)], given, ended(output, fault), counted)


def encodes(chance: Chance) -> Iterator[Many]:
    text, options = random_messages.random_notation(chance)
    if messages.encode(text, options)[1] and chance.happens(0.7):
        return  # most inputs are made of one without a fault
    for given in branches(chance, "encode", text, OF_NOTATION):
        options = other_limits(chance, options)
        output, fault = messages.encode(given, options)
        yield Many(["encode", *words_of(options)], given, ended(output, fault), fault.name if fault else "no fault")


def captures(chance: Chance) -> Iterator[Many]:
    made = session_generator.made(str(chance.random()))
    for given in branches(chance, "capture", bytes(made.octets), OF_CAPTURES):
        peer = chance.one("10.0.0.1", "10.0.0.2", "10.0.0.4", "fe80::1") if chance.happens(0.1) else None
        options = replace(made.options, log=chance.one(None, None, "host", "equipment"), peer=peer)
        read = capture_audit.capture(given, options)
        told = "log" if options.log else "a failure" if read.status == 1 else "no failure" if read.lines else "nothing"
        fault = read.fault.split(" packet=")[0].split(" octet=")[0] if read.fault else "no fault"
        answer = Answer(read.status, read.output, read.error)
        yield Many(["capture", *options.words()], given, answer, f"{told}, {fault}")


CASES: Dict[str, Callable[[Chance], Iterator[Many]]] = {
    "audit": audits, "show": shows, "encode": encodes, "capture": captures,
}


def branches(chance: Chance, command: str, whole: bytes, damages: List[Damage]) -> Iterator[bytes]:
    """An input, if it is small, and many that are made of it by damage."""
    if not 0 < len(whole) <= LONGEST[command]:
        return
    yield whole
    for _ in range(BRANCHES - 1):
        octets = whole
        for _ in range(chance.one(1, 1, 1, 1, 2, 2, 3)):
            octets = chance.choice(damages)(chance, octets) if octets else octets
        if len(octets) <= LONGEST_DAMAGED:
            yield octets


def cases(command: str, seed: str) -> Iterator[Many]:
    """Cases of which no two have the same words and input."""
    seen = set()
    for number in count():
        for case in CASES[command](Chance(f"{seed} many {command} {number}")):
            name = hash((*case.words, case.given))
            if name not in seen:
                seen.add(name)
                yield case


# To bulk_runner.c and back.


def sized(octets: bytes) -> bytes:
    return struct.pack("=I", len(octets)) + octets


def written(case: Many, wanted: Answer) -> bytes:
    words = b"".join(sized(word.encode()) for word in case.words)
    answer = struct.pack("=I", wanted.status) + sized(wanted.output) + sized(wanted.error)
    return struct.pack("=I", len(case.words)) + words + sized(case.given) + answer


Differing = Tuple[List[str], bytes, Answer, Answer]


def differing_in(file: BinaryIO) -> Iterator[Differing]:
    """The cases that bulk_runner.c wrote: words, input, the wanted answer, and that of the command."""

    def number() -> int:
        return struct.unpack("=I", file.read(4))[0]

    def octets() -> bytes:
        return file.read(number())

    while file.peek(1):
        words = [octets().decode() for _ in range(number())]
        yield words, octets(), Answer(number(), octets(), octets()), Answer(number(), octets(), octets())


def feed(to: BinaryIO, told: argparse.Namespace) -> Tuple[int, int, Counter]:
    """Writes the cases. Tells how many, how many of them once more with another answer, and what the answers were."""
    begun, controls, counted = time.monotonic(), 0, Counter()
    for number, case in enumerate(cases(told.command, told.seed)):
        if number == told.cases or told.seconds and time.monotonic() - begun > told.seconds:
            break
        to.write(written(case, case.wanted))
        counted[case.counted] += 1
        if number % CONTROL == 0:
            controls += 1
            to.write(written(case, replace(case.wanted, output=case.wanted.output + CHANGED)))
        if number % 50_000 == 49_999:
            print(f"{number + 1} {told.command}s in {time.monotonic() - begun:.0f} s", flush=True)
    to.write(struct.pack("=I", 0xFFFFFFFF))
    to.close()
    return sum(counted.values()), controls, counted


def given() -> argparse.Namespace:
    parser = argparse.ArgumentParser(description=__doc__, formatter_class=argparse.RawDescriptionHelpFormatter)
    parser.add_argument("command", choices=list(CASES))
    parser.add_argument("cases", nargs="?", type=int, default=10_000)
    parser.add_argument("seed", nargs="?", default="1")
    parser.add_argument("--seconds", type=float)
    parser.add_argument("--program", default=PROGRAM)
    return parser.parse_args()


def main() -> int:
    told = given()
    with tempfile.TemporaryDirectory(prefix="hsms-bulk-") as room:
        runner, found = f"{room}/bulk_runner.so", f"{room}/differing"
        source = f"{TOP}/tests/tools/bulk_runner.c"
        subprocess.run(["cc", "-shared", "-fPIC", "-O2", "-o", runner, source, "-ldl"], check=True)
        with open(found, "wb") as output:
            running = subprocess.Popen(
                [told.program], stdin=subprocess.PIPE, stdout=output, stderr=subprocess.PIPE, bufsize=1 << 20,
                env={**os.environ, "LD_PRELOAD": runner},
            )
            compared, controls, counted = feed(running.stdin, told)
            ran, _ = map(int, running.stderr.read().split())
            running.wait()
        with open(found, "rb") as file:
            differing = list(differing_in(file))
    wrong = [one for one in differing if not one[2].output.endswith(CHANGED)]
    for what, many in counted.most_common():
        print(f"{many:9} {what}")
    if wrong:
        words, octets, wanted, answer = min(wrong, key=lambda one: len(one[1]))
        print(f"hsms {' '.join(words)}, input of {len(octets)} octets: {octets[:LONGEST_SHOWN].hex()}")
        print(f"reference: {wanted}\ncommand: {answer}")
    are_told = ran == compared + controls and len(differing) - len(wrong) == controls
    if not are_told:
        print(f"of {controls} answers that were changed {len(differing) - len(wrong)} are told, in {ran} runs")
    print(f"reference: {compared} {told.command}s, {len(wrong)} differ")
    return 1 if wrong or not are_told else 0


if __name__ == "__main__":
    sys.exit(main())
