#!/usr/bin/env python3
"""Converts text logs by contrib/text2log.py: each encoding, form of time, of bytes and of SML that docs/LOGS.md names
becomes the wanted session log, and each line that cannot be read is rejected by its number, reason and text. No line is
without effect: of the example logs, as they are and with random changes, the session log without a line differs.

Each repair in the page's table of unreadable lines repairs its example.

It needs the program that `rt ci` has built. The last line is `N passed, M failed`.
"""
import codecs
import importlib.util
import itertools
import os
import random
import re
import subprocess
import sys
import tempfile

# The module below leaves no compiled file in the repository.
sys.dont_write_bytecode = True
sys.path.insert(0, os.path.abspath(f"{__file__}/../../.."))

from tests.support.command import PROGRAM, TOP

SCRIPT = f"{TOP}/contrib/text2log.py"
SETTINGS = "hsms-log 2 host active 0 45000 6000 10000 5000 1048576 32\n"

# A row of the table of unreadable lines: its example and the repair.
REPAIR = re.compile(r"^\|.*\| `(\S+\.log)` \| `([a-z]+ .*)` \|$", re.M)

# How many random changes are tried of each example, and the seed.
CHANGES = 400
SEED = 58

UP = "2024-03-01 10:00:00.000 CONNECTED\n"
NEXT = UP + "2024-03-01 10:00:01 "
SELECTED = UP + (
    "2024-03-01 10:00:00.001 SEND 00 00 00 0A FF FF 00 00 00 01 00 00 00 01\n"
    "2024-03-01 10:00:00.020 <-- Select.rsp SystemBytes=00000001 Status=0\n"
)
LOG = SETTINGS + "0 up\n1 > ffff0000000100000001\n20 < ffff0000000200000001\n"
DOWN = SELECTED + "2024-03-01 10:00:50.000 DISCONNECTED\n"
DOWN_LOG = LOG + "50000 down\n"

# Text logs, each with options, and the session log that it becomes.
CONVERTED = {
    "both forms": (DOWN, [], DOWN_LOG),
    "CR LF": (DOWN.replace("\n", "\r\n"), [], DOWN_LOG),
    "no last line feed": (DOWN[:-1], [], DOWN_LOG),
    "blank lines": (DOWN.replace("\n", "\n\n  \n"), [], DOWN_LOG),
    "settings": (
        UP, "--role equipment --link passive --device 7 --t3 1 --t6 2 --t7 3 --t8 4 --max 256 --depth 5".split(),
        "hsms-log 2 equipment passive 7 1 2 3 4 256 5\n0 up\n",
    ),
    "UTF-8 with a mark": (codecs.BOM_UTF8 + DOWN.encode(), [], DOWN_LOG),
    "UTF-8 with a mark in the midst": (DOWN.replace("\n2", "\n\ufeff2"), [], DOWN_LOG),
    "UTF-16 with a mark": (DOWN.encode("utf-16"), [], DOWN_LOG),
    "UTF-16 LE with a mark": (codecs.BOM_UTF16_LE + DOWN.encode("utf-16-le"), [], DOWN_LOG),
    "UTF-16 BE with a mark": (codecs.BOM_UTF16_BE + DOWN.encode("utf-16-be"), [], DOWN_LOG),
    "UTF-16 LE": (DOWN.encode("utf-16-le"), [], DOWN_LOG),
    "UTF-16 BE": (DOWN.encode("utf-16-be"), [], DOWN_LOG),
    "UTF-16 with CR LF": (DOWN.replace("\n", "\r\n").encode("utf-16"), [], DOWN_LOG),
    "UTF-8": (DOWN + "Müller\u2028\x85\x0b", [], DOWN_LOG + "# Müller\u2028\x85\x0b\n"),
    "Latin-1": ((DOWN + "Müller").encode("latin-1"), [], DOWN_LOG + "# Müller\n"),
    "times with T": (DOWN.replace("01 10", "01T10"), [], DOWN_LOG),
    "times in UTC": (re.sub(r"-01 (\S+)", r"-01T\1Z", DOWN), [], DOWN_LOG),
    "times in zones": (
        "2024-03-31T01:59:59.500+01:00 CONNECTED\n2024-03-31T03:00:00,250+0200 DISCONNECTED\n", [],
        SETTINGS + "0 up\n750 down\n",
    ),
    "times without fractions": (
        "2024-02-29 23:59:58 CONNECT\n2024-03-01 00:00:03 DISCONNECT\n", [], SETTINGS + "0 up\n5000 down\n",
    ),
    "times with long fractions": (
        "2024-02-29 23:59:58.0009999 CONNECT\n2024-02-29 23:59:58.5 DISCONNECT\n", [], SETTINGS + "0 up\n500 down\n",
    ),
    "times of day": ("9:59:58.900 CONNECT\n10:00:00.0 DISCONNECT\n", [], SETTINGS + "0 up\n1100 down\n"),
    "times of day past midnight": (
        "23:59:58.900 CONNECT\n00:00:01 DISCONNECT\n23:00:00 CONNECT\n00:00:00 DISCONNECT\n", [],
        SETTINGS + "0 up\n2100 down\n82801100 up\n86401100 down\n",
    ),
    "midnight by a comment": (
        "22:00:00 CONNECT\n23:00:00 a\n01:00:00 b\n20:00:00 DISCONNECT\n", [],
        SETTINGS + "0 up\n# 23:00:00 a\n# 01:00:00 b\n79200000 down\n",
    ),
    "a time of day that goes back": (
        "12:00:00 CONNECT\n12:00:09 DISCONNECT\n12:00:08 CONNECT\n", [], SETTINGS + "0 up\n9000 down\n8000 up\n",
    ),
    "comments": (
        "Log of tool 7\n" + UP + "  a\n2024-03-01 10:00:01 T3 timer set to 45\nb\n", [],
        SETTINGS + "# Log of tool 7\n0 up\n#   a\n# 2024-03-01 10:00:01 T3 timer set to 45\n# b\n",
    ),
    "comments by a pattern": (
        NEXT + "INFO S1F1 follows\nSEND\n2024/03/01 INFO\n", ["--comment", r"\bINFO\b"],
        SETTINGS + "0 up\n# 2024-03-01 10:00:01 INFO S1F1 follows\n# SEND\n# 2024/03/01 INFO\n",
    ),
    "a long comment": (
        UP + "é" * 400 + "\n", ["--max", "256"],
        SETTINGS.replace("1048576", "256") + "0 up\n# " + "é" * 287 + "\n",
    ),
    "a cut": (SELECTED + "2024-03-01 10:00:06.001 T8 TIMEOUT\n", [], LOG + "6001 cut t8\n"),
    "decimal system bytes": (
        NEXT + "--> Linktest.req SystemBytes=4294967295\n2024-03-01 10:00:09 T3 TIMEOUT 17\n", ["--decimal"],
        SETTINGS + "0 up\n1000 > ffff00000005ffffffff\n9000 t3 00000011\n",
    ),
    "hexadecimal system bytes": (
        NEXT + "--> Linktest.rsp SystemBytes=0x0000abCD\n2024-03-01 10:00:09 T3 TIMEOUT 0000000A\n", [],
        SETTINGS + "0 up\n1000 > ffff000000060000abcd\n9000 t3 0000000a\n",
    ),
    "bytes in words of any length": (
        NEXT + "SEND 0000000A FFFF 00000001\n 00 00\n0001\n", [],
        SETTINGS + "0 up\n1000 > ffff0000000100000001\n",
    ),
    "bytes without their length": (
        NEXT + "RECV FF FF 00 00 00 01\n  00 00 00 01\n", ["--no-length"],
        SETTINGS + "0 up\n1000 < ffff0000000100000001\n",
    ),
    "several messages of one read": (
        NEXT + "RECV " + "00 00 00 0A FF FF 00 00 00 05 00 00 00 02 " * 2 + "\nafter them\n", [],
        SETTINGS + "0 up\n" + "1000 < ffff0000000500000002\n" * 2 + "# after them\n",
    ),
    "a dump with decimal offsets": (
        NEXT + "SEND 20 bytes\n"
        "0000 00 00 00 10 00 00 01 02  00 00 00 00 00 02 21 04  ..............!.\n0016 de ad be ef         ....\n", [],
        SETTINGS + "0 up\n1000 > 000001020000000000022104deadbeef\n",
    ),
    "a dump without spaces in front": (
        NEXT + "SEND\n00000000  00 00 00 10 00 00 01 02  00 00 00 00 00 02 21 04  |..............!.|\n"
        "00000010: 41 42 43 44              ABCD\n", [],
        SETTINGS + "0 up\n1000 > 00000102000000000002210441424344\n",
    ),
    "SML": (
        NEXT + "--> S6F11 W SystemBytes=00000002\n<l [10] /* a\nb */ <a 'it''s'> <A \"\">// x\n<B 16 0x11>\n"
        "<BOOLEAN TRUE F> <I1 -1 0x10> <U8 0xff> <F4 1.5> <F8 -2 0x0000000000000000> <J> <A 0x7 \"b\">>\n.\n", [],
        SETTINGS + "0 up\n1000 > 0000860b000000000002" "010a" "4103697473" "4100" "21021011" "25020100" "6502ff10"
        "a108" "00000000000000ff" "91043fc00000" "8110c0000000000000000000000000000000" "4500" "41020762\n",
    ),
    "a double quote in SML": (
        NEXT + "<-- S1F2 SystemBytes=00000002\n<A 'a\"b'>.\n", [],
        SETTINGS + "0 up\n1000 < 000001020000000000024103612262\n",
    ),
    "the device of messages in SML": (
        NEXT + "<-- S1F1 W SystemBytes=00000002\n", ["--device", "32767"],
        SETTINGS.replace(" 0 ", " 32767 ") + "0 up\n1000 < 7fff81010000" "00000002\n",
    ),
}

FEWER = "message length does not match its length bytes (if it has none: --no-length)"
ENCODE = "hsms encode rejects this message: "

# Text logs, each with options, and what standard error says.
REJECTED = {
    "nothing": ("", [], "no connection, message or timeout found"),
    "no entry": ("a\n2024-03-01 10:00:00 b\n", [], "no connection, message or timeout found"),
    "no connection": (DOWN[len(UP):], [], "line 1: an entry before the connection is up: " + DOWN.split("\n")[1]),
    "a NUL": (UP + "a\0b", [], r"line 2: a NUL byte: this is not text: a\x00b"),
    "UTF-32": (DOWN.encode("utf-32"), [], "line 1: a NUL byte"),
    "UTF-8 with a mark and another byte": (codecs.BOM_UTF8 + UP.encode() + b"\xff", [], "line 2: invalid utf-8: ff"),
    "half a character of UTF-16": (
        codecs.BOM_UTF16_LE + UP.encode("utf-16-le") + b"a", [], "line 2: invalid utf-16: 61",
    ),
    "a date of another form": (
        UP + "2024/03/01 10:00:01 OPENED\n", [],
        "line 2: expected a date and time like 2024-03-01 10:00:00.000: 2024/03/01 10:00:01 OPENED\n",
    ),
    "a date of another form first": (
        "[2024-03-01 10:00:01] OPENED\n" + UP, [], "line 1: expected a date and time like 2024",
    ),
    "no such date": ("2023-02-29 10:00:01 CONNECT\n", [], "line 1: invalid date or time: 2023-02-29 10:00:01 CONNECT"),
    "no such time": (UP + "2024-03-01 24:00:01 x\n", [], "line 2: invalid date or time: 2024-03-01 24:00:01 x"),
    "a date is missing": (UP + "10:00:01 x\n", [], "line 2: another date and time format than before: 10:00:01 x"),
    "a zone is missing": (UP + "2024-03-01T10:00:01Z x\n", [], "line 2: another date and time format than before"),
    "a time before the first": (
        UP + "2024-03-01 09:00:00 CONNECT\n", [], "line 2: the time is earlier than the first entry's: 2024",
    ),
    "another word": (NEXT + "CONNECTED again\n", [], "line 2: unknown line format"),
    "a message without a time": (UP + "a\n--> S1F1 W\n", [], "line 3: no date and time: --> S1F1 W"),
    "bytes of another word": (
        NEXT + "TX 00 00 00 0A FF FF 00 00 00 05 00 00 00 02\n", [], "line 2: unknown line format: 2024",
    ),
    "bytes in one word": (NEXT + "TX 0000000AFFFF00000005 00000002\n", [], "line 2: unknown line format"),
    "bytes of another time": (NEXT + "a\n00 00 00 0A FF FF 00 00 00 05 00 00\n", [], "line 3: no date and time"),
    "half a byte": (NEXT + "SEND 000\n", [], "line 2: unknown line format"),
    "no bytes": (NEXT + "SEND\n\n", [], "line 2: expected hexadecimal bytes: 2024-03-01 10:00:01 SEND"),
    "no bytes further on": (NEXT + "SEND 00\n  0x00\n", [], "line 3: expected hexadecimal bytes: 0x00\n"),
    "fewer bytes": (
        NEXT + "SEND 00 00 00 0B FF FF 00 00 00 05 00 00 00 02\n", [],
        f"line 2: {FEWER}: 00 00 00 0B FF FF 00 00 00 05 00 00 00 02\n",
    ),
    "no length": (
        NEXT + "SEND FF FF 00 00 00 05 00 00 00 02\n", [],
        f"line 2: {FEWER}: FF FF 00 00 00 05 00 00 00 02\n",
    ),
    "more bytes": (
        NEXT + "SEND 00 00 00 0A FF FF 00 00 00 05 00 00 00 02 03\n", [],
        f"line 2: {FEWER}: 03\n",
    ),
    "a length with --no-length": (
        NEXT + "SEND 00 00 00 0A FF FF 00 00 00 05 00 00 00 02\n", ["--no-length"],
        "line 2: this message has length bytes: remove --no-length: 00 00 00 0A",
    ),
    "a short message": (
        NEXT + "RECV 00 00 00 01 FF\n", [],
        "line 2: message length 1 is out of range 10 to 1048576 (--max): 00 00 00 01 FF\n",
    ),
    "a long message": (
        NEXT + f"RECV 00000101 {257 * '00'}\n", ["--max", "256"],
        "line 2: message length 257 is out of range 10 to 256 (--max): 00 00 01 01 " + "00 " * 28 + "..\n",
    ),
    "a line of a dump is missing": (
        NEXT + "RECV\n  0010: FF\n", ["--no-length"], "line 3: unexpected offset 0010 after 0 bytes: 0010: FF",
    ),
    "short system bytes": (
        NEXT + "--> Linktest.req SystemBytes=17\n", [],
        "line 2: expected system bytes of eight hexadecimal digits (or use --decimal): 2024-03-01 10:00:01 --> L",
    ),
    "hexadecimal for decimal": (NEXT + "T3 TIMEOUT 0000000A\n", ["--decimal"], "line 2: invalid decimal system bytes"),
    "past 32 bits": (NEXT + "T3 TIMEOUT 4294967296\n", ["--decimal"], "line 2: invalid decimal system bytes"),
    "T3 of another form": (NEXT + "Reply timeout T3\n", [], "line 2: unknown line format"),
    "T6 of another form": (NEXT + "T6 expired\n", [], "line 2: unknown line format"),
    "an unknown control message": (
        NEXT + "--> Reject.req SystemBytes=00000001\n", [],
        "line 2: unknown control message: Reject.req\n",
    ),
    "no status": (NEXT + "--> Select.rsp SystemBytes=00000001\n", [], "line 2: Select.rsp without a status"),
    "a large status": (NEXT + "<-- Select.rsp SystemBytes=00000001 Status=256\n", [], "line 2: status above 255"),
    "a message without system bytes": (NEXT + "--> S1F1 W\n", [], "line 2: unknown line format"),
    "items after another message": (UP + "<L\n>.\n", [], "line 2: no date and time: <L"),
    "the end of items": (UP + ">.\n", [], "line 2: no date and time: >."),
}
SML = NEXT + "--> S1F1 W SystemBytes=00000002\n"
REJECTED.update({f"SML: {text!r}": (SML + text, [], wanted) for text, wanted in {
    "a": "line 3: invalid SML: a",
    "\n<X 1>.": "line 4: unknown item type: X",
    "<A '>": "line 3: invalid SML: '>",
    "<L\n<A 'ä'>>.": "line 4: not printable ASCII: 'ä'",
    "<F4 warm>": "line 3: invalid F4 value: warm",
    "<F4 1e99>": "line 3: invalid F4 value: 1e99",
    "<BOOLEAN 2>": "line 3: invalid BOOLEAN value: 2",
    "<L>.\n. S9F9 <L>.": "line 3: invalid SML: .",
    "<L [2]\n<L>\n<U1 256>>.": f"line 2: {ENCODE}",
    "<L": f"line 2: {ENCODE}",
}.items()})
REJECTED["SML: the second of three messages"] = (
    SML + SML[len(UP):] + "<U1 256>\n" + SML[len(UP):] + "<U1 1>\n", [], f"line 3: {ENCODE}",
)
REJECTED["SML: a message too long"] = (
    SML + SML[len(UP):] + "<B " + "1 " * 300 + ">\n" + SML[len(UP):], ["--max", "256"], f"line 3: {ENCODE}",
)
REJECTED["SML: no such program"] = (
    SML, ["--hsms", "/nowhere"], "cannot run /nowhere (--hsms): No such file or directory\n",
)


def ran(given, *words):
    """Returns the status, standard output and standard error of the converter."""
    octets = given if isinstance(given, bytes) else given.encode()
    options = [] if "--hsms" in words else ["--hsms", PROGRAM]
    ended = subprocess.run([sys.executable, SCRIPT, *options, *words], input=octets, capture_output=True, check=False)
    return ended.returncode, ended.stdout.decode(), ended.stderr.decode()


def conversions():
    """Yields what is tried of logs that are converted, and whether it is well."""
    for name, case in CONVERTED.items():
        given, options, wanted = case
        got = ran(given, *options)
        yield f"{name}: wanted\n{wanted}\ngot\n{got}", got == (0, wanted, "")


def rejections():
    """Yields what is tried of logs that are rejected, and whether it is well."""
    for name, (given, options, wanted) in REJECTED.items():
        status, output, error = ran(given, *options)
        is_well = (status, output) == (2, "") and error.startswith(f"text2log: {wanted}") and error.count("\n") == 1
        yield f"{name}: wanted {wanted!r}, got {(status, output, error)}", is_well
    for words in ("--t3 0", "--device 32768", "--max 255", "--depth +1", "--role a", "--comment ("):
        status, output, _ = ran(DOWN, *words.split())
        yield f"{words}: status {status}", (status, output) == (2, "")


def files():
    """Yields what is tried of operands, and whether it is well."""
    with tempfile.TemporaryDirectory() as room:
        one, other = f"{room}/one.txt", f"{room}/other.txt"
        for path, octets in ((one, SELECTED.encode("utf-16")), (other, DOWN[len(SELECTED):].encode())):
            with open(path, "wb") as file:
                file.write(octets)
        yield "two files", ran("", one, other) == (0, DOWN_LOG, "")
        yield "a file and standard input", ran(DOWN[len(SELECTED):], one, "-") == (0, DOWN_LOG, "")
        yield "standard input by its name", ran(DOWN, "-") == (0, DOWN_LOG, "")
        yield "no file", ran("", one, f"{room}/no") == (2, "", f"text2log: {room}/no: No such file or directory\n")
        yield "a folder", ran("", room) == (2, "", f"text2log: {room}: Is a directory\n")
        got = ran("--> a", one, "-", other)
        yield "a line of standard input", got == (2, "", "text2log: line 1: no date and time: --> a\n")
        with open(other, "a") as file:
            file.write("T3 expired")
        got = ran("", one, other)
        yield "a line of a file", got == (2, "", f"text2log: {other}: line 2: no date and time: T3 expired\n")


def repairs():
    """Yields the repairs of docs/LOGS.md, and whether the audit reads the example after each, and not without it."""
    with open(f"{TOP}/docs/LOGS.md", encoding="utf-8") as file:
        rows = REPAIR.findall(file.read())
    for name, repair in rows:
        example = f"examples/unreadable/{name}"
        for command, is_read in ((f"cat {example}", False), (f"{repair} < {example}", True)):
            verdict = subprocess.check_output(["sh", "-c", f"{command} | {PROGRAM} audit; true"], cwd=TOP, text=True)
            yield f"{command}: {verdict}", ("unreadable" not in verdict and "entries=0" not in verdict) == is_read
    yield f"{len(rows)} repairs", len(rows) == 10


def converter():
    """Returns the converter as a module."""
    spec = importlib.util.spec_from_file_location("text2log", SCRIPT)
    module = importlib.util.module_from_spec(spec)
    spec.loader.exec_module(module)
    return module


def changed(text, chance):
    """Returns a text with a character or a line changed, dropped, doubled or moved."""
    kind = chance.randrange(6)
    if kind < 3:
        place, other = chance.randrange(len(text)), chance.choice("0aF <>-:.\n" if kind else "")  if kind else ""
        return text[:place] + other + text[place + (kind < 2):]
    lines = text.splitlines(True)
    place = chance.randrange(len(lines))
    other = {3: [], 4: [lines[place]] * 2, 5: [chance.choice(lines), lines[place]]}[kind]
    return "".join([*lines[:place], *other, *lines[place + 1:]])


def effects():
    """Yields the example logs and random changes of them, and whether each line of one that is converted has an effect.
    (In place of `hsms encode`, each message in SML becomes its notation.)"""
    module, chance = converter(), random.Random(SEED)
    options = module.parsed([])
    module.encode = lambda messages, _: (["00" * 10 + message.notation.encode().hex() for message in messages], None)

    def log_of(lines):
        try:
            return module.log_of([module.Line(f"line {n}", text) for n, text in enumerate(lines, 1)], options)
        except module.Invalid as invalid:
            return str(invalid)

    converted = 0
    for name in ("vendor", "dump", "sml"):
        with open(f"{TOP}/examples/{name}.txt", encoding="ascii") as file:
            example = file.read()
        for text in [example, *(changed(example, chance) for _ in range(CHANGES))]:
            lines = text.splitlines()
            log = log_of(lines)
            converted += isinstance(log, list)
            if isinstance(log, list):
                full = [n for n, line in enumerate(lines) if line.strip() not in ("", ".")]
                idle = [lines[n] for n in full if log_of(lines[:n] + lines[n + 1:]) == log]
                yield f"{name}: lines without effect in\n{text}\n{idle}", not idle
            else:
                yield f"{name}: {log}", bool(re.match(r"line \d+: ", log)) or log.startswith("no connection, message")
    yield f"{converted} changed logs were converted", converted > CHANGES // 2


def main():
    passed = failed = 0
    for tried, is_well in itertools.chain(conversions(), rejections(), files(), repairs(), effects()):
        passed += is_well
        failed += not is_well
        if not is_well:
            print(tried)
    print(f"{passed} passed, {failed} failed")
    return 1 if failed or not passed else 0


if __name__ == "__main__":
    sys.exit(main())
