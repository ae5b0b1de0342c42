"""Worked examples: inputs of the command and its answers, from the standards and docs/FORMATS.md.

None of them was copied from the output of the command.
"""
from dataclasses import dataclass
from typing import List, Tuple

from tests.support.command import Answer


@dataclass(frozen=True)
class Row:
    """The words of the command, what it reads, and what it answers."""

    words: Tuple[str, ...]
    given: bytes
    answer: Answer

    def __str__(self):
        return f"hsms {' '.join(self.words)}, {self.given[:80]!r}"


def octets(digits: str) -> bytes:
    return bytes.fromhex(digits)


def message(digits: str) -> bytes:
    """A message of a header and a text, with its length in front."""
    return len(octets(digits)).to_bytes(4, "big") + octets(digits)


def refused(fault: str, output: str = "") -> Answer:
    return Answer(2, output.encode(), f"hsms: {fault}\n".encode())


def row_of(words: str, given: bytes, output: str) -> Row:
    return Row(tuple(words.split()), given, Answer(0, output.encode(), b""))


# Messages, and the line of each.
LINES = [
    ("ffff0000000100000001", "select.req ffff 00000001"),
    ("0000810d0000000000010100", "data 0000 00000001 S1F13 W <L [0]> ."),
    ("00008101000000000002", "data 0000 00000002 S1F1 W ."),
    ("0000810100000000000240", "data 0000 00000002 S1F1 W ! 40"),
    ("ffff0000000200000001", "select.rsp ffff 00000001 0"),
    ("00000004000700000002", "reject 0000 00000002 0 4"),
    ("ffff0000000300000005", "other-stype ffff 00000005 3"),
    ("ffff0000010100000005", "other-ptype ffff 00000005 1"),
    ("ffff0000000500000002 00", "linktest.req ffff 00000002 ! 00"),
]

# Texts, the depth, and the item in notation, or None where the text is not one item within the depth.
ITEMS = [
    ("41024142", 32, '<A [2] "AB">'),
    ("4200024142", 32, '<A [2] "AB">'),
    ("40", 32, None),
    ("05", 32, None),
    ("ab000000", 32, "<U2 [0]>"),
    ("2503000102", 32, "<BOOLEAN [3] F T T>"),
    ("a9030001ff", 32, None),
    ("a90300", 32, None),
    ("a9", 32, None),
    ("03ffffff", 32, None),
    ("03ffffff" * 100, 100, None),
    ("03ffffff" * 101, 100, None),
    ("010101000000", 32, None),
    ("01010100", 2, "<L [1] <L [0]>>"),
    ("01010100", 1, None),
    ("41040a412242", 32, '<A [4] 0x0A "A" 0x22 "B">'),
    ("4104410a2242", 32, '<A [4] "A" 0x0A 0x22 "B">'),
    ("6902ffff", 32, "<I2 [1] -1>"),
    ("61088000000000000000", 32, "<I8 [1] -9223372036854775808>"),
    ("91043f800000", 32, "<F4 [1] 0x3F800000>"),
    ("4501ff", 32, "<J [1] 0xFF>"),
]

# Messages in notation with the message that they are, and texts with their faults; each with its options.
FRAMES = [
    ("", 'S6F11 W <L <A "AB"> <U1 1 255>> .', ["0000860b000000000001010241024142a50201ff"]),
    ("", 'S6F11 W <L [2] <A [2] "AB"> <U1 [2] 1 255>> .', ["0000860b000000000001010241024142a50201ff"]),
    ("--system 4294967295", "S1F1 W . S1F2 .", ["000081010000ffffffff", "00000102000000000000"]),
    ("", 'S1F1 <A [4] "A" 0x0A 0x22 "B"> .', ["00000101000000000001 4104410a2242"]),
    ("", 'S1F1 <A "a" 0x0A ""> .', ["00000101000000000001 4102610a"]),
    ("", "S1F1 <I2 [1] -1> .", ["00000101000000000001 6902ffff"]),
    ("", "S1F1 <I8 [1] -9223372036854775808> .", ["00000101000000000001 61088000000000000000"]),
    ("", "S1F1 <F4 [1] 0x3F800000> .", ["00000101000000000001 91043f800000"]),
    ("", "S1F1 <J [1] 0xFF> .", ["00000101000000000001 4501ff"]),
    ("", "", []),
]
FAULTS_OF_NOTATION = [
    ("", "S1F1 W <U1 256> .", "Number at=11"),
    ("", "S1F1 <B [2] 0x00> .", "Count at=8"),
    ("", "S1F1", "Syntax at=4"),
    ("", "S128F1 .", "Number at=0"),
    ("--depth 1", "S1F1 <L <L>> .", "Deep at=8"),
    ("--depth 100", "S1F1 " + "<L " * 101, "Deep at=305"),
    ("--max 256", "S1F1 <B" + " 0x00" * 245 + "> .", "TooLong length=257"),
]

FIRST = "hsms-log 1 host active 0 45000 6000 10000 5000 1048576 32\n"
SMALL = "hsms-log 1 host active 0 45000 6000 10000 5000 256 32\n"
ENTRIES = "0 up\n0 > ffff0000000100000001\n5 < ffff0000000200000001\n"
LOG = FIRST + ENTRIES
REPLY = "1000 > 00008101000000000002\n46000 < 000001020000000000020102410141410142\n"
PRIMARY = "1000 > 00008101000000000002\n"
TWO = PRIMARY + "1000 > 00008101000000000003\n46001 t3 00000002\n"

CONNECTIONS = """\
hsms-log 2 host active 0 45000 6000 10000 5000 1048576 32
0 up
0 > ffff0000000100000001
5 < ffff0000000200000001
10 > 00008101000000000002
20 down
90000 up
90000 > ffff0000000100000001
90001 < ffff0000000200000001
90002 > 00008101000000000002
90003 < 00000102000000000002
90004 down
"""


def with_line(log: str, number: int, *lines: str) -> str:
    """A log with these lines in place of one."""
    all_of = log.splitlines(keepends=True)
    return "".join([*all_of[:number - 1], *[line + "\n" for line in lines], *all_of[number:]])


def front(log: str, count: int) -> str:
    """The first lines of a log."""
    return "".join(log.splitlines(keepends=True)[:count])


def passes(entries, sent, taken, discarded=0, expired=0, waiting=0) -> str:
    counts = f"entries={entries} sent={sent} taken={taken} discarded={discarded} expired={expired} waiting={waiting}"
    return f"pass {counts}"


SECOND_SELECT = "6 > ffff0000000100000002\n"


def log_of_depth(depth: int, lists: int) -> str:
    """A log whose settings allow lists of this depth, and data of that many, each within the one before."""
    return LOG.replace(" 32\n", f" {depth}\n", 1) + f"6 > 00000101000000000002{'0101' * (lists - 1)}0100\n"


# Depths that the settings allow, how deep the lists of data are, and the verdict.
DEPTHS = [
    *[(depth, depth, passes(4, 2, 1)) for depth in (90, 91, 95, 100)],
    *[(depth, depth + 1, "fail line=5 rule=Text") for depth in (90, 91, 95, 100)],
]

# Logs, and their verdicts.
LOGS = [
    (LOG + REPLY, passes(5, 2, 2)),
    ((LOG + REPLY).replace("\n", "\r\n"), passes(5, 2, 2)),
    ((LOG + REPLY)[:-1], passes(5, 2, 2)),
    (LOG + REPLY.replace("46000", "46001"), "fail line=6 rule=T3Overdue"),
    (LOG + PRIMARY + "46000 t3 00000002\n46500 < 00000102000000000002\n", "fail line=7 rule=NoTransaction"),
    (LOG + PRIMARY + "46000 t3 00000002\n46500 ! 00000102000000000002\n", passes(6, 2, 1, discarded=1, expired=1)),
    (LOG + TWO + "46001 > ffff0000000500000004\n", "fail line=8 rule=T3Overdue"),
    (LOG + TWO + "46001 t3 00000003\n46001 > ffff0000000500000004\n", passes(8, 4, 1, expired=2)),
    (LOG + "6 > 000081ff000000000002\n7 < 00000100000000000002\n", passes(5, 2, 2)),
    (LOG + "6 > 000081ff000000000002\n7 < 00000102000000000002\n", "fail line=6 rule=NoTransaction"),
    (LOG + "6 > 00008101000000000002\n6 < 00008101000000000002\n", passes(5, 2, 2, waiting=1)),
    (LOG + "6 > 00008101000000000002\n6 > 00008101000000000002\n", "fail line=6 rule=SystemInUse"),
    (FIRST + "0 up\n0 > ffff0000000100000001\n3 < 00008101000000000002\n", "fail line=4 rule=NotSelected"),
    (FIRST + "0 up\n0 > ffff0000000100000001\n3 ! 00008101000000000002\n", passes(3, 1, 0, discarded=1)),
    (FIRST, passes(0, 0, 0)),
    ("", "fail line=1 unreadable"),
    ("x\n", "fail line=1 unreadable"),
    (LOG + "5 ! ffff0000000500000002\n", "fail line=5 rule=NoCause"),
    (FIRST + "18446744073709551615 up\n18446744073709551615 > ffff0000000100000001\n", passes(2, 1, 0)),
    (FIRST + "18446744073709551616 up\n", "fail line=2 unreadable"),
    (LOG + PRIMARY + "2000 ! 00008102000000000002\n46500 down\n", "fail line=7 rule=T3Overdue"),
    (LOG + "1000 > 000081010000abcdef09\n46000 t3 ABCDEF09\n", passes(5, 2, 1, expired=1)),
    (LOG + "1000 > 000081010000ABCDEF09\n46000 t3 aBcDeF09\n", passes(5, 2, 1, expired=1)),
    (LOG + "1000 > 000081010000abcdef09\n46000 t3 ABCDEF0A\n", "fail line=6 rule=NotDue"),
    (LOG + SECOND_SELECT + "7 < ffff0000000200000002\n", "fail line=6 rule=SelectStatus"),
    (LOG + SECOND_SELECT + "7 ! ffff0000000200000002\n", passes(5, 2, 1, discarded=1)),
    (LOG + SECOND_SELECT + "7 ! ffff0001000200000002\n", "fail line=6 rule=NoCause"),
    *[(log_of_depth(depth, lists), verdict) for depth, lists, verdict in DEPTHS],
    (SMALL + ENTRIES + "#" + "." * 575 + "\n", passes(3, 1, 1)),
    (SMALL + ENTRIES + "#" + "." * 575 + "\r\n", passes(3, 1, 1)),
    (SMALL + ENTRIES + "#" + "." * 576 + "\n", "fail line=5 unreadable"),
    (SMALL + ENTRIES + "5 > " + "0" * 572 + "\n", "fail line=5 rule=TooLong"),
    (SMALL + ENTRIES + "5 > " + "0" * 574 + "\n", "fail line=5 unreadable"),
    (CONNECTIONS, passes(11, 4, 3)),
    (CONNECTIONS.replace("hsms-log 2", "hsms-log 1"), "fail line=7 rule=NotUp"),
    (CONNECTIONS.replace("hsms-log 2", "hsms-log 3"), "fail line=1 unreadable"),
    (CONNECTIONS.replace("hsms-log 2", "hsms-log 0"), "fail line=1 unreadable"),
    (CONNECTIONS.replace("hsms-log 2", "hsms-log 02"), "fail line=1 unreadable"),
    (CONNECTIONS.replace("hsms-log 2", "hsms-log 2.0"), "fail line=1 unreadable"),
    (CONNECTIONS.replace("hsms-log 2", "hsms-log 258"), "fail line=1 unreadable"),
    (CONNECTIONS.replace("hsms-log 2", "hsms-log"), "fail line=1 unreadable"),
    (with_line(CONNECTIONS, 6), "fail line=6 rule=NotUp"),
    (with_line(CONNECTIONS, 6, "20 down", "", "# the second"), passes(11, 4, 3)),
    (with_line(CONNECTIONS, 6, "20 cut length"), "fail line=7 rule=NotUp"),
    (with_line(CONNECTIONS, 6, "45011 down"), "fail line=6 rule=T3Overdue"),
    (with_line(CONNECTIONS, 7, "19 up"), "fail line=7 rule=Backwards"),
    (with_line(CONNECTIONS, 7, "90000 down"), "fail line=7 rule=NotUp"),
    (with_line(CONNECTIONS, 7, "90000 up", "90000 up"), "fail line=8 rule=NotUp"),
    (with_line(CONNECTIONS, 7, "90000 t3 00000002"), "fail line=7 rule=NotUp"),
    (with_line(CONNECTIONS, 8, "90000 < 00000102000000000002"), "fail line=8 rule=NotSelected"),
    (with_line(CONNECTIONS, 8, "90000 t3 00000002"), "fail line=8 rule=NotDue"),
    (with_line(CONNECTIONS, 8, "100000 cut t7"), "fail line=9 rule=Backwards"),
    (with_line(CONNECTIONS, 10, "90001 < 00000102000000000002"), "fail line=10 rule=NoTransaction"),
    (front(CONNECTIONS, 6), passes(5, 2, 1, waiting=1)),
    (front(CONNECTIONS, 7), passes(6, 2, 1)),
    (front(CONNECTIONS, 7) + "100001 down\n", "fail line=8 rule=LinkOverdue"),
    (front(CONNECTIONS, 7) + "100000 cut t7\n100000 down\n100000 up\n", passes(9, 2, 1)),
]


def shows() -> List[Row]:
    rows = [row_of("show", message(digits), line + "\n") for digits, line in LINES]
    for text, depth, item in ITEMS:
        line = f"data 0000 00000007 S1F13 W {item} .\n" if item else f"data 0000 00000007 S1F13 W ! {text}\n"
        rows.append(row_of(f"show --depth {depth}", message("0000810d000000000007" + text), line))
    faulty = [
        ("show", octets("00000009"), refused("TooShort length=9")),
        ("show --max 256", octets("00000101 00008101000000000002"), refused("TooLong length=257")),
        ("show --max 256", octets("ffffffff ffff0000000100000001"), refused("TooLong length=4294967295")),
        ("show --max 256", octets("ffffffff"), refused("CutOff")),
        ("show", message(LINES[0][0]) + octets("0000"), refused("CutOff", LINES[0][1] + "\n")),
        ("show", message(LINES[1][0])[:15], refused("CutOff")),
    ]
    rows += [Row(tuple(words.split()), given, answer) for words, given, answer in faulty]
    return [*rows, row_of("show", b"", ""), *shows_of_lines()]


def shows_of_lines() -> List[Row]:
    digits, line = LINES[0]
    whole = message(digits).hex()
    spaced = " ".join(digits[at:at + 2].upper() for at in range(0, len(digits), 2))
    select = line + "\n"
    rows = [
        ("show --hex", f"{whole}\n\n{whole}", Answer(0, (2 * select).encode(), b"")),
        ("show --hex --bare", f"\t{spaced} \r\n", Answer(0, select.encode(), b"")),
        ("show --hex", " \n\r\n", Answer(0, b"", b"")),
        ("show --hex", f"{whole}\n{whole}0\n", refused("NoHex line=2", select)),
        ("show --hex", f"{whole[:-1]} {whole[-1]}\n", refused("NoHex line=1")),
        ("show --hex", f"\n{whole}{whole}\n", refused("NoMessage line=2")),
        ("show --hex", digits, refused("NoMessage line=1")),
        ("show --hex --bare", whole, Answer(0, b"other-ptype 0000 00000001 255 ! 00000001\n", b"")),
        ("show --hex --max 256", " " * (4 * 256 + 65), refused("NoMessage line=1")),
        ("show --hex --max 256", " " * (4 * 256 + 64), Answer(0, b"", b"")),
        ("show --bare", f"{digits}\n", refused("command line")),
    ]
    return [Row(tuple(words.split()), given.encode(), answer) for words, given, answer in rows]


def encodes() -> List[Row]:
    rows = []
    for options, text, frames in FRAMES:
        lines = "".join(message(digits).hex() + "\n" for digits in frames)
        rows.append(row_of(f"encode --hex {options}", text.encode(), lines))
    for options, text, fault in FAULTS_OF_NOTATION:
        rows.append(Row(("encode", "--hex", *options.split()), text.encode(), refused(fault)))
    return rows


def audits() -> List[Row]:
    rows = []
    for log, verdict in LOGS:
        status = 0 if verdict.startswith("pass") else 1
        rows.append(Row(("audit",), log.encode(), Answer(status, f"{verdict}\n".encode(), b"")))
    return rows


def rows() -> List[Row]:
    """All of them, each with its answer."""
    return [*shows(), *encodes(), *audits()]
