"""Logs for `hsms audit` in which one thing decides.

An entry breaks two rules, a rule applies to an event, a number is in use, or something closes a transaction or leaves
it open.
"""
from typing import Iterator, List, Tuple, Union

from tests.support.reference.random_logs import DISCARDED, SENT, TAKEN
from tests.support.reference.random_messages import Draft
from tests.support.reference.session import RULES_OF_FRAMES

T3, T6, T7, T8, MAX = 1000, 500, 800, 700, 256
NUMBERS = f"0 {T3} {T6} {T7} {T8} {MAX} 1"

# What an entry is: its time and its words, or its time, a mark and a frame.
Line = Union[Tuple[int, str], Tuple[int, str, Draft]]

LONG = b"\x21\xf5" + bytes(245)  # an item, with which a frame is past MAX
NO_ITEM = b"\x40"

S1F1 = Draft(0, 0x81, 1, system=2)
S1F2 = Draft(0, 1, 2, system=2)
S1F0 = Draft(0, 1, 0, system=2)
S9F1 = Draft(0, 9, 1, system=2)
SELECT_REQ, SELECT_RSP = Draft(stype=1, system=2), Draft(stype=2, system=2)
REFUSAL = Draft(byte3=1, stype=2, system=2)
LINKTEST_REQ, LINKTEST_RSP = Draft(stype=5, system=2), Draft(stype=6, system=2)
REJECT = Draft(0x1234, 0, 9, stype=7, system=2)
SEPARATE = Draft(stype=9, system=9)
OTHER_PTYPE = Draft(ptype=1, system=9)

OTHER = {SENT: TAKEN, TAKEN: SENT}


def changed(draft: Draft, **fields) -> Draft:
    return Draft(**{**draft.__dict__, **fields})


def log(lines: List[Line], link: str = "active", version: int = 1) -> bytes:
    words = [f"hsms-log {version} host {link} {NUMBERS}"]
    words += [f"{line[0]} {line[1]}" + (f" {line[2].octets().hex()}" if len(line) == 3 else "") for line in lines]
    return "".join(word + "\n" for word in words).encode()


def connected(link: str = "active") -> List[Line]:
    """The connection is up, and the active end has asked to select."""
    return [(0, "up"), (0, asking(link), changed(SELECT_REQ, system=1))]


def selected(link: str = "active") -> List[Line]:
    return [*connected(link), (0, OTHER[asking(link)], changed(SELECT_RSP, system=1))]


def asking(link: str) -> str:
    """The direction in which the active end selects."""
    return SENT if link == "active" else TAKEN


# Frames that break two rules, the first of which is reported. The last one of each list breaks them.

LONG_FRAMES: List[List[Line]] = [
    [(0, TAKEN, changed(S1F1, ptype=1))],
    [(0, TAKEN, Draft(stype=3))],
    [(0, TAKEN, LINKTEST_REQ)],
    [(0, TAKEN, changed(S1F1, session=1))],
    [(0, SENT, S9F1)],
    [(0, TAKEN, changed(S1F2, byte2=0x81))],
    [(0, TAKEN, S1F1), (0, TAKEN, S1F1)],
    [(0, TAKEN, S1F2)],
    [(0, TAKEN, SELECT_RSP)],
]

TWO_RULES: List[List[Line]] = [
    *[[*before, (time, mark, changed(frame, text=LONG))] for *before, (time, mark, frame) in LONG_FRAMES],
    [(0, TAKEN, changed(S1F1, text=NO_ITEM * 247))],
    # ControlText before others.
    [(0, TAKEN, changed(LINKTEST_REQ, session=0, text=b"\0"))],
    [(0, TAKEN, changed(SELECT_REQ, text=b"\0"))],
    [(0, TAKEN, LINKTEST_REQ), (0, TAKEN, changed(LINKTEST_REQ, text=b"\0"))],
    [(0, TAKEN, changed(LINKTEST_RSP, text=b"\0"))],
    [(0, SENT, SELECT_REQ), (0, TAKEN, changed(SELECT_RSP, text=b"\0"))],
    # Session before others.
    [(0, TAKEN, changed(SELECT_REQ, session=0))],
    [(0, TAKEN, changed(S1F2, session=1, byte2=0x81))],
    [(0, TAKEN, changed(S1F1, session=1, text=NO_ITEM))],
    [(0, TAKEN, S1F1), (0, TAKEN, changed(S1F1, session=1))],
    [(0, TAKEN, changed(S1F2, session=1))],
    [(0, SENT, SELECT_REQ), (0, TAKEN, changed(SELECT_RSP, session=0))],
    # Direction before others.
    [(0, SENT, changed(S9F1, byte2=0x89))],
    [(0, SENT, changed(S9F1, text=NO_ITEM))],
    [(0, TAKEN, LINKTEST_REQ), (0, TAKEN, SELECT_REQ)],
    [(0, SENT, REFUSAL)],
    [(0, SENT, SELECT_RSP)],
    # WBit, Text and NoTransaction before others.
    [(0, TAKEN, changed(S1F2, byte2=0x81, text=NO_ITEM))],
    [(0, TAKEN, S1F1), (0, TAKEN, changed(S9F1, byte2=0x89))],
    [(0, TAKEN, changed(S1F2, byte2=0x81))],
    [(0, TAKEN, S1F1), (0, TAKEN, changed(S1F1, text=NO_ITEM))],
    [(0, TAKEN, changed(S1F2, text=NO_ITEM))],
    [(0, TAKEN, SELECT_RSP)],
]

# The same while the session is not selected.
TWO_RULES_UNSELECTED: List[List[Line]] = [
    [(0, TAKEN, changed(S1F1, text=LONG))],
    [(0, TAKEN, changed(S1F1, session=1))],
    [(0, SENT, S9F1)],
    [(0, TAKEN, changed(S1F2, byte2=0x81))],
    [(0, TAKEN, changed(S1F1, text=NO_ITEM))],
    [(0, TAKEN, LINKTEST_REQ), (0, TAKEN, S1F1)],
    [(0, TAKEN, S1F2)],
]


# Events of each kind where a rule of entries binds, two rules do, or none does.

FRAMES_OF_EACH_MARK: List[Tuple[str, Draft]] = [
    (SENT, changed(LINKTEST_REQ, system=7)),
    (TAKEN, changed(LINKTEST_REQ, system=7)),
    (TAKEN, OTHER_PTYPE),
    (DISCARDED, OTHER_PTYPE),
    (DISCARDED, changed(LINKTEST_REQ, system=7)),
]
CUTS = ["cut t6", "cut t7", "cut t8", "cut length"]
EVENTS = [("up",), ("down",), ("t3 00000009",), *[(cut,) for cut in CUTS], *FRAMES_OF_EACH_MARK]

# Sessions, each with the time at which any event may follow.
SITUATIONS: List[Tuple[List[Line], int]] = [
    ([(5, "up")], 4),
    ([*selected(), (5, TAKEN, LINKTEST_REQ)], 4),
    ([*selected(), (5, DISCARDED, OTHER_PTYPE)], 4),
    ([*selected(), (5, "down")], 4),
    ([*selected(), (5, SENT, SEPARATE)], 4),
    ([*selected(), (0, SENT, S1F1), (0, SENT, changed(S1F1, system=3)), (1002, "t3 00000002")], 1001),
    ([*selected(), (0, SENT, S1F1), (400, SENT, changed(LINKTEST_REQ, system=3)), (1002, "t3 00000002")], 1001),
    ([], 0),
    ([*selected(), (5, "down")], 5),
    ([*selected(), (5, SENT, SEPARATE), (5, "down")], 5),
    ([*selected(), (5, SENT, SEPARATE)], 99_999),
    ([*selected(), (5, TAKEN, SEPARATE)], 99_999),
    *[([*selected(), (5, cut)], 99_999) for cut in ("cut t8", "cut length")],
    ([*selected(), (0, SENT, LINKTEST_REQ), (500, "cut t6")], 99_999),
    ([(0, "up"), (800, "cut t7")], 99_999),
    ([*selected(), (0, SENT, S1F1)], T3),
    ([*selected(), (0, SENT, S1F1)], T3 + 1),
    ([*selected(), (0, TAKEN, S1F1)], T3 + 1),
    ([*selected(), (0, SENT, LINKTEST_REQ)], T6),
    ([*selected(), (0, SENT, LINKTEST_REQ)], T6 + 1),
    ([*selected(), (0, TAKEN, LINKTEST_REQ)], T6 + 1),
    ([*selected(), (0, SENT, S1F1)], T6 + 1),
    ([*selected(), (0, SENT, LINKTEST_REQ)], T3 + 1),
    (selected(), T7 + 1),
    ([(0, "up")], T7),
    ([(0, "up")], T7 + 1),
    (connected(), T6 + 1),
    (connected(), T7 + 1),
    ([*selected(), (0, SENT, S1F1), (0, SENT, changed(LINKTEST_REQ, system=3))], T3 + 1),
    ([*selected(), (0, SENT, S1F1), (10, SENT, changed(S1F1, system=3))], T3 + 1),
    ([*selected(), (0, SENT, LINKTEST_REQ), (10, SENT, changed(LINKTEST_REQ, system=3))], T6),
    ([*selected(), (0, SENT, LINKTEST_REQ), (10, SENT, changed(LINKTEST_REQ, system=3))], T6 + 1),
    ([*selected(), (5, "down"), (99_999, "up")], 99_999 + T7),
    ([*selected(), (5, "down"), (99_999, "up")], 99_999 + T7 + 1),
]

# `t3` of what may not expire yet, or never.
EXPIRIES: List[List[Line]] = [
    [(0, SENT, S1F1), (T3 - 1, "t3 00000002")],
    [(0, SENT, S1F1), (T3, "t3 00000002")],
    [(0, SENT, S1F1), (10, SENT, changed(S1F1, system=3)), (T3, "t3 00000003")],
    [(0, SENT, LINKTEST_REQ), (T3, "t3 00000002")],
    [(0, TAKEN, S1F1), (T3, "t3 00000002")],
]

# A frame that is discarded opens nothing and selects nothing.
THROWN_AWAY: List[List[Line]] = [
    [*selected(), (0, DISCARDED, changed(S1F1, text=NO_ITEM)), (0, TAKEN, S1F1), (0, SENT, S1F2)],
    [*selected(), (0, DISCARDED, changed(S1F1, text=NO_ITEM)), (0, SENT, S1F2)],
    [*connected(), (0, DISCARDED, changed(SELECT_RSP, system=1, text=b"\0")), (0, TAKEN, S1F1)],
    [*connected(), (0, DISCARDED, changed(SELECT_RSP, system=1)), (0, TAKEN, changed(SELECT_RSP, system=1))],
]


# Numbers in use, by what was asked and what asks.

REQUESTS = [S1F1, LINKTEST_REQ, SELECT_REQ]


def may_go(link: str, mark: str, request: Draft) -> bool:
    return request is not SELECT_REQ or mark == asking(link)


def numbers_in_use() -> Iterator[bytes]:
    for link in ("active", "passive"):
        for first, mark in ((SENT, SENT), (TAKEN, TAKEN), (SENT, TAKEN), (TAKEN, SENT)):
            for one in REQUESTS:
                for other in REQUESTS:
                    if may_go(link, first, one) and may_go(link, mark, other):
                        yield log([*selected(link), (0, first, one), (0, mark, other)], link)


# What closes a transaction: a frame, and then the answer.

ANSWERS = {S1F1: [S1F2, S1F0], LINKTEST_REQ: [LINKTEST_RSP], SELECT_REQ: [REFUSAL]}


def closings() -> Iterator[bytes]:
    for link in ("active", "passive"):
        for mark in (SENT, TAKEN):
            for request in REQUESTS:
                if may_go(link, mark, request):
                    yield from closings_of(link, mark, request)


def closings_of(link: str, mark: str, request: Draft) -> Iterator[bytes]:
    back = OTHER[mark]
    answers = ANSWERS[request]
    between: List[List[Line]] = [
        *[[(T6, back, answer)] for answer in answers],
        [(T6, back, REJECT)],
        [(T6, mark, REJECT)],
        [(T6, back, changed(REJECT, system=3))],
        [(T6, DISCARDED, changed(answers[0], text=b"\0" if request is not S1F1 else NO_ITEM))],
        [(T6, DISCARDED, changed(REJECT, text=b"\0"))],
    ]
    if request is S1F1:
        between.append([(T3, "t3 00000002")])
        between.append([(0, back, S1F1), (0, mark, S1F2)])
        between.append([(0, back, S1F1), (T3, "t3 00000002")])
        between.append([(0, back, LINKTEST_REQ), (0, mark, LINKTEST_RSP)])
    for lines in between:
        yield log([*selected(link), (0, mark, request), *lines, (lines[-1][0], back, answers[0])], link)


def carrying_nothing() -> Iterator[bytes]:
    """Control messages whose header bytes that carry nothing are none: W, stream 9, a function."""
    for link, request in (("active", LINKTEST_REQ), ("passive", LINKTEST_REQ)):
        for byte2, byte3 in ((0x89, 0), (0x09, 1), (0xFF, 0xFF)):
            odd = changed(request, byte2=byte2, byte3=byte3)
            answer = changed(LINKTEST_RSP, byte2=byte2, byte3=byte3)
            for mark in (SENT, TAKEN):
                yield log([*selected(link), (0, mark, odd), (0, OTHER[mark], answer)], link)
                yield log([*selected(link), (0, mark, changed(SEPARATE, byte2=byte2, byte3=byte3)), (0, "down")], link)
            asked = (0, asking(link), changed(SELECT_REQ, byte2=byte2, byte3=byte3))
            yield log([(0, "up"), asked, (0, OTHER[asking(link)], changed(SELECT_RSP, byte2=byte2))], link)


def later(text: bytes) -> bytes:
    """The same log, where the clock began before."""
    first, *lines = text.split(b"\n")[:-1]
    pairs = [line.split(b" ", 1) for line in lines]
    return b"".join(line + b"\n" for line in [first, *(b"%d %s" % (int(time) + 10 * T3, rest) for time, rest in pairs)])


def logs() -> List[bytes]:
    found = logs_from_the_first_moment()
    return [*found, *map(later, found)]


def logs_from_the_first_moment() -> List[bytes]:
    found = [log([*selected(), *lines]) for lines in TWO_RULES]
    found += [log([*connected(), *lines]) for lines in TWO_RULES_UNSELECTED]
    found += [log([*before, (time, *event)], version=2) for before, time in SITUATIONS for event in EVENTS]
    found += [log([*selected(), *lines]) for lines in EXPIRIES] + [log(lines) for lines in THROWN_AWAY]
    return [*found, *numbers_in_use(), *closings(), *carrying_nothing()]


# What the logs have to show.

A_RULE_OF_FRAMES = "a rule of frames"
OF_FRAMES = [name for name, _ in RULES_OF_FRAMES]

# Rules of frames that no frame breaks at once: they bind other kinds.
APART = [
    ("ControlText", {"NotSelected", "WBit", "Text"}),
    ("NotSelected", {"SelectStatus"}),
    ("WBit", {"SelectStatus"}),
    ("Text", {"SelectStatus"}),
    ("SystemInUse", {"NoTransaction", "SelectStatus"}),
    ("PType", set(OF_FRAMES)),
    ("SType", set(OF_FRAMES)),
]
PAIRS_OF_ENTRIES = {
    "Backwards": ["NotUp", "Ended", "T3Overdue", "LinkOverdue", "NotDue", A_RULE_OF_FRAMES, "NoCause"],
    "NotUp": ["Ended", "T3Overdue", "LinkOverdue", "NotDue", A_RULE_OF_FRAMES, "NoCause"],
    "Ended": ["NotDue", A_RULE_OF_FRAMES],
    "T3Overdue": ["LinkOverdue", "NotDue", A_RULE_OF_FRAMES, "NoCause"],
    "LinkOverdue": [A_RULE_OF_FRAMES, "NoCause"],
}
BOUND = {
    "Backwards": ["up", "down", "t3", *CUTS, SENT, TAKEN, DISCARDED],
    "NotUp": ["up", "down", "t3", *CUTS, SENT, TAKEN, DISCARDED],
    "Ended": ["t3", *CUTS, SENT, TAKEN],
    "T3Overdue": ["down", *CUTS, SENT, TAKEN, DISCARDED],
    "LinkOverdue": ["down", "cut t8", "cut length", SENT, TAKEN, DISCARDED],
    "NotDue": ["t3", "cut t6", "cut t7"],
}


def pairs_of_frames() -> Iterator[str]:
    apart = dict(APART)
    for at, first in enumerate(OF_FRAMES):
        yield from (f"{first} before {other}" for other in OF_FRAMES[at + 1:] if other not in apart.get(first, ()))


TO_REACH = [
    *pairs_of_frames(),
    *[f"{first} before {other}" for first, others in PAIRS_OF_ENTRIES.items() for other in others],
    *[f"{rule} of {event}" for rule, events in BOUND.items() for event in events],
    *[f"{event} past {timer}" for event, timer in (("t3", "T3"), ("t3", "T6"), ("cut t6", "T6"), ("cut t7", "T7"))],
    *["cut t6 past T7", "cut t7 past T6", "! once over", "down once over"],
    *[f"{mark} {one} in use by {other}" for mark in (SENT, TAKEN) for one in ("primary", "linktest.req", "select.req")
      for other in ("primary", "linktest.req", "select.req")],
    *[f"{mark} {kind} {what}" for mark in (SENT, TAKEN) for kind in ("primary", "linktest.req", "select.req")
      for what in (f"closed by {OTHER[mark]} reject", f"left open by {mark} reject", "left open by ! reject")],
    *[f"{mark} primary closed by {OTHER[mark]} reply" for mark in (SENT, TAKEN)],
    *[f"{mark} primary left open by {what}" for mark in (SENT, TAKEN) for what in ("! reply", f"{mark} reply")],
    *["> primary closed by t3", "< primary left open by t3"],
    *[f"{mark} {kind}.req {what} {kind}.rsp" for mark in (SENT, TAKEN) for kind in ("linktest", "select")
      for what in (f"closed by {OTHER[mark]}", "left open by !")],
]
