"""The log of a session: its text, its entries, the 19 rules, the verdict.

The meaning of a message is that of SEMI E37 and E37.1. The log's text and the order of the rules are project-specific.
What the rules need (open, selected, ended, overdue) is computed from the whole list of entries, each by its
definition. Nothing is kept from one entry to the next.
"""
import re
from dataclasses import dataclass
from typing import Callable, List, Optional, Tuple

from tests.support.reference.items import fault_of_text
from tests.support.reference.messages import Frame
from tests.support.reference.notation import number_below

SENT, TAKEN, DISCARDED = ">", "<", "!"
OTHER_DIRECTION = {SENT: TAKEN, TAKEN: SENT}
LONGEST_FIRST_LINE = 256

# The versions of a log: of one connection, and of one or more.
VERSIONS = {b"1": 1, b"2": 2}
HEXADECIMAL = re.compile(rb"[0-9A-Fa-f]*")

# The numbers of the first line, in order, with the least and the greatest.
LIMITS = [
    ("device", 0, 32_767),
    ("t3", 1, 3_600_000),
    ("t6", 1, 3_600_000),
    ("t7", 1, 3_600_000),
    ("t8", 1, 3_600_000),
    ("max", 256, 33_554_432),
    ("depth", 1, 100),
]


class Unreadable(Exception):
    """A line that spells nothing."""


@dataclass(frozen=True)
class Settings:
    """The first line: what the end that logs is, its device, its timers in milliseconds, its limits, and the version
    of the log."""

    role: str
    link: str
    device: int
    t3: int
    t6: int
    t7: int
    t8: int
    max: int
    depth: int
    version: int = 1


@dataclass(frozen=True)
class Entry:
    """A line that carries something.

    The event is `up`, `down`, `t3`, `cut`, or the mark of a frame. `t3` has system bytes, `cut` has a cause.
    """

    time: int
    event: str
    frame: Optional[Frame] = None
    system: int = 0
    cause: str = ""

    @property
    def flows(self) -> bool:
        """Whether it is a frame that was sent or taken."""
        return self.event in (SENT, TAKEN)


# The text of the log (this project's own).


def lines_of(log: bytes) -> List[bytes]:
    """The lines without their ends. One CR at the end of a line is taken away; after a last LF there is no line."""
    lines = log.split(b"\n")
    if lines[-1] == b"":
        lines.pop()
    return [line[:-1] if line.endswith(b"\r") else line for line in lines]


def number_of(word: bytes, least: int, greatest: int) -> int:
    number = number_below(word, greatest + 1)
    if number is None or number < least:
        raise Unreadable
    return number


def octets_of(word: bytes) -> bytes:
    if not HEXADECIMAL.fullmatch(word) or len(word) % 2 != 0:
        raise Unreadable
    return bytes.fromhex(word.decode())


def settings_of(line: bytes) -> Settings:
    words = line.split(b" ")
    if len(line) > LONGEST_FIRST_LINE or len(words) != 4 + len(LIMITS) or words[0] != b"hsms-log":
        raise Unreadable
    version, role, link = words[1:4]
    if version not in VERSIONS:
        raise Unreadable
    if role not in (b"host", b"equipment") or link not in (b"active", b"passive"):
        raise Unreadable
    numbers = [number_of(word, least, greatest) for word, (_, least, greatest) in zip(words[4:], LIMITS)]
    return Settings(role.decode(), link.decode(), *numbers, VERSIONS[version])


def entry_of(line: bytes, settings: Settings) -> Optional[Entry]:
    """The entry of a later line, or None where the line carries nothing."""
    if len(line) > 2 * settings.max + 64:
        raise Unreadable
    if line == b"" or line.startswith(b"#"):
        return None
    first, *words = line.split(b" ")
    time = number_of(first, 0, (1 << 64) - 1)
    if words in ([b"up"], [b"down"]):
        return Entry(time, words[0].decode())
    if len(words) != 2:
        raise Unreadable
    event, argument = words
    if event in (b">", b"<", b"!") and len(argument) >= 20:
        return Entry(time, event.decode(), frame=Frame(octets_of(argument)))
    if event == b"t3" and len(argument) == 8:
        return Entry(time, "t3", system=int.from_bytes(octets_of(argument), "big"))
    if event == b"cut" and argument in (b"t6", b"t7", b"t8", b"length"):
        return Entry(time, "cut", cause=argument.decode())
    raise Unreadable


# Transactions (SEMI E37, section 7; SEMI E5, section 9), by two entries of the log.


def opens(entry: Entry) -> bool:
    """Whether an entry opens a transaction: a primary with W, Select.req or Linktest.req, sent or taken."""
    if not entry.flows:
        return False
    frame = entry.frame
    return frame.kind in ("select.req", "linktest.req") or frame.kind == "primary" and frame.wait


def answers(request: Frame, response: Frame) -> bool:
    """Whether a frame is the answer to one that opens a transaction, in the other direction.

    A reply has the stream, and the next function or 0, which aborts. Past function 255 there is no next one.
    """
    if request.system != response.system:
        return False
    if request.kind == "primary":
        functions = (request.function + 1, 0)
        return response.is_data and response.stream == request.stream and response.function in functions
    return (request.kind, response.kind) in (("select.req", "select.rsp"), ("linktest.req", "linktest.rsp"))


def closes(opener: Entry, later: Entry) -> bool:
    """Whether a later entry closes the transaction of one that opens: by its answer, a Reject, or its expiry."""
    if later.event == OTHER_DIRECTION[opener.event]:
        is_reject = later.frame.kind == "reject" and later.frame.system == opener.frame.system
        return is_reject or answers(opener.frame, later.frame)
    is_sent_data = opener.event == SENT and opener.frame.is_data
    return is_sent_data and later.event == "t3" and later.system == opener.frame.system


def is_open(entries: List[Entry], opener: int, position: int) -> bool:
    """Whether the transaction of the entry at a position is open before a later position. An `up` leaves none open."""
    if not opens(entries[opener]):
        return False
    between = entries[opener + 1:position]
    return not any(later.event == "up" or closes(entries[opener], later) for later in between)


def connection_of(entries: List[Entry]) -> List[Entry]:
    """The entries of the last connection: the last `up` and those after it, or all where there is none."""
    return next((entries[at:] for at in reversed(range(len(entries))) if entries[at].event == "up"), entries)


class Before:
    """What is so after a list of entries, for the entry that follows it."""

    def __init__(self, settings: Settings, entries: List[Entry]):
        self.settings = settings
        self.entries = entries
        self.connection = connection_of(entries)
        self.open = [entry for at, entry in enumerate(entries) if is_open(entries, at, len(entries))]

    @property
    def up(self) -> Optional[Entry]:
        """The last `up`."""
        return next((entry for entry in reversed(self.entries) if entry.event == "up"), None)

    @property
    def is_down(self) -> bool:
        """Whether the connection went down, and no `up` followed."""
        return any(entry.event == "down" for entry in self.connection)

    @property
    def follows_down(self) -> bool:
        """Whether the last entry is a `down`."""
        return bool(self.entries) and self.entries[-1].event == "down"

    @property
    def is_selected(self) -> bool:
        """Whether a Select.rsp with status 0 was sent or taken on this connection."""
        return any(e.flows and e.frame.kind == "select.rsp" and e.frame.byte3 == 0 for e in self.connection)

    @property
    def is_over(self) -> bool:
        """Whether a Separate was sent or taken on this connection, or a cut logged."""
        return any(e.event == "cut" or e.flows and e.frame.kind == "separate" for e in self.connection)

    @property
    def is_timed(self) -> bool:
        """Whether something can be overdue: not once the session has ended, nor directly after `down`."""
        return not self.is_over and not self.follows_down

    @property
    def sent_data(self) -> List[Entry]:
        return [entry for entry in self.open if entry.event == SENT and entry.frame.is_data]

    @property
    def sent_control(self) -> List[Entry]:
        return [entry for entry in self.open if entry.event == SENT and entry.frame.is_control]

    def waited_past_t3(self, time: int) -> bool:
        return any(time - opener.time > self.settings.t3 for opener in self.sent_data)

    def waited_past_t6(self, time: int) -> bool:
        return any(time - opener.time > self.settings.t6 for opener in self.sent_control)

    def waited_past_t7(self, time: int) -> bool:
        return self.up is not None and not self.is_selected and time - self.up.time > self.settings.t7


# The rules, in the order in which they are tried. Those of entries get what is so before the entry, and the entry. Each
# is asked only where no earlier one is broken.


def breaks_backwards(before: Before, entry: Entry) -> bool:
    return bool(before.entries) and entry.time < before.entries[-1].time


def breaks_not_up(before: Before, entry: Entry) -> bool:
    """An `up` is the first entry, or in version 2 is directly after `down`; all others are on a connection."""
    if entry.event == "up":
        return bool(before.entries) and not (before.settings.version == 2 and before.follows_down)
    return before.up is None or before.is_down


def breaks_ended(before: Before, entry: Entry) -> bool:
    return before.is_over and (entry.flows or entry.event in ("t3", "cut"))


def breaks_t3_overdue(before: Before, entry: Entry) -> bool:
    return before.is_timed and entry.event != "t3" and before.waited_past_t3(entry.time)


def breaks_link_overdue(before: Before, entry: Entry) -> bool:
    if not before.is_timed or entry.event == "t3" or entry.cause in ("t6", "t7"):
        return False
    return before.waited_past_t6(entry.time) or before.waited_past_t7(entry.time)


def breaks_not_due(before: Before, entry: Entry) -> bool:
    settings = before.settings
    if entry.event == "t3":
        openers = [opener for opener in before.sent_data if opener.frame.system == entry.system]
        return not any(entry.time - opener.time >= settings.t3 for opener in openers)
    if entry.cause == "t6":
        return not any(entry.time - opener.time >= settings.t6 for opener in before.sent_control)
    if entry.cause == "t7":
        return before.is_selected or before.up is not None and entry.time - before.up.time < settings.t7
    return False


# The rules of a frame get what is so before it, the direction in which it goes, and the frame.


def breaks_too_long(before: Before, direction: str, frame: Frame) -> bool:
    return len(frame.octets) > before.settings.max


def breaks_ptype(before: Before, direction: str, frame: Frame) -> bool:
    return frame.kind == "other-ptype"


def breaks_stype(before: Before, direction: str, frame: Frame) -> bool:
    return frame.kind == "other-stype"


def breaks_control_text(before: Before, direction: str, frame: Frame) -> bool:
    return frame.is_control and frame.text != b""


def breaks_session(before: Before, direction: str, frame: Frame) -> bool:
    """Data has the device, control messages have ffff (SEMI E37.1); Reject may have any session ID."""
    if frame.kind == "reject":
        return False
    return frame.session != (before.settings.device if frame.is_data else 0xFFFF)


def breaks_direction(before: Before, direction: str, frame: Frame) -> bool:
    """The active end selects (SEMI E37.1), the equipment alone sends primaries of stream 9 (SEMI E5)."""
    from_active = (direction == SENT) == (before.settings.link == "active")
    from_equipment = (direction == SENT) == (before.settings.role == "equipment")
    if frame.kind == "select.req":
        return not from_active
    if frame.kind == "select.rsp":
        return from_active
    return frame.kind == "primary" and frame.stream == 9 and not from_equipment


def breaks_not_selected(before: Before, direction: str, frame: Frame) -> bool:
    return frame.is_data and not before.is_selected


def breaks_w_bit(before: Before, direction: str, frame: Frame) -> bool:
    asks_in_vain = frame.kind == "reply" or frame.kind == "primary" and frame.stream == 9
    return asks_in_vain and frame.wait


def breaks_text(before: Before, direction: str, frame: Frame) -> bool:
    return frame.is_data and fault_of_text(frame.text, before.settings.depth) is not None


def breaks_system_in_use(before: Before, direction: str, frame: Frame) -> bool:
    own = [opener for opener in before.open if opener.event == direction]
    return opens(Entry(0, direction, frame)) and any(opener.frame.system == frame.system for opener in own)


def breaks_no_transaction(before: Before, direction: str, frame: Frame) -> bool:
    if frame.kind not in ("reply", "select.rsp", "linktest.rsp"):
        return False
    of_peer = [opener for opener in before.open if opener.event == OTHER_DIRECTION[direction]]
    return not any(answers(opener.frame, frame) for opener in of_peer)


def breaks_select_status(before: Before, direction: str, frame: Frame) -> bool:
    return frame.kind == "select.rsp" and frame.byte3 == 0 and before.is_selected


def breaks_no_cause(before: Before, entry: Entry) -> bool:
    """A frame may be discarded only once the session is over, or where it would break a rule as a taken one."""
    if entry.event != DISCARDED or before.is_over:
        return False
    return rule_of_frame(before, TAKEN, entry.frame) is None


RULES_OF_ENTRIES: List[Tuple[str, Callable[[Before, Entry], bool]]] = [
    ("Backwards", breaks_backwards),
    ("NotUp", breaks_not_up),
    ("Ended", breaks_ended),
    ("T3Overdue", breaks_t3_overdue),
    ("LinkOverdue", breaks_link_overdue),
    ("NotDue", breaks_not_due),
]

RULES_OF_FRAMES: List[Tuple[str, Callable[[Before, str, Frame], bool]]] = [
    ("TooLong", breaks_too_long),
    ("PType", breaks_ptype),
    ("SType", breaks_stype),
    ("ControlText", breaks_control_text),
    ("Session", breaks_session),
    ("Direction", breaks_direction),
    ("NotSelected", breaks_not_selected),
    ("WBit", breaks_w_bit),
    ("Text", breaks_text),
    ("SystemInUse", breaks_system_in_use),
    ("NoTransaction", breaks_no_transaction),
    ("SelectStatus", breaks_select_status),
]

RULES = [name for name, _ in RULES_OF_ENTRIES] + [name for name, _ in RULES_OF_FRAMES] + ["NoCause"]


def rule_of_frame(before: Before, direction: str, frame: Frame) -> Optional[str]:
    """The first rule of those of frames that a frame breaks which goes in a direction, or None."""
    return next((name for name, breaks in RULES_OF_FRAMES if breaks(before, direction, frame)), None)


def broken_rule(before: Before, entry: Entry) -> Optional[str]:
    """The first rule that an entry breaks as the next one, or None."""
    rule = next((name for name, breaks in RULES_OF_ENTRIES if breaks(before, entry)), None)
    if rule is None and entry.flows:
        rule = rule_of_frame(before, entry.event, entry.frame)
    if rule is None and breaks_no_cause(before, entry):
        rule = "NoCause"
    return rule


def broken_rules(before: Before, entry: Entry) -> List[str]:
    """All rules that an entry breaks as the next one, each by itself, in their order."""
    rules = [name for name, breaks in RULES_OF_ENTRIES if breaks(before, entry)]
    if entry.flows:
        rules += [name for name, breaks in RULES_OF_FRAMES if breaks(before, entry.event, entry.frame)]
    return rules + ["NoCause"] * breaks_no_cause(before, entry)


# The verdict (this project's own form).


def summary(settings: Settings, entries: List[Entry]) -> str:
    def count(event: str) -> int:
        return sum(entry.event == event for entry in entries)

    return (
        f"pass entries={len(entries)} sent={count(SENT)} taken={count(TAKEN)} discarded={count(DISCARDED)}"
        f" expired={count('t3')} waiting={len(Before(settings, entries).sent_data)}"
    )


@dataclass(frozen=True)
class Audited:
    """The verdict on a log, and what was read of it.

    That is the settings, where the first line spells some; the number of the last line; the entries before a line that
    fails, or all; and the entry of a line that breaks a rule.
    """

    verdict: str
    settings: Optional[Settings]
    line: int
    entries: List[Entry]
    failing: Optional[Entry] = None


def audit(log: bytes) -> Audited:
    """Finds the first line that is unreadable or breaks a rule after those before it, or passes the log."""
    lines = lines_of(log)
    entries: List[Entry] = []
    settings = None
    line = 1
    try:
        settings = settings_of(lines[0] if lines else b"")
        for line, text in enumerate(lines[1:], start=2):
            entry = entry_of(text, settings)
            if entry is None:
                continue
            rule = broken_rule(Before(settings, entries), entry)
            if rule is not None:
                return Audited(f"fail line={line} rule={rule}", settings, line, entries, entry)
            entries.append(entry)
    except Unreadable:
        return Audited(f"fail line={line} unreadable", settings, line, entries)
    return Audited(summary(settings, entries), settings, line, entries)
