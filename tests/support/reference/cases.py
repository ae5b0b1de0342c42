"""Runs of the command, each with the answer of the reference."""
import re
from dataclasses import dataclass, fields
from typing import List, Optional, Set

from tests.support.command import Answer
from tests.support.reference import ends, items, messages, session
from tests.support.reference.edge_cases import A_RULE_OF_FRAMES
from tests.support.reference.items import Fault
from tests.support.reference.messages import Frame, Options
from tests.support.reference.session import OTHER_DIRECTION, Audited, Before, Entry, broken_rules, opens, rule_of_frame

RULES_OF_FRAMES = [name for name, _ in session.RULES_OF_FRAMES]

# What is said of a verdict on a log in which more than one connection had come up by then.
SEVERAL = "several connections"

# Depths of nested lists close to the greatest that settings have, and what is said of logs with such.
DEPTHS = range(91, 101)
DEEP = "lists 91 to 100 deep"
TOO_DEEP = "Text, lists 92 to 101 deep"

# The longest log of which it is said what each of its entries shows, in entries.
SHORT = 12

# A `t3` with capital digits, and what is said of a log that has one which is valid.
CAPITAL_T3 = re.compile(rb"\d+ t3 (?=.*[A-F])[0-9A-Fa-f]{8}")
CAPITALS = "t3 in capital digits"


@dataclass(frozen=True)
class Case:
    """A run of the command, the answer that the reference gives, and what the input reaches."""

    words: List[str]
    given: bytes
    wanted: Answer
    reached: Set[str]


def audit_case(log: bytes) -> Case:
    audited = session.audit(log)
    verdict = audited.verdict
    passes = verdict.startswith("pass")
    what = verdict.split("rule=")[-1] if "rule=" in verdict else "pass" if passes else "unreadable"
    connections = sum(entry.event == "up" for entry in audited.entries)
    reached = {what, f"{what}, {SEVERAL}"} if connections > 1 else {what}
    reached |= causes_of(audited) | depths_of(audited) | spellings_of(log, audited) | failings_of(audited)
    if len(audited.entries) <= SHORT:
        reached |= timings_of(audited) | closings_of(audited)
    return Case(["audit"], log, Answer(0 if passes else 1, verdict.encode() + b"\n", b""), reached)


def name_of(entry: Entry) -> str:
    """An entry by its event, with the cause of a cut."""
    return f"{entry.event} {entry.cause}".rstrip()


def failings_of(audited: Audited) -> Set[str]:
    """Of an entry that breaks rules, the first one with its event, the first one before each other one, and by what its
    number is in use."""
    entry = audited.failing
    if entry is None:
        return set()
    before = Before(audited.settings, audited.entries)
    first, *others = broken_rules(before, entry)
    if first not in RULES_OF_FRAMES:
        others = [A_RULE_OF_FRAMES if other in RULES_OF_FRAMES else other for other in others]
    failings = {f"{first} before {other}" for other in others} | {f"{first} of {name_of(entry)}"}
    if first == "SystemInUse":
        used = [o.frame for o in before.open if o.event == entry.event and o.frame.system == entry.frame.system]
        failings |= {f"{entry.event} {entry.frame.kind} in use by {frame.kind}" for frame in used}
    return failings


def timings_of(audited: Audited) -> Set[str]:
    """The valid expiries and ends past a timer, and what is valid once the session is over."""
    timings = set()
    for at, entry in enumerate(audited.entries):
        if entry.event in ("t3", "cut", "down", session.DISCARDED):
            before = Before(audited.settings, audited.entries[:at])
            past = [before.waited_past_t3, before.waited_past_t6, before.waited_past_t7]
            timers = zip(("T3", "T6", "T7"), past)
            timings |= {f"{name_of(entry)} past {timer}" for timer, is_past in timers if is_past(entry.time)}
            timings |= {f"{name_of(entry)} once over"} if before.is_over else set()
    return timings


def closings_of(audited: Audited) -> Set[str]:
    """What closed a transaction or left it open, as the last entry shows: it would be the answer, and is valid, or it
    answers no transaction."""
    entries = audited.entries + [audited.failing] * audited.verdict.endswith("rule=NoTransaction")
    *before, last = entries or [None]
    if len(before) < 2 or not last.flows or audited.failing not in (None, last):
        return set()
    is_closed = audited.failing is not None
    asked = [e for e in before[:-1] if opens(e) and e.event == OTHER_DIRECTION[last.event]]
    openers = [opener for opener in asked if session.answers(opener.frame, last.frame)]
    between = before[-1]
    what = f"{between.event} {between.frame.kind}" if between.frame else name_of(between)
    return {f"{o.event} {o.frame.kind} {'closed' if is_closed else 'left open'} by {what}" for o in openers}


def causes_of(audited: Audited) -> Set[str]:
    """The rules for which frames were discarded by the rules, before the session was over."""
    causes = set()
    for at, entry in enumerate(audited.entries):
        if entry.event == session.DISCARDED:
            before = Before(audited.settings, audited.entries[:at])
            causes |= set() if before.is_over else {f"! {rule_of_frame(before, session.TAKEN, entry.frame)}"}
    return causes


def depths_of(audited: Audited) -> Set[str]:
    """Whether data was valid whose lists are nested nearly as deep as any may be, and whether one list more broke
    `Text`, as a frame that was discarded or that fails."""
    if audited.settings is None or audited.settings.depth not in DEPTHS:
        return set()
    flowing = [entry.frame for entry in audited.entries if entry.flows]
    others = [entry.frame for entry in audited.entries if entry.event == session.DISCARDED]
    others += [audited.failing.frame] if audited.verdict.endswith("rule=Text") else []
    depth = audited.settings.depth
    deep = {DEEP} if any(nesting_of(frame) == depth for frame in flowing) else set()
    return deep | ({TOO_DEEP} if any(nesting_of(frame) == depth + 1 for frame in others) else set())


def nesting_of(frame: Frame) -> int:
    """How deep the lists of data are nested, or 0 where it is no data with an item."""
    try:
        is_item = frame.is_data and frame.text
        return ends.nesting(items.decode_text(frame.text, DEPTHS[-1] + 1)) if is_item else 0
    except Fault:
        return 0


def spellings_of(log: bytes, audited: Audited) -> Set[str]:
    """Whether a valid `t3` has its system bytes in capital digits."""
    lines = session.lines_of(log)[1:audited.line - (not audited.verdict.startswith("pass"))]
    return {CAPITALS} if any(CAPITAL_T3.fullmatch(line) for line in lines) else set()


def show_case(stream: bytes, options: Options) -> Case:
    output, fault = messages.show(stream, options)
    frames, _ = messages.frames_given(stream, options)
    texts = {items.fault_of_text(frame.text, options.depth) for frame in frames if frame.is_data}
    reached = {f"text {name}" for name in texts if name} | {frame.kind for frame in frames}
    reached.add(fault.name if fault else "no fault")
    return Case(["show", *words_of(options)], stream, ended(output, fault), reached)


def encode_case(text: bytes, options: Options) -> Case:
    output, fault = messages.encode(text, options)
    return Case(["encode", *words_of(options)], text, ended(output, fault), {fault.name if fault else "no fault"})


def ended(output: bytes, fault: Optional[Fault]) -> Answer:
    return Answer(2, output, f"hsms: {fault.words()}\n".encode()) if fault else Answer(0, output, b"")


def words_of(options: Options) -> List[str]:
    """The options that are not as they are where they are left out."""
    words = []
    for field in fields(options):
        value = getattr(options, field.name)
        if value != field.default:
            words += [f"--{field.name}"] if value is True else [f"--{field.name}", str(value)]
    return words
