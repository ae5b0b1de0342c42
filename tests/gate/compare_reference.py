#!/usr/bin/env python3
"""Checks the reference of the comparison of two logs (tests/support/reference/compare.py) against its definition, and
`hsms compare` against the reference.

- Each pair of logs in tests/compare/ has the answer of the page there.
- Random conversations of two ends, one or more connections each: their whole logs do not disagree. Nor do they if a log
  ends anywhere, in the midst of a line too, or begins with a later connection.
- Where each log has one connection, the logs agree exactly if the k-th message that an end received is the k-th one that
  the other end sent, none is received that was never sent, and the entries are in some order: the graph in which an entry
  follows the one before it in its log, and a received message the sent one, has no cycle. That is compared for whole
  logs, and for logs with a line that is removed, changed, doubled or swapped with the next one.
- `hsms compare` writes of each of these pairs, and of random histories with few system bytes, most of which fail the
  audit, what the reference says of the first connections, with its status. Of
  orders it tells the first contradiction alone, and of failed requests none if the logs contradict each other, or if one
  is of version 2 and neither end received data. It runs what `rt ci` has built, or `--program P`. With `--alone` it runs
  no program.

Use: compare_reference.py [CONVERSATIONS] [--program P | --alone]. The last line is `N passed, M failed`.
"""
import argparse
import os
import re
import shlex
import subprocess
import sys
import tempfile

sys.dont_write_bytecode = True
sys.path.insert(0, os.path.abspath(f"{__file__}/../../.."))

from tests.support.command import PROGRAM, TOP
from tests.support.reference.compare import (
    CONTRADICTIONS, COUNTS, EQUIPMENT, HOST, Comparison, Invalid, Options, Pair, read_both, text_of,
)
from tests.support.reference.random_messages import Chance
from tests.support.reference.two_ends import MISSING, WRONG, TwoEnds

PAIRS = f"{TOP}/tests/compare"
ENDS = (HOST, EQUIPMENT)

# ---- the worked pairs


def options_of(words):
    """Returns the options of a command, whether it asks for JSON, and its files."""
    given, files, skip = {}, [], {"--skip-host": 0, "--skip-equipment": 0}
    words = iter(words)
    for word in words:
        if word in skip:
            skip[word] = int(next(words))
        elif word == "--format":
            given["json"] = next(words) == "json"
        elif word.startswith("--"):
            given[word[2:]] = True
        else:
            files.append(word)
    is_json = given.pop("json", False)
    return Options(skip=tuple(skip.values()), **given), is_json, files


def read(name):
    with open(f"{PAIRS}/{name}", "rb") as file:
        return file.read()


def answer_to(command):
    options, is_json, files = options_of(shlex.split(command)[2:])
    comparison = Comparison(tuple(map(read, files)), options)
    if is_json:
        return comparison.json()
    undecided = "hsms: Undecided\n" if comparison.status == 2 else ""
    return f"{comparison.text()}{undecided}{comparison.status}\n"


def worked_pairs():
    with open(f"{PAIRS}/answers.md", encoding="utf-8") as file:
        page = file.read()
    for block in re.findall(r"```\n(.*?)```", page, re.S):
        for part in re.split(r"(?m)^\$ ", block)[1:]:
            command, _, wanted = part.partition("\n")
            yield command, answer_to(command.partition(";")[0]) == wanted


# ---- the definition


def messages_agree(comparison, host, equipment):
    """Whether what each end received is what the other one sent, as far as that goes. Also returns the sent entry of each
    received one."""
    sent_of = {}
    for sender, receiver, here, there in ((host, equipment, HOST, EQUIPMENT), (equipment, host, EQUIPMENT, HOST)):
        for sent, received in zip(sender.sent, receiver.received):
            if sender.frame(sent).octets != receiver.frame(received).octets:
                return False, {}
            sent_of[there, received] = here, sent
        if len(receiver.received) > len(sender.sent) and not sender.is_open:
            return False, {}
    return True, sent_of


def has_cycle(nodes, before):
    """Whether the entries have no order: some entry is before itself."""
    left = {node: {it for it in before(node)} for node in nodes}
    while True:
        first = [node for node, those in left.items() if not those & left.keys()]
        if not first:
            return bool(left)
        for node in first:
            del left[node]


def agrees_by_definition(comparison):
    """Whether logs of one connection each agree, or None where they have more."""
    connections = [comparison.logs[end].connections for end in ENDS]
    if any(len(it) != 1 for it in connections) or comparison.counts["alone"] or comparison.counts["apart"]:
        return None
    host, equipment = (it[0] for it in connections)
    agree, sent_of = messages_agree(comparison, host, equipment)
    nodes = [(end, at) for end, it in zip(ENDS, (host, equipment)) for at in range(len(it.places))]

    def before(node):
        end, at = node
        return [it for it in ((end, at - 1) if at else None, sent_of.get(node)) if it]

    return agree and not has_cycle(nodes, before)


def is_as_defined(comparison):
    wanted = agrees_by_definition(comparison)
    return wanted is None or comparison.counts["unfound"] or wanted == (comparison.verdict != "disagree")


# ---- the command

OTHER = {HOST: EQUIPMENT, EQUIPMENT: HOST}


def first_stop(pair):
    """Returns where both logs stop: at the first contradiction, or at their ends. The k-th received message is the k-th
    sent one. Also returns whether they contradict each other there."""
    at = {HOST: 0, EQUIPMENT: 0}
    taken = {HOST: 0, EQUIPMENT: 0}

    def goes_on(end):
        own, other = pair.of[end], pair.of[OTHER[end]]
        if at[end] not in own.received:
            return True
        sent = [it for it in other.sent if it < at[OTHER[end]]]
        number = taken[end]
        return number < len(sent) and other.frame(sent[number]).octets == own.frame(at[end]).octets

    while True:
        ready = [end for end in at if at[end] < len(pair.of[end].places) and goes_on(end)]
        if not ready:
            break
        taken[ready[0]] += at[ready[0]] in pair.of[ready[0]].received
        at[ready[0]] += 1
    waiting = [end for end in at if at[end] < len(pair.of[end].places)]
    is_told = [end for end in waiting if at[OTHER[end]] < len(pair.of[OTHER[end]].places) or not pair.of[OTHER[end]].is_open]
    return at, taken, waiting, bool(is_told)


def first_order(pair):
    """Returns the places of both ends whose order is the first contradiction, and those that sent what they receive."""
    at, taken, waiting, _ = first_stop(pair)
    if len(waiting) < 2:
        return None
    found = {}
    for end in waiting:
        sent = pair.of[OTHER[end]].sent
        if taken[end] >= len(sent) or sent[taken[end]] < at[OTHER[end]]:
            return None
        found[end] = sent[taken[end]]
    return at, found


def written(texts):
    """Returns what `hsms compare` writes of two logs, and its status: what the reference says of their first connections."""
    try:
        logs = read_both(texts, Options())
    except Invalid as error:
        return f"hsms: {error}\n", 2
    objects, counts = [], dict.fromkeys(COUNTS, 0)
    is_version_1 = all(it.settings.version == 1 for it in logs.values())
    pair = None
    if all(it.connections for it in logs.values()):
        settings = {end: it.settings for end, it in logs.items()}
        pair = Pair(*(logs[end].connections[0] for end in ENDS), settings, False)
        if not is_version_1 and first_stop(pair)[3]:
            pair = None
    if pair:
        comparison = Comparison.__new__(Comparison)
        comparison.objects, comparison.counts = objects, counts
        host, equipment = pair.host, pair.equipment
        comparison.add(
            "connection", host=host.line(0), equipment=equipment.line(0), host_sent=len(host.sent),
            host_received=len(host.received), equipment_sent=len(equipment.sent), equipment_received=len(equipment.received),
        )
        for receiver in (EQUIPMENT, HOST):
            comparison.tell_direction(receiver, pair.to[receiver])
        order = first_order(pair)
        if order:
            at, sent = order
            comparison.add(
                "order", host=host.line(at[HOST]), host_from=equipment.line(sent[HOST]), equipment=equipment.line(at[EQUIPMENT]),
                equipment_from=host.line(sent[EQUIPMENT]),
            )
        if not first_stop(pair)[3] and (is_version_1 or host.has_received_data or equipment.has_received_data):
            comparison.stats, comparison.unlike = {HOST: {}, EQUIPMENT: {}}, []
            for end in ENDS:
                for request in pair.requests(end):
                    comparison.tell_request(request)
    is_whole = pair and all(len(it.connections) == 1 for it in logs.values()) and not counts["unfound"]
    verdict = "disagree" if any(counts[it] for it in CONTRADICTIONS) else "agree" if is_whole else "undecided"
    lines = [text_of(it) for it in objects] + [f"{end}: {logs[end].verdict}" for end in ENDS]
    lines.append(text_of({"type": "verdict", "verdict": verdict, "connections": int(bool(pair)), **counts}))
    fails = verdict == "disagree" or any(it.verdict.startswith("fail") for it in logs.values())
    status = 1 if fails else 0 if verdict == "agree" else 2
    error = "hsms: Undecided\n" if status == 2 else ""
    return "".join(f"{line}\n" for line in lines) + error, status


class Command:
    """Runs `hsms compare` on texts, by files of a folder."""

    def __init__(self, program, folder):
        self.program, self.files = program, [f"{folder}/{name}" for name in ("one", "other")]

    def is_right(self, texts):
        """Whether the command writes what is wanted. Nothing is run without a program."""
        if not self.program:
            return True
        for name, text in zip(self.files, texts):
            with open(name, "wb") as file:
                file.write(text)
        return self.answer(self.files, b"") == written(texts)

    def answer(self, files, given):
        """Returns what the command writes of these files, with this text as its standard input, and its status."""
        ran = subprocess.run([self.program, "compare", *files], input=given, capture_output=True, check=False)
        return (ran.stdout + ran.stderr).decode(), ran.returncode

    def is_right_of_input(self, texts):
        """Whether one log may be standard input, and both may not."""
        if not self.is_right(texts) or not self.program:
            return not self.program
        one, other = self.files
        answers = [self.answer(("-", other), texts[0]), self.answer((one, "-"), texts[1])]
        return answers == [written(texts)] * 2 and self.answer(("-", "-"), texts[0]) == ("hsms: command line\n", 2)


def commands(command):
    """Compares the command with the reference for the worked pairs, in both orders, and for invalid ones."""
    names = sorted(it for it in os.listdir(PAIRS) if it.endswith("-host.log"))
    pairs = [(read(name), read(name.replace("-host", "-equipment"))) for name in names]
    for name, (host, equipment) in zip(names, pairs):
        yield f"command: {name}", command.is_right((host, equipment)) and command.is_right((equipment, host))
        yield f"command: {name} twice", command.is_right((host, host)) and command.is_right((equipment, equipment))
    host, equipment = pairs[0]
    yield "command: standard input", command.is_right_of_input((host, equipment))
    for what, texts in (
        ("no settings", (b"0 up\n", equipment)), ("no settings at all", (host, b"")), ("empty", (b"", b"")),
        ("other device", (host, equipment.replace(b"passive 0 ", b"passive 7 "))),
        ("same link", (host, equipment.replace(b"passive", b"active"))),
        ("long first line", (host.replace(b"\n", b" " * 300 + b"\n", 1), equipment)),
        ("line 1 alone", (host.splitlines(keepends=True)[0], equipment)), ("no line end", (host.splitlines()[0], equipment)),
        ("CRLF", (host.replace(b"\n", b"\r\n"), equipment)),
    ):
        yield f"command: {what}", command.is_right(texts)


# Headers without their system bytes: primaries with W, replies, a control message, its response, Reject and Separate.
HEADERS = (
    "000081010000", "000081010000", "000082290000", "000001020000", "0000022a0000", "000001000000", "ffff00000001",
    "ffff00000002", "ffff00000005", "ffff00000006", "ffff00000107", "ffff00000009",
)
OTHERS = ("t3 00000001", "t3 00000002", "cut t6", "cut t7")


def history(chance):
    """Returns the logs of both ends of a random history: of each message the one that sends it comes first."""
    lines = {
        HOST: ["hsms-log 1 host active 0 45000 6000 10000 5000 1048576 32\n", "0 up\n"],
        EQUIPMENT: ["hsms-log 1 equipment passive 0 30000 5000 10000 5000 1048576 32\n", "0 up\n"],
    }
    coming, time = {HOST: [], EQUIPMENT: []}, {HOST: 0, EQUIPMENT: 0}
    for _ in range(chance.randrange(1, 60)):
        end = chance.one(*ENDS)
        time[end] = max(0, time[end] + chance.one(0, 0, 1, 40, 4999, 5000, 5001, 30_000, 45_001, -7000))
        if coming[end] and chance.happens(0.5):
            event = f"{chance.one('<', '<', '<', '!')} {coming[end].pop(0)}"
        elif chance.happens(0.05):
            event = chance.one(*OTHERS)
        else:
            message = f"{chance.one(*HEADERS)}{chance.randrange(1, 4):08x}"
            coming[OTHER[end]].append(message)
            event = f"> {message}"
        lines[end].append(f"{time[end]} {event}\n")
    return tuple("".join([*lines[end], *chance.one(["9999999 down\n"], [])]).encode() for end in ENDS)


def histories(count, command):
    """Compares the command with the reference for random histories."""
    for seed in range(count):
        yield f"history {seed}", command.is_right(history(Chance(f"history {seed}")))


def conversations(count, command):
    """Yields what was tried, and whether it is well."""
    for seed in range(count):
        chance = Chance(f"damage {seed}")
        talk = TwoEnds(f"talk {seed}", chance.one(1, 1, 1, 2, 4))
        order = chance.one(ENDS, ENDS[::-1])

        def compared(changed):
            texts = {end: changed.get(end, talk.text(end)) for end in ENDS}
            commanded.append(command.is_right(tuple(texts[end] for end in order)))
            return Comparison(tuple(texts[end] for end in order))

        commanded = []
        whole = compared({})
        yield f"{seed}: whole", whole.verdict != "disagree" and is_as_defined(whole)
        for damage in MISSING:
            for ends in ((HOST,), (EQUIPMENT,), ENDS):
                comparison = compared({end: damage(chance, talk.lines[end]) for end in ends})
                yield f"{seed}: {damage.__name__} {ends}", comparison.verdict != "disagree" and is_as_defined(comparison)
        for damage in WRONG:
            end = chance.one(*ENDS)
            if len(talk.lines[end]) > 1:
                comparison = compared({end: damage(chance, talk.lines[end])})
                yield f"{seed}: {damage.__name__} {end}", is_as_defined(comparison)
        yield f"{seed}: command", all(commanded)


def tried(count, command):
    """Yields all that is tried, and whether it is well."""
    yield from worked_pairs()
    yield from commands(command)
    yield from histories(5 * count if command.program else 0, command)
    yield from conversations(count, command)


def main():
    parser = argparse.ArgumentParser(description=__doc__, formatter_class=argparse.RawDescriptionHelpFormatter)
    parser.add_argument("conversations", nargs="?", type=int, default=100)
    parser.add_argument("--program", default=PROGRAM)
    parser.add_argument("--alone", action="store_true")
    given = parser.parse_args()
    passed = failed = 0
    with tempfile.TemporaryDirectory() as folder:
        command = Command(None if given.alone else given.program, folder)
        for what, is_well in tried(given.conversations, command):
            passed, failed = passed + bool(is_well), failed + (not is_well)
            if not is_well:
                print(f"failed: {what}")
    print(f"{passed} passed, {failed} failed")
    return 1 if failed else 0


if __name__ == "__main__":
    sys.exit(main())
