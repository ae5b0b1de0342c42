#!/usr/bin/env python3
"""Compares the command with the reference on random inputs, and audits random conversations.

Use: tests/gate/reference_check.py [CASES] [SEED]. CASES is the number of audits of random logs (default 4000); the
numbers of other inputs and of conversations are in proportion. The logs and notations of the edge cases, which no
random input reaches, come as well. SEED is 1 by default; the inputs depend on these two alone. It runs what `rt ci`
has built.

In a conversation two endpoints that are written from docs/SERVE.md receive long random lists. Both logs pass the audit,
with the counts of the reference.

The last two lines give the number of conversations' logs that do not pass, and the number of answers that differ. The
smallest input with a difference is printed in hexadecimal, with both answers. The status is 1 if an answer differs, or
if the inputs did not reach each rule and each error, or the conversations not everything that an endpoint does.
"""
import os
import sys
from concurrent.futures import ThreadPoolExecutor
from typing import List, Tuple

sys.dont_write_bytecode = True
sys.path.insert(0, os.path.abspath(f"{__file__}/../../.."))

from tests.support.command import LONGEST_SHOWN, Answer, answer_of
from tests.support.reference import conversations, edge_cases, ends, messages, random_logs, random_messages, session
from tests.support.reference.cases import CAPITALS, DEEP, SEVERAL, TOO_DEEP, Case, audit_case, encode_case, show_case
from tests.support.reference.random_messages import Chance

WORKERS = 2

VERDICTS = ["pass", "unreadable", *session.RULES]

# What the inputs have to reach, by command: each verdict of an audit also where several connections had come up, and
# each rule of frames by one that was discarded, and what the logs at corners are made for.
TO_REACH = {
    "audit": [
        *[what + several for what in VERDICTS for several in ("", f", {SEVERAL}")],
        *[f"! {rule}" for rule, _ in session.RULES_OF_FRAMES],
        *[DEEP, TOO_DEEP, CAPITALS],
        *edge_cases.TO_REACH,
    ],
    "show": [
        *["no fault", "TooShort", "TooLong", "CutOff", "NoHex", "NoMessage"],
        *["primary", "reply", *messages.CONTROL_KINDS.values(), "other-stype", "other-ptype"],
        *[f"text {fault}" for fault in ("NoLength", "Format", "Deep", "Truncated", "Ragged", "Trailing")],
    ],
    "encode": ["no fault", "Input", "Syntax", "Number", "Count", "Deep", "TooLarge", "TooLong"],
    "talk": conversations.TO_REACH,
}


def talk_cases(seed: str) -> List[Case]:
    """The logs of both ends of a talk, and what each end did."""
    cases = []
    for end, reached in conversations.talk(seed):
        passes = session.summary(end.settings, end.log.entries)
        cases.append(Case(["audit"], ends.log_of(end), Answer(0, passes.encode() + b"\n", b""), reached))
    return cases


# A command or `talk`, a case of it, and what the command answers.
Compared = Tuple[str, Case, Answer]


class Plan:
    """The cases to be made: of each command those at edges, then others by chance, each with a seed of its own."""

    def __init__(self, count: int, seed: str):
        self.logs = random_logs.logs_at_edges() + edge_cases.logs()
        self.notations = random_messages.notations_at_edges()
        encodes = count // 2 + len(self.notations)
        self.counts = {"audit": count + len(self.logs), "show": count // 4, "encode": encodes}
        self.talks = count // 16
        self.seed = seed

    def cases(self) -> List[Tuple[str, int]]:
        """The command and the number of each case."""
        return [(command, number) for command, count in self.counts.items() for number in range(count)]

    def case(self, command: str, number: int) -> Case:
        chance = Chance(f"{self.seed} {command} {number}")
        if command == "audit":
            return audit_case(self.logs[number] if number < len(self.logs) else random_logs.random_log(chance))
        if command == "show":
            made = random_messages.random_lines if number % 3 == 2 else random_messages.random_stream
            return show_case(*made(chance))
        is_at_edge = number < len(self.notations)
        return encode_case(*(self.notations[number] if is_at_edge else random_messages.random_notation(chance)))

    def compared(self, command_and_number: Tuple[str, int]) -> Compared:
        case = self.case(*command_and_number)
        return command_and_number[0], case, answer_of(case.words, case.given)

    def talked(self, number: int) -> List[Compared]:
        """The two logs of a talk."""
        return [("talk", case, answer_of(case.words, case.given)) for case in talk_cases(f"{self.seed} talk {number}")]


def differing(compared: List[Compared]) -> int:
    """How many answers differ. The one of the smallest input is shown."""
    pairs = [(case, answer) for _, case, answer in compared if answer != case.wanted]
    if pairs:
        case, answer = min(pairs, key=lambda pair: len(pair[0].given))
        print(f"hsms {' '.join(case.words)}, input of {len(case.given)} octets: {case.given[:LONGEST_SHOWN].hex()}")
        print(f"reference: {case.wanted}")
        print(f"command: {answer}")
    return len(pairs)


def main() -> int:
    plan = Plan(int(sys.argv[1]) if len(sys.argv) > 1 else 4000, sys.argv[2] if len(sys.argv) > 2 else "1")
    with ThreadPoolExecutor(WORKERS) as pool:
        logs = [log for pair in pool.map(plan.talked, range(plan.talks)) for log in pair]
        answers = list(pool.map(plan.compared, plan.cases()))
    reached = {(command, what) for command, case, _ in [*logs, *answers] for what in case.reached}
    to_reach = [(command, what) for command, all_of in TO_REACH.items() for what in all_of]
    missed = [each for each in to_reach if each not in reached]
    failing, wrong = differing(logs), differing(answers)
    for command, what in missed:
        print(f"not reached: {command}, {what}")
    counts = ", ".join(f"{count} {command}s" for command, count in plan.counts.items())
    print(f"reference endpoints: {plan.talks} talks, {len(logs)} logs, {failing} don't pass")
    print(f"reference: {counts}, {wrong} differ")
    return 1 if failing or wrong or missed else 0


if __name__ == "__main__":
    sys.exit(main())
