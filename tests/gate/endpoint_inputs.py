#!/usr/bin/env python3
"""Compares the endpoints with the reference on corrupt lists of inputs.

Use: tests/gate/endpoint_inputs.py [--count N] [--seed WORD] [--workers N]. By default there are 3000 random lists, the
seed is 1, and there are two workers. The random lists depend on the seed alone. Each is the inputs of an endpoint in a
random conversation, with bytes that are cut off, flipped or wrong, in other pieces, at other times, in another order.
Before them come some hundred lists from tables: each message, timer and prefix of a message, to host and equipment,
active and passive. `hsms_ends_driver` passes them to an endpoint call by call, and to `drive` as a whole. The entries
and the pending bytes of both, and the errors of the calls, are those of the reference. It runs what `rt ci` has built.

A list with another answer, or on which the program crashes, is kept in a file that the message names. The last line
gives the number of these lists. The status is 1 if there is one, or if 3000 lists or more did not reach everything
that an endpoint does.
"""
import argparse
import os
import subprocess
import sys
import tempfile
from collections import Counter
from concurrent.futures import ProcessPoolExecutor
from functools import partial
from typing import List

sys.dont_write_bytecode = True
sys.path.insert(0, os.path.abspath(f"{__file__}/../../.."))

from tests.support.command import DRIVER, LONGEST_RUN
from tests.support.reference import conversations, endpoint_cases, endpoint_inputs, full_endpoints

# How many lists a run of the program gets.
SHARE = 50

# How many lists are enough to reach each thing.
ENOUGH = 3000


def answers(texts: List[str]) -> List[str]:
    """What the program answers to lists: one each, or fewer where it crashes, with its last words."""
    try:
        ran = subprocess.run([DRIVER], input="".join(texts), capture_output=True, text=True, timeout=LONGEST_RUN)
    except subprocess.TimeoutExpired:
        return [f"no answer in {LONGEST_RUN} s"]
    told, made = [], []
    for line in ran.stdout.splitlines(keepends=True):
        told.append(line)
        if line in ("end\n", "other\n"):
            made.append("".join(told))
            told = []
    if told or ran.returncode or len(made) < len(texts):
        made.append("".join(told) + f"status {ran.returncode}, {ran.stderr}")
    return made


def kept(seed: str, number: int, text: str) -> str:
    """Keeps a list, and says where."""
    path = os.path.join(tempfile.gettempdir(), f"hsms-driven-{seed}-{number}")
    with open(path, "w") as file:
        file.write(text)
    return path


def first_difference(wanted: str, answer: str) -> str:
    pairs = zip([*wanted.splitlines(), "nothing"], [*answer.splitlines(), "nothing"])
    return next((f"reference: {one}\nend: {other}" for one, other in pairs if one != other), "another length")


def judged(seed: str, first: int):
    """What the lists of a share reach, and what is wrong with the answers to them."""
    listed = [endpoint_inputs.listed(seed, number) for number in range(first, first + SHARE)]
    wanted = [endpoint_inputs.Answering(each) for each in listed]
    texts = [each.text() for each in listed]
    given = answers(texts)
    wrongs = []
    for place, (want, text) in enumerate(zip(wanted, texts)):
        answer = given[place] if place < len(given) else None
        if answer is not None and answer != want.text():
            path = kept(seed, first + place, text)
            wrongs.append(f"{DRIVER} < {path}\n{first_difference(want.text(), answer)}")
    return Counter(what for want in wanted for what in want.reached), wrongs


def main() -> int:
    words = argparse.ArgumentParser(description=__doc__, formatter_class=argparse.RawDescriptionHelpFormatter)
    words.add_argument("--count", type=int, default=ENOUGH)
    words.add_argument("--seed", default="1")
    words.add_argument("--workers", type=int, default=2)
    told = words.parse_args()
    firsts = range(0, told.count + len(endpoint_cases.lists()), SHARE)
    reached, failing = Counter(), 0
    with ProcessPoolExecutor(told.workers) as pool:
        for whats, wrongs in pool.map(partial(judged, told.seed), firsts):
            reached.update(whats)
            failing += len(wrongs)
            for wrong in wrongs:
                print(wrong, flush=True)
    # a list has no reason for a discarded message, and `hsms_ends_driver` has no desk that replies from a script
    named = [what for what in conversations.TO_REACH if not what.startswith("!")]
    of_talks = [what for what in named if not what.endswith(" of a script")]
    to_reach = of_talks + full_endpoints.TO_REACH + endpoint_cases.TO_REACH
    missed = [what for what in to_reach if not reached[what]]
    missed = missed if told.count >= ENOUGH else []
    for what in missed:
        print(f"not reached: {what}")
    print("reached: " + ", ".join(f"{what} {count}" for what, count in sorted(reached.items())))
    print(f"driven lists: {len(firsts) * SHARE} with seed {told.seed}, {failing} differ")
    return 1 if failing or missed or not told.count else 0


if __name__ == "__main__":
    sys.exit(main())
