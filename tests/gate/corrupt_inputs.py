#!/usr/bin/env python3
"""Compares the command with the reference on corrupt inputs.

Use: tests/gate/corrupt_inputs.py [--count N] [--seed WORD] [--workers N]. By default there are 6000 inputs, a third
each for `show`, `encode` and `audit`, the seed is 1, and two run at once. The inputs depend on the seed alone:
examples and random inputs that are truncated, have flipped bits, or claim wrong lengths and counts. It runs what `rt
ci` has built.

An input with another answer, or on which the command crashes, is kept in a file that the message names. The last line
gives the number of these inputs. The status is 1 if there is one.
"""
import argparse
import os
import subprocess
import sys
import tempfile
from collections import Counter
from concurrent.futures import ProcessPoolExecutor
from functools import partial

sys.dont_write_bytecode = True
sys.path.insert(0, os.path.abspath(f"{__file__}/../../.."))

from tests.support.command import LONGEST_RUN, Answer, answer_of
from tests.support.reference import corruption

# How many inputs a process takes at once.
SHARE = 50


def answer_in_time(case) -> Answer:
    try:
        return answer_of(case.words, case.given)
    except subprocess.TimeoutExpired:
        return Answer(-1, b"", f"no answer in {LONGEST_RUN} s".encode())


def kept(seed: str, number: int, given: bytes) -> str:
    """Keeps an input, and says where."""
    path = os.path.join(tempfile.gettempdir(), f"hsms-damaged-{seed}-{number}")
    with open(path, "wb") as file:
        file.write(given)
    return path


def judged(seed: str, number: int):
    """What an input reaches, and what is wrong with the command's answer to it."""
    case = corruption.case(seed, number)
    answer = answer_in_time(case)
    wrong = None
    if answer != case.wanted:
        path = kept(seed, number, case.given)
        wrong = f"hsms {' '.join(case.words)} < {path}\nreference: {case.wanted}\ncommand: {answer}"
    return [f"{case.words[0]} {what}" for what in case.reached], wrong


def main() -> int:
    words = argparse.ArgumentParser(description=__doc__, formatter_class=argparse.RawDescriptionHelpFormatter)
    words.add_argument("--count", type=int, default=6000)
    words.add_argument("--seed", default="1")
    words.add_argument("--workers", type=int, default=2)
    told = words.parse_args()
    reached, failing = Counter(), 0
    with ProcessPoolExecutor(told.workers) as pool:
        for whats, wrong in pool.map(partial(judged, told.seed), range(told.count), chunksize=SHARE):
            reached.update(whats)
            if wrong:
                failing += 1
                print(wrong, flush=True)
    print("reached: " + ", ".join(f"{what} {count}" for what, count in sorted(reached.items())))
    print(f"damaged inputs: {told.count} with seed {told.seed}, {failing} differ")
    return 1 if failing or not told.count else 0


if __name__ == "__main__":
    sys.exit(main())
