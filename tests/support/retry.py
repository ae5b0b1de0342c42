"""Repeats tests that depend on a clock or on other processes.

A machine that stands still for a moment makes such a test fail. So a failed test is repeated, up to three runs, and
each failure is printed. A test that is wrong by itself fails each time. With `HELD=1` in the environment each test
runs once.
"""
import os
import subprocess

from tests.support.reference.linktest import Amiss

HELD_AT_MOST = int(os.environ.get("HELD", "3"))
FAULTS = AssertionError, Amiss, OSError, subprocess.TimeoutExpired, ValueError

# The maximum length of a printed error, in characters.
LONGEST_TOLD = 2000


def is_held(name, test, *words, after=lambda: None):
    """Whether a test passes, one of these times; what is to be done after each is done."""
    for time in range(1, HELD_AT_MOST + 1):
        try:
            test(*words)
            return True
        except FAULTS as error:
            print(f"{name}, time {time} of {HELD_AT_MOST}: {error!r}"[:LONGEST_TOLD], flush=True)
        finally:
            after()
    return False
