"""When `hsms serve --linktest` has to test its link, by docs/SERVE.md: an endpoint receives again what a log says.

The log's messages arrived complete, and no script sent any.
"""
from typing import List

from tests.support.reference.ends import Desk, End, first_line, line_of
from tests.support.reference.session import Settings

# How much later than it is due the link may be tested, in milliseconds.
LATE = 100


class Amiss(Exception):
    """A log differs from what has to be in it."""


def told_again(end: End, time: int, event: str, pause: int):
    """Tells an end what the next line of a log came of."""
    words = event.split(" ")
    due = end.test_due(pause)
    is_test = event.startswith("> ffff00000005")
    if is_test and (due is None or time < due):
        raise Amiss(f"{time} {event}: due at {due}")
    if due is not None and time > due + LATE:
        raise Amiss(f"{time} {event}: the link was to be tested at {due}")
    end.tick(time)
    if is_test:
        end.linktest()
    elif words[0] in "<!":
        end.hear((len(words[1]) // 2).to_bytes(4, "big") + bytes.fromhex(words[1]))
    elif words[0] == "down" and end.log.is_up:
        end.lost()


def log_again(lines: List[str], given: Settings, desk: Desk, pause: int) -> List[str]:
    """The lines that an endpoint writes on the inputs of these lines."""
    end = End(given, desk, 1)
    end.start(int(lines[1].split(" ")[0]))
    while len(end.log.entries) < len(lines) - 1:
        before = len(end.log.entries)
        time, event = lines[before + 1].split(" ", 1)
        told_again(end, int(time), event, pause)
        if len(end.log.entries) == before:
            raise Amiss(f"{time} {event}: nothing comes of it")
    return [first_line(given), *map(line_of, end.log.entries)]
