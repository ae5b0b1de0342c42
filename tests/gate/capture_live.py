#!/usr/bin/env python3
"""Captures sessions between two processes of `hsms serve` by tcpdump and dumpcap, and audits the captures.

The log that `hsms capture` writes of an endpoint has the entries of the log that this endpoint wrote, each within 20
ms of its time there, counted from `up`. The verdicts are those of `hsms audit` on the logs of both endpoints. The
endpoints have both roles, over IPv4 and IPv6, in one connection and in several. Captures are of the loopback interface
and of any interface, also in the formats that editcap, reordercap and mergecap write. Through a pipe from tcpdump both
verdicts appear while tcpdump is running.

If one of these programs is missing or may not capture, the script says so and tries nothing. The last line is `N
passed, M failed`.
"""
import os
import re
import shutil
import signal
import subprocess
import sys
import tempfile
import time
from concurrent.futures import ThreadPoolExecutor
from dataclasses import dataclass

sys.dont_write_bytecode = True
sys.path.insert(0, os.path.abspath(f"{__file__}/../../.."))

from tests.support.command import program_given
from tests.support.serve_peers import HERE, SCRIPT, SOON, Serving, audited, events, free_port, same, times

PROGRAM = Serving.program = program_given()
TOOLS = ["tcpdump", "dumpcap", "editcap", "reordercap", "mergecap"]

# How far the time of an entry may be from that in the log of the end, in ms.
NEAR = 20

# How long a capture has to stay as it is before it is ended, in seconds.
QUIET = 1.5

# How much tcpdump may hold, in KiB, and how often a capture is made that dropped packets, or whose entries came late.
BUFFER = 8192
TRIES = 3

# The message that entries are logged too late, or too early.
LATE = "not near:"

OTHER_ROLE = {"host": "equipment", "equipment": "host"}


@dataclass(frozen=True)
class Way:
    """How two ends are served and captured."""

    active: str
    address: str
    connections: int
    words: tuple

    def __str__(self):
        return f"{self.active} connects to {self.address}, {self.connections} connections, {' '.join(self.words)}"


WAYS = [
    Way("host", HERE, 1, ("tcpdump", "-i", "lo")),
    Way("equipment", HERE, 1, ("tcpdump", "-i", "any")),
    Way("host", "::1", 1, ("tcpdump", "-i", "any", "-y", "LINUX_SLL")),
    Way("equipment", "::1", 3, ("tcpdump", "-i", "lo", "--time-stamp-precision", "nano")),
    Way("host", HERE, 3, ("dumpcap", "-i", "lo")),
    Way("equipment", "::1", 1, ("dumpcap", "-i", "any")),
]


class Capturing:
    """A program that captures what passes a port, into a file."""

    def __init__(self, words, port, file):
        is_tcpdump = words[0] == "tcpdump"
        options = ["-U", "-s", "0", "-B", str(BUFFER)] if is_tcpdump else ["-q", "-f"]
        picked, self.file = f"tcp port {port}", file
        whole = [*words, *options, picked, "-w", file] if not is_tcpdump else [*words, *options, "-w", file, picked]
        self.run = subprocess.Popen(whole, stdin=subprocess.DEVNULL, stdout=subprocess.DEVNULL, stderr=subprocess.PIPE)
        self.begins()

    def begins(self):
        """Waits until packets are captured."""
        for line in self.run.stderr:
            if re.search(rb"listening on|^File: ", line):
                return
        raise PermissionError(f"{self.run.args[0]} may not capture")

    def ended(self):
        """Ends it once nothing more has come for a while, and says whether it missed nothing that it knows of."""
        size, end = -1, time.monotonic() + SOON
        while size != os.path.getsize(self.file) and time.monotonic() < end:
            size = os.path.getsize(self.file)
            time.sleep(QUIET)
        self.run.send_signal(signal.SIGINT)
        told = self.run.communicate(timeout=SOON)[1]
        return not re.search(rb"[1-9]\d* packets dropped by kernel|received/dropped.*: \d+/[1-9]", told)


def served_logs(way, port):
    """The logs of the end that connects and of the other one, once both have ended."""
    again = ["--reconnect", "--connections", str(way.connections)] if way.connections > 1 else []
    others = {"address": way.address, "send": True}
    script = {way.active: {}, OTHER_ROLE[way.active]: {}}
    script["host"] = {"script": SCRIPT}
    listens = Serving(OTHER_ROLE[way.active], "passive", port, *again, **others, **script[OTHER_ROLE[way.active]])
    listens.listens()
    again += ["--t5", "20"] if again else []
    connects = Serving(way.active, "active", port, *again, **others, **script[way.active])
    logs = []
    for serving in (connects, listens):
        status, log, told = serving.ended()
        same((status, told), (0, ""))
        logs.append(log)
    return logs


def captured(file, *words):
    """The output and the status of the command for a capture."""
    with open(file, "rb") as octets:
        ran = subprocess.run([PROGRAM, "capture", *words], stdin=octets, capture_output=True, timeout=SOON)
    same(ran.stderr.decode(), "")
    return ran.stdout.decode(), ran.returncode


def plain(log):
    """A log without its comments."""
    return "".join(f"{line}\n" for line in log.splitlines() if not line.startswith("#"))


def from_up(log):
    """The times of a log's entries, each counted from the last `up`."""
    begun, found = 0, []
    for when, event in zip(times(log), events(log)):
        begun = when if event == "up" else begun
        found.append(when - begun)
    return found


def judged(file, way, port, logs):
    """Compares the output for a capture with the logs of both ends."""
    words = ["--port", str(port), "--active", way.active]
    told, status = captured(file, *words)
    same(status, 0)
    for log, role in zip(logs, (way.active, OTHER_ROLE[way.active])):
        found = plain(captured(file, *words, "--log", role)[0])
        same(events(found), events(log))
        far = [(one, other) for one, other in zip(from_up(found), from_up(log)) if abs(one - other) > NEAR]
        if far:
            raise AssertionError(f"{LATE} {far}")
        verdicts = [line.split(": ", 1)[1] + "\n" for line in told.splitlines() if f" {role} " in line]
        same(len(verdicts), way.connections)
        if way.connections == 1:
            same(verdicts, [audited(log)])
        same([verdict.split()[0] for verdict in verdicts], ["pass"] * way.connections)


def made_otherwise(room, file):
    """The same capture as other programs write it."""
    for name, words in [
        ("nsecpcap", ["editcap", "-F", "nsecpcap", file]),
        ("pcapng", ["editcap", "-F", "pcapng", file]),
        ("reordered", ["reordercap", file]),
        ("merged", ["mergecap", "-w"]),
    ]:
        target = f"{room}/{name}"
        whole = [*words, target, file] if name == "merged" else [*words, target]
        subprocess.run(whole, check=True, stdout=subprocess.DEVNULL, stderr=subprocess.DEVNULL, timeout=SOON)
        yield name, target


def capture_of(way, port, file):
    """Captures what two ends say, and gives their logs."""
    for _ in range(TRIES):
        capturing = Capturing(way.words, port, file)
        try:
            logs = served_logs(way, port)
        finally:
            has_all = capturing.ended()
        if has_all:
            return logs
    raise AssertionError("packets are dropped each time")


def tried(way):
    """What is wrong with each capture of a way, or None.

    On a machine that is busy an end may log late. So it is tried again.
    """
    for _ in range(TRIES):
        with tempfile.TemporaryDirectory(prefix="live-") as room:
            told = [(f"{way}, {name}", wrong) for name, wrong in answers(way, room)]
        if not any(wrong and wrong.startswith(LATE) for _, wrong in told):
            break
    return told


def answers(way, room):
    port, file = free_port(), f"{room}/capture"
    logs = capture_of(way, port, file)
    for name, target in [("as captured", file), *made_otherwise(room, file)]:
        try:
            judged(target, way, port, logs)
            yield name, None
        except (AssertionError, subprocess.TimeoutExpired) as why:
            yield name, str(why)[:2000]


def told_through_a_pipe():
    """Returns what is wrong with the output for an ended connection while tcpdump is running, or None."""
    port = free_port()
    words = ["tcpdump", "-i", "lo", "-U", "-s", "0", "-B", str(BUFFER), "-w", "-", f"tcp port {port}"]
    captures = subprocess.Popen(words, stdin=subprocess.DEVNULL, stdout=subprocess.PIPE, stderr=subprocess.PIPE)
    judging = [PROGRAM, "capture", "--port", str(port)]
    judges = subprocess.Popen(judging, stdin=captures.stdout, stdout=subprocess.PIPE, stderr=subprocess.PIPE)
    captures.stdout.close()
    try:
        while b"listening on" not in captures.stderr.readline():
            if captures.poll() is not None:
                raise PermissionError("tcpdump may not capture")
        logs = served_logs(Way("host", HERE, 1, ()), port)
        with ThreadPoolExecutor(1) as reader:
            lines = reader.submit(lambda: [judges.stdout.readline().decode() for _ in range(2)]).result(SOON)
        same([line.split(": ", 1)[-1] for line in lines], [audited(log) for log in logs])
        same(captures.poll(), None)
        captures.send_signal(signal.SIGINT)
        same([text.decode() for text in judges.communicate(timeout=SOON)], ["", ""])
        same(judges.returncode, 0)
    except (AssertionError, TimeoutError, subprocess.TimeoutExpired) as why:
        return str(why)[:2000] or type(why).__name__
    finally:
        for program in (captures, judges):
            program.kill()
    return None


def untried(why):
    print(f"not tried: {why}\n0 passed, 0 failed")
    return 0


def main():
    missing = [tool for tool in TOOLS if not shutil.which(tool)]
    if missing or os.geteuid():
        return untried(f"no {missing[0]} here" if missing else "only root may capture")
    try:
        with ThreadPoolExecutor(len(WAYS)) as pool:
            told = [answer for answers_of in pool.map(tried, WAYS) for answer in answers_of]
        told.append(("through a pipe", told_through_a_pipe()))
    except PermissionError as why:
        return untried(why)
    finally:
        Serving.stop_all()
    failed = [(name, wrong) for name, wrong in told if wrong]
    for name, wrong in failed:
        print(f"{name}: {wrong}")
    print(f"{len(told) - len(failed)} passed, {len(failed)} failed")
    return 1 if failed else 0


if __name__ == "__main__":
    sys.exit(main())
