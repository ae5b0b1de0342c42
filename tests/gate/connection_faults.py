#!/usr/bin/env python3
"""Serves connections whose peer or log fails at each byte in turn, and audits the logs.

    tests/gate/connection_faults.py [--minutes N] [--seed N] [--keep FOLDER] [PROGRAM]

The peer resets, closes or half-closes the connection after each byte of a session. The log's disk is full, or its pipe
is closed, after each byte of the log. SIGTERM arrives at some time. With --minutes it continues with random sessions
for that long: random and corrupt messages that are split into pieces and broken off. It prints the seed, and keeps
what a failing round sent and logged. It runs what `rt ci` has built, or the given program. The last line is `N passed,
M failed`.
"""
import argparse
import concurrent.futures
import contextlib
import os
import random
import resource
import signal
import socket
import subprocess
import sys
import tempfile
import threading
import time

sys.dont_write_bytecode = True
sys.path.insert(0, os.path.abspath(f"{__file__}/../../.."))

from tests.support.command import PROGRAM
from tests.support.retry import is_held
from tests.support.serve_peers import (
    SELECT, SELECTED, Listening, Peer, Serving, control, data, equipment, events, free_port, passes, same,
)

OPTIONS = argparse.ArgumentParser(description=__doc__.split("\n")[0])
OPTIONS.add_argument("--minutes", type=float, default=0)
OPTIONS.add_argument("--seed", type=int, default=20261123)
OPTIONS.add_argument("--keep", default="/tmp")
OPTIONS.add_argument("program", nargs="?", default=PROGRAM)
ASKED = OPTIONS.parse_args()
Serving.program = ASKED.program

S1F1 = data(1, 1, 3, wait=True)
S1F2 = data(1, 2, 2, bytes.fromhex("010241014d410131"))
SESSION = SELECT + control(5, 2) + S1F1 + control(9, 4)
ANSWERS = [SELECTED, S1F2]
SERVED = (0, "")
BROKEN = (3, "hsms: Link\n")
UNLOGGED = (3, "hsms: Log\n")

# How many sessions are drawn at a time.
DRAWN = 200


def among(told, wanted):
    if told not in wanted:
        raise AssertionError(f"wanted one of {wanted!r}, told {told!r}")


def whole_lines(log):
    return log[: log.rfind("\n") + 1]


def lawful(log):
    """What is there of the log, cut back to whole lines, passes; of less than its first line nothing is asked."""
    whole = whole_lines(log)
    if whole:
        passes(whole)


def broken_off(peer, way):
    """The peer is gone in that way, if the other end is not gone already."""
    if way == "reset":
        peer.reset()
    elif way == "close":
        peer.close()
    else:
        with contextlib.suppress(OSError):
            peer.stream.shutdown(socket.SHUT_WR)


def said(peer, *messages):
    """Whether the peer could say all that: the other end may be gone."""
    try:
        peer.send(*messages)
        return True
    except (BrokenPipeError, ConnectionResetError):
        return False


def heard(peer):
    try:
        return peer.rest()
    except (ConnectionResetError, OSError):
        return b""


# ---- one trouble at each place

def equipment_is_left(way, count):
    serving, peer = equipment()
    said(peer, SESSION[:count])
    broken_off(peer, way)
    status, log, told = serving.ended()
    among((status, told), [SERVED, BROKEN])
    same(events(log)[-1], "down")
    passes(log)
    if way == "half-close":
        taken = [event for event in events(log) if event.startswith("< ")]
        same(len(taken), count // 14)
        peer.close()


def host_is_left(way, count):
    peers = Listening()
    serving = Serving("host", "active", peers.port, script=b"S1F1 W .")
    peer = peers.accepted()
    left = count
    for answer in ANSWERS:
        peer.message()
        said(peer, answer[:left])
        if left < len(answer):
            break
        left -= len(answer)
    broken_off(peer, way)
    status, log, told = serving.ended()
    among((status, told), [SERVED, BROKEN])
    same(events(log)[-1], "down")
    passes(log)
    peer.close()


def device_is_full(count, whole):
    """The log's device takes that many bytes. It is a file that may grow no longer."""

    def limited():
        signal.signal(signal.SIGXFSZ, signal.SIG_IGN)
        resource.setrlimit(resource.RLIMIT_FSIZE, (count, count))

    with tempfile.TemporaryFile() as file:
        port = free_port()
        words = ["serve", "--role", "equipment", "--link", "passive", "--address", "127.0.0.1", "--port", str(port)]
        run = subprocess.Popen(
            [Serving.program, *words], stdin=subprocess.DEVNULL, stdout=file, stderr=subprocess.PIPE, preexec_fn=limited
        )
        peer = Peer.connected(port)
        said(peer, SESSION)
        heard(peer)
        _, told = run.communicate(timeout=30)
        file.seek(0)
        log = file.read().decode()
    same(len(log) <= count, True)
    if (run.returncode, told.decode()) != UNLOGGED:
        same((run.returncode, told.decode(), len(log) >= whole), (0, "", True))
    lawful(log)
    peer.close()


def pipe_is_closed(count):
    """Somebody reads that many bytes of the log, and goes away."""
    serving, peer = equipment()
    log = b""
    said(peer, SESSION[:14])
    while len(log) < count:
        octets = os.read(serving.run.stdout.fileno(), count - len(log))
        if not octets:
            break
        log += octets
        if len(log) >= 60:
            said(peer, SESSION[14:])
    serving.run.stdout.close()
    serving.run.stdout = None
    said(peer, SESSION[14:])
    heard(peer)
    status, _, told = serving.ended()
    among((status, told), [SERVED, UNLOGGED, BROKEN])
    lawful(log.decode())
    peer.close()


def terminated_after(seconds):
    with tempfile.TemporaryFile() as file:
        serving, peer = equipment(stdout=file)
        said(peer, SELECT)
        talking = threading.Thread(target=lambda: [said(peer, control(5, system)) for system in range(2, 400)])
        talking.start()
        time.sleep(seconds)
        status, _, told = serving.killed(signal.SIGTERM)
        same((status, told), (-signal.SIGTERM, ""))
        talking.join()
        peer.close()
        file.seek(0)
        lawful(file.read().decode())


# ---- random sessions

def drawn_message(random):
    system = random.choice([random.randrange(8), random.randrange(1 << 32)])
    kind = random.randrange(10)
    if kind < 4:
        text = random.choice([b"", b"\x01\x00", b"\x41\x02ab", random.randbytes(random.randrange(12))])
        return data(random.randrange(1, 12), random.randrange(0, 20), system, text, wait=random.random() < 0.5)
    if kind < 9:
        return control(random.choice([1, 2, 3, 4, 5, 5, 6, 7, 8]), system, random.choice([0, 0, random.randrange(256)]))
    return random.randbytes(random.randrange(1, 24))


def drawn_session(random):
    messages = [drawn_message(random) for _ in range(random.randrange(12))]
    octets = bytearray((SELECT if random.random() < 0.9 else b"") + b"".join(messages))
    for _ in range(random.choice([0, 0, 0, 1, 3])):
        if octets:
            octets[random.randrange(len(octets))] = random.randrange(256)
    return bytes(octets)


def random_round(seed):
    """A session that is drawn, in pieces, broken off by a peer or by SIGTERM."""
    drawn = random.Random(seed)
    octets = drawn_session(drawn)
    way = drawn.choice(["reset", "close", "half-close", "half-close", "signal"])
    with tempfile.TemporaryFile() as file:
        serving, peer = equipment(stdout=file)
        try:
            place = 0
            while place < len(octets):
                piece = drawn.choice([1, 2, 9, 14, 1000])
                if not said(peer, octets[place : place + piece]):
                    break
                place += piece
                if drawn.random() < 0.1:
                    time.sleep(drawn.random() / 100)
            if way == "signal":
                serving.run.send_signal(signal.SIGTERM)
            else:
                broken_off(peer, way)
            status, _, told = serving.ended()
            among((status, told), [SERVED, BROKEN] + ([(-signal.SIGTERM, "")] if way == "signal" else []))
            file.seek(0)
            lawful(file.read().decode())
        except Exception:
            file.seek(0)
            with open(f"{ASKED.keep}/hsms-trouble-{seed}", "wb") as kept:
                kept.write(f"seed {seed}, {way}, sent {octets.hex()}\n".encode() + file.read())
            raise
        finally:
            peer.close()


# ---- all of them

def whole_log():
    """How many bytes the log of the session has at least."""
    serving, peer = equipment()
    said(peer, SESSION)
    heard(peer)
    status, log, told = serving.ended()
    same((status, told), SERVED)
    passes(log)
    return len(log) - 2 * len(events(log))


def rounds():
    whole = whole_log()
    for way in ("reset", "close", "half-close"):
        yield from ((equipment_is_left, way, count) for count in range(len(SESSION) + 1))
        yield from ((host_is_left, way, count) for count in range(sum(map(len, ANSWERS))))
    yield from ((device_is_full, count, whole) for count in range(whole + 40))
    yield from ((pipe_is_closed, count) for count in range(whole))
    chance = random.Random(ASKED.seed)
    yield from ((terminated_after, chance.random() / 40) for _ in range(60))
    yield from ((random_round, ASKED.seed + number) for number in range(DRAWN))


def tried(round):
    test, *words = round
    return is_held(f"{test.__name__} {words}", test, *words)


def main():
    print(f"seed {ASKED.seed}")
    with concurrent.futures.ThreadPoolExecutor(8) as pool:
        answers = list(pool.map(tried, rounds()))
        end = time.monotonic() + ASKED.minutes * 60
        seed = ASKED.seed + DRAWN
        while time.monotonic() < end:
            answers += pool.map(tried, ((random_round, seed + number) for number in range(DRAWN)))
            seed += DRAWN
    print(f"{answers.count(True)} passed, {answers.count(False)} failed")
    return 1 if False in answers else 0


if __name__ == "__main__":
    sys.exit(main())
