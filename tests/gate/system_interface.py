#!/usr/bin/env python3
"""Checks what no contract of the command covers: clock, sockets, signals, arguments, inputs, outputs and `./hsms`.

A program that does one of these things otherwise is proved all the same. Each test is for such a program. If a test
measures a time, a busy machine makes both sides of the comparison longer, or the test takes the minimum of many.

Use: tests/gate/system_interface.py [PROGRAM]. It runs what `rt ci` has built, or the given program. The last line is
`N passed, M failed`.
"""
import math
import os
import random
import re
import select
import shutil
import signal
import socket
import subprocess
import sys
import tempfile
import time

sys.dont_write_bytecode = True
sys.path.insert(0, os.path.abspath(f"{__file__}/../../.."))

from tests.support.command import TOP, Answer, answer_of, call_failer, program_given
from tests.support.retry import is_held
from tests.support.serve_peers import (
    EQUIPMENT_LOG, HERE, HOST_LOG, SELECT, SELECTED, SOON, Listening, Peer, Serving, control, data, equipment,
    events, free_port, passes, same, served, times,
)

PROGRAM = Serving.program = program_given()
NO_COMMAND = Answer(2, b"", b"hsms: command line\n")
NO_WRITE = (3, b"hsms: Write\n")
NO_LINK = (3, "hsms: Link\n")
NO_LOG = (3, "hsms: Log\n")

# How long something is watched that goes on, or that does not, in seconds.
A_WHILE = 0.3

# Timers that do not run out here.
LONG_TIMERS = ["--t7", "600000", "--t8", "600000"]


def within(least, number, greatest):
    if not least <= number <= greatest:
        raise AssertionError(f"{number} isn't from {least} to {greatest}")


def selected(*options, **others):
    serving, peer = equipment(*options, **others)
    peer.send(SELECT)
    peer.wants(SELECTED)
    return serving, peer


def separated(serving, peer, system):
    """The peer ends the session; the log, which passes."""
    peer.send(control(9, system))
    same(peer.rest(), b"")
    status, log, told = serving.ended()
    same((status, told), (0, ""))
    passes(log)
    return log


# ---- a peer that never reads


class Lines:
    """The lines of a log as they come."""

    def __init__(self, serving):
        self.file = serving.run.stdout.fileno()
        self.lines = []
        self.rest = b""

    def next(self, longest=SOON):
        """The next line and when it was there, or None where none comes for so long."""
        end = time.monotonic() + longest
        while not self.lines:
            if not select.select([self.file], [], [], max(0, end - time.monotonic()))[0]:
                return None
            octets = os.read(self.file, 1 << 20)
            if not octets:
                return None
            now = time.monotonic()
            *whole, self.rest = (self.rest + octets).split(b"\n")
            self.lines += [(line.decode(), now) for line in whole]
        return self.lines.pop(0)


class NeverReading:
    """Equipment with long replies, and a peer that asks for them and never reads one."""

    def __init__(self, t8):
        self.serving, self.peer = selected("--t8", str(t8), "--mdln", "m" * 60_000)
        self.peer.stream.setsockopt(socket.SOL_SOCKET, socket.SO_RCVBUF, 4096)
        self.lines = Lines(self.serving)
        self.log = []
        self.system = 1
        self.ask()

    def ask(self):
        self.system += 1
        self.asked = time.monotonic()
        self.peer.send(data(1, 1, self.system, wait=True))

    def next(self, longest=SOON):
        """The next line of the log. Where it is that of a reply, the peer asks once more."""
        line = self.lines.next(longest)
        if line is not None:
            self.log.append(line)
        return line

    def blocked(self, longest):
        """Asks until no reply goes on: when the last one was asked for and logged, and the line after it, if any."""
        asked = logged = self.asked
        while True:
            line = self.next(longest)
            if line is None or line[0].endswith(" down"):
                return asked, logged, line
            if " > 00000102" in line[0]:
                asked, logged = self.asked, line[1]
                self.ask()

    def is_given_up(self):
        """The end has logged everything, its log passes, and it reported that its link failed."""
        status, _, told = self.serving.ended()
        same((status, told), NO_LINK)
        log = "".join(line + "\n" for line, _ in self.log)
        passes(log)
        self.peer.close()


def a_send_is_given_up_after_t8():
    """The reply that blocks was asked for before it was sent, and was logged just before. Where a part of it is moved,
    T8 begins once more."""
    t8 = 1
    never = NeverReading(1000 * t8)
    asked, logged, line = never.blocked(SOON)
    if line is None:
        raise AssertionError("it isn't given up")
    within(t8 - 0.02, line[1] - asked, math.inf)
    within(-math.inf, line[1] - logged, 8 * t8)
    never.is_given_up()


# ---- how it closes


def it_closes_after_its_peer():
    """Once the session has ended it only reads, until the peer closes."""
    serving, peer = selected("--t8", "600000")
    peer.send(control(9, 2), control(5, 3), control(5, 4))
    same(serving.line_soon("down"), True)
    same(peer.stream.recv(1), b"")
    peer.send(control(5, 5))
    time.sleep(A_WHILE)
    same(serving.run.poll(), None)
    peer.close()
    served(serving, [*EQUIPMENT_LOG[:3], "< ffff0000000900000002", "down"])


def it_closes_after_t8():
    """The peer neither closes nor stops sending: T8 does not begin again with what comes."""
    t8 = 0.5
    serving, peer = selected("--t8", str(int(1000 * t8)))
    peer.send(control(9, 2))
    begin = time.monotonic()
    while serving.run.poll() is None and time.monotonic() < begin + SOON:
        try:
            peer.send(b"\0")
        except (BrokenPipeError, ConnectionResetError):
            break
        time.sleep(A_WHILE / 30)
    served(serving, [*EQUIPMENT_LOG[:3], "< ffff0000000900000002", "down"])
    within(t8 - 0.02, time.monotonic() - begin, SOON)
    peer.close()


def a_failed_link_is_closed_at_once(library):
    """There is nothing to wait for, be T8 as long as it may."""
    serving, peer = equipment("--t8", "600000", env={"LD_PRELOAD": library, "REFUSE_SEND": "1"})
    peer.send(SELECT)
    status, log, told = serving.ended()
    same((status, told, events(log)), (*NO_LINK, [*EQUIPMENT_LOG[:3], "down"]))
    peer.close()


def is_refused_soon(peer):
    """Whether a byte of the peer is refused before long, since the other end has closed the connection."""
    end = time.monotonic() + SOON
    while time.monotonic() < end:
        try:
            peer.send(b"\0")
        except (BrokenPipeError, ConnectionResetError):
            return True
        time.sleep(A_WHILE / 30)
    return False


def is_closed_and_waits_on(serving, peer, log):
    """The connection is over and closed, and the end waits for the next one."""
    same(peer.stream.recv(1), b"")
    same((is_refused_soon(peer), serving.run.poll()), (True, None))
    peer.close()
    status, told_log, told = serving.killed(signal.SIGTERM)
    same((status, told, events(told_log)), (-signal.SIGTERM, "", log))
    passes(told_log)


def it_closes_before_it_waits_for_the_next():
    """A passive end listens for its next peer, and an active one waits for T5, which is ten minutes."""
    serving, peer = selected("--reconnect", "--t8", "200")
    peer.send(control(9, 2))
    is_closed_and_waits_on(serving, peer, [*EQUIPMENT_LOG[:3], "< ffff0000000900000002", "down"])
    peers = Listening()
    serving = Serving("host", "active", peers.port, "--reconnect", "--t5", "600000", "--t8", "200", script=b"")
    peer = peers.accepted()
    peer.wants(SELECT)
    peer.send(SELECTED)
    peer.wants(control(9, 2))
    is_closed_and_waits_on(serving, peer, HOST_LOG)


def a_failed_link_is_closed_before_the_next(library):
    """At once, be T5 and T8 as long as they may."""
    peers = Listening()
    how = {"env": {"LD_PRELOAD": library, "REFUSE_SEND": "1"}}
    serving = Serving("host", "active", peers.port, "--reconnect", "--t5", "600000", "--t8", "600000", **how)
    is_closed_and_waits_on(serving, peers.accepted(), ["up", "> ffff0000000100000001", "down"])


# ---- what is closed when it begins


def ended_with_closed(link, closed, *options):
    """What `serve` ends with that begins with these descriptors closed, and whether anybody has come to its peer."""
    listening = Listening()
    port = listening.port if link == "active" else free_port()
    words = ["--role", "host", "--link", link, "--address", HERE, "--port", str(port), *options]
    run = subprocess.Popen(
        [PROGRAM, "serve", *words],
        stdout=subprocess.PIPE,
        stderr=subprocess.PIPE,
        preexec_fn=lambda: [os.close(each) for each in closed],
    )
    nobody = listening.nobody_comes()
    try:
        log, told = run.communicate(timeout=SOON)
    except subprocess.TimeoutExpired:
        run.kill()
        raise
    return run.returncode, log, told, nobody


def nothing_begins_without_an_output():
    """A socket would be given the number of standard output, and what is logged would go to the peer."""
    for link in ("active", "passive"):
        for closed in ((1,), (0, 1)):
            same(ended_with_closed(link, closed), (3, b"", b"hsms: Log\n", True))


def nothing_begins_without_a_script():
    for closed in ((0,), (0, 1)):
        same(ended_with_closed("active", closed, "--send"), (3, b"", b"hsms: Read\n", True))


def a_peer_gets_no_words():
    """A socket is given the number of standard error where that is closed, and of standard input."""
    for closed in ((2,), (0, 2)):
        listening = Listening()
        words = ["--role", "host", "--link", "active", "--address", HERE, "--port", str(listening.port)]
        run = subprocess.Popen(
            [PROGRAM, "serve", *words, "--turns", "1"],
            stdout=subprocess.PIPE,
            preexec_fn=lambda: [os.close(each) for each in closed],
        )
        peer = listening.accepted()
        peer.send(SELECTED)
        same(peer.rest(), SELECT)
        log, _ = run.communicate(timeout=SOON)
        same(run.returncode, 3)
        passes(log.decode())


# ---- signals


def state_of(run):
    """`T` where it is stopped, `Z` where it has ended."""
    try:
        with open(f"/proc/{run.pid}/stat") as file:
            return file.read().rsplit(") ", 1)[1].split()[0]
    except FileNotFoundError:
        return "Z"


def stop_and_continue(run):
    """A signal stops it, and another one lets it go on: a call with a time limit is interrupted by that."""
    run.send_signal(signal.SIGSTOP)
    end = time.monotonic() + SOON
    while state_of(run) not in "TZ" and time.monotonic() < end:
        time.sleep(0.001)
    run.send_signal(signal.SIGCONT)
    if run.poll() is not None:
        raise AssertionError("it has ended")


def a_wait_goes_on_after_a_signal():
    serving, peer = equipment(*LONG_TIMERS)
    same(serving.line_soon("up"), True)
    for octets in (SELECT[:5], SELECT[5:] + control(5, 2) + control(9, 3)[:3], control(9, 3)[3:]):
        for _ in range(3):
            time.sleep(A_WHILE / 10)
            stop_and_continue(serving.run)
        peer.send(octets)
    same(peer.rest(), SELECTED + control(6, 2))
    served(serving, EQUIPMENT_LOG)


def a_blocked_send_ends_at_a_signal():
    """Long before T8, which is a minute. A first signal may end a send that has moved a part."""
    never = NeverReading(60_000)
    end = time.monotonic() + SOON
    line = None
    while line is None and time.monotonic() < end:
        _, _, line = never.blocked(A_WHILE)
        if line is None:
            never.serving.run.send_signal(signal.SIGSTOP)
            time.sleep(A_WHILE)
            never.serving.run.send_signal(signal.SIGCONT)
    if line is None:
        raise AssertionError("it isn't given up")
    never.is_given_up()


# What the peer says, one after the other, and what the end sends of each: a message whole, of a long one its front and
# its rest.
LOOPED_BACK = b"\x22" + (2000).to_bytes(2, "big") + bytes(2000)
ECHO = data(2, 26, 3, LOOPED_BACK)
SAID = [SELECT, data(1, 1, 2, wait=True), data(2, 25, 3, LOOPED_BACK, wait=True), control(5, 4)]
IDENTITY = data(1, 2, 2, bytes.fromhex("010241014d410131"))
SENT = [[SELECTED], [IDENTITY], [ECHO[:1500], ECHO[1500:]], [control(6, 4)]]


def broken_off(library, **refused):
    """What comes of a session of which a call is refused: what the peer got, the answer of the end, and its log."""
    env = {"LD_PRELOAD": library, **{name: str(value) for name, value in refused.items()}}
    serving, peer = equipment("--mdln", "M", "--softrev", "1", env=env)
    got = b""
    try:
        for said, sent in zip(SAID, SENT):
            peer.send(said)
            for piece in sent:
                got += peer.exactly(len(piece))
        peer.send(control(9, 5))
        got += peer.rest()
    except (AssertionError, BrokenPipeError, ConnectionResetError):
        pass
    status, log, told = serving.ended()
    passes(log)
    return got, (status, told), events(log)


def an_interrupted_receive_is_made_again(library):
    """A wait that a signal ended early has heard nothing. Each goes on in the next turn."""
    whole = b"".join(piece for sent in SENT for piece in sent)
    for refused in range(1, 1 + len(SAID) + 1):
        got, told, log = broken_off(library, REFUSE_RECV=refused, INTERRUPTED=1)
        same((got, told, log[-2:]), (whole, (0, ""), ["< ffff0000000900000005", "down"]))


def a_failed_receive_ends_it(library):
    for refused in range(1, 1 + len(SAID) + 1):
        got, told, log = broken_off(library, REFUSE_RECV=refused)
        before = b"".join(piece for sent in SENT[:refused - 1] for piece in sent)
        same((got, told, len(log), log[-1]), (before, NO_LINK, 2 * refused, "down"))


def a_failed_send_ends_it(library):
    """Also one that a signal interrupted: nothing is sent after it."""
    pieces = [(piece, at) for at, sent in enumerate(SENT, start=1) for piece in sent]
    for refused, (_, message) in enumerate(pieces, start=1):
        before = b"".join(piece for piece, _ in pieces[:refused - 1])
        for how in ({}, {"INTERRUPTED": 1}):
            got, told, log = broken_off(library, REFUSE_SEND=refused, **how)
            same((got, told, len(log), log[-1]), (before, NO_LINK, 2 + 2 * message, "down"))


# ---- other clients


def is_listening(port):
    with open("/proc/net/tcp") as lines:
        return any(f":{port:04X} 00000000:0000 0A" in line for line in lines)


def a_second_client_is_refused():
    serving, peer = selected()
    for _ in range(3):
        try:
            socket.create_connection(peer.stream.getpeername(), SOON)
        except ConnectionRefusedError:
            continue
        raise AssertionError("it is connected")
    peer.send(control(5, 2), control(9, 3))
    same(peer.rest(), control(6, 2))
    served(serving, EQUIPMENT_LOG)


def of_two_clients_one_is_served():
    """Both have connected before the end takes the first of them."""
    port = free_port()
    serving = Serving("equipment", "passive", port)
    end = time.monotonic() + SOON
    while not is_listening(port) and time.monotonic() < end:
        time.sleep(0.01)
    serving.run.send_signal(signal.SIGSTOP)
    first, second = Peer.connected(port), Peer.connected(port)
    serving.run.send_signal(signal.SIGCONT)
    first.send(SELECT)
    first.wants(SELECTED)
    try:
        same(second.rest(), b"")
    except ConnectionResetError:
        pass
    first.send(control(5, 2), control(9, 3))
    same(first.rest(), control(6, 2))
    served(serving, EQUIPMENT_LOG)


# ---- an output that nobody reads


def shows_where_nobody_reads(**how):
    """What `show` ends with by itself, whose input stays open after a message."""
    reading, writing = os.pipe()
    with open("/dev/full", "wb") as full:
        output = {"pipe": writing, "full": full, "closed": None}[how.pop("to")]
        show = subprocess.Popen(
            [PROGRAM, "show"], stdin=subprocess.PIPE, stdout=output, stderr=subprocess.PIPE, **how
        )
    os.close(writing)
    os.close(reading)
    show.stdin.write(SELECT)
    show.stdin.flush()
    try:
        show.wait(SOON)
    except subprocess.TimeoutExpired:
        show.kill()
        show.wait()
    told = (show.returncode, show.stderr.read())
    show.communicate()
    return told


def show_ends_where_nobody_reads():
    for how in (
        {"to": "pipe", "preexec_fn": lambda: signal.signal(signal.SIGPIPE, signal.SIG_IGN)},
        {"to": "pipe", "preexec_fn": lambda: signal.signal(signal.SIGPIPE, signal.SIG_DFL)},
        {"to": "full"},
        {"to": "closed", "preexec_fn": lambda: os.close(1)},
    ):
        same(shows_where_nobody_reads(**how), NO_WRITE)


# ---- words


def words_that_are_no_text():
    for words in (
        [b"\xff"],
        [b"show", b"\xff"],
        [b"\xff", b"show"],
        [b"show", b"--max", b"\xff"],
        [b"show", b"--\xff"],
        [b"encode", b"--hex\xff"],
        [b"serve", b"--role", b"host", b"--link", b"active", b"--address", b"\xff", b"--port", b"1"],
    ):
        same((words, answer_of(words, b"", PROGRAM)), (words, NO_COMMAND))


# ---- the clock

# How much a clock may be wrong by, and how long it is looked at, at least and at most, in seconds.
RATE = 1 / 200
LEAST_SPAN, LONGEST_SPAN = 2, 15


class Asked:
    """A Linktest, by the peer's clock in milliseconds: it is answered between these two times."""

    def __init__(self, peer, system):
        self.system = system
        self.before = 1000 * time.monotonic()
        peer.send(control(5, system))
        peer.wants(control(6, system))
        self.after = 1000 * time.monotonic()

    @property
    def length(self):
        return self.after - self.before


def are_close(first, last):
    """Whether two that were asked bound the time between them closely: a logged time is up to 1 ms too low."""
    return first.length + last.length + 2 < RATE * (last.before - first.after)


def logged_times_are_true():
    """The clock of the log begins between two times that each entry shows. If it goes as the peer's, all agree."""
    serving, peer = selected()
    asked = [Asked(peer, system) for system in range(2, 32)]
    begin = min(asked, key=lambda one: one.length)
    time.sleep(LEAST_SPAN)
    while not are_close(begin, asked[-1]) and asked[-1].after - begin.before < 1000 * LONGEST_SPAN:
        time.sleep(A_WHILE / 10)
        asked.append(Asked(peer, asked[-1].system + 1))
    log = separated(serving, peer, asked[-1].system + 1)
    times = {line.split(" ")[2]: int(line.split(" ")[0]) for line in log.split("\n") if " < ffff00000005" in line}
    bounds = [(one, times[f"ffff00000005{one.system:08x}"]) for one in asked]
    latest = min((one.after - logged, one.system) for one, logged in bounds)
    earliest = max((one.before - logged - 1, one.system) for one, logged in bounds)
    if earliest > latest:
        apart = earliest[0] - latest[0]
        raise AssertionError(f"by Linktest {earliest[1]} it began {apart} ms later than by {latest[1]}")


# ---- small messages

# What takes less is not held back. An acknowledgement that is put off comes after 40 ms.
NOT_HELD_BACK = 0.02


def least_time(stream, count, ask, tries):
    """The least time until that many bytes come which are written in two pieces, the first of them unacknowledged."""
    stream.setsockopt(socket.SOL_SOCKET, socket.SO_RCVLOWAT, count)
    least = math.inf
    for _ in range(tries):
        stream.setsockopt(socket.IPPROTO_TCP, socket.TCP_QUICKACK, 0)
        begin = time.monotonic()
        ask()
        select.select([stream], [], [], SOON)
        least = min(least, time.monotonic() - begin)
        same(len(stream.recv(count)), count)
    stream.setsockopt(socket.SOL_SOCKET, socket.SO_RCVLOWAT, 1)
    return least


def between_plain_sockets():
    """The least time where small pieces are held back."""
    listening = Listening()
    with socket.create_connection((HERE, listening.port), SOON) as writing:
        reading = listening.accepted()
        least = least_time(reading.stream, 40, lambda: [writing.sendall(bytes(count)) for count in (26, 14)], 5)
        reading.close()
    return least


def small_messages_are_not_held_back():
    """A primary of an unknown stream is answered by two messages, S9F3 and SxF0."""
    serving, peer = selected()
    within(NOT_HELD_BACK, between_plain_sockets(), math.inf)
    within(0, least_time(peer.stream, 40, lambda: peer.send(data(7, 3, 2, wait=True)), 25), NOT_HELD_BACK)
    separated(serving, peer, 3)


# ---- waits


def spent(run):
    """The processor time of a process in seconds, and how often it has waited."""
    with open(f"/proc/{run.pid}/stat") as file:
        user, system = file.read().rsplit(") ", 1)[1].split()[11:13]
    with open(f"/proc/{run.pid}/status") as file:
        waits = next(line.split()[1] for line in file if line.startswith("voluntary_ctxt_switches"))
    return (int(user) + int(system)) / os.sysconf("SC_CLK_TCK"), int(waits)


def an_idle_end_does_nothing():
    """One waits for a client, one for a Select, one for the rest of a message, and one for anything."""
    lonely = Serving("equipment", "passive", free_port())
    new, new_peer = equipment(*LONG_TIMERS)
    begun, begun_peer = selected(*LONG_TIMERS)
    begun_peer.send(SELECT[:5])
    idle, idle_peer = selected()
    same(new.line_soon("up"), True)
    time.sleep(A_WHILE)
    runs = [each.run for each in (lonely, new, begun, idle)]
    before = [spent(run) for run in runs]
    time.sleep(1)
    for run, (seconds, waits) in zip(runs, before):
        same(run.poll(), None)
        now_seconds, now_waits = spent(run)
        within(0, now_seconds - seconds, 0.2)
        within(0, now_waits - waits, 20)
    for peer in (new_peer, begun_peer, idle_peer):
        peer.close()


def a_wait_is_never_of_nothing(library):
    """Each look at the clock is a millisecond later than the last one, so that some wait begins when it is to end."""
    for t7 in (5, 6, 7, 8):
        serving, peer = equipment("--t7", str(t7), env={"LD_PRELOAD": library, "CLOCK_STEP": "1000000"})
        same(peer.rest(), b"")
        served(serving, ["up", "cut t7", "down"])


# How many ends wait at the same time, for how long, and how much later most of them may end, in milliseconds. The
# system's own timers would be a tenth of a second late or so.
ENDS = 15
FOR_SO_LONG = 2500
LATE = 40


def timers_are_not_late():
    """The middle one of many, whose waits begin at different times."""
    ends = []
    for _ in range(ENDS):
        ends.append(equipment("--t7", str(FOR_SO_LONG)))
        time.sleep(A_WHILE / 15)
    late = []
    for serving, peer in ends:
        same(peer.rest(), b"")
        log = served(serving, ["up", "cut t7", "down"])
        late.append(times(log)[1] - FOR_SO_LONG)
    within(1, min(late), math.inf)
    within(1, sorted(late)[ENDS // 2], LATE)


# ---- pieces


def messages_of(chance, lengths):
    """Messages to be looped back, of these lengths or one less, each with its answer."""
    for system, length in enumerate(lengths, start=2):
        body = length - 17
        front = b"\x21" if body < 256 else b"\x22"
        text = front + body.to_bytes(front[0] - 0x20, "big") + bytes(chance.choices(range(256), k=body))
        yield data(2, 25, system, text, wait=True), data(2, 26, system, text)


def pieces_of(chance, octets):
    while octets:
        length = chance.choice([1, 2, 3, 13, 14, 100, 4095, 4096, 4097, 10_000])
        yield octets[:length]
        octets = octets[length:]


def pieces_come_whole():
    """Around the 4,096 bytes that a wait takes at most: messages one by one, and then cut into pieces anyhow."""
    with tempfile.TemporaryFile() as log:
        serving, peer = selected(stdout=log)
        asked = loop_back_pieces(peer)
        peer.send(control(9, 1))
        same((peer.rest(), serving.ended()), (b"", (0, None, "")))
        log.seek(0)
        told = log.read().decode()
    passes(told)
    taken = [event[2:] for event in events(told) if event.startswith("< 0000")]
    same(taken == 2 * [message[4:].hex() for message in asked], True)


def loop_back_pieces(peer):
    """The messages, each of which was sent twice and answered."""
    chance = random.Random(20261124)
    asked = list(messages_of(chance, [20, 4095, 4096, 4097, 8191, 8192, 8193, 12_288, 12_289, 40_000]))
    for message, answer in asked:
        peer.send(message)
        peer.wants(answer)
    peer.send(*pieces_of(chance, b"".join(message for message, _ in asked)))
    peer.wants(*(answer for _, answer in asked))
    return [message for message, _ in asked]


def nothing_comes_of_a_quiet_wait():
    """What follows one is read from its first byte on."""
    peers = Listening()
    serving = Serving("host", "active", peers.port, "--t3", "200", script=b"S1F1 W . S1F13 W .")
    peer = peers.accepted()
    peer.wants(SELECT)
    peer.send(SELECTED)
    peer.wants(data(1, 1, 2, wait=True), data(1, 13, 3, wait=True))
    peer.send(data(1, 14, 3))
    peer.wants(control(9, 4))
    same(peer.rest(), b"")
    served(
        serving,
        [
            *["up", "> ffff0000000100000001", "< ffff0000000200000001"],
            *["> 00008101000000000002", "t3 00000002", "> 0000810d000000000003", "< 0000010e000000000003"],
            *["> ffff0000000900000004", "down"],
        ],
    )


# ---- a write that fails

# A message whose line is longer than any block that is written.
LONG = data(2, 25, 3, b"\x22" + (60_000).to_bytes(2, "big") + bytes(60_000), wait=True)


def served_with_a_failed_write(library, failing, **how):
    """What comes of a session of which this write to the log fails, once; with each time in the log as 0."""
    with tempfile.TemporaryFile() as file:
        env = {"LD_PRELOAD": library, "REFUSE_WRITE": str(failing), **how}
        serving, peer = equipment(stdout=file, env=env)
        try:
            peer.send(SELECT + control(5, 2) + LONG + control(9, 4))
            peer.rest()
        except (BrokenPipeError, ConnectionResetError):
            pass
        status, _, told = serving.ended()
        file.seek(0)
        return (status, told), re.sub(r"(?m)^\d+", "0", file.read().decode())


def nothing_is_written_after_a_failed_write(library):
    """Each write is a line with its end, but for the first one, which is of nothing and asks the output. A write that a
    signal interrupted has failed too.
    """
    told, whole = served_with_a_failed_write(library, 0)
    same((told, len(events(whole))), ((0, ""), 9))
    lines = whole.splitlines(True)
    for count in range(len(lines)):
        for interrupted in ("0", "1"):
            told, log = served_with_a_failed_write(library, count + 2, INTERRUPTED=interrupted)
            same((told, log == "".join(lines[:count])), (NO_LOG, True))
    told, log = served_with_a_failed_write(library, len(lines) + 2)
    same((told, log == whole), ((0, ""), True))


def a_line_goes_out_in_parts(library):
    """Where each write moves a byte, the log is the same, and a write that a signal interrupts ends it there."""
    _, whole = served_with_a_failed_write(library, 0)
    told, log = served_with_a_failed_write(library, 0, ONE_OCTET="1")
    same((told, log == whole), ((0, ""), True))
    first = whole.index("\n") + 1
    for count in (1, first - 1, first, first + 3):
        told, log = served_with_a_failed_write(library, count + 2, ONE_OCTET="1", INTERRUPTED="1")
        same((told, log), (NO_LOG, whole[:count]))


# ---- the script `hsms`

# It represents `rt`, which lets no other one work on a crate that uses the same ones. Two crates that do not
# on one another have to be tried at once, and one may fail.
STUB = """#!/usr/bin/env python3
import fcntl, os, sys, time

crates, crate = os.path.split(os.getcwd())
with open(f"{crates}/../crates.txt") as file:
    below = {name: uses.split() for name, colon, uses in (line.partition(":") for line in file) if colon}
wanted, names = [crate], set()
while wanted:
    name = wanted.pop()
    names.add(name)
    wanted += [it for it in below[name] if it in below]
held = [os.open(f"{crates}/{name}", os.O_RDONLY) for name in sorted(names)]
for it in held:
    fcntl.flock(it, fcntl.LOCK_EX)

def told():
    with open(os.environ["CALLS"]) as file:
        return file.read()

def tell(text):
    with open(os.environ["CALLS"], "a") as file:
        file.write(text + "\\n")

tell(f"begin {crate} {' '.join(sys.argv[1:])}")
tries = 0
while os.environ.get("MEETS") and crate in ("low", "other") and tries < 500:
    if "begin low" in told() and "begin other" in told():
        break
    time.sleep(0.01)
    tries += 1
if os.environ.get("FAILS") == crate:
    sys.exit(1)
for name in names - {crate}:
    if not os.path.exists(f"{crates}/{name}/out/rlib/built"):
        sys.exit(1)
os.makedirs("out/rlib", exist_ok=True)
with open("out/rlib/built", "w"):
    tell(f"end {crate}")
if crate == "hsms_tool":
    with open("out/hsms_tool", "w") as file:
        file.write("#!/bin/sh\\necho \\"run with $*\\"\\n")
    os.chmod("out/hsms_tool", 0o755)
"""
CRATES = """# Each crate, and what it stands on.
base:
low: base byteorder
other: base
hsms_tool: high low
high: low other thiserror
unused: low
"""
BELOW = {
    "base": [],
    "low": ["base"],
    "other": ["base"],
    "high": ["base", "low", "other"],
    "hsms_tool": ["base", "low", "other", "high"],
}
SOURCES = [
    "crates.txt",
    "crates/low/src/lib.rt",
    "crates/low/src/within/more.rt",
    "crates/low/specs/Lib.antt",
    "crates/base/src/lib.rt",
    "crates/high/src/lib.rt",
    "crates/other/src/lib.rt",
    "crates/hsms_tool/src/main.rt",
]
NO_SOURCES = [
    "README.md",
    "tests/gate/system_interface.py",
    "tests/must-fail/low/one.edit",
    "crates/low/must-fail/one.edit",
    "crates/low/proofs/function/Answers.antt",
    "crates/low/out/kept",
    "build.log",
]


class Script:
    """The script in a repository of its own, where a stub represents `rt`. Files have the times that they are given."""

    def __init__(self, room):
        self.room = os.path.realpath(room)
        self.calls = f"{room}/calls"
        self.time = 1_000_000_000
        for name in [*SOURCES, *NO_SOURCES, "bin/rt"]:
            os.makedirs(os.path.dirname(f"{room}/{name}"), exist_ok=True)
            with open(f"{room}/{name}", "w") as file:
                file.write({"bin/rt": STUB, "crates.txt": CRATES}.get(name, ""))
            self.change(name)
        os.chmod(f"{room}/bin/rt", 0o755)
        os.makedirs(f"{room}/tests/support")
        for name in ["hsms", "build", "tests/__init__.py", "tests/support/__init__.py", "tests/support/build_dirs.py"]:
            shutil.copy(f"{TOP}/{name}", f"{room}/{name}")

    def change(self, name):
        """A file is changed, later than all others."""
        self.time += 1
        os.utime(f"{self.room}/{name}", (self.time, self.time))

    def run(self, *words, called="hsms", **env):
        """What the script answers, and what it had `rt` do."""
        env = {"PATH": f"{self.room}/bin:{os.environ['PATH']}", "CALLS": self.calls, **env}
        if os.path.exists(self.calls):
            os.unlink(self.calls)
        answer = answer_of(words, b"", f"{self.room}/{called}", env=env, cwd="/")
        calls = self.called()
        if "end hsms_tool" in calls:
            self.change("crates/hsms_tool/out/hsms_tool")
        return answer, calls

    def called(self):
        if not os.path.exists(self.calls):
            return []
        with open(self.calls) as lines:
            return [re.sub(r"--jobs \d+", "--jobs N", line) for line in lines.read().splitlines()]


RAN = (0, b"run with show --max 256\n")


def built_in_order(calls):
    """Each crate of the command is proved once, after those that it uses."""
    begins = {name: f"begin {name} " + ("run --jobs N -- --help" if name == "hsms_tool" else "lib --jobs N") for name in BELOW}
    same(sorted(calls), sorted([*begins.values(), *(f"end {name}" for name in BELOW)]))
    for name, below in BELOW.items():
        for other in below:
            same((other, name, calls.index(f"end {other}") < calls.index(begins[name])), (other, name, True))


def runs(script, is_built, **how):
    """The script runs the command, and builds it before or does not."""
    answer, calls = script.run("show", "--max", "256", **how)
    same((answer.status, answer.output), RAN)
    if is_built:
        built_in_order(calls)
        lines = answer.error.decode().splitlines()
        same(lines[0], "hsms: the program is not built, or older than its sources")
        same(re.sub(r"\d+", "N", lines[1]).replace("up to N", "one").split(" at ")[0], "hsms: proving N crates, one")
        same([line[: len("hsms: N of 5 crates proved")] for line in lines[2:]], [f"hsms: {n} of 5 crates proved" for n in range(1, 6)])
        same(lines[-1], "hsms: 5 of 5 crates proved: hsms_tool")
    else:
        same((calls, answer.error), ([], b""))


def the_script_builds_anew():
    with tempfile.TemporaryDirectory(prefix="hsms-seams-") as room:
        script = Script(room)
        runs(script, True)
        runs(script, False)
        for name in SOURCES:
            script.change(name)
            runs(script, True)
            runs(script, False)
        for name in NO_SOURCES:
            script.change(name)
            runs(script, False)
        os.symlink("../hsms", f"{room}/bin/hsms")
        runs(script, False, called="bin/hsms")
        script.change(SOURCES[1])
        runs(script, True, called="bin/hsms")


def the_script_proves_crates_side_by_side():
    """Where there is one processor alone, one waits for the other."""
    with tempfile.TemporaryDirectory(prefix="hsms-seams-") as room:
        script = Script(room)
        before = time.monotonic()
        runs(script, True, MEETS="1" if len(os.sched_getaffinity(0)) > 1 else "")
        within(0, time.monotonic() - before, 4)


def two_starts_build_in_turn():
    with tempfile.TemporaryDirectory(prefix="hsms-seams-") as room:
        script = Script(room)
        env = {"PATH": f"{script.room}/bin:{os.environ['PATH']}", "CALLS": script.calls}
        how = dict(env=env, cwd="/", stdout=subprocess.PIPE, stderr=subprocess.DEVNULL)
        for start in [subprocess.Popen([f"{script.room}/hsms", "show"], **how) for _ in range(2)]:
            same((start.communicate()[0], start.returncode), (b"run with show\n", 0))
        calls = script.called()
        built_in_order(calls[: len(calls) // 2])
        built_in_order(calls[len(calls) // 2 :])


def the_script_runs_nothing_that_was_not_built():
    with tempfile.TemporaryDirectory(prefix="hsms-seams-") as room:
        script = Script(room)
        for name in ["hsms_tool", "high"]:
            answer, calls = script.run("show", FAILS=name)
            same((answer.status, answer.output, f"end {name}" in calls), (3, b"", False))
            same(("end high" in calls, any(call.startswith("begin hsms_tool") for call in calls)), (name != "high",) * 2)
            log = f"{script.room}/crates/{name}/build.log"
            same(answer.error.decode().splitlines()[-1], f"hsms: build failed: {name} is not proved, see {log}")
            runs(script, True)
            script.change(SOURCES[2])


def the_script_says_that_the_kit_is_missing():
    with tempfile.TemporaryDirectory(prefix="hsms-seams-") as room:
        script = Script(room)
        os.unlink(f"{room}/bin/rt")
        for tool in ["sh", "readlink", "find", "env", "python3"]:
            os.symlink(shutil.which(tool), f"{room}/bin/{tool}")
        answer, _ = script.run("show", PATH=f"{room}/bin")
        same((answer.status, answer.output), (3, b""))
        same(answer.error.decode().splitlines()[-1].startswith("hsms: rt not found: "), True)


TESTS = [
    a_send_is_given_up_after_t8,
    it_closes_after_its_peer,
    it_closes_after_t8,
    it_closes_before_it_waits_for_the_next,
    nothing_begins_without_an_output,
    nothing_begins_without_a_script,
    a_peer_gets_no_words,
    a_wait_goes_on_after_a_signal,
    a_blocked_send_ends_at_a_signal,
    a_second_client_is_refused,
    of_two_clients_one_is_served,
    show_ends_where_nobody_reads,
    words_that_are_no_text,
    logged_times_are_true,
    small_messages_are_not_held_back,
    an_idle_end_does_nothing,
    timers_are_not_late,
    pieces_come_whole,
    nothing_comes_of_a_quiet_wait,
    the_script_builds_anew,
    the_script_proves_crates_side_by_side,
    two_starts_build_in_turn,
    the_script_says_that_the_kit_is_missing,
    the_script_runs_nothing_that_was_not_built,
]
TESTS_WITH_LIBRARY = [
    an_interrupted_receive_is_made_again,
    a_failed_receive_ends_it,
    a_failed_send_ends_it,
    a_failed_link_is_closed_at_once,
    a_failed_link_is_closed_before_the_next,
    a_wait_is_never_of_nothing,
    nothing_is_written_after_a_failed_write,
    a_line_goes_out_in_parts,
]


def main():
    with tempfile.TemporaryDirectory(prefix="hsms-seams-") as room:
        library = call_failer(room)
        tests = [(test,) for test in TESTS] + [(test, library) for test in TESTS_WITH_LIBRARY]
        passed = [is_held(test[0].__name__, *test, after=Serving.stop_all) for test in tests]
    print(f"{passed.count(True)} passed, {passed.count(False)} failed")
    return 0 if all(passed) else 1


if __name__ == "__main__":
    sys.exit(main())
