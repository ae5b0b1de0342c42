"""Processes of `hsms serve`, the peers of their connections, and checks of their logs.

A script that is given another program sets `Serving.program`.
"""
import itertools
import os
import re
import select
import socket
import struct
import subprocess
import time

from tests.support.command import PROGRAM

HERE = "127.0.0.1"

# The ports that are tried, one after the other.
PORTS = itertools.cycle(range(20000, 32768))
for _ in range(os.getpid() % 12768):
    next(PORTS)

# How long anything may take that has to come, and how long is waited for what must not come, in seconds.
SOON = 30
A_WHILE = 0.5

# The state of a listening socket in /proc/net/tcp.
LISTENS = "0A"

SELECT = bytes.fromhex("0000000affff0000000100000001")
SELECTED = bytes.fromhex("0000000affff0000000200000001")
PASSED = "pass entries={} sent={} taken={} discarded={} expired={} waiting={}\n"


def free_port():
    """A port that nobody listens at, and that no socket is given which names none: those are from 32768 on."""
    for port in itertools.islice(PORTS, 12768):
        with socket.socket() as found:
            found.setsockopt(socket.SOL_SOCKET, socket.SO_REUSEADDR, 1)
            try:
                found.bind((HERE, port))
                return port
            except OSError:
                pass
    raise AssertionError("no port is free")


def is_listened_at(port):
    """Whether the system has a socket that listens at a port, of IPv4 or IPv6. To ask it takes no connection away."""
    for table in filter(os.path.exists, ("/proc/net/tcp", "/proc/net/tcp6")):
        with open(table, encoding="ascii") as sockets:
            for _, address, _, state, *_ in map(str.split, sockets):
                if state == LISTENS and address.endswith(f":{port:04X}"):
                    return True
    return False


def message(session, byte2, byte3, stype, system, text=b""):
    return struct.pack(">IHBBBBI", 10 + len(text), session, byte2, byte3, 0, stype, system) + text


def data(stream, function, system, text=b"", wait=False, device=0):
    return message(device, stream | (128 if wait else 0), function, 0, system, text)


def control(stype, system, byte3=0):
    return message(0xFFFF, 0, byte3, stype, system)


class Serving:
    """A running `hsms serve`."""

    # The program that is run, and all its processes that were started.
    program = PROGRAM
    started = []

    def __init__(
        self, role, link, port, *options, script=None, send=True, address=HERE, stdout=subprocess.PIPE, env=None
    ):
        words = [Serving.program, "serve", "--role", role, "--link", link, "--address", address, "--port", str(port)]
        words += options
        self.run = subprocess.Popen(
            words + (["--send"] if send and script is not None else []),
            stdin=subprocess.DEVNULL if script is None else subprocess.PIPE,
            stdout=stdout,
            stderr=subprocess.PIPE,
            env=env,
        )
        Serving.started.append(self.run)
        self.port = port
        self.read = b""
        if script is not None:
            try:
                self.run.stdin.write(script)
                self.run.stdin.close()
            except BrokenPipeError:
                pass
            self.run.stdin = None

    def listens(self):
        """Waits until this end listens, so that one that connects then is not refused; before long it does, whatever
        the system shows.
        """
        end = time.monotonic() + SOON
        while not is_listened_at(self.port) and self.run.poll() is None and time.monotonic() < end:
            time.sleep(0.01)

    def line_soon(self, wanted):
        """Whether the log has this event before long, while the connection is up."""
        end = time.monotonic() + SOON
        while time.monotonic() < end:
            if wanted in events(self.read.decode()):
                return True
            if select.select([self.run.stdout], [], [], 0.1)[0]:
                octets = os.read(self.run.stdout.fileno(), 65536)
                if not octets:
                    return False
                self.read += octets
        return False

    def ended(self):
        """The status, the log and standard error."""
        try:
            log, told = self.run.communicate(timeout=SOON)
        except subprocess.TimeoutExpired:
            self.run.kill()
            log, told = self.run.communicate()
            told += b"(it didn't end)"
        log = None if log is None else (self.read + log).decode()
        return self.run.returncode, log, told.decode()

    def killed(self, number):
        self.run.send_signal(number)
        return self.ended()

    @staticmethod
    def stop_all():
        """Ends what still runs of all that were started."""
        for run in Serving.started:
            if run.poll() is None:
                run.kill()
                run.wait()
        Serving.started.clear()


class Peer:
    """The other end of a connection, as plain a socket as can be."""

    def __init__(self, stream):
        self.stream = stream
        stream.settimeout(SOON)
        stream.setsockopt(socket.IPPROTO_TCP, socket.TCP_NODELAY, 1)

    @staticmethod
    def connected(port):
        end = time.monotonic() + SOON
        while True:
            try:
                return Peer(socket.create_connection((HERE, port), SOON))
            except ConnectionRefusedError:
                if time.monotonic() > end:
                    raise
                time.sleep(0.01)

    def send(self, *messages):
        for octets in messages:
            self.stream.sendall(octets)

    def send_singly(self, octets):
        for octet in octets:
            self.stream.sendall(bytes([octet]))

    def exactly(self, count):
        octets = b""
        while len(octets) < count:
            part = self.stream.recv(count - len(octets))
            if not part:
                raise AssertionError(f"closed after {octets.hex()}")
            octets += part
        return octets

    def message(self):
        length = self.exactly(4)
        return length + self.exactly(struct.unpack(">I", length)[0])

    def rest(self):
        """What comes until the other end sends no more. Then the peer closes too, for which the other end waits."""
        octets = b""
        while True:
            part = self.stream.recv(65536)
            if not part:
                self.close()
                return octets
            octets += part

    def wants(self, *messages):
        for wanted in messages:
            same(self.message().hex(), wanted.hex())

    def close(self):
        self.stream.close()

    def reset(self):
        self.stream.setsockopt(socket.SOL_SOCKET, socket.SO_LINGER, struct.pack("ii", 1, 0))
        self.stream.close()


class Listening:
    """A peer that is connected to."""

    def __init__(self):
        self.listener = socket.socket()
        self.listener.settimeout(SOON)
        self.listener.bind((HERE, 0))
        self.listener.listen()
        self.port = self.listener.getsockname()[1]

    def accepted(self):
        peer = self.next_one()
        self.listener.close()
        return peer

    def next_one(self):
        """The next peer; more may follow."""
        return Peer(self.listener.accept()[0])

    def nobody_comes(self):
        self.listener.settimeout(A_WHILE)
        try:
            self.listener.accept()
        except (TimeoutError, socket.timeout):
            return True
        finally:
            self.listener.close()
        return False


def same(told, wanted):
    if told != wanted:
        raise AssertionError(f"wanted {wanted!r}, told {told!r}")


def in_time(passed, least, most):
    """That this many milliseconds passed, at least and less than."""
    if passed < least:
        raise AssertionError(f"{passed} ms passed, {least} had to")
    if passed >= most:
        raise AssertionError(f"{passed} ms passed, {most} were too many")


def events(log):
    """The lines of a log after the first, without their times."""
    return [re.sub(r"^\d+ ", "", line) for line in log.split("\n")[1:] if line]


def times(log):
    return [int(line.split(" ")[0]) for line in log.split("\n")[1:] if line]


def audited(log):
    ran = subprocess.run([Serving.program, "audit"], input=log.encode(), stdout=subprocess.PIPE, timeout=SOON)
    return ran.stdout.decode()


def passes(log):
    told = audited(log)
    if not told.startswith("pass "):
        raise AssertionError(f"{told!r} of {log!r}")


def served(serving, wanted):
    """The connection was served to its end, with this log."""
    status, log, told = serving.ended()
    same((status, told), (0, ""))
    same(events(log), wanted)
    passes(log)
    return log


def stopped(serving, word, wanted):
    """The connection was not served to its end, and the log holds what came before."""
    status, log, told = serving.ended()
    same((status, told), (3, f"hsms: {word}\n"))
    same(events(log), wanted)
    passes(log)


def refused(serving, status, words):
    same(serving.ended(), (status, "", f"hsms: {words}\n"))


def equipment(*options, **others):
    """Equipment that listens, and its peer."""
    port = free_port()
    serving = Serving("equipment", "passive", port, *options, **others)
    return serving, Peer.connected(port)


# Logs of short sessions, and the script of a host.

EQUIPMENT_LOG = [
    "up",
    "< ffff0000000100000001",
    "> ffff0000000200000001",
    "< ffff0000000500000002",
    "> ffff0000000600000002",
    "< ffff0000000900000003",
    "down",
]

HOST_LOG = ["up", "> ffff0000000100000001", "< ffff0000000200000001", "> ffff0000000900000002", "down"]

SCRIPT = b'S1F13 W <L> .\nS1F1 W .\nS2F25 W <B 0x01 0x02> .\nS1F2 .\nS6F11 W <L <A "AB">> .\n'
