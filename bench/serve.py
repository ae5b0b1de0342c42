#!/usr/bin/env python3
"""Times S1F1 and its reply over loopback, between two `hsms serve`, beside an echo of the same octets; and its timers.

    bench/serve.py [EXCHANGES] [--timers MS..]

It runs what `rt ci` or the first use of `hsms` has built. It tells exchanges a second, of a host that sends a script
to an equipment, of a plain Python host with that equipment, and of two plain Python ends that hand the same octets
back and forth; and the most memory that each `hsms serve` held. Where strace is installed, it tells the calls of the
system that an exchange takes at each end; where valgrind is, the instructions that it takes of the equipment. At last
it tells how late timers run out: ends with these T7, all at the same time. Those of `--timers` may be up to 3,600,000
ms. With 0 EXCHANGES nothing but timers is measured.
"""
import argparse
import os
import re
import shutil
import socket
import struct
import subprocess
import sys
import tempfile
import time
from concurrent.futures import ThreadPoolExecutor

sys.dont_write_bytecode = True
from running import MB, PROGRAM, TOP, Runner

sys.path.append(TOP)
from tests.support.serve_peers import free_port

HERE = "127.0.0.1"

SELECT = bytes.fromhex("0000000affff0000000100000001")
SEPARATE = bytes.fromhex("0000000affff0000000900000001")


def ask(system):
    return struct.pack(">IHBBBBI", 10, 0, 0x81, 1, 0, 0, system)


def reply(system):
    return struct.pack(">IHBBBBI", 18, 0, 1, 2, 0, 0, system) + bytes.fromhex("010241014d410131")


def exactly(stream, count):
    octets = b""
    while len(octets) < count:
        part = stream.recv(count - len(octets))
        if not part:
            raise EOFError
        octets += part
    return octets


def connected(port):
    while True:
        try:
            stream = socket.create_connection((HERE, port))
            stream.setsockopt(socket.IPPROTO_TCP, socket.TCP_NODELAY, 1)
            return stream
        except ConnectionRefusedError:
            time.sleep(0.01)


def started(role, link, port, *options, stdin=subprocess.DEVNULL):
    words = ["serve", "--role", role, "--link", link, "--address", HERE, "--port", str(port), *options]
    told = f"{RUNNER.room}/{role}"
    return told, subprocess.Popen([RUNNER.launcher, told, PROGRAM, *words], stdin=stdin, stdout=subprocess.DEVNULL)


def ended(told, run):
    """Waits for a run, and tells the most memory in MB that it held."""
    run.wait()
    with open(told) as file:
        status, _, _, kilobytes = file.read().split()
    if status != "0":
        sys.exit(f"status {status}")
    return f"{int(kilobytes) * 1024 / MB:.1f}"


def asked(port, count):
    """A plain host: the seconds that so many exchanges take."""
    stream = connected(port)
    stream.sendall(SELECT)
    exactly(stream, 14)
    begin = time.monotonic()
    for system in range(2, count + 2):
        stream.sendall(ask(system))
        exactly(stream, 22)
    seconds = time.monotonic() - begin
    stream.sendall(SEPARATE)
    stream.recv(1)
    return seconds


def two_processes(count):
    port = free_port()
    equipment = started("equipment", "passive", port, "--mdln", "M", "--softrev", "1")
    time.sleep(0.5)
    host = started("host", "active", port, "--send", stdin=subprocess.PIPE)
    begin = time.monotonic()
    script = host[1].stdin
    script.write(b"S1F1 W .\n" * count)
    script.close()
    held = ended(*host)
    return time.monotonic() - begin, f"{held} and {ended(*equipment)}"


def plain_host(count):
    port = free_port()
    equipment = started("equipment", "passive", port, "--mdln", "M", "--softrev", "1")
    seconds = asked(port, count)
    return seconds, ended(*equipment)


def echo(listener, count):
    stream, _ = listener.accept()
    stream.setsockopt(socket.IPPROTO_TCP, socket.TCP_NODELAY, 1)
    exactly(stream, 14)
    stream.sendall(SELECT)
    for system in range(2, count + 2):
        exactly(stream, 14)
        stream.sendall(reply(system))
    exactly(stream, 14)
    stream.close()


def bare_echo(count):
    listener = socket.create_server((HERE, 0))
    child = os.fork()
    if child == 0:
        echo(listener, count)
        os._exit(0)
    seconds = asked(listener.getsockname()[1], count)
    os.waitpid(child, 0)
    return seconds, "-"


def traced(role, link, port, *options, stdin=subprocess.DEVNULL):
    """An end whose calls of the system are counted."""
    told = f"{RUNNER.room}/{role}.calls"
    words = ["serve", "--role", role, "--link", link, "--address", HERE, "--port", str(port), *options]
    trace = ["strace", "-f", "-c", "-U", "calls,name", "-o", told, PROGRAM, *words]
    return told, subprocess.Popen(trace, stdin=stdin, stdout=subprocess.DEVNULL)


def calls_of(told, run):
    """How often an end made each call."""
    run.wait()
    with open(told) as file:
        lines = [line.split() for line in file]
    return {line[1]: int(line[0]) for line in lines if len(line) == 2 and line[0].isdigit() and line[1] != "total"}


def calls(count):
    """The calls of host and equipment, for so many exchanges."""
    port = free_port()
    equipment = traced("equipment", "passive", port, "--mdln", "M", "--softrev", "1")
    time.sleep(1)
    host = traced("host", "active", port, "--send", stdin=subprocess.PIPE)
    script = host[1].stdin
    script.write(b"S1F1 W .\n" * count)
    script.close()
    return {"host": calls_of(*host), "equipment": calls_of(*equipment)}


def calls_per_exchange(few=200, many=1200):
    """What each end calls for one exchange more."""
    before, after = calls(few), calls(many)
    for role in before:
        names = sorted(after[role])
        each = {name: (after[role][name] - before[role].get(name, 0)) / (many - few) for name in names}
        shown = ", ".join(f"{name} {number:.2f}" for name, number in each.items() if number >= 0.01 and name != "read")
        read = "" if role == "equipment" else ", without the reading of its script"
        print(f"{role}: calls of the system for an exchange: {shown}{read}")


def instructions(count):
    """How many instructions an equipment takes for so many exchanges, and for its beginning and end."""
    port = free_port()
    counter = ["valgrind", "--tool=cachegrind", "--cache-sim=no", "--cachegrind-out-file=/dev/null"]
    words = ["--role", "equipment", "--link", "passive", "--address", HERE, "--port", str(port), "--mdln", "M"]
    run = subprocess.Popen(
        [*counter, PROGRAM, "serve", *words, "--softrev", "1"],
        stdin=subprocess.DEVNULL, stdout=subprocess.DEVNULL, stderr=subprocess.PIPE,
    )
    asked(port, count)
    told = run.communicate()[1]
    return int(re.search(rb"I\s+refs:\s+([\d,]+)", told)[1].replace(b",", b""))


def instructions_per_exchange(few=100, many=1100):
    """What the equipment takes for one exchange more."""
    each = (instructions(many) - instructions(few)) / (many - few)
    print(f"equipment: {each:,.0f} instructions for an exchange")


def late(milliseconds, port):
    """How much later than it is due the T7 of an end runs out, in milliseconds, by its own clock."""
    words = ["--role", "equipment", "--link", "passive", "--address", HERE, "--port", str(port)]
    run = subprocess.Popen(
        [PROGRAM, "serve", *words, "--t7", str(milliseconds)], stdin=subprocess.DEVNULL, stdout=subprocess.PIPE
    )
    with connected(port) as stream:
        stream.recv(1)
    log = run.communicate()[0].decode()
    return int(re.search(r"(?m)^(\d+) cut t7$", log)[1]) - milliseconds - 1


def timers(milliseconds):
    """The most of several ends for each T7."""
    asked = [each for each in milliseconds for _ in range(4)]
    with ThreadPoolExecutor(len(asked)) as pool:
        told = list(pool.map(late, asked, [free_port() for _ in asked]))
    for each in milliseconds:
        most = max(number for asked_for, number in zip(asked, told) if asked_for == each)
        print(f"T7 of {each:,} ms: at most {most} ms late")


def exchanges(count):
    """How many exchanges pass in a second, and what each one calls of the system."""
    for name, run in (
        ("hsms host, hsms equipment", two_processes),
        ("Python host, hsms equipment", plain_host),
        ("Python host, Python echo", bare_echo),
    ):
        seconds, held = run(count)
        print(f"{name}: {count / seconds:,.0f} exchanges a second, MB held {held}")
    if shutil.which("strace"):
        calls_per_exchange()
    if shutil.which("valgrind"):
        instructions_per_exchange()


def main():
    options = argparse.ArgumentParser(description=__doc__.split("\n")[0])
    options.add_argument("exchanges", nargs="?", type=int, default=10000)
    options.add_argument("--timers", nargs="+", type=int, default=[1, 10, 50, 250, 300, 1000, 2500, 5000])
    asked_for = options.parse_args()
    if asked_for.exchanges > 0:
        exchanges(asked_for.exchanges)
    timers(asked_for.timers)


if __name__ == "__main__":
    with tempfile.TemporaryDirectory(prefix="hsms-bench-") as room:
        RUNNER = Runner(room)
        main()
