#!/usr/bin/env python3
"""Fails each allocation in turn, the first, the second and so on, until a run completes without a failed allocation.

Use: tests/gate/allocation_failures.py [CRATE..]. With names of crates it runs the tests of these crates alone.

It runs each test of each crate except the long ones, endpoints on corrupt input lists, and the command: on the worked
examples, on files in examples/ and over connections. After a failed allocation

- a test ends with out of memory, because it propagates that error, or passes, because it checks the result itself;
- an endpoint behaves as usual up to the call that reports `Memory`, and from then on reports that it is spent;
- the command ends with status 3 and `hsms: Memory`. Its output is then empty, or for `show`, `explain` and `capture`
  complete lines of the usual output, or for `serve` complete lines of its log.

Without a failed allocation a test passes, and the command writes its usual output, for the worked examples as given
there. A test of functions that need no memory may allocate only for its own preparations.

No program may allocate except by the calls that fail here, or call the system except through the C library. It runs
what `rt ci` has built. The last line is `N passed, M failed`.
"""
import os
import re
import socket
import subprocess
import sys
import tempfile
import threading
import time
from concurrent.futures import ThreadPoolExecutor
from dataclasses import dataclass
from typing import Callable, List

sys.dont_write_bytecode = True
sys.path.insert(0, os.path.abspath(f"{__file__}/../../.."))

from tests.support.command import DRIVER, PROGRAM, TOP, answer_of, call_failer
from tests.support.reference.endpoint_inputs import Answering, damaged
from tests.support.serve_peers import EQUIPMENT_LOG, HERE, HOST_LOG, SELECT, SELECTED, control, events, free_port
from tests.support.worked_examples import Row, rows

WORKERS = 2

# How the program of a crate's tests is called, after the crate.
OF_TESTS = "_tests"

# The number of input lists of endpoints.
LISTS = 20

# What a test, and a program, says where memory was refused.
WANT_OF_MEMORY = re.compile(
    rb"^error: (AllocError|AllocFailed \{ \.\. \}|Memory|.*\bOutOfMemory\b.*|out of memory|memory allocation failed)$",
    re.M | re.I,
)

# The calls that fail_calls.c replaces, and all calls of the C library that hand memory out or call the system.
REFUSED = {"malloc", "calloc", "realloc", "memalign", "aligned_alloc", "posix_memalign"}
TAKING = REFUSED | set(
    "reallocarray valloc pvalloc mmap mmap64 mremap brk sbrk syscall strdup strndup wcsdup asprintf vasprintf "
    "open_memstream getline getdelim realpath getcwd scandir getaddrinfo dlopen dlsym".split()
)

# What a program calls of the others that is no memory of its own: it hands the room in, or the C library takes what it
# needs by the calls that are refused, and gives it back before it answers.
HANDED_IN = {"getcwd"}
BY_REFUSED = {"getaddrinfo"}

# Tests that take too long to be run once for each allocation.
LONG = {"walks_of_two_ends"}

# The tests that audit each refusal themselves, or try again: those of these modules, and those whose names begin with
# `refused`. Of the second ones what they take for themselves may be refused too.
JUDGE = ("hsms_machine_tests tests::",)
TRY_AGAIN = ("hsms_frame_tests tests::framing::",)

# Tests of calls that ask for no memory, and how often those do that make something for them beforehand.
WITHOUT_GROWTH = "no_growth"
MADE_BEFOREHAND = {"no_growth_for_what_is_too_large": 5}

# A test with a desk that refuses memory itself, and expects that error.
REFUSES = ("hsms_ends_tests tests::limits::a_desk_of_its_own",)

# A port at which nobody listens.
NOBODY_THERE = "--role equipment --link active --address 127.0.0.1 --port 1 --mdln M --softrev 1".split()

# The arguments of the command, and the file that it reads.
EXAMPLES = [
    (["show"], "examples/session.bin"),
    (["show", "--depth", "1"], "examples/session.bin"),
    (["show", "--depth", "0"], "examples/select.bin"),
    (["show", "--hex"], "examples/session.hex"),
    (["show", "--hex"], "examples/odd.hex"),
    (["show", "--bare"], "examples/session.hex"),
    (["show", "--help"], "examples/select.bin"),
    (["--help"], "examples/select.bin"),
    ([], "examples/select.bin"),
    (["encode"], "examples/session.txt"),
    (["encode", "--max", "256"], "examples/long.txt"),
    (["audit"], "examples/expired.log"),
    (["compare", "-", f"{TOP}/tests/compare/skipped-equipment.log"], "tests/compare/skipped-host.log"),
    (["compare", f"{TOP}/tests/compare/order-host.log", "-"], "tests/compare/order-equipment.log"),
    (["audit", f"{TOP}/examples/expired.log"], "examples/select.bin"),
    (["audit", f"{TOP}/examples/expired.log", f"{TOP}/missing", f"{TOP}/examples/session.log"], "examples/select.bin"),
    (["audit", "--quiet", f"{TOP}/examples/unreadable.log"], "examples/select.bin"),
    (["audit", "--format", "json", f"{TOP}/examples/late-reply.log", f"{TOP}/missing"], "examples/select.bin"),
    (["audit", "--format", "junit", f"{TOP}/examples/late-reply.log", f"{TOP}/missing"], "examples/select.bin"),
    (["audit", "--format", "junit"], "examples/unreadable.log"),
    (["show", f"{TOP}/examples/session.bin", f"{TOP}/examples/cut-off.bin"], "examples/select.bin"),
    (["encode", f"{TOP}/missing"], "examples/select.bin"),
    (["explain"], "examples/late-reply.log"),
    (["explain", "--utc"], "examples/late-reply.log"),
    (["explain", "--format", "json"], "examples/late-reply.log"),
    (["explain", "--format", "html"], "examples/late-reply.log"),
    (["capture", "--t3", "1000"], "examples/late-reply.pcap"),
    (["capture", "--log", "equipment"], "examples/late-reply.pcap"),
    (["capture"], "tests/captures/running.pcap"),
    (["capture", "--midstream"], "tests/captures/devices.pcap"),
    (["capture", "--midstream"], "tests/captures/joined-status-1.pcap"),
    (["capture", "--midstream", "--log", "host"], "tests/captures/joined-false-front.pcap"),
    (["capture", "--t3", "1000", "-", f"{TOP}/examples/late-reply.pcap"], "examples/late-reply.pcap"),
    (["capture", f"{TOP}/tests/captures/running.pcap", "-"], "examples/select.bin"),
    (["capture", "--format", "json", "-", f"{TOP}/examples/late-reply.pcap"], "examples/late-reply.pcap"),
    (["capture", "--format", "json"], "tests/captures/running.pcap"),
    (["capture", "--help"], "examples/select.bin"),
    (["serve", *NOBODY_THERE], "examples/session.txt"),
    (["serve", *NOBODY_THERE, "--send"], "examples/session.txt"),
    (["serve", *NOBODY_THERE, "--answer"], "examples/session.txt"),
    (["serve", *NOBODY_THERE, "--send", "--depth", "1"], "examples/nested.txt"),
    (["serve", "--help"], "examples/select.bin"),
]


def crates():
    with open(f"{TOP}/crates.txt") as lines:
        return [line.split(":")[0].split()[0] for line in lines if ":" in line and not line.startswith("#")]


def built(wanted, ending):
    """The programs of the wanted crates, or with the ending those of their tests, each with its crate."""
    made = [(crate, f"{TOP}/crates/{crate}/out/{crate}{ending}") for crate in wanted]
    return [(crate, program) for crate, program in made if os.path.exists(program)]


@dataclass(frozen=True)
class Check:
    """A program that is run with each allocation refused, and what each of its runs has to do."""

    name: str
    words: List[str]
    given: bytes
    is_well: Callable
    is_from_input: bool = False
    # How many allocations it may ask for.
    most: int = 100_000


class Refuser:
    def __init__(self, room):
        self.room = room
        self.library = call_failer(room)

    def run(self, check, count):
        """Runs a program with one allocation refused, and says whether it came to that."""
        told = f"{self.room}/refused-{threading.get_ident()}"
        env = {"PATH": "/usr/bin:/bin", "LD_PRELOAD": self.library, "REFUSE_MEMORY": str(count), "REFUSED": told}
        if check.is_from_input:
            env["FROM_INPUT"] = "1"
        ended = subprocess.run(check.words, input=check.given, capture_output=True, env=env, timeout=60)
        was_refused = os.path.exists(told)
        if was_refused:
            os.remove(told)
        return ended, was_refused

    def each(self, check):
        """Says what was wrong with the first run that was not well, if any, and how many were refused."""
        for count in range(1, check.most + 2):
            ended, was_refused = self.run(check, count)
            if not check.is_well(ended, was_refused):
                told = (ended.stdout[-300:] + ended.stderr[-300:]).decode(errors="replace")
                return f"allocation {count} refused: status {ended.returncode}, {told!r}", count
            if not was_refused:
                return None, count - 1
        return f"it asked for more than {check.most} allocations", count


def passes(ended, was_refused):
    return ended.returncode == 0


def tells(ended, was_refused):
    told = WANT_OF_MEMORY.search(ended.stderr)
    return ended.returncode != 0 and bool(told) if was_refused else ended.returncode == 0


def passes_or_tells(ended, was_refused):
    return passes(ended, was_refused) or tells(ended, was_refused)


def most_of_test(name):
    """How many allocations a test may ask for."""
    return MADE_BEFOREHAND.get(name, 0) if name.startswith(WITHOUT_GROWTH) else Check.most


def judge_of_test(name):
    """What a run of a test has to do."""
    if name.startswith(JUDGE) or name.split("::")[-1].startswith("refused"):
        return passes
    return passes_or_tells if name.startswith(TRY_AGAIN + REFUSES) else tells


def tests(wanted):
    """The tests of these crates but the long ones."""
    for crate, program in built(wanted, OF_TESTS):
        listed = subprocess.run([program, "--list"], capture_output=True, text=True).stdout.splitlines()
        for name in (line[: -len(": test")] for line in listed if line.endswith(": test")):
            short = name.split("::")[-1]
            if short not in LONG:
                judge, most = judge_of_test(f"{crate} {name}"), most_of_test(short)
                yield Check(f"{crate} {name}", [program, name], b"", judge, most=most)


def examples():
    """Runs on examples, whose answers are in their page."""
    for words, file in EXAMPLES:
        with open(f"{TOP}/{file}", "rb") as input_file:
            given = input_file.read()
        yield Row(tuple(words), given, answer_of(words, given))


def runs():
    """The runs of the command: with each words from their beginning on, and with each input from its first read on."""
    seen = set()
    for row in [*rows(), *examples()]:
        words = [PROGRAM, *row.words]
        spared = max(2 * ("--send" in row.words), 3 * ("--answer" in row.words))
        if row.words not in seen:
            yield Check(f"{row}, from the words on", words, row.given, judge_of(row, 2 + spared))
        seen.add(row.words)
        yield Check(str(row), words, row.given, judge_of(row, spared), is_from_input=True)


def fronts(output):
    """What may be written of an output where it is stopped between two lines."""
    lines = output.splitlines(keepends=True)
    return {b"".join(lines[:count]) for count in range(len(lines) + 1)}


def judge_of(row, collections):
    """What a run of the command has to do. Std can do without the room that it asks for as it begins to collect the
    words, to part the messages of a script into replies and others, or to collect its steps. Where memory is wanting
    to ask the environment for HSMS_VERBOSE, no texts are written. So often the command may answer as ever although
    memory was refused.
    """
    is_of_several = row.words[:1] == ("audit",) and len(row.words) > 2
    tells_lines = row.words[:1] in (("show",), ("explain",), ("capture",)) or is_of_several
    parts = fronts(row.answer.output) if tells_lines else {b""}
    # Of several logs one that cannot be opened does not end the command.
    errors = {it + b"hsms: Memory\n" for it in (fronts(row.answer.error) if is_of_several else {b""})}
    done_without = []

    def is_well(ended, was_refused):
        answer = row.answer
        same = (ended.returncode, ended.stdout, ended.stderr) == (answer.status, answer.output, answer.error)
        told = ended.returncode == 3 and ended.stderr in errors and ended.stdout in parts
        if was_refused and same:
            done_without.append(ended)
        return len(done_without) <= collections if same else told and was_refused

    return is_well


def peer_that_answers(listener):
    """Accepts each connection, answers the Select that comes, and reads up to the end."""
    while True:
        connection, _ = listener.accept()
        reads_all(connection, SELECTED)


def peer_that_asks(port):
    """Connects whenever somebody listens, says all that it has to say, and reads up to the end."""
    while True:
        try:
            reads_all(socket.create_connection((HERE, port)), SELECT + control(5, 2) + control(9, 3))
        except OSError:
            time.sleep(0.002)


def reads_all(connection, octets):
    try:
        with connection:
            connection.sendall(octets)
            while connection.recv(4096):
                pass
    except OSError:
        pass


def judge_of_log(wanted, collections):
    """What a run over a connection has to do: it may answer as ever as often as `judge_of` says."""
    done_without = []

    def is_well(ended, was_refused):
        told = events(ended.stdout.decode())
        if (ended.returncode, ended.stderr, told) == (0, b"", wanted):
            done_without.extend([ended] * was_refused)
            return len(done_without) <= collections
        is_whole = ended.stdout[-1:] in (b"", b"\n")
        fault = (ended.returncode, ended.stderr) == (3, b"hsms: Memory\n")
        return was_refused and fault and is_whole and told == wanted[: len(told)]

    return is_well


# What an end writes its port into. It is removed when this ends.
FOLDER = tempfile.TemporaryDirectory(prefix="hsms-port-")


def served():
    """Equipment that listens, and is selected, tested and separated; and a host that connects, and says nothing."""
    port, listener = free_port(), socket.create_server((HERE, 0))
    threading.Thread(target=peer_that_asks, args=(port,), daemon=True).start()
    threading.Thread(target=peer_that_answers, args=(listener,), daemon=True).start()
    serve = [PROGRAM, "serve", "--address", HERE]
    equipment = [*serve, "--role", "equipment", "--link", "passive", "--port", str(port)]
    equipment += ["--port-file", f"{FOLDER.name}/port"]
    yield Check("an equipment that is served", equipment, b"", judge_of_log(EQUIPMENT_LOG, 2))
    host = [*serve, "--role", "host", "--link", "active", "--port", str(listener.getsockname()[1])]
    yield Check("a host that is served", [*host, "--send", "--all-answered"], b"", judge_of_log(HOST_LOG, 4))


def calls(program):
    """What a program calls of the C library that hands memory out, or asks the system for it."""
    listed = subprocess.run(["nm", "-D", "--undefined-only", program], capture_output=True, text=True, check=True)
    return TAKING & {line.split()[-1].split("@")[0] for line in listed.stdout.splitlines()}


def asks_the_system(program):
    """Whether a program has instructions that call the system, past the C library."""
    words = ["objdump", "-d", "--no-show-raw-insn", program]
    listed = subprocess.run(words, capture_output=True, text=True, check=True)
    return bool(re.search(r"\t(syscall|sysenter|int +\$0x80)", listed.stdout))


def tells_of_the_rest(calls, lines):
    """Whether these are the lines of an end of which a call was refused memory: from then on it refuses as spent."""
    if "refused Memory" not in lines:
        return False
    place = lines.index("refused Memory")
    before, after, last = lines[:place], lines[place + 1:-2], lines[-2:]
    is_ended = last[0].startswith("pending ") and last[1] in ("end", "other")
    counts = (count for count in range(len(calls)) if sum(calls[:count], []) == before)
    return is_ended and any(after == ["refused Spent"] * (len(calls) - count - 1) for count in counts)


def judge_of_list(listed):
    """What the ends of a list have to answer. Where the memory of the program itself is refused, it writes nothing."""
    answering = Answering(listed)

    def is_well(ended, was_refused):
        output = ended.stdout.decode()
        if not was_refused:
            return (ended.returncode, output) == (0, answering.text())
        if ended.returncode == 0:
            return tells_of_the_rest(answering.calls, output.splitlines())
        return output == "" and bool(WANT_OF_MEMORY.search(ended.stderr))

    return is_well


def ends():
    """Endpoints that receive corrupt lists, call by call and by `drive`."""
    for number in range(LISTS):
        listed = damaged("refusals", number)
        name = f"hsms_ends_driver, list {number} of {len(listed.told)} calls"
        yield Check(name, [DRIVER], listed.text().encode(), judge_of_list(listed))


def ways_to_memory(names):
    """Each of these programs, by which calls it takes memory, and what is wrong with that, if anything."""
    for name in names:
        called = calls(name)
        others = called - REFUSED - HANDED_IN - BY_REFUSED
        wrong = f"it takes memory by {', '.join(sorted(others))}" if others else None
        wrong = "it calls the system by itself" if asks_the_system(name) else wrong
        yield os.path.basename(name), ", ".join(sorted(called & REFUSED)), wrong


def groups(wanted):
    """What is run of the wanted crates: their tests, and of the two programs the ends, the command and connections."""
    made = [("tests", list(tests(wanted)))]
    programs = [("hsms_ends_driver", "ends", ends), ("hsms_tool", "the command", runs), ("hsms_tool", "connections", served)]
    for crate, name, checks in programs:
        if crate in wanted:
            made.append((name, list(checks())))
    return made


def main():
    wanted = sys.argv[1:] or crates()
    passed = failed = 0
    names = [program for _, program in [*built(wanted, OF_TESTS), *built(wanted, "")]]
    for name, ways, wrong in ways_to_memory(names):
        print(f"{name}: {wrong or f'it takes memory by {ways} alone, which are refused'}")
        passed, failed = passed + (wrong is None), failed + (wrong is not None)
    with tempfile.TemporaryDirectory(prefix="hsms-refusals-") as room, ThreadPoolExecutor(WORKERS) as pool:
        for what, checks in groups(wanted):
            refused = 0
            for check, (wrong, count) in zip(checks, pool.map(Refuser(room).each, checks)):
                print(f"{check.name}: {wrong or f'well with each of {count} allocations refused'}")
                passed, failed = passed + (wrong is None), failed + (wrong is not None)
                refused += count
            print(f"{what}: {len(checks)} series, {refused} allocations refused")
    print(f"{passed} passed, {failed} failed")
    return 1 if failed or not passed else 0


if __name__ == "__main__":
    sys.exit(main())
