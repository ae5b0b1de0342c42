#!/usr/bin/env python3
"""Runs the command on inputs and outputs that fail, fill, close or move one byte at a time.

Standard output is a full disk, a file with each maximum length in turn, a pipe that closes after each byte in turn,
with SIGPIPE as usual and ignored, or closed from the start; each write fails once in turn. Then the status is 3,
standard error is the one line `hsms: Write`, and the output is a prefix of the usual output, with nothing after the
failed write. Standard input is a folder, or closed; each read fails once in turn. Then the line is `hsms: Read`, and
the output is complete lines of `show`, `explain` and `capture`, and otherwise empty.

It runs what `rt ci` has built. The last line is `N passed, M failed`.
"""
import fcntl
import os
import resource
import signal
import subprocess
import sys
import tempfile

sys.dont_write_bytecode = True
sys.path.insert(0, os.path.abspath(f"{__file__}/../../.."))

from tests.support.command import LONGEST_RUN, PROGRAM, TOP, Answer, answer_of, call_failer

NO_WRITE = (3, b"hsms: Write\n")
NO_READ = (3, b"hsms: Read\n")

# The words of the command, and the file that it reads.
SMALL = [
    (["show"], "examples/session.bin"),
    (["show", "--hex"], "examples/session.hex"),
    (["show", "--hex"], "examples/odd.hex"),
    (["encode"], "examples/session.txt"),
    (["encode", "--hex"], "examples/report.txt"),
    (["audit"], "examples/session.log"),
    (["audit"], "examples/late-reply.log"),
    (["compare", "-", f"{TOP}/tests/compare/skipped-equipment.log"], "tests/compare/skipped-host.log"),
    (["explain"], "examples/late-reply.log"),
    (["explain", "--utc"], "examples/late-reply.log"),
    (["explain", "--format", "json"], "examples/late-reply.log"),
    (["capture", "--t3", "1000"], "examples/late-reply.pcap"),
    (["capture", "--log", "equipment"], "examples/late-reply.pcap"),
    (["capture", "--midstream", "--log", "host"], "tests/captures/joined-status-1.pcap"),
    (["capture"], "tests/captures/running.pcap"),
    (["capture", "-", "/dev/null"], "examples/late-reply.pcap"),
    (["capture", "--format", "json"], "tests/captures/running.pcap"),
    (["show"], "examples/cut-off.bin"),
]

# The least that a pipe holds, and how much the command holds back, in bytes.
PIPE = 4096
BUFFER = 65_536


class Run:
    """Words, what is read, and what is answered otherwise."""

    def __init__(self, words, given):
        self.words = words
        self.given = given
        self.ample = answer_of(words, given)

    def __str__(self):
        return f"hsms {' '.join(self.words)}, {len(self.given)} octets"

    def into(self, output, **how):
        """Runs the command with this standard output, and says its status and what standard error is."""
        ran = subprocess.run(
            [PROGRAM, *self.words], input=self.given, stdout=output, stderr=subprocess.PIPE, timeout=LONGEST_RUN, **how
        )
        return ran.returncode, ran.stderr

    def without(self, file):
        """Runs the command with one of its three files closed."""
        return answer_of(self.words, self.given, preexec_fn=lambda: os.close(file))


def runs():
    """Runs with a small output, and one whose output is many times what pipes and the command hold."""
    made = []
    for words, file in SMALL:
        with open(f"{TOP}/{file}", "rb") as input_file:
            made.append(Run(words, input_file.read()))
    many = Run(made[0].words, made[0].given * 1000)
    return made, many


def places(length):
    """Each place in a small output; in a large one those at its ends, and around those where something is full."""
    if length < 1000:
        return range(length)
    edges = (0, PIPE, BUFFER, 2 * BUFFER, length)
    return sorted({place for edge in edges for place in range(edge - 3, edge + 4) if 0 <= place < length})


def full_device(run):
    with open("/dev/full", "wb") as full:
        yield "a full device", run.into(full) == NO_WRITE
        ran = subprocess.run([PROGRAM, *run.words], input=run.given, stdout=full, stderr=full, timeout=LONGEST_RUN)
        yield "a full device for both", ran.returncode == NO_WRITE[0]


def file_that_fills(run, room):
    """A file may have that many bytes, and the call that would pass this writes a part or nothing."""
    for place in places(len(run.ample.output)):

        def limit(most=place):
            signal.signal(signal.SIGXFSZ, signal.SIG_IGN)
            resource.setrlimit(resource.RLIMIT_FSIZE, (most, most))

        with open(f"{room}/output", "w+b") as output:
            told = run.into(output, preexec_fn=limit)
            output.seek(0)
            written = output.read()
        yield f"a file of {place} octets", told == NO_WRITE and written == run.ample.output[:place]


def pipe_that_closes(run, place, is_ignored):
    """Runs the command into a pipe from which that many bytes are read before it closes; says what was read too."""
    reading, writing = os.pipe()
    fcntl.fcntl(writing, fcntl.F_SETPIPE_SZ, PIPE)

    def at_start():
        signal.signal(signal.SIGPIPE, signal.SIG_IGN if is_ignored else signal.SIG_DFL)

    with tempfile.TemporaryFile() as given:
        given.write(run.given)
        given.seek(0)
        if place == 0:
            os.close(reading)
        command = subprocess.Popen(
            [PROGRAM, *run.words], stdin=given, stdout=writing, stderr=subprocess.PIPE, preexec_fn=at_start
        )
    os.close(writing)
    read = b""
    while len(read) < place:
        read += os.read(reading, place - len(read))
    if place > 0:
        os.close(reading)
    error = command.communicate(timeout=LONGEST_RUN)[1]
    return (command.returncode, error), read


def pipes_that_close(run):
    """Of a small output all would be in the pipe before it closes, so there it closes before the command writes."""
    length = len(run.ample.output)
    for place in [0] if length < PIPE else [*range(100), *places(length - 2 * PIPE)]:
        for is_ignored in (False, True):
            told, read = pipe_that_closes(run, place, is_ignored)
            is_well = told == NO_WRITE and read == run.ample.output[:place]
            yield f"a pipe that closes after {place} octets, SIGPIPE {'ignored' if is_ignored else 'as ever'}", is_well


def folder_as_input(run):
    folder = os.open("/", os.O_RDONLY)
    ran = subprocess.run([PROGRAM, *run.words], stdin=folder, capture_output=True, timeout=LONGEST_RUN)
    os.close(folder)
    yield "a folder as its input", (ran.returncode, ran.stdout, ran.stderr) == (NO_READ[0], b"", NO_READ[1])


def closed_files(run):
    yield "no standard input", run.without(0) == Answer(NO_READ[0], b"", NO_READ[1])
    yield "no standard output", run.without(1) == Answer(NO_WRITE[0], b"", NO_WRITE[1])
    yield "no standard error", run.without(2) == Answer(run.ample.status, run.ample.output, b"")


def calls_that_fail(run, room, library):
    """Each call moves a byte; then each write fails in turn, and each read: every second one as if a signal came."""
    told = f"{room}/refused"
    env = {"LD_PRELOAD": library, "REFUSED": told, "ONE_OCTET": "1"}
    yield "an octet at a time", answer_of(run.words, run.given, env=env) == run.ample
    for place in range(len(run.ample.output)):
        answer = answer_of(run.words, run.given, env={**env, **failing("WRITE", place)})
        wanted = Answer(NO_WRITE[0], run.ample.output[:place], NO_WRITE[1])
        yield f"a write that fails after {place} octets", answer == wanted
    for place in range(len(run.given) + 1):
        if os.path.exists(told):
            os.remove(told)
        answer = answer_of(run.words, run.given, env={**env, **failing("READ", place)})
        stopped = (answer.status, answer.error) == NO_READ and answer.output in fronts(run)
        yield f"a read that fails after {place} octets", stopped if os.path.exists(told) else answer == run.ample


def failing(what, place):
    """The environment in which the call after that many bytes fails."""
    return {f"REFUSE_{what}": str(place + 1), "INTERRUPTED": str(place % 2)}


def fronts(run):
    """What may be written before a read fails: whole lines of `show`, `explain` and `capture`, else nothing."""
    lines = run.ample.output.splitlines(keepends=True) if run.words[0] in ("show", "explain", "capture") else []
    return [b"".join(lines[:count]) for count in range(len(lines) + 1)]


def checks(room):
    """Each check with its name, and whether it was passed."""
    small, many = runs()
    library = call_failer(room)
    told = Run(["--help"], b"")
    yield from named(told, full_device(told))
    for run in [*small, many]:
        for series in (full_device(run), file_that_fills(run, room), pipes_that_close(run), folder_as_input(run)):
            yield from named(run, series)
    for run in small:
        yield from named(run, closed_files(run))
        yield from named(run, calls_that_fail(run, room, library))


def named(run, series):
    return ((f"{run}: {name}", is_well) for name, is_well in series)


def main():
    passed = failed = 0
    with tempfile.TemporaryDirectory(prefix="hsms-devices-") as room:
        for name, is_well in checks(room):
            passed, failed = passed + is_well, failed + (not is_well)
            if not is_well:
                print(name)
    print(f"{passed} passed, {failed} failed")
    return 1 if failed or not passed else 0


if __name__ == "__main__":
    sys.exit(main())
