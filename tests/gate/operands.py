#!/usr/bin/env python3
"""Checks commands that name their input on the command line, against the same input at standard input.

With one file, or with `-`, each command answers as it does with that standard input. With several files `show` and
`encode` answer for each in turn, and `audit` writes a line for each and one with the counts. `capture` answers of files
in all formats and link types, in any order, as of one with their packets, up to the first that cannot be read. Files that
are missing, unreadable, folders or cut off are tried, options after files, `--`, and names that begin with a dash.

It runs what `rt ci` has built, or the given program. The last line is `N passed, M failed`.
"""
import glob
import os
import re
import struct
import subprocess
import sys
import tempfile

sys.dont_write_bytecode = True
sys.path.insert(0, os.path.abspath(f"{__file__}/../../.."))

from tests.support.command import LONGEST_RUN, TOP, Answer, program_given
from tests.support.comparisons import status_of
from tests.support.pcap_writer import LINKS, MORE_FORMS, Capture

PROGRAM = program_given()

# The words of a command, and a file that it reads.
ONE = [
    (["show"], "examples/session.bin"),
    (["show"], "examples/cut-off.bin"),
    (["show", "--hex"], "examples/session.hex"),
    (["show", "--max", "256"], "examples/late-reply.pcap"),
    (["encode"], "examples/session.txt"),
    (["encode", "--hex", "--system", "7"], "examples/report.txt"),
    (["encode"], "examples/session.log"),
    (["audit"], "examples/session.log"),
    (["audit"], "examples/late-reply.log"),
    (["audit"], "examples/session.bin"),
    (["explain"], "examples/late-reply.log"),
    (["explain", "--format", "json"], "examples/late-reply.log"),
    (["explain", "--only", "failures"], "examples/late-reply.log"),
    (["capture", "--t3", "1000"], "examples/late-reply.pcap"),
    (["capture", "--log", "equipment"], "examples/late-reply.pcap"),
    (["capture"], "examples/session.log"),
]

PASS = b"pass entries=5 sent=2 taken=2 discarded=0 expired=0 waiting=0\n"
FAIL = b"fail line=6 rule=T3Overdue\n"
GARBLED = b"fail line=1 unreadable\n"
INVALID = Answer(2, b"", b"hsms: command line\n")

WHY_MISSING = b"no such file: check its name\n"
WHY_FOLDER = b"this is a directory: name the files in it\n"
WHY_BARRED = b"no permission to read this file\n"


def answer(words, given=b"", **how):
    ran = subprocess.run([PROGRAM, *words], input=given, capture_output=True, timeout=LONGEST_RUN, **how)
    return Answer(ran.returncode, ran.stdout, ran.stderr)


def read(name):
    with open(f"{TOP}/{name}", "rb") as file:
        return file.read()


def of_file(expected, name):
    """The answer if a file is named: an error of its input has the name."""
    if not expected.error.startswith(b"hsms: "):
        return expected
    line, rest = expected.error.split(b"\n", 1)
    return Answer(expected.status, expected.output, line + b" file=" + os.fsencode(name) + b"\n" + rest)


def one_file():
    for words, file in ONE:
        given, path = read(file), f"{TOP}/{file}"
        for more in ([], ["-v"]):
            expected = answer([*words, *more], given)
            called = f"hsms {' '.join([*words, *more])}, {file}"
            yield f"{called}: -", answer([*words, "-", *more], given), expected
            yield f"{called}: a file", answer([*words, path, *more]), of_file(expected, path)
            yield f"{called}: a file before the options", answer([words[0], path, *words[1:], *more]), of_file(expected, path)
            yield f"{called}: after --", answer([*words, *more, "--", path]), of_file(expected, path)
        # (standard input is not read, so it may be closed)
        closed = answer([*words, path], preexec_fn=lambda: os.close(0))
        yield f"hsms {' '.join(words)}, {file}: standard input closed", closed, of_file(answer(words, given), path)


def no_file(room):
    """Files that cannot be opened."""
    folder, missing, barred = f"{room}/folder", f"{room}/missing", f"{room}/barred"
    os.mkdir(folder)
    with open(barred, "wb"):
        pass
    os.chmod(barred, 0)
    places = [(folder, WHY_FOLDER), (missing, WHY_MISSING), (f"{barred}/x", b"this file cannot be opened: check its name and its permissions\n")]
    if not os.access(barred, os.R_OK):
        places.append((barred, WHY_BARRED))
    places.append(("", WHY_MISSING))
    for words in (["show"], ["encode"], ["audit"], ["explain"], ["capture"]):
        for place, why in places:
            line = b"hsms: Open file=" + os.fsencode(place) + b"\n"
            yield f"hsms {words[0]} {place!r}", answer([*words, place]), Answer(2, b"", line)
            yield f"hsms {words[0]} -v {place!r}", answer([*words, place, "-v"]), Answer(2, b"", line + why)


def on_the_command_line(room):
    """Names that look like options, and commands with too many files."""
    for name in ("-v", "--max", "-"):
        with open(f"{room}/{name}", "wb") as file:
            file.write(read("examples/session.log"))
    yield "./-v", answer(["audit", "./-v"], cwd=room), Answer(0, PASS, b"")
    yield "./-", answer(["audit", "./-"], cwd=room), Answer(0, PASS, b"")
    yield "-- --max", answer(["audit", "--", "--max"], cwd=room), Answer(0, PASS, b"")
    yield "--max", answer(["audit", "--max"], cwd=room), INVALID
    # (-v is a request for explanations at any position)
    yield "-- -v", answer(["audit", "--", "-v"], read("examples/session.log"), cwd=room), Answer(0, PASS, b"")
    for words in (["explain", "a", "b"], ["serve", "a"], ["audit", "--quit"], ["show", "--quiet"]):
        yield " ".join(words), answer(words), INVALID


def not_utf8():
    """Words that are not UTF-8: a file, an option, and the value of one."""
    why = b": this word is not UTF-8: rename the file, or read it from standard input\n"
    for words, shown in (
        (["audit", b"caf\xe9.log"], "caf\ufffd.log"), (["audit", b"\xff", "a.log"], "\ufffd"), ([b"sh\xc3"], "sh\ufffd"),
        (["audit", "caf\u00e9", b"--qu\xe9"], "--qu\ufffd"), (["capture", "--peer", b"\x80\x80"], "\ufffd\ufffd"),
    ):
        yield f"not UTF-8: {words}", answer(words), INVALID
        told = Answer(2, b"", INVALID.error + shown.encode() + why)
        yield f"not UTF-8: {words} -v", answer([*words, "-v"]), told
        yield f"not UTF-8: -v {words}", answer(["--verbose", *words]), told


def several(room):
    bin_file, text_file = f"{TOP}/examples/session.bin", f"{TOP}/examples/session.txt"
    shown, encoded = answer(["show"], read("examples/session.bin")), answer(["encode"], read("examples/session.txt"))
    cut = f"{TOP}/examples/cut-off.bin"
    cut_off = answer(["show"], read("examples/cut-off.bin"))
    yield "show a a", answer(["show", bin_file, bin_file]), Answer(0, 2 * shown.output, b"")
    yield "show a -", answer(["show", bin_file, "-"], read("examples/session.bin")), Answer(0, 2 * shown.output, b"")
    failed = Answer(cut_off.status, shown.output + cut_off.output, b"hsms: CutOff file=" + cut.encode() + b"\n")
    yield "show a cut-off a", answer(["show", bin_file, cut, bin_file]), failed
    missing = Answer(2, shown.output, b"hsms: Open file=missing\n")
    yield "show a missing a", answer(["show", bin_file, "missing", bin_file], cwd=room), missing
    yield "encode a a", answer(["encode", text_file, text_file]), Answer(0, 2 * encoded.output, b"")


def audits(room):
    names = {"pass.log": PASS, "fail.log": FAIL, "garbled.log": GARBLED}
    for name, file in (("pass.log", "session.log"), ("fail.log", "late-reply.log"), ("garbled.log", "session.bin")):
        with open(f"{room}/{name}", "wb") as made:
            made.write(read(f"examples/{file}"))

    def audit(*words, given=b"", more=()):
        return answer(["audit", *words, *more], given, cwd=room)

    def lines(*files):
        return b"".join(name.encode() + b": " + names[name] for name in files)

    counts = b"logs passed=1 failed=2 unopened=0\n"
    all_lines = lines("pass.log", "fail.log", "garbled.log")
    yield "three logs", audit(*names), Answer(1, all_lines + counts, b"")
    yield "passing logs", audit("pass.log", "pass.log"), Answer(
        0, lines("pass.log", "pass.log") + b"logs passed=2 failed=0 unopened=0\n", b""
    )
    yield "a log and -", audit("pass.log", "-", given=read("examples/late-reply.log")), Answer(
        1, lines("pass.log") + b"-: " + FAIL + b"logs passed=1 failed=1 unopened=0\n", b""
    )
    yield "a missing one", audit("missing", "fail.log", "pass.log"), Answer(
        2, lines("fail.log", "pass.log") + b"logs passed=1 failed=1 unopened=1\n", b"hsms: Open file=missing\n"
    )
    told = audit("missing", "garbled.log", more=["-v"])
    yield "with -v", Answer(told.status, told.output, b""), Answer(
        2, lines("garbled.log") + b"logs passed=0 failed=1 unopened=1\n", b""
    )
    front = b"hsms: Open file=missing\n" + WHY_MISSING + b"garbled.log: line 1, "
    yield "with -v, its texts", told.error[: len(front)], front
    for quiet in (["--quiet"], ["--quiet", "-v"]):
        yield "--quiet, passing", audit("pass.log", more=quiet), Answer(0, b"", b"")
        yield "--quiet, failing", audit("fail.log", more=quiet), Answer(1, lines("fail.log"), b"")
        late = read("examples/late-reply.log")
        for names_none in ([], ["-"]):
            yield "--quiet, failing input", audit(*names_none, given=late, more=quiet), Answer(1, FAIL, b"")
        yield "--quiet, standard input", audit(given=read("examples/session.log"), more=quiet), Answer(0, b"", b"")
        yield "--quiet, several", audit("pass.log", "fail.log", "pass.log", more=quiet), Answer(1, lines("fail.log"), b"")
        yield "--quiet, all pass", audit("pass.log", "pass.log", more=quiet), Answer(0, b"", b"")
    yield "--quiet, missing", audit("missing", more=["--quiet"]), Answer(2, b"", b"hsms: Open file=missing\n")
    many = 1000 * ["pass.log"]
    yield "a thousand", audit(*many), Answer(0, 1000 * lines("pass.log") + b"logs passed=1000 failed=0 unopened=0\n", b"")
    with open("/dev/full", "wb") as full:
        ran = subprocess.run(
            [PROGRAM, "audit", "pass.log", "fail.log"], cwd=room, stdout=full, stderr=subprocess.PIPE, timeout=LONGEST_RUN
        )
    yield "a full device", (ran.returncode, ran.stderr), (3, b"hsms: Write\n")
    folder = f"{room}/more"
    os.mkdir(folder)
    yield "a folder", audit("more", "pass.log"), Answer(
        2, lines("pass.log") + b"logs passed=1 failed=0 unopened=1\n", b"hsms: Open file=more\n"
    )


def records(octets):
    """The IP packets of a pcap file with microseconds in little endian: their time, their bytes, and their length."""
    assert octets[:4] == b"\xd4\xc3\xb2\xa1", octets[:4]
    at, front, found = 24, {1: 14, 101: 0}[octets[20]], []
    while at < len(octets):
        seconds, micros, held, had = struct.unpack_from("<IIII", octets, at)
        found.append((10**6 * seconds + micros, octets[at + 16 + front : at + 16 + held], had - front))
        at += 16 + held
    return found


def spread(found):
    """The packets, each a millisecond or more later than the one before."""
    later, last = [], 0
    for time, octets, had in found:
        last = max(time, last + 1000)
        later.append((last, octets, had))
    return later


def in_form(found, form, link="raw"):
    """A capture file of these packets."""
    capture = Capture(form, link, any(octets[0] >> 4 == 6 for _, octets, _ in found))
    front = capture.link_header()
    for time, octets, had in found:
        capture.packet(time, front + octets.ljust(had, b"\0"), len(front + octets))
    return bytes(capture.octets)


def without_times(found):
    """A capture file of these packets in simple packet blocks, which have no times."""
    capture = Capture("pcapng<", "raw")
    for _, octets, had in found:
        assert len(octets) == had, had
        capture.octets += capture.block(3, struct.pack("<I", had) + octets)
    return bytes(capture.octets)


def in_series(told, names, counts, named=None):
    """The answer on several files, from that on one with all their packets: `counts` of them are in each, in order. An
    error names no file, or the one that cannot be read."""
    starts, first = b"", 1
    for name, count in zip(names, counts):
        if count:
            starts += f"# from packet {first}: {name}\n".encode()
        first += count
    lines = told.output.splitlines(keepends=True)
    unjudged = lines.pop() if lines and lines[-1].startswith(b"# not judged: ") else b""
    error = told.error if named is None else told.error[:-1] + f" file={named}\n".encode()
    return Answer(told.status, b"".join(lines) + starts + unjudged, error)


def captures(room):
    """Captures that are cut into files."""

    def put(name, octets):
        with open(f"{room}/{name}", "wb") as file:
            file.write(octets)
        return name

    def capture(*words, given=b""):
        return answer(["capture", *words], given, cwd=room)

    # (the writer rounds times up to the milliseconds of one interface of `two`)
    forms = [form for form in MORE_FORMS if "two" not in form]
    for place, more in (("examples/late-reply.pcap", ["--t3", "1000"]), ("tests/captures/devices.pcap", ["--midstream"])):
        found = spread(records(read(place)))
        whole = capture(*more, given=in_form(found, "pcap<"))
        log = capture(*more, "--log", "host", given=in_form(found, "pcap<"))
        cuts = [0, len(found) // 3, len(found) // 3, 2 * len(found) // 3, len(found)]
        parts = [found[low:high] for low, high in zip(cuts, cuts[1:])]
        counts = [len(part) for part in parts]
        for turn, form in enumerate(forms):
            # (each file in a form and with a link type of its own)
            names = [
                put(f"{at}.{turn}", in_form(part, forms[(turn + at) % len(forms)], list(LINKS)[(turn + at) % len(LINKS)]))
                for at, part in enumerate(parts)
            ]
            expected = in_series(whole, names, counts)
            for order in (names, names[::-1], names[2:] + names[:2]):
                yield f"{place} {form}: {order}", capture(*more, *order), expected
            yield f"{place} {form}: log", capture(*more, "--log", "host", *names), in_series(log, names, counts)
            for at, name in enumerate(names):
                rest = names[:at] + names[at + 1 :]
                with open(f"{room}/{name}", "rb") as file:
                    given = file.read()
                wanted = in_series(whole, ["-" if it == name else it for it in names], counts)
                yield f"{place} {form}: - for {name}", capture(*more, *rest, "-", given=given), wanted
        yield f"{place}: standard input twice", capture("0.0", "-", "-"), INVALID
        once = Answer(2, b"", b"hsms: command line\nstandard input can be read once: name - once\n")
        yield f"{place}: why not twice", capture("-", "0.0", "-", "-v"), once
        yield f"{place}: missing", capture("0.0", "missing"), Answer(2, b"", b"hsms: Open file=missing\n")
        yield f"{place}: folder", capture("0.0", ".", "-v"), Answer(2, b"", b"hsms: Open file=.\n" + WHY_FOLDER)
        names = [put(f"{at}.one", in_form([packet], "pcap<")) for at, packet in enumerate(found)]
        wanted = in_series(whole, names, [1] * len(found))
        yield f"{place}: a file for each packet", capture(*more, *names[::-1]), wanted
        # (times are compared in milliseconds, and files with equal ones stay as they are named)
        equal = [put(f"{at}.equal", in_form([(found[0][0] + 999 - at, *packet[1:])], "pcap<")) for at, packet in enumerate(found)]
        told = capture(*more, given=b"".join([in_form([], "pcap<"), *(in_form([(found[0][0], *it[1:])], "pcap<")[24:] for it in found)]))
        yield f"{place}: equal times", capture(*more, *equal), in_series(told, equal, [1] * len(found))
        yield from broken(room, place, more, found, put, capture)


def broken(room, place, more, found, put, capture):
    """Series with files that cannot be read to their ends."""
    half = len(found) // 2
    front, rest = in_form(found[:half], "pcap<"), in_form(found[half:], "pcapng>")
    put("front", front), put("rest", rest)
    faults = {
        "cut off": (front[:-3], half - 1),
        "cut off behind a packet": (front + b"\1", half),
        "too long": (front + bytes(8) + b"\xff" * 8, half),
    }
    for called, (octets, count) in faults.items():
        name, told = put("fault", octets), capture(*more, given=octets)
        named = name if told.error.startswith((b"hsms: CutOff", b"hsms: Capture")) else None
        yield f"{place}: {called}", capture(*more, "rest", name), in_series(told, [name], [count], named)
    # (a file without a packet is the last, and one that is cut off ends the capture)
    both, counts = ["front", "rest"], [half, len(found) - half]
    whole = capture(*more, given=in_form(found, "pcap<"))
    bare = put("bare", in_form([], "pcap>"))
    yield f"{place}: no packets", capture(*more, bare, *both), in_series(whole, both, counts)
    for called, octets in (("empty", b""), ("cut in its header", front[:20]), ("cut in its first packet", front[:50])):
        name = put("none", octets)
        cut = capture(*more, given=in_form(found, "pcap<") + b"\1")
        wanted = in_series(cut, both, counts, name if cut.error == b"hsms: CutOff\n" else None)
        yield f"{place}: {called}", capture(*more, name, *both), wanted
    bare_ng = put("bare.pcapng", in_form([], "pcapng<"))
    wanted = Answer(2, b"", b"hsms: NoConnection\n")
    yield f"{place}: no packets at all", capture(bare, bare_ng), wanted
    garbage = put("garbage", b"no capture at all, but a text that is long enough")
    refused = capture(given=b"no capture at all, but a text that is long enough")
    yield f"{place}: no capture", capture("front", garbage), of_file(Answer(2, b"", refused.error), garbage)
    twice = capture(*more, given=in_form(found + found, "pcap<"))
    put("all", in_form(found, "nanoseconds>"))
    yield f"{place}: one file twice", capture(*more, "all", "all"), in_series(twice, ["all", "all"], 2 * [len(found)])
    piped = subprocess.run(
        ["bash", "-c", '"$0" capture "${@:1}" <(cat rest) <(cat front)', PROGRAM, *more], cwd=room, capture_output=True,
        timeout=LONGEST_RUN,
    )
    told = re.sub(rb"/dev/fd/\d+", b"pipe", piped.stdout)
    yield f"{place}: pipes", Answer(piped.returncode, told, piped.stderr), in_series(whole, ["pipe", "pipe"], counts)
    timeless = without_times(found[half:])
    put("timeless", timeless)
    told = capture(*more, given=in_form(found[:half], "pcapng<") + timeless)
    yield f"{place}: no times", capture(*more, "timeless", "front"), in_series(told, ["front", "timeless"], counts)


def kept_captures(room):
    """Each capture of the tests, in a series with a file that has no packets: what is said of it is the same."""
    with open(f"{room}/bare", "wb") as file:
        file.write(in_form([], "pcap<"))
    for path in sorted(glob.glob(f"{TOP}/tests/captures/*.pcap") + glob.glob(f"{TOP}/examples/*.pcap")):
        for more in ([], ["--midstream"], ["--log", "equipment"]):
            with open(path, "rb") as file:
                told = answer(["capture", *more], file.read())
            named = path if told.error.startswith((b"hsms: CutOff", b"hsms: Capture")) else None
            wanted = in_series(told, [path], [1], named)
            yield f"{os.path.basename(path)} {more}", answer(["capture", *more, "bare", path], cwd=room), wanted


def tries():
    yield from one_file()
    yield from not_utf8()
    for part in (no_file, on_the_command_line, several, audits, captures, kept_captures):
        with tempfile.TemporaryDirectory() as room:
            yield from part(room)


if __name__ == "__main__":
    sys.exit(status_of(tries()))
