"""The programs that `rt ci` has built, and their answers."""
import os
import subprocess
import sys
from dataclasses import dataclass

TOP = os.path.abspath(f"{__file__}/../../..")
PROGRAM = f"{TOP}/crates/hsms_tool/out/hsms_tool"

# The program that feeds input lists to endpoints.
DRIVER = f"{TOP}/crates/hsms_ends_driver/out/hsms_ends_driver"

# The maximum size of a printed answer, in bytes.
LONGEST_SHOWN = 100_000

# The maximum time of a run, in seconds.
LONGEST_RUN = 120


@dataclass(frozen=True)
class Answer:
    """The status and the output of a run."""

    status: int
    output: bytes
    error: bytes

    def __str__(self):
        return f"status {self.status}, output {self.output[:LONGEST_SHOWN]!r}, error {self.error!r}"


def answer_of(words, given: bytes, program=PROGRAM, **how) -> Answer:
    """Runs the command, or another program, and returns its answer."""
    ran = subprocess.run([program, *words], input=given, capture_output=True, timeout=LONGEST_RUN, **how)
    return Answer(ran.returncode, ran.stdout, ran.stderr)


def program_given() -> str:
    """Returns the program that the first argument names, or the built one."""
    return sys.argv[1] if len(sys.argv) > 1 else PROGRAM


def call_failer(room: str) -> str:
    """Builds fail_calls.c in a folder, for LD_PRELOAD."""
    library = f"{room}/fail_calls.so"
    subprocess.run(["cc", "-shared", "-fPIC", "-O1", "-o", library, f"{TOP}/tests/support/fail_calls.c"], check=True)
    return library
