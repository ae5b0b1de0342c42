"""Runs at a pseudo-terminal."""
import os
import pty
import subprocess
import termios
from typing import Dict, List, Optional, Tuple

from tests.support.command import LONGEST_RUN


def run_at_terminal(
    words: List[str], stream: str, env: Dict[str, Optional[str]], given: bytes = b"", **how
) -> Tuple[int, str]:
    """Returns the status of a run, and what it writes to `stdout` or `stderr`, which is a terminal. The other stream is
    not read. `env` changes the environment; a variable without a value is removed. `given` is at most 64 kB."""
    terminal, end = pty.openpty()
    settings = termios.tcgetattr(end)
    settings[1] &= ~termios.OPOST
    termios.tcsetattr(end, termios.TCSANOW, settings)
    changed = {name: value for name, value in {**os.environ, **env}.items() if value is not None}
    streams = {"stdout": subprocess.DEVNULL, "stderr": subprocess.DEVNULL, stream: end}
    process = subprocess.Popen(words, stdin=subprocess.PIPE, env=changed, **streams, **how)
    os.close(end)
    try:
        process.stdin.write(given)
        process.stdin.close()
    except BrokenPipeError:
        # (it did not read its input)
        pass
    told = b""
    try:
        while part := os.read(terminal, 65536):
            told += part
    except OSError:
        # (Linux answers so once nothing is left and no other end is open)
        pass
    os.close(terminal)
    return process.wait(LONGEST_RUN), told.decode()
