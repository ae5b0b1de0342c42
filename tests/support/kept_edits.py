"""Results of must-fail edits, kept on this machine for each crate by a sum of all that its checks read.

The sum is over the kit, the scripts that try the edits, the crate's sources, definitions, proofs and edits, and those of
the crates below it. A kept result holds in each checkout on this machine.
"""
import hashlib
import os
import subprocess
from typing import Iterator

from tests.support.build_dirs import READ, TOP, crates_below, crates_listed

FOLDER = os.path.join(os.environ.get("XDG_CACHE_HOME") or os.path.expanduser("~/.cache"), "hsms-edits")
SCRIPTS = ("tests/tools/edits.py", "tests/support/build_dirs.py", "tests/support/kept_edits.py")


def files_in(folder: str) -> Iterator[str]:
    """Yields the paths of the files in a folder, in order."""
    for at, folders, names in os.walk(f"{TOP}/{folder}"):
        folders.sort()
        yield from (os.path.relpath(f"{at}/{name}", TOP) for name in sorted(names))


def files_read(crate: str) -> Iterator[str]:
    """Yields the paths of all files that the checks of a crate's edits read."""
    yield from SCRIPTS
    for name in sorted({crate, *crates_below(crate, crates_listed())}):
        for part in READ:
            yield from files_in(f"crates/{name}/{part}")
    yield from files_in(f"crates/{crate}/must-fail")
    yield from files_in(f"tests/must-fail/{crate}")
    yield from files_in("tests/equivalent")


def kit() -> bytes:
    """Returns the identity of the kit."""
    return subprocess.run(["rt", "version"], stdout=subprocess.PIPE, check=False).stdout


def sum_of(crate: str) -> str:
    """Returns the sum of all that the checks of a crate's edits read."""
    total = hashlib.sha256(kit())
    for path in files_read(crate):
        with open(f"{TOP}/{path}", "rb") as file:
            octets = file.read()
        total.update(f"{path} {len(octets)}\n".encode())
        total.update(octets)
    for name in sorted({crate, *crates_below(crate, crates_listed())}):
        total.update(f"{name}: {crates_listed()[name]}\n".encode())
    return total.hexdigest()


def path_of(crate: str, total: str) -> str:
    return os.path.join(FOLDER, f"{crate}-{total[:40]}")


def passed_before(crate: str, total: str) -> int:
    """Returns the number of edits that passed with this sum, or 0."""
    try:
        with open(path_of(crate, total), encoding="ascii") as file:
            return int(file.read())
    except (OSError, ValueError):
        return 0


def keep(crate: str, total: str, passed: int) -> None:
    """Keeps the number of passed edits, if nothing that was read has changed since. Without a folder to write to, it
    keeps nothing.
    """
    if not passed or sum_of(crate) != total:
        return
    try:
        os.makedirs(FOLDER, exist_ok=True)
        with open(path_of(crate, total), "w", encoding="ascii") as file:
            file.write(f"{passed}\n")
    except OSError:
        pass
