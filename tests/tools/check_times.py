#!/usr/bin/env python3
"""Lists the functions that took longest in the last check of a crate with one job.

The times are those at which the check wrote its files in out/incremental. Files that an earlier check kept do not
count.

Use: tests/tools/check_times.py CRATE [HOW MANY]
"""
import os
import re
import sys
from collections import Counter

sys.dont_write_bytecode = True
sys.path.insert(0, os.path.abspath(f"{__file__}/../../.."))

from tests.support.command import TOP

# How a kept file is named: by its library, the path of the function, and what it is of the function's proof.
KEPT = re.compile(r"Rattle-\w+-(?:proofs|specs)\.(.*)\.(\w[\w+-]*)\.oantt$")

# A gap of this many seconds without a file is between two checks, not within one.
BETWEEN = 30


def kept_files(crate):
    """When each kept file was written, and its name, in order."""
    top = f"{TOP}/crates/{crate}/out/incremental"
    folders = [f"{top}/{it}" for it in os.listdir(top)] if os.path.isdir(top) else []
    files = [(os.stat(f"{folder}/{name}").st_mtime, name) for folder in folders for name in os.listdir(folder)]
    return sorted(it for it in files if it[1].endswith(".oantt"))


def seconds_by_function(files):
    """How many seconds went into the files of each function, and into those of each kind."""
    of_function, of_kind = Counter(), Counter()
    for (before, _), (now, name) in zip(files, files[1:]):
        if now - before < BETWEEN:
            path, kind = KEPT.match(name).groups() if KEPT.match(name) else (name, "")
            of_function[path] += now - before
            of_kind[kind] += now - before
    return of_function, of_kind


def main():
    if not 2 <= len(sys.argv) <= 3:
        print(__doc__)
        return 2
    of_function, of_kind = seconds_by_function(kept_files(sys.argv[1]))
    many = int(sys.argv[2]) if len(sys.argv) > 2 else 20
    print(f"{sum(of_function.values()):7.1f} s in all; of it", ", ".join(f"{s:.0f} {kind}" for kind, s in of_kind.most_common(4)))
    for path, seconds in of_function.most_common(many):
        print(f"{seconds:7.1f} s {path}")
    return 0


if __name__ == "__main__":
    sys.exit(main())
