#!/usr/bin/env python3
"""Runs the commands that README.md, docs/, examples/ and tests/transcripts/ show, and compares their output.

A block that begins with ```console has commands. A command is a line that begins with `$ `, and the lines that follow
a backslash at its end. Its standard output and standard error are the lines below it. The commands run at the top of
the repository, with `hsms` on the path. Each document has a folder and a port of its own, in the variables `d` and `p`
that its first command sets for a reader. The logs of docs/RULES.md are audited too: each is the example of its rule,
and has the verdict that the page shows. `rt ci` has to have built the command. The last line is `N passed, M failed`.
"""
import glob
import os
import re
import subprocess
import sys
import tempfile

sys.dont_write_bytecode = True
sys.path.insert(0, os.path.abspath(f"{__file__}/../../.."))

from tests.support.command import TOP
from tests.support.documents import commands
from tests.support.serve_peers import free_port

SETTINGS = re.compile(r"^```\n(hsms-log .*\n)```$", re.M)
RULE = re.compile(r"^## \d+\. `(\w+)`\n(?:(?!^## ).*\n)*?```\n((?:.*\n)*?)```\n\n`(fail .*)`$", re.M)
RULES = 19


def catalogue(text):
    """Yields the commands that show and audit the example of each rule, and what the catalogue says that they write."""
    settings = SETTINGS.search(text).group(1)
    rules = RULE.findall(text)
    if len(rules) != RULES:
        raise ValueError(f"docs/RULES.md has {len(rules)} rules that can be read, not {RULES}")
    for name, log, verdict in rules:
        whole = log if log.startswith("hsms-log ") else settings + log
        if " .. (" not in whole:
            yield f"cat examples/rules/{name}.log", whole.rstrip("\n")
        yield f"hsms audit < examples/rules/{name}.log", verdict


def wrote(command, room):
    """What a command writes, on standard output and standard error."""
    env = {**os.environ, "PATH": f"{TOP}:{os.environ['PATH']}", "LC_ALL": "C.UTF-8", "d": room, "p": str(free_port())}
    ended = subprocess.run(
        ["sh", "-c", command], cwd=TOP, env=env, stdin=subprocess.DEVNULL,
        stdout=subprocess.PIPE, stderr=subprocess.STDOUT, timeout=120,
    )
    return ended.stdout.decode(errors="replace").rstrip("\n")


def main():
    passed = failed = 0
    folders = ("docs", "examples", "tests/transcripts")
    documents = [f"{TOP}/README.md", *(path for folder in folders for path in sorted(glob.glob(f"{TOP}/{folder}/*.md")))]
    for document in documents:
        with open(document) as file:
            text = file.read()
        shown = [*commands(text), *(catalogue(text) if document.endswith("/RULES.md") else [])]
        with tempfile.TemporaryDirectory() as room:
            for command, wanted in shown:
                answer = wrote(command, room)
                if answer == wanted:
                    passed += 1
                    continue
                failed += 1
                print(f"{os.path.relpath(document, TOP)}: $ {command}\nwanted:\n{wanted}\nwrote:\n{answer}")
    print(f"{passed} passed, {failed} failed")
    return 1 if failed or not passed else 0


if __name__ == "__main__":
    sys.exit(main())
