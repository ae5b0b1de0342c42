#!/usr/bin/env python3
"""Writes docs/explain.png, the page of `hsms explain --format html` for examples/many-failures.log.

The message of line 9 is unfolded. It needs the program that `rt ci` has built, and Chromium or Chrome.

Use: tests/tools/picture.py [FILE]
"""
import os
import shutil
import subprocess
import sys
import tempfile

sys.dont_write_bytecode = True
sys.path.insert(0, os.path.abspath(f"{__file__}/../../.."))

from tests.support.command import TOP, answer_of

BROWSERS = ["chromium", "chromium-browser", "google-chrome", "chrome"]
WIDTH, HEIGHT = 1100, 1530
UNFOLDED = b' id="l9"'


def page():
    """Returns the page, with the message of one line unfolded."""
    with open(f"{TOP}/examples/many-failures.log", "rb") as file:
        output = answer_of(["explain", "--format", "html"], file.read()).output
    before, line, after = output.partition(UNFOLDED)
    return before + line + after.replace(b"<details>", b"<details open>", 1)


def main():
    target = os.path.abspath(sys.argv[1] if len(sys.argv) > 1 else f"{TOP}/docs/explain.png")
    browser = next(filter(None, map(shutil.which, BROWSERS)), None)
    if browser is None:
        print(f"picture: none of {', '.join(BROWSERS)} is on the path", file=sys.stderr)
        return 2
    options = ["--headless", "--disable-gpu", "--hide-scrollbars", f"--window-size={WIDTH},{HEIGHT}"]
    options += ["--no-sandbox"] if os.geteuid() == 0 else []
    with tempfile.TemporaryDirectory() as folder:
        with open(f"{folder}/page.html", "wb") as file:
            file.write(page())
        shown = [f"--user-data-dir={folder}/user", f"--screenshot={target}", f"file://{folder}/page.html"]
        return subprocess.run([browser, *options, *shown], timeout=120).returncode


if __name__ == "__main__":
    sys.exit(main())
