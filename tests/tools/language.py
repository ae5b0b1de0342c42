#!/usr/bin/env python3
"""Checks the language of the sources, definitions and pages: banned phrases, frequent coined words, and length.

A banned phrase fails in comments and strings of `src/`, in comments of `specs/`, and in the pages. Each word of `RARE` may
occur fewer than 30 times in all of these together. README.md has at most 120 lines, and the pages at most 35,000 words. A
word has a letter or a digit: the bars of a table and the dashes of a list are none.
`OPEN` lists the crates that are still to be rewritten: they are not checked. The last line is `N passed, M failed`.
"""
import glob
import os
import re
import sys
from collections import Counter

sys.dont_write_bytecode = True
sys.path.insert(0, os.path.abspath(f"{__file__}/../../.."))

from tests.support.command import TOP


BANNED = [
    "thrown away", "gone on with", "told whole", "want of memory", "whom", "what becomes of", "so many", "lawful", "supposed",
    "second reading",
]
RARE = ["told", "tells", "stands", "behind"]
LEAST_TOO_MANY = 30
LINES_OF_README = 120
WORDS_OF_PAGES = 35_000

# The crates whose comments and strings are still to be rewritten.
OPEN = ["capture_log", "capture_midstream", "cli_capture"]

# A comment, a string or a character of a source, and a comment of a definition.
PART = re.compile(r"""//([^\n]*)|b?"((?:[^"\\]|\\.)*)"|b?'(?:[^'\\]|\\.)'""", re.S)
COMMENT = re.compile(r"--([^\n]*)")
CODE = re.compile(r"`[^`\n]*`")


def text_of(path):
    with open(path, encoding="utf-8") as file:
        return file.read()


def pages():
    found = ["README.md", "CONTRIBUTING.md", "CHANGELOG.md"]
    return [f"{TOP}/{name}" for name in found] + sorted(glob.glob(f"{TOP}/docs/**/*.md", recursive=True))


def texts():
    """Yields each path with its prose, in small letters: of a source its comments and strings."""
    for path in sorted(glob.glob(f"{TOP}/crates/*/src/**/*.rt", recursive=True)):
        if path.split("/crates/")[1].split("/")[0] not in OPEN:
            yield path, "\n".join((it[1] or it[2] or "") for it in PART.finditer(text_of(path))).lower()
    for path in sorted(glob.glob(f"{TOP}/crates/*/specs/*.antt")):
        if path.split("/crates/")[1].split("/")[0] not in OPEN:
            yield path, "\n".join(COMMENT.findall(text_of(path))).lower()
    for path in pages():
        yield path, re.sub(r"^```.*?^```", "", text_of(path), flags=re.M | re.S).lower()


def results():
    """Yields for each rule whether it holds; prints what breaks it."""
    counts, places = Counter(), {}
    for path, text in texts():
        prose = CODE.sub("", text)
        found = [it for it in BANNED if re.search(rf"\b{it}\b", prose)]
        for phrase in found:
            print(f"{os.path.relpath(path, TOP)}: {phrase!r}")
        yield not found
        for word in RARE:
            here = len(re.findall(rf"\b{word}\b", prose))
            counts[word] += here
            places.setdefault(word, Counter())[os.path.relpath(path, TOP)] += here
    for word in RARE:
        if counts[word] >= LEAST_TOO_MANY:
            most = ", ".join(f"{path} {count}" for path, count in places[word].most_common(8))
            print(f"{word!r} occurs {counts[word]} times: {most}")
        yield counts[word] < LEAST_TOO_MANY
    lines = text_of(f"{TOP}/README.md").count("\n")
    if lines > LINES_OF_README:
        print(f"README.md has {lines} lines")
    yield lines <= LINES_OF_README
    words = sum(bool(re.search(r"[^\W_]", it)) for path in pages() for it in text_of(path).split())
    if words > WORDS_OF_PAGES:
        print(f"the pages have {words} words")
    yield words <= WORDS_OF_PAGES


def main():
    found = list(results())
    print(f"{sum(found)} passed, {len(found) - sum(found)} failed")
    return 0 if all(found) else 1


if __name__ == "__main__":
    sys.exit(main())
