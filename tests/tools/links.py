#!/usr/bin/env python3
"""Checks the links and paths in the documents.

Each link to a file or a heading of this repository, and each path in code quotes, has to exist, except for what a
build creates. So do the files that CONTRIBUTING.md and docs/ARCHITECTURE.md name after a crate's folder, and the
crates, modules and definitions of the four flows. The last line is `N passed, M failed`.
"""
import glob
import os
import re
import sys

sys.dont_write_bytecode = True
sys.path.insert(0, os.path.abspath(f"{__file__}/../../.."))

from tests.support.command import TOP
from tests.support.documents import LINK

PATH = re.compile(r"`((?:bench|contrib|crates|docs|examples|tests|hsms_\w+|secs_\w+)/[\w./-]+)`")
LEFT_OUT = re.compile(r"\b(?:CRATE|NAME|MODULE)\b|/out/|/build\.log$")
HEADING = re.compile(r"^#+ (.*)$", re.M)
ITEM = re.compile(r"^- (?:.|\n(?!- |\n))*", re.M)
CRATE = re.compile(r"`(?:crates/)?((?:hsms|secs)_\w+)/")
FILE = re.compile(r"`((?:\w+\.)?\w+\.(?:rt|antt))`")
DEFINED = re.compile(r"^ *(?:(?:abbrev|unfoldable|pub|record|data) )+(\w+)", re.M)
MEMBER = re.compile(r"^ *ghost (\w+):", re.M)
ROW = re.compile(r"^(\w+|) +([a-z_]+(?:, [a-z_]+)*) {2,}(.*?)(?: {2,}(\S.*))?$", re.M)


def text_of(path):
    with open(f"{TOP}/{path}", encoding="utf-8") as file:
        return file.read()


def anchor_of(heading):
    """How a heading is named in a link."""
    return re.sub(r"[^\w\- ]", "", heading.replace("`", "").strip().lower()).replace(" ", "-")


def documents():
    found = ["README.md", "CONTRIBUTING.md", "CHANGELOG.md", "bench/README.md", "examples/README.md"]
    return found + sorted(os.path.relpath(path, TOP) for path in glob.glob(f"{TOP}/docs/**/*.md", recursive=True))


def leads(document, link):
    """Whether a link of a document leads to a file, and to a heading of it where it names one."""
    path, _, anchor = link.partition("#")
    target = os.path.normpath(os.path.join(os.path.dirname(document), path)) if path else document
    if not os.path.exists(f"{TOP}/{target}"):
        return False
    return not anchor or anchor in {anchor_of(it) for it in HEADING.findall(text_of(target))}


def links():
    for document in documents():
        for link in LINK.findall(text_of(document)):
            if not link.startswith(("http:", "https:")):
                yield f"{document}: ({link})", leads(document, link)


def paths():
    for document in documents():
        for path in PATH.findall(text_of(document)):
            if not LEFT_OUT.search(path):
                place = f"crates/{path}" if path.startswith(("hsms_", "secs_")) else path
                yield f"{document}: {path}", os.path.exists(f"{TOP}/{place}")


def files_of_items():
    """The files that an item of a list names after the folder of a crate."""
    for document in ("CONTRIBUTING.md", "docs/ARCHITECTURE.md"):
        for item in ITEM.findall(text_of(document)):
            crates = CRATE.findall(item)
            for name in FILE.findall(item) if crates else []:
                folder = "specs" if name.endswith(".antt") else "src"
                found = any(os.path.exists(f"{TOP}/crates/{crate}/{folder}/{name}") for crate in crates)
                yield f"{document}: {crates[0]}, {name}", found


def definitions():
    """The names that specs/ define, and the ghost members of traits."""
    found = set()
    for path in glob.glob(f"{TOP}/crates/*/specs/*.antt"):
        found.update(DEFINED.findall(text_of(os.path.relpath(path, TOP))))
    for path in glob.glob(f"{TOP}/crates/*/src/**/*.rt", recursive=True):
        found.update(MEMBER.findall(text_of(os.path.relpath(path, TOP))))
    return found


def ways():
    """The crates, modules and definitions of the four ways."""
    defined, crate = definitions(), ""
    for block in re.findall(r"```text\n +module .*\n((?:.*\n)*?)```", text_of("docs/ARCHITECTURE.md")):
        for first, modules, _, words in ROW.findall(block):
            crate = first or crate
            for module in modules.split(", "):
                yield f"ARCHITECTURE.md: {crate}, {module}", os.path.exists(f"{TOP}/crates/{crate}/src/{module}.rt")
            for name in re.findall(r"\w+", re.sub(r" of \w+$|nothing: tested", "", words)):
                yield f"ARCHITECTURE.md: {crate}, {name}", name in defined


def main():
    passed = failed = 0
    for told, found in [*links(), *paths(), *files_of_items(), *ways()]:
        passed += found
        failed += not found
        if not found:
            print(f"{told} isn't there")
    print(f"{passed} passed, {failed} failed")
    return 1 if failed or not passed else 0


if __name__ == "__main__":
    sys.exit(main())
