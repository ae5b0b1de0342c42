#!/usr/bin/env python3
"""Counts what a user must believe: the definitions of specs/ that the contract of each public promise reaches.

The promises are the rows of the table in docs/PROVED.md, "What you must believe". A contract is what the function
requires and ensures, the ghost members and clauses of each trait in its signature, and the model of each type there.
The script follows the names in a contract through the imports into specs/, and from definition to definition. It stops
at the kit's library and at the types of the sources; if such a type has a model, it follows the model. Each definition
counts once, by its lines without imports, comments and blank lines.

A promise fails if it reaches more definitions or lines than its row gives, or a type that is neither public nor named
in its row. A file of definitions fails if it imports a name that the script does not find in its definitions.

`believed.py CRATE::FUNCTION` lists what one promise reaches. `believed.py --write` writes today's counts into the
table. The last line is `N passed, M failed`.
"""
import glob
import os
import re
import sys
from dataclasses import dataclass

sys.dont_write_bytecode = True
sys.path.insert(0, os.path.abspath(f"{__file__}/../../.."))

from tests.support.command import TOP
from tests.support.contracts import Word, cited_by, defined, definitions_of, is_public, lines_of, names_of, reached_by

PAGE = f"{TOP}/docs/PROVED.md"
ROW = re.compile(r"^\| `(\w+::[\w:]+)` \| (\d+) \| (\d+) \| ?(.*?) ?\|$", re.M)

# ---- the table


@dataclass
class Reach:
    """What a promise reaches: definitions, their lines, and the types that are not public."""

    promise: str
    definitions: int
    lines: int
    private: list

    def row(self):
        private = "".join(f"`{name}`, " for name in self.private)[:-2]
        return f"| `{self.promise}` | {self.definitions} | {self.lines} | {private or '-'} |"

    def beyond(self, row):
        """Returns what a row does not allow."""
        for what, now, limit in (("definitions", self.definitions, row.definitions), ("lines", self.lines, row.lines)):
            if now > limit:
                yield f"it reaches {now} {what}, and its row gives {limit}"
        for name in self.private:
            if name not in row.private:
                yield f"it reaches {name}, which is not public"


def size_of(word):
    return len(definitions_of(*word[:2])[word.name].lines)


def reach_of(promise):
    words, types = reached_by(promise)
    private = sorted(f"{one.crate}::{one.name}" for one in types if not is_public(one))
    return Reach(promise, len(words), sum(map(size_of, words)), private)


def rows():
    for promise, definitions, lines, private in ROW.findall("\n".join(lines_of(PAGE))):
        yield Reach(promise, int(definitions), int(lines), sorted(re.findall(r"`([\w:]+)`", private)))


def promises():
    """Prints what each promise reaches. Returns for each one whether its row allows it."""
    for row in rows():
        reach = reach_of(row.promise)
        beyond = list(reach.beyond(row))
        private = f", {len(reach.private)} types that are not public" if reach.private else ""
        print(f"{row.promise}: {reach.definitions} definitions, {reach.lines} lines{private}")
        for fault in beyond:
            print(f"  {fault}")
        if not beyond and reach != row:
            print("  its row gives more: tests/tools/believed.py --write")
        yield not beyond


def files():
    """Returns for each file of specs/ whether the script finds in its definitions each name that the file imports."""
    for path in sorted(glob.glob(f"{TOP}/crates/*/specs/*.antt")):
        crate, file = path.split("/")[-3], os.path.basename(path)[:-5]
        names = names_of(crate, file)
        cited = {it for name in definitions_of(crate, file) for it in cited_by(Word(crate, file, name))}
        imported = {name: defined(it) for name, it in [*names.meaning.items(), *names.alias.items()] if defined(it)}
        missed = [name for name, it in imported.items() if it not in cited and it[:2] != (crate, file)]
        for name in missed:
            print(f"crates/{crate}/specs/{file}.antt imports {name}, which the script does not find in a definition")
        yield not missed


def check():
    results = [*promises(), *files()]
    print(f"{sum(results)} passed, {len(results) - sum(results)} failed")
    return 0 if all(results) and any(rows()) else 1


def list_reached(promise):
    """Prints each definition and type that a promise reaches."""
    words, types = reached_by(promise)
    for word in words:
        print(f"{size_of(word):4} {word.name} (crates/{word.crate}/specs/{word.file}.antt)")
    for one in types:
        print(f"type {one.name} (crates/{one.crate}/src/{one.module}.rt), {'' if is_public(one) else 'not '}public")


def write():
    """Writes today's counts into the table."""
    page = ROW.sub(lambda row: reach_of(row.group(1)).row(), "\n".join(lines_of(PAGE)))
    with open(PAGE, "w", encoding="utf-8") as file:
        file.write(page)


def main():
    if sys.argv[1:] == ["--write"]:
        write()
    elif sys.argv[1:]:
        list_reached(sys.argv[1])
    else:
        return check()
    return 0


if __name__ == "__main__":
    sys.exit(main())
