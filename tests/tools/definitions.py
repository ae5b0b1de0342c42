#!/usr/bin/env python3
"""Writes docs/DEFINITIONS.md: the definitions that public contracts cite, by the comments in the crates' specs/.

A definition that no public contract reaches is in a file Inner*, and nothing else is there. The script checks that too.

A definition is listed if a clause of an exported function cites it, or the model of an exported type does. Its text is the
first sentence of the comment above it. Definitions that only others cite are explained in specs/, and laws
in the module `laws` of their crate.

`definitions.py --write` writes the page; without it the script compares the page with what it would write, and checks the
files of definitions. The last line is `N passed, M failed`.
"""
import glob
import os
import re
import sys

sys.dont_write_bytecode = True
sys.path.insert(0, os.path.abspath(f"{__file__}/../../.."))

from tests.support.command import TOP
from tests.support.contracts import (
    CLAUSES, Type, Word, bound_in, cited_by, cited_in, cited_in_block, definitions_of, function_at, is_public, lines_of,
    models_and_traits, names_with, sources_of,
)

PAGE = f"{TOP}/docs/DEFINITIONS.md"
BEGIN, END = "<!-- generated: python3 tests/tools/definitions.py --write -->", "<!-- end -->"

# The crates in the order of the page, each with its heading. Crates of tests, those that only `hsms capture` or `hsms
# explain` uses, and those that no command uses yet, are omitted.
CRATES = {
    "secs_item": "Items",
    "secs_text": "Notation",
    "hsms_frame": "Messages and I/O",
    "hsms_machine": "The session machine",
    "hsms_log": "Log text and verdicts",
    "hsms_endpoint": "One endpoint",
    "hsms_ends": "A served connection",
    "cli_options": "Options and errors of the command",
    "cli_output": "Lines of output",
    "cli_show": "`hsms show`",
    "cli_filters": "`hsms audit` and `hsms encode`",
    "cli_explain": "`hsms explain`",
    "cli_serve": "`hsms serve`",
    "cli_capture": "`hsms capture`",
}


def exported_by(crate):
    """Returns the names that a crate exports, each with the last module of its path."""
    lib = next(it for it in sources_of(crate) if it.module == "lib")
    return {name: path.split("::")[-1] for name, path in lib.exports.items()}


def is_exported(source, block, line):
    """Whether a crate exports a function of a source: it is named so, or its type is. A law is exported."""
    own = re.search(r"\bfn (\w+)", line)[1]
    of_type = re.match(r"impl(?:<.*?>)? (?:[\w<>, ']+ for )?(\w+)", block[0])
    exported = exported_by(source.crate)
    return source.module == "laws" or (of_type[1] in exported if of_type else exported.get(own) == source.module.split("/")[-1])


def clauses_of(source):
    """Yields the clauses of each public function of a source, and the names that they can use."""
    for block, indent in [(source.lines, 0), *((block, 4) for block in source.blocks())]:
        names = names_with(block, source.names, indent)
        for at, line in enumerate(block):
            if re.match(rf"{' ' * indent}pub fn \w", line) and is_exported(source, block if indent else [""], line):
                text = function_at(block, at)
                clauses = CLAUSES.search(text)
                if clauses:
                    yield text[clauses.start() :], names


def cited_in_crate(crate):
    """Returns what the public functions and the models of the public types of a crate cite."""
    found = set()
    for source in sources_of(crate):
        for clauses, names in clauses_of(source):
            found |= cited_in(clauses, names, bound_in(clauses))
    for of, cited in models_and_traits()[0].items():
        if of.crate == crate and is_public(of):
            found |= cited
    return found


def cited_by_impls(crate):
    """Returns what the impls of traits for the public types of a crate name."""
    found = set()
    for source in sources_of(crate):
        for block in source.blocks():
            impl = re.match(r"(?:unsafe )?impl(?:<.*?>)? [\w:<>, ']+ for (\w+)", block[0])
            if impl and is_public(Type(crate, source.module, impl[1])):
                found |= cited_in_block(block, source)
    return found


def reached(crates):
    """Returns the definitions that the public contracts of these crates reach."""
    todo = set().union(*(cited_in_crate(crate) | cited_by_impls(crate) for crate in crates))
    found = set()
    while todo:
        one = todo.pop()
        found.add(one)
        todo |= (cited_by(one) if isinstance(one, Word) else models_and_traits()[0].get(one, set())) - found
    return found


def misplaced():
    """Yields for each file of definitions those that it should not have."""
    paths = sorted(glob.glob(f"{TOP}/crates/*/specs/*.antt"))
    public = reached(sorted({path.split("/")[-3] for path in paths}))
    for path in paths:
        crate, file = path.split("/")[-3], os.path.basename(path)[:-5]
        if file not in ("Lib", "Laws"):
            is_inner = file.startswith("Inner")
            yield path, [it for it in definitions_of(crate, file) if (Word(crate, file, it) in public) == is_inner]


def comment_above(crate, file, name):
    """Returns the comment above a definition, as one line."""
    lines = lines_of(f"{TOP}/crates/{crate}/specs/{file}.antt")
    first = definitions_of(crate, file)[name].lines[0]
    at = lines.index(first)
    found = []
    while at > 0 and lines[at - 1].strip().startswith("-- "):
        at -= 1
        found.insert(0, lines[at].strip()[3:])
    return " ".join(it for it in found if not it.startswith("----"))


def sentence_of(comment):
    """Returns the first sentence of a comment, with a capital and a full stop."""
    first = re.split(r"(?<=[.;:]) (?=[A-Z(`])", comment)[0].rstrip(":;")
    if not first:
        return ""
    return first[0].upper() + first[1:] + ("" if first.endswith(".") else ".")


def part_of(crate, words):
    """Yields the lines of a crate's part."""
    yield f"## {CRATES[crate]}"
    yield ""
    for file in sorted({word.file for word in words} - {"Laws"}):
        names = [name for name in definitions_of(crate, file) if Word(crate, file, name) in words]
        sentences = {name: sentence_of(comment_above(crate, file, name)) for name in names}
        alone = ", ".join(f"`{name}`" for name in names if not sentences[name])
        yield f"`crates/{crate}/specs/{file}.antt`:" + (f" {alone}" if alone else "")
        yield ""
        listed = [f"- `{it}`: {sentences[it].replace('Holds if ', 'if ', 1)}" for it in names if sentences[it]]
        yield from [*listed, ""] if listed else []


def generated():
    cited = {it for crate in CRATES for it in cited_in_crate(crate) if isinstance(it, Word)}
    parts = [line for crate in CRATES for line in part_of(crate, {it for it in cited if it.crate == crate})]
    return "\n".join([BEGIN, "", *parts, END])


def main():
    page = "\n".join(lines_of(PAGE))
    wanted = re.sub(rf"{re.escape(BEGIN)}.*?{re.escape(END)}", lambda _: generated(), page, flags=re.S)
    if sys.argv[1:] == ["--write"]:
        with open(PAGE, "w", encoding="utf-8") as file:
            file.write(wanted)
        return 0
    is_same = BEGIN in page and wanted == page
    if not is_same:
        print("docs/DEFINITIONS.md differs from the definitions' comments: tests/tools/definitions.py --write")
    results = [is_same]
    for path, names in misplaced():
        if names:
            other = "a public contract reaches" if "/Inner" in path else "no public contract reaches"
            print(f"{os.path.relpath(path, TOP)}: {other} {', '.join(names)}")
        results.append(not names)
    print(f"{sum(results)} passed, {len(results) - sum(results)} failed")
    return 0 if all(results) else 1


if __name__ == "__main__":
    sys.exit(main())
