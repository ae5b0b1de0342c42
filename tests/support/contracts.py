"""Contracts and definitions as text: what the clauses of a function cite, and what definitions of `specs/` reach.

The names in a contract are followed through the imports into `specs/`, and from definition to definition, up to the kit's
library and the types of the sources. If such a type has a model, the model is followed.
"""
import functools
import glob
import os
import re
from collections import namedtuple
from dataclasses import dataclass, field

from tests.support.command import TOP

# A definition of specs/, and a type of the sources.
Word = namedtuple("Word", "crate file name")
Type = namedtuple("Type", "crate module name")

IMPORT = re.compile(r"^ *(?:ghost )?use Rattle\.([\w.]+?)(?:\.\{(.*)\})?(?: as (\w+))?;?$")
BEGINS = re.compile(r"^ *(?:(?:abbrev|unfoldable|pub|record|data) )*([^\s(){}:]+)(?= |$)")
KIND = re.compile(r"^ *(?:(?:abbrev|unfoldable|pub) )*(record|data) ")
HEADED = re.compile(r"^ *(?:(?:abbrev|unfoldable|pub|record|data)\b|[^\s(){}:]+ : )")
MEMBER = re.compile(r"^ *(?:pub )?([^\s(){}:]+) : ")
TOKEN = re.compile(r"[^\W\d][\w'\-»]*|«\w+»|[^\s\w(){}.,;:«»λ]+|[.(){};:λ]")
BOUND = re.compile(r"[({]([^\W\d][\w' «»]*?) :(?= |$)|λ ([^.()]*)\.|\blet ([\w']+)\b", re.M)
EQUALS = re.compile(r"\s=(?=\s)")
CLAUSES = re.compile(r"^ *(?:ensures|requires)\b", re.M)


def lines_of(path):
    with open(path, encoding="utf-8") as file:
        return file.read().split("\n")


def indent_of(line):
    return len(line) - len(line.lstrip())


@dataclass
class Names:
    """The names that a file can use, each with what it means. A pattern binds no name of `constructors`."""

    meaning: dict = field(default_factory=dict)
    alias: dict = field(default_factory=dict)
    constructors: set = field(default_factory=set)

    def copy(self):
        return Names(dict(self.meaning), dict(self.alias), set(self.constructors))

    def take_in(self, line):
        """Adds the names of an import."""
        path, listed, alias = IMPORT.match(line).groups()
        target = target_of(path)
        if alias:
            self.alias[alias] = target
            return
        for part in listed.split(","):
            name, _, here = part.strip().replace("◌", "").partition(" as ")
            self.meaning[here or name] = meant_by(target, name)
            if "TheVariants" in path or target is None or owner_of(target, name) != name:
                self.constructors.add(here or name)


def target_of(path):
    """Returns the type or the file of specs/ that an import's path leads to, or None in the kit's library."""
    crate, *parts = path.split(".")
    if parts[:1] != ["specs"] or parts[1] == "contracts" or not os.path.isdir(f"{TOP}/crates/{crate}"):
        return None
    if parts[1] != "declared":
        return crate, parts[1]
    parts = [part for part in parts[2:] if part not in ("TheVariants", "TheOpen")]
    return Type(crate, "/".join(parts[:-1]), parts[-1])


def meant_by(target, name):
    """Returns the definition or the type that a name of an import means."""
    return Word(*target, name) if target and not isinstance(target, Type) else target


def owner_of(target, name):
    """Returns the name of the definition that defines a name: itself, or a datatype of which it is a constructor."""
    if isinstance(target, Type):
        return name
    definitions = definitions_of(*target)
    if name in definitions:
        return name
    for definition in definitions.values():
        if name in definition.members:
            return definition.name
    raise SystemExit(f"crates/{target[0]}/specs/{target[1]}.antt: {name} is not defined there")


@dataclass
class Definition:
    name: str
    kind: str
    indent: int
    lines: list = field(default_factory=list)
    members: list = field(default_factory=list)

    def add(self, line):
        self.lines.append(line)
        member = MEMBER.match(line)
        if self.kind and member and len(self.lines) > 1 and indent_of(line) == self.indent + 2:
            self.members.append(member.group(1))

    def is_piece_start(self, line, has_where):
        """Whether a line begins a member, an equation, or a line of a helper after `where`."""
        if self.kind:
            return indent_of(line) == self.indent + 2 and bool(MEMBER.match(line))
        if has_where and indent_of(line) == self.indent + 4:
            return True
        return line.startswith(" " * self.indent + self.name + " ") or line.strip() == "where"

    def pieces(self):
        """Returns the text of the signature, and of each member or equation."""
        found, has_where = [[]], False
        for line in self.lines:
            if found[-1] and self.is_piece_start(line, has_where):
                found.append([])
            found[-1].append(line)
            has_where = has_where or line.strip() == "where"
        return ["\n".join(piece) for piece in found]

    def local(self, pieces):
        """Returns the names that hold in each piece: of helpers, or of the parameters and fields of a record."""
        if self.kind:
            return bound_in(pieces[0]) | set(self.members) if self.kind == "record" else set()
        return {member.group(1) for member in map(MEMBER.match, pieces[1:]) if member}


@functools.lru_cache(None)
def definitions_of(crate, file):
    """Reads the definitions of a file of specs/, by name."""
    found, last, is_mutual = {}, None, False
    for line in lines_of(f"{TOP}/crates/{crate}/specs/{file}.antt"):
        if not line.strip() or line.lstrip().startswith("--") or line.startswith(("use ", "infix")):
            continue
        if line in ("mutual", "abbrev mutual"):
            is_mutual = True
            continue
        is_mutual = is_mutual and line.startswith(" ")
        if indent_of(line) == (2 if is_mutual else 0) and HEADED.match(line):
            kind = KIND.match(line)
            name = BEGINS.match(line).group(1).replace("◌", "")
            last = found[name] = Definition(name, kind.group(1) if kind else "", indent_of(line))
        if not last:
            raise SystemExit(f"crates/{crate}/specs/{file}.antt: no definition begins at: {line}")
        last.add(line)
    return found


@functools.lru_cache(None)
def names_of(crate, file):
    """Returns the names that a file of specs/ can use."""
    names = Names()
    for line in lines_of(f"{TOP}/crates/{crate}/specs/{file}.antt"):
        if line.startswith("use "):
            names.take_in(line)
    for definition in definitions_of(crate, file).values():
        constructors = definition.members if definition.kind == "data" else []
        names.meaning.update({name: Word(crate, file, definition.name) for name in [definition.name, *constructors]})
        names.constructors.update(constructors)
    return names


def defined(meaning):
    """Returns the definition or the type that a name means, of a constructor its datatype."""
    if isinstance(meaning, Word):
        return meaning._replace(name=owner_of(meaning[:2], meaning.name))
    return meaning if isinstance(meaning, Type) else None


def bound_in(text):
    """Returns the variables that a text binds."""
    return {name for found in BOUND.findall(text) for name in " ".join(found).split()}


def tokens_of(text):
    # A point before a blank ends what a λ binds; any other one is before a field.
    return TOKEN.findall(re.sub(r"\.(?=\s)", ":", text))


def cited_in(text, names, bound):
    """Returns what a text names: definitions and types."""
    found, tokens = set(), ["", *tokens_of(text), "", ""]
    for before, token, after, member in zip(tokens, tokens[1:], tokens[2:], tokens[3:]):
        if before == "." or token in bound or (after == "=" and before in "{;"):
            continue
        if after == "." and token in names.alias:
            found.add(meant_by(names.alias[token], member))
        else:
            found.add(names.meaning.get(token))
    return {defined(it) for it in found} - {None}


def left_of(equation):
    """Returns the left side of an equation; a signature has none."""
    depth = 0
    for place, sign in enumerate(equation):
        depth += (sign in "({") - (sign in ")}")
        if depth == 0 and EQUALS.match(equation, place):
            return equation[:place]
    return ""


@functools.lru_cache(None)
def cited_by(word):
    """Returns what a definition names."""
    definition, names = definitions_of(*word[:2])[word.name], names_of(*word[:2])
    head, *others = definition.pieces()
    found = cited_in(head.partition(definition.name)[2], names, bound_in(head))
    local = definition.local([head, *others])
    for piece in others:
        if definition.kind:
            piece = MEMBER.sub("", piece, 1)
        left = "" if definition.kind else left_of(piece)
        variables = {it for it in tokens_of(left) if it not in names.constructors and it not in names.alias}
        found |= cited_in(piece, names, bound_in(piece) | local | variables)
    return found - {word}


# ---- the sources


@dataclass
class Source:
    """A file of a crate, with the crates and modules that its types come from."""

    crate: str
    module: str

    def __post_init__(self):
        self.lines = lines_of(f"{TOP}/crates/{self.crate}/src/{self.module}.rt")
        self.names = names_with(self.lines, Names(), 0)
        self.uses = self.paths("use")
        self.exports = self.paths("pub use")

    def paths(self, begins):
        """Returns the names of the lines that begin so, each with the path that it comes from."""
        found = {}
        import_line = rf"^{begins} ([\w:]+)::(?:{{([^}}]*)}}|(\w+));"
        for path, listed, one in re.findall(import_line, "\n".join(self.lines), re.M):
            path = re.sub(r"^(crate|self)\b", self.crate, path)
            found.update({name: path for name in re.findall(r"\w+", listed or one)})
        return found

    def blocks(self):
        """Returns the lines of each `impl` and `trait`."""
        for at, line in enumerate(self.lines):
            if re.match(r"(?:pub )?(?:impl|trait)\b", line):
                yield block_at(self.lines, at)


def block_at(lines, at):
    found = []
    for line in lines[at:]:
        found.append(line)
        if line.rstrip() == "}" or (len(found) == 1 and line.endswith("}")):
            break
    return found


def names_with(lines, names, indent):
    """Returns the names with those that lines of this indent import."""
    names = names.copy()
    for line in lines:
        if line.startswith(" " * indent + "ghost use "):
            names.take_in(line)
    return names


@functools.lru_cache(None)
def sources_of(crate):
    paths = glob.glob(f"{TOP}/crates/{crate}/src/**/*.rt", recursive=True)
    return [Source(crate, os.path.relpath(path, f"{TOP}/crates/{crate}/src")[:-3]) for path in sorted(paths)]


def cited_in_block(block, source):
    """Returns what the members and clauses of an `impl Model` or of a trait name."""
    text = "\n".join(line for line in block if not line.strip().startswith(("//", "ghost use")))
    text = re.sub(r"\bghost (?:Value|view|invariant)\b", "", text)
    return cited_in(text, names_with(block, source.names, 4), bound_in(text))


@functools.lru_cache(None)
def models_and_traits():
    """Returns what the model of each type and what each trait names, and the source and the traits above each trait."""
    cited, above = {}, {}
    for crate in sorted(os.listdir(f"{TOP}/crates")):
        for source in sources_of(crate):
            for block in source.blocks():
                model = re.match(r"impl(?:<.*>)? Model for (\w+)", block[0])
                trait = re.match(r"pub trait (\w+)(.*)", block[0])
                if model or trait:
                    of = Type(crate, source.module, (model or trait).group(1))
                    cited[of] = cited_in_block(block, source)
                    above[of] = source, re.findall(r"\b[A-Z]\w*", trait.group(2)) if trait else []
    return cited, above


def home_of(name, source):
    """Returns the crate that a source has a name of a type or a trait from."""
    crate = source.uses.get(name, source.crate).split("::")[0]
    for lib in sources_of(crate):
        exported = lib.exports.get(name, "").split("::")[0] if lib.module == "lib" else ""
        if exported and os.path.isdir(f"{TOP}/crates/{exported}"):
            return exported
    return crate


def cited_by_types(words, source):
    """Returns what the models and traits name that these words of a source mean."""
    cited, above = models_and_traits()
    found = set()
    for of, names in cited.items():
        if of.name in words and of.crate == home_of(of.name, source):
            found |= names | cited_by_types(above[of][1], above[of][0])
    return found


def function_at(lines, at):
    """Returns the signature and the clauses of a function."""
    found = []
    for line in lines[at:]:
        if line == " " * indent_of(lines[at]) + "{":
            break
        if not line.strip().startswith("//"):
            found.append(line)
    return "\n".join(found)


def find(promise):
    """Returns the source of a promise, its text, and the names that it can use."""
    crate, *owner, name = promise.split("::")
    for source in sources_of(crate):
        blocks = source.blocks() if owner else [["", *source.lines]]
        for block in blocks:
            indent = 4 if owner else 0
            for at, line in enumerate(block):
                is_here = not owner or re.match(rf"impl\b.*\b{owner[0]}\b", block[0])
                if is_here and re.match(rf"{' ' * indent}pub fn {name}\b", line):
                    return source, function_at(block, at), names_with(block, source.names, indent)
    raise SystemExit(f"{promise}: no such function")


def reached_by(promise):
    """Returns the definitions and the types that the contract of a promise reaches."""
    source, text, names = find(promise)
    clauses = CLAUSES.search(text)
    signature, clauses = text[: clauses.start()], text[clauses.start() :]
    todo = cited_in(clauses, names, bound_in(clauses))
    todo |= cited_by_types({*re.findall(r"\b[A-Z]\w*", signature), *promise.split("::")[1:-1]}, source)
    found = set()
    while todo:
        one = todo.pop()
        found.add(one)
        todo |= (cited_by(one) if isinstance(one, Word) else models_and_traits()[0].get(one, set())) - found
    return sorted(it for it in found if isinstance(it, Word)), sorted(it for it in found if isinstance(it, Type))


def is_public(one):
    """Whether a crate exports a type."""
    of_module = {source.module: source for source in sources_of(one.crate)}
    *above, last = ["lib", *one.module.split("/")]
    if of_module["lib"].exports.get(one.name) == "::".join([*above[1:], last]):
        return True
    files = ["lib", *("/".join(above[1 : count + 1]) for count in range(1, len(above)))]
    return all(f"pub mod {part};" in of_module[file].lines for file, part in zip(files, [*above[1:], last]))
