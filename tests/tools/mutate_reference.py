#!/usr/bin/env python3
"""Mutates each number, order and condition of the reference, and lists the mutants that no input notices.

Use: tests/tools/mutate_reference.py [--workers N] [--share N] [MODULE[:LINE]..]. A wrong definition passes every proof
if the code is wrong in the same way. The reference guards against that, as far as its inputs reach the place. So the
reference itself is mutated here. A definition and code with the same mutation would behave like the mutant, and the
gate would notice if the mutant answers one of the gate's inputs otherwise. By default each of these modules is
mutated: items, messages, notation, session, ends, linktest. SHARE is the part of the gate's random inputs that are
used (default: a tenth); the edge cases and the tables are always used. The gate's inputs for `--linktest` depend on
the clock. Here logs of endpoints replace them, every second one with a linktest too early or too late.

Numbers change by one in both directions. Comparisons become their neighbours. Conditions are dropped, as a whole or in
part, and hold always or never. Elements of lists are dropped, and neighbours are swapped. Annotations and texts stay.

It runs by hand, and takes half an hour. Each mutant that nothing noticed is printed with its line; some mean the same
as the original. The last line is `N mutants, M unnoticed`.
"""
import argparse
import ast
import copy
import importlib
import os
import pickle
import random
import signal
import sys
import tempfile
import types
from collections import Counter
from concurrent.futures import ThreadPoolExecutor
from typing import Callable, Iterator, List, Tuple

sys.dont_write_bytecode = True
sys.path.insert(0, os.path.abspath(f"{__file__}/../../.."))

from tests.support.command import TOP

PACKAGE = "tests.support.reference"

# The modules that are mutated, each with the kinds of inputs that reach it, the likeliest first.
KINDS_OF = {
    "items": ["show", "encode", "audit"],
    "messages": ["show", "encode", "audit", "driven"],
    "notation": ["encode", "show", "driven"],
    "session": ["audit", "driven"],
    "ends": ["driven", "tested"],
    "linktest": ["tested"],
}

# The maximum time of a mutant on all inputs, in seconds.
LONGEST = 600

# A mutation of a node of the syntax tree: its description, and a function that returns the new node.
Mutation = Tuple[str, Callable[[ast.AST], ast.AST]]

NEIGHBOURS = {
    ast.Lt: ast.LtE, ast.LtE: ast.Lt, ast.Gt: ast.GtE, ast.GtE: ast.Gt, ast.Eq: ast.NotEq, ast.NotEq: ast.Eq,
    ast.In: ast.NotIn, ast.NotIn: ast.In, ast.Is: ast.IsNot, ast.IsNot: ast.Is, ast.Add: ast.Sub, ast.Sub: ast.Add,
    ast.Mult: ast.Add, ast.And: ast.Or, ast.Or: ast.And,
}
OPPOSITES = {"any": "all", "all": "any", "min": "max", "max": "min"}


def changed(**fields) -> Callable[[ast.AST], ast.AST]:
    """A node with these fields in place of its own."""
    def change(node):
        for name, value in fields.items():
            setattr(node, name, value)
        return node
    return change


def without(items: list, at: int) -> list:
    return items[:at] + items[at + 1:]


def swapped(items: list, at: int) -> list:
    return items[:at] + [items[at + 1], items[at]] + items[at + 2:]


def leaves(statement: ast.AST) -> bool:
    """Whether a statement is an `if` that leaves the function."""
    return isinstance(statement, ast.If) and isinstance(statement.body[-1], (ast.Return, ast.Raise))


def mutations_of(node: ast.AST) -> Iterator[Mutation]:
    """Yields each mutation of a node."""
    if isinstance(node, ast.Compare) and len(node.ops) == 1 and type(node.ops[0]) in NEIGHBOURS:
        yield "the comparison", changed(ops=[NEIGHBOURS[type(node.ops[0])]()])
    if isinstance(node, (ast.BinOp, ast.BoolOp)) and type(node.op) in NEIGHBOURS:
        yield "the operator", changed(op=NEIGHBOURS[type(node.op)]())
    if isinstance(node, ast.BoolOp):
        for at in range(len(node.values)):
            rest = without(node.values, at)
            yield f"without part {at + 1}", (lambda _, rest=rest: rest[0]) if len(rest) == 1 else changed(values=rest)
    if isinstance(node, ast.UnaryOp) and isinstance(node.op, ast.Not):
        yield "without `not`", lambda node: node.operand
    if isinstance(node, ast.Constant) and isinstance(node.value, bool):
        yield "the other truth", changed(value=not node.value)
    elif isinstance(node, ast.Constant) and isinstance(node.value, int):
        yield "one more", changed(value=node.value + 1)
        yield "one less", changed(value=node.value - 1)
    if isinstance(node, (ast.If, ast.IfExp)):
        yield "always", changed(test=ast.Constant(True))
        yield "never", changed(test=ast.Constant(False))
    if isinstance(node, (ast.Tuple, ast.List, ast.Set)) and isinstance(getattr(node, "ctx", ast.Load()), ast.Load):
        for at in range(len(node.elts) if len(node.elts) > 1 else 0):
            yield f"without element {at + 1}", changed(elts=without(node.elts, at))
        for at in range(len(node.elts) - 1):
            yield f"elements {at + 1} and {at + 2} swapped", changed(elts=swapped(node.elts, at))
    if isinstance(node, ast.Name) and node.id in OPPOSITES:
        yield OPPOSITES[node.id], changed(id=OPPOSITES[node.id])
    body = getattr(node, "body", None)
    for at in range(len(body) - 1 if isinstance(body, list) else 0):
        if leaves(body[at]) and leaves(body[at + 1]):
            yield f"lines {body[at].lineno} and {body[at + 1].lineno} swapped", changed(body=swapped(body, at))


class Mutator(ast.NodeTransformer):
    """Counts the nodes of a tree, and mutates one of them."""

    def __init__(self, place: int, mutation: Callable[[ast.AST], ast.AST]):
        self.place, self.mutation, self.count = place, mutation, -1

    def visit(self, node):
        self.count += 1
        here = self.count
        node = self.generic_visit(node)
        return self.mutation(node) if here == self.place else node


def nodes_of(tree: ast.AST) -> Iterator[ast.AST]:
    """The nodes of a tree in the order in which a Mutator counts them."""
    yield tree
    for child in ast.iter_child_nodes(tree):
        yield from nodes_of(child)


def tree_of(module: str) -> ast.AST:
    with open(f"{TOP}/tests/support/reference/{module}.py", encoding="utf-8") as file:
        return ast.parse(file.read())


def annotations_of(tree: ast.AST) -> set:
    """The nodes of annotations and decorators, which are not mutated."""
    fields = [getattr(node, name, None) for node in ast.walk(tree) for name in ("annotation", "returns")]
    fields += [each for node in ast.walk(tree) for each in getattr(node, "decorator_list", [])]
    typed = [node.value for node in ast.walk(tree) if isinstance(node, ast.Assign) and is_type(node.value)]
    return {id(node) for field in [*fields, *typed] if field is not None for node in ast.walk(field)}


def is_type(value: ast.AST) -> bool:
    return isinstance(value, ast.Subscript) and isinstance(value.value, ast.Name) and value.value.id[:1].isupper()


def all_mutations(module: str, line: int) -> List[Tuple[int, int, str]]:
    """The place of each node that can be mutated, the number of the mutation, and its description."""
    tree = tree_of(module)
    kept, unordered, found, last = annotations_of(tree), unordered_in(tree), [], 0
    for place, node in enumerate(nodes_of(tree)):
        last = getattr(node, "lineno", last)
        if id(node) not in kept and line in (0, last):
            found += [(place, number, f"{module}.py:{last}: {what}: {shown(node)}")
                      for number, (what, _) in enumerate(mutations_of(node))
                      if id(node) not in unordered or not what.endswith("swapped")]
    return found


def unordered_in(tree: ast.AST) -> set:
    """The nodes whose elements have no order: what something is looked for in."""
    compared = (node for node in ast.walk(tree) if isinstance(node, ast.Compare))
    return {id(node.comparators[-1]) for node in compared if isinstance(node.ops[-1], (ast.In, ast.NotIn))}


def shown(node: ast.AST) -> str:
    return ast.unparse(node).split("\n")[0][:90]


def mutate_module(module: str, place: int, number: int) -> None:
    """Replaces the module of this name by a mutant."""
    tree = tree_of(module)
    node = next(node for at, node in enumerate(nodes_of(tree)) if at == place)
    _, mutation = list(mutations_of(node))[number]
    mutant = ast.fix_missing_locations(Mutator(place, mutation).visit(copy.deepcopy(tree)))
    name = f"{PACKAGE}.{module}"
    made = types.ModuleType(name)
    sys.modules[name] = made
    setattr(importlib.import_module(PACKAGE), module, made)
    exec(compile(mutant, f"{module}.py", "exec"), made.__dict__)


def answer(kind: str, given) -> object:
    """Returns the answer of the reference to an input."""
    if kind == "tested":
        return tested_again(given)
    messages, session, endpoint_inputs = (
        importlib.import_module(f"{PACKAGE}.{name}") for name in ("messages", "session", "endpoint_inputs")
    )
    if kind == "audit":
        return session.audit(given).verdict
    if kind == "driven":
        return endpoint_inputs.Answering(given).text()
    output, fault = (messages.show if kind == "show" else messages.encode)(*given)
    return output, fault and fault.words()


def tested_again(given) -> object:
    """The log that an end writes again which tests its link, or why it cannot."""
    linktest, ends = (importlib.import_module(f"{PACKAGE}.{name}") for name in ("linktest", "ends"))
    try:
        return linktest.log_again(given.lines, given.settings, ends.equipment_desk(b"M", b"1"), given.pause)
    except linktest.Amiss as amiss:
        return str(amiss)


def inputs_of(share: float) -> List[Tuple[str, object, object]]:
    """Each input of the gate: its kind, the input, and the answer of the reference."""
    corruption, edge_cases, endpoint_cases, endpoint_inputs, idle_links, messages, random_logs, random_messages = (
        importlib.import_module(f"{PACKAGE}.{name}")
        for name in (
            "corruption", "edge_cases", "endpoint_cases", "endpoint_inputs", "idle_links", "messages", "random_logs",
            "random_messages",
        )
    )
    made = [("audit", log) for log in edge_cases.logs() + random_logs.logs_at_edges()]
    made += [("encode", notation) for notation in random_messages.notations_at_edges()]
    lists, others = len(endpoint_cases.lists()) + int(3000 * share), int(4000 * share)
    made += [("driven", endpoint_inputs.listed("1", number)) for number in range(lists)]
    makers = {
        "audit": random_logs.random_log, "show": random_messages.random_stream, "encode": random_messages.random_notation,
    }
    for kind, make in makers.items():
        made += [(kind, make(random_messages.Chance(f"1 {kind} {at}"))) for at in range(others)]
    made += [("tested", idle_links.paused(number)) for number in range(others)]
    plain = messages.Options()
    for at in range(int(6000 * share)):
        case = corruption.case("1", at)
        kind = case.words[0]
        if len(case.words) == 1:
            made.append((kind, case.given if kind == "audit" else (case.given, plain)))
    return [(kind, given, answer(kind, given)) for kind, given in made]


def in_child(work: Callable[[], int]) -> int:
    """What a forked process answers, from 0 to 254; 255 where it fails or takes too long."""
    child = os.fork()
    if child == 0:
        signal.alarm(LONGEST)
        try:
            sys.stderr = open(os.devnull, "w")
            os._exit(work())
        except BaseException:
            os._exit(255)
    _, status = os.waitpid(child, 0)
    return os.waitstatus_to_exitcode(status) % 256


def first_noticing(path: str, module: str, place: int, number: int, killers: List[int]) -> int:
    """Runs a mutant, and returns 0 if each input gets its usual answer, and otherwise 1."""
    mutate_module(module, place, number)
    importlib.import_module(f"{PACKAGE}.endpoint_inputs")
    with open(path, "rb") as file:
        made = pickle.load(file)
    kinds = KINDS_OF[module]
    order = killers + [at for kind in kinds for at, one in enumerate(made) if one[0] == kind and at not in killers]
    for at in order:
        kind, given, wanted = made[at]
        if answer(kind, given) != wanted:
            with open(f"{path}.{os.getppid()}", "a") as file:
                file.write(f"{module} {at}\n")
            return 1
    return 0


def killers_of(path: str, module: str) -> List[int]:
    """The inputs that noticed most mutants of a module so far."""
    try:
        with open(f"{path}.{os.getpid()}") as file:
            pairs = [line.split() for line in file]
    except FileNotFoundError:
        return []
    return [at for at, _ in Counter(int(at) for name, at in pairs if name == module).most_common(60)]


def main() -> int:
    words = argparse.ArgumentParser(description=__doc__, formatter_class=argparse.RawDescriptionHelpFormatter)
    words.add_argument("modules", nargs="*", metavar="MODULE[:LINE]")
    words.add_argument("--workers", type=int, default=2)
    words.add_argument("--share", type=float, default=0.1)
    told = words.parse_args()
    asked = [name.partition(":") for name in told.modules or KINDS_OF]
    mutations = [(name, *mutation) for name, _, line in asked for mutation in all_mutations(name, int(line or 0))]
    random.Random(1).shuffle(mutations)
    with tempfile.TemporaryDirectory(prefix="hsms-mutants-") as room, ThreadPoolExecutor(told.workers) as pool:
        path = f"{room}/inputs"

        def store() -> int:
            with open(path, "wb") as file:
                pickle.dump(inputs_of(told.share), file)
            return 0

        if in_child(store) != 0:
            print("the inputs can't be made")
            return 1

        def tried(mutation) -> Tuple[str, bool]:
            name, place, number, what = mutation
            killers = killers_of(path, name)
            return what, in_child(lambda: first_noticing(path, name, place, number, killers)) != 0

        results = []
        for what, is_noticed in pool.map(tried, mutations):
            results.append(is_noticed)
            if not is_noticed:
                print(f"unnoticed: {what}", flush=True)
    print(f"{len(results)} mutants, {results.count(False)} unnoticed")
    return 0


if __name__ == "__main__":
    sys.exit(main())
