#!/usr/bin/env python3
"""Compares the public items of the crates with those that were asked for and those that DECISIONS lists.

An item is a function, constant, type or trait that a crate exports, or a method, field or variant of a type that was
asked for. `ASKED` has what was asked for. Each other item has to be, in backquotes, in the list "Public beyond what was
asked for" of docs/DECISIONS.md, in the entry of its crate, and each item of the list has to be public.
The modules `laws` are skipped. A listed type includes its fields, variants and methods.

It reads sources alone. The last line is `N passed, M failed`.
"""
import os
import re
import sys

sys.dont_write_bytecode = True
sys.path.insert(0, os.path.abspath(f"{__file__}/../../.."))

from tests.support.command import TOP

HEAD = "- **Public beyond what was asked for,**"

# What was asked for of each crate: names alone, and of a type or trait its fields, variants and methods.
ASKED = {
    "secs_item": """
        Item: List Binary Boolean Ascii Jis8 Char2 I1 I2 I4 I8 U1 U2 U4 U8 F4 F8 copy
        ItemFault: NoLength Format Deep Ragged Truncated Trailing TooLarge Memory
        measure_front measure_text decode_front decode_text encode nesting
    """,
    "secs_text": """
        Message: new stream function wait item
        TextFault: Syntax Number Count Deep Memory
        print read read_all
    """,
    "hsms_frame": """
        Header: session byte2 byte3 ptype stype system stream function wait octets of
        Frame: header text
        Kind: Primary Reply SelectReq SelectRsp LinktestReq LinktestRsp Reject Separate OtherSType OtherPType
        Source: pull
        Sink: give
        Failed:
        Reader: new
        Writer: new
        Feed: new left
        Store: new written
        Framer: new push next pending
        FrameFault: TooShort TooLong Memory
        ReadFault: TooShort TooLong Memory CutOff Read
        WriteFault: TooLong Write
        kind data_header select_req select_rsp linktest_req linktest_rsp separate reject_of
        encode_frame write_frame read_frame
    """,
    "hsms_machine": """
        Settings: new role link device t3 t6 t7 t8 max depth version several
        Role: Host Equipment
        Side: Active Passive
        Entry: time event
        Event: Up Sent Taken Discarded T3 Cut Down
        Cause: T6 T7 T8 Length
        Phase: Before NotSelected Selected Over Gone
        Rule: Backwards NotUp Ended T3Overdue LinkOverdue NotDue TooLong PType SType ControlText Session Direction
            NotSelected WBit Text SystemInUse NoTransaction SelectStatus NoCause
        Tracker: new check step phase waiting own_open next_due in_use oldest_data oldest_control
    """,
    "hsms_log": """
        Line: Nothing Entry
        Verdict: Pass Fail
        Why: Unreadable Broken
        Summary: entries sent taken discarded expired waiting
        LogFault: Write
        LineFault: Unreadable Memory
        AuditFault: Read Endless Memory
        write_settings write_entry read_settings read_line audit audit_within
    """,
    "hsms_ends": """
        Desk: answer
        Answer: Reply Quiet NoStream NoFunction Illegal
        HostDesk:
        EquipmentDesk: mdln softrev
        End: new start tick bytes send linktest separate lost phase own_open pending next_due
        EndFault: Spent NotUp NotSelected NotPrimary Nine Full TooLong TooDeep Memory
        Input: Start Tick Bytes Send Linktest Separate Lost
        Driven: entries pending
        Link: now wait send
        Got: Octets Quiet Closed
        LinkFault:
        Scripted: new taken until
        Step: Send Linktest Separate
        Served: entries refused
        ServeFault: Link Log Turns Memory
        drive serve
    """,
    "cli_filters": """
        ToolFault: Refused Device Memory
        show encode_all audit_to
    """,
}

# The crates that have the items of one that was asked for.
PARTS = {
    "hsms_ends": ["hsms_ends", "hsms_endpoint"],
    "cli_filters": ["cli_options", "cli_output", "cli_show", "cli_filters"],
}

# What the list names besides items: commands, and the module of a crate's laws.
NO_ITEMS = {"audit", "capture", "encode", "explain", "serve", "show", "laws"}

VARIANT = r"\b([A-Z]\w*)\s*(?:\([^)]*\)|\{[^}]*\})?\s*(?:,|$)"
WITHIN = {"struct": r"\bpub (\w+)\s*:", "enum": VARIANT, "trait": r"\bfn (\w+)"}


def asked_of(crate):
    """The names that were asked for, and of each those within it."""
    names = {}
    for line in re.sub(r"\n {12,}", " ", ASKED[crate]).splitlines():
        head, colon, rest = line.partition(":")
        if colon:
            names[head.strip()] = rest.split()
        else:
            names.update((name, []) for name in line.split())
    return names


def code_of(path):
    """A source without comments, texts, characters and attributes."""
    with open(path, encoding="utf-8") as file:
        text = file.read()
    text = re.sub(r'//[^\n]*|"(?:\\.|[^"\\])*"|b?\'(?:\\.|[^\'\\])\'', " ", text)
    return re.sub(r"#!?\[[^\]]*\]", " ", text)


def sources_of(crate):
    """The code of a crate but for its tests."""
    for folder, _, names in os.walk(f"{TOP}/crates/{crate}/src"):
        for name in names:
            if name.endswith(".rt") and "tests" not in os.path.join(folder, name):
                yield code_of(os.path.join(folder, name))


def shallow_body(code, place):
    """What is in the braces that open next, and nothing of what is in braces within them."""
    depth, kept = 0, []
    for character in code[code.index("{", place) :]:
        if character == "}":
            depth -= 1
            if depth == 0:
                break
        if depth == 1:
            kept.append(character)
        if character == "{":
            depth += 1
    return "".join(kept)


def names_within(code, name):
    """The public fields, variants and methods that this code gives a type or trait."""
    names = set()
    for found in re.finditer(rf"\bpub (struct|enum|trait) {name}\b[^{{;(]*\{{", code):
        names.update(re.findall(WITHIN[found[1]], shallow_body(code, found.start())))
    for found in re.finditer(rf"\bimpl(?:<[^{{;]*?>)?\s+{name}\b(?:<[^{{]*?>)?\s*(?:where[^{{]*)?\{{", code):
        names.update(re.findall(r"\bpub (?:const )?(?:fn )?(\w+)", shallow_body(code, found.start())))
    return names


def exported_by(crate):
    """The names that a crate exports of its own."""
    names = set()
    for path, listed, single in re.findall(
        r"\bpub use ((?:\w+::)+)(?:\{([^}]*)\}|(\w+));", code_of(f"{TOP}/crates/{crate}/src/lib.rt")
    ):
        if not os.path.isdir(f"{TOP}/crates/{path.split('::')[0]}"):
            names.update(re.findall(r"\w+", listed or single))
    return names


def public_of(crate):
    """Each public item of a crate and its parts, and the names within it."""
    public = {}
    for part in PARTS.get(crate, [crate]):
        code = "\n".join(sources_of(part))
        public.update((name, names_within(code, name)) for name in exported_by(part))
    return public


def listed_in(entry):
    """The crates that an entry of the list names first, and the items that it names then."""
    names = [name for name in re.findall(r"`([\w:]*)`", entry) if name not in NO_ITEMS and not name.startswith("laws::")]
    crates = [name for name in names if os.path.isdir(f"{TOP}/crates/{name}")]
    return crates, {name for name in names if name not in crates}


def listed():
    """The items that the list has of each crate that was asked for."""
    with open(f"{TOP}/docs/DECISIONS.md", encoding="utf-8") as file:
        text = file.read().split(HEAD, 1)[1].split("\n- **", 1)[0]
    items = {crate: set() for crate in ASKED}
    for entry in text.split("\n  - of ")[1:]:
        crates, names = listed_in(entry.split("\n  - ", 1)[0])
        of = next(crate for crate in ASKED if crates[0] in PARTS.get(crate, [crate]))
        items[of] |= names
    return items


def compared(crate, names):
    """What is wrong with the list of a crate, and how many items it is about."""
    asked, public = asked_of(crate), public_of(crate)
    beyond = {name for name in public if name not in asked}
    within = {(name, inner) for name in public for inner in public[name]}
    beyond |= {f"{name}::{inner}" for name, inner in within if inner not in asked.get(name, [inner])}
    known = beyond | set(asked) | {f"{name}::{inner}" for name, inner in within if name in beyond}
    wanted = {(name, inner) for name in asked for inner in asked[name]}
    wrong = [f"{name} was asked for, and isn't public" for name in asked if name not in public]
    wrong += [f"{name}::{inner} was asked for, and isn't public" for name, inner in wanted - within]
    wrong += [f"{name} is public, and DECISIONS doesn't list it" for name in beyond - names]
    wrong += [f"DECISIONS lists {name}, which isn't public beyond what was asked for" for name in names - known]
    return sorted(wrong), len(asked) + len(wanted) + len(beyond | names)


def main():
    passed = failed = 0
    for crate, names in listed().items():
        wrong, count = compared(crate, names)
        for line in wrong:
            print(f"{crate}: {line}")
        passed, failed = passed + count - len(wrong), failed + len(wrong)
    print(f"{passed} passed, {failed} failed")
    return 1 if failed else 0


if __name__ == "__main__":
    sys.exit(main())
