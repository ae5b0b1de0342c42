"""Checks of a page of `hsms explain --format html`, by the text output for the same log.

`fault_of(page, text, ends, is_utc)` reads the page with `html.parser` and returns what is wrong with it, or nothing:
unbalanced tags, an unknown tag or attribute, a repeated id, a link without a target, a text of a line, of a failure
or of the head that differs from the text output, or other transactions that end in a gap, or are open.
"""
import re
from html.parser import HTMLParser
from typing import Dict, List, NamedTuple, Optional, Tuple, Union

# The tags of a page, and those without an end.
TAGS = set("html head meta title style body main header section div p a span b i pre details summary".split())
TAGS |= set("ol li table tr th td".split())
VOID = {"meta"}
ATTRIBUTES = {"class", "id", "href", "lang", "charset", "name", "content"}

# How wide the time of a line is in the text, and its date.
TIME, DATE = 7, 24

# Words in the page alone: of a link to what will close a line.
AHEAD = "reply"


class Line(NamedTuple):
    """A line of the log: its time, its words, what it closes, and its failures, each in its lines."""

    number: int
    time: str
    words: str
    closings: List[str]
    failures: List[List[str]]


class Told(NamedTuple):
    """The text output: its lines, with None where some are skipped, and what follows them."""

    lines: List[Optional[Line]]
    end: List[str]


class Ends(NamedTuple):
    """What ends in each gap of a page, and the lines of the transactions that it lists as open, where it lists some."""

    gaps: List[List[str]]
    open: List[List[int]]


class Fault(Exception):
    """What is wrong with a page."""


class Node:
    """An element, with its text and what lies in it."""

    def __init__(self, tag: str, attributes: Dict[str, str]):
        self.tag, self.attributes = tag, attributes
        self.inner: List[Union["Node", str]] = []

    def text(self) -> str:
        return "".join(it if isinstance(it, str) else it.text() for it in self.inner)

    def all(self, tag: str, of_class: Optional[str] = None) -> List["Node"]:
        """The elements in it with this tag and class, in their order."""
        found = []
        for node in (it for it in self.inner if isinstance(it, Node)):
            is_one = node.tag == tag and (of_class is None or of_class in node.classes())
            found += [node] * is_one + node.all(tag, of_class)
        return found

    def one(self, tag: str, of_class: Optional[str] = None) -> "Node":
        found = self.all(tag, of_class)
        if len(found) != 1:
            raise Fault(f"{len(found)} elements {tag} {of_class} in {self.attributes}")
        return found[0]

    def classes(self) -> List[str]:
        return self.attributes.get("class", "").split()

    def nodes(self) -> List["Node"]:
        return [it for it in self.inner if isinstance(it, Node)]


class Reader(HTMLParser):
    """Builds the elements of a page, of which each that begins has to end."""

    def __init__(self):
        super().__init__(convert_charrefs=True)
        self.open = [Node("", {})]

    def handle_starttag(self, tag: str, attrs: List[Tuple[str, Optional[str]]]):
        names = [name for name, _ in attrs]
        if tag not in TAGS or not set(names) <= ATTRIBUTES or len(set(names)) < len(names):
            raise Fault(f"tag {tag} with {attrs}")
        node = Node(tag, {name: value or "" for name, value in attrs})
        self.open[-1].inner.append(node)
        if tag not in VOID:
            self.open.append(node)

    def handle_startendtag(self, tag: str, attrs):
        raise Fault(f"tag {tag} that ends itself")

    def handle_endtag(self, tag: str):
        if self.open[-1].tag != tag:
            raise Fault(f"{self.open[-1].tag} ends as {tag}")
        self.open.pop()

    def handle_data(self, data: str):
        self.open[-1].inner.append(data)

    def handle_decl(self, decl: str):
        if decl != "DOCTYPE html" or self.open[-1].inner:
            raise Fault(f"declaration {decl}")

    def handle_comment(self, data: str):
        raise Fault(f"comment {data}")

    def unknown_decl(self, data: str):
        raise Fault(f"declaration {data}")

    def handle_pi(self, data: str):
        raise Fault(f"instruction {data}")


def read(page: bytes) -> Node:
    """The elements of the page."""
    reader = Reader()
    reader.feed(page.decode())
    reader.close()
    if len(reader.open) > 1:
        raise Fault(f"{reader.open[-1].tag} doesn't end")
    return reader.open[0]


def shown(octets: bytes) -> str:
    """Bytes of the log as the page shows them."""
    return re.sub("[\x00-\x08\x0a-\x1f\x7f-\x9f]", "\ufffd", octets.decode("utf-8", "replace"))


def told_by(text: bytes, is_utc: bool) -> Told:
    """The content of the text output."""
    width = DATE if is_utc else TIME
    lines: List[Optional[Line]] = []
    end: List[str] = []
    for row in text.split(b"\n")[:-1]:
        numbered = re.match(rb" {0,5}([0-9]+) (.*)\Z", row, re.DOTALL)
        if row == b"       ..":
            lines.append(None)
        elif row.startswith(b" " * 12):
            lines[-1].failures[-1].append(shown(row[12:]))
        elif row.startswith(b"       FAIL "):
            lines[-1].failures.append([shown(row[7:])])
        elif row.startswith(b"       "):
            lines[-1].closings.append(shown(row[7:]))
        elif numbered:
            said = numbered[2]
            is_entry = said[:width].strip() != b"" and len(numbered[0]) - len(said) >= 7
            time, words = said.lstrip().split(b" ", 1) if is_entry else (b"", said[width + 1:])
            lines.append(Line(int(numbered[1]), shown(time), shown(words), [], []))
        else:
            end.append(shown(row))
    return Told(lines, end)


def line_of(row: Node) -> Line:
    """The line that a row of the page shows."""
    number = row.attributes["id"][1:]
    if row.one("a", "n").text() != number or row.one("a", "n").attributes["href"] != f"#l{number}":
        raise Fault(f"row {number} has another number")
    times = [node.text() for node in row.nodes() if node.tag == "span"]
    folded, words = row.all("details"), [node.text() for node in row.nodes() if node.tag in ("pre", "b")]
    if folded:
        mark = {"sent": "> ", "taken": "< ", "lost": "! "}[row.classes()[1]]
        words = [mark + folded[0].one("pre").text()]
    for link in row.all("a"):
        check_link(link, number)
    closings = [node.text() for node in row.all("p", "at") if node.text() != AHEAD]
    failures = [[it.text() for it in node.all("p")] for node in row.all("div", "f")]
    if ("bad" in row.classes()) != bool(failures) or len(times) > 1 or len(words) != 1:
        raise Fault(f"row {number}: {row.classes()}, {times}, {words}, {failures}")
    return Line(int(number), times[0] if times else "", words[0], closings, failures)


def check_link(link: Node, number: Optional[str] = None):
    """The words of a link name the line that it leads to, or that is closed there; those ahead are of their own line."""
    target, own = link.attributes.get("href", ""), link.attributes.get("id", "")
    names = re.findall(r"[0-9]+", link.text())
    if link.text() == AHEAD:
        is_right = (target, own) == (f"#r{number}", "")
    else:
        is_right = target in ("", *(f"#l{name}" for name in names)) and own in ("", *(f"r{name}" for name in names))
    if not is_right:
        raise Fault(f"{link.text()} leads to {target}, and is {own}")


def check_links(nodes: List[Node]):
    """Each id occurs once, and each link leads to one."""
    ids = [node.attributes["id"] for node in nodes if "id" in node.attributes]
    if len(set(ids)) < len(ids):
        raise Fault(f"an id stands twice: {sorted(it for it in ids if ids.count(it) > 1)[:4]}")
    for node in nodes:
        link = node.attributes.get("href")
        if link is not None and (link[:1] != "#" or link[1:] not in set(ids)):
            raise Fault(f"{link} leads nowhere")


def check_lines(main: Node, told: Told):
    """The rows are the lines of the text, with a gap where it has one."""
    rows = [None if "gap" in row.classes() else line_of(row) for row in main.nodes() if row.tag == "div"]
    for row, line in zip(rows, told.lines):
        if row != line:
            raise Fault(f"row {row}, and the text has {line}")
    if len(rows) != len(told.lines):
        raise Fault(f"{len(rows)} rows, and the text has {len(told.lines)}")


def check_ends(top: Node, ends: Ends):
    """The gaps and the lists of open transactions say what ends where."""
    gaps = [[it.text() for it in gap.all("p")] for gap in top.all("div", "gap")]
    lists = [[int(it.text()) for it in node.all("a")] for node in top.all("p", "open")]
    if (gaps, lists) != (ends.gaps, ends.open):
        raise Fault(f"the gaps {gaps} with {lists} open, expected {ends}")
    for link in (link for gap in top.all("div", "gap") for link in gap.all("a")):
        check_link(link)


def check_groups(section: Node, told: Told):
    """Each group begins at a line that fails so, each rest is of one, and each failure where the log is audited."""
    failing = {(line.number, it[0].split(":")[0][5:]) for line in told.lines if line for it in line.failures}
    groups: Dict[Tuple[str, int, int], List[int]] = {}
    for item in section.all("li"):
        match = re.match(r"(\w+) line (\d+): .*?(?:; (\d+) more like it, the last at line (\d+))?\Z", item.text())
        check_link(item.one("a"))
        rule, first, more, last = match[1], int(match[2]), int(match[3] or 0), int(match[4] or match[2])
        if (first, rule) not in failing or (last, rule) not in failing and more < 3:
            raise Fault(f"group {item.text()}")
        groups.setdefault((rule, first, last), []).append(more)
    is_judged = any(it.startswith("failures=") for it in told.end)
    if is_judged and not {rule for _, rule in failing} <= {rule for rule, _, _ in groups} and len(groups) < 256:
        raise Fault(f"groups {groups}, failures {failing}")
    for words in told.end:
        rest = re.match(r"(\w+): (\d+) more like line (\d+), the last at line (\d+)\Z", words)
        if rest and int(rest[2]) + 2 not in groups.get((rest[1], int(rest[3]), int(rest[4])), []):
            raise Fault(f"{words}, and {groups}")


def cells_of(words: str) -> List[str]:
    """The row of a table of what the text says of primaries."""
    kind, _, *counts = words.split(" ")
    counted = dict(it.split("=") for it in counts)
    way = counts[0].split("=")[0]
    greatest = f"{counted['max']} (line {counted['line']})" if "line" in counted else ""
    names = "answered aborted expired rejected ended waiting min median p99".split()
    if "unmeasured" in counted:
        counted["answered"] = f"{counted.get('answered', '')} + {counted['unmeasured']} unmeasured"
    return [f"{kind} W {way}", counted[way], *(counted.get(name, "") for name in names), greatest]


def check_end(section: Node, told: Told):
    """The head is what the text has at its end."""
    rows = [[cell.text() for cell in row.all("td")] for row in section.all("tr")][1:]
    counts = [node.text() for node in section.all("p", "counts")]
    doubts = [node.text() for node in section.all("p", "doubt")]
    unjudged = [node.text() for node in section.nodes() if node.tag == "p" and not node.attributes]
    verdict = section.nodes()[-1]
    lists = [node.text() for node in section.all("p", "list")]
    if rows != [cells_of(it) for it in told.end if re.match(r"(S\d+F\d+|others) W ", it)]:
        raise Fault(f"primaries {rows}")
    if lists != [it for it in told.end if re.match(r"(slowest|expired|unanswered): ", it)]:
        raise Fault(f"lists {lists}")
    for link in (link for node in section.all("p", "list") for link in node.all("a")):
        check_link(link)
    if doubts != [it for it in told.end if " line 1 says " in it or it.startswith("line 1 is of")]:
        raise Fault(f"doubts {doubts}")
    if counts != [it for it in told.end if it.startswith("failures=")]:
        raise Fault(f"counts {counts}")
    if [it for it in unjudged if "nothing" in it] != [it for it in told.end if it.startswith("nothing")]:
        raise Fault(f"unjudged {unjudged}")
    if verdict.text() != told.end[-1] + "\n" or verdict.attributes != {"id": "verdict", "class": told.end[-1][:4]}:
        raise Fault(f"verdict {verdict.text()}")


def check_shortened(section: Node, line: Optional[int]):
    """The head says from which line on there are only failures."""
    words = [node.text() for node in section.all("p", "short")]
    end = "on, only failures and the lines around them are shown: --all shows every line."
    if words != ([] if line is None else [f"From line {line} {end}"]):
        raise Fault(f"shortened {words}")


def fault_of(page: bytes, text: bytes, ends: Ends, is_utc: bool = False, shortened: Optional[int] = None) -> Optional[str]:
    """What is wrong with a page of the log that has this text, if anything is. The text has control characters as they
    are in the log. From the line `shortened` on it has only failures."""
    told = told_by(text, is_utc)
    try:
        top = read(page)
        style = top.one("style").text()
        if any(word in style for word in ("url(", "@import", "</")):
            raise Fault("the style refers to something else")
        check_links([node for tag in sorted(TAGS) for node in top.all(tag)])
        check_lines(top.one("main"), told)
        check_ends(top, ends)
        check_groups(top.one("section"), told)
        check_end(top.one("section"), told)
        check_shortened(top.one("section"), shortened)
    except (Fault, UnicodeDecodeError) as fault:
        return str(fault)
    return None
