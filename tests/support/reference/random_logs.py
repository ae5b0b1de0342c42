"""Random inputs for `hsms audit`: logs that are mostly valid, and then end at a rule or close to one."""
from dataclasses import dataclass, replace
from typing import Callable, Iterator, List, Tuple

from tests.support.reference.random_messages import (
    Chance, Draft, any_spelling, disturbed, of_length, random_item, random_text,
)

GREATEST_TIME = (1 << 64) - 1
SENT, TAKEN, DISCARDED = ">", "<", "!"
SYSTEMS = (1, 2, 3, 0xABCDEF, 0xFFFFFFFF)
CAUSES = ("t6", "t7", "t8", "length")


def nested_lists(depth: int) -> bytes:
    """An empty list within others, that many in all."""
    return b"\x01\x01" * (depth - 1) + b"\x01\x00"


@dataclass(frozen=True)
class Request:
    """A transaction that a walk has opened and not closed."""

    direction: str
    draft: Draft
    time: int


class Walk:
    """A log that is written entry by entry, mostly as two ends would that keep the rules.

    What it knows of the session is only for finding entries that are valid, or nearly so.
    """

    def __init__(self, chance: Chance):
        self.chance = chance
        self.role = chance.one("host", "equipment")
        self.link = chance.one("active", "passive")
        self.device = chance.one(0, 1, 256, 32_767)
        self.t3 = chance.one(1, 2, 5, 20, 3_600_000)
        self.t6 = chance.one(1, 2, 5, 20, 3_600_000)
        self.t7 = chance.one(1, 3, 30, 3_600_000)
        self.max = chance.one(256, 256, 257, 300, 1_048_576, 33_554_432)
        self.depth = chance.one(1, 2, 3, 32, 100, chance.randrange(91, 101))
        self.version = chance.one(1, 2, 2)
        self.time = chance.one(0, 0, 5, chance.randrange(100_000), GREATEST_TIME - chance.randrange(100))
        self.earlier: List[Request] = []
        self.begin_anew()
        numbers = (self.device, self.t3, self.t6, self.t7, chance.one(1, 3_600_000), self.max, self.depth)
        self.lines = [" ".join(["hsms-log", str(self.version), self.role, self.link, *map(str, numbers)])]

    def begin_anew(self):
        """Nothing is known of the connection that comes up next."""
        self.began = self.time
        self.requests: List[Request] = []
        self.is_selected = False
        self.is_over = False

    def write(self, words: str):
        self.lines.append(f"{self.time} {words}")

    def digits(self, octets: bytes) -> str:
        """Bytes in hexadecimal digits, sometimes in capital ones."""
        return self.chance.choice([octets.hex()] * 9 + [octets.hex().upper()])

    def expiry_of(self, system: int) -> str:
        return f"t3 {self.chance.one(f'{system:08x}', f'{system:08X}')}"

    def other(self, direction: str) -> str:
        return TAKEN if direction == SENT else SENT

    def own(self, is_own: bool) -> str:
        """The direction of what this end sends, or the other end."""
        return SENT if is_own else TAKEN

    def move(self, direction: str, draft: Draft):
        """A frame is sent or taken."""
        self.write(f"{direction} {self.digits(draft.octets())}")
        self.requests = [request for request in self.requests if not self.concludes(direction, draft, request)]
        if draft.opens:
            self.requests.append(Request(direction, draft, self.time))
        self.is_selected = self.is_selected or draft.stype == 2 and draft.byte3 == 0
        self.is_over = self.is_over or draft.stype == 9

    def concludes(self, direction: str, draft: Draft, request: Request) -> bool:
        """Whether a frame closes a request, as far as a walk cares."""
        if request.direction == direction or request.draft.system != draft.system:
            return False
        if draft.stype == 0:
            return request.draft.stype == 0 and draft.byte3 in (0, request.draft.byte3 + 1)
        return draft.stype == 7 or draft.stype == request.draft.stype + 1

    # What an end may send or take next.

    def free_system(self, direction: str) -> int:
        used = [request.draft.system for request in self.requests if request.direction == direction]
        free = [system for system in SYSTEMS if system not in used]
        return self.chance.choice(free) if free else self.chance.randrange(1 << 32)

    def any_system(self) -> int:
        return self.chance.choice([*SYSTEMS, *[request.draft.system for request in self.requests] * 2])

    def text(self) -> bytes:
        if self.chance.happens(0.6):
            return b""
        if self.chance.happens(0.1):
            return nested_lists(self.depth)
        return any_spelling(self.chance, random_item(self.chance, min(self.depth, 2)))

    def select(self) -> Tuple[str, Draft]:
        direction = self.own(self.link == "active")
        return direction, Draft(stype=1, system=self.free_system(direction))

    def linktest(self) -> Tuple[str, Draft]:
        direction = self.chance.one(SENT, TAKEN)
        return direction, Draft(stype=5, system=self.free_system(direction))

    def primary(self) -> Tuple[str, Draft]:
        stream = self.chance.one(0, 1, 2, 9, 127)
        direction = self.own(self.role == "equipment") if stream == 9 else self.chance.one(SENT, TAKEN)
        byte2 = stream | (0x80 if stream != 9 and self.chance.happens(0.75) else 0)
        system = self.free_system(direction) if byte2 >= 0x80 else self.any_system()
        function = self.chance.one(1, 1, 13, 253, 255)
        return direction, Draft(self.device, byte2, function, system=system, text=self.text())

    def answer(self, request: Request) -> Tuple[str, Draft]:
        """The answer to a request, or a Reject."""
        direction, asked = self.other(request.direction), request.draft
        if self.chance.happens(0.15):
            return self.reject(request)
        if asked.stype == 1:
            status = self.chance.one(0, 1, 2, 3, 255) if self.is_selected else self.chance.one(0, 0, 0, 0, 0, 1)
            return direction, Draft(byte3=status, stype=2, system=asked.system)
        if asked.stype == 5:
            return direction, Draft(stype=6, system=asked.system)
        function = 0 if asked.byte3 == 255 else self.chance.one(0, asked.byte3 + 1, asked.byte3 + 1)
        text = self.text()
        return direction, Draft(self.device, asked.byte2 & 0x7F, function, system=asked.system, text=text)

    def reject(self, request: Request) -> Tuple[str, Draft]:
        """A Reject of a request, mostly in the direction in which it closes it."""
        direction = self.other(request.direction) if self.chance.happens(0.7) else request.direction
        session = self.chance.one(0xFFFF, self.device, request.draft.session, self.chance.randrange(1 << 16))
        return direction, Draft(session, 0, self.chance.one(1, 2, 3, 4, 9), stype=7, system=request.draft.system)

    def next_frame(self) -> Tuple[str, Draft]:
        """A frame that is valid here."""
        kind = self.chance.random()
        if self.requests and kind < 0.45:
            return self.answer(self.chance.choice(self.requests))
        if not self.is_selected:
            return self.select() if kind < 0.7 else self.linktest()
        if kind < 0.55:
            return self.linktest()
        if kind < 0.6:
            return self.select()
        if kind < 0.62:
            return self.chance.one(SENT, TAKEN), Draft(stype=7, system=self.any_system())
        return self.primary()

    # Time.

    def sent(self, is_data: bool) -> List[Request]:
        """The sent requests of data, or the others."""
        return [r for r in self.requests if r.direction == SENT and (r.draft.stype == 0) == is_data]

    def link_dues(self) -> List[int]:
        """When T6 and T7 run out."""
        dues = [request.time + self.t6 for request in self.sent(is_data=False)]
        return dues if self.is_selected else [*dues, self.began + self.t7]

    def wait(self):
        """Time goes on, to no more than the end of T6 or T7, and each expiry of T3 is logged."""
        data_dues = [request.time + self.t3 for request in self.sent(is_data=True)]
        edges = [due + self.chance.one(-1, 0, 1) for due in [*data_dues, *self.link_dues()]]
        time = self.chance.choice([self.time] * 4 + [self.time + 1, *edges])
        self.go_to(min([time, *self.link_dues()]))
        for request in self.sent(is_data=True):
            if self.time > request.time + self.t3 or self.time == request.time + self.t3 and self.chance.happens(0.3):
                self.expire(request)

    def go_to(self, time: int):
        self.time = min(max(self.time, time), GREATEST_TIME)

    def expire(self, request: Request):
        self.write(self.expiry_of(request.draft.system))
        self.requests.remove(request)

    # The walk.

    def begin(self):
        """The connection comes up and is selected, mostly."""
        if self.chance.happens(0.985):
            self.write("up")
        if self.chance.happens(0.9):
            self.move(*self.select())
            self.wait()
            self.move(*self.answer(self.requests[0]))

    def step(self):
        """An entry that is valid, and expiries before it."""
        self.wait()
        if self.is_over or self.chance.happens(0.15):
            self.discard()
        else:
            self.move(*self.next_frame())

    def discard(self):
        """A frame is discarded, mostly for a cause, and nothing comes of it."""
        bare = Draft(byte3=self.chance.one(0, 1), stype=self.chance.one(2, 6, 7, 9), system=self.any_system())
        draft = bare if self.chance.happens(0.3) else self.next_frame()[1]
        if not self.is_over and self.chance.happens(0.2):
            draft = self.with_rare_cause()
        elif self.chance.happens(0.5 if self.is_over else 0.95):
            draft = self.with_cause(draft)
        self.write(f"{DISCARDED} {self.digits(draft.octets())}")

    def with_cause(self, draft: Draft) -> Draft:
        """A frame changed so that it may not be taken."""
        kind = self.chance.randrange(6)
        if kind == 0:
            return replace(draft, ptype=self.chance.one(1, 255))
        if kind == 1:
            return replace(draft, stype=self.chance.one(3, 4, 8, 255))
        if kind == 2 and draft.stype != 7:
            return replace(draft, session=self.device ^ 0x100)
        if kind == 3:
            return replace(draft, text=nested_lists(self.depth + 1))
        return replace(draft, text=draft.text + b"\x00")

    def with_rare_cause(self) -> Draft:
        """A frame that one bit, or what came before, keeps from being taken."""
        if not self.is_selected:
            return Draft(self.device, self.chance.one(1, 0x81), 1, system=self.any_system())
        taken = [request.draft for request in self.requests if request.direction == TAKEN]
        if taken and self.chance.happens(0.4):
            return self.chance.choice(taken)
        if self.link == "active" and self.chance.happens(0.6):
            return self.second_answer()
        return Draft(self.device, 0x80 | self.chance.one(1, 9), self.chance.one(0, 2), system=self.any_system())

    def second_answer(self) -> Draft:
        """The Select.rsp, to one more Select.req that is sent, that would select the session once more."""
        direction, asked = self.select()
        self.move(direction, asked)
        return Draft(stype=2, system=asked.system)

    def end(self):
        """The session is over, mostly, and then the connection goes down, mostly."""
        self.open_one()
        self.wait()
        if self.chance.happens(0.4):
            system = self.any_system()
            self.move(self.chance.one(SENT, TAKEN), Draft(stype=9, system=system))
        elif self.chance.happens(0.5):
            self.write(f"cut {self.chance.one('t8', 'length')}")
            self.is_over = True
        if self.chance.happens(0.5):
            self.discard()
        if self.chance.happens(0.5):
            self.go_to(self.time + self.chance.one(0, 1, self.t3 + 1, self.t6 + 1, self.t7 + 1))
            self.write(self.chance.one("down", "down", "up", f"cut {self.chance.one(*CAUSES)}", "t3 00000001"))

    # Several connections.

    def connection(self):
        """A connection that comes up and goes down, and the time up to the next one."""
        self.begin()
        for _ in range(self.chance.one(0, 0, 1, 2, 5)):
            self.step()
        if self.chance.happens(0.5):
            self.open_one()
        if self.chance.happens(0.3):
            self.move(self.chance.one(SENT, TAKEN), Draft(stype=9, system=self.any_system()))
        elif self.chance.happens(0.15):
            self.write(f"cut {self.chance.one('t8', 'length')}")
            self.is_over = True
        self.go_down()

    def go_down(self):
        """The connection goes down, mostly. What was open on it counts no longer, and time goes on past each timer."""
        self.wait()
        if self.chance.happens(0.99):
            self.write("down")
        self.earlier += self.requests
        gaps = (0, 0, 1, self.t3, self.t3 + 1, self.t6 + 1, self.t7 + 1, 100_000)
        self.go_to(self.time + self.chance.choice(gaps))
        self.begin_anew()

    def use_earlier(self):
        """Something of a request that was open when an earlier connection went down."""
        request = self.chance.choice(self.earlier or [self.any_request()])
        kind = self.chance.randrange(5)
        if kind == 0:
            self.go_to(request.time + self.chance.one(self.t3, self.t3 + 1, self.t6, self.t6 + 1))
            self.any_entry()
        elif kind == 1:
            self.write(self.expiry_of(request.draft.system))
        elif kind == 2:
            self.move(request.direction, request.draft)
        else:
            self.move(*self.answer(request))

    def reconnect_badly(self):
        """The connection goes down and comes up again, with something wrong about it, or nothing."""
        kind = self.chance.randrange(8)
        if kind == 0:
            self.write("up")
        elif kind == 1:
            self.go_down()
            self.write("down")
        elif kind == 2:
            self.go_down()
            self.any_entry()
        elif kind == 3:
            self.go_down()
            self.write("up")
            self.write("up")
        elif kind == 4:
            self.end()
            self.write("up")
        else:
            self.go_down()
            self.time = max(0, self.time - self.chance.one(0, 0, 1))
            self.write("up")
            self.any_entry()

    # What breaks a rule, or nearly does.

    def twisted(self, direction: str, draft: Draft) -> Tuple[str, Draft]:
        """A frame of which one thing was changed, or a few."""
        for _ in range(self.chance.one(1, 1, 2, 2, 3)):
            direction, draft = self.chance.choice(TWISTS)(self, direction, draft)
        return direction, draft

    def twist_frame(self):
        direction, draft = self.twisted(*self.chance.one(self.next_frame, self.any_frame)())
        self.move(self.chance.one(direction, direction, direction, DISCARDED), draft)

    def any_frame(self) -> Tuple[str, Draft]:
        """A frame of any kind, which may be valid here or not."""
        system = self.any_system()
        control = (self.own(self.link == "passive"), Draft(stype=self.chance.one(2, 2, 6, 7, 9), system=system))
        stream_nine = (self.own(self.role == "equipment"), Draft(self.device, 9, 1, system=system))
        return self.chance.one(control, stream_nine, self.select(), self.primary(), self.primary())

    def any_request(self) -> Request:
        """An open request; one more was opened before."""
        self.open_one()
        return self.chance.choice(self.requests or [Request(SENT, self.primary()[1], self.time)])

    def repeat_answer(self):
        """The answer to a request, and then often an answer once more."""
        request = self.any_request()
        for _ in range(self.chance.one(1, 2)):
            self.move(*self.answer(request))

    def answer_nearly(self):
        """The answer to a request with one thing changed."""
        direction, draft = self.answer(self.any_request())
        self.move(*self.chance.choice(TWISTS_OF_ANSWERS)(self, direction, draft))

    def open_again(self):
        """A request with the system bytes of an open one, sometimes with a text that is no item."""
        request = self.any_request()
        direction, draft = self.chance.one(self.primary, self.linktest)()
        text = self.chance.one(draft.text, draft.text, draft.text + b"\x00")
        self.move(self.chance.one(direction, request.direction), replace(draft, system=request.draft.system, text=text))

    def run_out(self):
        """Time goes to the edge of a timer, and then comes its expiry or any entry."""
        self.open_one()
        timers = [(self.began + self.t7, "cut t7")]
        for request in self.requests:
            expiry = self.expiry_of(request.draft.system) if request.draft.stype == 0 else "cut t6"
            due = request.time + (self.t3 if request.draft.stype == 0 else self.t6)
            timers += [(due, expiry)] * (5 if request.direction == SENT else 1)
        due, expiry = self.chance.choice(timers)
        self.go_to(due + self.chance.one(-1, 0, 0, 1, 1))
        if self.chance.happens(0.3):
            self.write(expiry)
        else:
            self.any_entry()

    def open_one(self):
        """A request, mostly of data where data may flow."""
        is_data = self.is_selected and self.chance.happens(0.7)
        self.move(*(self.primary() if is_data else self.linktest()))

    def any_entry(self):
        kind = self.chance.random()
        if kind < 0.15:
            self.write(self.expiry_of(self.any_system()))
        elif kind < 0.3:
            self.write(f"cut {self.chance.one(*CAUSES)}")
        elif kind < 0.45:
            self.write(self.chance.one("down", "down", "up"))
        elif kind < 0.7:
            self.discard()
        else:
            self.move(*self.next_frame())

    def go_back(self):
        self.time = max(0, self.time - self.chance.one(0, 1, 1))
        self.any_entry()

    def go_on_after_end(self):
        self.end()
        self.any_entry()

    def aim(self):
        """Something that is likely to break a rule."""
        self.chance.choice(AIMS)(self)


AIMS = [
    *[Walk.twist_frame] * 6,
    *[Walk.use_earlier] * 2,
    *[Walk.reconnect_badly] * 2,
    Walk.repeat_answer,
    *[Walk.answer_nearly] * 2,
    Walk.open_again,
    *[Walk.run_out] * 5,
    Walk.go_back,
    Walk.go_on_after_end,
]


# Each changes one thing of a frame, given the walk, the frame's direction and the frame.

Twist = Callable[[Walk, str, Draft], Tuple[str, Draft]]


def twist_direction(walk: Walk, direction: str, draft: Draft) -> Tuple[str, Draft]:
    return walk.other(direction), draft


def twist_length(walk: Walk, direction: str, draft: Draft) -> Tuple[str, Draft]:
    length = walk.max - 10 + walk.chance.one(0, 1)
    text = of_length(walk.chance, length) if length < 1000 else draft.text
    return direction, replace(draft, text=text)


def twist_text(walk: Walk, direction: str, draft: Draft) -> Tuple[str, Draft]:
    deep = b"\x01\x01" * walk.depth + walk.chance.one(b"\x01\x00", b"\x41\x00")
    text = walk.chance.one(draft.text + b"\x00", deep, random_text(walk.chance, walk.depth, walk.max))
    return direction, replace(draft, text=text)


def twist_system(walk: Walk, direction: str, draft: Draft) -> Tuple[str, Draft]:
    return direction, replace(draft, system=walk.any_system())


def twist_session(walk: Walk, direction: str, draft: Draft) -> Tuple[str, Draft]:
    session = walk.chance.one(0, 1, walk.device, walk.device ^ 0x100, 0xFFFF, 0xFFFE)
    return direction, replace(draft, session=session)


def twist_wait(walk: Walk, direction: str, draft: Draft) -> Tuple[str, Draft]:
    return direction, replace(draft, byte2=draft.byte2 ^ 0x80)


def twist_stream(walk: Walk, direction: str, draft: Draft) -> Tuple[str, Draft]:
    stream = walk.chance.one(9, 9, (draft.byte2 + 1) & 0x7F)
    return direction, replace(draft, byte2=draft.byte2 & 0x80 | stream)


def twist_function(walk: Walk, direction: str, draft: Draft) -> Tuple[str, Draft]:
    function = draft.byte3 + walk.chance.one(1, 2, 254, 255)
    return direction, replace(draft, byte3=walk.chance.one(0, 2, function & 0xFF))


def twist_stype(walk: Walk, direction: str, draft: Draft) -> Tuple[str, Draft]:
    stype = walk.chance.one(0, 1, 2, 2, 3, 4, 5, 6, 6, 7, 8, 8, 9, 10, 10, 255)
    return direction, replace(draft, stype=stype, session=0xFFFF if stype else walk.device)


def twist_ptype(walk: Walk, direction: str, draft: Draft) -> Tuple[str, Draft]:
    return direction, replace(draft, ptype=walk.chance.one(1, 2, 128, 255))


TWISTS: List[Twist] = [
    twist_direction,
    twist_direction,
    twist_length,
    twist_text,
    twist_text,
    twist_system,
    twist_session,
    twist_wait,
    twist_stream,
    twist_function,
    twist_stype,
    twist_ptype,
]

TWISTS_OF_ANSWERS: List[Twist] = [
    twist_direction,
    twist_system,
    twist_wait,
    twist_stream,
    twist_function,
    twist_stype,
]


# The text of logs.

ODD_LINE_WORDS = [
    *"up down > < ! t3 cut t6 t7 t8 length Up T3 CUT # x 0 -1 +1 01 00 0x1 1e3".split(),
    *"hsms-log 0 1 2 3 02 2.0 host equipment active passive".split(),
    *"18446744073709551615 18446744073709551616 99999999999999999999 32767 32768 3600000 3600001 255 256".split(),
    *"33554432 33554433 100 101 ffff0000000100000001 ffff000000010000000 ffff00000001000000 0000000g FFFFFFFF".split(),
    *"ffffffff fffffff fffffffff FFFF0000000500000001 ffff00000001000000010".split(),
    *["", "\t", "\xff", "\x00"],
]


def odd_line(chance: Chance, line: bytes) -> bytes:
    """A line of which a word, a space or a byte was changed."""
    words = line.split(b" ")
    at = chance.place(words)
    kind = chance.randrange(9)
    if kind < 3:
        words[at] = chance.choice(ODD_LINE_WORDS).encode("latin-1")
    elif kind == 3:
        words[at] = chance.one(words[at].upper(), b"0" + words[at], words[at] + b"0", words[at][:-1])
    elif kind == 4:
        words.insert(at, chance.choice(ODD_LINE_WORDS).encode("latin-1"))
    elif kind == 5:
        del words[at]
    elif kind == 6:
        space = chance.one(b"  ", b"\t")
        return chance.one(b" " + line, line + b" ", line + b"\r", line.replace(b" ", space, 1))
    elif kind == 7 and words[0].isdigit():
        words[0] = str(max(0, int(words[0]) + chance.one(-1, 1, 2))).encode()
    else:
        return disturbed(chance, line)
    return b" ".join(words)


# Words where the version is, `1` and `2` among them.
VERSIONS = [
    *[[word] for word in "0 1 2 3 9 10 11 12 20 21 01 02 002".split()],
    *[[word] for word in "2.0 2. 1.0 1,2 +1 +2 -1 -2 0x2 2x x2 two 1e0 \u0662".split()],
    *[[str(number)] for number in (257, 258, (1 << 32) + 2, (1 << 64) + 1, (1 << 64) + 2)],
    *[[], [""], ["", "2"], ["2", ""], ["1", "2"], ["2", "2"], ["\t2"], ["2\x00"]],
]


# A line of each form, and the words that come in the place of each of its words, and between them.
FIRST_LINE = "hsms-log 1 host active 0 1 1 1 1 256 1"
FORMS = [FIRST_LINE, "0 up", "0 down", "0 t3 00000001", "0 cut t6", "0 ! ffff0000000100000001"]
OTHER_WORDS = [
    *"hsms-log host equipment active passive up down > < ! t3 cut t6 t7 t8 length 1 01".split(),
    *["000001", "00000001", "0000000g", "0000000001", "ffff0000000100000001", ""],
]


def lines_with_other_words() -> Iterator[str]:
    """Logs with a line of each form in which one word is another one, is left out, or is one more."""
    for form in FORMS:
        words = form.split(" ")
        lines = [" ".join(words[:at] + put + words[at + cut:]) for at in range(len(words) + 1)
                 for cut in (0, 1) for put in ([[word] for word in OTHER_WORDS] + [[]] * cut)]
        yield from (f"{line}\n0 up\n" if form == FIRST_LINE else f"{FIRST_LINE}\n0 up\n{line}\n" for line in lines)


def logs_at_edges() -> List[bytes]:
    """Settings with each number at and past the edges of its range, versions that there are and that there are not,
    frames at the edge of a header, lines with words of others, no lines at all."""
    logs = [b"", b"\n", b"\r\n", b"#\n", b"\x00", *map(str.encode, lines_with_other_words())]
    words = FIRST_LINE.split(" ")
    edges = [(0, 32_767), *[(1, 3_600_000)] * 4, (256, 33_554_432), (1, 100)]
    for at, (least, greatest) in enumerate(edges, start=4):
        for number in (least - 1, least, greatest, greatest + 1, (1 << 64) + least):
            logs.append(" ".join([*words[:at], str(number), *words[at + 1:]]).encode() + b"\n0 up\n")
    for version in VERSIONS:
        first = " ".join(["hsms-log", *version, *words[2:]])
        logs += [f"{first}\n".encode(), f"{first}\n0 up\n0 down\n0 up\n".encode()]
    for digits in ("0" * 18, "0" * 19, "0" * 20, "0" * 21, "A" * 20, "g" * 20):
        logs.append((" ".join(words) + f"\n0 up\n0 ! {digits}\n").encode())
    for length in range(2 * 256 + 64 - 2, 2 * 256 + 64 + 4):
        for front in ("#", "0 ! "):
            logs.append((" ".join(words) + f"\n0 up\n{front}{'0' * (length - len(front))}\n").encode())
    for time in (1 << 64) - 2, (1 << 64) - 1, 1 << 64:
        logs.append((" ".join(words) + f"\n{time} up\n").encode())
    return logs


def long_line(chance: Chance, greatest: int, time: int) -> bytes:
    """A comment or a frame that is as long as a line may be, or a little more or less."""
    length = 2 * greatest + 64 + chance.one(-1, 0, 1, 2)
    front = chance.one(b"#", f"{time} ! ".encode())
    return front + b"0" * (length - len(front))


def with_ends(chance: Chance, lines: List[bytes]) -> bytes:
    """The lines with their ends, and with lines between them that carry nothing."""
    odd_ends = [b"\n"] * 60 + [b"\r", b"\r\r\n", b"\n\n"]
    ends = chance.one([b"\n"], [b"\n"], [b"\n"], [b"\r\n"], [b"\r\n"], [b"\n", b"\r\n"], odd_ends)
    text = b""
    for line in lines:
        text += line + chance.choice(ends)
        if chance.happens(0.04):
            text += chance.one(b"", b"#", b"# comment", b"#\xff\x00 #", b"#\r", b"\r") + chance.choice(ends)
    if chance.happens(0.15):
        return text[:-1]
    return text + chance.choice([b""] * 30 + [b"\n", b"\r", b" ", b"#"])


def random_log(chance: Chance) -> bytes:
    """A log: a walk that mostly ends at a rule or close to one, and then often is changed at random. Of version 2 it
    mostly has several connections."""
    walk = Walk(chance)
    for _ in range(chance.one(0, 1, 1, 2, 4) if walk.version == 2 or chance.happens(0.03) else 0):
        walk.connection()
    walk.begin()
    for _ in range(chance.one(0, 1, 2, 5, 10, 20)):
        walk.step()
        if chance.happens(0.02):
            walk.aim()
    if chance.happens(0.75):
        walk.aim()
    elif chance.happens(0.5):
        walk.end()
    lines = [line.encode() for line in walk.lines]
    kind = chance.random()
    if kind < 0.15:
        at = chance.place(lines)
        lines[at] = odd_line(chance, lines[at])
    elif kind < 0.2:
        at = chance.place(lines)
        lines[at:at + 2] = chance.one(lines[at:at + 1], lines[at:at + 1] * 2, [])
    elif kind < 0.26 and walk.max < 1000:
        lines.insert(chance.randrange(1, len(lines) + 1), long_line(chance, walk.max, walk.time))
    text = with_ends(chance, lines)
    return disturbed(chance, text) if chance.happens(0.03) else text
