"""Small captures, each with one property: a late reply, a gap, a wrong length, another file format."""
from tests.support.command import TOP
from tests.support.pcap_writer import ACK, ACTIVE, BEGIN, FIN, PASSIVE, PUSH, RST, SELECT, Capture, Talk, message


def late_reply():
    """The equipment answers 1.25 s after a T3 of 1 s, and later never."""
    talk = Talk(Capture())
    talk.say(10, *SELECT[0])
    talk.say(20, *SELECT[1])
    talk.say(100, ACTIVE, "0000810d0000000000020100")
    talk.say(150, PASSIVE, "0000010e0000000000020102210100010241004100")
    talk.say(1000, ACTIVE, "000082290000000000030102410553544152540100")
    talk.say(2250, PASSIVE, "0000022a00000000000301022101000100")
    talk.say(2300, PASSIVE, "0000860b000000001001010241024142a50201ff")
    talk.say(2400, ACTIVE, "0000060c000000001001210100")
    talk.say(2500, ACTIVE, "00008101000000000004")
    talk.say(3600, ACTIVE, "ffff0000000900000005")
    talk.end(3610)
    return talk.capture


def midstream():
    """A capture that begins within a message and before a reply whose primary came earlier."""
    talk = Talk(Capture(), shakes_hands=False)
    talk.at(0)
    talk.segment(PASSIVE, 0, PUSH | ACK, bytes(5))
    talk.next[PASSIVE] += 5
    talk.say(10, PASSIVE, "00000102000000000007")
    talk.say(20, ACTIVE, "00008101000000000008")
    talk.say(30, PASSIVE, "00000102000000000008")
    talk.end(40, PASSIVE, RST | ACK)
    return talk.capture


def gap():
    """The second of three event reports was not captured."""
    talk = Talk(Capture())
    talk.say(1, *SELECT[0])
    talk.say(2, *SELECT[1])
    talk.say(3, PASSIVE, "0000060b000000000001")
    talk.next[PASSIVE] += 14
    talk.say(5, PASSIVE, "0000060b000000000003")
    talk.say(6, ACTIVE, "ffff0000000500000004")
    talk.end(9000)
    return talk.capture


def cut_short():
    """A capture of the first 96 bytes of each packet."""
    talk = Talk(Capture())
    talk.say(1, *SELECT[0], kept=96)
    talk.say(2, *SELECT[1], kept=96)
    talk.say(3, PASSIVE, "0000060b00000000000123000040" + "00" * 64, kept=96)
    talk.end(4)
    return talk.capture


def wrong_length(data="00000009ffff0000000500000004"):
    talk = Talk(Capture())
    talk.say(1, *SELECT[0])
    talk.say(2, *SELECT[1])
    talk.at(3)
    talk.segment(PASSIVE, 0, PUSH | ACK, bytes.fromhex(data))
    return talk.capture


def after_separate():
    """A Separate.req, and an event report that crosses it."""
    talk = Talk(Capture())
    talk.say(1, *SELECT[0])
    talk.say(2, *SELECT[1])
    talk.say(3, ACTIVE, "ffff0000000900000002")
    talk.say(4, PASSIVE, "0000060b000000000001")
    talk.end(5)
    return talk.capture


def never_selected():
    talk = Talk(Capture())
    talk.end(10020, PASSIVE)
    return talk.capture


def slow_message():
    """A message whose bytes come with 6 s between them."""
    talk = Talk(Capture())
    talk.say(1, *SELECT[0])
    talk.at(2)
    whole = message(SELECT[1][1])
    talk.segment(PASSIVE, 0, PUSH | ACK, whole[:5])
    talk.at(6002)
    talk.segment(PASSIVE, 5, PUSH | ACK, whole[5:])
    return talk.capture


def clock_set_back():
    talk = Talk(Capture())
    talk.say(5, *SELECT[0])
    talk.say(3, *SELECT[1])
    return talk.capture


def data_after_fin():
    talk = Talk(Capture())
    talk.say(1, *SELECT[0])
    talk.say(2, *SELECT[1])
    talk.end(3)
    talk.say(4, PASSIVE, "ffff0000000900000003")
    return talk.capture


def ends_out_of_order():
    """The FIN is captured before the last message, which has gone astray and comes again."""
    talk = Talk(Capture())
    talk.say(1, *SELECT[0])
    talk.say(2, *SELECT[1])
    last = message("ffff0000000900000003")
    talk.at(3)
    talk.segment(PASSIVE, len(last), FIN | ACK)
    talk.at(4)
    talk.segment(PASSIVE, 0, PUSH | ACK, last)
    talk.at(5)
    talk.segment(ACTIVE, 0, ACK)
    return talk.capture


def two_connections():
    capture = Capture()
    for second in (0, 1):
        talk = Talk(capture, (second, 7), BEGIN + second * 10**6)
        talk.say(1, *SELECT[0])
        talk.say(2, *SELECT[1])
        talk.end(3 + second)
    return capture


def replaced():
    capture = Capture()
    with open(f"{TOP}/tests/captures/replaced.pcap", "rb") as file:
        capture.octets = file.read()
    return capture


def half_a_packet():
    capture = two_connections()
    capture.octets = capture.octets[:-1]
    return capture


def damaged():
    """The second packet is of an interface that is not there."""
    capture = Capture("pcapng<")
    talk = Talk(capture)
    octets = bytearray(capture.octets)
    packets = [place for place in range(0, len(octets), 4) if octets[place:place + 4] == capture.pack("I", 6)]
    octets[packets[1] + 8] = 7
    capture.octets = octets
    talk.say(1, *SELECT[0])
    return capture


def other_packets():
    """Packets that carry no TCP, or whose headers or form are not read, within a session; a RST far from it."""
    capture = Capture()
    talk = Talk(capture)
    talk.say(1, *SELECT[0])
    capture.packet(talk.when, bytes(12) + b"\x08\x06" + bytes(28))
    capture.packet(talk.when, bytes(12) + b"\x08\x00" + bytes.fromhex("450000200000400040110000") + bytes(20))
    capture.packet(talk.when, bytes(12) + b"\x08\x00" + bytes.fromhex("450000200000000140060000") + bytes(20))
    capture.packet(talk.when, bytes(12) + b"\x08\x00" + bytes.fromhex("45000020"))
    capture.packet(talk.when, bytes(12) + b"\x08\x00" + bytes.fromhex("45000020"))
    capture.packet(talk.when, b"")
    talk.say(2, *SELECT[1])
    talk.capture.segment(talk.when, PASSIVE, 0, RST)
    return capture


def no_connection():
    return Capture()


def other_octets():
    capture = Capture()
    capture.octets = b"hsms-log 1"
    return capture
