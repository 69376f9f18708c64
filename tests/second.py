#!/usr/bin/env python3
"""The independent second program: judges packets up to refusal 8 and writes advertisement and ARP frames.

It is written from the rule book (document 01) and RFC 3768 and shares no code with the library, so that a mistake
would have to be made twice, in two languages, to pass unseen. A packet has its IPv4 header first, a message is the
VRRP part of it, a frame has 14 Ethernet bytes in front. Numbers in streams stand with their high byte first.

second.py records < STREAM > LINES   answer records, one line each; `bad record` ends the lines
    1 judge: length (2), packet                              line: REFUSAL
                                                             or: 0 SOURCE VRID PRIORITY COUNT AUTH INTERVAL LIST
    2 advertisement: VRID, priority, interval, primary (4),  line: ANSWER NEED ROOM
      room (2), length of address bytes (2), those bytes     (the room's bytes after the call in hex, - for none)
    3 ARP: VRID, address (4), room (2)                       line: ANSWER NEED ROOM
second.py packets FILE.pcap ...      write the IPv4 packets of captures as a stream of kind 1 records
second.py capture FILE.pcap ...      one line a frame: its number and the verdict on its packet
second.py text < PACKET              the verdict on one packet in words
second.py check < STREAM             verify what the C calls answered; exits 1 on any disagreement
    1 judge: length (4), packet, answer (1)
    2 advertisement: VRID, priority, interval, primary (4), length of address bytes (2), those bytes, room (2),
      answer (1), the room after the call
    3 ARP: VRID, address (4), room (2), answer (1), the room after the call
    0 end: the count of records before it (4)
second.py selftest                   try the program on the rule book's worked examples
"""

import struct
import sys
from collections import namedtuple

GROUP = bytes([224, 0, 0, 18])
GROUP_MAC = bytes.fromhex("01005E000012")
BROADCAST_MAC = bytes.fromhex("FFFFFFFFFFFF")
IPV4 = 0x0800
ARP = 0x0806
ETHERNET_BYTES = 14
LARGEST_ROOM = 1023
FILL = b"\xa5"
SHOWN_DISAGREEMENTS = 10

REASONS = {
    1: "the IP header or total length cannot be right",
    2: "the IP header checksum is wrong",
    3: "a fragment, not protocol 112, or not to 224.0.0.18",
    4: "TTL is not 255",
    5: "the VRRP version is not 2",
    6: "the message is too short",
    7: "the message checksum is wrong",
    8: "the message type is not 1",
}

# What an accepted packet says; `list_at` is where its address list stands in the packet.
Fields = namedtuple("Fields", "source vrid priority count authentication interval list_at")


# The checksum, of the IPv4 header and of the message alike.


def ones_sum(words):
    """The 16-bit one's complement sum of an even number of bytes."""
    # 65,536 leaves 1 modulo 65,535, so end-around carry is a remainder; but only zeros alone sum to 0.
    number = int.from_bytes(words, "big")
    return (number - 1) % 65535 + 1 if number else 0


def with_checksum(part, at):
    """The header or message with its due checksum at `at`, where it holds two zero bytes."""
    return part[:at] + (0xFFFF - ones_sum(part)).to_bytes(2, "big") + part[at + 2:]


# Judging.


def header_length(packet):
    return 4 * (packet[0] & 15)


def total_length(packet):
    return int.from_bytes(packet[2:4], "big")


def message_length(count):
    return 16 + 4 * count


def unreadable(packet):
    """Whether the packet has one of the six causes of refusal 1."""
    if len(packet) < 20:
        return True
    header, total = header_length(packet), total_length(packet)
    return packet[0] >> 4 != 4 or header < 20 or header > len(packet) or total < header or total > len(packet)


def header_refusal(packet):
    """The first of the checks 1 to 4 that the packet fails, or 0."""
    if unreadable(packet):
        return 1
    if ones_sum(packet[:header_length(packet)]) != 0xFFFF:
        return 2
    # The low 14 bits are more-fragments and offset; the reserved bit and don't-fragment are not looked at.
    if int.from_bytes(packet[6:8], "big") & 0x3FFF or packet[9] != 112 or packet[16:20] != GROUP:
        return 3
    if packet[8] != 255:
        return 4
    return 0


def message_refusal(payload):
    """The first of the checks 5 to 8 that the IPv4 payload fails, or 0."""
    if payload and payload[0] >> 4 != 2:
        return 5
    if len(payload) < 8 or len(payload) < message_length(payload[3]):
        return 6
    if ones_sum(payload[:message_length(payload[3])]) != 0xFFFF:
        return 7
    if payload[0] & 15 != 1:
        return 8
    return 0


def payload_of(packet):
    """The bytes between the header and the IP total length; what follows (Ethernet padding) is never looked at."""
    return packet[header_length(packet):total_length(packet)]


def fields_of(packet):
    """The fields of a packet that no check refuses."""
    _, vrid, priority, count, authentication, interval = payload_of(packet)[:6]
    return Fields(packet[12:16], vrid, priority, count, authentication, interval, header_length(packet) + 8)


def judge(packet):
    """The number of the first refusal, 1 to 8, or the fields of the packet."""
    return header_refusal(packet) or message_refusal(payload_of(packet)) or fields_of(packet)


# Writing.


def virtual_mac(vrid):
    return bytes([0x00, 0x00, 0x5E, 0x00, 0x01, vrid])


def ethernet_header(to, vrid, kind):
    return to + virtual_mac(vrid) + kind.to_bytes(2, "big")


def message(vrid, priority, interval, addresses):
    head = bytes([0x21, vrid, priority, len(addresses) // 4, 0, interval, 0, 0])
    return with_checksum(head + addresses + bytes(8), 6)


def ip_header(primary, payload_length):
    # Service 0, identification 0, don't-fragment, TTL 255, protocol 112.
    header = struct.pack("!BBHHHBBH", 0x45, 0, 20 + payload_length, 0, 0x4000, 255, 112, 0) + primary + GROUP
    return with_checksum(header, 10)


def advertisement_frame(vrid, priority, interval, primary, addresses):
    body = message(vrid, priority, interval, addresses)
    return ethernet_header(GROUP_MAC, vrid, IPV4) + ip_header(primary, len(body)) + body


def arp_frame(vrid, address):
    # A request whose sender and target address are the same; the target MAC is zero.
    fixed = struct.pack("!HHBBH", 1, IPV4, 6, 4, 1)
    return ethernet_header(BROADCAST_MAC, vrid, ARP) + fixed + virtual_mac(vrid) + address + bytes(6) + address


def put(frame, room):
    """Write the frame at the front of the room: (0, 0), or (22, need) and the room untouched."""
    if len(room) < len(frame):
        return 22, len(frame)
    room[:len(frame)] = frame
    return 0, 0


def write_advertisement(vrid, priority, interval, primary, addresses, room):
    """The answer, 0 or refusal 14, 16, 17 or 22, and the room needed where it is 22, else 0."""
    if vrid == 0:
        return 14, 0
    if interval == 0:
        return 16, 0
    if len(addresses) % 4 or not 0 < len(addresses) <= 64:
        return 17, 0
    return put(advertisement_frame(vrid, priority, interval, primary, addresses), room)


def write_arp(vrid, address, room):
    """The answer, 0 or refusal 14 or 22, and the room needed where it is 22, else 0."""
    if vrid == 0:
        return 14, 0
    return put(arp_frame(vrid, address), room)


# Verdicts as lines and in words.


def dotted(address):
    return ".".join(str(byte) for byte in address)


def verdict_line(packet):
    verdict = judge(packet)
    if isinstance(verdict, int):
        return str(verdict)
    return " ".join(["0", dotted(verdict.source)] + [str(number) for number in verdict[1:]])


def verdict_text(packet):
    verdict = judge(packet)
    if isinstance(verdict, int):
        return [f"refused {verdict}: {REASONS[verdict]}"]
    ends = range(verdict.list_at, verdict.list_at + 4 * verdict.count, 4)
    return [
        "accepted",
        f"source address {dotted(verdict.source)}",
        f"VRID {verdict.vrid}",
        f"priority {verdict.priority}",
        f"address count {verdict.count}",
        f"authentication type {verdict.authentication}",
        f"interval {verdict.interval}",
        " ".join(["addresses"] + [dotted(packet[at:at + 4]) for at in ends]),
    ]


def room_line(answer, need, room):
    return f"{answer} {need} {room.hex() or '-'}"


# Streams of records.


class Malformed(Exception):
    """The stream or capture is not of the form it should be of."""


class Stream:
    """Bytes taken from the front."""

    def __init__(self, content):
        self.content = content
        self.at = 0

    def left(self):
        return len(self.content) - self.at

    def take(self, length):
        if length > self.left():
            raise Malformed("the input is cut off")
        self.at += length
        return self.content[self.at - length:self.at]

    def number(self, width):
        return int.from_bytes(self.take(width), "big")


def take_room(stream):
    room = stream.number(2)
    if room > LARGEST_ROOM:
        raise Malformed("a room above 1,023")
    return bytearray(FILL * room)


def answer_record(stream):
    """The line for the next record."""
    kind = stream.number(1)
    if kind == 1:
        return verdict_line(stream.take(stream.number(2)))
    if kind == 2:
        vrid, priority, interval = stream.take(3)
        primary, room = stream.take(4), take_room(stream)
        addresses = stream.take(stream.number(2))
        return room_line(*write_advertisement(vrid, priority, interval, primary, addresses, room), room)
    if kind == 3:
        vrid, address, room = stream.number(1), stream.take(4), take_room(stream)
        return room_line(*write_arp(vrid, address, room), room)
    raise Malformed("an unknown kind")


def answer_records(content):
    """The lines for a stream; one that goes wrong ends with `bad record`."""
    stream = Stream(content)
    try:
        while stream.left():
            yield answer_record(stream)
    except Malformed:
        yield "bad record"


# Captures.


def frames_of(capture):
    """The captured bytes of each frame of a classic pcap capture."""
    # The magic number is read as it stands in the file, so it also tells the byte order.
    orders = {"a1b2c3d4": ">", "a1b23c4d": ">", "d4c3b2a1": "<", "4d3cb2a1": "<"}
    order = orders.get(capture[:4].hex())
    if order is None or len(capture) < 24:
        raise Malformed("not a classic pcap capture")
    if struct.unpack(order + "I", capture[20:24])[0] != 1:
        raise Malformed("the link type is not Ethernet")
    stream = Stream(capture[24:])
    while stream.left():
        captured = struct.unpack(order + "4I", stream.take(16))[2]
        yield stream.take(captured)


def packet_of(frame):
    """The packet of an IPv4 frame, padding included, or None."""
    return frame[ETHERNET_BYTES:] if frame[12:14] == IPV4.to_bytes(2, "big") else None


def judge_record(packet):
    if len(packet) > 65535:
        raise Malformed("a packet longer than 65,535 bytes")
    return b"\x01" + len(packet).to_bytes(2, "big") + packet


def verdict_of_frame(frame):
    packet = packet_of(frame)
    return "not IPv4" if packet is None else verdict_line(packet)


# The check of the C calls.


def judged_complaint(packet, answer):
    verdict = judge(packet)
    due = verdict if isinstance(verdict, int) else 0
    if answer == due:
        return None
    shown = packet[:60].hex() + (".." if len(packet) > 60 else "")
    return f"judged {answer}, due {due}: packet of {len(packet)} bytes {shown}"


def written_complaint(what, answer, due, room, due_room):
    if answer != due:
        return f"{what}, room {len(room)}: answered {answer}, due {due}"
    if room != due_room:
        at = next(place for place in range(len(room)) if room[place] != due_room[place])
        return f"{what}, room {len(room)}: byte {at} is {room[at]:02x}, due {due_room[at]:02x}"
    return None


def check_judged(stream):
    packet = stream.take(stream.number(4))
    return judged_complaint(packet, stream.number(1))


def check_advertisement(stream):
    vrid, priority, interval = stream.take(3)
    primary = stream.take(4)
    addresses = stream.take(stream.number(2))
    room = bytearray(FILL * stream.number(2))
    due, _ = write_advertisement(vrid, priority, interval, primary, addresses, room)
    what = f"advertisement of VRID {vrid} priority {priority} interval {interval} from {dotted(primary)}"
    what += f" with {len(addresses)} address bytes {addresses[:64].hex()}"
    return written_complaint(what, stream.number(1), due, stream.take(len(room)), room)


def check_arp(stream):
    vrid, address = stream.number(1), stream.take(4)
    room = bytearray(FILL * stream.number(2))
    due, _ = write_arp(vrid, address, room)
    what = f"ARP of VRID {vrid} for {dotted(address)}"
    return written_complaint(what, stream.number(1), due, stream.take(len(room)), room)


def check_stream(content):
    """The number of records of each kind and the complaints about them."""
    stream = Stream(content)
    checks = {1: check_judged, 2: check_advertisement, 3: check_arp}
    counts, complaints = {1: 0, 2: 0, 3: 0}, []
    while kind := stream.number(1):
        if kind not in checks:
            raise Malformed(f"unknown kind {kind} after record {sum(counts.values())}")
        complaint = checks[kind](stream)
        counts[kind] += 1
        if complaint:
            complaints.append(f"record {sum(counts.values())}: {complaint}")
    # Zero records prove nothing, and a count that is off means that records were lost.
    if not sum(counts.values()):
        raise Malformed("no records")
    if stream.number(4) != sum(counts.values()):
        raise Malformed(f"{sum(counts.values())} records, but their count at the end is another")
    if stream.left():
        raise Malformed("bytes after the end")
    return counts, complaints


# The commands: each answers its exit status.


def command_records():
    for line in answer_records(sys.stdin.buffer.read()):
        print(line)
    return 0


def read_capture(name):
    with open(name, "rb") as file:
        return file.read()


def command_packets(*names):
    for name in names:
        for frame in frames_of(read_capture(name)):
            packet = packet_of(frame)
            if packet is not None:
                sys.stdout.buffer.write(judge_record(packet))
    return 0


def command_capture(*names):
    for name in names:
        # As grep does, the file is named where there are several.
        prefix = f"{name}: " if len(names) > 1 else ""
        for number, frame in enumerate(frames_of(read_capture(name)), 1):
            print(f"{prefix}{number} {verdict_of_frame(frame)}")
    return 0


def command_text():
    print("\n".join(verdict_text(sys.stdin.buffer.read())))
    return 0


def command_check():
    counts, complaints = check_stream(sys.stdin.buffer.read())
    for complaint in complaints[:SHOWN_DISAGREEMENTS]:
        print(complaint)
    summary = f"{counts[1]} judged, {counts[2]} advertisements, {counts[3]} ARP frames"
    print(f"{summary}: {f'{len(complaints)} disagree' if complaints else 'all agree'}")
    return 1 if complaints else 0


# The selftest: expectations are typed from the rule book, none is computed by the code under test.


HEADER = bytes.fromhex("4500002800004000FF70D9A8C0A80102E0000012")
MESSAGE = bytes.fromhex("210164010001B855C0A801FE0000000000000000")
PACKET = HEADER + MESSAGE
STATION = bytes([192, 168, 1, 2])
ADDRESS = bytes([192, 168, 1, 254])


def expect(what, got, due):
    if got != due:
        raise SystemExit(f"selftest: {what}: {got!r}, due {due!r}")


def carried_sum(words):
    """The one's complement sum by its definition: each carry out of 16 bits comes back in at the low end."""
    total = 0
    for high, low in zip(words[::2], words[1::2]):
        total += high << 8 | low
        if total > 0xFFFF:
            total -= 0xFFFF
    return total


def selftest_sums():
    for words in (b"", bytes(40), b"\xff" * 40, b"\xff\xfe\x00\x01", b"\x00\x00\xff\xff", HEADER, MESSAGE):
        expect("a sum", ones_sum(words), carried_sum(words))
    state = 1
    for length in range(0, 1038, 2):
        words = bytearray()
        while len(words) < length:
            state = state * 1103515245 + 12345 & 0x7FFFFFFF
            words.append(state >> 16 & 0xFF)
        expect("a sum", ones_sum(words), carried_sum(words))
        # Whatever the rest is, the due checksum brings the sum to 0xFFFF.
        if length >= 2:
            words[:2] = bytes(2)
            expect("the sum with its checksum", carried_sum(with_checksum(bytes(words), 0)), 0xFFFF)


def selftest_writing():
    ethernet = bytes.fromhex("01005E000012 00005E000101 0800")
    room = bytearray(FILL * 60)
    expect("writing", write_advertisement(1, 100, 1, STATION, ADDRESS, room), (0, 0))
    expect("the worked example", bytes(room), ethernet + PACKET + FILL * 6)
    expect("writing priority 0", write_advertisement(1, 0, 1, STATION, ADDRESS, room), (0, 0))
    expect("its checksum", room[40:42].hex(), "1c56")
    due_zero = bytes([192, 168, 186, 83])
    expect("writing 0x0000", write_advertisement(1, 100, 1, STATION, due_zero, room), (0, 0))
    expect("the checksum 0x0000", room[40:42].hex(), "0000")
    arp = "FFFFFFFFFFFF 00005E000101 0806 0001 0800 0604 0001 00005E000101 C0A801FE 000000000000 C0A801FE"
    expect("an ARP frame", arp_frame(1, ADDRESS), bytes.fromhex(arp))
    for count, due in ((0, (17, 0)), (1, (22, 54)), (2, (22, 58)), (16, (22, 114)), (17, (17, 0))):
        expect(f"{count} addresses", write_advertisement(1, 100, 1, STATION, ADDRESS * count, bytearray()), due)
    takeover = advertisement_frame(1, 100, 1, STATION, ADDRESS * 2) + 2 * arp_frame(1, ADDRESS)
    expect("the bytes of a two-address takeover", len(takeover), 142)


def selftest_judging():
    accepted = "0 192.168.1.2 1 100 1 0 1 28"
    long_header = HEADER[:2] + b"\x00\x29" + HEADER[4:10] + b"\xd9\xa7" + HEADER[12:]
    short_header = HEADER[:2] + b"\x00\x27" + HEADER[4:10] + b"\xd9\xa9" + HEADER[12:]
    empty_header = HEADER[:2] + b"\x00\x14" + HEADER[4:10] + b"\xd9\xbc" + HEADER[12:]
    other_ttl = HEADER[:8] + b"\xfe" + HEADER[9:10] + b"\xda\xa8" + HEADER[12:]
    bad_message = MESSAGE[:7] + b"\x54" + MESSAGE[8:]
    due_zero = bytes.fromhex("210164010001 0000 C0A8BA53 0000000000000000")
    for what, packet, due in (
        ("the worked example", PACKET, accepted),
        ("priority 0", HEADER + bytes.fromhex("2101000100011C56") + MESSAGE[8:], "0 192.168.1.2 1 0 1 0 1 28"),
        ("payload of 0 bytes", empty_header, "6"),
        ("TTL 254 and a bad message checksum", other_ttl + bad_message, "4"),
        ("a bad message checksum", HEADER + bad_message, "7"),
        ("n = 1 with 19 bytes", short_header + MESSAGE[:19], "6"),
        ("n = 1 with 21 bytes", long_header + MESSAGE + b"\x55", accepted),
        ("Ethernet padding", PACKET + b"\x55" * 6, accepted),
        ("0x0000 where it is due", HEADER + due_zero, accepted),
        ("0xFFFF where 0x0000 is due", HEADER + due_zero[:6] + b"\xff\xff" + due_zero[8:], accepted),
        ("no bytes", b"", "1"),
    ):
        expect(what, verdict_line(packet), due)
    for count in range(1, 17):
        frame = advertisement_frame(9, 8, 7, STATION, ADDRESS * count)
        expect("the length of a frame", len(frame), 50 + 4 * count)
        expect("what was written, judged", judge(frame[14:]), (STATION, 9, 8, count, 0, 7, 28))


def selftest_text():
    words = ["accepted", "source address 192.168.1.2", "VRID 1", "priority 100", "address count 1",
             "authentication type 0", "interval 1", "addresses 192.168.1.254"]
    expect("the text", verdict_text(PACKET), words)
    expect("the text of a refusal", verdict_text(HEADER), ["refused 1: " + REASONS[1]])
    empty = bytes.fromhex("4500002400004000FF70D9ACC0A80102E0000012 210164000001 7AFD 0000000000000000")
    expect("the text of an empty list", verdict_text(empty)[7], "addresses")


def selftest_streams():
    judged = b"\x01\x00\x28" + PACKET
    accepted = "0 192.168.1.2 1 100 1 0 1 28"
    advertisement = b"\x02\x01\x64\x01" + STATION + b"\x00\x00\x00\x04" + ADDRESS
    arp = b"\x03\x01" + ADDRESS + b"\x00\x02"
    for what, stream, due in (
        ("an empty stream", b"", []),
        ("one of each", judged + advertisement + arp, [accepted, "22 54 -", "22 42 a5a5"]),
        ("an unknown kind", judged + b"\x04" + judged, [accepted, "bad record"]),
        ("kind 0", b"\x00", ["bad record"]),
        ("a room of 1,024", b"\x03\x01" + ADDRESS + b"\x04\x00" + judged, ["bad record"]),
        ("an advertisement room of 1,024", advertisement[:8] + b"\x04\x00" + advertisement[10:], ["bad record"]),
    ):
        expect(what, list(answer_records(stream)), due)
    expect("a room of 1,023", list(answer_records(b"\x03\x00" + ADDRESS + b"\x03\xff")), ["14 0 " + "a5" * 1023])
    for record in (judged, advertisement, arp):
        for length in range(1, len(record)):
            expect("a record cut off", list(answer_records(record[:length])), ["bad record"])


def malformed(stream, reader):
    """Whether the reader finds the stream malformed."""
    try:
        reader(stream)
    except Malformed:
        return True
    return False


def selftest_check():
    judged = b"\x01\x00\x00\x00\x28" + PACKET + b"\x00"
    advertisement = b"\x02\x01\x64\x01" + STATION + b"\x00\x04" + ADDRESS + b"\x00\x01\x16\xa5"
    arp = b"\x03\x01" + ADDRESS + b"\x00\x01\x16\xa5"
    good = judged + advertisement + arp + b"\x00\x00\x00\x00\x03"
    expect("a good stream", check_stream(good), ({1: 1, 2: 1, 3: 1}, []))
    for length in range(len(good)):
        expect("a stream cut off", malformed(good[:length], check_stream), True)
    for what, stream in (
        ("no records", b"\x00\x00\x00\x00\x00"),
        ("a wrong count", good[:-1] + b"\x02"),
        ("bytes after the end", good + b"\x00"),
        ("an unknown kind", b"\x04" + good),
    ):
        expect(what, malformed(stream, check_stream), True)
    for what, record in (
        ("a wrong verdict", judged[:-1] + b"\x07"),
        ("a wrong answer", advertisement[:-2] + b"\x11\xa5"),
        ("a touched room", advertisement[:-1] + b"\xa4"),
        ("a wrong answer for ARP", arp[:-2] + b"\x00\xa5"),
        ("a touched room for ARP", arp[:-1] + b"\x00"),
    ):
        expect(what, len(check_stream(record + b"\x00\x00\x00\x00\x01")[1]), 1)


def frames_list(capture):
    return list(frames_of(capture))


def selftest_captures():
    frame = bytes(12) + b"\x08\x00" + PACKET
    for order, magics in ((">", ("a1b2c3d4", "a1b23c4d")), ("<", ("d4c3b2a1", "4d3cb2a1"))):
        for magic in magics:
            head = bytes.fromhex(magic) + struct.pack(order + "HHiIII", 2, 4, 0, 0, 65535, 1)
            record = struct.pack(order + "IIII", 0, 0, len(frame), len(frame)) + frame
            expect("a capture", frames_list(head + record * 2), [frame, frame])
            expect("an empty capture", frames_list(head), [])
            for length in range(1, len(record)):
                expect("a frame cut off", malformed(head + record[:length], frames_list), True)
            expect("another link type", malformed(head[:20] + bytes(4), frames_list), True)
    expect("no capture", malformed(b"", frames_list), True)
    expect("an IPv4 frame", packet_of(frame), PACKET)
    expect("an ARP frame", packet_of(arp_frame(1, ADDRESS)), None)
    expect("a runt", packet_of(frame[:13]), None)
    expect("a packet of 65,535 bytes", len(judge_record(bytes(65535))), 65538)
    expect("a packet of 65,536 bytes", malformed(bytes(65536), judge_record), True)


def command_selftest():
    for selftest in (selftest_sums, selftest_writing, selftest_judging, selftest_text, selftest_streams,
                     selftest_check, selftest_captures):
        selftest()
    print("selftest: all as the rule book says")
    return 0


PLAIN = {"records": command_records, "text": command_text, "check": command_check, "selftest": command_selftest}
ON_CAPTURES = {"packets": command_packets, "capture": command_capture}


def main(arguments):
    try:
        if len(arguments) == 1 and arguments[0] in PLAIN:
            return PLAIN[arguments[0]]()
        if len(arguments) > 1 and arguments[0] in ON_CAPTURES:
            return ON_CAPTURES[arguments[0]](*arguments[1:])
    except (Malformed, OSError) as trouble:
        print(f"second.py: {trouble}", file=sys.stderr)
        return 1
    print(__doc__, file=sys.stderr)
    return 2


if __name__ == "__main__":
    sys.exit(main(sys.argv[1:]))
