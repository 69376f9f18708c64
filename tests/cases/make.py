#!/usr/bin/env python3
"""Makes the cases of judging and writing: what the program wire_cases is run on, what it must print, and their list wire.txt.

Every expectation is typed here by hand from document 01 (or follows from it for a test of the UNH suite); the second
program must give the same line, else nothing is made. With --check it compares the made files with those there.
"""

import sys
from collections import namedtuple
from pathlib import Path

HERE = Path(__file__).resolve().parent
PROGRAM = HERE.parent.parent / "crates" / "wire_cases"  # `rt ci` runs it on stdin and compares with stdout
sys.dont_write_bytecode = True
sys.path.insert(0, str(HERE.parent))

import second
from cases.mutate import address, changed, cut, header, keep, message, with_list, with_options, with_payload

Case = namedtuple("Case", "source shows record line note")


STATION = address("192.168.1.2")
VIRTUAL = address("192.168.1.254")
DUE_ZERO = address("192.168.186.83")
SIXTEEN = b"".join(bytes([10, 0, 0, last]) for last in range(1, 17))
ACCEPTED = "0 192.168.1.2 1 100 1 0 1 28"


def sent(vrid=1, priority=100, interval=1, primary=STATION, addresses=VIRTUAL):
    """The packet that the second program writes."""
    return second.advertisement_frame(vrid, priority, interval, primary, addresses)[14:]


GOOD = sent()


# One case of each kind of record.


def judged(source, shows, line, packet):
    return Case(source, shows, second.judge_record(packet), line, line)


def written(source, shows, record, room, due):
    """A case of writing: `due` is the frame typed in hex, or the refusal and the room needed."""
    if isinstance(due, str):
        frame = bytes.fromhex(due)
        line = "0 0 " + (frame + b"\xa5" * (room - len(frame))).hex()
        return Case(source, shows, record, line, f"0, a frame of {len(frame)} bytes")
    refusal, need = due
    line = f"{refusal} {need} {'a5' * room or '-'}"
    return Case(source, shows, record, line, f"22, room needed {need}" if refusal == 22 else str(refusal))


def advertised(source, shows, due, room, vrid=1, priority=100, interval=1, primary=STATION, addresses=VIRTUAL):
    sizes = room.to_bytes(2, "big") + len(addresses).to_bytes(2, "big")
    record = bytes([2, vrid, priority, interval]) + primary + sizes + addresses
    return written(source, f"advertisement: {shows}", record, room, due)


def announced(source, shows, due, room, vrid=1, target=VIRTUAL):
    record = bytes([3, vrid]) + target + room.to_bytes(2, "big")
    return written(source, f"ARP: {shows}", record, room, due)


# The frames that are due, typed from document 01's section on bytes.


TO_GROUP = "01005E000012 00005E000101 0800 "
FRAME = TO_GROUP + "45000028 00004000 FF70D9A8 C0A80102 E0000012 210164010001B855 C0A801FE 0000000000000000"
FRAME_OF_ZERO = TO_GROUP + "45000028 00004000 FF70D9A8 C0A80102 E0000012 2101000100011C56 C0A801FE 0000000000000000"
FRAME_OF_OWNER = TO_GROUP + "45000028 00004000 FF70D8AC C0A801FE E0000012 2101FF0100011D55 C0A801FE 0000000000000000"
FRAME_DUE_ZERO = TO_GROUP + "45000028 00004000 FF70D9A8 C0A80102 E0000012 2101640100010000 C0A8BA53 0000000000000000"
FRAME_DUE_ZERO_HEADER = (
    TO_GROUP + "45000028 00004000 FF700000 C0A8DAAA E0000012 210164010001B855 C0A801FE 0000000000000000")
FRAME_OF_TWO = (
    TO_GROUP + "4500002C 00004000 FF70D9A4 C0A80102 E0000012 210164020001F5AE C0A801FE C0A801FD 0000000000000000")
FRAME_OF_TWICE = (
    TO_GROUP + "4500002C 00004000 FF70D9A4 C0A80102 E0000012 210164020001F5AD C0A801FE C0A801FE 0000000000000000")
FRAME_OF_SIXTEEN = (
    TO_GROUP + "45000064 00004000 FF70D96C C0A80102 E0000012 210164100001DA64"
    "0A000001 0A000002 0A000003 0A000004 0A000005 0A000006 0A000007 0A000008"
    "0A000009 0A00000A 0A00000B 0A00000C 0A00000D 0A00000E 0A00000F 0A000010 0000000000000000")
FRAME_OF_SIXTEEN_GREATEST = (
    TO_GROUP + "45000064 00004000 FF70D96C C0A80102 E0000012 2101641000017AED"
    "FFFFFFFF FFFFFFFF FFFFFFFF FFFFFFFF FFFFFFFF FFFFFFFF FFFFFFFF FFFFFFFF"
    "FFFFFFFF FFFFFFFF FFFFFFFF FFFFFFFF FFFFFFFF FFFFFFFF FFFFFFFF FFFFFFFF 0000000000000000")
FRAME_OF_GREATEST = (
    "01005E000012 00005E0001FF 0800 45000028 00004000 FF709B53 FFFFFFFF E0000012"
    "21FFFF0100FFDDFF FFFFFFFF 0000000000000000")
FRAME_OF_LEAST = TO_GROUP + "45000028 00004000 FF709B53 00000000 E0000012 210100010001DEFC 00000000 0000000000000000"
ARP_FRAME = "FFFFFFFFFFFF 00005E000101 0806 0001 0800 06 04 0001 00005E000101 C0A801FE 000000000000 C0A801FE"
ARP_OF_255 = "FFFFFFFFFFFF 00005E0001FF 0806 0001 0800 06 04 0001 00005E0001FF C8000001 000000000000 C8000001"
ARP_OF_LEAST = "FFFFFFFFFFFF 00005E000101 0806 0001 0800 06 04 0001 00005E000101 00000000 000000000000 00000000"
ARP_OF_GREATEST = "FFFFFFFFFFFF 00005E000101 0806 0001 0800 06 04 0001 00005E000101 FFFFFFFF 000000000000 FFFFFFFF"


# The cases, by the part of the documents that they come from.


def both_sides():
    source, proved = "01 both sides", "01 both sides, P"
    bad = message(GOOD, checksum=0xB854)
    due_zero = sent(addresses=DUE_ZERO)
    return [
        advertised(proved, "VRID 1, priority 100, A 1, 192.168.1.254", FRAME, 54),
        advertised(proved, "the same with priority 0, checksum 1C 56", FRAME_OF_ZERO, 54, priority=0),
        judged(proved, "the advertisement from 192.168.1.2", ACCEPTED, GOOD),
        judged(proved, "the same with priority 0", "0 192.168.1.2 1 0 1 0 1 28", sent(priority=0)),
        judged(source, "payload of 0 bytes", "6", cut(GOOD, 0)),
        judged(source, "TTL 254 and a bad message checksum", "4", header(bad, ttl=254)),
        judged(source, "n = 1 with 19 bytes", "6", cut(GOOD, 19)),
        judged(source, "n = 1 with 20 bytes goes on", ACCEPTED, cut(GOOD, 20)),
        judged(source, "n = 1 with 20 bytes goes on to the checksum", "7", bad),
        judged(source, "n = 1 with 21 bytes goes on", ACCEPTED, with_payload(GOOD, GOOD[20:] + b"\x00")),
        judged(source, "n = 1 with 21 bytes goes on to the checksum", "7", with_payload(bad, bad[20:] + b"\x00")),
        judged(source, "checksum field 0x0000 where it is due", ACCEPTED, message(due_zero, checksum=0)),
        judged(source, "checksum field 0xFFFF where 0x0000 is due", ACCEPTED, message(due_zero, checksum=0xFFFF)),
        judged(source, "checksum field 0x0001 where 0x0000 is due", "7", message(due_zero, checksum=1)),
        advertised(source, "0x0000 is written where it is due", FRAME_DUE_ZERO, 54, addresses=DUE_ZERO),
        advertised(source, "n = 16", FRAME_OF_SIXTEEN, 114, addresses=SIXTEEN),
        advertised(source, "n = 17", (17, 0), 118, addresses=SIXTEEN + VIRTUAL),
    ]


def refusal_1():
    source = "01 refusal 1"
    alone = cut(GOOD, 0)
    longer = with_options(alone, b"\x01" * 4)
    longest = with_options(alone, b"\x01" * 40)
    return [
        judged(source, "no bytes", "1", b""),
        judged(source, "1 byte", "1", GOOD[:1]),
        judged(source, "19 bytes", "1", GOOD[:19]),
        judged(source, "20 bytes are read on", "6", alone),
        judged(source, "IP version 3", "1", header(GOOD, version_length=0x35)),
        judged(source, "IP version 5", "1", header(GOOD, version_length=0x55)),
        judged(source, "IP version 12", "1", header(GOOD, version_length=0xC5)),
        judged(source, "header length field 4", "1", header(GOOD, version_length=0x44)),
        judged(source, "header length field 0", "1", header(GOOD, version_length=0x40)),
        judged(source, "header of 24 bytes in 23", "1", longer[:23]),
        judged(source, "header of 24 bytes in 24 is read on", "6", longer),
        judged(source, "header of 60 bytes in 60 is read on", "6", longest),
        judged(source, "header of 60 bytes said, 40 given", "1", header(GOOD, version_length=0x4F)),
        judged(source, "total length 19", "1", header(GOOD, total=19)),
        judged(source, "total length 20 of 40 bytes is read on", "6", header(GOOD, total=20)),
        judged(source, "total length 0", "1", header(GOOD, total=0)),
        judged(source, "header of 24 bytes, total length 23", "1", header(longer, total=23)),
        judged(source, "total length 41 of 40 bytes", "1", header(GOOD, total=41)),
        judged(source, "total length 296, in its low byte 40, of 40 bytes", "1", header(GOOD, total=296)),
        judged(source, "total length 39 of 40 bytes is read on", "6", header(GOOD, total=39)),
    ]


def refusal_2():
    source = "01 refusal 2"
    due_zero = header(GOOD, identification=0xD9A8)
    options = with_options(GOOD, b"\x01" * 4)
    return [
        judged(source, "header checksum one above", "2", header(GOOD, checksum=0xD9A9)),
        judged(source, "header checksum field 0", "2", header(GOOD, checksum=0)),
        judged(source, "header checksum with its bytes swapped", "2", header(GOOD, checksum=0xA8D9)),
        judged(source, "header checksum 0x0000 where it is due", ACCEPTED, header(due_zero, checksum=0)),
        judged(source, "header checksum 0xFFFF where 0x0000 is due", ACCEPTED, header(due_zero, checksum=0xFFFF)),
        judged(source, "header checksum 0x0001 where 0x0000 is due", "2", header(due_zero, checksum=1)),
        judged(source, "source address changed under the checksum", "2", changed(GOOD, 15, b"\x03")),
        judged(source, "an option changed under the checksum", "2", changed(options, 23, b"\x00")),
    ]


def refusal_3():
    source = "01 refusal 3"

    def destined(text):
        return header(GOOD, destination=int.from_bytes(address(text), "big"))

    return [
        judged(source, "more-fragments", "3", header(GOOD, fragment=0x2000)),
        judged(source, "more-fragments and don't-fragment", "3", header(GOOD, fragment=0x6000)),
        judged(source, "offset 1", "3", header(GOOD, fragment=0x0001)),
        judged(source, "offset 256", "3", header(GOOD, fragment=0x0100)),
        judged(source, "offset 4,096 and don't-fragment", "3", header(GOOD, fragment=0x5000)),
        judged(source, "offset 8,191", "3", header(GOOD, fragment=0x1FFF)),
        judged(source, "don't-fragment is not looked at: not set", ACCEPTED, header(GOOD, fragment=0x0000)),
        judged(source, "the reserved bit is not looked at", ACCEPTED, header(GOOD, fragment=0x8000)),
        judged(source, "the reserved bit and don't-fragment", ACCEPTED, header(GOOD, fragment=0xC000)),
        judged(source, "protocol 111", "3", header(GOOD, protocol=111)),
        judged(source, "protocol 113", "3", header(GOOD, protocol=113)),
        judged(source, "protocol 51, authentication header", "3", header(GOOD, protocol=51)),
        judged(source, "to 224.0.0.17", "3", destined("224.0.0.17")),
        judged(source, "to 224.0.1.18", "3", destined("224.0.1.18")),
        judged(source, "to 224.1.0.18", "3", destined("224.1.0.18")),
        judged(source, "to 225.0.0.18", "3", destined("225.0.0.18")),
        judged(source, "to the virtual address", "3", destined("192.168.1.254")),
    ]


def unh_ttl_and_version():
    return [
        judged("UNH 4.1 to 4.8", "the valid advertisement of each test", ACCEPTED, GOOD),
        judged("UNH 4.1", "TTL 254", "4", header(GOOD, ttl=254)),
        judged("UNH 4.1", "TTL 0", "4", header(GOOD, ttl=0)),
        judged("UNH 4.2", "version 1", "5", message(GOOD, version_type=0x11)),
        judged("UNH 4.2", "version 3", "5", message(GOOD, version_type=0x31)),
        judged("UNH 4.2", "version 10", "5", message(GOOD, version_type=0xA1)),
        judged("01 refusal 5", "payload of 1 byte, version 3", "5", with_payload(GOOD, b"\x31")),
        judged("01 refusal 5", "payload of 1 byte, version 2", "6", with_payload(GOOD, b"\x21")),
    ]


def unh_length():
    source = "01 refusal 6"
    none, most = with_list(GOOD, b""), with_list(GOOD, VIRTUAL * 255)
    two = sent(addresses=VIRTUAL * 2)
    return [
        judged("UNH 4.3", "total length 38", "6", cut(GOOD, 18)),
        judged("UNH 4.3", "total length 32, no last 8 bytes", "6", cut(GOOD, 12)),
        judged(source, "payload of 3 bytes, no count in it", "6", cut(GOOD, 3)),
        judged(source, "payload of 7 bytes", "6", cut(GOOD, 7)),
        judged(source, "payload of 8 bytes", "6", cut(GOOD, 8)),
        judged(source, "n = 0 with 8 bytes", "6", cut(none, 8)),
        judged(source, "n = 0 with 15 bytes", "6", cut(none, 15)),
        judged(source, "n = 0 with 16 bytes", "0 192.168.1.2 1 100 0 0 1 28", none),
        judged(source, "n = 2 with 23 bytes", "6", cut(two, 23)),
        judged(source, "n = 2 with 24 bytes", "0 192.168.1.2 1 100 2 0 1 28", two),
        judged(source, "n = 2 said, one address given", "6", message(GOOD, count=2)),
        judged(source, "n = 61, whose 260 bytes are 4 in a byte", "6", message(GOOD, count=61)),
        judged(source, "n = 16", "0 192.168.1.2 1 100 16 0 1 28", sent(addresses=SIXTEEN)),
        judged(source, "n = 17, more than we list", "0 192.168.1.2 1 100 17 0 1 28", with_list(GOOD, VIRTUAL * 17)),
        judged(source, "n = 255 with 1,035 bytes", "6", cut(most, 1035)),
        judged(source, "n = 255 with 1,036 bytes", "0 192.168.1.2 1 100 255 0 1 28", most),
    ]


def unh_checksum():
    source, trap = "01 refusal 7", "01 traps"
    keyed = with_payload(GOOD, GOOD[20:32] + b"password")
    last = "last 8 bytes not zero"
    # The sums of the next two count a byte too many: 0x55 in the high byte of a last word, 0xB855 less 0x5500.
    too_far = message(GOOD, checksum=0x6355)
    return [
        judged("UNH 4.4", "message checksum one above", "7", message(GOOD, checksum=0xB856)),
        judged("UNH 4.4", "message checksum one below", "7", message(GOOD, checksum=0xB854)),
        judged("UNH 4.4", "message checksum field 0", "7", message(GOOD, checksum=0)),
        judged("UNH 4.4", "message checksum field 0xFFFF", "7", message(GOOD, checksum=0xFFFF)),
        judged("UNH 4.4", "message checksum with its bytes swapped", "7", message(GOOD, checksum=0x55B8)),
        judged(source, "priority changed under the checksum", "7", changed(GOOD, 22, b"\x65")),
        judged(source, "address changed under the checksum", "7", changed(GOOD, 31, b"\xfd")),
        judged(source, f"{last}, not counted in the sum", "7", keyed),
        judged(source, f"{last}, counted in the sum", ACCEPTED, message(keyed)),
        judged(source, "last byte changed under the checksum", "7", changed(GOOD, 39, b"\x01")),
        judged(source, "a byte after the message is passed over", ACCEPTED, with_payload(GOOD, GOOD[20:] + b"\x55")),
        judged(source, "a byte after the message is not summed", "7", with_payload(too_far, too_far[20:] + b"\x55")),
        judged(trap, "Ethernet padding is passed over", ACCEPTED, GOOD + b"\x55" * 6),
        judged(trap, "Ethernet padding is not summed", "7", too_far + b"\x55" + bytes(5)),
        judged(trap, "Ethernet padding does not make a message longer", "6", cut(GOOD, 19) + bytes(7)),
    ]


def unh_fields():
    return [
        judged("UNH 4.5", "VRID 2, judged without a table", "0 192.168.1.2 2 100 1 0 1 28", sent(vrid=2)),
        judged("UNH 4.5", "VRID 255", "0 192.168.1.2 255 100 1 0 1 28", sent(vrid=255)),
        judged("UNH 4.5", "VRID 0", "0 192.168.1.2 0 100 1 0 1 28", message(GOOD, vrid=0)),
        judged("UNH 4.6", "authentication type 1", "0 192.168.1.2 1 100 1 1 1 28", message(GOOD, authentication=1)),
        judged("UNH 4.6", "authentication type 2", "0 192.168.1.2 1 100 1 2 1 28", message(GOOD, authentication=2)),
        judged("UNH 4.6", "authentication type 255", "0 192.168.1.2 1 100 1 255 1 28",
               message(GOOD, authentication=255)),
        judged("UNH 4.7", "interval 7", "0 192.168.1.2 1 100 1 0 7 28", sent(interval=7)),
        judged("UNH 4.7", "interval 0", "0 192.168.1.2 1 100 1 0 0 28", message(GOOD, interval=0)),
        judged("UNH 4.8", "type 0", "8", message(GOOD, version_type=0x20)),
        judged("UNH 4.8", "type 2", "8", message(GOOD, version_type=0x22)),
        judged("UNH 4.8", "type 15", "8", message(GOOD, version_type=0x2F)),
        advertised("UNH 4.9", "the owner's, priority 255", FRAME_OF_OWNER, 54, priority=255, primary=VIRTUAL),
        judged("UNH 4.9", "the owner's, judged", "0 192.168.1.254 1 255 1 0 1 28", sent(priority=255, primary=VIRTUAL)),
    ]


def headers_of_others():
    source = "01 bytes"
    four = with_options(GOOD, b"\x94\x04\x00\x00")
    forty = with_options(sent(addresses=SIXTEEN), b"\x01" * 40)
    return [
        judged(source, "4 bytes of IP options", "0 192.168.1.2 1 100 1 0 1 32", four),
        judged(source, "4 bytes of IP options and padding", "0 192.168.1.2 1 100 1 0 1 32", four + b"\xff" * 2),
        judged(source, "40 bytes of IP options and n = 16", "0 192.168.1.2 1 100 16 0 1 68", forty),
        judged(source, "service 0xC0", ACCEPTED, header(GOOD, service=0xC0)),
        judged(source, "identification 0x1234", ACCEPTED, header(GOOD, identification=0x1234)),
        judged(source, "source 200.0.0.1", "0 200.0.0.1 1 100 1 0 1 28", sent(primary=address("200.0.0.1"))),
        judged(source, "source 0.0.0.0", "0 0.0.0.0 1 100 1 0 1 28", sent(primary=bytes(4))),
    ]


def two_at_once():
    source = "01 order"
    two_to_eight = header(message(cut(GOOD, 19), version_type=0x32, checksum=0), ttl=1, protocol=1, checksum=0)
    return [
        judged(source, "1 and 2", "1", header(GOOD, total=41, checksum=0xD9A8)),
        judged(source, "2 and 3", "2", header(GOOD, protocol=113, checksum=0xD9A8)),
        judged(source, "3 and 4", "3", header(GOOD, fragment=0x2000, ttl=254)),
        judged(source, "4 and 5", "4", header(message(GOOD, version_type=0x31), ttl=254)),
        judged(source, "5 and 6", "5", cut(message(GOOD, version_type=0x31), 19)),
        judged(source, "5 and 7", "5", changed(GOOD, 20, b"\x31")),
        judged(source, "6 and 7", "6", cut(message(GOOD, checksum=0), 19)),
        judged(source, "7 and 8", "7", message(GOOD, version_type=0x22, checksum=0)),
        judged(source, "3 and 7", "3", header(message(GOOD, checksum=0), protocol=113)),
        judged(source, "all from 2 to 8", "2", two_to_eight),
        judged(source, "all from 3 to 8", "3", header(two_to_eight)),
        judged(source, "all from 4 to 8", "4", header(two_to_eight, protocol=112)),
        judged(source, "all from 5 to 8", "5", header(two_to_eight, protocol=112, ttl=255)),
    ]


def advertisements():
    source = "01 writing"
    return [
        advertised(source, "room 53, one too small", (22, 54), 53),
        advertised(source, "room 55, one more than needed", FRAME, 55),
        advertised(source, "room 1,023", FRAME, 1023),
        advertised(source, "room 0", (22, 54), 0),
        advertised(source, "n = 2, room 57", (22, 58), 57, addresses=VIRTUAL + address("192.168.1.253")),
        advertised(source, "n = 2, room 58", FRAME_OF_TWO, 58, addresses=VIRTUAL + address("192.168.1.253")),
        advertised(source, "the same address twice", FRAME_OF_TWICE, 58, addresses=VIRTUAL * 2),
        advertised(source, "n = 16, room 113", (22, 114), 113, addresses=SIXTEEN),
        advertised(source, "n = 16, all of ones", FRAME_OF_SIXTEEN_GREATEST, 115, addresses=b"\xff" * 64),
        advertised(source, "everything greatest", FRAME_OF_GREATEST, 54, vrid=255, priority=255, interval=255,
                   primary=b"\xff" * 4, addresses=b"\xff" * 4),
        advertised(source, "everything least", FRAME_OF_LEAST, 54, priority=0, primary=bytes(4), addresses=bytes(4)),
        advertised(source, "a header checksum of 0x0000", FRAME_DUE_ZERO_HEADER, 54,
                   primary=address("192.168.218.170")),
        advertised(source, "VRID 0", (14, 0), 54, vrid=0),
        advertised(source, "interval 0", (16, 0), 54, interval=0),
        advertised(source, "no address bytes", (17, 0), 54, addresses=b""),
        advertised(source, "3 address bytes", (17, 0), 54, addresses=VIRTUAL[:3]),
        advertised(source, "6 address bytes", (17, 0), 58, addresses=VIRTUAL + b"\x00\x00"),
        advertised(source, "65 address bytes", (17, 0), 200, addresses=SIXTEEN + b"\x00"),
        advertised(source, "256 address bytes, 0 in a byte", (17, 0), 400, addresses=VIRTUAL * 64),
        advertised(source, "260 address bytes, 4 in a byte", (17, 0), 400, addresses=VIRTUAL * 65),
        advertised(source, "14, 16, 17 and 22", (14, 0), 0, vrid=0, interval=0, addresses=b""),
        advertised(source, "14 and 16", (14, 0), 54, vrid=0, interval=0),
        advertised(source, "14 and 17", (14, 0), 54, vrid=0, addresses=b""),
        advertised(source, "14 and 22", (14, 0), 53, vrid=0),
        advertised(source, "16, 17 and 22", (16, 0), 0, interval=0, addresses=SIXTEEN + VIRTUAL),
        advertised(source, "16 and 17", (16, 0), 54, interval=0, addresses=VIRTUAL[:3]),
        advertised(source, "16 and 22", (16, 0), 53, interval=0),
        advertised(source, "17 and 22", (17, 0), 0, addresses=SIXTEEN + VIRTUAL),
    ]


def arp_frames():
    source = "01 writing"
    return [
        announced(source, "192.168.1.254, room 42", ARP_FRAME, 42),
        announced(source, "room 41, one too small", (22, 42), 41),
        announced(source, "room 43, one more than needed", ARP_FRAME, 43),
        announced(source, "room 0", (22, 42), 0),
        announced(source, "VRID 0", (14, 0), 42, vrid=0),
        announced(source, "14 and 22", (14, 0), 41, vrid=0),
        announced(source, "VRID 255, 200.0.0.1", ARP_OF_255, 42, vrid=255, target=address("200.0.0.1")),
        announced(source, "0.0.0.0", ARP_OF_LEAST, 42, target=bytes(4)),
        announced(source, "255.255.255.255", ARP_OF_GREATEST, 42, target=b"\xff" * 4),
    ]


def made():
    """The three files, once the second program has answered every case as typed."""
    parts = (both_sides, refusal_1, refusal_2, refusal_3, unh_ttl_and_version, unh_length, unh_checksum, unh_fields,
             headers_of_others, two_at_once, advertisements, arp_frames)
    cases = [case for part in parts for case in part()]
    for number, case in enumerate(cases, 1):
        lines = list(second.answer_records(case.record))
        if lines != [case.line]:
            raise SystemExit(f"case {number}, {case.source}, {case.shows}: {lines}, due {case.line}")
    listed = [f"{number} {case.source}: {case.shows} -> {case.note}" for number, case in enumerate(cases, 1)]
    records = b"".join(case.record for case in cases)
    return {
        PROGRAM / "stdin": records,
        PROGRAM / "stdout": ("\n".join(second.answer_records(records)) + "\n").encode(),
        HERE / "wire.txt": ("\n".join(listed) + "\n").encode(),
    }


if __name__ == "__main__":
    sys.exit(keep(made(), sys.argv[1:]))
