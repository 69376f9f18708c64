#!/usr/bin/env python3
"""Makes the captures beside it; README.md says what each holds.

Every frame has its verdict typed by hand; the second program must give the same, else nothing is made. With --check
it compares the made files with those there.
"""

import struct
import sys
from collections import namedtuple
from pathlib import Path

HERE = Path(__file__).resolve().parent
sys.dont_write_bytecode = True
sys.path.insert(0, str(HERE.parent))

import second
from cases.mutate import address, changed, cut, header, keep, mended, message, with_list, with_options, with_payload

START = 1_000_000_000
NOT_IPV4 = "not IPv4"

# A frame on the wire: its stamp in microseconds from the start, its captured bytes, the verdict due, and how many
# bytes the tap cut off.
Frame = namedtuple("Frame", "at content verdict lost", defaults=(0,))


VIRTUAL = address("192.168.1.254")


def advertised(at, verdict, primary, priority, addresses=VIRTUAL, vrid=1, interval=1):
    frame = second.advertisement_frame(vrid, priority, interval, address(primary), addresses)
    return Frame(at, frame, verdict)


def announced(at, target, vrid=1):
    return Frame(at, second.arp_frame(vrid, address(target)), NOT_IPV4)


def padded(frame):
    """The frame as a card pads it, to the 60 bytes that Ethernet asks for."""
    return frame.ljust(60, b"\0")


def takeover():
    """192.168.1.2 of priority 200 leaves and returns, 192.168.1.3 of priority 100 stands in."""
    two = VIRTUAL + address("192.168.1.253")

    def higher(at, priority=200, verdict="0 192.168.1.2 1 200 2 0 1 28"):
        return advertised(at, verdict, "192.168.1.2", priority, two)

    def lower(at):
        return advertised(at, "0 192.168.1.3 1 100 2 0 1 28", "192.168.1.3", 100, two)

    def arps(at):
        return [announced(at, "192.168.1.254"), announced(at, "192.168.1.253")]

    return [
        higher(0), *arps(50), higher(1_000_000), higher(2_000_000),
        higher(2_500_000, 0, "0 192.168.1.2 1 0 2 0 1 28"),
        # The skew of priority 100 is 156 ticks, 0.609375 seconds.
        lower(3_109_375), *arps(3_109_425), lower(4_109_375), lower(5_109_375),
        # 192.168.1.2 started at 5.5 seconds; its master down interval is 824 ticks, 3.21875 seconds.
        lower(6_109_375), lower(7_109_375), lower(8_109_375),
        higher(8_718_750), *arps(8_718_800), higher(9_718_750),
    ]


def split():
    """Two pairs of equal priority, Masters on a split segment until it is joined at 1.45 seconds."""
    def left(at):
        return advertised(at, "0 192.168.1.9 1 100 1 0 1 28", "192.168.1.9", 100)

    def right(at):
        return advertised(at, "0 192.168.1.10 1 100 1 0 1 28", "192.168.1.10", 100)

    def far_left(at):
        return advertised(at, "0 100.0.0.1 2 100 1 0 1 28", "100.0.0.1", 100, address("100.0.0.254"), vrid=2)

    def far_right(at):
        return advertised(at, "0 200.0.0.1 2 100 1 0 1 28", "200.0.0.1", 100, address("100.0.0.254"), vrid=2)

    return [
        left(0), far_left(100_000), right(400_000), far_right(500_000),
        left(1_000_000), far_left(1_100_000), right(1_400_000), far_right(1_500_000),
        left(2_000_000), right(2_400_000), far_right(2_500_000),
        right(3_400_000), far_right(3_500_000),
    ]


def owners():
    """Two owners that both stay Master, and a station whose interval differs."""
    def owner(at):
        return advertised(at, "0 192.168.1.254 1 255 1 0 1 28", "192.168.1.254", 255)

    def other(at):
        return advertised(at, "0 192.168.1.253 1 255 1 0 1 28", "192.168.1.253", 255)

    return [
        owner(0), announced(50, "192.168.1.254"), other(300_000), announced(300_050, "192.168.1.254"),
        owner(1_000_000), other(1_300_000), owner(2_000_000), other(2_300_000),
        advertised(2_500_000, "0 192.168.1.3 1 100 1 0 5 28", "192.168.1.3", 100, interval=5),
    ]


def lists():
    """Advertisements of 0 to 255 addresses."""
    def listed(at, count, verdict):
        addresses = b"".join(bytes([10, 0, 0, last]) for last in range(count))
        frame = second.advertisement_frame(1, 100, 1, address("192.168.1.2"), VIRTUAL)
        return Frame(at, frame[:14] + with_list(frame[14:], addresses), verdict)

    return [
        listed(0, 1, "0 192.168.1.2 1 100 1 0 1 28"),
        listed(1_000_000, 2, "0 192.168.1.2 1 100 2 0 1 28"),
        listed(2_000_000, 5, "0 192.168.1.2 1 100 5 0 1 28"),
        listed(3_000_000, 16, "0 192.168.1.2 1 100 16 0 1 28"),
        listed(4_000_000, 90, "0 192.168.1.2 1 100 90 0 1 28"),
        listed(5_000_000, 255, "0 192.168.1.2 1 100 255 0 1 28"),
        listed(6_000_000, 0, "0 192.168.1.2 1 100 0 0 1 28"),
    ]


def sent_by(primary, priority, addresses=VIRTUAL, **fields):
    """A packet as another make sends it: with these header fields."""
    return header(second.advertisement_frame(1, priority, 1, address(primary), addresses)[14:], **fields)


def version_3(primary):
    """A packet of version 3, whose checksum also covers source, destination, protocol and length."""
    body = bytes.fromhex("3101640100640000") + VIRTUAL
    pseudo = address(primary) + second.GROUP + bytes([0, 112, 0, len(body)])
    return with_payload(sent_by(primary, 100), mended(pseudo + body, len(pseudo) + 6)[len(pseudo):])


def membership(primary):
    """An IGMP version 3 report for 224.0.0.18, with its router alert option."""
    body = mended(bytes.fromhex("22000000 00000001 04000000") + second.GROUP, 2)
    report = header(sent_by(primary, 100, ttl=1, protocol=2, fragment=0), destination=0xE0000016)
    return with_options(with_payload(report, body), bytes.fromhex("94040000"))


def other_makes():
    """The habits of other makes, and what else is on their segments."""
    to_group, own = second.GROUP_MAC, bytes.fromhex("02000000000A")
    habit = {"service": 0xC0, "fragment": 0}
    target = bytes.fromhex("FFFFFFFFFFFF 00005E000101 0806 0001080006040001 00005E000101") + VIRTUAL
    arp = padded(target + bytes.fromhex("FFFFFFFFFFFF") + VIRTUAL)
    third = sent_by("192.168.1.10", 100, identification=3, **habit)
    keyed = with_payload(third, third[20:32] + b"pass\0\0\0\0")
    sealed = message(third, authentication=2)[20:]
    ah = bytes.fromhex("70040000 00000001 00000001") + b"\x5a" * 12
    due_zero = sent_by("192.168.1.10", 100, address("192.168.186.83"), identification=6, **habit)

    def framed(at, packet, verdict, mac=own):
        return Frame(at, padded(to_group + mac + b"\x08\x00" + packet), verdict)

    return [
        Frame(0, bytes.fromhex("01005E000016 02000000000A 0800") + membership("192.168.1.10"), "3"),
        framed(100_000, sent_by("192.168.1.10", 100, identification=1, **habit), "0 192.168.1.10 1 100 1 0 1 28"),
        Frame(100_100, arp, NOT_IPV4),
        Frame(100_200, arp, NOT_IPV4),
        framed(1_100_000, sent_by("192.168.1.10", 100, identification=2, **habit), "0 192.168.1.10 1 100 1 0 1 28"),
        # Padding that is not zero.
        Frame(2_100_000, to_group + own + b"\x08\x00" + third + b"\xde\xad\xbe\xef\x01\x02",
              "0 192.168.1.10 1 100 1 0 1 28"),
        framed(2_200_000, sent_by("192.168.1.11", 90, identification=0x3A7C, service=0xC0),
               "0 192.168.1.11 1 90 1 0 1 28", second.virtual_mac(1)),
        framed(2_300_000, message(keyed, authentication=1), "0 192.168.1.10 1 100 1 1 1 28"),
        # Authentication type 2 stands behind an authentication header.
        framed(2_400_000, header(with_payload(third, ah + sealed), protocol=51), "3"),
        framed(2_500_000, version_3("192.168.1.12"), "5"),
        # Four bytes after the message, inside the payload.
        framed(2_600_000, with_payload(third, third[20:] + b"\x01\x02\x03\x04"), "0 192.168.1.10 1 100 1 0 1 28"),
        # The checksum due is 0x0000; some write 0xFFFF for it.
        framed(2_700_000, due_zero, "0 192.168.1.10 1 100 1 0 1 28"),
        framed(2_800_000, message(due_zero, checksum=0xFFFF), "0 192.168.1.10 1 100 1 0 1 28"),
        # A frame with a VLAN tag is not IPv4 at its type.
        Frame(2_900_000, to_group + own + bytes.fromhex("8100 0005 0800") + third, NOT_IPV4),
        # A ping to the group.
        framed(3_000_000, header(with_payload(third, bytes.fromhex("0800F7FF00000000")), protocol=1), "3"),
        framed(3_100_000, sent_by("192.168.1.10", 0, identification=7, **habit), "0 192.168.1.10 1 0 1 0 1 28"),
    ]


def faults():
    """One fault a frame, in the order of the refusals."""
    frame = second.advertisement_frame(1, 100, 1, address("192.168.1.2"), VIRTUAL)
    ethernet, good = frame[:14], frame[14:]
    packets = [
        (good[:19], "1"),
        (header(good, version_length=0x65), "1"),
        (header(good, version_length=0x44), "1"),
        (header(good, version_length=0x4F), "1"),
        (header(good, total=19), "1"),
        (header(good, total=41), "1"),
        (header(good, checksum=0xD9A9), "2"),
        (header(good, fragment=0x2000), "3"),
        (header(good, fragment=0x0001), "3"),
        (header(good, protocol=113), "3"),
        (header(good, destination=0xE0000013), "3"),
        (header(good, ttl=254), "4"),
        (message(good, version_type=0x11), "5"),
        (cut(good, 0), "6"),
        (cut(good, 7), "6"),
        (cut(good, 19), "6"),
        (message(good, checksum=0xB854), "7"),
        (changed(good, 39, b"\x01"), "7"),
        (message(good, version_type=0x22), "8"),
        (b"", "1"),
    ]
    frames = [Frame(100_000 * place, ethernet + packet, due) for place, (packet, due) in enumerate(packets)]
    return frames + [
        # The tap kept 40 of 54 bytes, or 13.
        Frame(2_000_000, frame[:40], "1", 14),
        Frame(2_100_000, frame[:13], NOT_IPV4, 41),
        Frame(2_200_000, frame, "0 192.168.1.2 1 100 1 0 1 28"),
    ]


def captured(frames, order, nanoseconds=False):
    """The capture in this byte order, once the second program has judged every frame as typed."""
    magic, unit = (0xA1B23C4D, 1000) if nanoseconds else (0xA1B2C3D4, 1)
    capture = struct.pack(order + "IHHiIII", magic, 2, 4, 0, 0, 65535, 1)
    for number, frame in enumerate(frames, 1):
        verdict = second.verdict_of_frame(frame.content)
        if verdict != frame.verdict:
            raise SystemExit(f"frame {number}: {verdict}, due {frame.verdict}")
        seconds, part = divmod(frame.at, 1_000_000)
        size = len(frame.content)
        capture += struct.pack(order + "IIII", START + seconds, part * unit, size, size + frame.lost) + frame.content
    return capture


def made():
    return {
        HERE / "takeover.pcap": captured(takeover(), "<"),
        HERE / "split.pcap": captured(split(), ">"),
        HERE / "owners.pcap": captured(owners(), "<", nanoseconds=True),
        HERE / "lists.pcap": captured(lists(), ">", nanoseconds=True),
        HERE / "other_makes.pcap": captured(other_makes(), "<"),
        HERE / "faults.pcap": captured(faults(), "<"),
    }


if __name__ == "__main__":
    sys.exit(keep(made(), sys.argv[1:]))
