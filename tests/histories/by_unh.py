"""Histories of the UNH test suite: groups 2 to 4 as far as they are about the table.

The router under test is VRID 1 at 192.168.1.2, the testing router TR1 is 192.168.1.3. Where 2.7 speaks of "higher or
equal" its own parts E and F, RFC 3768 and document 01 decide.
"""

from cases.make import ARP_FRAME, FRAME, FRAME_OF_OWNER, FRAME_OF_ZERO
from cases.mutate import cut, header, message
from histories.steps import VIRTUAL, clock, configure, given, heard, new, question, sent, shutdown, startup

TAKEOVER = FRAME + ARP_FRAME
GOOD = sent(200)


def destined(target, protocol):
    """A packet for somebody else: the table has no part in it, so the refusal is 3."""
    return header(GOOD, destination=int.from_bytes(target, "big"), protocol=protocol)


ECHO_REQUEST = destined(VIRTUAL, 1)
PASSING = destined(bytes([192, 168, 1, 77]), 17)


def unh_2_1():
    """The Initialize State: P 255 advertises and ARPs at once, P 254 after 770 ticks (3.0078125 seconds)."""
    return [
        new("192.168.1.254"), configure("0 I 0", priority=255),
        startup("0 M 256 master 1", 96, frames=FRAME_OF_OWNER + ARP_FRAME),
        new("192.168.1.2"), configure("0 I 0", priority=254), startup("0 B 770", 96),
        clock(769, "0 B 1", 96), clock(1, "0 M 256 wrote 96 master 1", 96),
    ]


def unh_2_2():
    """Packet Reception in the Backup State: what is for the virtual router gets no answer (ARP never reaches us)."""
    return [
        new("192.168.1.2"), configure("0 I 0"), startup("0 B 924"),
        heard(200, "0 B 924", 96), clock(100, "0 B 824"),
        given(PASSING, "3 - c3 1", 96), question("0 B 824"),
        heard(200, "0 B 924", 96), clock(100, "0 B 824"),
        given(ECHO_REQUEST, "3 - c3 2", 96), question("0 B 824 accepted 2 master 0"),
    ]


def unh_2_3():
    """Master Down in the Backup State: P 100 and A 5, Master 3,996 ticks (about 16 seconds) after the last packet."""
    heard_of_five = [heard(200, "0 B 3996", interval=5), clock(1280, "0 B 2716")]
    return [
        new("192.168.1.2"), configure("0 I 0", interval=5), startup("0 B 3996"), *heard_of_five * 4,
        heard(200, "0 B 3996", interval=5), clock(3995, "0 B 1"), clock(1, "0 M 1280 wrote 96 master 1", 96),
    ]


def unh_2_4():
    """Advertisement Reception in the Backup State: from P on resets the timer, 0 sets the skew, lower neither."""
    higher = [heard(101, "0 B 924", 96), clock(256, "0 B 668", 96)]
    equal = [heard(100, "0 B 924", 96), clock(256, "0 B 668", 96)]
    return [
        new("192.168.1.2"), configure("0 I 0"), startup("0 B 924"), *higher * 5, *equal * 5,
        heard(101, "0 B 924"), heard(0, "0 B 156"), clock(155, "0 B 1"),
        clock(1, "0 M 256 master 1", 96, frames=TAKEOVER),
        heard(101, "0 B 924"), clock(256, "0 B 668"), heard(99, "0 B 668"), clock(256, "0 B 412"),
        heard(99, "0 B 412"), clock(256, "0 B 156"), heard(99, "0 B 156"),
        clock(156, "0 M 256 master 2", 96, frames=TAKEOVER),
    ]


def unh_2_5():
    """Packet Reception in the Master State: what is for the virtual router is the host's, owner or not."""
    return [
        new("192.168.1.2"), configure("0 I 0"), startup("0 B 924"), clock(924, "0 M 256 wrote 96", 96),
        clock(56, "0 M 200"), given(PASSING, "3 - c3 1", 96), question("0 M 200"),
        given(ECHO_REQUEST, "3 - c3 2", 96), question("0 M 200 accepted 0"),
        new("192.168.1.254"), configure("0 I 0", priority=255), startup("0 M 256 wrote 96", 96),
        clock(56, "0 M 200"), given(ECHO_REQUEST, "3 - c3 1", 96), question("0 M 200 c10 0"),
    ]


def unh_2_6():
    """Shutdown Event in the Master State: an advertisement of priority 0, no timer, Initialize."""
    return [
        new("192.168.1.2"), configure("0 I 0"), startup("0 B 924"), clock(924, "0 M 256 wrote 96", 96),
        shutdown("0 I 0", 54, frames=FRAME_OF_ZERO), clock(10000, "0 I 0", 96), question("0 I 0 master 1"),
    ]


def unh_2_7():
    """Advertisement Reception in the Master State, parts A to F: a higher priority, or equal with a higher address."""
    master = [startup("0 B 924"), clock(924, "0 M 256 wrote 96", 96), clock(100, "0 M 156")]
    return [
        new("192.168.1.2"), configure("0 I 0"),
        *master, heard(101, "0 B 924", 96), clock(256, "0 B 668", 96), shutdown("0 I 0"),
        *master, heard(99, "0 M 156", 96), clock(156, "0 M 256", 54, frames=FRAME), shutdown("0 I 0 wrote 54", 54),
        *master, heard(0, "0 M 256", 54, frames=FRAME), clock(255, "0 M 1"), shutdown("0 I 0 wrote 54", 54),
        *master, heard(100, "0 B 924", 96, source="192.168.1.3"), shutdown("0 I 0"),
        *master, heard(100, "0 M 156 master 5", 96, source="192.168.1.2"),
        # TR1 ceases: no gratuitous ARP shows that the router under test never left the Master state.
        clock(156, "0 M 256", 54, frames=FRAME), clock(256, "0 M 256 master 5", 54, frames=FRAME),
        shutdown("0 I 0 wrote 54", 54),
        *master, heard(100, "0 M 156 master 6", 96, source="192.168.1.1"), clock(156, "0 M 256", 54, frames=FRAME),
    ]


def unh_3_1():
    """Advertisement_Interval: 256 ticks by default, 768 for a configured 3 seconds."""
    each_second = [clock(255, "0 M 1", 54), clock(1, "0 M 256", 54, frames=FRAME)]
    each_third = [clock(767, "0 M 1", 54), clock(1, "0 M 768 wrote 54", 54)]
    return [
        new("192.168.1.2"), configure("0 I 0"), startup("0 B 924"), clock(924, "0 M 256 wrote 96", 96),
        *each_second * 3,
        new("192.168.1.2"), configure("0 I 0", interval=3), startup("0 B 2460"), clock(2460, "0 M 768 wrote 96", 96),
        *each_third * 3,
    ]


def skewed(priority, master_down, skew):
    return [
        new("192.168.1.2"), configure("0 I 0", priority=priority, interval=5), startup(f"0 B {master_down}"),
        heard(255, f"0 B {master_down}", interval=5), heard(0, f"0 B {skew}", interval=5),
        clock(skew - 1, "0 B 1"), clock(1, "0 M 1280 wrote 96", 96),
    ]


def unh_3_2():
    """Skew_Time: with A 5, 255 ticks for P 1, 2 for P 254 and 156 for P 100."""
    return [*skewed(1, 4095, 255), *skewed(254, 3842, 2), *skewed(100, 3996, 156)]


def unh_3_3():
    """Master_Down_Interval: for P 254, 770 ticks with A 1 and 3,074 with A 4."""
    return [
        new("192.168.1.2"), configure("0 I 0", priority=254), startup("0 B 770"), clock(256, "0 B 514"),
        heard(255, "0 B 770"), clock(769, "0 B 1"), clock(1, "0 M 256 wrote 96", 96),
        new("192.168.1.2"), configure("0 I 0", priority=254, interval=4), startup("0 B 3074"), clock(1024, "0 B 2050"),
        heard(255, "0 B 3074", interval=4), clock(3073, "0 B 1"), clock(1, "0 M 1024 wrote 96", 96),
    ]


def unh_3_4():
    """Preempt_Mode: a lower Master heard each second is preempted after 924 ticks, or without preempt left alone."""
    left_alone = [clock(256, "0 B 668", 96), heard(99, "0 B 924", 96)]
    return [
        new("192.168.1.2"), configure("0 I 0", preempt=1), heard(99, "0 I 0"), startup("0 B 924"),
        clock(256, "0 B 668"), heard(99, "0 B 668"), clock(256, "0 B 412"), heard(99, "0 B 412"),
        clock(256, "0 B 156"), heard(99, "0 B 156"), clock(156, "0 M 256 master 1", 96, frames=TAKEOVER),
        heard(99, "0 M 256", 96),
        new("192.168.1.2"), configure("0 I 0", preempt=0), heard(99, "0 I 0"), startup("0 B 924"),
        *left_alone * 6, question("0 B 924 master 0"),
    ]


def discarded(*refused):
    """Group 4's test: valid packets hold the Backup, invalid ones do not, and it is Master 924 ticks after the last.

    `refused` has packets and what is due after each; a second passes before each of the first three.
    """
    invalid = [given(packet, due, 96) for packet, due in refused]
    return [
        new("192.168.1.2"), configure("0 I 0"), startup("0 B 924"),
        heard(200, "0 B 924"), clock(256, "0 B 668"), heard(200, "0 B 924"),
        clock(256, "0 B 668"), *invalid[:1], clock(256, "0 B 412"), *invalid[1:2], clock(256, "0 B 156"), *invalid[2:],
        clock(155, "0 B 1"), clock(1, "0 M 256 accepted 2 master 1", 96, frames=TAKEOVER),
    ]


def unh_4_1():
    """Reception of Invalid TTL field: 254, 1 and 0 are refused by 4."""
    return discarded((header(GOOD, ttl=254), "4 - c4 1"), (header(GOOD, ttl=1), "4 - c4 2"),
                     (header(GOOD, ttl=0), "4 - c4 3"))


def unh_4_2():
    """Reception of Invalid Version field: 1, 3 and 15 are refused by 5."""
    return discarded((message(GOOD, version_type=0x11), "5 - c5 1"), (message(GOOD, version_type=0x31), "5 - c5 2"),
                     (message(GOOD, version_type=0xF1), "5 - c5 3"))


def unh_4_3():
    """Reception of Invalid Complete VRRP Packet length: below 40 bytes in all is refused by 6."""
    return discarded((cut(GOOD, 19), "6 - c6 1"), (cut(GOOD, 12), "6 - c6 2"), (cut(GOOD, 0), "6 - c6 3"))


def unh_4_4():
    """Reception of Invalid checksum field: refused by 7."""
    return discarded((message(GOOD, checksum=0), "7 - c7 1"), (message(GOOD, checksum=0xFFFF), "7 - c7 2"),
                     (message(GOOD, checksum=0x1234), "7 - c7 3"))


def unh_4_5():
    """Reception of Invalid VRID field: one that is not configured is refused by 9, one that we own by 10."""
    return discarded((sent(200, vrid=2), "9 - c9 1"), (message(GOOD, vrid=0), "9 - c9 2"),
                     (sent(200, vrid=255), "9 - c9 3")) + [
        configure("0 I 0", vrid=2, priority=255), given(sent(200, vrid=2), "10 I 0 c10 1 c9 3"),
        given(GOOD, "0 B 924 c10 0 accepted 3"),
    ]


def unh_4_6():
    """Reception of Invalid Auth Type Information: 1, 2 and 255 are refused by 11."""
    return discarded((message(GOOD, authentication=1), "11 B 668 c11 1"),
                     (message(GOOD, authentication=2), "11 B 412 c11 2"),
                     (message(GOOD, authentication=255), "11 B 156 c11 3"))


def unh_4_7():
    """Reception of Invalid Adver Interval Information: 7, 0 and 255 where 1 is ours are refused by 13."""
    return discarded((sent(200, interval=7), "13 B 668 c13 1"), (message(GOOD, interval=0), "13 B 412 c13 2"),
                     (sent(200, interval=255), "13 B 156 c13 3"))


def unh_4_8():
    """Reception of Invalid Unknown Type Field: 0, 2 and 15 are refused by 8."""
    return discarded((message(GOOD, version_type=0x20), "8 - c8 1"), (message(GOOD, version_type=0x22), "8 - c8 2"),
                     (message(GOOD, version_type=0x2F), "8 - c8 3"))


def unh_4_9():
    """Proper Transmission of VRRP packets: every byte, of an owner and of P 100 as Master and at its end."""
    return [
        new("192.168.1.254"), configure("0 I 0", priority=255),
        startup("0 M 256", 96, frames=FRAME_OF_OWNER + ARP_FRAME), clock(256, "0 M 256", 54, frames=FRAME_OF_OWNER),
        new("192.168.1.2"), configure("0 I 0"), startup("0 B 924"), clock(924, "0 M 256", 96, frames=TAKEOVER),
        clock(256, "0 M 256", 54, frames=FRAME), heard(0, "0 M 256", 54, frames=FRAME),
        shutdown("0 I 0", 54, frames=FRAME_OF_ZERO),
    ]


HISTORIES = [unh_2_1, unh_2_2, unh_2_3, unh_2_4, unh_2_5, unh_2_6, unh_2_7, unh_3_1, unh_3_2, unh_3_3, unh_3_4,
             unh_4_1, unh_4_2, unh_4_3, unh_4_4, unh_4_5, unh_4_6, unh_4_7, unh_4_8, unh_4_9]
