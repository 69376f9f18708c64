"""Histories of the refusals 1 to 22, each on both sides and in document 01's order where several hold."""

from cases.make import SIXTEEN
from cases.mutate import address, changed, cut, header, message, with_list, with_options, with_payload
from histories.steps import VIRTUAL, clock, configure, given, heard, new, question, remove, sent, shutdown, startup

OTHER = address("192.168.1.253")
THIRD = address("192.168.1.252")


def refusals_configure():
    """Configuring: 14 to 18 on both sides and in order, in every state of a VRID that is already there."""
    return [
        new("192.168.1.2"),
        # Each alone, the other side of it, and that nothing was configured.
        configure("14 -", vrid=0), configure("15 -", priority=0), configure("16 -", interval=0),
        configure("17 -", addresses=b""), configure("17 -", addresses=VIRTUAL[:1]),
        configure("17 -", addresses=VIRTUAL[:3]), configure("17 -", addresses=VIRTUAL + b"\x0a"),
        configure("17 -", addresses=VIRTUAL + b"\x0a\x00"), configure("17 -", addresses=SIXTEEN[:63]),
        configure("17 -", addresses=SIXTEEN + b"\x0a"), configure("17 -", addresses=SIXTEEN + VIRTUAL),
        # In one byte 256 would be 0, 260 would be 4 and 320 would be 64.
        configure("17 -", addresses=VIRTUAL * 64), configure("17 -", addresses=VIRTUAL * 65),
        configure("17 -", addresses=VIRTUAL * 80), question("20 -"),
        configure("0 I 0", vrid=1, priority=1, interval=1, preempt=0, addresses=VIRTUAL),
        configure("0 I 0", vrid=255, priority=255, interval=255, preempt=1, addresses=SIXTEEN),
        configure("0 I 0", vrid=2, addresses=VIRTUAL * 2), configure("0 I 0", vrid=3, addresses=SIXTEEN[:60]),
        # Several at once.
        configure("14 -", vrid=0, priority=0, interval=0, addresses=b""), configure("14 -", vrid=0, priority=0),
        configure("14 -", vrid=0, interval=0), configure("14 -", vrid=0, addresses=b""),
        configure("15 I 0", priority=0, interval=0, addresses=b""), configure("15 I 0", priority=0, interval=0),
        configure("15 -", vrid=9, priority=0, addresses=VIRTUAL[:3]), configure("15 I 0", priority=0),
        configure("16 I 0", interval=0, addresses=SIXTEEN + VIRTUAL), configure("16 I 0", interval=0),
        configure("17 I 0", addresses=b""), configure("17 -", vrid=9, addresses=b""),
        # 18 in each state; the router that is there keeps what it has.
        configure("18 I 0", priority=200, interval=9, preempt=1, addresses=SIXTEEN), startup("0 B 1023"),
        configure("18 B 1023", priority=200, interval=9, preempt=1, addresses=SIXTEEN),
        clock(1023, "0 M 256 wrote 96", 96),
        configure("18 M 256", priority=200, interval=9, preempt=1, addresses=SIXTEEN),
        configure("18 M 256"), configure("15 M 256", priority=0), heard(2, "0 B 1023", room=1),
        configure("18 I 0", vrid=255),
    ]


def refusals_remove():
    """Removing: 20 for what is not there, VRID 0 too, then 21 in Backup and in Master; the place is free again."""
    return [
        new("192.168.1.2"),
        remove("20 -"), remove("20 -", vrid=0), remove("20 -", vrid=255),
        configure("0 I 0"), remove("20 -", vrid=2), remove("20 -", vrid=0), remove("0 -"), remove("20 -"),
        configure("0 I 0"), startup("0 B 924"), remove("21 B 924"), clock(900, "0 B 24"), remove("21 B 24"),
        clock(24, "0 M 256 wrote 96", 96), remove("21 M 256"), heard(200, "0 B 924"), remove("21 B 924"),
        shutdown("0 I 0 accepted 1"), remove("0 -"), question("20 -"), startup("20 -"), heard(100, "9 - c9 1"),
        configure("0 I 0 accepted 0 master 0", priority=255), startup("0 M 256 wrote 96", 96), remove("21 M 256"),
        shutdown("0 I 0 wrote 54", 54), remove("0 - c9 1"),
    ]


def refusals_events():
    """Startup, shutdown, clock and question: 20 for what is not there, VRID 0 too, before 22; 22 changes nothing."""
    return [
        new("192.168.1.2"),
        startup("20 -"), shutdown("20 -"), clock(924, "20 -"), question("20 -"),
        startup("20 -", 96, vrid=0), shutdown("20 -", 54, vrid=0), clock(0, "20 -", 96, vrid=0),
        question("20 -", vrid=0),
        configure("0 I 0", priority=255),
        startup("20 -", vrid=0), shutdown("20 -", vrid=0), clock(1, "20 -", vrid=0), question("20 -", vrid=0),
        startup("20 -", vrid=2), shutdown("20 -", 54, vrid=254), clock(4294967295, "20 -", 9, vrid=255),
        question("20 -", vrid=2),
        startup("22 I 0 need 96"), startup("22 I 0 need 96", 95), startup("0 M 256 wrote 96", 96),
        clock(256, "22 M 256 need 54"), clock(300, "22 M 256 need 54", 53), clock(255, "0 M 1", 53),
        clock(1, "22 M 1 need 54", 53), clock(1, "0 M 256 wrote 54", 54),
        shutdown("22 M 256 need 54", 53), question("0 M 256 master 1"), shutdown("0 I 0 wrote 54", 54),
        # With P 100 the takeover is at the timer, and startup writes nothing.
        configure("0 I 0", vrid=2), startup("0 B 924", vrid=2), shutdown("0 I 0", vrid=2), startup("0 B 924", vrid=2),
        clock(924, "22 B 924 need 96", 95, vrid=2), clock(1000, "22 B 924 need 96", 54, vrid=2),
        question("0 B 924 master 0", vrid=2), clock(1000, "0 M 256 wrote 96 left 76 master 1", 96, vrid=2),
        heard(0, "22 M 256 need 54 accepted 0", 53, vrid=2), clock(6, "0 M 250", vrid=2),
        heard(0, "22 M 250 need 54 accepted 0", 53, vrid=2),
        heard(0, "0 M 256 wrote 54 accepted 1", 54, vrid=2),
    ]


GOOD = sent(100)


def faults():
    """One packet for each refusal from 1 to 8."""
    return [GOOD[:39], header(GOOD, checksum=0), header(GOOD, protocol=111), header(GOOD, ttl=254),
            message(GOOD, version_type=0x31), cut(GOOD, 19), message(GOOD, checksum=0),
            message(GOOD, version_type=0x22)]


def refusals_wire():
    """Packets refused by 1 to 8 in each state: counted with the interface, and no state or timer changes."""
    refused = [[given(packet, f"{refusal} - c{refusal} {round_}", 96) for refusal, packet in enumerate(faults(), 1)]
               for round_ in (1, 2, 3)]
    return [
        new("192.168.1.2"),
        configure("0 I 0"), *refused[0], question("0 I 0"),
        startup("0 B 924"), clock(24, "0 B 900"), *refused[1], question("0 B 900"),
        clock(900, "0 M 256 wrote 96", 96), clock(6, "0 M 250"), *refused[2],
        question("0 M 250 accepted 0 c1 3 c2 3 c3 3 c4 3 c5 3 c6 3 c7 3 c8 3 c9 0"),
        # 4 before 7, and 8 before 9 as before 11 to 13.
        given(header(message(GOOD, checksum=0), ttl=254), "4 - c4 4 c7 3"),
        given(message(GOOD, version_type=0x22, vrid=9), "8 - c8 4 c9 0"),
        given(message(GOOD, version_type=0x22, authentication=1, interval=9), "8 - c8 5"),
        given(message(GOOD, version_type=0x22, checksum=0, vrid=9), "7 - c7 4 c8 5"),
        heard(100, "0 B 924 accepted 1", source="192.168.1.3"),
    ]


def several(vrid=1, authentication=0, addresses=VIRTUAL, interval=1, priority=100):
    return message(sent(priority, vrid=vrid, addresses=addresses, interval=interval), authentication=authentication)


def refusals_packet():
    """Packets refused by 9 to 13: each alone and in order with the others, in each state, with 22 after 13."""
    return [
        new("192.168.1.2"),
        given(several(), "9 - c9 1"), given(several(vrid=0), "9 - c9 2"),
        configure("0 I 0", interval=2, vrid=1, addresses=VIRTUAL + OTHER),
        given(several(vrid=0), "9 - c9 3"), given(several(vrid=2), "9 - c9 4"), given(several(vrid=255), "9 - c9 5"),
        given(several(vrid=2, authentication=1, addresses=OTHER, interval=9), "9 - c9 6"),
        # 11, 12 and 13 in Initialize, together and alone.
        given(several(authentication=1), "11 I 0 c11 1 c12 0 c13 0"), given(several(), "12 I 0 c12 1 c13 0"),
        given(several(addresses=VIRTUAL + OTHER), "13 I 0 c13 1"),
        given(several(addresses=VIRTUAL + OTHER, interval=2), "0 I 0 accepted 1"),
        given(several(addresses=VIRTUAL + OTHER, interval=2, authentication=2), "11 I 0 c11 2"),
        given(several(addresses=VIRTUAL + OTHER, authentication=255), "11 I 0 c11 3"),
        given(several(interval=2, authentication=1), "11 I 0 c11 4"), given(several(interval=2), "12 I 0 c12 2"),
        # In Backup a refused packet leaves the timer, whatever its priority.
        startup("0 B 1692"), clock(92, "0 B 1600"),
        given(several(authentication=1, addresses=VIRTUAL + OTHER, interval=2, priority=255), "11 B 1600"),
        given(several(interval=2, priority=254), "12 B 1600"), given(several(interval=2, priority=0), "12 B 1600"),
        given(several(addresses=VIRTUAL + OTHER, priority=255), "13 B 1600"),
        given(several(addresses=VIRTUAL + OTHER, priority=0), "13 B 1600"),
        # In Master too, and 22 comes after them.
        clock(1600, "0 M 512 wrote 142", 142), clock(12, "0 M 500"),
        given(several(authentication=1, addresses=VIRTUAL + OTHER, interval=2, priority=0), "11 M 500"),
        given(several(interval=2, priority=0), "12 M 500 c12 5"),
        given(several(addresses=VIRTUAL + OTHER, priority=0), "13 M 500 c13 4"),
        given(several(addresses=VIRTUAL + OTHER, interval=2, priority=0), "22 M 500 need 58 accepted 1 c13 4", 57),
        given(several(addresses=VIRTUAL + OTHER, interval=2, priority=0), "0 M 512 wrote 58 accepted 2", 58),
        given(several(addresses=VIRTUAL + OTHER, interval=2, priority=255, authentication=1), "11 M 512"),
        given(several(addresses=VIRTUAL + OTHER, priority=255), "13 M 512"),
        # The intervals at the ends; 0 is never ours.
        given(several(addresses=VIRTUAL + OTHER, interval=1), "13 M 512"),
        given(several(addresses=VIRTUAL + OTHER, interval=3), "13 M 512"),
        given(several(addresses=VIRTUAL + OTHER, interval=0), "13 M 512"),
        given(several(addresses=VIRTUAL + OTHER, interval=255), "13 M 512 c13 9"),
        # 10 holds in Initialize and Master and comes before 11, 12 and 13, alone or together.
        configure("0 I 0", vrid=3, priority=255),
        given(several(vrid=3), "10 I 0 c10 1"), given(several(vrid=3, authentication=1), "10 I 0 c10 2"),
        given(several(vrid=3, addresses=OTHER), "10 I 0 c10 3"), given(several(vrid=3, interval=9), "10 I 0 c10 4"),
        startup("0 M 256 wrote 96", 96, vrid=3),
        given(several(vrid=3, authentication=1, addresses=OTHER, interval=9), "10 M 256 c10 5 c11 0 c12 0 c13 0"),
        given(several(vrid=3, priority=0), "10 M 256 c10 6"),
        # An owner on the other side is not refused by 10.
        configure("0 I 0", vrid=4, priority=254), given(several(vrid=4, priority=255), "0 I 0 c10 0 accepted 1"),
    ]


def refusals_list():
    """Refusal 12: count, addresses and order; skipped for priority 255 alone; the same address listed twice."""
    ours = VIRTUAL + OTHER + THIRD
    lists = [
        (ours, 0), (b"", 12), (VIRTUAL, 12), (VIRTUAL + OTHER, 12), (ours + VIRTUAL, 12), (ours + ours, 12),
        (OTHER + VIRTUAL + THIRD, 12), (VIRTUAL + THIRD + OTHER, 12), (THIRD + OTHER + VIRTUAL, 12),
        (VIRTUAL + OTHER + OTHER, 12), (VIRTUAL * 3, 12), (OTHER + OTHER + THIRD, 12), (SIXTEEN, 12),
        (changed(ours, 0, b"\xc1"), 12), (changed(ours, 11, b"\xfd"), 12), (ours[:11] + b"\x00", 12),
    ]

    def listed(priority, addresses, due):
        return given(with_list(sent(priority), addresses), due)

    return [
        new("192.168.1.2"),
        configure("0 I 0", addresses=ours), startup("0 B 924"), clock(24, "0 B 900"),
        *[listed(99, addresses, f"{refusal} B 900") for addresses, refusal in lists],
        *[listed(100, addresses, f"{refusal} B 900") for addresses, refusal in lists if refusal],
        *[listed(254, addresses, f"{refusal} B 900") for addresses, refusal in lists if refusal],
        *[listed(0, addresses, f"{refusal} B 900") for addresses, refusal in lists if refusal],
        listed(0, ours, "0 B 156"), listed(254, ours, "0 B 924"), clock(24, "0 B 900"),
        # Priority 255 passes with every list, also with none and with more than we may have; 13 still holds.
        *[step for addresses, _ in lists for step in (listed(255, addresses, "0 B 924"), clock(24, "0 B 900"))],
        listed(255, SIXTEEN + VIRTUAL, "0 B 924"), listed(100, SIXTEEN + VIRTUAL, "12 B 924"),
        given(with_list(sent(255, interval=2), OTHER), "13 B 924"),
        given(message(with_list(sent(255), OTHER), authentication=1), "11 B 924"),
        # The list stands after IP options and before what follows the message.
        clock(24, "0 B 900"), given(with_options(sent(100, addresses=ours), b"\x01" * 4), "0 B 924"),
        clock(24, "0 B 900"), given(with_options(sent(100, addresses=ours), b"\x01" * 40), "0 B 924"),
        given(with_options(sent(100, addresses=ours[4:] + ours[:4]), b"\x01" * 4), "12 B 924"),
        clock(24, "0 B 900"), given(sent(100, addresses=ours) + VIRTUAL, "0 B 924"),
        clock(24, "0 B 900"), given(with_payload(GOOD, sent(100, addresses=ours)[20:] + VIRTUAL), "0 B 924"),
        given(sent(100, addresses=ours[:8]) + THIRD, "12 B 924"),
        # The same address listed twice.
        configure("0 I 0", vrid=2, addresses=VIRTUAL + VIRTUAL + OTHER),
        heard(100, "0 I 0", vrid=2, addresses=VIRTUAL + VIRTUAL + OTHER),
        heard(100, "12 I 0", vrid=2, addresses=VIRTUAL + OTHER),
        heard(100, "12 I 0", vrid=2, addresses=VIRTUAL + OTHER + OTHER),
        heard(100, "12 I 0", vrid=2, addresses=VIRTUAL + OTHER + VIRTUAL),
        heard(100, "12 I 0 accepted 1 c12 4", vrid=2, addresses=VIRTUAL),
    ]


HISTORIES = [refusals_configure, refusals_remove, refusals_events, refusals_wire, refusals_packet, refusals_list]
