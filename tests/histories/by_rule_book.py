"""Histories of states, time, rooms, counts and places, with what is due typed from document 01.

Timers by hand: master down, 768 A + 256 - P, is for A 1 and P 100 924, P 1 1,023, P 50 974, P 200 824, P 254 770.
"""

from cases.make import ARP_FRAME, FRAME, FRAME_OF_OWNER, FRAME_OF_SIXTEEN, FRAME_OF_TWICE, FRAME_OF_TWO, FRAME_OF_ZERO
from cases.make import SIXTEEN
from cases.mutate import address, changed
from histories.steps import VIRTUAL, clock, configure, given, heard, new, question, remove, sent, shutdown, startup

GREATEST = 4294967295
TWO = VIRTUAL + address("192.168.1.253")
ARP_OF_SECOND = "FFFFFFFFFFFF 00005E000101 0806 0001 0800 06 04 0001 00005E000101 C0A801FD 000000000000 C0A801FD"
ARP_OF_TENTHS = "FFFFFFFFFFFF 00005E000101 0806 0001 0800 06 04 0001 00005E000101 0A0000{0} 000000000000 0A0000{0}"
ARPS_OF_SIXTEEN = "".join(ARP_OF_TENTHS.format(last) for last in (
    "01", "02", "03", "04", "05", "06", "07", "08", "09", "0A", "0B", "0C", "0D", "0E", "0F", "10"))


def both_sides():
    """Document 01's list of cases on both sides of each line, as far as it is about the table."""
    return [
        new("192.168.1.10"),
        configure("0 I 0", vrid=1, priority=254), startup("0 B 770", vrid=1),
        configure("0 I 0", vrid=2, interval=5), startup("0 B 3996", vrid=2),
        configure("0 I 0", vrid=3), startup("0 B 924", vrid=3), clock(923, "0 B 1", vrid=3),
        configure("0 I 0", vrid=4), startup("0 B 924", vrid=4), clock(924, "0 M 256 wrote 96", 96, vrid=4),
        configure("0 I 0", vrid=5), startup("0 B 924", vrid=5), clock(930, "0 M 256 wrote 96 left 6", 96, vrid=5),
        # Master at P 100 and 192.168.1.10.
        clock(56, "0 M 200", vrid=5),
        heard(100, "0 M 200", source="192.168.1.9", vrid=5),
        heard(100, "0 M 200", source="192.168.1.10", vrid=5),
        heard(100, "0 B 924", source="192.168.1.11", vrid=5),
        # Backup, P 100, packet priority 1, with preempt no and yes.
        configure("0 I 0", vrid=6, preempt=0), startup("0 B 924", vrid=6), clock(100, "0 B 824", vrid=6),
        heard(1, "0 B 924", vrid=6),
        configure("0 I 0", vrid=7, preempt=1), startup("0 B 924", vrid=7), clock(100, "0 B 824", vrid=7),
        heard(1, "0 B 824", vrid=7),
        configure("0 I 0", vrid=8, addresses=SIXTEEN), configure("17 -", vrid=9, addresses=SIXTEEN + VIRTUAL),
        configure("0 I 0", vrid=10, addresses=TWO), startup("0 B 924", vrid=10),
        clock(924, "22 B 924 need 142", 95, vrid=10), clock(924, "0 M 256 wrote 142", 142, vrid=10),
    ]


def state_initialize():
    """Initialize: shutdown, clock steps and good packets change no state or timer; startup by priority 255 or below."""
    return [
        new("192.168.1.2"),
        configure("0 I 0 accepted 0 master 0"),
        shutdown("0 I 0"), shutdown("0 I 0", 54),
        clock(0, "0 I 0"), clock(1, "0 I 0", 96), clock(GREATEST, "0 I 0"),
        heard(0, "0 I 0 accepted 1"), heard(1, "0 I 0 accepted 2"), heard(99, "0 I 0 accepted 3"),
        heard(100, "0 I 0 accepted 4"), heard(101, "0 I 0 accepted 5"), heard(254, "0 I 0 accepted 6"),
        heard(255, "0 I 0 accepted 7 master 0", 54),
        startup("0 B 924 accepted 7 master 0"),
        # Startup of every kind of priority below 255, with room for a takeover that is not written.
        configure("0 I 0", vrid=2, priority=1), startup("0 B 1023", 96, vrid=2),
        configure("0 I 0", vrid=3, priority=254), startup("0 B 770", 96, vrid=3),
        configure("0 I 0", vrid=4, preempt=0), startup("0 B 924", 96, vrid=4),
        configure("0 I 0", vrid=5, interval=255, priority=1), startup("0 B 196095", vrid=5),
        # The owner, with preempt either way.
        configure("0 I 0", vrid=6, priority=255, interval=2, preempt=0),
        shutdown("0 I 0", vrid=6), clock(5000, "0 I 0", vrid=6),
        startup("0 M 512 wrote 96 master 1 accepted 0", 96, vrid=6),
        configure("0 I 0", vrid=7, priority=255, interval=255),
        startup("0 M 65280 wrote 96 master 1", 96, vrid=7),
    ]


def backup_of(preempt, below):
    """The Backup rows for P 100; `below` is the timer due when a priority below 100 is heard with 624 left."""
    return [
        new("192.168.1.2"),
        configure("0 I 0", preempt=preempt), startup("0 B 924"),
        clock(300, "0 B 624"), startup("0 B 624"), startup("0 B 624", 96), clock(0, "0 B 624"),
        # Priority 0 sets the skew, also where that is more than is left.
        heard(0, "0 B 156"), clock(100, "0 B 56"), heard(0, "0 B 156"), heard(0, "0 B 156", 54),
        heard(100, "0 B 924"), clock(300, "0 B 624"),
        heard(1, f"0 B {below}"), shutdown("0 I 0"), startup("0 B 924"), clock(300, "0 B 624"),
        heard(50, f"0 B {below}"), shutdown("0 I 0"), startup("0 B 924"), clock(300, "0 B 624"),
        heard(99, f"0 B {below}", source="200.0.0.1"), shutdown("0 I 0"), startup("0 B 924"), clock(300, "0 B 624"),
        # Of equal priority any address restarts the timer, below or equal to or above ours.
        heard(100, "0 B 924", source="192.168.1.1"), clock(300, "0 B 624"),
        heard(100, "0 B 924", source="192.168.1.2"), clock(300, "0 B 624"),
        heard(100, "0 B 924", source="192.168.1.3"), clock(300, "0 B 624"),
        heard(101, "0 B 924"), clock(300, "0 B 624"),
        heard(254, "0 B 924"), clock(300, "0 B 624"),
        heard(255, "0 B 924", 96), clock(924, "0 M 256 wrote 96 master 1", 96, frames=FRAME + ARP_FRAME),
        shutdown("0 I 0", 54, frames=FRAME_OF_ZERO), startup("0 B 924 master 1"), shutdown("0 I 0"),
        # The ends of priority: nothing is below P 1 but 0, and P 254 is below 255 alone.
        configure("0 I 0", vrid=2, priority=1, preempt=preempt), startup("0 B 1023", vrid=2),
        clock(23, "0 B 1000", vrid=2), heard(1, "0 B 1023", vrid=2),
        heard(0, "0 B 255", vrid=2), heard(2, "0 B 1023", vrid=2),
        configure("0 I 0", vrid=3, priority=254, preempt=preempt), startup("0 B 770", vrid=3),
        heard(0, "0 B 2", vrid=3), clock(1, "0 B 1", vrid=3), heard(254, "0 B 770", vrid=3),
        clock(70, "0 B 700", vrid=3), heard(255, "0 B 770", vrid=3),
    ]


def state_backup():
    """Backup with preempt: a priority below P changes nothing, one from P on restarts the timer, 0 sets the skew."""
    return backup_of(preempt=1, below=624)


def state_backup_no_preempt():
    """Backup without preempt: every priority from 1 on restarts the timer, 0 sets the skew."""
    return backup_of(preempt=0, below=924)


def to_master(**router):
    """From Initialize to Master with 200 left on the advertisement timer, for P 100 and A 1."""
    return [startup("0 B 924", **router), clock(924, "0 M 256 wrote 96", 96, **router),
            clock(56, "0 M 200", **router)]


def master_of(preempt):
    return [
        new("192.168.1.2"),
        configure("0 I 0", preempt=preempt), *to_master(),
        startup("0 M 200 master 1"), startup("0 M 200 master 1", 96), clock(0, "0 M 200"),
        # Below P, from a lower and a higher address.
        heard(1, "0 M 200", 54), heard(99, "0 M 200", 54), heard(99, "0 M 200", source="200.0.0.1"),
        # Equal to P.
        heard(100, "0 M 200", source="192.168.1.1"), heard(100, "0 M 200", source="192.168.1.2"),
        heard(100, "0 B 924", source="192.168.1.3"),
        shutdown("0 I 0"), *to_master(),
        # Above P, from a lower, the same and a higher address.
        heard(101, "0 B 924 master 2", source="192.168.1.1"), shutdown("0 I 0"), *to_master(),
        heard(101, "0 B 924 master 3", source="192.168.1.2"), shutdown("0 I 0"), *to_master(),
        heard(101, "0 B 924 master 4", source="192.168.1.3"), shutdown("0 I 0"), *to_master(),
        heard(254, "0 B 924", 54), shutdown("0 I 0"), *to_master(),
        heard(255, "0 B 924", 54), shutdown("0 I 0"), *to_master(),
        # Priority 0 is answered, whatever its address.
        heard(0, "0 M 256 master 7", 54, source="192.168.1.1", frames=FRAME), clock(56, "0 M 200"),
        heard(0, "0 M 256", 54, source="192.168.1.2", frames=FRAME), clock(56, "0 M 200"),
        heard(0, "0 M 256", 54, source="192.168.1.3", frames=FRAME), clock(56, "0 M 200"),
        clock(200, "0 M 256 master 7", 54, frames=FRAME),
        shutdown("0 I 0 master 7", 54, frames=FRAME_OF_ZERO),
    ]


def state_master():
    """Master with preempt: only a packet that beats us ends it; priority 0 is answered; shutdown says farewell."""
    return master_of(preempt=1)


def state_master_no_preempt():
    """Master without preempt: the same in every row, as preempt is the Backup's affair."""
    return master_of(preempt=0)


def state_owner():
    """The owner: Master from startup on, refuses every packet by 10 in Initialize and in Master, and may shut down."""
    another = "192.168.1.255"
    return [
        new("192.168.1.254"),
        configure("0 I 0", priority=255),
        heard(0, "10 I 0 c10 1"), heard(255, "10 I 0 c10 2 accepted 0", source=another),
        startup("0 M 256 master 1", 96, frames=FRAME_OF_OWNER + ARP_FRAME),
        clock(56, "0 M 200"), startup("0 M 200", 96),
        heard(0, "10 M 200 c10 3", 54), heard(1, "10 M 200 c10 4"), heard(254, "10 M 200 c10 5"),
        heard(255, "10 M 200 c10 6", source=another), heard(255, "10 M 200 c10 7", source="192.168.1.254"),
        clock(200, "0 M 256 accepted 0 master 1", 54, frames=FRAME_OF_OWNER),
        shutdown("0 I 0 wrote 54", 54),
        startup("0 M 256 wrote 96 master 2", 96),
    ]


def tied(primary, source, due):
    """A new Master of equal priority at `primary` hears `source`."""
    return [new(primary), configure("0 I 0"), *to_master(), heard(100, due, source=source)]


def ties():
    """Equal priority: addresses compare as 32-bit numbers, first byte greatest, not as text and not signed."""
    stays, yields = "0 M 200", "0 B 924"
    return [
        *tied("100.0.0.1", "200.0.0.1", yields), *tied("200.0.0.1", "100.0.0.1", stays),
        *tied("192.168.1.9", "192.168.1.10", yields), *tied("192.168.1.10", "192.168.1.9", stays),
        *tied("192.168.1.99", "192.168.1.100", yields), *tied("192.168.1.100", "192.168.1.99", stays),
        *tied("9.255.255.255", "10.0.0.0", yields), *tied("10.0.0.0", "9.255.255.255", stays),
        *tied("127.255.255.255", "128.0.0.0", yields), *tied("128.0.0.0", "127.255.255.255", stays),
        *tied("192.168.1.200", "192.168.2.1", yields), *tied("192.168.2.1", "192.168.1.200", stays),
        *tied("192.167.255.255", "192.168.0.0", yields), *tied("192.168.0.0", "192.167.255.255", stays),
        *tied("0.0.0.0", "0.0.0.1", yields), *tied("0.0.0.0", "0.0.0.0", stays),
        *tied("255.255.255.255", "255.255.255.254", stays), *tied("255.255.255.255", "255.255.255.255", stays),
        *tied("255.255.255.254", "255.255.255.255", yields), *tied("192.168.1.10", "10.1.168.192", stays),
    ]


def rooms_of(addresses, advertised, with_arps, advertisement, arps):
    """Every event that writes, in a room one too small and in one that is enough, for P 100 and for the owner."""
    small = with_arps - 1
    return [
        new("192.168.1.2"),
        configure("0 I 0", addresses=addresses), startup("0 B 924"),
        clock(924, f"22 B 924 need {with_arps}"), clock(924, f"22 B 924 need {with_arps} master 0", small),
        clock(930, f"22 B 924 need {with_arps}", advertised), clock(923, "0 B 1"),
        clock(1, f"22 B 1 need {with_arps} master 0", small),
        clock(1, "0 M 256 master 1", with_arps, frames=advertisement + arps),
        clock(255, "0 M 1"), clock(1, f"22 M 1 need {advertised}"),
        clock(9, f"22 M 1 need {advertised}", advertised - 1),
        clock(9, "0 M 256 left 8", advertised, frames=advertisement), clock(55, "0 M 201", advertised),
        heard(0, f"22 M 201 need {advertised} accepted 0", addresses=addresses),
        heard(0, f"22 M 201 need {advertised} accepted 0", advertised - 1, addresses=addresses),
        heard(0, "0 M 256 accepted 1", advertised, addresses=addresses, frames=advertisement),
        heard(0, "0 M 256 accepted 2", advertised + 1, addresses=addresses, frames=advertisement),
        shutdown(f"22 M 256 need {advertised}"), shutdown(f"22 M 256 need {advertised}", advertised - 1),
        shutdown(f"0 I 0 wrote {advertised}", advertised),
        startup("0 B 924"), clock(924, "0 M 256 master 2", with_arps + 1, frames=advertisement + arps),
        configure("0 I 0", vrid=2, priority=255, addresses=addresses),
        startup(f"22 I 0 need {with_arps}", vrid=2), startup(f"22 I 0 need {with_arps} master 0", small, vrid=2),
        startup(f"0 M 256 wrote {with_arps} master 1", with_arps, vrid=2),
    ]


def rooms_of_1():
    """Rooms for one address: 54 bytes for an advertisement, 96 for a takeover, one too small and enough."""
    return rooms_of(VIRTUAL, 54, 96, FRAME, ARP_FRAME)


def rooms_of_2():
    """Rooms for two addresses: 58 and 142 bytes; ARPs stand in configured order."""
    return rooms_of(TWO, 58, 142, FRAME_OF_TWO, ARP_FRAME + ARP_OF_SECOND)


def rooms_of_2_alike():
    """Rooms for the same address listed twice: it counts twice and has two ARP frames."""
    return rooms_of(VIRTUAL * 2, 58, 142, FRAME_OF_TWICE, ARP_FRAME + ARP_FRAME)


def rooms_of_16():
    """Rooms for sixteen addresses: 114 and 786 bytes."""
    return rooms_of(SIXTEEN, 114, 786, FRAME_OF_SIXTEEN, ARPS_OF_SIXTEEN)


def rooms_unused():
    """What writes nothing succeeds with no room and leaves the largest room untouched."""
    return [
        new("192.168.1.2"),
        configure("0 I 0"), shutdown("0 I 0", 1023), startup("0 B 924", 1023),
        startup("0 B 924"), clock(24, "0 B 900", 1023), clock(0, "0 B 900"),
        heard(100, "0 B 924", 1023), heard(100, "0 B 924"), heard(0, "0 B 156"),
        shutdown("0 I 0"), startup("0 B 924"), clock(924, "0 M 256", 1023, frames=FRAME + ARP_FRAME),
        clock(255, "0 M 1"), heard(1, "0 M 1"), heard(1, "0 M 1", 1), startup("0 M 1"), startup("0 M 1", 1),
        heard(200, "0 B 924"), shutdown("0 I 0"), shutdown("0 I 0"), remove("0 -"),
    ]


def clock_leftovers():
    """Leftovers handed in again: a Master of A 1 over 10 seconds, then a Backup that takes over on the way."""
    fires = [(2560, 2304), (2304, 2048), (2048, 1792), (1792, 1536), (1536, 1280), (1280, 1024), (1024, 768),
             (768, 512), (512, 256), (256, 0)]
    ten_seconds = [clock(ticks, f"0 M 256 left {left}", 54, frames=FRAME) for ticks, left in fires]
    return [
        new("192.168.1.2"),
        configure("0 I 0"), startup("0 B 924"), clock(924, "0 M 256 wrote 96", 96), *ten_seconds,
        clock(100, "0 M 156"),
        clock(2460, "0 M 256 wrote 54 left 2304", 54), *ten_seconds[1:], clock(0, "0 M 256"),
        shutdown("0 I 0 wrote 54", 54), startup("0 B 924"),
        clock(3484, "0 M 256 wrote 96 left 2560", 96), *ten_seconds, question("0 M 256 master 2"),
        # Refused for want of room on the way, the same leftover is handed in again.
        clock(600, "0 M 256 wrote 54 left 344", 54), clock(344, "22 M 256 need 54", 53),
        clock(344, "0 M 256 wrote 54 left 88", 54), clock(88, "0 M 168"),
    ]


def clock_steps():
    """Steps of 0, of 2^32 - 1, just below, at and above the timer, and steps that add up to it."""
    return [
        new("192.168.1.2"),
        configure("0 I 0"), clock(0, "0 I 0"), clock(GREATEST, "0 I 0"),
        startup("0 B 924"), clock(0, "0 B 924"), clock(0, "0 B 924", 96),
        clock(1, "0 B 923"), clock(23, "0 B 900"), clock(300, "0 B 600"), clock(599, "0 B 1"), clock(0, "0 B 1", 96),
        clock(1, "0 M 256 wrote 96", 96),
        clock(0, "0 M 256"), clock(100, "0 M 156"), clock(155, "0 M 1"), clock(0, "0 M 1", 54),
        clock(1, "0 M 256 wrote 54", 54), clock(257, "0 M 256 wrote 54 left 1", 54), clock(255, "0 M 1"),
        clock(2, "0 M 256 wrote 54 left 1", 54),
        clock(GREATEST, "22 M 256 need 54", 53), clock(GREATEST, "0 M 256 wrote 54 left 4294967039", 54),
        heard(101, "0 B 924"), clock(GREATEST, "0 M 256 wrote 96 left 4294966371", 96),
        heard(101, "0 B 924"), clock(2147483648, "0 M 256 wrote 96 left 2147482724", 96),
        heard(101, "0 B 924"), clock(65536, "0 M 256 wrote 96 left 64612", 96),
        # Timers above 16 bits.
        configure("0 I 0", vrid=2, interval=255, priority=1), startup("0 B 196095", vrid=2),
        clock(65536, "0 B 130559", vrid=2), clock(130558, "0 B 1", vrid=2),
        clock(1, "0 M 65280 wrote 96", 96, vrid=2), clock(65279, "0 M 1", vrid=2),
        clock(65536, "0 M 65280 wrote 54 left 65535", 54, vrid=2),
        # One router's step leaves the others' time alone.
        question("0 M 256"), configure("0 I 0", vrid=3), startup("0 B 924", vrid=3), clock(24, "0 B 900", vrid=3),
        question("0 M 65280", vrid=2), question("0 M 256"),
    ]


def counts():
    """Counts start at 0 when a router is configured or a table made; removal ends a router's and no interface's."""
    header_garbled, message_garbled = changed(sent(100), 6, b"\x60"), changed(sent(100), 24, b"\x01")
    return [
        new("192.168.1.2"),
        configure("0 I 0 accepted 0 master 0 c10 0 c11 0 c12 0 c13 0 c1 0 c9 0"),
        heard(100, "0 I 0 accepted 1"), startup("0 B 924"), heard(100, "0 B 924 accepted 2"),
        heard(1, "0 B 924 accepted 3"), clock(924, "0 M 256 wrote 96 master 1", 96), heard(1, "0 M 256 accepted 4"),
        heard(0, "22 M 256 need 54 accepted 4", 53), heard(0, "0 M 256 wrote 54 accepted 5 master 1", 54),
        clock(256, "0 M 256 wrote 54 master 1", 54), heard(200, "0 B 924 accepted 6"),
        clock(924, "0 M 256 wrote 96 master 2", 96),
        heard(100, "12 M 256 c12 1", addresses=TWO), heard(100, "13 M 256 c13 1", interval=2),
        heard(100, "12 M 256 c12 2", addresses=TWO), heard(100, "9 - c9 1", vrid=2), heard(100, "9 - c9 2", vrid=3),
        given(header_garbled, "2 - c2 1 c3 0"), given(message_garbled, "7 - c7 1"),
        given(b"", "1 - c1 1 c2 1 c7 1 c9 2"),
        # Calls that are refused count nothing.
        configure("18 M 256 c12 2 c13 1 c9 2"), remove("21 M 256 accepted 6 master 2 c9 2"),
        remove("20 - c9 2", vrid=2), startup("20 - c9 2", vrid=2), question("20 - c9 2", vrid=2),
        # Another router has its own counts.
        configure("0 I 0 accepted 0 master 0 c12 0 c13 0 c9 2", vrid=2, priority=255),
        heard(100, "10 I 0 c10 1", vrid=2), heard(100, "10 I 0 c10 2 accepted 0", vrid=2),
        question("0 M 256 accepted 6 master 2 c10 0 c11 0 c12 2 c13 1 c1 1 c2 1 c7 1 c9 2"),
        shutdown("0 I 0 wrote 54 accepted 6 master 2", 54), remove("0 - c1 1 c2 1 c7 1 c9 2"),
        configure("0 I 0 accepted 0 master 0 c10 0 c11 0 c12 0 c13 0 c1 1 c2 1 c7 1 c9 2"),
        question("0 I 0 c10 2", vrid=2),
        new("192.168.1.2"), question("20 - c1 0 c2 0 c7 0 c9 0", vrid=2),
        configure("0 I 0 c10 0", vrid=2),
    ]


def tables():
    """Before the first new table there is an empty one at 0.0.0.0; each new one is empty with its own address."""
    from_nobody = ("01005E000012 00005E000101 0800 45000028 00004000 FF709B53 00000000 E0000012"
                   "210164010001B855 C0A801FE 0000000000000000")
    return [
        question("20 - c1 0 c9 0"), configure("0 I 0"), startup("0 B 924"),
        clock(924, "0 M 256", 96, frames=from_nobody + ARP_FRAME),
        heard(100, "0 M 256", source="0.0.0.0"), given(b"", "1 - c1 1"), heard(100, "0 B 924", source="0.0.0.1"),
        new("192.168.1.2"), question("20 - c1 0"), heard(100, "9 - c9 1"), configure("0 I 0 accepted 0"),
        startup("0 B 924"), clock(924, "0 M 256", 96, frames=FRAME + ARP_FRAME),
        new("192.168.1.10"), question("20 - c9 0"), configure("0 I 0 master 0", priority=1), startup("0 B 1023"),
        new("0.0.0.0"), new("192.168.1.254"), configure("0 I 0", priority=255),
        startup("0 M 256", 96, frames=FRAME_OF_OWNER + ARP_FRAME),
    ]


def places():
    """255 places: filled, full, one freed and filled again, all freed, and filled in another order."""
    everyone = range(1, 256)
    # 37 and 255 have no common divisor, so every VRID comes once.
    mixed = [37 * place % 255 + 1 for place in range(255)]
    return [
        new("192.168.1.2"), *[configure("0 I 0", vrid=vrid) for vrid in everyone],
        # A full table has every VRID, so what would be a 256th router is refused by 14 or 18, and 19 cannot come.
        configure("18 I 0", vrid=1), configure("18 I 0", vrid=200, priority=7), configure("18 I 0", vrid=255),
        configure("14 -", vrid=0), configure("15 I 0", vrid=9, priority=0), configure("16 I 0", vrid=9, interval=0),
        configure("17 I 0", vrid=9, addresses=b""), configure("14 -", vrid=0, priority=0, interval=0, addresses=b""),
        remove("0 -", vrid=77), question("20 -", vrid=77), heard(100, "9 -", vrid=77), remove("20 -", vrid=77),
        configure("18 I 0", vrid=78), configure("0 I 0", vrid=77, priority=50), startup("0 B 974", vrid=77),
        configure("18 B 974", vrid=77), remove("21 B 974", vrid=77), question("0 I 0", vrid=76),
        question("0 I 0", vrid=78), shutdown("0 I 0", vrid=77),
        *[remove("0 -", vrid=vrid) for vrid in reversed(everyone)], remove("20 -", vrid=255), remove("20 -", vrid=1),
        *[configure("0 I 0", vrid=vrid, priority=200) for vrid in mixed], configure("18 I 0", vrid=1),
        *[startup("0 B 824", vrid=vrid) for vrid in everyone],
        clock(24, "0 B 800", vrid=128), question("0 B 824", vrid=127), question("0 B 824", vrid=129),
        heard(201, "0 B 824 accepted 1", vrid=128), question("0 B 824 accepted 0", vrid=255),
        clock(824, "0 M 256 wrote 96", 96, vrid=255), question("0 B 824", vrid=254), question("0 B 824", vrid=1),
        *[shutdown("0 I 0", vrid=vrid) for vrid in everyone if vrid != 255],
        shutdown("0 I 0 wrote 54", 54, vrid=255),
        *[remove("0 -", vrid=vrid) for vrid in mixed if vrid % 2 == 0],
        *[configure("18 I 0" if vrid % 2 else "0 I 0", vrid=vrid) for vrid in everyone],
    ]


HISTORIES = [
    both_sides, state_initialize, state_backup, state_backup_no_preempt, state_master, state_master_no_preempt,
    state_owner, ties, rooms_of_1, rooms_of_2, rooms_of_2_alike, rooms_of_16, rooms_unused, clock_leftovers,
    clock_steps, counts, tables, places,
]
