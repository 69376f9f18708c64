"""Scripts on what events do, from document 01, with the lines that are due typed beside them."""

from scripts.kinds import (NINE, PAIR, SEGMENT, TAKEOVER, TEN, Script, clock, deliver, script, segment, shutdown,
                           startup, station)

EXAMPLE = bytes.fromhex("010101C0A801FE 026401C0A80109 026401C0A8010A 0300 0301 05039C 060001 060100")
EXAMPLE_LINES = ["4 BI", "5 BB", "6 MM", "7 MM", "8 BM"]
EXAMPLE_ENDS = (0, 7, 14, 21, 23, 25, 28, 31, 34)


def rule_book():
    """Document 01's example with the lines printed there, what it prints after each of its records, and nothing."""
    return [Script(EXAMPLE[:end], EXAMPLE_LINES[:max(0, count - 3)]) for count, end in enumerate(EXAMPLE_ENDS)]


def states():
    """Startup and shutdown in every state, of an owner and of others; each line has a letter a station."""
    owner = station("192.168.1.254", 255)
    return [
        script("3 I, 4 B, 5 B, 6 I, 7 I, 8 B", SEGMENT, NINE, shutdown(0), startup(0), startup(0), shutdown(0),
               shutdown(0), startup(0)),
        script("3 B, 4 M, 5 M, 6 I, 7 I, 8 B", SEGMENT, NINE, startup(0), TAKEOVER, startup(0), shutdown(0),
               shutdown(0), startup(0)),
        script("3 M, 4 M, 5 I, 6 I, 7 M", SEGMENT, owner, startup(0), startup(0), shutdown(0), shutdown(0), startup(0)),
        script("3 M, 4 M, 5 M, 6 I, 7 I", SEGMENT, owner, startup(0), clock(0), clock(65535), shutdown(0),
               clock(65535)),
        script("3 I, 4 I", SEGMENT, NINE, clock(65535), clock(0)),
        script("2 , 3 ", SEGMENT, clock(0), clock(65535)),
        script("4 IB, 5 BB, 6 BI, 7 II", PAIR, startup(1), startup(0), shutdown(1), shutdown(0)),
        # Startup outside Initialize does not restart the timer.
        script("3 B, 4 B, 5 B, 6 M", SEGMENT, NINE, startup(0), clock(923), startup(0), clock(1)),
        # Shutdown and startup do.
        script("3 B, 4 B, 5 I, 6 B, 7 B, 8 M", SEGMENT, NINE, startup(0), clock(923), shutdown(0), startup(0),
               clock(923), clock(1)),
    ]


def times():
    """The master down interval on both sides, in one step and in several, for the ends of P and A."""
    found = []
    for priority, interval, ticks in ((254, 1, 770), (100, 1, 924), (1, 1, 1023), (100, 5, 3996), (254, 4, 3074),
                                      (1, 85, 65535)):
        setup = segment(interval=interval) + station("192.168.1.9", priority) + startup(0)
        found += [
            script("3 B, 4 B, 5 M", setup, clock(ticks - 1), clock(1)), script("3 B, 4 M", setup, clock(ticks)),
            script("3 B, 4 B, 5 B, 6 M", setup, clock(1), clock(ticks - 2), clock(1)),
            script("3 B, 4 B, 5 B, 6 B, 7 M", setup, clock(0), clock(ticks - 1), clock(0), clock(1)),
        ]
    # A 255 and P 1: 196,095 ticks, three steps of 65,365.
    slow = segment(interval=255) + station("192.168.1.9", 1) + startup(0)
    return found + [
        script("3 B, 4 B, 5 B, 6 M", slow, clock(65365), clock(65365), clock(65365)),
        script("3 B, 4 B, 5 B, 6 B, 7 B, 8 M", slow, clock(65365), clock(65365), clock(65364), clock(0), clock(1)),
        script("3 B, 4 B, 5 B, 6 M", slow, clock(65535), clock(65535), clock(65535)),
    ]


def stations_in_order():
    """A clock step is every station's: each with its own timer, and those in Initialize with none."""
    three = SEGMENT + station("192.168.1.9", 200) + station("192.168.1.10") + station("192.168.1.11", 254)
    up = three + startup(0) + startup(1)
    return [
        script("5 BII, 6 BBI, 7 BBI, 8 MBI, 9 MBI, 10 MMI", up, clock(823), clock(1), clock(99), clock(1)),
        script("5 BII, 6 BBI, 7 BBB, 8 BBM, 9 MBM, 10 MMM", up, startup(2), clock(770), clock(54), clock(100)),
        # Steps beyond the timer: a Master fires on the way, and no letter tells how often.
        script("5 BII, 6 BBI, 7 MMI, 8 MMI, 9 MMI", up, clock(930), clock(249), clock(1)),
        script("5 BII, 6 BBI, 7 MMI, 8 MMI", up, clock(65535), clock(65535)),
        # Started later, due later.
        script("5 BII, 6 BII, 7 BBI, 8 MBI, 9 MBI, 10 MMI", three, startup(0), clock(500), startup(1), clock(324),
               clock(599), clock(1)),
    ]


def elections():
    """Masters hear each other: priority first, then the address as a number; an owner stays."""
    found = []
    for low, high in (("192.168.1.9", "192.168.1.10"), ("100.0.0.1", "200.0.0.1"), ("127.255.255.255", "128.0.0.0")):
        up = SEGMENT + station(low) + station(high, preempt=0) + startup(0) + startup(1) + TAKEOVER
        found += [
            script("4 BI, 5 BB, 6 MM, 7 MM, 8 BM", up, deliver(0, 1), deliver(1, 0)),
            script("4 BI, 5 BB, 6 MM, 7 BM, 8 BM", up, deliver(1, 0), deliver(0, 1)),
        ]
    same = SEGMENT + NINE + NINE + startup(0) + startup(1) + TAKEOVER
    owners = SEGMENT + station("192.168.1.9", 255) + station("192.168.1.10", 255) + TEN + startup(0) + startup(1)
    return found + [
        script("4 BI, 5 BB, 6 MM, 7 MM, 8 MM", same, deliver(0, 1), deliver(1, 0)),
        script("5 MII, 6 MMI, 7 MMI, 8 MMI, 9 MMB, 10 MMM, 11 MMB, 12 MMB", owners, deliver(0, 1), deliver(1, 0),
               startup(2), TAKEOVER, deliver(1, 2), deliver(2, 0)),
        # An owner in Initialize refuses too, and starts as Master.
        script("4 IB, 5 IM, 6 IM, 7 MM, 8 MM, 9 MB", SEGMENT, station("192.168.1.9", 255), TEN, startup(1), TAKEOVER,
               deliver(1, 0), startup(0), deliver(1, 0), deliver(0, 1)),
        # One that was beaten takes over again after the master down interval.
        script("4 BI, 5 BB, 6 MM, 7 BM, 8 BM, 9 MM", PAIR, startup(0), startup(1), TAKEOVER, deliver(1, 0), clock(923),
               clock(1)),
    ]


def backups():
    """What a Backup hears: preempt decides whether a lower priority restarts its timer, equal and higher always do."""
    found = []
    for heard, preempt, restarts in ((99, 1, False), (99, 0, True), (100, 1, True), (100, 0, True), (101, 1, True),
                                     (1, 1, False), (1, 0, True), (254, 0, True), (255, 1, True)):
        up = SEGMENT + station("192.168.1.9", heard) + station("192.168.1.10", 100, preempt) + startup(0) + clock(1100)
        due = f"4 {'M' if heard == 255 else 'B'}I, 5 MI, 6 MB, 7 MB, 8 MB"
        last = "9 MB" if restarts else "9 MM"
        found.append(script(f"{due}, {last}", up, startup(1), clock(923), deliver(0, 1), clock(1)))
        if restarts:
            found += [
                script(f"{due}, 9 MB", up, startup(1), clock(923), deliver(0, 1), clock(923)),
                script(f"{due}, 9 MM", up, startup(1), clock(923), deliver(0, 1), clock(924)),
            ]
    return found


def farewells():
    """Priority 0: a Backup waits its skew, a Master stays; the farewell is the latest until its station sends again."""
    up = PAIR + startup(0) + TAKEOVER
    lines = "4 BI, 5 MI"
    return [
        script(f"{lines}, 6 MB, 7 IB, 8 IB, 9 IB, 10 IM", up, startup(1), shutdown(0), deliver(0, 1), clock(155),
               clock(1)),
        script(f"{lines}, 6 MB, 7 IB, 8 IB, 9 IM", up, startup(1), shutdown(0), deliver(0, 1), clock(156)),
        # Not handed over it does nothing.
        script(f"{lines}, 6 MB, 7 IB, 8 IB, 9 IM", up, startup(1), shutdown(0), clock(923), clock(1)),
        # Started again as Backup, the station has still said farewell last.
        script(f"{lines}, 6 II, 7 BI, 8 BB, 9 BB, 10 BM", up, shutdown(0), startup(0), startup(1), deliver(0, 1),
               clock(156)),
        # Master again, it has not.
        script(f"{lines}, 6 II, 7 BI, 8 MI, 9 MB, 10 MB, 11 MB", up, shutdown(0), startup(0), TAKEOVER, startup(1),
               deliver(0, 1), clock(156)),
        # Each waits its own skew, 256 - P ticks, whatever its preempt is.
        *[script(f"{lines}, 6 II, 8 IIB, 9 IIB, 10 IIB, 11 IIM", up, shutdown(0),
                 station("192.168.1.11", priority, preempt), startup(2), deliver(0, 2), clock(255 - priority), clock(1))
          for priority in (1, 100, 254) for preempt in (0, 1)],
        # A Master answers and stays, even one whom the sender would beat.
        script("4 BI, 5 BB, 6 MM, 7 MI, 8 MI, 9 MI, 10 MB, 11 MB, 12 MM", PAIR, startup(0), startup(1), TAKEOVER,
               shutdown(1), deliver(1, 0), deliver(1, 0), startup(1), deliver(0, 1), TAKEOVER),
        # An owner's farewell, and its return.
        script("4 MI, 5 MB, 6 IB, 7 IB, 8 IM, 9 MM, 10 MB", SEGMENT, station("192.168.1.254", 255), TEN, startup(0),
               startup(1), shutdown(0), deliver(0, 1), clock(156), startup(0), deliver(0, 1)),
        # One that was beaten says no farewell when it shuts down: its latest is the advertisement as Master.
        script("4 BI, 5 BB, 6 MM, 7 BM, 8 IM, 9 II, 10 IB, 11 IB, 12 IB", PAIR, startup(0), startup(1), TAKEOVER,
               deliver(1, 0), shutdown(0), shutdown(1), startup(1), deliver(0, 1), clock(156)),
    ]


def later_stations():
    """Stations may join after events; the letters grow by one from then on."""
    return [
        script("3 B, 5 BI, 6 BB, 7 MM, 9 MMI, 10 BMI, 11 BMB", SEGMENT, NINE, startup(0), TEN, clock(0), startup(1),
               TAKEOVER, station("192.168.1.11"), clock(0), deliver(1, 0), startup(2)),
        script("2 , 4 I", SEGMENT, clock(65535), NINE, clock(65535)),
        # Time before a station was there is none of its time.
        script("3 B, 4 B, 6 BB, 7 MB, 8 MM", SEGMENT, NINE, startup(0), clock(500), TEN, startup(1), clock(424),
               clock(500)),
    ]


def sixteen():
    """Sixteen stations take over together and hear each other, until the one of greatest address remains."""
    stations = b"".join(station(f"192.168.1.{last}") for last in range(1, 17))
    up = SEGMENT + stations + b"".join(startup(number) for number in range(16)) + TAKEOVER
    lines = [f"{18 + number} {'B' * (number + 1)}{'I' * (15 - number)}" for number in range(16)]
    lines.append(f"34 {'M' * 16}")
    beaten = [f"{35 + number} {'B' * (number + 1)}{'M' * (15 - number)}" for number in range(15)]
    unbeaten = [f"{35 + number} {'M' * 16}" for number in range(15)]
    return [
        Script(up + b"".join(deliver(15, number) for number in range(15)), lines + beaten),
        Script(up + b"".join(deliver(number, 15) for number in range(15)), lines + unbeaten),
        Script(up + b"".join(deliver(number + 1, number) for number in range(15)), lines + beaten),
        Script(up + b"".join(deliver(0, number + 1) for number in range(15)), lines + unbeaten),
    ]


SCRIPTS = [rule_book, states, times, stations_in_order, elections, backups, farewells, later_stations, sixteen]
