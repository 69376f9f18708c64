#!/usr/bin/env python3
"""The segment of the independent second program: stations that hear each other, each a table of one router.

It is written from the rule book (document 01) and shares no code with the library; the tables are second_table.py's.
Numbers in streams stand with their high byte first, and stations are numbered from 0.

second_segment.py elections < STREAM > LINES   hold elections, one line each; `bad record` ends the lines
    number of stations (1), 1 to 16
    each station: priority, preempt 0 or 1, primary (4), how far it has come:
      0 configured only, 1 started up, 2 started up and then a clock step of 2,000 ticks
    number of deliveries (2)
    each delivery: from, to; nothing happens where from has sent nothing or from equals to
  line: BEFORE AFTER MASTER
    a letter a station before and after the deliveries, and the number of the one Master that remains, - where it is
    not one; all stations have VRID 1, interval 1 and the virtual address 192.168.1.254
second_segment.py rehearse < SCRIPT > LINES    rehearse a segment; a refusal is the last line
    1 segment: VRID, interval, virtual address (4)
    2 station: priority, preempt 0 or 1, primary (4)
    3 startup, 4 shutdown: station
    5 clock: ticks (2)
    6 deliver: from, to
  line, after kinds 3 to 6: NUMBER LETTERS
    the record's number from 1, and a letter a station
  line, at a refusal: NUMBER refused REFUSAL
second_segment.py selftest                     try the segment on the rule book's worked examples
"""

import sys
from collections import namedtuple

sys.dont_write_bytecode = True

import second
from second_table import MASTER, Table, advertisement_interval

MOST_STATIONS = 16
ADVERTISEMENT_BYTES = 54
ROOM = 96  # what a takeover of one address writes

# What all its stations have in common; `address` is the one virtual address.
Segment = namedtuple("Segment", "vrid interval address")


class Station:
    """A table of one router, and the latest advertisement frame that it has sent, None before the first."""

    def __init__(self, segment, priority, preempt, primary):
        self.vrid = segment.vrid
        self.table = Table(primary)
        self.table.configure(segment.vrid, priority, segment.interval, preempt, segment.address)
        self.router = self.table.find(segment.vrid)
        self.latest = None

    def happens(self, call, *arguments):
        """Make the call in room enough, keep the advertisement that it writes, and answer as the call does."""
        room = bytearray(ROOM)
        answer = call(*arguments, room)
        if any(room):
            self.latest = bytes(room[:ADVERTISEMENT_BYTES])
        return answer

    def startup(self):
        self.happens(self.table.startup, self.vrid)

    def shutdown(self):
        self.happens(self.table.shutdown, self.vrid)

    def clock(self, ticks):
        """Let the time pass, with the timer firing as often as due."""
        while ticks:
            leftover = self.happens(self.table.clock, self.vrid, ticks).leftover
            # What has fired is a Master with a whole timer, and firing again it sends the same and is the same.
            ticks = leftover % advertisement_interval(self.router)

    def hear(self, frame):
        """Take the packet that the frame of another station carries."""
        self.happens(self.table.packet, frame[second.ETHERNET_BYTES:])


def letters(stations):
    return "".join(station.router.state for station in stations)


# Elections.


ELECTED = Segment(1, 1, bytes([192, 168, 1, 254]))
LONG_STEP = 2000  # above every master down interval of A 1
CONFIGURED, STARTED, STEPPED = range(3)


def take_station(stream):
    """The next station, as far as it has come."""
    priority, preempt = stream.take(2)
    primary, come = stream.take(4), stream.number(1)
    if priority == 0 or preempt > 1 or come > STEPPED:
        raise second.Malformed("a station that cannot be")
    station = Station(ELECTED, priority, preempt == 1, primary)
    if come >= STARTED:
        station.startup()
    if come == STEPPED:
        station.clock(LONG_STEP)
    return station


def take_delivery(stream, count):
    """The next delivery between that many stations."""
    sender, receiver = stream.take(2)
    if sender >= count or receiver >= count:
        raise second.Malformed("a station that is not there")
    return sender, receiver


def one_master(stations):
    masters = [str(number) for number, station in enumerate(stations) if station.router.state == MASTER]
    return masters[0] if len(masters) == 1 else "-"


def hold_election(stream):
    """The line for the next election."""
    count = stream.number(1)
    if not 1 <= count <= MOST_STATIONS:
        raise second.Malformed("no station, or more than 16")
    stations = [take_station(stream) for _ in range(count)]
    before = letters(stations)
    for sender, receiver in [take_delivery(stream, count) for _ in range(stream.number(2))]:
        if sender != receiver and stations[sender].latest:
            stations[receiver].hear(stations[sender].latest)
    return f"{before} {letters(stations)} {one_master(stations)}"


def elections(content):
    """The lines for a stream of elections; one that goes wrong ends with `bad record`."""
    stream = second.Stream(content)
    try:
        while stream.left():
            yield hold_election(stream)
    except second.Malformed:
        yield "bad record"


# The rehearsal.


MOST_SCRIPT_BYTES = 65536
SEGMENT, STATION, STARTUP, SHUTDOWN, CLOCK, DELIVER = range(1, 7)
BODY_BYTES = {SEGMENT: 6, STATION: 6, STARTUP: 1, SHUTDOWN: 1, CLOCK: 2, DELIVER: 2}


class Refused(Exception):
    """The script is refused; the argument is the refusal's number."""


def refuse(number, condition):
    """Refuse the script by this number where the condition holds."""
    if condition:
        raise Refused(number)


def take_record(stream):
    """The kind and the body of the next record; refuses 23 and 24."""
    kind = stream.number(1)
    refuse(23, kind not in BODY_BYTES)
    refuse(24, stream.left() < BODY_BYTES[kind])
    return kind, stream.take(BODY_BYTES[kind])


class Rehearsal:
    """What the script has set up so far: the segment, None before the first record, and its stations."""

    def __init__(self):
        self.segment = None
        self.stations = []

    def play(self, kind, body):
        """Do what the record says; refuses 25, and what its kind refuses."""
        refuse(25, (kind == SEGMENT) != (self.segment is None))
        plays = {SEGMENT: self.play_segment, STATION: self.play_station, STARTUP: self.play_startup,
                 SHUTDOWN: self.play_shutdown, CLOCK: self.play_clock, DELIVER: self.play_deliver}
        plays[kind](body)

    def play_segment(self, body):
        """Refuses 14 and 16."""
        refuse(14, body[0] == 0)
        refuse(16, body[1] == 0)
        self.segment = Segment(body[0], body[1], body[2:])

    def play_station(self, body):
        """Refuses 27, 15 and 29."""
        refuse(27, len(self.stations) == MOST_STATIONS)
        refuse(15, body[0] == 0)
        refuse(29, body[1] > 1)
        self.stations.append(Station(self.segment, body[0], body[1] == 1, body[2:]))

    def station(self, number):
        """The station of this number; refuses 26."""
        refuse(26, number >= len(self.stations))
        return self.stations[number]

    def play_startup(self, body):
        self.station(body[0]).startup()

    def play_shutdown(self, body):
        self.station(body[0]).shutdown()

    def play_clock(self, body):
        for station in self.stations:
            station.clock(int.from_bytes(body, "big"))

    def play_deliver(self, body):
        """Refuses 26 for either station, then 28."""
        sender, receiver = [self.station(number) for number in body]
        refuse(28, sender is receiver or sender.latest is None)
        receiver.hear(sender.latest)


def rehearse(script):
    """The lines for a script."""
    if len(script) > MOST_SCRIPT_BYTES:
        yield "0 refused 30"
        return
    stream, rehearsal, number = second.Stream(script), Rehearsal(), 0
    try:
        while stream.left():
            number += 1
            kind, body = take_record(stream)
            rehearsal.play(kind, body)
            if kind not in (SEGMENT, STATION):
                yield f"{number} {letters(rehearsal.stations)}"
    except Refused as refused:
        yield f"{number} refused {refused.args[0]}"


# The selftest: expectations are typed from the rule book, none is computed by the code under test.


expect = second.expect
NINE, TEN, ELEVEN = (bytes([192, 168, 1, last]) for last in (9, 10, 11))
LOW, HIGH = bytes([100, 0, 0, 1]), bytes([200, 0, 0, 1])


def elector(primary, priority=100, preempt=1, come=STEPPED):
    return bytes([priority, preempt]) + primary + bytes([come])


def election(stations, *deliveries):
    """The record of an election; a delivery is a pair."""
    ballots = b"".join(map(bytes, deliveries))
    return bytes([len(stations)]) + b"".join(stations) + len(deliveries).to_bytes(2, "big") + ballots


def selftest_stations():
    station = Station(ELECTED, 100, True, NINE)
    expect("configured", (station.router.state, station.latest), ("I", None))
    station.startup()
    expect("a Backup has sent nothing", (station.router.state, station.latest), ("B", None))
    station.clock(923)
    expect("a step of 923", (station.router.state, station.router.timer), ("B", 1))
    station.clock(1)
    expect("a step to the end", (station.router.state, station.router.timer), ("M", 256))
    expect("the frame of a takeover", (len(station.latest), station.latest[40:42].hex()), (54, "b855"))
    station.shutdown()
    expect("the frame of a shutdown", (station.router.state, station.latest[40:42].hex()), ("I", "1c56"))


def selftest_firing():
    """Firings taken together are the same as each leftover handed in again until it is 0."""
    for priority, interval, ticks in ((100, 1, 924), (100, 1, 930), (100, 1, 65535), (1, 2, 5000), (255, 3, 1536),
                                      (255, 255, 65535), (254, 1, 65535), (100, 255, 1)):
        segment = Segment(1, interval, ELECTED.address)
        together, apart = (Station(segment, priority, True, NINE) for _ in range(2))
        together.startup()
        apart.startup()
        together.clock(ticks)
        leftover = ticks
        while leftover:
            leftover = apart.happens(apart.table.clock, 1, leftover).leftover
        for what in ("state", "timer", "became_master"):
            expect(f"{what} after {ticks}", getattr(together.router, what), getattr(apart.router, what))
        expect(f"the latest after {ticks}", together.latest, apart.latest)


def selftest_elections():
    tie = [elector(NINE), elector(TEN)]
    for what, stations, deliveries, due in (
        ("the worked election", tie, [(0, 1), (1, 0)], "MM BM 1"),
        ("the worked election, one delivery", tie, [(0, 1)], "MM MM -"),
        ("the worked election, the other", tie, [(1, 0)], "MM BM 1"),
        ("no delivery", tie, [], "MM MM -"),
        ("200.0.0.1 beats 100.0.0.1", [elector(HIGH), elector(LOW)], [(0, 1), (1, 0)], "MM MB 0"),
        ("a higher priority", [elector(NINE, 101), elector(TEN)], [(0, 1), (1, 0)], "MM MB 0"),
        ("an equal address", [elector(TEN), elector(TEN)], [(0, 1), (1, 0)], "MM MM -"),
        ("an owner stays", [elector(NINE, 255), elector(TEN, 254)], [(1, 0), (0, 1)], "MM MB 0"),
        ("two owners", [elector(NINE, 255), elector(TEN, 255)], [(0, 1), (1, 0)], "MM MM -"),
        ("an owner starts as Master", [elector(NINE, 255, 1, 1), elector(TEN, 254, 1, 1)], [], "MB MB 0"),
        ("no Master", [elector(NINE, 100, 1, 0), elector(TEN, 100, 1, 1)], [(0, 1), (1, 0)], "IB IB -"),
        ("a beaten one has sent", [*tie, elector(ELEVEN, 1)], [(1, 0), (0, 2), (1, 0)], "MMM BMB 1"),
        ("one alone hears itself", [elector(NINE)], [(0, 0)], "M M 0"),
    ):
        expect(what, list(elections(election(stations, *deliveries))), [due])


def selftest_bad_elections():
    good = election([elector(NINE), elector(TEN)], (0, 1), (1, 0))
    expect("no elections", list(elections(b"")), [])
    expect("two elections", list(elections(good * 2)), ["MM BM 1", "MM BM 1"])
    for length in range(1, len(good)):
        expect("an election cut off", list(elections(good + good[:length])), ["MM BM 1", "bad record"])
    expect("sixteen stations", list(elections(election([elector(NINE)] * 16))), ["M" * 16 + " " + "M" * 16 + " -"])
    for what, record in (
        ("no station", election([])),
        ("seventeen stations", election([elector(NINE)] * 17)),
        ("priority 0", election([elector(NINE, 0)])),
        ("preempt 2", election([elector(NINE, 100, 2)])),
        ("come to 3", election([elector(NINE, 100, 1, 3)])),
        ("from a third of two", election([elector(NINE), elector(TEN)], (2, 0))),
        ("to a third of two", election([elector(NINE), elector(TEN)], (0, 1), (0, 2))),
    ):
        expect(what, list(elections(good + record + good)), ["MM BM 1", "bad record"])


EXAMPLE = """01 01 01 C0A801FE / 02 64 01 C0A80109 / 02 64 01 C0A8010A / 03 00 / 03 01 / 05 03 9C / 06 00 01
             06 01 00"""
ON_SEGMENT = "01 01 01 C0A801FE "
ONE_STATION = ON_SEGMENT + "02 64 01 C0A80109 "
TWO_STATIONS = ONE_STATION + "02 64 01 C0A8010A "


def rehearsed(text):
    """The lines for a script in hex, in which / stands between records."""
    return list(rehearse(bytes.fromhex(text.replace("/", " "))))


def selftest_rehearsal():
    expect("the worked example", rehearsed(EXAMPLE), ["4 BI", "5 BB", "6 MM", "7 MM", "8 BM"])
    expect("an empty script", rehearsed(""), [])
    expect("a clock without stations", rehearsed(ON_SEGMENT + "05 00 01"), ["2 "])
    expect("a station that comes later", rehearsed(ONE_STATION + "03 00 02 FF 00 C0A801FE 03 01"), ["3 B", "5 BM"])
    away = TWO_STATIONS + "03 00 05 03 9C 04 00 03 01 "
    # The farewell of station 0 sets station 1's timer to its skew, 156 ticks, also after station 0 has started again.
    expect("a farewell", rehearsed(away + "06 00 01 05 00 9B 05 00 01")[3:], ["7 IB", "8 IB", "9 IB", "10 IM"])
    expect("a farewell, later", rehearsed(away + "03 00 06 00 01 05 00 9C")[4:], ["8 BB", "9 BB", "10 BM"])
    expect("no farewell", rehearsed(away + "05 00 9C")[3:], ["7 IB", "8 IB"])
    expect("startup twice, shutdown twice", rehearsed(ONE_STATION + "03 00 03 00 04 00 04 00"),
           ["3 B", "4 B", "5 I", "6 I"])


def selftest_refusals():
    for what, script, due in (
        ("23 first", "07", "1 refused 23"),
        ("23 before 25", "00 00", "1 refused 23"),
        ("23 ends it", TWO_STATIONS + "08 03 00", "4 refused 23"),
        ("24 before 25", "02 64 01 C0A801", "1 refused 24"),
        ("24 in a second segment", ON_SEGMENT + "01 00", "2 refused 24"),
        ("25 first", "05 00 01", "1 refused 25"),
        ("25 before 14", ON_SEGMENT + "01 00 00 00000000", "2 refused 25"),
        ("14 before 16", "01 00 00 C0A801FE", "1 refused 14"),
        ("16", "01 01 00 C0A801FE", "1 refused 16"),
        ("27 before 15", ON_SEGMENT + 16 * "02 64 01 C0A80109 " + "02 00 02 C0A80109", "18 refused 27"),
        ("15 before 29", ON_SEGMENT + "02 00 02 C0A80109", "2 refused 15"),
        ("29", ON_SEGMENT + "02 01 02 C0A80109", "2 refused 29"),
        ("26 at startup", ONE_STATION + "03 01", "3 refused 26"),
        ("26 at shutdown", ONE_STATION + "04 01", "3 refused 26"),
        ("26 before 28", ONE_STATION + "06 01 01", "3 refused 26"),
        ("26 of the receiver", ONE_STATION + "06 00 01", "3 refused 26"),
        ("28 to itself", ONE_STATION + "06 00 00", "3 refused 28"),
        ("28 before it has sent", TWO_STATIONS + "06 00 01", "4 refused 28"),
    ):
        expect(what, rehearsed(script), [due])
    longest = bytes.fromhex(ON_SEGMENT) + 21843 * b"\x05\x00\x00"
    expect("65,536 bytes", list(rehearse(longest))[-1], "21844 ")
    expect("65,537 bytes", list(rehearse(longest + b"\x07")), ["0 refused 30"])


# The commands: each answers its exit status.


def command_elections():
    for line in elections(sys.stdin.buffer.read()):
        print(line)
    return 0


def command_rehearse():
    for line in rehearse(sys.stdin.buffer.read()):
        print(line)
    return 0


def command_selftest():
    for selftest in (selftest_stations, selftest_firing, selftest_elections, selftest_bad_elections,
                     selftest_rehearsal, selftest_refusals):
        selftest()
    print("selftest: all as the rule book says")
    return 0


COMMANDS = {"elections": command_elections, "rehearse": command_rehearse, "selftest": command_selftest}


def main(arguments):
    if len(arguments) == 1 and arguments[0] in COMMANDS:
        return COMMANDS[arguments[0]]()
    print(__doc__, file=sys.stderr)
    return 2


if __name__ == "__main__":
    sys.exit(main(sys.argv[1:]))
