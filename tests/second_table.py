#!/usr/bin/env python3
"""The table of the independent second program: the virtual routers of one interface and what events do to them.

It is written from the rule book (document 01) and RFC 3768 section 6.4 and shares no code with the library. Packets
are judged and frames are written by second.py; here are refusals 9 to 22, the states, time and the counts. Numbers in
streams stand with their high byte first.

second_table.py replay < STREAM > LINES   play a history of records, one line each; `bad record` ends the lines
    1 new empty table: primary (4)
    2 configure: VRID, priority, interval, preempt 0 or 1, length of address bytes (2), those bytes
    3 remove: VRID
    4 startup, 5 shutdown: VRID, room (2)
    6 clock: VRID, ticks (4), room (2)
    7 packet: room (2), length (2), packet
    8 question: VRID
  line: ANSWER NEED LEFTOVER ROOM ROUTER COUNTS, all as they are after the call
    NEED is the room needed where the answer is 22, LEFTOVER that of a clock step, else 0
    ROOM is the room's bytes in hex, - for none
    ROUTER is of the VRID named, or borne by a packet that passed 1 to 8: - where it is not in the table, else
      STATE TIMER ACCEPTED BECAME-MASTER and the router's counts of 10 to 13
    COUNTS are the interface's, of 1 to 9
second_table.py selftest                  try the table on the rule book's worked examples
"""

import sys
from collections import namedtuple

sys.dont_write_bytecode = True

import second

PLACES = 255
OWNER = 255
MOST_ADDRESS_BYTES = 64
INTERFACE_REFUSALS = range(1, 10)
ROUTER_REFUSALS = range(10, 14)

INITIALIZE, BACKUP, MASTER = "I", "B", "M"
STARTUP, SHUTDOWN, TIMER, PACKET = "startup", "shutdown", "timer", "packet"

# 0 or the refusal's number, the room needed where that is 22, and the leftover of a clock step.
Answer = namedtuple("Answer", "number need leftover", defaults=(0, 0))


def one_more(count):
    """The counter after one more event; it goes from 4,294,967,295 to 0."""
    return (count + 1) % 2**32


class Router:
    """One virtual router: what was configured, its state, its remaining timer and its counts."""

    def __init__(self, vrid, priority, interval, preempt, addresses):
        self.vrid = vrid
        self.priority = priority
        self.interval = interval
        self.preempt = preempt
        self.addresses = addresses
        self.state = INITIALIZE
        self.timer = 0
        self.accepted = 0
        self.became_master = 0
        self.refused = dict.fromkeys(ROUTER_REFUSALS, 0)


# Time, in ticks of 1/256 second.


def skew(router):
    return 256 - router.priority


def master_down_interval(router):
    return 768 * router.interval + 256 - router.priority


def advertisement_interval(router):
    return 256 * router.interval


def no_timer(_router):
    return 0


# What an event writes.


def nothing(_router, _primary):
    return b""


def advertised(router, priority, primary):
    return second.advertisement_frame(router.vrid, priority, router.interval, primary, router.addresses)


def advertisement(router, primary):
    return advertised(router, router.priority, primary)


def farewell(router, primary):
    """The advertisement with priority 0."""
    return advertised(router, 0, primary)


def takeover(router, primary):
    """The advertisement, then an ARP for each address in configured order."""
    listed = [router.addresses[at:at + 4] for at in range(0, len(router.addresses), 4)]
    return advertisement(router, primary) + b"".join(second.arp_frame(router.vrid, address) for address in listed)


# The conditions on a row of the state by event table.


def always(_router, _primary, _packet):
    return True


def owner(router, _primary, _packet):
    return router.priority == OWNER


def not_owner(router, _primary, _packet):
    return router.priority < OWNER


def priority_0(_router, _primary, packet):
    return packet.priority == 0


def heeded(router, _primary, packet):
    return not router.preempt or packet.priority >= router.priority


def beats_us(router, primary, packet):
    # Bytes compare as the 32-bit numbers that they are, first byte greatest.
    return packet.priority > router.priority or packet.priority == router.priority and packet.source > primary


Row = namedtuple("Row", "state event condition writes timer after")

# Document 01's table in its order: the first row that fits is what happens, and where none fits nothing does.
STATE_BY_EVENT = [Row(*row) for row in (
    (INITIALIZE, STARTUP,  owner,      takeover,      advertisement_interval, MASTER),
    (INITIALIZE, STARTUP,  not_owner,  nothing,       master_down_interval,   BACKUP),
    (BACKUP,     SHUTDOWN, always,     nothing,       no_timer,               INITIALIZE),
    (BACKUP,     TIMER,    always,     takeover,      advertisement_interval, MASTER),
    (BACKUP,     PACKET,   priority_0, nothing,       skew,                   BACKUP),
    (BACKUP,     PACKET,   heeded,     nothing,       master_down_interval,   BACKUP),
    (MASTER,     SHUTDOWN, always,     farewell,      no_timer,               INITIALIZE),
    (MASTER,     TIMER,    always,     advertisement, advertisement_interval, MASTER),
    (MASTER,     PACKET,   priority_0, advertisement, advertisement_interval, MASTER),
    (MASTER,     PACKET,   beats_us,   nothing,       master_down_interval,   BACKUP),
)]


def row_for(router, event, primary, packet):
    """The row that says what happens, or None."""
    for row in STATE_BY_EVENT:
        if (row.state, row.event) == (router.state, event) and row.condition(router, primary, packet):
            return row
    return None


def router_refusal(router, packet, addresses):
    """The first of the checks 10 to 13 that the packet, with this address list, fails; or 0."""
    if router.priority == OWNER:
        return 10
    if packet.authentication != 0:
        return 11
    if packet.priority != OWNER and addresses != router.addresses:
        return 12
    if packet.interval != router.interval:
        return 13
    return 0


def counted(holder, refusal):
    """The refusal of a packet, once the table or the router that holds its count has counted it."""
    holder.refused[refusal] = one_more(holder.refused[refusal])
    return Answer(refusal)


class Table:
    """The virtual routers of one interface: its primary address, 255 places and its counts of refusals 1 to 9."""

    def __init__(self, primary):
        self.primary = primary
        self.places = [None] * PLACES
        self.refused = dict.fromkeys(INTERFACE_REFUSALS, 0)

    def find(self, vrid):
        """The router of this VRID, or None."""
        return next((router for router in self.places if router and router.vrid == vrid), None)

    def configure(self, vrid, priority, interval, preempt, addresses):
        """Put a router into the lowest free place, in Initialize; refuses 14 to 19."""
        if vrid == 0:
            return Answer(14)
        if priority == 0:
            return Answer(15)
        if interval == 0:
            return Answer(16)
        if len(addresses) % 4 or not 0 < len(addresses) <= MOST_ADDRESS_BYTES:
            return Answer(17)
        if self.find(vrid):
            return Answer(18)
        if None not in self.places:
            return Answer(19)
        self.places[self.places.index(None)] = Router(vrid, priority, interval, preempt, addresses)
        return Answer(0)

    def remove(self, vrid):
        """Free the router's place; refuses 20 and 21."""
        router = self.find(vrid)
        if not router:
            return Answer(20)
        if router.state != INITIALIZE:
            return Answer(21)
        self.places[self.places.index(router)] = None
        return Answer(0)

    def question(self, vrid):
        """Whether there is a router to read state, timer and counts from; refuses 20."""
        return Answer(0 if self.find(vrid) else 20)

    def startup(self, vrid, room):
        """Refuses 20 and 22."""
        router = self.find(vrid)
        return self.happens(router, STARTUP, room) if router else Answer(20)

    def shutdown(self, vrid, room):
        """Refuses 20 and 22."""
        router = self.find(vrid)
        return self.happens(router, SHUTDOWN, room) if router else Answer(20)

    def clock(self, vrid, ticks, room):
        """Let the time pass for one router, up to one firing of its timer; refuses 20 and 22."""
        router = self.find(vrid)
        if not router:
            return Answer(20)
        if router.state == INITIALIZE:
            return Answer(0)
        if ticks < router.timer:
            router.timer -= ticks
            return Answer(0)
        leftover = ticks - router.timer
        answer = self.happens(router, TIMER, room)
        return answer if answer.number else answer._replace(leftover=leftover)

    def packet(self, packet, room):
        """Judge a packet and let it happen to its router; refuses 1 to 13 and counts that, and refuses 22."""
        verdict = second.judge(packet)
        if isinstance(verdict, int):
            return counted(self, verdict)
        router = self.find(verdict.vrid)
        if not router:
            return counted(self, 9)
        addresses = packet[verdict.list_at:verdict.list_at + 4 * verdict.count]
        refusal = router_refusal(router, verdict, addresses)
        if refusal:
            return counted(router, refusal)
        answer = self.happens(router, PACKET, room, verdict)
        if answer.number == 0:
            router.accepted = one_more(router.accepted)
        return answer

    def happens(self, router, event, room, packet=None):
        """Do what the state by event table says; refuses 22, and then nothing has happened."""
        row = row_for(router, event, self.primary, packet)
        if not row:
            return Answer(0)
        answer = Answer(*second.put(row.writes(router, self.primary), room))
        if answer.number == 0:
            if row.after == MASTER and router.state != MASTER:
                router.became_master = one_more(router.became_master)
            router.state, router.timer = row.after, row.timer(router)
        return answer


# Histories: each call reads a record's body and answers with the VRID that its line is about and its room.


def call_configure(table, stream):
    vrid, priority, interval, preempt = stream.take(4)
    addresses = stream.take(stream.number(2))
    if preempt > 1:
        raise second.Malformed("preempt above 1")
    return table.configure(vrid, priority, interval, preempt == 1, addresses), vrid, b""


def call_remove(table, stream):
    vrid = stream.number(1)
    return table.remove(vrid), vrid, b""


def call_startup(table, stream):
    vrid, room = stream.number(1), second.take_room(stream)
    return table.startup(vrid, room), vrid, room


def call_shutdown(table, stream):
    vrid, room = stream.number(1), second.take_room(stream)
    return table.shutdown(vrid, room), vrid, room


def call_clock(table, stream):
    vrid, ticks, room = stream.number(1), stream.number(4), second.take_room(stream)
    return table.clock(vrid, ticks, room), vrid, room


def call_packet(table, stream):
    room = second.take_room(stream)
    packet = stream.take(stream.number(2))
    answer = table.packet(packet, room)
    return answer, None if 1 <= answer.number <= 8 else second.fields_of(packet).vrid, room


def call_question(table, stream):
    vrid = stream.number(1)
    return table.question(vrid), vrid, b""


CALLS = {2: call_configure, 3: call_remove, 4: call_startup, 5: call_shutdown, 6: call_clock, 7: call_packet,
         8: call_question}


def router_words(router):
    if not router:
        return ["-"]
    return [router.state, router.timer, router.accepted, router.became_master, *router.refused.values()]


def line_of(table, answer, vrid, room):
    words = [*answer, room.hex() or "-", *router_words(table.find(vrid)), *table.refused.values()]
    return " ".join(str(word) for word in words)


def replay(content):
    """The lines for a history; one that goes wrong ends with `bad record`."""
    stream, table = second.Stream(content), Table(bytes(4))
    try:
        while stream.left():
            kind = stream.number(1)
            if kind == 1:
                table = Table(stream.take(4))
                yield line_of(table, Answer(0), None, b"")
            elif kind in CALLS:
                yield line_of(table, *CALLS[kind](table, stream))
            else:
                raise second.Malformed("an unknown kind")
    except second.Malformed:
        yield "bad record"


# The selftest: expectations are typed from the rule book, none is computed by the code under test.


TEN = bytes([192, 168, 1, 10])
LISTED = bytes([192, 168, 1, 254])
TWO_LISTED = LISTED + bytes([192, 168, 1, 253])
expect = second.expect


def started(priority=100, interval=1, preempt=True, addresses=LISTED):
    """A table at 192.168.1.10 with VRID 1 started, and that router."""
    table = Table(TEN)
    expect("configuring", table.configure(1, priority, interval, preempt, addresses), (0, 0, 0))
    expect("startup", table.startup(1, bytearray(1023)), (0, 0, 0))
    return table, table.find(1)


def from_station(last, priority, interval=1, addresses=LISTED):
    """The advertisement of VRID 1 by 192.168.1.last."""
    return second.advertisement_frame(1, priority, interval, TEN[:3] + bytes([last]), addresses)[14:]


def now(router):
    return router.state, router.timer


def selftest_time():
    for interval, priority, due in ((1, 254, 770), (5, 100, 3996), (1, 100, 924), (1, 1, 1023), (255, 1, 196095)):
        expect(f"master down of A {interval}, P {priority}", now(started(priority, interval)[1]), ("B", due))
    for ticks, leftover, due in ((923, 0, ("B", 1)), (924, 0, ("M", 256)), (930, 6, ("M", 256))):
        table, router = started()
        expect(f"a step of {ticks}", table.clock(1, ticks, bytearray(96)), (0, 0, leftover))
        expect(f"after a step of {ticks}", now(router), due)
    table, router = started(interval=255, priority=255)
    expect("a Master of A 255", now(router), ("M", 65280))
    expect("the greatest step", table.clock(1, 2**32 - 1, bytearray(54)), (0, 0, 4294902015))


def selftest_packets():
    for last, due in ((9, ("M", 200)), (10, ("M", 200)), (11, ("B", 924))):
        table, router = started()
        table.clock(1, 924, bytearray(96))
        table.clock(1, 56, bytearray())
        expect("a packet of equal priority", table.packet(from_station(last, 100), bytearray()), (0, 0, 0))
        expect(f"after one from .{last}", now(router), due)
    for preempt, priority, due in ((False, 1, 924), (True, 1, 824), (True, 99, 824), (True, 100, 924), (True, 0, 156),
                                   (False, 0, 156)):
        table, router = started(preempt=preempt)
        table.clock(1, 100, bytearray())
        expect("a packet for a Backup", table.packet(from_station(11, priority), bytearray()), (0, 0, 0))
        expect(f"preempt {preempt} after priority {priority}", now(router), ("B", due))
    table, router = started(priority=255)
    expect("an owner hears another", table.packet(from_station(11, 255), bytearray()), (10, 0, 0))
    expect("an owner stays", now(router), ("M", 256))


def selftest_rooms():
    table, router = started(addresses=TWO_LISTED)
    room = bytearray(second.FILL * 95)
    expect("a room of 95", table.clock(1, 924, room), (22, 142, 0))
    expect("a room of 95 after it", bytes(room), second.FILL * 95)
    expect("nothing has happened", now(router), ("B", 924))
    room = bytearray(second.FILL * 144)
    expect("a room of 144", table.clock(1, 924, room), (0, 0, 0))
    due = (
        "01005E000012 00005E000101 0800 4500002C 00004000 FF70D99C C0A8010A E0000012"
        "210164020001F5AE C0A801FE C0A801FD 0000000000000000"
        "FFFFFFFFFFFF 00005E000101 0806 0001 0800 06 04 0001 00005E000101 C0A801FE 000000000000 C0A801FE"
        "FFFFFFFFFFFF 00005E000101 0806 0001 0800 06 04 0001 00005E000101 C0A801FD 000000000000 C0A801FD A5A5")
    expect("a two-address takeover", bytes(room), bytes.fromhex(due))
    expect("a room of 57", table.shutdown(1, bytearray(57)), (22, 58, 0))
    expect("a room of 58", table.shutdown(1, bytearray(58)), (0, 0, 0))


def selftest_places():
    table = Table(TEN)
    expect("the places", len(table.places), 255)
    for count, due in ((0, 17), (1, 0), (16, 0), (17, 17)):
        expect(f"{count} addresses", table.configure(1 + count, 100, 1, True, LISTED * count).number, due)
    for vrid in (4, 3):
        table.configure(vrid, 100, 1, True, LISTED)
    table.remove(17)
    table.configure(5, 100, 1, True, LISTED)
    expect("the lowest free place", [router.vrid for router in table.places[:4]], [2, 5, 4, 3])
    # A table filled by calls holds every VRID, so that 18 is always before 19; this one is filled from inside.
    table.places = [table.find(5)] * 255
    expect("no free place", table.configure(200, 100, 1, True, LISTED).number, 19)
    expect("18 before 19", table.configure(5, 100, 1, True, LISTED).number, 18)


def selftest_counters():
    last = 4294967295
    table, router = started()
    keyed = second.with_checksum(from_station(11, 100)[20:24] + b"\x01\x01\x00\x00" + LISTED + bytes(8), 6)
    for packet, counts, counted in (
        (b"", table.refused, 1),
        (second.advertisement_frame(2, 100, 1, TEN, LISTED)[14:], table.refused, 9),
        (from_station(11, 100)[:20] + keyed, router.refused, 11),
        (from_station(11, 100, addresses=TEN), router.refused, 12),
        (from_station(11, 100, interval=2), router.refused, 13),
    ):
        counts[counted] = last - 1
        for due in (last, 0, 1):
            expect("a refused packet", table.packet(packet, bytearray()), (counted, 0, 0))
            expect(f"the count of {counted}", counts[counted], due)
    router.accepted = router.became_master = last
    table.packet(from_station(11, 100), bytearray())
    table.clock(1, 924, bytearray(96))
    expect("accepted and became Master", (router.accepted, router.became_master), (0, 0))
    table, router = started(priority=255)
    router.refused[10] = last
    table.packet(from_station(11, 100), bytearray())
    expect("the count of 10", router.refused[10], 0)


def selftest_lines():
    packet = from_station(11, 100)
    configured = b"\x02\x01\x64\x01\x01\x00\x04" + LISTED
    expect("an empty history", list(replay(b"")), [])
    expect("one of each kind", list(replay(
        b"\x01" + TEN + configured + b"\x04\x01\x00\x02" + b"\x06\x01\x00\x00\x03\x9c\x00\x00"
        + b"\x06\x01\x00\x00\x00\x64\x00\x01" + b"\x07\x00\x03\x00\x28" + packet + b"\x07\x00\x00\x00\x00"
        + b"\x05\x01\x00\x00" + b"\x08\x01" + b"\x03\x01" + b"\x08\x01")), [
            "0 0 0 - - 0 0 0 0 0 0 0 0 0",
            "0 0 0 - I 0 0 0 0 0 0 0 0 0 0 0 0 0 0 0 0",
            "0 0 0 a5a5 B 924 0 0 0 0 0 0 0 0 0 0 0 0 0 0 0",
            "22 96 0 - B 924 0 0 0 0 0 0 0 0 0 0 0 0 0 0 0",
            "0 0 0 a5 B 824 0 0 0 0 0 0 0 0 0 0 0 0 0 0 0",
            "0 0 0 a5a5a5 B 924 1 0 0 0 0 0 0 0 0 0 0 0 0 0 0",
            "1 0 0 - - 1 0 0 0 0 0 0 0 0",
            "0 0 0 - I 0 1 0 0 0 0 0 1 0 0 0 0 0 0 0 0",
            "0 0 0 - I 0 1 0 0 0 0 0 1 0 0 0 0 0 0 0 0",
            "0 0 0 - - 1 0 0 0 0 0 0 0 0",
            "20 0 0 - - 1 0 0 0 0 0 0 0 0"])


def selftest_malformed():
    asked = (b"\x08\x01", "20 0 0 - - 0 0 0 0 0 0 0 0 0")
    configured = b"\x02\x01\x64\x01\x01\x00\x04" + LISTED
    whole = (b"\x01" + TEN, configured, b"\x03\x01", b"\x04\x01\x00\x01", b"\x05\x01\x00\x01",
             b"\x06\x01\x00\x00\x00\x01\x00\x01", b"\x07\x00\x01\x00\x28" + from_station(11, 100), b"\x08\x01")
    cut_off = [record[:length] for record in whole for length in range(1, len(record))]
    unknown = [bytes([kind]) for kind in (0, 9, 10, 255)]
    rooms = [b"\x04\x01\x04\x00", b"\x05\x01\x04\x00", b"\x06\x01\x00\x00\x00\x01\x04\x00", b"\x07\x04\x00\x00\x00"]
    preempts = [configured[:4] + b"\x02" + configured[5:], configured[:4] + b"\xff" + configured[5:]]
    for record in cut_off:
        expect("a record cut off", list(replay(asked[0] + record)), [asked[1], "bad record"])
    for record in unknown + rooms + preempts:
        expect("a bad record", list(replay(asked[0] + record + asked[0])), [asked[1], "bad record"])
    expect("a room of 1,023", list(replay(b"\x04\x01\x03\xff")), ["20 0 0 " + "a5" * 1023 + " - 0 0 0 0 0 0 0 0 0"])


# The commands: each answers its exit status.


def command_replay():
    for line in replay(sys.stdin.buffer.read()):
        print(line)
    return 0


def command_selftest():
    for selftest in (selftest_time, selftest_packets, selftest_rooms, selftest_places, selftest_counters,
                     selftest_lines, selftest_malformed):
        selftest()
    print("selftest: all as the rule book says")
    return 0


COMMANDS = {"replay": command_replay, "selftest": command_selftest}


def main(arguments):
    if len(arguments) == 1 and arguments[0] in COMMANDS:
        return COMMANDS[arguments[0]]()
    print(__doc__, file=sys.stderr)
    return 2


if __name__ == "__main__":
    sys.exit(main(sys.argv[1:]))
