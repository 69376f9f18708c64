"""Scripts drawn at random from a seed, and the longest ones."""

import second_segment
from histories.drawn import Dice
from scripts.kinds import PAIR, SEGMENT, TAKEOVER, Script, clock, deliver, segment, shutdown, startup, station

PRIMARIES = ("192.168.1.9", "192.168.1.10", "100.0.0.1", "200.0.0.1", "127.255.255.255", "128.0.0.0")
PRIORITIES = (1, 99, 100, 100, 100, 101, 254, 255)
STEPS = (0, 1, 2, 100, 155, 156, 256, 768, 923, 924, 924, 924, 1023, 2000, 65535)


def drawn_station(dice):
    return station(dice.of(PRIMARIES), dice.of(PRIORITIES), dice.below(2))


def drawn_event(dice, count):
    """An event for about that many stations."""
    events = (
        (4, lambda: startup(dice.below(count))),
        (2, lambda: shutdown(dice.below(count))),
        (5, lambda: clock(dice.of(STEPS))),
        (9, lambda: deliver(dice.below(count), dice.below(count))),
        (1, lambda: drawn_station(dice)),
    )
    return dice.of([event for often, event in events for _ in range(often)])()


class Growing:
    """A script that is made longer by records that the rehearsal so far does not refuse."""

    def __init__(self):
        self.rehearsal = second_segment.Rehearsal()
        self.content = b""

    def takes(self, record):
        """Whether the record was taken."""
        try:
            self.rehearsal.play(record[0], record[1:])
        except second_segment.Refused:
            return False
        self.content += record
        return True


def good_script(dice, records, stations):
    """A script of that many records that is not refused, with some stations from the start and some that join."""
    growing = Growing()
    growing.takes(segment(1 + dice.below(255), dice.of((1, 1, 1, 2, 255))))
    for _ in range(stations):
        growing.takes(drawn_station(dice))
    taken = 0
    while taken < records:
        taken += growing.takes(drawn_event(dice, len(growing.rehearsal.stations)))
    return growing.content


def drawn_good():
    """Scripts of 20 to 320 records that are not refused, and one of 2,000."""
    dice = Dice(1)
    drawn = [good_script(dice, records, 1 + dice.below(16)) for records in range(20, 330, 10)]
    return [Script(content, None) for content in drawn + [good_script(dice, 2000, 5)]]


def drawn_events():
    """Stations that are all Masters and then any events, up to the first that is refused."""
    dice, found = Dice(2), []
    for _ in range(60):
        count = 1 + dice.below(16)
        stations = b"".join(drawn_station(dice) for _ in range(count))
        startups = b"".join(startup(number) for number in range(count))
        events = b"".join(drawn_event(dice, count) for _ in range(60))
        found.append(Script(SEGMENT + stations + startups + clock(1023) + events, None))
    return found


def drawn_changed():
    """Good scripts with a byte changed, lost or added somewhere."""
    dice, found = Dice(3), []
    for _ in range(120):
        content = good_script(dice, 20, 1 + dice.below(4))
        at, byte = dice.below(len(content)), bytes([dice.of((0, 1, 2, 3, 4, 5, 6, 7, dice.below(256)))])
        front, rest = content[:at], content[at:]
        found.append(Script(dice.of((front + byte + rest[1:], front + rest[1:], front + byte + rest, front)), None))
    return found


def drawn_bytes():
    """Small bytes in any order, at first and after a segment with two stations."""
    dice, found = Dice(4), []
    for _ in range(60):
        content = bytes(dice.of((0, 1, 2, 3, 4, 5, 6, 7, 100, 255)) for _ in range(dice.below(40)))
        found += [Script(content, None), Script(PAIR + startup(0) + startup(1) + TAKEOVER + content, None)]
    return found


def filled(length):
    """A good script of that many bytes: two stations in turn are beaten, take over again, leave and return."""
    setup = PAIR + startup(0) + startup(1) + TAKEOVER
    turn = deliver(1, 0) + clock(923) + clock(1) + deliver(0, 1) + shutdown(1) + deliver(1, 0) + startup(1) + TAKEOVER
    turns, rest = divmod(length - len(setup) - 2, len(turn))
    rest += 2
    return setup + turn * turns + clock(0) * (rest % 2) + startup(0) * (rest // 2 - rest % 2)


def longest():
    """65,536 bytes are read, more are refused by 30: good records, and zeros, whose first is an unknown kind."""
    return [
        Script(filled(65536), None), Script(filled(65537), ["0 refused 30"]),
        Script(bytes(65536), ["1 refused 23"]), Script(bytes(65537), ["0 refused 30"]),
        # A length that is 7 modulo 65,536, beginning with a segment's 7 bytes.
        Script(SEGMENT + bytes(131072), ["0 refused 30"]),
    ]


SCRIPTS = [drawn_good, drawn_events, drawn_changed, drawn_bytes, longest]
