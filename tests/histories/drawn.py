"""Histories drawn at random from a seed: several routers, packets good and mutated, rooms small and large."""

import random

from cases.mutate import changed, cut, header, message, with_list, with_options
from histories.steps import clock, configure, given, new, question, remove, sent, shutdown, startup

EVENTS = 2500

# What each VRID is mostly configured with, so that packets mostly fit; 77 is never configured.
INTERVALS = {1: 1, 2: 1, 9: 2, 128: 1, 255: 255, 77: 1}
SIZES = {1: 1, 2: 2, 9: 1, 128: 3, 255: 1, 77: 1}
LISTS = {vrid: b"".join(bytes([10, 0, vrid, last]) for last in range(1, size + 1)) for vrid, size in SIZES.items()}
CONFIGURED = (1, 2, 9, 128, 255)
PRIORITIES = (1, 99, 100, 100, 100, 101, 254, 255)
SOURCES = ("192.168.1.1", "192.168.1.2", "192.168.1.3", "100.0.0.1", "200.0.0.1")
HEARD = (0, 0, 0, 1, 1, 1, 99, 99, 99, 100, 100, 101, 254, 255)
STEPS = (0, 1, 2, 100, 155, 156, 256, 256, 257, 300, 768, 923, 924, 924, 925, 1000, 1000, 2000, 2000, 4294967295)


class Dice:
    """What is drawn from a seed; only `random` itself is promised to be the same in every Python."""

    def __init__(self, seed):
        self.random = random.Random(seed).random

    def below(self, limit):
        return int(self.random() * limit)

    def one_in(self, often):
        return self.below(often) == 0

    def of(self, choices):
        return choices[self.below(len(choices))]

    def vrid(self):
        return 0 if self.one_in(60) else 77 if self.one_in(40) else self.of(CONFIGURED)

    def room(self, vrid, takeover):
        """Mostly none, which keeps the lines short, else what the event may need or one less."""
        size = SIZES.get(vrid, 1)
        enough = 50 + (46 if takeover else 4) * size
        if self.one_in(100):
            return self.of((200, 250, 1023))
        return self.of((0, 0, 0, 0, 0, enough - 1, enough, enough, 50 + 4 * size))


def drawn_configure(dice):
    vrid = 0 if dice.one_in(15) else dice.of(CONFIGURED)
    addresses = LISTS.get(vrid, LISTS[1])
    if dice.one_in(8):
        addresses = dice.of((b"", addresses[:-1], addresses * 2, addresses[4:] + addresses[:4], bytes(65), bytes(68)))
    interval = dice.of((0, 1, 3)) if dice.one_in(10) else INTERVALS.get(vrid, 1)
    priority = 0 if dice.one_in(15) else dice.of(PRIORITIES)
    return configure(None, vrid, priority, interval, dice.below(2), addresses)


def good(dice, vrid):
    return sent(dice.of(HEARD), dice.of(SOURCES), vrid, INTERVALS.get(vrid, 1), LISTS.get(vrid, LISTS[1]))


def mutated(dice, packet):
    """The packet with one thing changed, from what every router refuses to what none looks at."""
    byte = dice.below(256)
    changes = (
        lambda: changed(packet, dice.below(len(packet)), bytes([byte])),
        lambda: packet[:dice.below(len(packet))],
        lambda: header(packet, ttl=byte),
        lambda: header(packet, protocol=byte),
        lambda: header(packet, fragment=dice.of((0, 0x2000, 0x4000, 0x8000, byte))),
        lambda: header(packet, destination=dice.of((0xE0000012, 0xE0000013, 0xC0A801FE))),
        lambda: header(packet, version_length=dice.of((0x35, 0x44, 0x46, 0x4F, 0x65))),
        lambda: message(packet, version_type=dice.of((0x11, 0x20, 0x21, 0x22, 0x31))),
        lambda: message(packet, authentication=dice.of((1, 2, byte))),
        lambda: message(packet, interval=dice.of((0, 1, 2, byte))),
        lambda: message(packet, priority=byte),
        lambda: message(packet, vrid=byte),
        lambda: message(packet, checksum=dice.of((0, 0xFFFF, byte))),
        lambda: cut(packet, dice.below(len(packet) - 20)),
        lambda: with_list(packet, dice.of((b"", packet[28:32], packet[28:32] * 2, packet[32:36] + packet[28:32]))),
        lambda: with_options(packet, bytes([byte]) * 4 * dice.of((1, 2, 10))),
        lambda: packet + bytes([byte]) * dice.below(7),
    )
    return dice.of(changes)()


def drawn_packet(dice, mutations):
    vrid = dice.vrid()
    packet = good(dice, vrid)
    if dice.below(100) < mutations:
        packet = mutated(dice, packet)
    if packet and dice.one_in(20):
        packet = changed(packet, dice.below(len(packet)), bytes([dice.below(256)]))
    return given(packet, None, dice.room(vrid, takeover=False))


def drawn_clock(dice):
    vrid = dice.vrid()
    ticks = dice.below(2**32) if dice.one_in(40) else dice.of(STEPS)
    return clock(ticks, None, dice.room(vrid, takeover=True), vrid)


def drawn_call(dice):
    vrid = dice.vrid()
    calls = (
        (4, lambda: drawn_configure(dice)),
        (1, lambda: remove(None, vrid)),
        (1, lambda: question(None, vrid)),
        (4, lambda: startup(None, dice.room(vrid, takeover=True), vrid)),
        (1, lambda: shutdown(None, dice.room(vrid, takeover=False), vrid)),
    )
    return dice.of([call for often, call in calls for _ in range(often)])()


def drawn(seed, clocks, packets, mutations):
    """A history by how many in a hundred events are clock steps and packets, and how many packets are mutated."""
    dice = Dice(seed)
    steps = [new("192.168.1.2")]
    while len(steps) < EVENTS:
        event = dice.below(100)
        if event < clocks:
            steps.append(drawn_clock(dice))
        elif event < clocks + packets:
            steps.append(drawn_packet(dice, mutations))
        else:
            steps.append(drawn_call(dice))
    return steps


def drawn_events():
    """Calls, packets and clock steps in equal parts, so that routers come and go."""
    return drawn(seed=8, clocks=30, packets=30, mutations=15)


def drawn_clocks():
    """Mostly clock steps and good packets, so that Masters come and go."""
    return drawn(seed=4, clocks=50, packets=30, mutations=12)


def drawn_packets():
    """Mostly packets, and most of them mutated."""
    return drawn(seed=6, clocks=20, packets=65, mutations=60)


HISTORIES = [drawn_events, drawn_clocks, drawn_packets]
