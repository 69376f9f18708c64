"""Elections in every order of their deliveries, and elections drawn at random from a seed."""

from itertools import permutations

from elections.ballots import CONFIGURED, STARTED, STEPPED, Election, Elector, among, elector, pairs
from elections.laws import masters
from histories.drawn import Dice

DRAWN = 250
PRIORITIES = (1, 50, 99, 100, 100, 100, 100, 101, 200, 254)
FIRST_BYTES = (9, 10, 100, 127, 128, 192, 200, 255)


def every_order(electors, due):
    return [Election(electors, order, due) for order in permutations(among(3))]


def orders_of_equals():
    """Three Masters of equal priority, in all 720 orders of their six deliveries."""
    return every_order([elector("127.255.255.255"), elector("128.0.0.0"), elector("100.0.0.1")], "MMM BMB 1")


def orders_with_owner():
    """An owner between two that tie, in all 720 orders of their six deliveries."""
    electors = [elector("200.0.0.1", 254, preempt=0), elector("100.0.0.1", 255), elector("192.168.1.10", 254)]
    return every_order(electors, "MMM BMB 1")


def drawn_address(dice):
    return bytes([dice.of(FIRST_BYTES), *(dice.below(256) for _ in range(3))])


def drawn_electors(dice, count):
    """That many stations, most of them Masters, with addresses that differ and sometimes an owner among them."""
    addresses = []
    while len(addresses) < count:
        another = drawn_address(dice)
        if another not in addresses:
            addresses.append(another)
    electors = [Elector(primary, dice.of(PRIORITIES), dice.below(2), dice.of((CONFIGURED, STARTED, STEPPED, STEPPED)))
                for primary in addresses]
    if dice.one_in(4):
        owner = dice.below(count)
        electors[owner] = electors[owner]._replace(priority=255)
    return electors


def shuffled(dice, deliveries):
    """The deliveries in a drawn order."""
    return [delivery for _, delivery in sorted((dice.random(), delivery) for delivery in deliveries)]


def drawn_reaching():
    """16 stations: every Master's advertisement reaches every other in a drawn order, and some again."""
    dice, found = Dice(1), []
    for _ in range(DRAWN):
        electors = drawn_electors(dice, 16)
        needed = pairs(masters(Election(electors, [], None)), 16)
        repeated = [dice.of(among(16)) for _ in range(dice.below(40))]
        found.append(Election(electors, shuffled(dice, needed + repeated), None))
    return found


def drawn_missing():
    """2 to 16 stations and any deliveries, a station's to itself too."""
    dice, found = Dice(2), []
    for _ in range(DRAWN):
        count = 2 + dice.below(15)
        deliveries = [(dice.below(count), dice.below(count)) for _ in range(dice.below(3 * count))]
        found.append(Election(drawn_electors(dice, count), deliveries, None))
    return found


def drawn_alike():
    """2 to 16 stations of few priorities, two addresses and several owners, so that many are equal."""
    dice, found = Dice(3), []
    for _ in range(DRAWN):
        count = 2 + dice.below(15)
        electors = [elector(dice.of(("100.0.0.1", "200.0.0.1")), dice.of((99, 100, 255)), dice.below(2), dice.below(3))
                    for _ in range(count)]
        deliveries = [(dice.below(count), dice.below(count)) for _ in range(dice.below(6 * count))]
        found.append(Election(electors, deliveries, None))
    return found
