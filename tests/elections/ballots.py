"""Elections as records for `second_segment.py elections`, each with the line that is due for it."""

from collections import namedtuple

from cases.mutate import address

CONFIGURED, STARTED, STEPPED = range(3)

# `come` is how far the station has come before the deliveries.
Elector = namedtuple("Elector", "primary priority preempt come")

# A delivery is a pair of station numbers, from and to; `due` is typed by hand, or None where the laws alone decide.
Election = namedtuple("Election", "electors deliveries due")


def elector(primary, priority=100, preempt=1, come=STEPPED):
    return Elector(address(primary), priority, preempt, come)


def pairs(senders, count):
    """Each of the senders to every other of that many stations."""
    return [(sender, receiver) for sender in senders for receiver in range(count) if receiver != sender]


def among(count):
    """Every station to every other."""
    return pairs(range(count), count)


def record(election):
    electors = b"".join(bytes([one.priority, one.preempt]) + one.primary + bytes([one.come])
                        for one in election.electors)
    deliveries = b"".join(map(bytes, election.deliveries))
    return bytes([len(election.electors)]) + electors + len(election.deliveries).to_bytes(2, "big") + deliveries
