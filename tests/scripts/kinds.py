"""Scripts for `second_segment.py rehearse`, put together from records, each with the lines that are due for it."""

from collections import namedtuple

from cases.mutate import address

# `due` is the lines typed by hand, or None where the second program and the laws alone decide.
Script = namedtuple("Script", "content due")


def script(due, *records):
    """A script and its lines, which stand in one string with a comma and a blank between them."""
    return Script(b"".join(records), due.split(", ") if due else [])


def segment(vrid=1, interval=1, virtual="192.168.1.254"):
    return bytes([1, vrid, interval]) + address(virtual)


def station(primary, priority=100, preempt=1):
    return bytes([2, priority, preempt]) + address(primary)


def startup(number):
    return bytes([3, number])


def shutdown(number):
    return bytes([4, number])


def clock(ticks):
    return b"\x05" + ticks.to_bytes(2, "big")


def deliver(sender, receiver):
    return bytes([6, sender, receiver])


# The segment, the stations and the takeover of document 01's example.
SEGMENT = segment()
NINE, TEN = station("192.168.1.9"), station("192.168.1.10")
PAIR = SEGMENT + NINE + TEN
TAKEOVER = clock(924)

# A whole record of each kind, with the number of records that stand before it and those records.
WHOLE = (
    (segment(), 0, b""), (segment(), 1, SEGMENT), (NINE, 0, b""), (NINE, 1, SEGMENT),
    (startup(0), 0, b""), (startup(0), 3, PAIR), (shutdown(0), 0, b""), (shutdown(0), 3, PAIR),
    (TAKEOVER, 0, b""), (TAKEOVER, 3, PAIR), (deliver(0, 1), 0, b""), (deliver(0, 1), 3, PAIR),
)
