"""Laws of document 01 that the lines of every history keep, whatever its records are.

They are checked on the records and lines alone, the counts by counting the answers; nothing is asked of the table.
"""

from collections import Counter

import second
from histories.steps import COUNTS, ROUTER, read_line

NEW, CONFIGURE, REMOVE, CLOCK, PACKET = 1, 2, 3, 6, 7
ROUTER_COUNTS = ROUTER[1:]
ABSENT = {"state": "-"}


def vrid_of(record, words):
    """The VRID that the line is about, or None."""
    if record[0] == NEW or words["answer"] in range(1, 9):
        return None
    return second.fields_of(record[5:]).vrid if record[0] == PACKET else record[1]


def room_is_right(words):
    """22 says a need above the room, no other answer says one, and every refusal leaves the room untouched."""
    if words["answer"] == 22:
        return words["need"] > len(words["room"]) and words["wrote"] == 0
    return words["need"] == 0 and (words["answer"] == 0 or words["wrote"] == 0)


def frames_are_right(words, before, count):
    """Becoming Master writes 50 + 46n bytes, a Master 50 + 4n when it leaves and when it advertises, no one else."""
    change = before["state"] + words["state"]
    if change in ("IM", "BM"):
        return words["wrote"] == 50 + 46 * count
    if change == "MI":
        return words["wrote"] == 50 + 4 * count
    return words["wrote"] == 0 or change == "MM" and words["wrote"] == 50 + 4 * count


def timer_is_right(words):
    """Exactly Initialize has no timer."""
    return words["state"] == "-" or (words["state"] == "I") == (words["timer"] == 0)


def leftover_is_right(record, words, before):
    """A step below the timer takes that much of it, any other fires it and leaves the rest; nothing else does."""
    if record[0] != CLOCK or words["answer"] != 0 or before["state"] == "I":
        return words["left"] == 0
    ticks = int.from_bytes(record[2:6], "big")
    if ticks < before["timer"]:
        return (words["state"], words["timer"], words["left"]) == (before["state"], before["timer"] - ticks, 0)
    return (words["state"], words["left"]) == ("M", ticks - before["timer"])


class Told:
    """What the history so far says: the counts by its answers, each list's length and how each router was seen."""

    def __init__(self):
        self.interface = Counter()
        self.routers = {}
        self.lengths = {}
        self.seen = {}

    def before(self, vrid):
        return self.seen.get(vrid, ABSENT)

    def take(self, record, words, vrid):
        """Take in one more record and its line."""
        kind, answer = record[0], words["answer"]
        if kind == CONFIGURE and answer == 0:
            self.routers[vrid], self.lengths[vrid] = Counter(), len(record[7:]) // 4
        elif kind == REMOVE and answer == 0:
            del self.routers[vrid]
        elif answer in range(1, 10):
            self.interface[f"c{answer}"] += 1
        elif answer in range(10, 14):
            self.routers[vrid][f"c{answer}"] += 1
        elif kind == PACKET and answer == 0:
            self.routers[vrid]["accepted"] += 1
        if words["state"] == "M" and self.before(vrid)["state"] != "M":
            self.routers[vrid]["master"] += 1
        self.seen[vrid] = {name: words[name] for name in ("state", *ROUTER) if name in words}

    def counts_are_right(self, words, vrid):
        """Exactly a router in the table is shown, and each count is the number of such events modulo 2^32."""
        if (vrid in self.routers) != (words["state"] != "-"):
            return False
        due = {name: self.interface[name] for name in COUNTS}
        if vrid in self.routers:
            due.update({name: self.routers[vrid][name] for name in ROUTER_COUNTS})
        return all(words[name] == count % 2**32 for name, count in due.items())


def complaints(records, lines):
    """The lines of a history that break a law."""
    told = Told()
    for place, (record, line) in enumerate(zip(records, lines), 1):
        words = read_line(line)
        vrid = vrid_of(record, words)
        told = Told() if record[0] == NEW else told
        before = told.before(vrid)
        told.take(record, words, vrid)
        for law, kept in (
            ("the room", room_is_right(words)),
            ("what is written", frames_are_right(words, before, told.lengths.get(vrid, 0))),
            ("the timer", timer_is_right(words)),
            ("the leftover", leftover_is_right(record, words, before)),
            ("the counts", told.counts_are_right(words, vrid)),
            ("14 to 22 change nothing", words["answer"] < 14 or told.before(vrid) == before),
        ):
            if not kept:
                yield f"record {place}: {law}: {line}"
