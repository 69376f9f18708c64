"""Laws of document 01 that the lines of every script keep, checked on script and lines alone, with no timer run.

Whether a Backup's time is up is left open; everything else in the lines follows from the records before them.
"""

from collections import namedtuple

SEGMENT, STATION, STARTUP, SHUTDOWN, CLOCK, DELIVER = range(1, 7)
LENGTHS = {SEGMENT: 7, STATION: 7, STARTUP: 2, SHUTDOWN: 2, CLOCK: 3, DELIVER: 3}
OWNER = 255
MOST_BYTES = 65536
MOST_STATIONS = 16

# What a station was made of; `number` is its primary address as one.
Made = namedtuple("Made", "priority number")


class Told:
    """What the records and lines so far say: the stations, their letters, who has sent, and who said farewell last."""

    def __init__(self):
        self.begun = False
        self.stations = []
        self.letters = ""
        self.sent = set()
        self.farewell = set()

    def refusals(self, rest):
        """The refusals that the record at the front of the rest of the script deserves, in document 01's order."""
        kind = rest[0]
        if kind not in LENGTHS:
            return [23]
        if len(rest) < LENGTHS[kind]:
            return [24]
        conditions = {25: (kind == SEGMENT) == self.begun, **self.conditions(kind, rest[1:LENGTHS[kind]])}
        return [number for number, holds in conditions.items() if holds]

    def conditions(self, kind, body):
        """The conditions of the refusals that this kind of record can have after 25."""
        count = len(self.stations)
        if kind == SEGMENT:
            return {14: body[0] == 0, 16: body[1] == 0}
        if kind == STATION:
            return {27: count == MOST_STATIONS, 15: body[0] == 0, 29: body[1] > 1}
        if kind == DELIVER:
            return {26: max(body) >= count, 28: body[0] == body[1] or body[0] not in self.sent}
        return {26: kind != CLOCK and body[0] >= count}

    def beats(self, sender, receiver):
        """Whether the latest of the sender beats the receiver, were it Master."""
        made = self.stations[receiver]
        return made.priority != OWNER and sender not in self.farewell and self.stations[sender] > made

    def may_become(self, kind, body, place):
        """The letters that the record may leave this station with."""
        letter = self.letters[place]
        if kind == CLOCK:
            return "BM" if letter == "B" else letter
        if kind == STARTUP and body[0] == place and letter == "I":
            return "M" if self.stations[place].priority == OWNER else "B"
        if kind == SHUTDOWN and body[0] == place:
            return "I"
        if kind == DELIVER and body[1] == place and letter == "M" and self.beats(*body):
            return "B"
        return letter

    def letters_are_right(self, kind, body, letters):
        return len(letters) == len(self.letters) and all(
            letter in self.may_become(kind, body, place) for place, letter in enumerate(letters))

    def take(self, kind, body, letters):
        """Take in one more record and, where it has a line, the letters there."""
        if kind == SEGMENT:
            self.begun = True
        elif kind == STATION:
            self.stations.append(Made(body[0], int.from_bytes(body[2:], "big")))
            self.letters += "I"
        else:
            masters = {place for place, letter in enumerate(letters) if letter == "M"}
            self.sent |= masters
            self.farewell -= masters
            if kind == SHUTDOWN and self.letters[body[0]] == "M":
                self.farewell.add(body[0])
            self.letters = letters


def complaints(content, lines):
    """What is wrong with the lines of a script."""
    if len(content) > MOST_BYTES:
        return [] if lines == ["0 refused 30"] else ["a script that is too long"]
    told, at, number, left = Told(), 0, 0, list(lines)
    while at < len(content):
        number += 1
        refusals = told.refusals(content[at:at + 7])
        if refusals:
            due = f"{number} refused {refusals[0]}"
            return [] if left == [due] else [f"due {due}: {left[:1]}"]
        kind, body = content[at], content[at + 1:at + LENGTHS[content[at]]]
        letters = ""
        if kind not in (SEGMENT, STATION):
            line = left.pop(0) if left else "no line"
            letters = line.partition(" ")[2]
            if line != f"{number} {letters}" or not told.letters_are_right(kind, body, letters):
                return [f"record {number}: {told.letters} before it: {line}"]
        told.take(kind, body, letters)
        at += LENGTHS[kind]
    return [f"lines after the end: {left[0]}"] if left else []
