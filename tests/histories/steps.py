"""The steps of a history: each is one record for `second_table.py replay` and what is due after it.

What is due is typed by hand: the answer, the router's state letter and timer (or - for none), then any of
    need N     the room needed       left N   the leftover       wrote N   the bytes written at the room's front
    accepted N, master N (times it became Master), cN (the count of refusal N)
where need, left and wrote are due to be 0 unless they are named, and the others are left open.
"""

from collections import namedtuple

import second
from cases.mutate import address

VIRTUAL = address("192.168.1.254")
NEIGHBOUR = "192.168.1.3"

# `frames` is what is due to be written, typed in hex, or None where its length alone is.
Step = namedtuple("Step", "record due frames", defaults=(None,))


def number(value, width=2):
    return value.to_bytes(width, "big")


def new(primary):
    return Step(b"\x01" + address(primary), "0 -")


def configure(due, vrid=1, priority=100, interval=1, preempt=1, addresses=VIRTUAL):
    return Step(bytes([2, vrid, priority, interval, preempt]) + number(len(addresses)) + addresses, due)


def remove(due, vrid=1):
    return Step(bytes([3, vrid]), due)


def startup(due, room=0, vrid=1, frames=None):
    return Step(bytes([4, vrid]) + number(room), due, frames)


def shutdown(due, room=0, vrid=1, frames=None):
    return Step(bytes([5, vrid]) + number(room), due, frames)


def clock(ticks, due, room=0, vrid=1, frames=None):
    return Step(bytes([6, vrid]) + number(ticks, 4) + number(room), due, frames)


def given(packet, due, room=0, frames=None):
    """Any packet."""
    return Step(b"\x07" + number(room) + number(len(packet)) + packet, due, frames)


def sent(priority, source=NEIGHBOUR, vrid=1, interval=1, addresses=VIRTUAL):
    """The advertisement of another station."""
    return second.advertisement_frame(vrid, priority, interval, address(source), addresses)[14:]


def heard(priority, due, room=0, frames=None, **fields):
    """Another station's advertisement reaches us."""
    return given(sent(priority, **fields), due, room, frames)


def question(due, vrid=1):
    return Step(bytes([8, vrid]), due)


# Lines read back, and compared with what is due.


COUNTS = [f"c{refusal}" for refusal in range(1, 10)]
ROUTER = ["timer", "accepted", "master", "c10", "c11", "c12", "c13"]


def read_line(line):
    """The words of a line by name; the room as bytes, the numbers as numbers."""
    answer, need, left, room, state, *rest = line.split(" ")
    names = COUNTS if state == "-" else ROUTER + COUNTS
    if len(rest) != len(names):
        raise ValueError(f"{len(rest)} words after the state: {line}")
    words = {"answer": int(answer), "need": int(need), "left": int(left), "state": state}
    words["room"] = b"" if room == "-" else bytes.fromhex(room)
    words["wrote"] = len(words["room"].rstrip(second.FILL))
    return {**words, **dict(zip(names, map(int, rest)))}


def read_due(due, frames):
    answer, state, *rest = due.split(" ")
    words = {"answer": int(answer), "need": 0, "left": 0, "wrote": 0, "state": state}
    if state != "-":
        words["timer"] = int(rest.pop(0))
    words.update(zip(rest[::2], map(int, rest[1::2])))
    if frames is not None:
        words["wrote"] = len(bytes.fromhex(frames))
    return words


def complaint(step, line):
    """How the line differs from what is due after the step, or None."""
    words = read_line(line)
    wrong = [f"{name} is {words.get(name)}" for name, due in read_due(step.due, step.frames).items()
             if words.get(name) != due]
    if step.frames is not None and words["room"][:words["wrote"]] != bytes.fromhex(step.frames):
        wrong.append(f"written was {words['room'].hex()}")
    return f"due {step.due}: {', '.join(wrong)}" if wrong else None
