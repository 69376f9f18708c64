#!/usr/bin/env python3
"""Makes the histories: NAME.records, the lines due for them in NAME.lines, and their list README.md.

What is due is typed by hand beside each step from document 01 and the UNH suite. The second program's table must
answer so, and the lines of every history, the drawn ones too, must keep the laws of laws.py, else nothing is made.
With --check it compares the made files with those there.
"""

import sys
from pathlib import Path

HERE = Path(__file__).resolve().parent
sys.dont_write_bytecode = True
sys.path.insert(0, str(HERE.parent))

import second_table
from cases.folder import Entry, files_of, keep_folder, text_of
from histories import by_refusal, by_rule_book, by_unh, drawn, laws
from histories.steps import complaint, configure, new, startup

# Each drawn history has every answer; 19 cannot come, as a full table holds every VRID.
DRAWN_ANSWERS = set(range(23)) - {19}
SHOWN_COMPLAINTS = 10

HEAD = """# Histories of the table

`make.py` makes them. What is due after each step of a hand-made history is typed beside it in `by_rule_book.py`,
`by_refusal.py` and `by_unh.py`; the lines of every history keep the laws in `laws.py`. `make.py --check` says whether
the files are as made. `../second_table.py replay < NAME.records` prints `NAME.lines`; its head says what records and
lines are.
"""


def records_of(steps):
    return b"".join(step.record for step in steps)


def lines_of(name, steps):
    """The lines for a history, once they are as typed and keep the laws."""
    lines = list(second_table.replay(records_of(steps)))
    if len(lines) != len(steps) or "bad record" in lines:
        raise SystemExit(f"{name}: {len(steps)} records, {len(lines)} lines")
    wrong = [f"record {place}: {complaint(step, line)}" for place, (step, line) in enumerate(zip(steps, lines), 1)
             if step.due is not None and complaint(step, line)]
    wrong += laws.complaints([step.record for step in steps], lines)
    if wrong:
        raise SystemExit("\n".join(f"{name}: {line}" for line in wrong[:SHOWN_COMPLAINTS]))
    return lines


def played(history):
    """A history's records and its lines."""
    steps = history()
    return records_of(steps), lines_of(history.__name__, steps)


def drawn_by_chance(history):
    """As `played`, for one of which every answer is asked."""
    records, lines = played(history)
    answers = {int(line.split(" ")[0]) for line in lines}
    if answers != DRAWN_ANSWERS:
        raise SystemExit(f"{history.__name__}: no answer {DRAWN_ANSWERS - answers}")
    return records, lines


def empty():
    """No records, no lines."""
    return b"", []


def bad_record():
    """A startup with a room of 1,024 after good records: its line is `bad record`, and what follows has none."""
    good = [new("192.168.1.2"), configure("0 I 0"), startup("0 B 924")]
    records, lines = records_of(good) + bytes.fromhex("04010400") + records_of(good), lines_of("bad_record", good)
    if list(second_table.replay(records)) != lines + ["bad record"]:
        raise SystemExit("bad_record: the lines go on")
    return records, lines + ["bad record"]


def as_it_is(history):
    return history()


PARTS = (
    ("States, time, rooms, counts and places", played, by_rule_book.HISTORIES),
    ("Refusals", played, by_refusal.HISTORIES),
    ("The UNH suite, test by test", played, by_unh.HISTORIES),
    ("Drawn from a seed", drawn_by_chance, drawn.HISTORIES),
    ("The ends of a stream", as_it_is, [empty, bad_record]),
)


def entry(play, history):
    """A history's files and what the list says of it."""
    records, lines = play(history)
    return Entry(history.__name__, f"{len(lines)} lines", history.__doc__,
                 {".records": records, ".lines": text_of(lines).encode()})


def made():
    """The files by their paths."""
    return files_of(HERE, HEAD, [(title, [entry(play, history) for history in histories])
                                 for title, play, histories in PARTS])


def main(arguments):
    return keep_folder(HERE, made(), arguments)


if __name__ == "__main__":
    sys.exit(main(sys.argv[1:]))
