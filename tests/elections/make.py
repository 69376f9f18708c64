#!/usr/bin/env python3
"""Makes the elections: NAME.records, the lines due for them in NAME.lines, and their list README.md.

What is due for an election made by hand is typed beside it. The second program's segment must answer so, and the line
of every election, drawn ones too, must keep the laws of laws.py, else nothing is made. With --check it compares the
made files with those there.
"""

import sys
from pathlib import Path

HERE = Path(__file__).resolve().parent
sys.dont_write_bytecode = True
sys.path.insert(0, str(HERE.parent))

import second_segment
from cases.folder import Entry, files_of, keep_folder, text_of
from elections import by_hand, drawn, laws
from elections.ballots import record

HEAD = """# Elections

`make.py` makes them. What is due for those made by hand is typed beside each in `by_hand.py`; the lines of all keep the
laws in `laws.py`, among them that one Master remains. `make.py --check` says whether the files are as made.
`../second_segment.py elections < NAME.records` prints `NAME.lines`; its head says what records and lines are.
"""


def records_of(elections):
    return b"".join(map(record, elections))


def held(function):
    """The records of some elections and their lines, once these are as typed and keep the laws."""
    elections = function()
    lines = list(second_segment.elections(records_of(elections)))
    if len(lines) != len(elections):
        raise SystemExit(f"{function.__name__}: {len(elections)} elections, {len(lines)} lines")
    for place, (election, line) in enumerate(zip(elections, lines), 1):
        wrong = list(laws.complaints(election, line))
        if election.due not in (None, line):
            wrong.append(f"typed {election.due}: {line}")
        if wrong:
            raise SystemExit(f"{function.__name__}: election {place}: {wrong[0]}")
    return records_of(elections), lines


def reaching(function):
    """As `held`, for elections of which the law of one Master must speak, every one."""
    if not all(map(laws.meets_premises, function())):
        raise SystemExit(f"{function.__name__}: an election does not meet the premises")
    return held(function)


def bad(function):
    """A bad record between good ones, and the lines."""
    good = by_hand.rule_book()[:2]
    records, lines = records_of([*good, function(), *good]), [*(one.due for one in good), function().due]
    if list(second_segment.elections(records)) != lines:
        raise SystemExit(f"{function.__name__}: the lines are not {lines}")
    return records, lines


PARTS = (
    ("Made by hand", held, by_hand.ELECTIONS),
    ("Where each Master reaches every other, and one Master remains", reaching,
     [drawn.orders_of_equals, drawn.orders_with_owner, drawn.drawn_reaching]),
    ("Drawn from a seed", held, [drawn.drawn_missing, drawn.drawn_alike]),
    ("Bad records, between good ones", bad, by_hand.BAD),
    ("The empty stream", held, [by_hand.no_elections]),
)


def entry(hold, function):
    """The files of some elections and what the list says of them."""
    records, lines = hold(function)
    return Entry(function.__name__, f"{len(lines)} line{'' if len(lines) == 1 else 's'}", function.__doc__,
                 {".records": records, ".lines": text_of(lines).encode()})


def made():
    """The files by their paths."""
    return files_of(HERE, HEAD, [(title, [entry(hold, function) for function in functions])
                                 for title, hold, functions in PARTS])


def main(arguments):
    return keep_folder(HERE, made(), arguments)


if __name__ == "__main__":
    sys.exit(main(sys.argv[1:]))
