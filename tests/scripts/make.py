#!/usr/bin/env python3
"""Makes the scripts: NAME.scripts, what the rehearsal is due to print for each in NAME.lines, and their list README.md.

What is due for a script made by hand is typed beside it. The second program must print that, and what it prints for
every script, drawn ones too, must keep the laws of laws.py, else nothing is made. With --check it compares the made
files with those there.
"""

import sys
from pathlib import Path

HERE = Path(__file__).resolve().parent
sys.dont_write_bytecode = True
sys.path.insert(0, str(HERE.parent))

import second_segment
from cases.folder import Entry, files_of, keep_folder, text_of
from scripts import by_event, by_refusal, drawn, laws

HEAD = """# Scripts of the rehearsal

`make.py` makes them. What is due for those made by hand is typed beside each in `by_event.py` and `by_refusal.py`; what
is printed for every script keeps the laws in `laws.py`. `make.py --check` says whether the files are as made.

In `NAME.scripts` each script stands behind its length in 4 bytes, high byte first; in `NAME.lines` what is due to be
printed for each, in the same order, behind its length in bytes on a line of its own. `../second_segment.py rehearse`
prints it for one script; its head says what scripts and lines are. `../rehearsing` runs our program on all.
"""

PARTS = (
    ("What events do", by_event.SCRIPTS),
    ("Refusals", by_refusal.SCRIPTS),
    ("Drawn from a seed, and the longest", drawn.SCRIPTS),
)


def printed(name, place, script):
    """What is due to be printed for a script, once it is as typed and keeps the laws."""
    lines = list(second_segment.rehearse(script.content))
    wrong = laws.complaints(script.content, lines)
    if script.due not in (None, lines):
        wrong.append(f"typed {script.due}: {lines}")
    if wrong:
        raise SystemExit(f"{name}: script {place}: {wrong[0]}: {script.content[:80].hex()}")
    return text_of(lines)


def entry(function):
    """The files of some scripts and what the list says of them."""
    name, scripts = function.__name__, function()
    contents = [script.content for script in scripts]
    texts = [printed(name, place, script) for place, script in enumerate(scripts, 1)]
    return Entry(name, f"{len(scripts)} scripts", function.__doc__, {
        ".scripts": b"".join(len(content).to_bytes(4, "big") + content for content in contents),
        ".lines": "".join(f"{len(text)}\n{text}" for text in texts).encode()})


def made():
    """The files by their paths."""
    return files_of(HERE, HEAD, [(title, [entry(function) for function in functions]) for title, functions in PARTS])


def main(arguments):
    return keep_folder(HERE, made(), arguments)


if __name__ == "__main__":
    sys.exit(main(sys.argv[1:]))
