#!/usr/bin/env python3
"""run.py COMMAND...: holds what the program `rehearse`, run by COMMAND, prints for every script here to what is due."""

import subprocess
import sys
from pathlib import Path

HERE = Path(__file__).resolve().parent
SHOWN_BYTES = 80


def scripts_of(content):
    """The scripts of a file, each behind its length in 4 bytes."""
    at = 0
    while at < len(content):
        end = at + 4 + int.from_bytes(content[at:at + 4], "big")
        yield content[at + 4:end]
        at = end


def printed_of(content):
    """What is due to be printed, each behind its length on a line of its own."""
    at = 0
    while at < len(content):
        start = content.index(b"\n", at) + 1
        end = start + int(content[at:start])
        yield content[start:end]
        at = end


def difference(printed, due):
    """The first line that differs, ours and the one due."""
    ours, theirs = printed.split(b"\n"), due.split(b"\n")
    place = next((place for place, pair in enumerate(zip(ours, theirs)) if pair[0] != pair[1]),
                 min(len(ours), len(theirs)) - 1)
    return f"line {place + 1} is {ours[place]!r}, due {theirs[place]!r}"


def main(command):
    count = 0
    for path in sorted(HERE.glob("*.scripts")):
        scripts = list(scripts_of(path.read_bytes()))
        dues = list(printed_of(path.with_suffix(".lines").read_bytes()))
        if len(scripts) != len(dues):
            sys.exit(f"rehearsing: {path.name} has {len(scripts)} scripts, and lines for {len(dues)}")
        for place, (script, due) in enumerate(zip(scripts, dues), 1):
            printed = subprocess.run(command, input=script, stdout=subprocess.PIPE, check=True).stdout
            if printed != due:
                sys.exit(f"rehearsing: {path.name}, script {place}: {difference(printed, due)}\n"
                         f"{script[:SHOWN_BYTES].hex()}{'..' if len(script) > SHOWN_BYTES else ''}")
        count += len(scripts)
    if count == 0:
        sys.exit("rehearsing: there is no script")
    print(f"rehearsing: {count} scripts rehearsed alike")


main(sys.argv[1:])
