#!/usr/bin/env python3
"""rehearsal.py PROGRAM [--words] [SCRIPT]: runs the proved program `rehearse` on a script, for people.

SCRIPT, or standard input, is raw bytes or text: text where its first byte is white space or a printable character of
ASCII, else raw. No such byte is a kind of record, so raw bytes that are taken for text would be refused by 23. In text
`#` starts a comment that ends with the line, white space and `/` separate, and the rest is bytes in hex.

Exit status: 0 rehearsed to the end, 1 refused, 2 no script could be read or the program failed.
"""

import argparse
import signal
import subprocess
import sys
from pathlib import Path

TEXT_BEGINS = b"\t\n\r" + bytes(range(0x20, 0x7F))
SEGMENT, STATION, STARTUP, SHUTDOWN, CLOCK, DELIVER = range(1, 7)
NAMES = {SEGMENT: "segment", STATION: "station", STARTUP: "startup", SHUTDOWN: "shutdown", CLOCK: "clock",
         DELIVER: "deliver"}
LENGTHS = {SEGMENT: 7, STATION: 7, STARTUP: 2, SHUTDOWN: 2, CLOCK: 3, DELIVER: 3}
REASONS = {
    14: "VRID 0",
    15: "priority 0",
    16: "interval 0",
    23: "unknown kind",
    24: "body cut off",
    25: "the first record is not a segment, or this is a second segment",
    26: "unused station number",
    27: "a seventeenth station",
    28: "from equals to, or from has sent nothing",
    29: "preempt above 1",
    30: "the script is longer than 65,536 bytes",
}


class Failed(Exception):
    """No script could be read, or the program failed."""


# Reading the script.


def read_text(content):
    """The bytes of a script in text, and the line on which each stands."""
    script, lines = bytearray(), []
    for number, line in enumerate(content.split(b"\n"), 1):
        for word in line.partition(b"#")[0].replace(b"/", b" ").split():
            try:
                part = bytes.fromhex(word.decode())
            except ValueError:
                raise Failed(f"line {number}: {word.decode(errors='replace')} is not bytes in hex") from None
            script += part
            lines += [number] * len(part)
    return bytes(script), lines


def read_script(content):
    """The bytes of a script and, where it is text, the line on which each stands, else None."""
    return read_text(content) if content[:1] in TEXT_BEGINS else (content, None)


def records_of(script):
    """Each record, the last perhaps cut off, and the offset of its first byte; right up to an unknown kind."""
    records, at = [], 0
    while at < len(script):
        length = LENGTHS.get(script[at], 1)
        records.append((script[at:at + length], at))
        at += length
    return records


# Events and refusals in words.


def in_words(record):
    """What the record says; its name alone where it is cut off."""
    kind, body = record[0], record[1:]
    if kind not in NAMES:
        return f"kind {kind}"
    if len(record) == LENGTHS[kind]:
        if kind in (STARTUP, SHUTDOWN):
            return f"{NAMES[kind]} station {body[0]}"
        if kind == CLOCK:
            ticks = int.from_bytes(body, "big")
            return f"clock {ticks} tick{'' if ticks == 1 else 's'}"
        if kind == DELIVER:
            return f"deliver from {body[0]} to {body[1]}"
    return NAMES[kind]


def annotated(lines, records):
    """The program's lines with the event in words, and with a mark where two Masters or more stand at once."""
    parts = [line.partition(" ") for line in lines]
    events = [f"{number} {in_words(records[int(number) - 1][0])}" for number, _, _ in parts]
    width = max(map(len, events), default=0)
    for event, (_, _, letters) in zip(events, parts):
        masters = letters.count("M")
        yield f"{event:{width}}  {letters}" + (f"  {masters} Masters at once" if masters > 1 else "")


def refusal_in_words(line, records, lines):
    """What the line of a refusal says, and where the record stands."""
    number, _, refusal = line.split(" ")
    reason = f"refused {refusal}: {REASONS[int(refusal)]}"
    if number == "0":
        return reason
    record, at = records[int(number) - 1]
    where = f"byte {at}, line {lines[at]}" if lines else f"byte {at}"
    return f"record {number} at {where}, {in_words(record)}: {reason}"


# The command.


def printed_by(command, script):
    """The lines that the program prints for the script."""
    ended = subprocess.run(command, input=script, stdout=subprocess.PIPE, check=False)
    if ended.returncode != 0:
        raise Failed(f"the program ended with status {ended.returncode}")
    return ended.stdout.decode().splitlines()


def rehearse(command, content, words):
    """Print what there is to print for a script; answers the exit status."""
    script, text_lines = read_script(content)
    records, lines = records_of(script), printed_by(command, script)
    refusal = lines.pop() if lines and " refused " in lines[-1] else None
    # Only now, as the program may end before it has read all: who reads us may stop at any line.
    signal.signal(signal.SIGPIPE, signal.SIG_DFL)
    for line in annotated(lines, records) if words else lines:
        print(line)
    if not refusal:
        return 0
    print(refusal, flush=True)
    print(f"rehearse: {refusal_in_words(refusal, records, text_lines)}", file=sys.stderr)
    return 1


def main(program, *arguments):
    parser = argparse.ArgumentParser(prog="rehearse", description="Rehearses a segment of VRRP stations.")
    parser.add_argument("--words", action="store_true", help="say the events in words, and mark two Masters at once")
    parser.add_argument("script", nargs="?", metavar="SCRIPT",
                        help="a file of raw bytes, or of hex with # comments; without it standard input is read")
    options = parser.parse_args(arguments)
    try:
        content = Path(options.script).read_bytes() if options.script else sys.stdin.buffer.read()
        return rehearse([program], content, options.words)
    except Failed as trouble:
        print(f"rehearse: {trouble}", file=sys.stderr)
        return 2
    except OSError as trouble:
        print(f"rehearse: {trouble.filename}: {trouble.strerror}", file=sys.stderr)
        return 2


if __name__ == "__main__":
    sys.exit(main(*sys.argv[1:]))
