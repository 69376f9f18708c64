#!/usr/bin/env python3
"""judge_texts.py COMMAND...: holds what the program `judge`, run by COMMAND, prints to what the second program prints.

Each packet of our captures is handed over whole, cut off inside its IP header, and not at all.
"""

import subprocess
import sys
from pathlib import Path

import second

CAPTURES = Path(__file__).resolve().parent / "captures"


def packets():
    """The packets of every capture, each in three lengths."""
    for capture in sorted(CAPTURES.glob("*.pcap")):
        for frame in second.frames_of(capture.read_bytes()):
            packet = second.packet_of(frame)
            if packet is not None:
                yield from (packet, packet[:19], b"")


def main(command):
    told = 0
    for packet in packets():
        printed = subprocess.run(command, input=packet, capture_output=True, check=True).stdout.decode()
        due = "".join(line + "\n" for line in second.verdict_text(packet))
        if printed != due:
            sys.exit(f"judge_texts: for {packet.hex()}\n{printed}is printed, and due is\n{due}")
        told += 1
    if told == 0:
        sys.exit("judge_texts: there is no packet")
    print(f"judge_texts: {told} packets told alike")


main(sys.argv[1:])
