"""Packets with something changed, and the keeping of made files: what the makers of cases and captures share."""

import sys

# Where each field of the IPv4 header and of the message stands: its first byte and its width.
HEADER = {
    "version_length": (0, 1), "service": (1, 1), "total": (2, 2), "identification": (4, 2), "fragment": (6, 2),
    "ttl": (8, 1), "protocol": (9, 1), "checksum": (10, 2), "source": (12, 4), "destination": (16, 4),
}
MESSAGE = {
    "version_type": (0, 1), "vrid": (1, 1), "priority": (2, 1), "count": (3, 1), "authentication": (4, 1),
    "interval": (5, 1), "checksum": (6, 2),
}


def address(text):
    return bytes(int(byte) for byte in text.split("."))


def changed(content, at, new):
    """The bytes with some replaced, and no checksum mended."""
    return content[:at] + new + content[at + len(new):]


def mended(part, at):
    """The part with the checksum that makes it right; this sum is the makers' own, word by word."""
    total = 0
    for place in range(0, len(part), 2):
        if place != at:
            total += int.from_bytes(part[place:place + 2].ljust(2, b"\0"), "big")
    while total > 0xFFFF:
        total = (total >> 16) + (total & 0xFFFF)
    return changed(part, at, (0xFFFF - total).to_bytes(2, "big"))


def with_fields(part, layout, fields):
    for name, value in fields.items():
        at, width = layout[name]
        part = changed(part, at, value.to_bytes(width, "big"))
    return part


def mend_header(packet):
    length = 4 * (packet[0] & 15)
    return mended(packet[:length], 10) + packet[length:]


def mend_message(packet):
    start = 4 * (packet[0] & 15)
    end = start + 16 + 4 * packet[start + 3]
    return packet[:start] + mended(packet[start:end], 6) + packet[end:]


def header(packet, **fields):
    """The packet with these header fields; the header checksum is mended unless it is one of them."""
    packet = with_fields(packet, HEADER, fields)
    return packet if "checksum" in fields else mend_header(packet)


def message(packet, **fields):
    """The packet with these message fields; the message checksum is mended unless it is one of them."""
    start = 4 * (packet[0] & 15)
    packet = packet[:start] + with_fields(packet[start:], MESSAGE, fields)
    return packet if "checksum" in fields else mend_message(packet)


def with_payload(packet, payload):
    """The packet's header before another payload."""
    start = 4 * (packet[0] & 15)
    return header(packet[:start] + payload, total=start + len(payload))


def cut(packet, length):
    """The packet with only that many bytes of its payload, as its total length then says."""
    start = 4 * (packet[0] & 15)
    return with_payload(packet, packet[start:start + length])


def with_options(packet, options):
    """The packet with IP options, a multiple of 4 bytes of them, after the first 20 of the header."""
    packet = packet[:20] + options + packet[20:]
    return header(packet, version_length=0x45 + len(options) // 4, total=len(packet))


def with_list(packet, addresses):
    """The packet with another address list, of 0 to 255 addresses."""
    start = 4 * (packet[0] & 15)
    body = packet[start:start + 8] + addresses + bytes(8)
    return message(with_payload(packet, body), count=len(addresses) // 4)


def keep(files, arguments):
    """Write the made files or, asked to --check, compare them with what is there; answers the exit status."""
    if arguments not in ([], ["--check"]):
        print("arguments: none, or --check", file=sys.stderr)
        return 2
    stale = [path.name for path, content in files.items() if not path.is_file() or path.read_bytes() != content]
    if not arguments:
        for path, content in files.items():
            path.write_bytes(content)
        return 0
    for name in stale:
        print(f"{name} is not what make.py makes", file=sys.stderr)
    return 1 if stale else 0
