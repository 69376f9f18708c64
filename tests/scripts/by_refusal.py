"""Scripts that are refused, and their neighbours that are not, with the lines that are due typed beside them."""

from scripts.kinds import (NINE, PAIR, SEGMENT, TAKEOVER, TEN, WHOLE, Script, clock, deliver, script, segment, shutdown,
                           startup, station)

SIXTEEN = b"".join(station(f"192.168.1.{last}") for last in range(1, 17))


def refusal_23():
    """23, an unknown kind: every byte but 1 to 6, as the first record, as a later one, and as the last byte."""
    first = [script("1 refused 23", bytes([kind])) for kind in (0, *range(7, 256))]
    return first + [
        script("1 refused 23", b"\x00", PAIR), script("1 refused 23", b"\x07", PAIR),
        script("2 refused 23", SEGMENT, b"\x00", NINE), script("2 refused 23", SEGMENT, b"\xff"),
        script("4 BI, 5 refused 23", PAIR, startup(0), b"\x07", startup(1)),
        script("4 BI, 5 BB, 6 refused 23", PAIR, startup(0), startup(1), b"\x81\x01\x01"),
        # The program takes bytes, no text.
        script("1 refused 23", b"01 01 01 C0A801FE"),
    ]


def refusal_24():
    """24, a body cut off: every kind at every length, as the first record and as a later one."""
    return [Script(before + whole[:length], [f"{count + 1} refused 24"])
            for whole, count, before in WHOLE for length in range(1, len(whole))]


def refusal_24_late():
    """24 after lines: what was printed stays, and a whole body is enough."""
    playing = PAIR + startup(0) + startup(1) + TAKEOVER
    lines = "4 BI, 5 BB, 6 MM"
    return [
        script(f"{lines}, 7 MM", playing, deliver(0, 1)), script(f"{lines}, 7 refused 24", playing, deliver(0, 1)[:2]),
        script(f"{lines}, 7 MM", playing, clock(0)), script(f"{lines}, 7 refused 24", playing, clock(0)[:2]),
        script(f"{lines}, 7 IM", playing, shutdown(0)), script(f"{lines}, 7 refused 24", playing, shutdown(0)[:1]),
        script(f"{lines}, 7 MM", playing, startup(0)), script(f"{lines}, 7 refused 24", playing, startup(0)[:1]),
        script(lines, playing, NINE), script(f"{lines}, 7 refused 24", playing, NINE[:6]),
        script(f"{lines}, 7 refused 25", playing, SEGMENT), script(f"{lines}, 7 refused 24", playing, SEGMENT[:6]),
    ]


def refusal_25():
    """25, the first record not a segment, or a second segment."""
    return [
        script("", SEGMENT),
        script("1 refused 25", NINE), script("1 refused 25", startup(0)), script("1 refused 25", shutdown(0)),
        script("1 refused 25", clock(0)), script("1 refused 25", deliver(0, 1)),
        script("1 refused 25", NINE, SEGMENT), script("1 refused 25", clock(1), SEGMENT),
        script("2 refused 25", SEGMENT, SEGMENT), script("2 refused 25", SEGMENT, segment(2, 2, "10.0.0.1")),
        script("4 refused 25", PAIR, SEGMENT),
        script("4 BI, 5 refused 25", PAIR, startup(0), SEGMENT, startup(1)),
    ]


def refusals_14_16():
    """14 and 16, VRID 0 and interval 0 of a segment; 1 and 255 are good."""
    return [
        script("1 refused 14", segment(vrid=0)), script("", segment(vrid=1)), script("", segment(vrid=255)),
        script("1 refused 16", segment(interval=0)), script("", segment(interval=1)), script("", segment(interval=255)),
        script("1 refused 14", segment(0, 0)), script("1 refused 14", segment(0, 255)),
        script("1 refused 16", segment(255, 0)), script("1 refused 14", segment(0), NINE, startup(0)),
        script("1 refused 16", segment(1, 0), NINE, startup(0)),
        script("", segment(1, 1, "0.0.0.0")), script("", segment(1, 1, "255.255.255.255")),
        script("3 B", segment(255, 255), NINE, startup(0)),
    ]


def refusals_15_29():
    """15 and 29, priority 0 and preempt above 1 of a station."""
    primary = "192.168.1.9"
    return [
        script("2 refused 15", SEGMENT, station(primary, 0)), script("", SEGMENT, station(primary, 1)),
        script("3 M", SEGMENT, station(primary, 255), startup(0)),
        script("3 B", SEGMENT, station(primary, 254), startup(0)),
        script("", SEGMENT, station(primary, preempt=0)), script("", SEGMENT, station(primary, preempt=1)),
        script("2 refused 29", SEGMENT, station(primary, preempt=2)),
        script("2 refused 29", SEGMENT, station(primary, preempt=128)),
        script("2 refused 29", SEGMENT, station(primary, preempt=255)),
        script("2 refused 29", SEGMENT, station(primary, 255, 2)),
        script("2 refused 15", SEGMENT, station(primary, 0, 2)),
        script("2 refused 15", SEGMENT, station(primary, 0, 0)),
        script("3 refused 15", SEGMENT, NINE, station(primary, 0), startup(0)),
        script("3 B, 4 refused 29", SEGMENT, NINE, startup(0), station(primary, 1, 3), startup(0)),
        script("", SEGMENT, station("0.0.0.0")), script("", SEGMENT, station("255.255.255.255", 255)),
        # A primary address twice, or the virtual one, is good.
        script("4 BI", SEGMENT, NINE, NINE, startup(0)), script("3 B", SEGMENT, station("192.168.1.254"), startup(0)),
    ]


def refusal_26():
    """26, an unused station number: of a startup, of a shutdown and on either side of a delivery."""
    master = PAIR + startup(0) + TAKEOVER
    lines = "4 BI, 5 MI"
    return [
        *[script("2 refused 26", SEGMENT, event) for event in (startup(0), shutdown(0), deliver(0, 0), deliver(0, 1))],
        *[script("4 refused 26", PAIR, event(number)) for event in (startup, shutdown) for number in (2, 3, 16, 255)],
        script("4 IB", PAIR, startup(1)), script("4 II", PAIR, shutdown(1)),
        *[script(f"{lines}, 6 refused 26", master, deliver(*pair)) for pair in ((0, 2), (2, 0), (0, 255), (255, 0))],
        script(f"{lines}, 6 MI", master, deliver(0, 1)),
        script(f"18 {'I' * 16}", SEGMENT, SIXTEEN, shutdown(15)),
        script("18 refused 26", SEGMENT, SIXTEEN, shutdown(16)), script("18 refused 26", SEGMENT, SIXTEEN, startup(16)),
        # A number is used from its station's record on.
        script("3 refused 26", SEGMENT, NINE, startup(1), TEN), script("4 IB", SEGMENT, NINE, TEN, startup(1)),
    ]


def refusal_27():
    """27, a seventeenth station; sixteen are good."""
    return [
        script(f"18 {'I' * 15}B", SEGMENT, SIXTEEN, startup(15)),
        script("18 refused 27", SEGMENT, SIXTEEN, NINE), script("18 refused 27", SEGMENT, SIXTEEN, NINE, startup(15)),
        script(f"18 B{'I' * 15}, 19 refused 27", SEGMENT, SIXTEEN, startup(0), NINE),
        script(f"17 {'I' * 15}, 19 {'I' * 16}", SEGMENT, SIXTEEN[:105], clock(9), SIXTEEN[105:], clock(9)),
        script(f"17 {'I' * 15}, 19 refused 27", SEGMENT, SIXTEEN[:105], clock(9), SIXTEEN[105:], NINE),
    ]


def refusal_28():
    """28, from equals to, or from has sent nothing; what it once sent can be delivered in every state."""
    up = PAIR + startup(0) + startup(1)
    master = PAIR + startup(0) + TAKEOVER
    return [
        script("4 refused 28", PAIR, deliver(0, 0)), script("4 refused 28", PAIR, deliver(1, 1)),
        script("4 refused 28", PAIR, deliver(0, 1)), script("4 refused 28", PAIR, deliver(1, 0)),
        script("4 BI, 5 BB, 6 refused 28", up, deliver(0, 1)),
        script("4 BI, 5 BB, 6 BB, 7 refused 28", up, clock(923), deliver(0, 1)),
        script("4 BI, 5 BB, 6 BB, 7 MM, 8 MM", up, clock(923), clock(1), deliver(0, 1)),
        script("4 BI, 5 MI, 6 refused 28", master, deliver(0, 0)),
        script("4 BI, 5 MI, 6 refused 28", master, deliver(1, 0)), script("4 BI, 5 MI, 6 MI", master, deliver(0, 1)),
        script("4 BI, 5 MI, 6 II, 7 II", master, shutdown(0), deliver(0, 1)),
        script("4 BI, 5 MI, 6 II, 7 BI, 8 BI", master, shutdown(0), startup(0), deliver(0, 1)),
        script("4 BI, 5 MI, 6 II, 7 refused 28", master, shutdown(0), deliver(0, 0)),
        # A Backup that shuts down sends no farewell.
        script("4 BI, 5 II, 6 refused 28", PAIR, startup(0), shutdown(0), deliver(0, 1)),
        script("3 M, 5 MI, 6 refused 28", SEGMENT, station("192.168.1.9", 255), startup(0), TEN, deliver(0, 1),
               deliver(1, 0)),
    ]


def order():
    """Two refusals at once: the one that comes first in document 01's order is told."""
    seventeenth = SEGMENT + SIXTEEN
    return [
        # 23 before 25; 24 before 25, 14, 16, 27, 15, 29, 26 and 28.
        script("1 refused 23", b"\x00"), script("1 refused 23", b"\x08\x00\x01\x01"),
        script("1 refused 24", NINE[:6]), script("1 refused 24", deliver(0, 0)[:2]), script("1 refused 24", b"\x03"),
        script("2 refused 24", SEGMENT, SEGMENT[:6]), script("1 refused 24", segment(vrid=0)[:6]),
        script("1 refused 24", segment(interval=0)[:6]), script("18 refused 24", seventeenth, NINE[:6]),
        script("2 refused 24", SEGMENT, station("192.168.1.9", 0)[:6]),
        script("2 refused 24", SEGMENT, station("192.168.1.9", 1, 2)[:6]), script("2 refused 24", SEGMENT, b"\x03"),
        script("2 refused 24", SEGMENT, b"\x06\x00"), script("4 refused 24", PAIR, b"\x06\x00"),
        # 25 before 14, 16, 15, 29, 26 and 28.
        script("2 refused 25", SEGMENT, segment(vrid=0)), script("2 refused 25", SEGMENT, segment(interval=0)),
        script("2 refused 25", SEGMENT, segment(0, 0)), script("1 refused 25", station("192.168.1.9", 0)),
        script("1 refused 25", station("192.168.1.9", 1, 2)), script("1 refused 25", startup(255)),
        script("1 refused 25", deliver(0, 0)), script("1 refused 25", deliver(3, 4)),
        script("18 refused 25", seventeenth, segment(vrid=0)),
        # 14 before 16.
        script("1 refused 14", segment(0, 0)),
        # 27 before 15 and 29; 15 before 29.
        script("18 refused 27", seventeenth, station("192.168.1.9", 0)),
        script("18 refused 27", seventeenth, station("192.168.1.9", 1, 2)),
        script("18 refused 27", seventeenth, station("192.168.1.9", 0, 2)),
        script("2 refused 15", SEGMENT, station("192.168.1.9", 0, 255)),
        # 26 before 28: of from, of to and of both.
        script("4 refused 26", PAIR, deliver(2, 2)), script("4 refused 26", PAIR, deliver(0, 2)),
        script("4 refused 26", PAIR, deliver(2, 0)), script("4 refused 26", PAIR, deliver(255, 255)),
    ]


def twice():
    """The first record that is refused ends the script, whatever is wrong with those that follow."""
    wrong = (
        (b"\x07", 23), (SEGMENT, 25), (station("192.168.1.9", 0), 15), (station("192.168.1.9", 1, 2), 29),
        (startup(9), 26), (deliver(0, 0), 28),
    )
    return [script(f"4 refused {number}", PAIR, first, second, PAIR) for first, number in wrong for second, _ in wrong]


SCRIPTS = [refusal_23, refusal_24, refusal_24_late, refusal_25, refusals_14_16, refusals_15_29, refusal_26, refusal_27,
           refusal_28, order, twice]
