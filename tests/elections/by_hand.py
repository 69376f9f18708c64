"""Elections made by hand from document 01, with the line that is due typed beside each."""

from elections.ballots import CONFIGURED, STARTED, STEPPED, Election, among, elector, pairs

BOTH = ((0, 1), (1, 0))


def two(first, second, due, deliveries=BOTH):
    return Election([first, second], list(deliveries), due)


def rule_book():
    """Document 01's election of .9 and .10, in both orders of its deliveries and with one of them missing."""
    nine, ten = elector("192.168.1.9"), elector("192.168.1.10")
    return [
        two(nine, ten, "MM BM 1"),
        two(nine, ten, "MM BM 1", ((1, 0), (0, 1))),
        two(nine, ten, "MM MM -", ((0, 1),)),
        two(nine, ten, "MM BM 1", ((1, 0),)),
        two(nine, ten, "MM MM -", ()),
        two(ten, nine, "MM MB 0"),
        # The latest advertisement of one that was beaten can still be handed over, and changes nothing.
        two(nine, ten, "MM BM 1", ((1, 0), (0, 1), (0, 1), (1, 0))),
    ]


def tied(lower, higher):
    """Two of equal priority: the higher address stays, wherever it stands and whoever hears first."""
    low, high = elector(lower), elector(higher)
    return [two(low, high, "MM BM 1"), two(high, low, "MM MB 0"),
            two(low, high, "MM BM 1", BOTH[::-1]), two(high, low, "MM MB 0", BOTH[::-1])]


def ties():
    """Equal priority: addresses compare as 32-bit numbers, first byte greatest, not as text and not signed."""
    return [
        *tied("192.168.1.9", "192.168.1.10"), *tied("100.0.0.1", "200.0.0.1"), *tied("192.168.1.99", "192.168.1.100"),
        *tied("127.255.255.255", "128.0.0.0"), *tied("9.255.255.255", "10.0.0.0"), *tied("0.0.0.0", "0.0.0.1"),
        *tied("192.168.1.200", "192.168.2.1"), *tied("192.167.255.255", "192.168.0.0"),
        *tied("10.1.168.192", "192.168.1.10"), *tied("255.255.255.254", "255.255.255.255"),
        *tied("0.0.0.0", "255.255.255.255"), *tied("127.255.255.255", "255.0.0.0"),
    ]


def priorities():
    """A higher priority wins whatever the addresses are."""
    found = []
    for lower, higher in ((1, 2), (99, 100), (100, 101), (127, 128), (1, 254), (253, 254)):
        for low, high in (("192.168.1.9", "192.168.1.10"), ("200.0.0.1", "100.0.0.1"), ("128.0.0.0", "127.0.0.0")):
            found += [two(elector(low, lower), elector(high, higher), "MM BM 1"),
                      two(elector(high, higher), elector(low, lower), "MM MB 0")]
    return found


def owners():
    """An owner refuses every packet and stays; two owners both stay."""
    owner, other_owner = elector("192.168.1.9", 255), elector("192.168.1.10", 255)
    waiting, almost = elector("192.168.1.9", 255, come=CONFIGURED), elector("192.168.1.11", 254)
    return [
        two(owner, almost, "MM MB 0"), two(almost, owner, "MM BM 1"),
        two(owner, almost, "MM MM -", ((1, 0), (1, 0))),
        two(elector("192.168.1.9", 255, come=STARTED), almost, "MM MB 0"),
        two(waiting, almost, "IM IM 1"),
        two(owner, other_owner, "MM MM -"), two(other_owner, owner, "MM MM -"),
        two(owner, elector("192.168.1.9", 255), "MM MM -"),
        Election([owner, other_owner, almost], among(3), "MMM MMB -"),
        Election([almost, waiting, other_owner], among(3), "MIM BIM 2"),
        Election([owner, elector("192.168.1.12", 255, come=STARTED), other_owner], among(3), "MMM MMM -"),
        two(elector("192.168.1.9", 255, preempt=0), elector("192.168.1.10", 254, preempt=0), "MM MB 0"),
    ]


def states():
    """A lower and a higher priority in every state: only a Master can be beaten, and only by one that was Master."""
    due = {
        (CONFIGURED, CONFIGURED): "II II -", (CONFIGURED, STARTED): "IB IB -", (CONFIGURED, STEPPED): "IM IM 1",
        (STARTED, CONFIGURED): "BI BI -", (STARTED, STARTED): "BB BB -", (STARTED, STEPPED): "BM BM 1",
        (STEPPED, CONFIGURED): "MI MI 0", (STEPPED, STARTED): "MB MB 0", (STEPPED, STEPPED): "MM BM 1",
    }
    return [two(elector("192.168.1.9", 100, preempt, low), elector("192.168.1.10", 200, preempt, high), line)
            for preempt in (0, 1) for (low, high), line in due.items()]


def preempts():
    """Preempt is the Backup's affair: it decides nothing between Masters, however it is mixed."""
    return [two(elector("192.168.1.9", nine, one), elector("192.168.1.10", ten, other), due)
            for nine, ten, due in ((100, 100, "MM BM 1"), (101, 100, "MM MB 0"), (100, 101, "MM BM 1"))
            for one in (0, 1) for other in (0, 1)]


def equal_addresses():
    """Equal priority and equal address do not beat us, so that both stay; a third may beat both."""
    ten, eleven, low = elector("192.168.1.10"), elector("192.168.1.11"), elector("192.168.1.9")
    return [
        two(ten, ten, "MM MM -"), two(ten, ten, "MM MM -", BOTH * 3),
        two(ten, elector("192.168.1.10", 101), "MM BM 1"),
        Election([ten, eleven, ten], among(3), "MMM BMB 1"), Election([ten, low, ten], among(3), "MMM MBM -"),
        Election([ten] * 16, among(16), f"{'M' * 16} {'M' * 16} -"),
    ]


def missing():
    """Deliveries that are missing: who is not told stays, and whoever was told by anyone higher does not."""
    three = [elector("192.168.1.9"), elector("192.168.1.10"), elector("192.168.1.11")]
    return [
        Election(three, [], "MMM MMM -"),
        Election(three, pairs([2], 3), "MMM BBM 2"),
        Election(three, pairs([0], 3), "MMM MMM -"),
        Election(three, [(1, 0), (2, 1)], "MMM BBM 2"),
        Election(three, [(2, 1), (1, 0)], "MMM BBM 2"),
        Election(three, [(1, 0)], "MMM BMM -"),
        Election(three, [(2, 0), (0, 1), (0, 2), (1, 2)], "MMM BMM -"),
        Election(three, pairs([0, 1], 3), "MMM BMM -"),
        Election(three, [(0, 0), (1, 1), (2, 2)], "MMM MMM -"),
    ]


def sizes():
    """1 to 16 Masters, with the greatest first, last and in the middle, by address and by priority."""
    found = []
    for count in range(1, 17):
        for best in sorted({0, count // 2, count - 1}):
            due = f"{'M' * count} {'B' * best}M{'B' * (count - 1 - best)} {best}"
            by_address = [elector(f"10.0.0.{200 if place == best else place}") for place in range(count)]
            by_priority = [elector(f"10.0.0.{place}", 101 if place == best else 100) for place in range(count)]
            found += [Election(by_address, among(count), due), Election(by_priority, among(count)[::-1], due)]
    return found


def most_deliveries():
    """65,535 deliveries among 16: the last of all is the one that leaves a single Master."""
    electors = [elector(f"10.0.0.{place}") for place in range(16)]
    told = [(15, place) for place in range(1, 15)]
    again = [told[place % 14] for place in range(65534)]
    return [Election(electors, again + [(15, 0)], f"{'M' * 16} {'B' * 15}M 15")]


def one_election():
    """A single election, which `../electing` also cuts off at every length."""
    return rule_book()[:1]


def no_elections():
    """No records, no lines."""
    return []


ELECTIONS = [rule_book, ties, priorities, owners, states, preempts, equal_addresses, missing, sizes, most_deliveries,
             one_election]


# Records that are bad. Each stands between good elections: what is before it has its line, what follows has none.


NINE, TEN = elector("192.168.1.9"), elector("192.168.1.10")


def bad_no_station():
    """No station."""
    return Election([], [], "bad record")


def bad_seventeen():
    """Seventeen stations."""
    return Election([elector(f"10.0.0.{place}") for place in range(17)], [], "bad record")


def bad_priority():
    """A priority of 0."""
    return two(NINE, elector("192.168.1.10", 0), "bad record")


def bad_preempt():
    """A preempt of 2."""
    return two(elector("192.168.1.9", preempt=2), TEN, "bad record")


def bad_come():
    """A station come to 3."""
    return two(NINE, elector("192.168.1.10", come=3), "bad record")


def bad_from():
    """A delivery from station 2 of two."""
    return two(NINE, TEN, "bad record", ((0, 1), (2, 0)))


def bad_to():
    """A delivery to station 2 of two."""
    return two(NINE, TEN, "bad record", ((0, 2), (0, 1)))


def bad_both():
    """A delivery from and to station 255 of two."""
    return two(NINE, TEN, "bad record", ((255, 255),))


BAD = [bad_no_station, bad_seventeen, bad_priority, bad_preempt, bad_come, bad_from, bad_to, bad_both]
