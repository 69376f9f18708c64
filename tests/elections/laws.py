"""Laws of document 01 that the line of every election keeps. They are checked on the record alone, with no station run.

During the deliveries of an election nobody advertises (only priority 0 or a timer makes a Master do so), so who has
sent something, and what, is settled before the first.
"""

from elections.ballots import CONFIGURED, STEPPED

OWNER = 255


def state_before(one):
    """Startup makes an owner Master and others Backup; 2,000 ticks are more than any master down interval of A 1."""
    if one.come == CONFIGURED:
        return "I"
    return "M" if one.come == STEPPED or one.priority == OWNER else "B"


def rank(one):
    """Priority, then the address as a number, first byte greatest."""
    return one.priority, int.from_bytes(one.primary, "big")


def was_beaten(election, receiver):
    """Whether this station, no owner, was handed the advertisement of a Master that beats it."""
    ours = election.electors[receiver]
    heard = [election.electors[sender] for sender, to in election.deliveries if to == receiver]
    return ours.priority != OWNER and any(state_before(one) == "M" and rank(one) > rank(ours) for one in heard)


def due_line(election):
    """A Master that was beaten is Backup afterwards, and nothing else changes."""
    before = "".join(map(state_before, election.electors))
    after = "".join("B" if letter == "M" and was_beaten(election, place) else letter
                    for place, letter in enumerate(before))
    return f"{before} {after} {after.index('M') if after.count('M') == 1 else '-'}"


def masters(election):
    return [place for place, one in enumerate(election.electors) if state_before(one) == "M"]


def meets_premises(election):
    """Whether each Master's advertisement reached every other, addresses differ and at most one station is an owner."""
    electors = election.electors
    reached = {(sender, to) for sender in masters(election) for to in range(len(electors)) if to != sender}
    return (bool(masters(election)) and reached <= set(election.deliveries)
            and len({one.primary for one in electors}) == len(electors)
            and sum(one.priority == OWNER for one in electors) <= 1)


def greatest_master(election):
    """Of those that were Masters the one of greatest priority and, among equals, of greatest address."""
    return max(masters(election), key=lambda place: rank(election.electors[place]))


def complaints(election, line):
    """The laws that the line breaks."""
    if line != due_line(election):
        yield f"due {due_line(election)}: {line}"
    if meets_premises(election) and line.split(" ")[2] != str(greatest_master(election)):
        yield f"one Master remains, and it is {greatest_master(election)}: {line}"
