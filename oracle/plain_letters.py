"""What sites write to each other, and how far each took the operations of each, found anew from the letters that a site took since it began."""
from dataclasses import dataclass

MOST_CARRIED = 100


@dataclass(frozen=True)
class Range:
    """Operations that the sender made itself in its epoch, from a place in its log on."""
    sender: int
    epoch: int
    first: int
    operations: tuple


@dataclass(frozen=True)
class Whole:
    """All operations that the sender had taken, and how many it had made itself in its epoch."""
    sender: int
    epoch: int
    operations: tuple
    made: int


@dataclass(frozen=True)
class Acknowledged:
    """Of a maker, in an epoch of the maker's, the sender took so many operations."""
    sender: int
    epoch: int
    maker: int
    maker_epoch: int
    count: int
    operations: tuple = ()


def taken_of(letters, maker):
    """The latest epoch of a maker of which any of these letters brought something, and how many operations of it came without a gap."""
    brought = [one for one in letters if one.sender == maker and not isinstance(one, Acknowledged)]
    epoch = max((one.epoch for one in brought), default=0)
    count = 0
    for one in brought:
        if one.epoch != epoch:
            continue
        if isinstance(one, Whole):
            count = max(count, one.made)
        elif one.first <= count:
            count = max(count, one.first + len(one.operations))
    return epoch, count


def said_by(letters, peer, maker, epoch):
    """How many operations of a maker in an epoch a peer took, as it said last in the latest of its own epochs, and behind
    that epoch; None where it said nothing."""
    said = [(one.epoch, one.count) for one in letters if isinstance(one, Acknowledged) and one.sender == peer
            and (one.maker, one.maker_epoch) == (maker, epoch)]
    return max(said, default=None)


def written(site, peer):
    """The letter of a site for a peer: the operations that the peer did not say that it took, or all."""
    known = said_by(site.letters, peer, site.number, site.epoch)
    if known and known[1]:
        first = known[1]
        return Range(site.number, site.epoch, first, tuple(site.log[first:first + MOST_CARRIED]))
    return Whole(site.number, site.epoch, tuple(site.operations), len(site.log))


def acknowledged(site, maker):
    """What a site says that it took of a maker."""
    return Acknowledged(site.number, site.epoch, maker, *taken_of(site.letters, maker))
