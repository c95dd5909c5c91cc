"""Streams of requests, made from a seed: the same seed gives the same bytes on every machine."""
import dataclasses
import itertools
import random
from typing import Callable

# How many members a range by place asks for.
RANGE = 10


def request(*words):
    """One request: an array of bulk strings."""
    parts = [b"*%d\r\n" % len(words)]
    for word in words:
        parts.append(b"$%d\r\n%s\r\n" % (len(word), word))
    return b"".join(parts)


def unknown(draw, members):
    """A command that is not there: all that it costs is reading and refusing."""
    return request(b"NOPE", b"board", b"%d" % draw.randrange(members))


def adds(draw, members):
    """A score for a member, new or seen before."""
    return request(b"ZADD", b"board", b"%d" % draw.randrange(1000000), b"m%d" % draw.randrange(members))


def scores(draw, members):
    """Nine look-ups of a score to one ZADD."""
    if draw.randrange(10) == 0:
        return adds(draw, members)
    return request(b"ZSCORE", b"board", b"m%d" % draw.randrange(members))


def mixed(draw, members):
    """ZADD, ZSCORE, ZREM and ZCARD, and now and then a request that is refused."""
    member = b"m%d" % draw.randrange(members)
    kind = draw.randrange(20)
    if kind < 8:
        return adds(draw, members)
    if kind < 14:
        return request(b"ZSCORE", b"board", member)
    if kind < 17:
        return request(b"ZREM", b"board", member)
    if kind < 19:
        return request(b"ZCARD", b"board")
    return request(b"ZADD", b"board", b"1.5", member)


def looks(draw, members):
    """The score of a member."""
    return request(b"ZSCORE", b"board", b"m%d" % draw.randrange(members))


def increments(draw, members):
    """An increment of a member's score, up or down."""
    return request(b"ZINCRBY", b"board", b"%d" % draw.randrange(-1000, 1001), b"m%d" % draw.randrange(members))


def pops(draw, members):
    """The first member, which goes."""
    return request(b"ZPOPMIN", b"board")


def firsts(draw, members):
    """The first ten members."""
    return request(b"ZRANGE", b"board", b"0", b"%d" % (RANGE - 1))


def lasts(draw, members):
    """The last ten members with their scores, the last one first."""
    return request(b"ZRANGE", b"board", b"0", b"%d" % (RANGE - 1), b"REV", b"WITHSCORES")


def depths(draw, members):
    """Ten members one behind the other, from a drawn place on: as a rule deep in the key."""
    place = draw.randrange(max(1, members - RANGE + 1))
    return request(b"ZRANGE", b"board", b"%d" % place, b"%d" % (place + RANGE - 1))


def ranks(draw, members):
    """The place of a member."""
    return request(b"ZRANK", b"board", b"m%d" % draw.randrange(members))


def counts(draw, members):
    """How many members have a score between two."""
    low, high = sorted(draw.randrange(1000000) for _ in range(2))
    return request(b"ZCOUNT", b"board", b"%d" % low, b"%d" % high)


def each(make):
    """Requests without end, each made by itself."""
    def made(draw, members):
        while True:
            yield make(draw, members)
    return made


def turns(draw, members):
    """A new member and a pop of the first one, in turn: the number of members stays."""
    for number in itertools.count(members):
        yield request(b"ZADD", b"board", b"%d" % draw.randrange(1000000), b"m%d" % number)
        yield pops(draw, members)


def load(draw, members):
    """A score for each member, in no order."""
    order = list(range(members))
    draw.shuffle(order)
    return b"".join(request(b"ZADD", b"board", b"%d" % draw.randrange(1000000), b"m%d" % member) for member in order)


@dataclasses.dataclass(frozen=True)
class Kind:
    """What the requests are, whether each member is there before them, whether one reading in order is too, and how many
    requests there are: as many as are asked for, as many as members, or one.

    Of a key with many members the first reading in order makes an index. Where it goes before, it is not timed with the
    others: what it takes is the time of `making`."""
    made: Callable
    is_loaded: bool = False
    is_indexed: bool = False
    is_emptying: bool = False
    is_single: bool = False


KINDS = {
    "unknown": Kind(each(unknown)),
    "adds": Kind(each(adds)),
    "scores": Kind(each(scores)),
    "mixed": Kind(each(mixed)),
    "updates": Kind(each(adds), is_loaded=True),
    "looks": Kind(each(looks), is_loaded=True),
    "increments": Kind(each(increments), is_loaded=True),
    "turns": Kind(turns, is_loaded=True),
    "pops": Kind(each(pops), is_loaded=True, is_emptying=True),
    "making": Kind(each(ranks), is_loaded=True, is_single=True),
    "firsts": Kind(each(firsts), is_loaded=True, is_indexed=True),
    "lasts": Kind(each(lasts), is_loaded=True, is_indexed=True),
    "depths": Kind(each(depths), is_loaded=True, is_indexed=True),
    "ranks": Kind(each(ranks), is_loaded=True, is_indexed=True),
    "counts": Kind(each(counts), is_loaded=True, is_indexed=True),
    "changes": Kind(each(adds), is_loaded=True, is_indexed=True),
}


def length(kind, requests, members):
    """How many requests a stream of a kind has over that many members, where that many are asked for."""
    if KINDS[kind].is_single:
        return 1
    return members if KINDS[kind].is_emptying else requests


def stream(kind, seed, requests, members):
    """What goes before the requests of a kind over that many members, and the requests."""
    draw = random.Random(seed)
    first = load(draw, members) if KINDS[kind].is_loaded else b""
    if KINDS[kind].is_indexed:
        first += ranks(draw, members)
    made = KINDS[kind].made(draw, members)
    return first, b"".join(itertools.islice(made, length(kind, requests, members)))
