"""What a site does whose disk is full, for tools/try-data and crash.py: one that is played, or a small file system of mounts.py."""
import re
import time

from apart import Client
from kept import FULL, Writers, ensure, expect
from members import are_alike, holds
from played import ALIKE, DEVICE, ENDING, SEEN, resident, start, stopped

# Requests that write, and requests that do not.
WRITES = ("ZADD q 1 a", "zadd q XX 1 a", "ZINCRBY q 1 a", "ZREM q a", "ZPOPMIN q", "ZPOPMAX q", "ZPOPNEAR q", "DEL q",
          "ZREMRANGEBYSCORE q 0 1", "ZREMRANGEBYRANK q 0 1")
READS = ("PING", "ZCARD q", "ZSCORE q a1", "ZRANGE q 0 1", "ZCOUNT q -inf +inf", "ZRANK q a1")
# A member of so many bytes, and so many of them that they do not fit into the room that is kept ahead.
LONG, MANY = b"x" * 20_000, 1_000
# A log is switched that is longer than this.
SHORT = 64 << 20


def replies(member, requests):
    """What is answered to each of these requests, within seconds."""
    with Client(member.port) as client:
        return [client.ask(*request.encode().split()) for request in requests]


def is_refused(member):
    return replies(member, WRITES[:1])[0] == FULL


def filled(member, place, writers, left=0):
    """The disk is filled while clients write: what writes is refused then, and what reads is not."""
    each = [writers.begin(member) for _ in range(3)]
    place.fill(left)
    if left:
        with Client(member.port) as client:
            churn(client, lambda: False)
    ensure("the disk is found full", holds(lambda: member.has_said(" disk full") and is_refused(member), SEEN))
    for writer in each:
        writers.end(writer)
    refused(member)
    writers.check(member)


def refused(member):
    """All that writes is refused, nothing of it is done, and all that reads is answered."""
    before = member.has()
    for request, reply in zip(WRITES, replies(member, WRITES)):
        expect(request, FULL, reply)
    for request, reply in zip(READS, replies(member, READS)):
        is_answer = reply[:1] in (b"+", b":", b"$", b"*") and reply != b"$-1\r\n"
        ensure(f"{request} is answered: {reply!r}", is_answer)
    expect("the members", before, member.has())


def is_taken(member):
    """Whether the site is up, and takes what writes."""
    return member.is_up() and not is_refused(member)


def told_in_pairs(member):
    """That the disk is full and that it is free is told in turn."""
    told = re.findall(" disk (full|free)", member.said())
    expect("what is told of the disk", (["full", "free"] * len(told))[:len(told)], told)


def is_deaf(member):
    """Whether it has heard some of a peer's long members, and hears no more in a second."""
    before = member.ask(b"ZCARD", b"long")
    time.sleep(1)
    return before != b":0\r\n" and member.ask(b"ZCARD", b"long") == before


def crowded(group, member, peer):
    """A peer sends more than there is room for: the site hears it no more then, does not grow, and stops by the status of a device."""
    before = resident(member)
    with Client(peer.port) as client:
        for number in range(MANY):
            expect("an addition", b":1\r\n", client.ask(b"ZADD", b"long", b"1", b"%d." % number + LONG))
    ensure("it hears no more than there is room for", holds(lambda: is_deaf(member), SEEN))
    grown = resident(member) - before
    ensure(f"it has grown by {grown} bytes", grown < 4 * MANY * len(LONG))
    ensure("it answers, and refuses", is_refused(member))
    expect("status", DEVICE, stopped(group, member))
    ensure(f"it says why: {member.said()!r}", member.has_said("/log: the disk is full\n"))


def stopped_well(group, member, _peer):
    expect("status", 0, stopped(group, member))


def killed(_group, member, _peer):
    member.kill()


# How a site ends whose disk is full: where it does not, there is room again.
ENDS = {"freed": None, "killed": killed, "stopped": stopped_well, "crowded": crowded}


def full(group, place, end, left=0):
    """A disk becomes full while clients write, and a peer: it is filled beside the site, but for so much room, which the site itself
    takes. The site ends so, or there is room again: all that was acknowledged is there, what was refused is not, and writes are taken
    again."""
    writers, peer = Writers(may_be_full=True), group.start(0, alone=0)
    member = start(group, place, 1, [0])
    expect("members added", 100, member.adds(b"a", 100))
    ensure("both are alike", are_alike([peer, member], ALIKE))
    filled(member, place, writers, left)
    expect("members added at the peer", 500, peer.adds(b"p", 500))
    ensure("it hears its peer", holds(lambda: are_alike([peer, member], 1), SEEN))
    if ENDS[end]:
        ENDS[end](group, member, peer)
        member = start(group, place, 1, [0])
        writers.check(member)
    place.free()
    ensure("writes are taken again", holds(lambda: is_taken(member), SEEN))
    writers.write(member, 0.3, lambda: None)
    ensure("both come to be alike", are_alike([peer, member], ALIKE))
    for each in (member, peer):
        writers.check(each)
    told_in_pairs(member)
    expect("the peer's long members", peer.ask(b"ZCARD", b"long"), member.ask(b"ZCARD", b"long"))


def long_round(group, place):
    """One request takes almost all the room that is kept ahead, by names of hundreds of kilobytes: it is answered, and the site ends as
    it is told to."""
    member = start(group, place)
    expect("members added", 100, member.adds(b"a", 100))
    place.fill()
    with Client(member.port) as client:
        client.link.settimeout(SEEN)
        words = [word for number in range(12) for word in (b"1", b"%d." % number + LONG * 30)]
        expect("an addition of long names", b":12\r\n", client.ask(b"ZADD", b"long", *words))
    ensure("the disk is found full", holds(lambda: member.has_said(" disk full") and is_refused(member), SEEN))
    refused(member)
    expect("status", 0, stopped(group, member))
    place.free()
    expect("the long members", b":12\r\n", start(group, place).ask(b"ZCARD", b"long"))


def full_at_start(group, place):
    """A first start on a full disk ends and says why; once there is room the next one is a first start."""
    place.fill()
    member = start(group, place)
    expect("status", DEVICE, member.ends(ENDING))
    ensure(f"it says why: {member.said()!r}", member.has_said("/log: the disk is full\n"))
    place.free()
    member = start(group, place)
    expect("members added", 100, member.adds(b"a", 100))
    ensure(f"it is the first start: {member.said()!r}", member.has_said(" start=1 "))


def full_in_switch(group, place, end, left=20_000_000):
    """A disk becomes full while the log is switched. That goes on once there is room, or begins again after the next start."""
    writers, kept, long = Writers(may_be_full=True), 300, b"z" * 100_000
    member = start(group, place)
    expect("members added", 100, member.adds(b"a", 100))
    with Client(member.port) as client:
        for number in range(kept):
            expect("an addition", b":1\r\n", client.ask(b"ZADD", b"kept", b"1", b"%d." % number + long))
        # The zeros ahead are more than 8 MiB.
        churn(client, lambda: (place.folder / "log").stat().st_size > SHORT + (6 << 20))
        place.fill(left)
        churn(client, lambda: False)
    ensure("a switch goes on", (place.folder / "log.next").exists() and not member.has_said(" log switched"))
    refused(member)
    if ENDS[end]:
        ENDS[end](group, member, None)
        member = start(group, place)
    place.free()
    ensure("writes are taken again", holds(lambda: is_taken(member), SEEN))
    if not ENDS[end]:
        ensure("the switch is done", holds(lambda: member.has_said(" log switched"), ALIKE))
        told_in_pairs(member)
    writers.write(member, 0.5, member.kill)
    member = start(group, place)
    writers.check(member)
    expect("the long members", b":%d\r\n" % kept, member.ask(b"ZCARD", b"kept"))


def churn(client, is_enough):
    """Adds and removes long members until this holds, or it is refused."""
    number = 0
    while not is_enough():
        number += 1
        name = b"%d." % number + LONG * 5
        for words in ((b"ZADD", b"churn", b"1", name), (b"ZREM", b"churn", name)):
            reply = client.ask(*words)
            if reply == FULL:
                return
            expect(words[0], b":1\r\n", reply)
