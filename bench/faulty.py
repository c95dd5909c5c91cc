"""What a site does whose disk fails, does a part of what it is asked, is slow, or loses power, for tools/try-data and crash.py."""
import threading
import time

import disk
import streams
from apart import Client
from kept import Writers, ensure, expect, is_removed, names_of
from members import KEY, are_alike, holds
from played import ALIKE, DEVICE, ENDING, Played, resident, start

# How many members a connection gives scores to, again and again.
SCORED = 16
# By how much a site may grow while operations wait for the disk: 65,536 of each heap, and what is read of connections.
MOST_WAITING = 128 << 20


class Failing:
    """Sites that join a peer which has so much that they are sent whole heaps, so that each begins by a switch of its log, and of whose
    disk one call fails each. Each site has a number of its own, up to 63."""

    def __init__(self, group):
        self.group, self.writers, self.runs = group, Writers(), 0
        self.peer = group.start(0, alone=0, link_backlog=1 << 20)
        expect("members added", 20_000, self.peer.adds(b"m", 20_000))

    def run(self, call, which, draw=None, seconds=2):
        """That call of a new site fails while clients write: whether it came to it. Then the site starts again; where power is drawn,
        with what a loss of it leaves."""
        self.runs += 1
        place = Played(self.group, f"failing.{self.runs}", (call, which), notes=draw is not None)
        each = self.failed(place, seconds)
        came = place.disk.get("failed") > 0
        if draw:
            disk.lay(place.folder, disk.left_of({}, place.disk, place.disk.get("noted"), draw))
        self.again(place, each)
        return came

    def failed(self, place, seconds):
        """The call fails, or does not within so many seconds: the connections that wrote until then."""
        member = start(self.group, place, self.runs, [0])
        ensure(f"it serves, where no call failed: {member.said()!r}", member.is_up() or place.disk.get("failed"))
        each = [self.writers.begin(member) for _ in range(2)]
        if holds(lambda: place.disk.get("failed"), seconds):
            expect("what is answered after the failure", None, member.ask(b"PING"))
            expect("status", DEVICE, member.ends(ENDING))
            says_why(member.said(), place)
            expect("calls that change anything after the failure", 0, place.disk.get("later"))
        member.kill()
        for writer in each:
            self.writers.end(writer)
        return each

    def again(self, place, each):
        """The site starts again over a disk that does not fail, and has what it acknowledged, and what its peer has of it."""
        of_peer = names_of(self.peer)
        self.peer.stop()
        member = self.group.start(self.runs, [0], place=1, data=f'"{place.folder}"', alone=0)
        has = names_of(member)
        self.peer.go_on()
        for writer in each:
            lost = (writer.here - writer.open) - has
            ensure(f"{len(lost)} members are lost, as {sorted(lost)[:3]!r}", not lost)
            lost = {name for name in of_peer - has if name.startswith(writer.name + b".") and not is_removed(name)}
            ensure(f"the peer has {len(lost)} members that the site lost, as {sorted(lost)[:3]!r}", not lost)
        ensure("both come to be alike", are_alike([self.peer, member], ALIKE))
        self.writers.check(member)
        ensure(f"no number is used twice: {member.said()!r}", "fenced" not in member.said() and "used" not in member.said())
        member.kill()


def says_why(said, place):
    ensure(f"it says why: {said!r}", f"zqueue: {place.folder}/log: Input/output error (os error 5)\n" in said)


def interrupted(group):
    """Reads and writes that do a part, and calls that are interrupted, are gone on with: at a start, under writes, and in a switch."""
    peer, writers = group.start(0, alone=0, link_backlog=1 << 20), Writers()
    expect("members added", 20_000, peer.adds(b"m", 20_000))
    place = Played(group, "interrupted", interrupts=3, reads=True, piece=4_000)
    for _ in range(2):
        member = start(group, place, 1, [0])
        writers.check(member)
        writers.write(member, 0.5, lambda: None)
        ensure("both come to be alike", are_alike([peer, member], ALIKE))
        writers.check(member)
        member.kill()


class Scores(threading.Thread):
    """A connection that gives its members greater and greater scores. So it asks for much, and the queue stays small."""

    def __init__(self, member, name):
        super().__init__()
        self.port, self.names, self.asked, self.told = member.port, [b"%s.%d" % (name, place) for place in range(SCORED)], 0, 0
        self.over = threading.Event()
        self.start()

    def run(self):
        try:
            with Client(self.port) as client:
                client.link.settimeout(ALIKE)
                while not self.over.is_set():
                    self.asked += 1
                    client.link.sendall(b"".join(streams.request(b"ZADD", b"scores", b"%d" % self.asked, name) for name in self.names))
                    ensure("each is answered", all(client.reply() in (b":0\r\n", b":1\r\n") for _ in self.names))
                    self.told = self.asked
        except (OSError, RuntimeError):
            pass

    def stop(self):
        self.over.set()
        self.join()

    def is_told(self, member):
        """Whether each member has the last score that was acknowledged, or a later one that was asked for."""
        with Client(member.port) as client:
            found = [client.ask(b"ZSCORE", b"scores", name) for name in self.names]
        return all(reply != b"$-1\r\n" and self.told <= int(reply.split(b"\r\n")[1]) <= self.asked for reply in found)


def slow(group, seconds, syncs, sync="always"):
    """Each sync takes so long: links stay up, no reply comes before its sync where replies wait, and what waits has a bound."""
    peer, place = group.start(0, alone=0), Played(group, "slow")
    member = start(group, place, 1, [0], sync=f'"{sync}"')
    expect("members added", 100, member.adds(b"a", 100))
    ensure("both are alike", are_alike([peer, member], ALIKE))
    before = resident(member)
    place.disk.set(delay=int(seconds * 1e6))
    each = [Scores(member, b"%d" % number) for number in range(8)]
    one_by_one(member, place, seconds * syncs, sync)
    grown = resident(member) - before
    place.disk.set(delay=0)
    for scores in each:
        scores.stop()
    ensure(f"it has grown by {grown} bytes", grown < MOST_WAITING)
    ensure("both come to be alike", are_alike([peer, member], ALIKE))
    for one in (member, peer):
        ensure(f"links stay up: {one.said()!r}", not one.has_said("link lost"))
    ensure("the peer has the last scores", holds(lambda: all(scores.is_told(peer) for scores in each), ALIKE))
    member.kill()
    member = start(group, place, 1, [0])
    ensure("it has the last scores again", all(scores.is_told(member) for scores in each))


def one_by_one(member, place, seconds, sync):
    """Writes for so long, and sees that a sync which began behind a request was done before its reply."""
    end, number = time.monotonic() + seconds, 0
    with Client(member.port) as client:
        client.link.settimeout(ALIKE)
        while time.monotonic() < end:
            number, begun = number + 1, place.disk.get("begun")
            expect("an addition", b":1\r\n", client.ask(b"ZADD", KEY, b"1", b"alone.%d" % number))
            ensure("no reply comes before its sync", sync == "soon" or place.disk.get("done") > begun)


def powerless(group, draw, runs, images, lies=False):
    """A site loses power at a random moment, again and again; the first time it also is sent whole heaps. All that was acknowledged by
    then is there. It is tried with so many images of each run, and the next run begins with the last one. It answers how many were
    tried. A disk that lies syncs nothing: that has to be noticed."""
    peer, here, gone, before = group.start(0, alone=0, link_backlog=1 << 20), set(), set(), {}
    expect("members added", 20_000, peer.adds(b"m", 20_000))
    place = Played(group, "powerless", notes=True, lies=lies)
    writers = Writers()
    for run in range(runs):
        told = written(group, place, writers, [] if run else [0], draw.uniform(0.2, 0.6))
        for _ in range(images):
            upto = draw.randrange(place.disk.get("noted") + 1)
            left = disk.left_of(before, place.disk, upto, draw)
            disk.lay(place.folder, left)
            then = {(adds, name) for (adds, name), moment in told.items() if moment <= upto}
            here_then = here | {name for adds, name in then if adds and not is_removed(name)}
            gone_then = gone | {name for adds, name in then if not adds}
            seen(group, place, here_then, gone_then)
        disk.lay(place.folder, left)
        before, here, gone = left, here_then, gone_then
    return runs * images


def written(group, place, writers, peers, seconds):
    """A site is written to for so long and killed: how many notes there were as each reply was there."""
    member, told = start(group, place, 1, peers), {}
    each = [writers.begin(member, lambda: place.disk.get("noted")) for _ in range(3)]
    time.sleep(seconds)
    member.kill()
    for writer in each:
        writers.end(writer)
        told |= writer.told
    return told


def seen(group, place, here, gone):
    """A site starts with what power has left: these members are there, and those are not."""
    member = group.start(1, place=1, data=f'"{place.folder}"', alone=0)
    ensure(f"it starts: {member.said()!r}", member.is_up())
    has = names_of(member)
    member.kill()
    ensure(f"{len(here - has)} members are lost, as {sorted(here - has)[:3]!r}", here <= has)
    ensure(f"{len(gone & has)} members are back, as {sorted(gone & has)[:3]!r}", not gone & has)
