"""Connections that write to sites which are killed, and remember what was acknowledged, for tools/try-data and crash.py."""
import threading
import time

import streams
from apart import Client
from members import KEY

# How many connections write to a site at once, and how many requests of one are under way.
WRITERS, UNDER_WAY = 4, 16
# What a command that writes is answered while the disk is full.
FULL = b"-MISCONF the disk of this site is full\r\n"


class Breach(Exception):
    """What is otherwise than it has to be."""


def expect(what, wanted, got):
    if got != wanted:
        raise Breach(f"{what}: wanted {wanted!r}, got {got!r}")


def ensure(what, is_well):
    if not is_well:
        raise Breach(what)


def is_removed(name):
    """Whether a writer removes the member that it adds by this name."""
    return int(name.rpartition(b".")[2]) % 4 == 3


class Writer:
    """A connection that adds members, and removes each fourth one, until its site is gone. `here` has the names whose addition was
    acknowledged, `gone` those whose removal was, `open` those of requests that had no reply, and `refused` those whose addition was
    refused since the disk is full, where it may be. `told` has at which moment by a clock each reply was there."""

    def __init__(self, port, name, may_be_full=False, clock=None):
        self.port, self.name, self.here, self.gone, self.open, self.wrong = port, name, set(), set(), set(), None
        self.may_be_full, self.refused, self.clock, self.told = may_be_full, set(), clock, {}
        self.over = threading.Event()
        self.thread = threading.Thread(target=self.run)
        self.thread.start()

    def run(self):
        number = 0
        try:
            with Client(self.port) as client:
                while not self.over.is_set():
                    number = self.write(client, number)
        except Breach as breach:
            self.wrong = breach
        except (OSError, RuntimeError):
            pass

    def write(self, client, number):
        asked = []
        for count in range(number, number + UNDER_WAY):
            name = b"%s.%d" % (self.name, count)
            asked.append((True, name))
            self.open.add(name)
            if is_removed(name):
                asked.append((False, name))
        client.link.sendall(b"".join(streams.request(b"ZADD", KEY, b"%d" % len(name), name) if adds
                                     else streams.request(b"ZREM", KEY, name) for adds, name in asked))
        for adds, name in asked:
            self.take(client.reply(), adds, name)
            if not adds or not is_removed(name):
                self.open.discard(name)
        return number + UNDER_WAY

    def take(self, reply, adds, name):
        """Takes the reply to an addition or to a removal."""
        if self.may_be_full and reply == FULL:
            self.refused |= {name} if adds else set()
            return
        expect(f"the reply to {name!r}", b":1\r\n" if adds or name not in self.refused else b":0\r\n", reply)
        if self.clock:
            self.told[adds, name] = self.clock()
        if adds:
            self.here.add(name)
        elif name not in self.refused:
            self.here.discard(name)
            self.gone.add(name)

    def stop(self):
        self.over.set()
        self.thread.join()


class Writers:
    """Such connections together, over the starts of a site."""

    def __init__(self, may_be_full=False):
        self.here, self.gone, self.refused, self.runs, self.may_be_full = set(), set(), set(), 0, may_be_full

    def write(self, member, seconds, end):
        """Writes for so long, and then has the site end in this way."""
        self.runs += 1
        writers = [Writer(member.port, b"%d.%d" % (self.runs, place), self.may_be_full) for place in range(WRITERS)]
        time.sleep(seconds)
        end()
        for writer in writers:
            self.end(writer)
        return sum(len(writer.here) + len(writer.gone) for writer in writers)

    def begin(self, member, clock=None):
        """A connection that writes to a site from now on."""
        self.runs += 1
        return Writer(member.port, b"%d" % self.runs, self.may_be_full, clock)

    def end(self, writer):
        """Such a connection is over, and what it was told is remembered."""
        writer.stop()
        if writer.wrong:
            raise writer.wrong
        self.here |= writer.here - writer.open
        self.gone |= writer.gone
        self.refused |= writer.refused

    def check(self, member):
        """All that was acknowledged is there, all whose removal was is gone, and nothing is there that was refused."""
        has = names_of(member)
        wrong = self.refused & has
        ensure(f"{len(wrong)} members are there that were refused, as {sorted(wrong)[:3]!r}", not wrong)
        ensure(f"{len(self.here - has)} members are lost, as {sorted(self.here - has)[:3]!r}", self.here <= has)
        ensure(f"{len(self.gone & has)} members are back, as {sorted(self.gone & has)[:3]!r}", not self.gone & has)


def names_of(member):
    """The names of all members that a site has."""
    reply = member.ask(b"ZRANGE", KEY, b"0", b"-1")
    ensure("it answers", reply is not None)
    return set(reply.split(b"\r\n")[2::2])
