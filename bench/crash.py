#!/usr/bin/env python3
"""Sites that each keep a log on disk are killed, and their disks are full, fail, are slow, or lose power, while clients write. Then
each site has to have all members whose addition was acknowledged, and none whose removal was; and all have to be alike.

Usage: bench/crash.py [--parts PART[,PART..]] [--kills N] [--seed N] [--sync always|soon] [--calls N] [--runs N] [--images N]
                      [--folder DIR] [--program PATH]
       bench/crash.py --self-test [--program PATH]
    kills    three linked sites are killed N times, one, two or all three at once, and started again; a score is counted too. With
             `soon` what was acknowledged may be lost, so that only alike sites and the score's upper bound are looked for
    full     a full disk refuses writes and serves readings, and takes writes again by itself; the site is killed meanwhile, is
             stopped, hears more from a peer than there is room for, or switches its log. On a disk that is played, and on a small
             tmpfs and ext4 that are mounted
    failing  each of the first N calls of each kind that a site makes of its disk fails in turn, at a start, in a switch and under
             writes; the site starts again with what a loss of power leaves then
    slow     a sync takes 1 and 10 seconds
    power    power is lost at N random moments of each run: each sector of what was not synced may be there or not. The next run
             begins with what the last one left
Without --program this repository's is proved and built first, as `./zqueue` does it. The folders of the sites are below DIR, the
current one where nothing is said: that is to be on a disk. A disk is played by disk.c, which needs a C compiler. At the end it says
what was left out. Status 1 where there is a breach. With --self-test a disk that syncs nothing, though it says so, has to be noticed.
"""
import argparse
import contextlib
import pathlib
import random
import signal
import subprocess
import sys
import tempfile
import threading
import time

sys.dont_write_bytecode = True
import disk
import faulty
import full_disk
import mounts
import served
from apart import Client
from kept import Breach, Writers, ensure, expect, names_of
from members import KEY, Members, are_alike, holds
from played import Played

SITES = 3
# The key and the member whose score is counted, and how long the writers write between kills, in seconds.
COUNTED, COUNT = b"counts", b"count"
SHORTEST, LONGEST = 0.05, 1.0
# How many bytes a small file system has, and one on which a log is switched; and how many times as many calls are drawn from as are
# tried one by one.
ROOM, SWITCHED, MORE = 64 << 20, 256 << 20, 20
# After how many kills the sites are compared, and within how many seconds they have to be alike, and a site has to serve.
EACH, PATIENCE = 10, 120


class Counter:
    """A connection that adds 1 to a score, again and again, until its site is gone: how often it asked, and was answered."""

    def __init__(self, port):
        self.port, self.asked, self.told, self.over = port, 0, 0, threading.Event()
        self.thread = threading.Thread(target=self.run)
        self.thread.start()

    def run(self):
        try:
            with Client(self.port) as client:
                while not self.over.is_set():
                    self.asked += 1
                    client.ask(b"ZINCRBY", COUNTED, b"1", COUNT)
                    self.told += 1
        except (OSError, RuntimeError):
            pass

    def stop(self):
        self.over.set()
        self.thread.join()


class Crash:
    """The three sites, and what their clients were told."""

    def __init__(self, group, folder, sync):
        self.group, self.folder, self.sync, self.writers = group, folder, sync, Writers()
        self.asked = self.told = 0
        for site in range(SITES):
            (folder / str(site)).mkdir()
        self.members = [self.start(site) for site in range(SITES)]
        # A score that two sites begin at once is not their sum.
        expect("the begin of the score", b":1\r\n", self.members[0].ask(b"ZADD", COUNTED, b"0", COUNT))
        ensure("all have the begin of the score", holds(lambda: len(self.scores()) == 1, PATIENCE))
        self.clients = [self.clients_of(member) for member in self.members]

    def scores(self):
        return {member.ask(b"ZSCORE", COUNTED, COUNT) for member in self.members}

    def start(self, site):
        peers = [peer for peer in range(SITES) if peer != site]
        return self.group.start(site, peers, data=f'"{self.folder / str(site)}"', sync=f'"{self.sync}"', alone=0)

    def clients_of(self, member):
        return [self.writers.begin(member), self.writers.begin(member)], Counter(member.port)

    def end(self, site):
        writers, counter = self.clients[site]
        for writer in writers:
            self.writers.end(writer)
        counter.stop()
        self.asked += counter.asked
        self.told += counter.told

    def kill(self, sites, pause):
        """Kills these at once, and starts them again, one after the other, each with clients of its own."""
        for site in sites:
            self.members[site].process.kill()
        for site in sites:
            self.members[site].kill()
            self.end(site)
        for site in sites:
            time.sleep(pause())
            self.members[site] = self.start(site)
            self.clients[site] = self.clients_of(self.members[site])

    def compare(self):
        """With nobody writing, all come to be alike, and have what was acknowledged."""
        for site in range(SITES):
            self.end(site)
        began = time.monotonic()
        counts = lambda: {member.ask(b"ZCARD", KEY) for member in self.members}
        ensure("all come to have one score, and as many members", holds(lambda: len(self.scores()) == len(counts()) == 1, PATIENCE))
        took = time.monotonic() - began
        ensure("all come to be alike", are_alike(self.members, PATIENCE))
        score = int(float(self.scores().pop().split(b"\r\n")[1]))
        if self.sync == "always":
            for member in self.members:
                self.writers.check(member)
            ensure(f"{self.told} to {self.asked} were added, and the score is {score}", self.told <= score <= self.asked)
        ensure(f"{self.asked} were added at most, and the score is {score}", score <= self.asked)
        for member in self.members:
            ensure(f"no number is used twice: {member.said()!r}", "fenced" not in member.said() and "used" not in member.said())
        members = len(names_of(self.members[0]))
        self.clients = [self.clients_of(member) for member in self.members]
        return took, members


def crash(group, asked):
    """Kills the sites, and compares them each few times."""
    draw, sites = random.Random(asked.seed), Crash(group, group.data, asked.sync)
    for kill in range(1, asked.kills + 1):
        time.sleep(draw.uniform(SHORTEST, LONGEST))
        several = draw.choice([1, 1, 1, 2, SITES])
        sites.kill(draw.sample(range(SITES), several), lambda: draw.choice([0, 0, draw.uniform(0, 1)]))
        if kill % EACH == 0 or kill == asked.kills:
            took, members = sites.compare()
            print(f"crash: {kill} kills, {len(sites.writers.here)} members and {len(sites.writers.gone)} removals acknowledged, "
                  f"{sites.told} of {sites.asked} counts, {members} members, as many at all sites after {took:.1f} s", flush=True)
    for site in range(SITES):
        sites.end(site)


def kills(bench):
    bench.tried("kills", None, lambda group: crash(group, bench.asked))


class Bench:
    """What all parts have: the program, what is asked for, what was left out, and the breaches."""

    def __init__(self, program, asked, library):
        self.program, self.asked, self.library, self.lacks, self.breaches = program, asked, library, {}, []
        if library is None:
            self.lacks["played"] = self.lacks["late"] = "there is no C compiler"
        if why := mounts.needed():
            self.lacks |= dict.fromkeys(mounts.KINDS, why)
        self.left_out = []

    @contextlib.contextmanager
    def group(self):
        """Sites below a folder of their own, which end with the `with`."""
        with tempfile.TemporaryDirectory(prefix="zqueue-crash-", dir=self.asked.folder) as folder:
            with Members(self.program, patience=PATIENCE) as group:
                group.data, group.library = pathlib.Path(folder).resolve(), self.library
                yield group

    def tried(self, name, kind, run):
        """Runs a trial over a group, on a disk of this kind where that can be had. What it says is told."""
        if kind in self.lacks:
            self.left_out.append(f"{name}: {self.lacks[kind]}")
            return
        began = time.monotonic()
        try:
            with self.group() as group:
                said = run(group) or ""
        except (Breach, OSError, RuntimeError, subprocess.SubprocessError) as breach:
            self.breaches.append(f"{name}: {breach}")
            said = f"BREACH: {breach}"
        print(f"crash: {name}: {said or 'as it has to be'}, {time.monotonic() - began:.1f} s", flush=True)


def place(group, kind, size):
    """A folder on a disk of this kind; one that is mounted has so many bytes."""
    if kind in mounts.KINDS:
        return mounts.Mounted(group, "disk", kind, size)
    return Played(group, "disk", is_late=kind == "late")


def full(bench):
    for kind in ("played", "late", *mounts.KINDS):
        for end in full_disk.ENDS:
            bench.tried(f"full, {kind}, {end}", kind, lambda group: full_disk.full(group, place(group, kind, ROOM), end))
        bench.tried(f"full at a start, {kind}", kind, lambda group: full_disk.full_at_start(group, place(group, kind, ROOM)))
        by_writes = lambda group: full_disk.full(group, place(group, kind, ROOM), "killed", ROOM // 2)
        bench.tried(f"full by writes, {kind}", kind, by_writes)
        for end in ("freed", "killed", "stopped"):
            run = lambda group: full_disk.full_in_switch(group, place(group, kind, SWITCHED), end)
            bench.tried(f"full in a switch, {kind}, {end}", kind, run)


def failing(bench):
    draw = random.Random(bench.asked.seed)
    for call in disk.CALLS:
        bench.tried(f"failing {call}", "played", lambda group: failed(group, call, bench.asked.calls, draw))


def failed(group, call, most, draw):
    """The first calls of this kind fail in turn, until one is not made, or so many have failed; then some more."""
    sites, came = faulty.Failing(group), 0
    for which in range(1, most + 1):
        if not sites.run(call, which, draw):
            return f"each of {came} fails"
        came += 1
    for _ in range(min(most, 60 - most)):
        which = draw.randrange(most, MORE * most)
        came += sites.run(call, which, draw)
    return f"{came} fail"


def slow(bench):
    for seconds in (1, 10):
        for sync in ("always", "soon"):
            bench.tried(f"slow, {seconds} s, {sync}", "played", lambda group: faulty.slow(group, seconds, 5, sync))


def power(bench):
    draw, asked = random.Random(bench.asked.seed), bench.asked
    bench.tried("power", "played", lambda group: f"{faulty.powerless(group, draw, asked.runs, asked.images)} losses of power")


def self_tested(bench):
    """That power is lost over a disk that syncs nothing has to be noticed."""
    try:
        with bench.group() as group:
            faulty.powerless(group, random.Random(bench.asked.seed), 2, 10, lies=True)
    except Breach as breach:
        print(f"crash: noticed: {breach}")
        return 0
    print("crash: a disk that syncs nothing is not noticed", file=sys.stderr)
    return 1


PARTS = {"kills": kills, "full": full, "failing": failing, "slow": slow, "power": power}


def parts(text):
    """The parts that stand between commas."""
    names = text.split(",")
    for name in names:
        if name not in PARTS:
            raise argparse.ArgumentTypeError(f"{name}: no such part")
    return names


def main():
    words = argparse.ArgumentParser(description=__doc__, formatter_class=argparse.RawDescriptionHelpFormatter)
    words.add_argument("--parts", type=parts, default=list(PARTS))
    words.add_argument("--kills", type=int, default=50)
    words.add_argument("--seed", type=int, default=1)
    words.add_argument("--sync", choices=["always", "soon"], default="always")
    words.add_argument("--calls", type=int, default=20)
    words.add_argument("--runs", type=int, default=10)
    words.add_argument("--images", type=int, default=20)
    words.add_argument("--folder", type=pathlib.Path, default=pathlib.Path.cwd())
    words.add_argument("--program", type=pathlib.Path)
    words.add_argument("--self-test", action="store_true")
    asked = words.parse_args()
    for number in (signal.SIGTERM, signal.SIGHUP):
        signal.signal(number, lambda number, _: sys.exit(128 + number))
    program = asked.program.resolve() if asked.program else served.built()
    with tempfile.TemporaryDirectory(prefix="zqueue-disk-") as folder:
        bench = Bench(program, asked, disk.library(folder))
        if asked.self_test:
            return self_tested(bench)
        for part in asked.parts:
            PARTS[part](bench)
    for line in bench.left_out:
        print(f"crash: left out: {line}")
    for line in bench.breaches:
        print(f"crash: {line}", file=sys.stderr)
    return 1 if bench.breaches else 0


if __name__ == "__main__":
    sys.exit(main())
