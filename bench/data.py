#!/usr/bin/env python3
"""What a log on disk (`data`) costs `zqueue site`, beside redis-server with an append-only file on the same file system, in
alternation. Sites have 4 heaps and 2 workers; the key has 10 bytes and members 16, whose names share nothing with each other.

    always   ZADD of new members over 50 connections, with 1 and with 16 requests in flight: a site with `sync = "always"`,
             and redis-server with `appendfsync always`
    soon     the same with `sync = "soon"`, beside the same site without `data`, and redis-server with `appendfsync everysec`
    bytes    how long the log is for each operation, without the zeros ahead of it: of a site that makes them, over 50
             connections with 16 requests in flight and `always`, and of a peer that hears them
    start    seconds until a site serves that has a log, less those of an empty folder: a log of rounds, made as in `bytes`, and
             one of copies of heaps, as a switch leaves it. The system still has the logs in memory
    long     the same with logs of a gigabyte: of rounds that change the scores of a tenth of the members again and again, and of
             copies of members of 1,000 bytes; and the most memory that the start takes beyond what a site without `data` has that
             holds the same
    switch   the longest wait of a client that asks each millisecond, ZADD of one member and ZSCORE of it in turn, while the log
             is switched and a writer changes members at a rate, and the 99th of a hundred waits; of redis-server BGREWRITEAOF

Usage: bench/data.py [--rows ROW[,ROW..]] [--rounds N] [--seconds N] [--members N] [--rate N] [--switches N] [--threads N]
                     [--megabytes N] [--folder DIR] [--tmpfs] [--csv] [--form TEXT] [--program PATH]
The folders of the servers are below DIR, the current one where nothing is said: that is to be on a disk, and tmpfs is refused
without --tmpfs. It prints what the disk is, and a line for each figure: zqueue's, the aim, redis-server's, and which part of
the processors' time was idle meanwhile, zqueue's run first; at the end which aims were missed, and with --csv the figures as
lines of bench/results. Rates are medians of rounds, each over an empty folder, in turn and then the other way round.

The loader is load.c and not redis-benchmark: it adds no member twice, writes from more threads than one, and says how busy it
was. Where that is above 0.9 the loader was what was timed. A stream is so long that no connection comes to its end: a round in
which one does is done again with a longer one. Where next to nothing was idle the figures tell of the machine. Before a switch
members of 100,000 bytes are added and removed, so that the log is almost so long that it is switched; what it lacks then the
writer writes. Needs a C compiler and redis-server.
"""
import argparse
import csv
import datetime
import os
import pathlib
import re
import signal
import statistics
import subprocess
import sys
import tempfile
import time
import types

import linked
import pipe
import served
import streams
from apart import Client
from clients import medians
from linked import HEAPS, KEY, WORKERS, Group, Idle
from links import MIB, Report

CONNECTIONS, FLIGHTS, DEEP = 50, (1, 16), 16
# What is told of a figure of the loader, and with how many digits.
MEASURES = {"requests_a_second": ("rate", "requests a second", 0), "p50_ms": ("50th percentile", "ms", 2),
            "p99_ms": ("99th percentile", "ms", 2), "server_us_a_request": ("processor time", "microseconds a request", 2),
            "loader_busy": ("busy loader", "of its threads' time", 2)}
# The ratios of rates that are told, and the least that are wanted.
RATIOS = {"redis-server": ("of redis-server's rate", 1.5), "plain": ("of the rate without data", 0.9)}
# The most bytes an operation that are wanted; the least operations and megabytes a second of a start; the most milliseconds of a
# wait in a switch.
MOST_BYTES, OPERATIONS, MEGABYTES, MOST_WAIT = 70, 400_000, 200, 20
# The most megabytes of memory that a start takes beyond what it holds, that are wanted; and a setting by which little is kept for
# peers, so that they tell of the queue.
MOST_MORE, FEW = 34, "link_backlog = 1048576\n"
# What is told of waits: how many of them have ended by then, where, and the most milliseconds that are wanted.
WAITS = [("longest wait in a switch", 1, "inside", MOST_WAIT), ("99th percentile in a switch", 0.99, "inside", None),
         ("longest wait outside", 1, "outside", None), ("99th percentile outside", 0.99, "outside", None)]
# By what the number of a member is multiplied, below 2^64. It is odd, so no name comes twice.
ODD = 0x9E3779B97F4A7C15
# Requests of the shortest stream, and of a part of a filling.
LEAST = PART = 100_000
# A log is switched that is longer than this, and than twice what the last switch left. It is filled up to less, and made so long
# before a switch that it lacks so much.
SHORT, FILLED, LACKS = 64 * MIB, 56 * MIB, 2_000_000
# The bytes of a member that makes a log long.
LONG = b"x" * 100_000
# Seconds within which what is waited for has to come, and how often it is looked for.
PATIENCE, PAUSE = 300, 0.001
# Seconds between two asks. How long behind a switch they still belong to it, since the folder is synced there, and when they end.
ASKS, BELONGS, BEHIND = 0.001, 0.1, 1
# How many writes are synced to learn what the disk does, and their bytes.
SYNCS, PIECE = 200, 4096


def member(number):
    """A member of 16 bytes."""
    return b"%016x" % (number * ODD % (1 << 64))


def added(number, score=None, name=member):
    """A request that adds it."""
    score = number * 7919 % 1000003 if score is None else score
    return streams.request(b"ZADD", KEY, b"%d" % score, name(number))


def long_member(number):
    """A member of 1,000 bytes."""
    return member(number) + LONG[:984]


class Load:
    """The loader, with streams of ZADDs of new members."""

    def __init__(self, folder, threads):
        self.program, self.folder, self.threads = pipe.compiled("load", folder), pathlib.Path(folder), threads

    def stream(self, first, count, **words):
        """The path of a stream that adds so many members from this one on. It is made once, and is on the disk then."""
        path = self.folder / ".".join(map(str, (first, count, *words)))
        if not path.exists():
            with open(path, "wb") as file:
                for begin in range(first, first + count, 10_000):
                    turns = range(begin, min(begin + 10_000, first + count))
                    file.write(b"".join(added(turn, **words) for turn in turns))
                file.flush()
                os.fsync(file.fileno())
        return path

    def run(self, *words):
        words = [str(word) for word in (self.program, *words)]
        return subprocess.run(words, stdout=subprocess.PIPE, text=True, check=True).stdout

    def figures(self, group, count, flight, seconds):
        """What the loader says of so many seconds of a stream of so many new members."""
        words = (group.ports[0], CONNECTIONS, flight, self.threads, seconds, group.servers[0].pid)
        said = self.run(self.stream(0, count), *words)
        return {name: float(figure) for name, figure in map(str.split, said.splitlines())}

    def fill(self, group, most):
        """Adds so many new members, or fewer where the log would be so long that it is switched; how many."""
        done = 0
        while done < most and not group.is_full():
            path = self.stream(done, count := min(PART, most - done))
            self.run(path, group.ports[0], CONNECTIONS, DEEP, self.threads)
            path.unlink()
            done += count
        return done


class Kept(Group):
    """Servers that each have a folder below the one that is measured, empty at first. They may be started again."""

    def __init__(self, bench, count=1):
        super().__init__(bench.tools)
        try:
            disk = tempfile.TemporaryDirectory(prefix="zqueue-data-", dir=bench.folder)
            self.disk = pathlib.Path(self.held.enter_context(disk))
            ports = served.free_ports(2 * count)
            self.ports, self.listens, self.writable = ports[:count], ports[count:], [0]
            for server in range(count):
                self.of(server).mkdir()
            self.took = [self.start(server) for server in range(count)]
        except BaseException:
            self.held.close()
            raise

    def of(self, server):
        """The folder of a server."""
        return self.disk / str(server)

    def start(self, server):
        """Starts a server: the seconds until it serves."""
        began = time.monotonic()
        self.started(server, self.words(server))
        self.wait_until(lambda: self.serves(server))
        return time.monotonic() - began

    def again(self):
        """Ends the first server and starts it again: the seconds until it serves."""
        self.servers[0].terminate()
        self.servers[0].wait()
        return self.start(0)

    def wait_until(self, holds):
        end = time.monotonic() + PATIENCE
        while not holds():
            self.check()
            if time.monotonic() > end:
                raise RuntimeError(f"what is waited for does not come: {self.said(0)[-2000:]!r}")
            time.sleep(PAUSE)

    def wait_for_members(self, count):
        """Waits until each server has so many."""
        for port in self.ports:
            with Client(port) as client:
                self.wait_until(lambda: client.ask(b"ZCARD", KEY) == b":%d\r\n" % count)


class Sites(Kept):
    """Sites that are linked to each other. They have no log where `sync` is `None`."""

    def __init__(self, bench, sync, count=1, more=""):
        self.program, self.sync, self.count, self.more = bench.program, sync, count, more
        super().__init__(bench, count)

    def words(self, site):
        path = self.folder / f"{site}.toml"
        text = (f'site = {site}\nport = {self.ports[site]}\nlisten = "127.0.0.1:{self.listens[site]}"\nheaps = {HEAPS}\n'
                f"workers = {WORKERS}\nalone = 0\n{self.more}")
        if self.sync:
            text += f'data = "{self.of(site)}"\nsync = "{self.sync}"\n'
        for peer in range(self.count):
            if peer != site:
                text += f'[[peers]]\nsite = {peer}\naddress = "127.0.0.1:{self.listens[peer]}"\n'
        path.write_text(text)
        return [self.program, "site", path]

    def serves(self, site):
        return re.search(rf"^site {site} port ", self.said(site), re.MULTILINE)

    def length(self, site=0):
        """The bytes of the log without the zeros ahead of it."""
        with open(self.of(site) / "log", "rb") as log:
            end = os.fstat(log.fileno()).st_size
            while end:
                begin = max(0, end - MIB)
                log.seek(begin)
                if records := log.read(end - begin).rstrip(b"\0"):
                    return begin + len(records)
                end = begin
        return 0

    def depth(self, operations, site=0):
        """How many of so many operations a record of the log has. Each record ends with a byte that is nowhere else."""
        return operations / (self.of(site) / "log").read_bytes().count(b"\xff")

    def is_full(self):
        return self.length() >= FILLED

    def state(self):
        """Whether the log is being switched, and which file it is."""
        return os.path.exists(self.of(0) / "log.next"), os.stat(self.of(0) / "log").st_ino

    def switches(self):
        """How long the log was after each switch that was told."""
        return [int(length) for length in re.findall(r" log switched bytes=(\d+)", self.said(0))]

    def lengthen(self, is_enough):
        """Adds and removes long members until this holds."""
        number = 0
        with Client(self.ports[0]) as client:
            while not is_enough():
                number += 1
                name = b"%d." % number + LONG
                for words in ((b"ZADD", b"long:00001", b"1", name), (b"ZREM", b"long:00001", name)):
                    if client.ask(*words) != b":1\r\n":
                        raise RuntimeError("a long member is not added and removed")

    def near_switch(self):
        """Makes the log almost so long that it is switched. The writer does the rest."""
        wanted = max([SHORT] + [2 * length for length in self.switches()[-1:]]) - LACKS
        self.lengthen(lambda: self.length() > wanted)

    def begin_switch(self, _client):
        return False

    def switch(self):
        """Makes the log so long that it is switched, and waits until that is done."""
        count = len(self.switches())
        self.lengthen(lambda: self.state()[0] or len(self.switches()) > count)
        self.wait_until(lambda: len(self.switches()) > count)


class Redis(Kept):
    """A redis-server with an append-only file."""

    def __init__(self, bench, fsync, *more):
        self.fsync, self.more = fsync, more
        super().__init__(bench)

    def words(self, server):
        return ["redis-server", "--bind", "127.0.0.1", "--port", self.ports[server], "--save", "", "--appendonly", "yes",
                "--appendfsync", self.fsync, "--dir", self.of(server), *self.more]

    def serves(self, server):
        try:
            with Client(self.ports[server]) as client:
                return client.ask(b"PING") == b"+PONG\r\n"
        except (OSError, RuntimeError):
            return False

    def depth(self, _operations):
        return 1

    def length(self):
        """The bytes of the append-only file."""
        return sum(path.stat().st_size for path in self.of(0).glob("appendonlydir/*.aof"))

    def is_full(self):
        return False

    def state(self):
        """Whether the file is being rewritten, and 0."""
        return any(name.startswith("temp-rewriteaof") for name in os.listdir(self.of(0))), 0

    def near_switch(self):
        """It is rewritten when it is told to be."""

    def begin_switch(self, client):
        return client.ask(b"BGREWRITEAOF").startswith(b"+")


class Asker:
    """A client that asks each millisecond, and notes how many seconds it waited: in switches of the log, and outside of them."""

    def __init__(self, group):
        self.group, self.inside, self.outside, self.lasted, self.asks = group, [], [], [], 0

    def ask_over_switch(self):
        """Asks for a second, has a switch begin where it can, and asks until that is over and a second has passed."""
        began, first, last, is_told = time.monotonic(), None, None, False
        with Client(self.group.ports[0]) as client:
            while last is None or time.monotonic() < last + BEHIND:
                now = time.monotonic()
                tells = not is_told and now > began + BEHIND
                is_told = is_told or tells
                took, is_in = self.ask(client, tells)
                if is_in:
                    first, last = first or now, time.monotonic()
                (self.inside if is_in or last and now < last + BELONGS else self.outside).append(took)
                if last is None and now > began + PATIENCE:
                    raise RuntimeError("no switch of the log was seen")
                time.sleep(max(0, now + ASKS - time.monotonic()))
        self.lasted.append(last - first)

    def ask(self, client, tells):
        """How long the next ask waited, and whether the log was being switched meanwhile."""
        self.asks += 1
        before, began = self.group.state(), time.monotonic()
        begins = tells and self.group.begin_switch(client)
        if not begins and self.asks % 2:
            client.ask(b"ZADD", b"other:0001", b"%d" % self.asks, b"one")
        elif not begins:
            client.ask(b"ZSCORE", b"other:0001", b"one")
        took, after = time.monotonic() - began, self.group.state()
        return took, begins or before[0] or after != before


class Figures(Report):
    """The figures, with their units and notes on how they came."""

    def add(self, row, case, measure, unit, ours, theirs=None, note="", spread="", **more):
        super().add(row, case, f"{measure}, {unit}" + (f" ({spread})" if spread else ""), ours, theirs, **more)
        notes = [note, f"{spread} in a round" if spread else ""]
        self.figures[-1] |= {"measure": measure, "unit": unit, "notes": notes, "digits": more.get("digits", 2)}

    def print_lines(self, form):
        """Prints them as lines of bench/results."""
        words = ["git", "-C", served.ROOT, "rev-parse", "--short", "HEAD"]
        commit = subprocess.run(words, stdout=subprocess.PIPE, text=True).stdout.strip()
        lines = csv.writer(sys.stdout, lineterminator="\n")
        lines.writerow(["date", "commit", "form", "case", "measure", "value", "unit", "note"])
        for each in self.figures:
            if "zqueue" in each:
                lines.writerow([datetime.date.today(), commit, form, f"{each['row']}: {each['case']}", each["measure"],
                                self.plain(each, "zqueue"), each["unit"], self.note_of(each)])

    @staticmethod
    def plain(each, name):
        return f"{each[name]:.{each['digits']}f}"

    def note_of(self, each):
        notes = each["notes"] + [f"aim {each[name]}" for name in ("most", "least") if each[name] is not None]
        notes += [] if each["redis-server"] is None else [f"redis-server: {self.plain(each, 'redis-server')}"]
        return "; ".join(filter(None, notes))


class Bench:
    """What all rows have: the program, the tools, the folder that is measured, what is asked for, and the report."""

    def __init__(self, program, folder, asked):
        self.program, self.folder, self.asked, self.report = program, asked.folder, asked, Figures()
        self.load, self.tools = Load(folder, asked.threads), types.SimpleNamespace(writer=pipe.compiled("writer", folder))

    def tried(self, make, flight):
        """How many new members are enough for a round, by a short trial: half as many again as are asked for."""
        with make() as group:
            rate = self.load.figures(group, LEAST, flight, 1)["requests_a_second"]
        count = LEAST
        while count < 1.5 * rate * (self.asked.seconds + 0.5):
            count *= 2
        return count

    def round(self, make, flight, count):
        """What the loader says of new members at a server that begins with nothing, and how many were enough."""
        while True:
            with make() as group:
                with Idle() as idle:
                    figures = self.load.figures(group, count, flight, self.asked.seconds)
                if not is_at_end(group, count):
                    return {**figures, "idle": idle.share}, count
            count *= 2

    def rounds(self, makers, flight):
        """The rounds of each kind of server, in alternation."""
        counts, rounds = {name: self.tried(make, flight) for name, make in makers.items()}, {name: [] for name in makers}
        for turn in range(self.asked.rounds):
            for name in list(makers)[::-1 if turn % 2 else 1]:
                figures, counts[name] = self.round(makers[name], flight, counts[name])
                rounds[name].append(figures)
        return rounds


def is_at_end(group, count):
    """Whether a connection has sent all of its part of a stream of so many new members."""
    lasts = [count * (place + 1) // CONNECTIONS - 1 for place in range(CONNECTIONS)]
    with Client(group.ports[0]) as client:
        return any(client.ask(b"ZSCORE", KEY, member(last)) != b"$-1\r\n" for last in lasts)


def add_rates(bench, row, makers, flight):
    """The lines of so many requests in flight: what the loader says, and the ratios of rates."""
    rounds = bench.rounds(makers, flight)
    figures = {name: medians(all) for name, all in rounds.items()}
    case = f"{CONNECTIONS} connections, {flight} in flight"
    note = f"medians of {bench.asked.rounds} rounds of {bench.asked.seconds} s"

    def add(beside, *words, **more):
        idle = (figures["zqueue"]["idle"], figures[beside]["idle"])
        bench.report.add(row, case, *words, note=note, idle=idle, **more)

    for figure, (measure, unit, digits) in MEASURES.items():
        add("redis-server", measure, unit, figures["zqueue"][figure], figures["redis-server"][figure], digits=digits)
    if "plain" in figures:
        add("plain", "rate without data", "requests a second", figures["plain"]["requests_a_second"], digits=0)
    for beside, (unit, aim) in RATIOS.items():
        if beside in figures:
            ratio = figures["zqueue"]["requests_a_second"] / figures[beside]["requests_a_second"]
            each = [one["requests_a_second"] / two["requests_a_second"] for one, two in zip(rounds["zqueue"], rounds[beside])]
            add(beside, "ratio", unit, ratio, least=aim, spread=f"{min(each):.2f} to {max(each):.2f}")


def measure_always(bench):
    makers = {"zqueue": lambda: Sites(bench, "always"), "redis-server": lambda: Redis(bench, "always")}
    for flight in FLIGHTS:
        add_rates(bench, "always", makers, flight)


def measure_soon(bench):
    makers = {"zqueue": lambda: Sites(bench, "soon"), "plain": lambda: Sites(bench, None),
              "redis-server": lambda: Redis(bench, "everysec")}
    for flight in FLIGHTS:
        add_rates(bench, "soon", makers, flight)


def measure_bytes(bench):
    with Sites(bench, "always", 2) as group:
        group.wait_until(lambda: all(" link up " in group.said(site) for site in range(2)))
        with Idle() as idle:
            done = bench.load.fill(group, bench.asked.members // 2)
            group.wait_for_members(done)
        logs = [(group.length(site) / done, group.depth(done, site)) for site in range(2)]
    with Redis(bench, "everysec") as group:
        bench.load.fill(group, done)
        theirs = group.length() / done
    for whose, (length, depth) in zip(("of its own", "of its peer"), logs):
        case, more = f"{done:,} operations {whose}, {depth:.0f} in a record", {"idle": (idle.share,), "digits": 1}
        bench.report.add("bytes", case, "log", "bytes an operation", length, theirs, most=MOST_BYTES, **more)


def starts(bench, make, group, members):
    """Seconds until a server serves that is started again, and has so many members, less those of an empty folder, both of them
    medians; and what was idle."""
    again, anew = [], []
    with Idle() as idle:
        for _ in range(bench.asked.rounds):
            again.append(group.again())
            group.wait_for_members(members)
            with make() as beside:
                anew += beside.took
    return max(statistics.median(again) - statistics.median(anew), PAUSE), idle.share


def started_again(bench, make, members, is_switched=False):
    """The same of a server to which so many new members were added, or fewer: how many they were, how many a record has, and the
    megabytes of its log."""
    with make() as group:
        done = bench.load.fill(group, members)
        if is_switched:
            group.switch()
        return *starts(bench, make, group, done), done, group.depth(done), group.length() / 1e6


def measure_start(bench):
    def ours():
        return Sites(bench, "always")

    def theirs():
        return Redis(bench, "everysec", "--auto-aof-rewrite-percentage", "0")

    def add(*words, **more):
        bench.report.add("start", case, *words, note=f"median of {bench.asked.rounds} starts", **more)

    took, idle, done, depth, megabytes = started_again(bench, ours, bench.asked.members)
    beside, then, *_ = started_again(bench, theirs, done)
    case, idle = f"{done:,} operations, {depth:.0f} in a record, {megabytes:.1f} MB", (idle, then)
    add("time", "seconds", took, beside, idle=idle, digits=3)
    add("rate", "operations a second", done / took, done / beside, least=OPERATIONS, idle=idle, digits=0)
    took, idle, done, _, megabytes = started_again(bench, ours, bench.asked.members, is_switched=True)
    case, idle = f"copies of heaps of {done:,} members, {megabytes:.1f} MB", (idle,)
    add("time", "seconds", took, idle=idle, digits=3)
    add("rate", "members a second", done / took, idle=idle, digits=0)
    add("rate", "MB a second", megabytes / took, least=MEGABYTES, idle=idle, digits=0)


def peak(group):
    """The most bytes that the first server has had in memory so far."""
    return int(re.search(r"VmHWM:\s*(\d+) kB", pathlib.Path(f"/proc/{group.servers[0].pid}/status").read_text())[1]) * 1024


def send(bench, group, path):
    bench.load.run(path, group.ports[0], CONNECTIONS, DEEP, bench.asked.threads)


def fill_with_rounds(bench, group, wanted):
    """Makes a log of rounds so long, which is never switched: it is as long at a start as it may grow until the next one. It answers how
    many members there are, and how many operations."""
    count, turns, found, grows = bench.asked.members // 10, 0, SHORT // 2, 0
    scores = [bench.load.stream(0, count, score=score) for score in (1, 2)]
    while (length := group.length()) < wanted:
        if length + grows > max(SHORT, 2 * found) - LACKS:
            group.again()
            found = length
        send(bench, group, scores[turns % 2])
        grows, turns = max(grows, group.length() - length), turns + 1
    return count, count * turns


def fill_with_members(bench, group, wanted):
    """Adds members of 1,000 bytes until the log is so long, and has it switched: it has copies alone then. It answers the same."""
    count = 0
    while count * 1_050 < wanted:
        path = bench.load.stream(count, PART // 10, name=long_member)
        send(bench, group, path)
        path.unlink()
        count += PART // 10
    group.switch()
    return count, count


def resident_without_data(bench, count, **words):
    """How many bytes a site has without `data` to which so many members were added."""
    with Sites(bench, None, more=FEW) as group:
        for begin in range(0, count, PART // 10):
            path = bench.load.stream(begin, min(PART // 10, count - begin), **words)
            send(bench, group, path)
            path.unlink()
        return group.resident(0)


def started_over(bench, fill, what, **members):
    """The lines of a start over a log that was filled so, with members as these words say."""
    with Sites(bench, "soon", more=FEW) as group:
        count, operations = fill(bench, group, bench.asked.megabytes * 1_000_000)
        took, megabytes = group.again(), group.length() / 1e6
        most = peak(group)
        group.wait_for_members(count)
    has = resident_without_data(bench, count, **members)
    case = f"{what}, {operations:,} operations, {count:,} members, {megabytes:,.0f} MB"

    def add(*words, **more):
        bench.report.add("long", case, *words, **more)

    add("time", "seconds", took, digits=1)
    is_of_rounds = operations > count
    add("rate", "operations a second", operations / took, least=OPERATIONS if is_of_rounds else None, digits=0)
    add("rate", "MB a second", megabytes / took, least=None if is_of_rounds else MEGABYTES, digits=0)
    add("memory of a site without data", "MB", has / 1e6, digits=0)
    add("most memory of a start beyond it", "MB", (most - has) / 1e6, most=MOST_MORE, digits=0)


def measure_long(bench):
    started_over(bench, fill_with_rounds, "rounds", score=1)
    started_over(bench, fill_with_members, "copies of heaps", name=long_member)


def asker_over_switches(bench, make):
    """A client that asked while the log of a server was switched some times, and what was idle."""
    asked = bench.asked
    with make() as group:
        group.fill(asked.members)
        asker = Asker(group)
        with Idle() as idle:
            for switch in range(asked.switches):
                group.near_switch()
                with group.write(asked.rate, 2 * PATIENCE, asked.members, seed=switch + 1) as writer:
                    asker.ask_over_switch()
                    writer.stop()
    return asker, idle.share


def within(waits, part):
    """The milliseconds within which this part of the waits lie."""
    return sorted(waits)[min(len(waits) - 1, int(part * len(waits)))] * 1e3


def measure_switch(bench):
    asked = bench.asked
    for sync, fsync in (("always", "always"), ("soon", "everysec")):
        ours, idle = asker_over_switches(bench, lambda: Sites(bench, sync))
        theirs, then = asker_over_switches(bench, lambda: Redis(bench, fsync))
        case = f"{sync}, {asked.members:,} members, {asked.rate:,} writes a second"
        more = {"note": f"switches: {asked.switches}, asks in them: {len(ours.inside)}", "idle": (idle, then)}
        for what, part, where, most in WAITS:
            waits = (within(getattr(each, where), part) for each in (ours, theirs))
            bench.report.add("switch", case, what, "ms", *waits, most=most, **more)
        lasted = (statistics.median(each.lasted) for each in (ours, theirs))
        bench.report.add("switch", case, "time of a switch", "seconds", *lasted, **more)


ROWS = {"always": measure_always, "soon": measure_soon, "bytes": measure_bytes, "start": measure_start, "long": measure_long,
        "switch": measure_switch}


def rows(text):
    """The rows that stand between commas."""
    names = text.split(",")
    for name in names:
        if name not in ROWS:
            raise argparse.ArgumentTypeError(f"{name}: no such row")
    return names


def file_system(folder):
    """The kind of file system that a folder is on, and its device."""
    found = ("", "unknown", "unknown")
    for line in pathlib.Path("/proc/self/mountinfo").read_text().splitlines():
        before, _, behind = line.partition(" - ")
        place, (kind, device) = before.split()[4], behind.split()[:2]
        if folder.is_relative_to(place) and len(place) >= len(found[0]):
            found = (place, kind, device)
    return found[1:]


def sync_ms(folder, is_over_zeros):
    """The median of the milliseconds of a write and its sync, at the end of a file or over zeros that were synced before."""
    took = []
    with tempfile.TemporaryFile(dir=folder, buffering=0) as file:
        if is_over_zeros:
            file.write(bytes(SYNCS * PIECE))
            os.fsync(file.fileno())
            file.seek(0)
        for _ in range(SYNCS):
            began = time.monotonic()
            file.write(b"x" * PIECE)
            os.fdatasync(file.fileno())
            took.append(time.monotonic() - began)
    return statistics.median(took) * 1e3


def versions(program):
    """What the program and redis-server say they are."""
    said = [subprocess.run(words, stdin=subprocess.DEVNULL, stdout=subprocess.PIPE, stderr=subprocess.STDOUT, text=True).stdout
            for words in ([program], ["redis-server", "--version"])]
    found = [re.search(pattern, text, re.MULTILINE) for pattern, text in zip((r"^zqueue (\d\S*)", r"v=(\S+)"), said)]
    return ", ".join(f"{name} {each[1] if each else 'of no version'}" for name, each in zip(("zqueue", "redis-server"), found))


def print_load(when):
    loads = ", ".join(f"{load:.2f}" for load in os.getloadavg())
    print(f"load average at the {when}: {loads}, of {os.cpu_count()} processors", flush=True)


def parsed():
    words = argparse.ArgumentParser(description=__doc__, formatter_class=argparse.RawDescriptionHelpFormatter)
    words.add_argument("--rows", type=rows, default=list(ROWS), help="between commas: " + " ".join(ROWS))
    words.add_argument("--rounds", type=int, default=5, help="of rates, and starts (5)")
    words.add_argument("--seconds", type=int, default=4, help="of a round of rates (4)")
    words.add_argument("--members", type=int, default=1_000_000, help="of starts and switches; half of them of bytes (1,000,000)")
    words.add_argument("--rate", type=int, default=20_000, help="writes a second around a switch (20,000)")
    words.add_argument("--switches", type=int, default=3, help="in which a client asks (3)")
    words.add_argument("--megabytes", type=int, default=1000, help="of the long logs (1000)")
    words.add_argument("--threads", type=int, default=2, help="of the loader (2)")
    words.add_argument("--folder", type=pathlib.Path, default=pathlib.Path.cwd())
    words.add_argument("--tmpfs", action="store_true", help="takes a folder in memory too")
    words.add_argument("--csv", action="store_true", help="prints lines of bench/results too")
    words.add_argument("--form", default="a log on disk", help="the form of the code, in these lines")
    words.add_argument("--program", type=pathlib.Path, help="in place of the one that is proved and built here")
    asked = words.parse_args()
    if min(asked.rounds, asked.seconds, asked.rate, asked.switches, asked.threads) < 1 or asked.members < 100:
        words.error("a number is too small")
    return asked


def main():
    asked = parsed()
    for number in (signal.SIGTERM, signal.SIGHUP):
        signal.signal(number, lambda number, _: sys.exit(128 + number))
    linked.needed()
    asked.folder = asked.folder.resolve()
    kind, device = file_system(asked.folder)
    if kind in ("tmpfs", "ramfs") and not asked.tmpfs:
        sys.exit(f"data.py: the folder is on {kind}: name one that is on a disk, or say --tmpfs")
    program = asked.program.resolve() if asked.program else served.built()
    print(versions(program))
    at_end, over_zeros = (sync_ms(asked.folder, is_over_zeros) for is_over_zeros in (False, True))
    print(f"{kind} on {device}: {SYNCS} writes of 4 KiB, each with its sync, median {at_end:.3f} ms at the end of a file, "
          f"{over_zeros:.3f} ms over zeros", flush=True)
    print_load("start")
    with tempfile.TemporaryDirectory(prefix="zqueue-load-") as folder:
        bench = Bench(program, folder, asked)
        for row in asked.rows:
            try:
                ROWS[row](bench)
            except (RuntimeError, OSError, subprocess.SubprocessError) as fault:
                bench.report.give_up(row, fault)
        bench.report.end(None)
    print_load("end")
    if asked.csv:
        bench.report.print_lines(asked.form)
    return 0


if __name__ == "__main__":
    sys.exit(main())
