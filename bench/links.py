#!/usr/bin/env python3
"""What links between `zqueue site` processes cost, beside a redis-server and its replica, each in turn. Links go over a relay (relay.c)
that delays and counts what they carry. Sites have 4 heaps and 2 workers, keys 10 bytes and members 16.

    copies   how often an operation goes over a link for each site that has to have it, and the bytes of all frames for it, while 2 and
             3 sites are written to at rates from 100 to 100,000 a second in all
    fresh    milliseconds from a write at one site until it can be read at another one, at rest and beside writers
    away     a link is cut for 10 seconds beside writers: seconds after it is back until all made before is at both sites, and by what
    join     an empty site comes: seconds until it has all, what went for it, the longest call of a client at either site meanwhile, and
             the processor time of the busiest thread of each; and what went for it where two sites could send it
    catch    operations a second that a site takes which was cut off while they were made
    cost     processor time of sending an operation: of the process of the site that is written to, with peers and without
    slow     how much the memory of a site grows whose peer takes nothing, or next to nothing, beside a writer
    large    memory of both sites while members of a mebibyte are added and popped one after the other
    del      a DEL of a large key with two links: the longest call of another client meanwhile, and what went over the links

Usage: bench/links.py [--rows ROW[,ROW..]] [--quick | --long] [--json FILE] [--program PATH] [--no-secret]
       bench/links.py --self-test [--long]
It prints a line for each figure: zqueue's, the aim, redis-server's, and which part of the processors' time was idle meanwhile, zqueue's
run first; and at the end which aims were missed. Where next to nothing was idle the figures tell of the machine. An aim of a time
holds beside the delay of the link, which is said for each way. Needs a C compiler and redis-server.

The self-test tries what is made of readings by hand, and what the relay counts, where there is a C compiler. With --long it also tries
the relay's delays and rates, and writers and probes over redis-server; then an idle machine is needed.
"""
import argparse
import contextlib
import json
import pathlib
import signal
import statistics
import sys
import tempfile
import threading
import time

import linked
import links_reckoned
import links_tried
import served
from apart import Client
from linked import KEY, NAMES, PIECE, STATE, Idle, Replicated, Sites

MIB = 1 << 20
# The most memory that a site may take in the row `large` before the row is given up.
MOST_MEMORY = 2048 * MIB
# A site whose peer takes nothing may keep this much for it: a log, and what is under way.
MOST_KEPT = 65 * MIB
# The most memory of a site that is left with no member: a log, and what a process takes with none.
MOST_EMPTY = 64 * MIB + 100_000_000
# The most bytes of an operation where many go at once.
MOST_BYTES = 60
# The most bytes that a frame may have where heaps go in pieces.
MOST_PIECE = 3 * MIB


class Sizes:
    """How long and how large the rows are."""

    def __init__(self, is_quick, is_long):
        self.seconds = 1 if is_quick else 5
        self.rounds = 1 if is_quick else 3
        self.delays = [0.0005, 0.05]
        self.copies = [(2, 0.0005, 1000), (2, 0.05, 50000), (3, 0.0005, 10000)] if is_quick else [
            (count, delay, rate) for count in (2, 3) for delay in self.delays for rate in (100, 1000, 10000, 50000, 100000)]
        self.fresh = [(0.0005, 0, 0), (0.05, 10000, 0)] if is_quick else [
            (delay, rate, members) for delay in self.delays for members in (0, 1000000) for rate in (0, 10000, 50000)]
        self.members = 100000 if is_quick else 1000000
        # More operations than the logs reach back, so that heaps are sent.
        self.joined = 1000000
        self.away = 2 if is_quick else 10
        self.backlog = 100000 if is_quick else 500000
        self.slow = 3 if is_quick else 600 if is_long else 60
        self.large = 100 if is_quick else 2000
        self.patience = 10 if is_quick else 60


class Report:
    """The figures, which are printed as they come."""

    def __init__(self):
        self.figures = []
        print("| row | case | measure | zqueue | aim | redis-server | idle |\n|---|---|---|---|---|---|---|", flush=True)

    def add(self, row, case, measure, ours, theirs=None, most=None, least=None, idle=(), digits=2):
        """A figure of zqueue and maybe of redis-server. `None` is one that did not come in time, and misses its aim."""
        misses = (most is not None and (ours is None or ours > most)) or (least is not None and (ours is None or ours < least))
        aim = f"≤ {most:,.{digits}f}" if most is not None else f"≥ {least:,.{digits}f}" if least is not None else "-"
        told = [self.told(figure, digits) for figure in (ours, theirs)]
        print("| " + " | ".join([row, case, measure, f"**{told[0]}**" if misses else told[0], aim, told[1] if theirs is not None else "-",
                                 ", ".join(f"{share:.2f}" for share in idle)]) + " |", flush=True)
        self.figures.append({"row": row, "case": case, "measure": measure, "zqueue": ours, "redis-server": theirs, "most": most,
                             "least": least, "is_missed": misses, "idle": list(idle)})

    @staticmethod
    def told(figure, digits):
        return figure if isinstance(figure, str) else "never" if figure is None else f"{figure:,.{digits}f}"

    def give_up(self, row, fault):
        """A row that broke off."""
        print(f"| {row} | **given up: {str(fault)[:200]}** | | | | | |", flush=True)
        self.figures.append({"row": row, "case": "given up", "measure": str(fault), "is_missed": True, "most": None, "least": None})

    def end(self, path):
        missed = [f"{each['row']} ({each['case']}: {each['measure']})" for each in self.figures if each["is_missed"]]
        aims = sum(each["is_missed"] or each["most"] is not None or each["least"] is not None for each in self.figures)
        print(f"missed {len(missed)} of {aims} aims"
              + (": " + "; ".join(missed) if missed else ""))
        if path:
            path.write_text(json.dumps(self.figures, indent=1) + "\n")


class Bench:
    """What all rows have: the tools, how to make both kinds of groups, the sizes, and the report."""

    def __init__(self, program, tools, sizes, secret):
        self.program, self.tools, self.sizes, self.secret, self.report = program, tools, sizes, secret, Report()

    def sites(self, count, delay=0.0, **values):
        return Sites(self.program, self.tools, count, delay, secret=self.secret, **values)

    def replicated(self, count, delay=0.0, **values):
        return Replicated(self.tools, count, delay, **values)

    def both(self, measure, *words, **values):
        """What is measured of sites, and then of redis-server."""
        figures = []
        for make in (self.sites, self.replicated):
            with make(*words, **values) as group:
                figures.append(measure(group))
        return figures


def part(mapping, name):
    """The figure of that name, where there is one."""
    return mapping.get(name) if mapping else None


def frames_told(frames):
    """Frames by kind, in words."""
    counts = {}
    for kind, count in frames.items():
        counts[NAMES[kind]] = counts.get(NAMES[kind], 0) + count
    return ", ".join(f"{count:,} {name}" for name, count in counts.items()) or "none"


def heaps_in(frames):
    """How many frames are heaps or pieces of them."""
    return frames.get(STATE, 0) + frames.get(PIECE, 0)


def rest(relay, patience):
    """Waits until hardly anything goes over the relay, as it does from time to time where nothing is written."""
    end, before = time.monotonic() + patience, relay.counters()
    while time.monotonic() < end:
        time.sleep(0.3)
        after = relay.counters()
        if after.since(before, "operations") == 0 and after.since(before, "bytes") < 4096:
            return
        before = after


# copies

def copies_of(group, rate, sizes):
    """Copies and bytes of an operation for each server that has to have it, while a group is written to."""
    is_there = group.are_alike(sizes.patience)
    rest(group.relay, sizes.patience)
    before = group.counted()
    with Idle() as idle, group.write(rate, sizes.seconds, members=100000) as writer:
        wrote = writer.figures()
        is_there = group.seconds_until(group.mark(), sizes.patience) is not None and is_there
        rest(group.relay, sizes.patience)
    after = group.counted()
    due = (wrote["sent"] + linked.MARK * len(group.writable)) * (group.count - 1)
    return {"copies": after.since(before, "operations") / due, "bytes": after.since(before, "bytes") / due, "idle": idle.share,
            "rate": wrote["sent"] / wrote["seconds"], "heaps": heaps_in(after.frames_since(before)),
            "is_alike": is_there and group.are_alike(sizes.patience)}


def measure_copies(bench):
    for count, delay, rate in bench.sizes.copies:
        ours, theirs = bench.both(lambda group: copies_of(group, rate, bench.sizes), count, delay)
        case = f"{count} sites, {delay * 1e3:g} ms, {rate:,}/s" + (f" ({ours['rate']:,.0f} came)" if ours["rate"] < 0.95 * rate else "")
        case += "" if ours["is_alike"] else ", not alike in time"
        idle = (ours["idle"], theirs["idle"])
        bench.report.add("copies", case, "copies of an operation", ours["copies"] if ours["is_alike"] else None, most=1.02, idle=idle)
        bench.report.add("copies", case, "heaps and pieces", ours["heaps"], most=0, idle=idle, digits=0)
        bench.report.add("copies", case, "bytes an operation", ours["bytes"], theirs["bytes"], most=MOST_BYTES if rate >= 10000 else None,
                         idle=idle, digits=0)


# fresh

def fresh_of(group, delay, rate, members, sizes):
    """How soon a member that is written at the first server is at the second one."""
    if members:
        group.fill(members)
    if not group.are_alike(sizes.patience):
        return None
    with contextlib.ExitStack() as held:
        writer = held.enter_context(group.write(rate, 1000, members or 100000)) if rate else None
        time.sleep(0.3)
        with Idle() as idle:
            figures = group.freshness(2 * sizes.seconds, sizes.patience, delay)
        if writer:
            writer.stop()
    return {**figures, "idle": idle.share}


def measure_fresh(bench):
    for delay, rate, members in bench.sizes.fresh:
        ours, theirs = bench.both(lambda group: fresh_of(group, delay, rate, members, bench.sizes), 2, delay)
        case = f"2 sites, {delay * 1e3:g} ms, {rate:,}/s, {members:,} members"
        if ours and ours["never"]:
            case += f", {ours['never']:.0f} of {ours['never'] + ours['counted']:.0f} never there"
        idle = [each["idle"] for each in (ours, theirs) if each]
        bench.report.add("fresh", case, "median, ms", part(ours, "p50_ms"), part(theirs, "p50_ms"), most=delay * 1e3 + 2, idle=idle)
        late = None if ours and ours["never"] > 0.01 * ours["counted"] else part(ours, "p99_ms")
        bench.report.add("fresh", case, "99 of 100, ms", late, part(theirs, "p99_ms"), most=delay * 1e3 + 10, idle=idle)


# away

def away_of(group, seconds, rate, sizes):
    if not group.are_alike(sizes.patience):
        return None
    with Idle() as idle, group.write(rate, 1000, members=100000) as writer:
        time.sleep(1)
        group.relay.do("cut", "all")
        time.sleep(seconds)
        figures = group.back(0, sizes.patience)
        writer.stop()
    return {**figures, "idle": idle.share, "is_alike": group.are_alike(sizes.patience)}


def measure_away(bench):
    seconds = bench.sizes.away
    for delay in bench.sizes.delays[:1 if seconds < 10 else 2]:
        ours, theirs = bench.both(lambda group: away_of(group, seconds, 20000, bench.sizes), 2, delay)
        case = f"2 sites, {delay * 1e3:g} ms, 20,000/s, cut for {seconds} s" + ("" if ours and ours["is_alike"] else ", not alike in the end")
        idle = [each["idle"] for each in (ours, theirs) if each]
        bench.report.add("away", case, "s from the link's return", part(ours, "seconds"), part(theirs, "seconds"), most=1, idle=idle)
        bench.report.add("away", case, "s until it is dialled", part(ours, "dialled"), part(theirs, "dialled"), idle=idle)
        frames = part(ours, "frames") or {}
        bench.report.add("away", case, "heaps and pieces", heaps_in(frames), most=0, idle=idle, digits=0)
        bench.report.add("away", case, "frames", frames_told(frames), idle=idle)


# join

def join_of(group, members, rate, sizes):
    """What an empty server takes to have all that the others have. Clients that write call it and the first one meanwhile, but for a
    replica."""
    last = group.count - 1
    group.fill(members)
    is_there = group.seconds_until(group.mark([0]), sizes.patience) is not None
    with Idle() as idle, contextlib.ExitStack() as held:
        writer = held.enter_context(group.write(rate, 1000, members, servers=[0]))
        calls = [held.enter_context(group.calls(0))]
        time.sleep(1)
        mark, before, busy = group.mark([0]), group.counted(), group.busy_by_thread(0)
        begin = time.monotonic()
        group.start(last)
        if last in group.writable:
            calls.append(held.enter_context(group.calls(last, b"other:0002")))
        took = group.seconds_until(mark, sizes.patience, [last])
        seconds = None if took is None else time.monotonic() - begin
        after = group.counted()
        spent = [busiest(group.busy_by_thread(0), busy), busiest(group.busy_by_thread(last), {})]
        longest = [each.stop()["longest_ms"] for each in calls]
        writer.stop()
    return {"seconds": seconds, "longest": longest, "busiest": spent, "states": after.since(before, f"frames.{STATE}"),
            "pieces": after.since(before, f"frames.{PIECE}"), "piece_bytes": after.since(before, f"bytes.{PIECE}"),
            "largest": after.largest(), "bytes": after.since(before, "bytes"), "frames": after.frames_since(before), "idle": idle.share,
            "is_alike": is_there and group.are_alike(sizes.patience)}


def busiest(after, before):
    """The most seconds that a thread was busy in between."""
    return max(seconds - before.get(thread, 0.0) for thread, seconds in after.items())


def measure_join(bench):
    members = bench.sizes.joined
    ours, theirs = bench.both(lambda group: join_of(group, members, 10000, bench.sizes), 2, 0.0005, start=1)
    case = joining(2, members, ours)
    idle = (ours["idle"], theirs["idle"])
    bench.report.add("join", case, "s until it has all", ours["seconds"], theirs["seconds"], most=3, idle=idle)
    bench.report.add("join", case, "longest call at the old site, ms", ours["longest"][0], theirs["longest"][0], most=20, idle=idle)
    bench.report.add("join", case, "longest call at the new one, ms", ours["longest"][1], most=20, idle=idle)
    for place, name in enumerate(("old site", "new one")):
        bench.report.add("join", case, f"s of the busiest thread of the {name}", ours["busiest"][place], theirs["busiest"][place], idle=idle)
    bench.report.add("join", case, "State frames", ours["states"], most=0, idle=idle, digits=0)
    bench.report.add("join", case, "pieces", ours["pieces"], idle=idle, digits=0)
    bench.report.add("join", case, "MB in pieces", ours["piece_bytes"] / 1e6, idle=idle)
    bench.report.add("join", case, "MB of the largest frame", ours["largest"] / 1e6, most=MOST_PIECE / 1e6, idle=idle)
    bench.report.add("join", case, "MB in all", ours["bytes"] / 1e6, theirs["bytes"] / 1e6, idle=idle)
    bench.report.add("join", case, "frames", frames_told(ours["frames"]), idle=idle)
    with bench.sites(3, 0.0005, start=2) as group:
        beside_two = join_of(group, members, 10000, bench.sizes)
    case, idle = joining(3, members, beside_two), (beside_two["idle"],)
    bench.report.add("join", case, "s until it has all", beside_two["seconds"], most=3, idle=idle)
    for longest, name in zip(beside_two["longest"], ("first old site", "new one")):
        bench.report.add("join", case, f"longest call at the {name}, ms", longest, most=20, idle=idle)
    # From one source: two would send all of it twice.
    bench.report.add("join", case, "MB in pieces", beside_two["piece_bytes"] / 1e6, most=1.2 * ours["piece_bytes"] / 1e6, idle=idle)


def joining(count, members, came):
    """The case of a site that joins others."""
    return f"{count} sites, 0.5 ms, 10,000/s, {members:,} members" + ("" if came["is_alike"] else ", not alike in the end")


# catch

def written(group, operations):
    """Has so many operations made at the first server, as fast as it takes them."""
    with group.write(operations, 1, members=100000, servers=[0]) as writer:
        return writer.figures()["sent"]


def catch_up_of(group, operations, sizes):
    """How fast the last server takes what was made while it was cut off."""
    if not group.are_alike(sizes.patience):
        return None
    last = group.count - 1
    group.relay.do("cut", "all")
    made = written(group, operations)
    threads = group.busy_by_thread(last)
    with Idle() as idle:
        figures = group.back(0, sizes.patience)
    spent = {thread: seconds - threads.get(thread, 0.0) for thread, seconds in group.busy_by_thread(last).items()}
    return {**figures, "rate": made / figures["seconds"] if figures["seconds"] else None, "busiest": made / max(spent.values()),
            "bytes": figures["bytes"] / made, "idle": idle.share}


def measure_catch(bench):
    operations = bench.sizes.backlog
    ours, theirs = bench.both(lambda group: catch_up_of(group, operations, bench.sizes), 2, 0.0005)
    case = f"2 sites, 0.5 ms, {operations:,} operations made apart"
    idle = [each["idle"] for each in (ours, theirs) if each]
    bench.report.add("catch", case, "operations/s", part(ours, "rate"), part(theirs, "rate"), least=400000, idle=idle, digits=0)
    bench.report.add("catch", case, "operations/s of the busiest thread", part(ours, "busiest"), part(theirs, "busiest"), idle=idle, digits=0)
    bench.report.add("catch", case, "bytes an operation", part(ours, "bytes"), part(theirs, "bytes"), idle=idle, digits=0)
    bench.report.add("catch", case, "frames", frames_told(part(ours, "frames") or {}), idle=idle)


# cost

def busy_of(group, rate, sizes):
    """Microseconds of processor time for each operation that is made at the first server."""
    group.are_alike(sizes.patience)
    group.fill(100000)
    group.are_alike(sizes.patience)
    with Idle() as idle:
        before = group.busy(0)
        with group.write(rate, sizes.seconds, members=100000, servers=[0]) as writer:
            sent = writer.figures()["sent"]
        rest(group.relay, sizes.patience)
        spent = group.busy(0) - before
    return spent / sent * 1e6, idle.share


def measure_cost(bench):
    rate, spent, idle = 50000, {}, []
    for _ in range(bench.sizes.rounds):
        for count in (1, 2, 3):
            for name, make in (("zqueue", bench.sites), ("redis-server", bench.replicated)):
                with make(count, 0.0005) as group:
                    took, share = busy_of(group, rate, bench.sizes)
                spent.setdefault((name, count), []).append(took)
                idle.append(share)
    medians = {case: statistics.median(each) for case, each in spent.items()}
    ours, theirs = ([medians[name, count] for count in (1, 2, 3)] for name in ("zqueue", "redis-server"))
    idle = (statistics.mean(idle),)
    case = f"0.5 ms, {rate:,}/s at one site"
    bench.report.add("cost", case, "µs an operation without a peer", ours[0], theirs[0], idle=idle)
    bench.report.add("cost", case, "µs more with a peer", ours[1] - ours[0], theirs[1] - theirs[0], most=1.2, idle=idle)
    bench.report.add("cost", case, "µs more with a second one", ours[2] - ours[1], theirs[2] - theirs[1], most=0.15, idle=idle)


# slow

def slow_of(group, command, seconds, sizes):
    """By how many bytes the memory of the first server grows while its peer takes nothing."""
    group.fill(10000)
    if not group.are_alike(sizes.patience):
        return None
    with group.write(10000, 100000, members=10000, servers=[0]) as writer:
        time.sleep(min(3, seconds))
        before, most = group.resident(), 0
        group.relay.do(*command)
        with Idle() as idle:
            end = time.monotonic() + seconds
            while time.monotonic() < end:
                time.sleep(0.2)
                most = max(most, group.resident())
            after = group.resident()
        group.relay.do("rate", "all", 0)
        group.relay.do("go", "all")
        writer.stop()
    return {"grown": most - before, "left": after - before, "idle": idle.share, "is_alike": group.are_alike(sizes.patience)}


def measure_slow(bench):
    seconds = bench.sizes.slow
    for told, command in (("takes nothing", ("stall", "all")), ("takes 1,000 bytes a second", ("rate", "all", 1000))):
        ours, theirs = bench.both(lambda group: slow_of(group, command, seconds, bench.sizes), 2, 0.0005)
        case = f"2 sites, 10,000/s, a peer that {told} for {seconds} s" + ("" if ours and ours["is_alike"] else ", not alike in the end")
        idle = [each["idle"] for each in (ours, theirs) if each]
        mib = [None if each is None else each["grown"] / MIB for each in (ours, theirs)]
        bench.report.add("slow", case, "MiB more at most", *mib, most=MOST_KEPT / MIB, idle=idle)


# large

class Watch(threading.Thread):
    """Looks at the memory of servers, and keeps the most of each."""

    def __init__(self, group):
        super().__init__(daemon=True)
        self.group, self.most, self.is_over = group, [0] * group.count, False

    def run(self):
        while not self.is_over:
            for server in self.group.servers:
                with contextlib.suppress(OSError, AttributeError):
                    self.most[server] = max(self.most[server], self.group.resident(server))
            time.sleep(0.02)

    def __enter__(self):
        self.start()
        return self

    def __exit__(self, *_):
        self.is_over = True
        self.join()


def large_of(group, count, sizes):
    """The memory of both servers while members of a mebibyte are added and popped at the first one."""
    group.are_alike(sizes.patience)
    done = 0
    with Idle() as idle, Watch(group) as watch, Client(group.ports[0]) as client:
        for place in range(count):
            name = b"%08d" % place
            if client.ask(b"ZADD", KEY, b"1", name + b"x" * (MIB - len(name))) != b":1\r\n":
                raise RuntimeError("a member is not added")
            client.ask(b"ZPOPMIN", KEY)
            done += 1
            if max(watch.most) > MOST_MEMORY:
                break
        is_alike = group.are_alike(sizes.patience, members=0)
    return {"done": done, "most": max(watch.most), "left": max(group.resident(server) for server in group.servers), "idle": idle.share,
            "is_alike": is_alike}


def measure_large(bench):
    count = bench.sizes.large
    ours, theirs = bench.both(lambda group: large_of(group, count, bench.sizes), 2, 0.0005)
    case = f"2 sites, {count:,} members of 1 MiB" + (f", given up after {ours['done']:,}" if ours["done"] < count else "")
    case += "" if ours["is_alike"] else ", not alike in the end"
    idle = (ours["idle"], theirs["idle"])
    most = MOST_EMPTY / MIB
    bench.report.add("large", case, "MiB at most", ours["most"] / MIB, theirs["most"] / MIB, most=most, idle=idle, digits=0)
    bench.report.add("large", case, "MiB in the end", ours["left"] / MIB, theirs["left"] / MIB, most=most, idle=idle, digits=0)


# del

def del_of(group, members, sizes):
    """How long another client's calls take while a key is deleted and after it, how long the deletion took, and what went for it."""
    group.fill(members)
    for server in range(1, group.count):
        group.start(server)
    is_there = group.are_alike(2 * sizes.patience)
    rest(group.relay, sizes.patience)
    with Idle() as idle, Client(group.ports[0]) as client:
        with group.calls() as calls:
            time.sleep(0.5)
            before, begin = group.counted(), time.monotonic()
            client.ask(b"DEL", KEY)
            took = (time.monotonic() - begin) * 1e3
            during = calls.stop()["longest_ms"]
        with group.calls() as calls:
            until = group.seconds_until(group.mark([0]), sizes.patience)
            until = None if until is None else time.monotonic() - begin - took / 1e3
            later = calls.stop()["longest_ms"]
        after = group.counted()
    return {"took": took, "beyond": max(during - took, 0.0), "later": later, "frames": after.frames_since(before), "until": until,
            "operations": after.since(before, "operations"), "is_alike": is_there and group.are_alike(sizes.patience), "idle": idle.share}


def measure_del(bench):
    members, count = bench.sizes.members, 3
    alone, without = bench.both(lambda group: del_of(group, members, bench.sizes), 1, 0.0005, start=1)
    ours, theirs = bench.both(lambda group: del_of(group, members, bench.sizes), count, 0.0005, start=1)
    case = f"{count} sites, 0.5 ms, a key of {members:,} members" + ("" if ours["is_alike"] else ", not alike in time")
    idle = (ours["idle"], theirs["idle"])
    bench.report.add("del", case, "ms of the DEL", ours["took"], theirs["took"], idle=idle)
    bench.report.add("del", "the same without a peer", "ms of the DEL", alone["took"], without["took"], idle=(alone["idle"], without["idle"]))
    bench.report.add("del", case, "longest call meanwhile, ms beyond the DEL", ours["beyond"], theirs["beyond"], most=20, idle=idle)
    bench.report.add("del", case, "longest call later, ms", ours["later"], theirs["later"], most=20, idle=idle)
    bench.report.add("del", case, "s until it is gone everywhere", ours["until"], theirs["until"], idle=idle)
    bench.report.add("del", case, "heaps and pieces", heaps_in(ours["frames"]), most=0, idle=idle, digits=0)
    bench.report.add("del", case, "operations for each member and link", ours["operations"] / members / (count - 1), most=1.02, idle=idle)


ROWS = {"copies": measure_copies, "fresh": measure_fresh, "away": measure_away, "join": measure_join, "catch": measure_catch,
        "cost": measure_cost, "slow": measure_slow, "large": measure_large, "del": measure_del}


def rows(text):
    """The rows that stand between commas."""
    names = text.split(",")
    for name in names:
        if name not in ROWS:
            raise argparse.ArgumentTypeError(f"{name}: no such row")
    return names


def main():
    words = argparse.ArgumentParser(description=__doc__, formatter_class=argparse.RawDescriptionHelpFormatter)
    words.add_argument("--rows", type=rows, default=list(ROWS), help="between commas: " + " ".join(ROWS))
    words.add_argument("--quick", action="store_true", help="short forms")
    words.add_argument("--long", action="store_true", help="a peer that takes nothing for 600 seconds; a longer self-test")
    words.add_argument("--json", type=pathlib.Path, metavar="FILE", help="keeps the figures there")
    words.add_argument("--program", type=pathlib.Path, help="in place of the one that is proved and built here")
    words.add_argument("--no-secret", action="store_true", help="between the sites")
    words.add_argument("--self-test", action="store_true")
    options = words.parse_args()
    for name in (signal.SIGTERM, signal.SIGHUP):
        signal.signal(name, lambda number, _: sys.exit(128 + number))
    if options.self_test:
        found = links_reckoned.faults() + links_tried.faults(options.long)
        for line in found:
            print(f"links: {line}", file=sys.stderr)
        return 1 if found else 0
    linked.needed()
    with tempfile.TemporaryDirectory() as folder:
        tools = linked.Tools(folder)
        program = options.program.resolve() if options.program else served.built()
        bench = Bench(program, tools, Sizes(options.quick, options.long), None if options.no_secret else linked.SECRET)
        for row in options.rows:
            try:
                ROWS[row](bench)
            except (RuntimeError, OSError) as fault:
                bench.report.give_up(row, fault)
        bench.report.end(options.json)
    return 0


if __name__ == "__main__":
    sys.exit(main())
