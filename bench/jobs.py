#!/usr/bin/env python3
"""One job queue at several `zqueue site` processes: how often two sites pop the same job, and what three patterns that avoid it do.
Jobs are members of their own, each added once, at all sites in turn. A worker at each site pops one job after the other, as fast as it
can. Links go over a relay (relay.c) that delays them, and cuts them where that is said: for half a second, every two seconds.

    doubles  all workers pop one key at their own site. Expected: doubles, the more jobs wait and the longer a change is under way
    keys     a key for each site, which only that site's worker pops; half-way a site goes and another one takes its key over, as an
             operator does who stops its worker, waits until its last pop is at the other site, and then tells the worker there.
             Expected: 0. Where the site is cut off first and its worker is stopped half a second later, nothing can be waited for:
             the jobs that it popped since then are popped again. Expected: no more than these, and those under way when it was cut off
    one      all workers pop at one site. Expected: 0
    effects  as in `doubles`, and a job that is done already has no effect again. Expected: one effect for each job

Usage: bench/jobs.py [--quick] [--seconds N] [--only TEXT ..] [--json FILE] [--program PATH] [PART ..]
       bench/jobs.py --self-test
It prints a line for each run: how many pops there were, of how many jobs, how many jobs were popped twice, and which part of all jobs
that is. With --only just the runs of `doubles` are made whose case has each of these texts, as "3 sites". Rates are of jobs added a
second in all; `waiting` jobs were all added before. Status 1 where a job was never popped, or an expectation does not hold. Needs a C
compiler.
"""
import argparse
import collections
import contextlib
import dataclasses
import json
import pathlib
import signal
import subprocess
import sys
import tempfile
import threading
import time

import jobs_tried
import linked
import served
from apart import Client
from linked import Child, Idle, Sites

JOBS = b"jobs:00000"
WAITING = 20000
DELAYS = (0.0005, 0.05)
PATIENCE = 60
CUT, WHOLE = 0.5, 1.5


@dataclasses.dataclass(frozen=True)
class Case:
    """A run: how many sites, seconds of delay each way, jobs a second (0: they wait), whether links are cut, and the command."""
    sites: int
    delay: float
    rate: int
    has_cuts: bool = False
    command: str = "ZPOPMIN"

    def told(self):
        return (f"{self.sites} sites, {self.delay * 1e3:g} ms, " + (f"{self.rate:,}/s" if self.rate else f"{WAITING:,} waiting")
                + (", cuts" if self.has_cuts else "") + f", {self.command}")


def key_of(site):
    return b"jobs:%05d" % site


class Workers:
    """A worker for each server and its keys."""

    def __init__(self, group, command, places):
        self.group, self.command, self.places = group, command, places
        self.held, self.children, self.paths = contextlib.ExitStack(), [], []

    def __enter__(self):
        for number, (server, keys) in enumerate(self.places):
            path = self.group.folder / f"{number}.popped"
            self.paths.append(path)
            out = self.held.enter_context(open(path, "wb"))
            words = [self.group.tools.popper, self.command, self.group.ports[server], *(key.decode() for key in keys)]
            self.children.append(self.held.enter_context(Popper(out, *words)))
        return self

    def popped(self, number):
        """What a worker has popped so far."""
        return self.paths[number].read_bytes().split()

    def stop(self):
        """Ends them, and answers what each has popped."""
        for child in self.children:
            child.process.stdin.close()
        for child in self.children:
            if child.process.wait() != 0:
                raise RuntimeError("a worker failed")
        return [self.popped(number) for number in range(len(self.places))]

    def __exit__(self, *_):
        self.held.close()


class Popper(Child):
    """A worker whose pops go to a file."""

    def __init__(self, out, *words):
        self.process = subprocess.Popen(served.guarded([str(word) for word in words]), stdin=subprocess.PIPE, stdout=out,
                                        stderr=subprocess.PIPE, text=True)

    def tell(self, line):
        """Has it take a key, or with a `-` before it leave one; it has done so then."""
        self.process.stdin.write(line + "\n")
        self.process.stdin.flush()
        if self.process.stderr.readline() != "done\n":
            raise RuntimeError("a worker does not do what it was told")

    def __exit__(self, *_):
        self.process.kill()
        self.process.wait()
        with contextlib.suppress(OSError):
            self.process.stdin.close()
        self.process.stderr.close()


class Cuts(threading.Thread):
    """Cuts all links from time to time, until its `with` ends."""

    def __init__(self, relay, is_wanted):
        super().__init__(daemon=True)
        self.relay, self.is_wanted, self.is_over = relay, is_wanted, threading.Event()

    def run(self):
        while not self.is_over.wait(WHOLE / 2):
            self.relay.do("cut", "all")
            self.is_over.wait(CUT)
            self.relay.do("go", "all")
            self.is_over.wait(WHOLE / 2)

    def __enter__(self):
        if self.is_wanted:
            self.start()
        return self

    def __exit__(self, *_):
        self.is_over.set()
        if self.is_wanted:
            self.join()


def has_run_dry(group, keys):
    """Whether all servers come to have no job left."""
    end = time.monotonic() + PATIENCE
    with contextlib.ExitStack() as held:
        clients = [held.enter_context(Client(group.ports[server])) for server in group.servers]
        while time.monotonic() < end:
            if all(client.ask(b"ZCARD", key) == b":0\r\n" for client in clients for key in keys):
                return True
            time.sleep(0.05)
    return False


def judged(popped, added):
    """What came of so many jobs, where each worker popped these."""
    times = collections.Counter(job for each in popped for job in each)
    done, effects = set(), 0
    for job in (job for each in popped for job in each):
        effects += job not in done
        done.add(job)
    return {"pops": sum(times.values()), "jobs": added, "doubles": sum(count > 1 for count in times.values()), "lost": added - len(times),
            "effects": effects}


def opened(program, tools, case):
    """The sites of a case, which are linked."""
    group = Sites(program, tools, case.sites, case.delay)
    if group.seconds_until(group.mark()) is None:
        group.__exit__()
        raise RuntimeError("the sites are not linked")
    return group


def run(group, case, seconds, places, keys=(JOBS,), between=None):
    """Has workers at these places pop jobs of these keys, while they are added; `between` is done half-way. What came of it."""
    added = 0 if case.rate else put_waiting(group, keys)
    with Idle() as idle, Workers(group, case.command, places) as workers:
        with Cuts(group.relay, case.has_cuts), contextlib.ExitStack() as held:
            writers = [held.enter_context(group.write(case.rate / len(keys), 1000, seed=1 + number, key=key))
                       for number, key in enumerate(keys) if case.rate]
            time.sleep(seconds / 2)
            more = between(workers) if between else {}
            time.sleep(seconds / 2)
            added += sum(int(writer.stop()["sent"]) for writer in writers)
        is_dry = has_run_dry(group, keys)
        popped = workers.stop()
    return {**judged(popped, added), **more, "is_dry": is_dry, "idle": idle.share}


def put_waiting(group, keys):
    """Adds jobs at the first server, and waits until they are at all. How many."""
    for number, key in enumerate(keys):
        with group.write(WAITING // len(keys), 1, seed=100 + number, key=key, servers=[0]) as writer:
            writer.figures()
    if group.seconds_until(group.mark()) is None:
        raise RuntimeError("the jobs do not come to all sites")
    return WAITING // len(keys) * len(keys)


class Report:
    """The runs, which are printed as they come."""

    def __init__(self):
        self.runs, self.has_failed = [], False
        print("| pattern | case | pops | jobs | popped twice | part of all | expected | idle |\n|---|---|---|---|---|---|---|---|", flush=True)

    def add(self, pattern, told, came, most=None, note=""):
        """A run, and the most jobs that may be popped twice, where that is known."""
        fault = (came["lost"] or not came["is_dry"]) and f"{came['lost']:,} never popped" or ""
        if most is not None and came["doubles"] > most:
            fault = "too many"
        if came["effects"] > came["jobs"]:
            fault = f"{came['effects']:,} effects"
        self.has_failed |= bool(fault)
        expected = ("-" if most is None else f"≤ {most:,}" if most else "0") + note + (f" **{fault}**" if fault else "")
        print(f"| {pattern} | {told} | {came['pops']:,} | {came['jobs']:,} | {came['doubles']:,} | {came['doubles'] / max(1, came['jobs']):.4f} | "
              f"{expected} | {came['idle']:.2f} |", flush=True)
        self.runs.append({"pattern": pattern, "case": told, "most": most, "fault": fault, **came})

    def give_up(self, part, fault):
        """A part that broke off."""
        self.has_failed = True
        print(f"| {part} | **given up: {str(fault)[:200]}** | | | | | | |", flush=True)


@dataclasses.dataclass
class Bench:
    program: pathlib.Path
    tools: linked.Tools
    seconds: float
    is_quick: bool
    only: list
    report: Report


def each_alone(case):
    """A worker at each site, which pops the one key."""
    return [(site, [JOBS]) for site in range(case.sites)]


def cases(is_quick):
    """The runs of all workers at one key."""
    if is_quick:
        return [Case(2, 0.0005, 1000), Case(2, 0.05, 1000), Case(2, 0.05, 1000, True), Case(3, 0.0005, 10000), Case(2, 0.0005, 0),
                Case(2, 0.0005, 0, command="ZPOPNEAR"), Case(2, 0.05, 1000, command="ZPOPNEAR")]
    return [Case(sites, delay, rate, has_cuts, command) for command in ("ZPOPMIN", "ZPOPNEAR") for sites in (2, 3) for delay in DELAYS
            for rate in (100, 1000, 10000, 0) for has_cuts in (False, True)]


def chosen(cases, only):
    """The cases that have each of these texts."""
    return [case for case in cases if all(text in case.told() for text in only)]


def measure_doubles(bench):
    for case in chosen(cases(bench.is_quick), bench.only):
        with opened(bench.program, bench.tools, case) as group:
            bench.report.add("one key", case.told(), run(group, case, bench.seconds, each_alone(case)))


def take_over(group, workers, is_cut):
    """The last site goes, and the first one takes its key over. How many jobs it popped that nobody else could know of."""
    last = group.count - 1
    if is_cut:
        before = len(workers.popped(last))
        for sites, pair in group.pairs.items():
            if last in sites:
                group.relay.do("cut", pair)
        time.sleep(CUT)
    workers.children[last].tell("-" + key_of(last).decode())
    if not is_cut:
        if group.seconds_until(group.mark([last]), servers=[0]) is None:
            raise RuntimeError("the last pop of a site does not come")
        before = len(workers.popped(last))
    workers.children[0].tell(key_of(last).decode())
    unknown = len(workers.popped(last)) - before
    if is_cut:
        group.relay.do("go", "all")
    return {"unknown": unknown}


def measure_keys(bench):
    for sites in (2, 3):
        for delay in DELAYS:
            case, keys = Case(sites, delay, 1000), [key_of(site) for site in range(sites)]
            places = [(site, [keys[site]]) for site in range(sites)]
            for is_cut in (False, True):
                with opened(bench.program, bench.tools, case) as group:
                    came = run(group, case, bench.seconds, places, keys, lambda workers: take_over(group, workers, is_cut))
                # Under way at the cut are the pops of one delay, and of what a busy machine adds to it.
                most = came["unknown"] + round(case.rate / sites * (delay + 0.2)) if is_cut else 0
                bench.report.add("a key each", case.told() + (", a site is cut off" if is_cut else ", a site goes"), came, most,
                                 f": {came['unknown']:,} after the cut" if is_cut else "")


def measure_one(bench):
    for sites in (2, 3):
        for case in (Case(sites, 0.0005, 10000), Case(sites, 0.05, 1000, True), Case(sites, 0.05, 0)):
            with opened(bench.program, bench.tools, case) as group:
                came = run(group, case, bench.seconds, [(0, [JOBS])] * sites)
            bench.report.add("pops at one site", case.told(), came, 0)


def measure_effects(bench):
    for case in (Case(2, 0.05, 1000), Case(3, 0.0005, 0), Case(3, 0.05, 1000, True)):
        with opened(bench.program, bench.tools, case) as group:
            came = run(group, case, bench.seconds, each_alone(case))
        told = f"{case.told()}: {came['effects']:,} effects"
        bench.report.add("jobs that may be repeated", told, came, note=": one effect each")


PARTS = {"doubles": measure_doubles, "keys": measure_keys, "one": measure_one, "effects": measure_effects}


def main():
    words = argparse.ArgumentParser(description=__doc__, formatter_class=argparse.RawDescriptionHelpFormatter)
    words.add_argument("--quick", action="store_true", help="a few runs of a second")
    words.add_argument("--seconds", type=float, help="for which jobs are added in a run (4)")
    words.add_argument("--only", action="append", default=[], metavar="TEXT", help="of `doubles` the runs whose case has this text")
    words.add_argument("--json", type=pathlib.Path, metavar="FILE", help="keeps the runs there")
    words.add_argument("--program", type=pathlib.Path, help="in place of the one that is proved and built here")
    words.add_argument("--self-test", action="store_true")
    words.add_argument("parts", nargs="*", metavar="PART", help=" ".join(PARTS))
    options = words.parse_args()
    for part in options.parts:
        if part not in PARTS:
            words.error(f"{part}: no such part")
    for name in (signal.SIGTERM, signal.SIGHUP):
        signal.signal(name, lambda number, _: sys.exit(128 + number))
    if options.self_test:
        found = jobs_tried.faults()
        for line in found:
            print(f"jobs: {line}", file=sys.stderr)
        return 1 if found else 0
    with tempfile.TemporaryDirectory() as folder:
        tools = linked.Tools(folder)
        program = options.program.resolve() if options.program else served.built()
        seconds = options.seconds or (1 if options.quick else 4)
        bench = Bench(program, tools, seconds, options.quick, options.only, Report())
        for part in options.parts or PARTS:
            try:
                PARTS[part](bench)
            except (RuntimeError, OSError) as fault:
                bench.report.give_up(part, fault)
        if options.json:
            options.json.write_text(json.dumps(bench.report.runs, indent=1) + "\n")
    return 1 if bench.report.has_failed else 0


if __name__ == "__main__":
    sys.exit(main())
