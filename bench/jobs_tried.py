"""What jobs.py makes of what workers popped, tried on pops by hand, and its workers themselves, at plain servers (stand.py)."""
import shutil
import sys
import tempfile

import linked
import reckoned
from apart import Client
from linked import Group
from reckoned import unless
from stand import Stand

# So many jobs are popped. A server by the plain model takes its time for each.
COUNT = 200


class Plain(Group):
    """Plain servers that know nothing of each other: so many, each reached at so many places."""

    def __init__(self, tools, count, places):
        super().__init__(tools)
        try:
            self.servers = {server: self.held.enter_context(Stand()) for server in range(count)}
            self.ports, self.writable = [stand.port for stand in self.servers.values()] * places, list(range(count))
        except BaseException:
            self.held.close()
            raise


def counted(pops, jobs, doubles, lost, effects):
    return {"pops": pops, "jobs": jobs, "doubles": doubles, "lost": lost, "effects": effects}


def judged_found(jobs):
    """What is counted of pops by hand."""
    for what, popped, added, wanted in (
            ("each job once, by two workers", [[b"a"], [b"b"]], 2, counted(2, 2, 0, 0, 2)),
            ("a job popped at two sites", [[b"a", b"b"], [b"b"]], 2, counted(3, 2, 1, 0, 2)),
            ("a job popped at three sites is one that was popped twice", [[b"a"], [b"a"], [b"a"]], 1, counted(3, 1, 1, 0, 1)),
            ("a job popped twice at one site", [[b"a", b"a"], []], 1, counted(2, 1, 1, 0, 1)),
            ("a job that nobody popped", [[b"a"], []], 2, counted(1, 2, 0, 1, 1))):
        yield unless(what, jobs.judged(popped, added), wanted)


def report_found(jobs):
    """Which runs a report takes for breaches."""
    well = {**counted(2, 2, 0, 0, 2), "is_dry": True, "idle": 0.5}
    for what, other, most, wanted in (
            ("all is well", {}, 0, False), ("a job is popped twice where none may be", {"doubles": 1}, 0, True),
            ("as many are popped twice as may be", {"doubles": 3}, 3, False), ("one more is", {"doubles": 4}, 3, True),
            ("many are popped twice where any number may be", {"doubles": 2}, None, False), ("a job is never popped", {"lost": 1}, None, True),
            ("jobs are left", {"is_dry": False}, None, True), ("a job has two effects", {"effects": 3, "pops": 4}, None, True)):
        report = jobs.Report()
        report.add("pattern", "case", {**well, **other}, most)
        yield unless(what, report.has_failed, wanted)
    report = jobs.Report()
    report.give_up("pattern", RuntimeError("it ended"))
    yield unless("a part that broke off", report.has_failed, True)


def cases_found(jobs):
    """Which runs are made of all: two numbers of sites, two delays, four rates, with cuts or without, and two commands."""
    for only, count in (([], 64), (["3 sites"], 32), (["3 sites", "ZPOPMIN"], 16), (["cuts"], 32), (["4 sites"], 0)):
        yield unless(f"runs of {only}", len(jobs.chosen(jobs.cases(False), only)), count)


def check(jobs):
    return [line for part in (judged_found, report_found, cases_found) for line in part(jobs)]


# Each of these would count otherwise, or pass what is none.
BREACHES = [
    ("count > 1 for count", "count > 2 for count"),
    ("sum(count > 1 for count in times.values())", "sum(times.values()) - len(times)"),
    ("\"lost\": added - len(times)", "\"lost\": 0"),
    ("effects += job not in done", "effects += 1"),
    ("came[\"lost\"] or not came[\"is_dry\"]", "came[\"lost\"]"),
    ("came[\"lost\"] or not came[\"is_dry\"]", "not came[\"is_dry\"]"),
    ("most is not None and came[\"doubles\"] > most", "most and came[\"doubles\"] > most"),
    ("came[\"effects\"] > came[\"jobs\"]", "came[\"effects\"] > came[\"pops\"]"),
    ("self.has_failed |= bool(fault)", "self.has_failed = False"),
    ("all(text in case.told() for text in only)", "any(text in case.told() for text in only)"),
    ("for sites in (2, 3) for delay in DELAYS\n            for rate", "for sites in (2,) for delay in DELAYS\n            for rate"),
]


def pop_all(jobs, group, places):
    """What workers pop until there is nothing left."""
    with jobs.Workers(group, "ZPOPMIN", places) as workers:
        jobs.has_run_dry(group, [jobs.JOBS])
        return workers.stop()


def workers_found(jobs, tools):
    """What workers pop at servers apart, where each job is popped at both, and two workers at one server, where none is."""
    places = [(0, [jobs.JOBS]), (1, [jobs.JOBS])]
    with Plain(tools, 2, 1) as group:
        for server in (0, 1):
            group.fill(COUNT, server, jobs.JOBS)
        came = jobs.judged(pop_all(jobs, group, places), COUNT)
        yield unless("two servers apart", came, counted(2 * COUNT, COUNT, COUNT, 0, COUNT))
    with Plain(tools, 1, 2) as group:
        group.fill(COUNT, 0, jobs.JOBS)
        came = jobs.judged(pop_all(jobs, group, places), COUNT)
        yield unless("two workers at one server", came, counted(COUNT, COUNT, 0, 0, COUNT))


def keys_found(jobs, tools):
    """What a worker does otherwise than it was told."""
    own, given = jobs.key_of(0), jobs.key_of(1)
    with Plain(tools, 1, 1) as group, jobs.Workers(group, "ZPOPMIN", [(0, [own])]) as workers, Client(group.ports[0]) as client:
        group.fill(50, 0, given)
        workers.children[0].tell(given.decode())
        yield "" if jobs.has_run_dry(group, [given]) else "a worker that was given a key leaves it"
        workers.children[0].tell("-" + given.decode())
        group.fill(50, 0, given)
        group.fill(50, 0, own)
        yield "" if jobs.has_run_dry(group, [own]) else "a worker leaves its first key"
        yield unless("jobs of a key that it was to leave", client.ask(b"ZCARD", given), b":50\r\n")
        yield unless("jobs that it told of", len(workers.stop()[0]), 100)


# What a worker would do otherwise.
WORKERS_BREACHES = [
    ("*(key.decode() for key in keys)]", "*(key.decode()[:-1] for key in keys)]"),
    ("self.process.stdin.write(line + \"\\n\")", "self.process.stdin.write(line.strip(\"-\") + \"\\n\")"),
]


def workers_tried(jobs, tools, patience):
    """What is found of workers that are waited for so many seconds."""
    jobs.PATIENCE = patience
    return reckoned.found_in(lambda bench: [*workers_found(bench, tools), *keys_found(bench, tools)], jobs)


def faults():
    """All of it. Workers are tried where there is a C compiler."""
    found = reckoned.faults("jobs", check, BREACHES)
    if shutil.which("cc") is None:
        print("jobs: there is no C compiler (cc), so workers are not tried", file=sys.stderr)
        return found
    with tempfile.TemporaryDirectory() as folder:
        tools = linked.Tools(folder)
        found += workers_tried(reckoned.bench_of("jobs"), tools, 60)
        for old, new in WORKERS_BREACHES:
            if not workers_tried(reckoned.bench_of("jobs", old, new), tools, 1):
                found.append(f"{new!r} in place of {old!r} is not noticed")
    return found
