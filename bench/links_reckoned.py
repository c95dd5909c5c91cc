"""What links.py makes of its readings, tried on readings by hand."""
import types

import reckoned
from linked import MARK, Counters
from reckoned import unless

SENT, WAYS = 1000, ("out", "back")
# What a group of so many servers has to be given of what was written and of its marks, each once.
DUE = {count: (SENT + MARK * count) * (count - 1) for count in (2, 3)}


def counters(**values):
    """What a relay has carried over its first pair: the same of each name both ways. Of a kind of frames `frames_10` are so many."""
    return Counters({(0, way, name.replace("_", ".")): value for name, value in values.items() for way in WAYS})


class Written:
    """A writer that sent so much in a second."""

    def __enter__(self):
        return self

    def __exit__(self, *_):
        pass

    def figures(self):
        return {"sent": SENT, "seconds": 1.0}

    def stop(self):
        return self.figures()


class Readings:
    """A group by hand: what its relay had carried at each look, and whether its servers come to be alike."""

    def __init__(self, count, looks, are_alike=True, busy=(), back=None):
        self.count, self.looks, self.is_alike, self.busy, self.came = count, list(looks), are_alike, list(busy), back
        self.writable, self.relay = list(range(count)), types.SimpleNamespace(do=lambda *_: None)

    def are_alike(self, *_):
        return self.is_alike

    def counted(self):
        return self.looks.pop(0)

    def write(self, *_, **__):
        return Written()

    def mark(self, *_):
        return b"mark", 0

    def seconds_until(self, *_):
        return 0.5 if self.is_alike else None

    def busy_by_thread(self, _):
        return self.busy.pop(0)

    def back(self, *_):
        return self.came


def copies(links, count, times, is_alike=True, **more):
    """What is found of a group over whose links each operation went so many times, 50 bytes for each. Both ways are counted together."""
    links.rest = lambda *_: None
    due, names = DUE[count] * times / 2, {"operations": 0, "bytes": 0, **dict.fromkeys(more, 0)}
    looks = [counters(**names), counters(**{"operations": due, "bytes": 50 * due, **more})]
    return links.copies_of(Readings(count, looks, is_alike), SENT, types.SimpleNamespace(seconds=1, patience=1))


def copies_found(links):
    """Copies, bytes and heaps, of two and of three sites."""
    for count in (2, 3):
        once, twice = copies(links, count, 1), copies(links, count, 2)
        yield unless(f"{count} sites, each once", (once["copies"], once["bytes"], once["heaps"], once["is_alike"]), (1.0, 50.0, 0, True))
        yield unless(f"{count} sites, each twice", (twice["copies"], twice["bytes"]), (2.0, 100.0))
    yield unless("writes a second", copies(links, 2, 1)["rate"], 1000.0)
    yield unless("a state and three pieces, both ways", copies(links, 2, 1, frames_3=1, frames_10=3)["heaps"], 8)
    yield unless("a member that one site lacks", copies(links, 2, 1, is_alike=False)["is_alike"], False)


def missed(links, told):
    """The measures that a row reports as missed."""
    bench = types.SimpleNamespace(report=links.Report(), sizes=links.Sizes(True, False), both=lambda *_, **__: told)
    bench.sizes.copies, bench.sizes.fresh = bench.sizes.copies[:1], bench.sizes.fresh[:1]
    (links.measure_copies if told[1].get("copies") else links.measure_fresh)(bench)
    return [figure["measure"] for figure in bench.report.figures if figure["is_missed"]]


def rows_found(links):
    """Which aims are missed."""
    well = {"copies": 1.0, "bytes": 45.0, "heaps": 0, "is_alike": True, "rate": 1000.0, "idle": 0.5}
    for what, other, wanted in (
            ("all is well", {}, []), ("each operation went twice", {"copies": 2.0}, ["copies of an operation"]),
            ("a piece went", {"heaps": 1}, ["heaps and pieces"]), ("a site lacks a member", {"is_alike": False}, ["copies of an operation"])):
        yield unless(what, missed(links, [{**well, **other}, well]), wanted)
    soon = {"p50_ms": 1.0, "p99_ms": 2.0, "never": 0.0, "counted": 100.0, "idle": 0.5}
    for what, other, wanted in (
            ("all is soon there", {}, []), ("the median is late", {"p50_ms": 3.0}, ["median, ms"]),
            ("two of a hundred are never there", {"never": 2.0}, ["99 of 100, ms"]), ("one of a hundred is not", {"never": 1.0}, [])):
        yield unless(what, missed(links, [{**soon, **other}, soon]), wanted)
    yield unless("a group that is not alike", missed(links, [None, soon]), ["median, ms", "99 of 100, ms"])


def aims_found(links):
    """What a report says of figures beside their aims."""
    report = links.Report()
    for ours, most, least in ((1.02, 1.02, None), (1.03, 1.02, None), (5, None, 5), (4, None, 5), (None, 1, None), (None, None, None)):
        report.add("row", "case", "measure", ours, most=most, least=least)
    yield unless("aims", [each["is_missed"] for each in report.figures], [False, True, False, True, True, False])
    report.give_up("row", RuntimeError("it ended"))
    yield unless("a row that broke off", report.figures[-1]["is_missed"], True)


def catch_found(links):
    """How fast a site caught up: 1,000 operations in half a second, of which its busiest thread was busy for a quarter."""
    group = Readings(2, [], busy=[{"1": 1.0, "2": 9.0}, {"1": 1.25, "2": 9.125}],
                     back={"seconds": 0.5, "dialled": 0.1, "frames": {11: 4}, "operations": SENT, "bytes": 40000.0})
    came = links.catch_up_of(group, SENT, types.SimpleNamespace(patience=1))
    yield unless("operations a second, by the busiest thread, bytes", (came["rate"], came["busiest"], came["bytes"]), (2000.0, 4000.0, 40.0))
    yield unless("a site that is not alike", links.catch_up_of(Readings(2, [], False), SENT, types.SimpleNamespace(patience=1)), None)
    yield unless("frames in words", links.frames_told({4: 1, 5: 2, 10: 3}), "3 Have, 3 Piece")
    yield unless("the busiest of three threads, one of them new", links.busiest({"1": 2.0, "2": 5.0, "3": 1.5}, {"1": 1.0, "2": 4.0}), 1.5)


def check(links):
    return [line for part in (copies_found, rows_found, aims_found, catch_found) for line in part(links)]


# Each of these would give another figure, or take one for right that is not.
BREACHES = [
    ("linked.MARK * len(group.writable)) * (group.count - 1)", "linked.MARK * len(group.writable))"),
    ("(wrote[\"sent\"] + linked.MARK * len(group.writable))", "wrote[\"sent\"]"),
    ("frames.get(STATE, 0) + frames.get(PIECE, 0)", "frames.get(STATE, 0)"),
    ("is_there and group.are_alike(sizes.patience)}\n\n\ndef measure_copies", "True}\n\n\ndef measure_copies"),
    ("ours[\"copies\"] if ours[\"is_alike\"] else None", "ours[\"copies\"]"),
    ("(ours is None or ours > most)", "(ours is not None and ours > most)"),
    ("(ours is None or ours < least)", "(ours is None or ours > least)"),
    ("None if ours and ours[\"never\"] > 0.01 * ours[\"counted\"] else part(ours, \"p99_ms\")", "part(ours, \"p99_ms\")"),
    ("made / max(spent.values())", "made / min(spent.values())"),
    ("figures[\"bytes\"] / made", "figures[\"bytes\"]"),
    ("seconds - before.get(thread, 0.0)", "seconds"),
    ("\"is_missed\": True, \"most\"", "\"is_missed\": False, \"most\""),
]


def faults():
    return reckoned.faults("links", check, BREACHES)
