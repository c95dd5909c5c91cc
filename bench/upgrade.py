#!/usr/bin/env python3
"""Links sites of two programs: an older one and this one, each dialled by the other, with members of both before they meet and
after, and then upgrades them one by one, each under the next number, while clients write.

Usage: bench/upgrade.py --old PROGRAM [--program PATH]
Without --program this repository's is proved and built first, as `./zqueue` does it. Each breach goes to standard error; status 1
where there is one.
"""
import argparse
import pathlib
import sys
import time

sys.dont_write_bytecode = True
import served
from members import Load, Members, are_alike, holds

# Members that each site has before it meets the other, so many that there are some in each heap.
BEFORE = 5000


def ensure(what, is_well):
    if not is_well:
        raise RuntimeError(what)


def meet(group, lesser, greater):
    """Site 0 of the one program and site 1 of the other, which dials it."""
    first = group.start(0, [1], program=lesser)
    ensure("site 0 takes writes", holds(lambda: first.adds(b"a", 1) == 1))
    first.adds(b"a", BEFORE)
    second = group.start(1, [0], program=greater)
    ensure("site 1 takes writes", holds(lambda: second.adds(b"b", 1) == 1))
    second.adds(b"b", BEFORE)
    ensure("they come to be alike", are_alike([first, second]))
    first.adds(b"c", 100)
    second.adds(b"d", 100)
    ensure("they are alike again", are_alike([first, second]))
    return first, second


def roll(group, old, new):
    """Two sites of the old program give way to two of the new one, while one of them is written to."""
    first = group.start(0, [1, 2, 3], program=old)
    second = group.start(1, [0, 2, 3], program=old)
    load = Load(first, 1000)
    try:
        time.sleep(1)
        third = group.start(2, [0, 1, 3], program=new)
        ensure("the third has what the first has", holds(lambda: third.ask(b"ZCARD", b"q") not in (None, b":0\r\n")))
        second.kill()
        fourth = group.start(3, [0, 1, 2], program=new)
        ensure("the fourth has what the first has", holds(lambda: fourth.ask(b"ZCARD", b"q") not in (None, b":0\r\n")))
    finally:
        load.stop()
    ensure("all are alike", are_alike([first, third, fourth]))
    first.kill()
    ensure("the third takes writes", holds(lambda: third.adds(b"y", 1) == 1))
    ensure("the new ones go on", third.adds(b"z", 10) == 10 and are_alike([third, fourth]))


def main():
    words = argparse.ArgumentParser(description=__doc__, formatter_class=argparse.RawDescriptionHelpFormatter)
    words.add_argument("--old", type=pathlib.Path, required=True)
    words.add_argument("--program", type=pathlib.Path)
    asked = words.parse_args()
    old, new = asked.old.resolve(), asked.program.resolve() if asked.program else served.built()
    tries = [("the old one is dialled", lambda group: meet(group, old, new)),
             ("the old one dials", lambda group: meet(group, new, old)),
             ("one by one", lambda group: roll(group, old, new))]
    status = 0
    for name, attempt in tries:
        started = time.monotonic()
        try:
            with Members(new) as group:
                attempt(group)
        except (OSError, RuntimeError) as breach:
            print(f"upgrade: {name}: {breach}", file=sys.stderr)
            status = 1
        else:
            print(f"{name}: well, in {time.monotonic() - started:.1f} s")
    return status


if __name__ == "__main__":
    sys.exit(main())
