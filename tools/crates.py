"""What crates.txt says, what each crate's proof takes, and which provers run now, for the tools beside this file."""
import os
import pathlib
from typing import NamedTuple

ROOT = pathlib.Path(__file__).resolve().parent.parent
SHARES = ROOT / "tools" / "shares.tsv"
# Seconds that a crate is taken to need which has no row among the shares.
UNKNOWN = 60.0


def lines_of(text):
    """The line of each crate of a crates.txt, by its name, without comments."""
    lines = (line.split("#")[0].strip() for line in text.splitlines())
    return {line.split(":")[0].split()[0]: line for line in lines if ":" in line}


def needs_of(text):
    """What each crate of a crates.txt stands on."""
    return {name: line.split(":")[1].split() for name, line in lines_of(text).items()}


def in_order(needs, wanted):
    """The wanted crates and those of the repository below them, each behind those that it stands on."""
    ordered = []

    def visit(name):
        if name in needs and name not in ordered:
            for need in needs[name]:
                visit(need)
            ordered.append(name)

    for name in wanted:
        visit(name)
    return ordered


def has_tests(folder):
    """Whether a crate has tests in it."""
    return any("#[test]" in path.read_text() for path in folder.glob("src/**/*.rt"))


def shares_of(text):
    """What the proof of each crate takes and that of its tests, in seconds, by (crate, part)."""
    rows = [line.split("\t") for line in text.splitlines() if line and not line.startswith("#")]
    return {(name, part): float(cell) for name, *cells in rows for part, cell in zip(("proof", "tests"), cells)}


class Prover(NamedTuple):
    """A process of the toolchain that checks a crate."""

    process: tuple  # its number and when it started: no other process has both
    part: tuple  # the crate, and "proof", "tests" or "edits"
    session: int
    ticks: int  # of processor time


def part_of(words, folder):
    """Which crate a process checks, as its words and its folder say, and for which part; None where it is no prover."""
    if not words or os.path.basename(words[0]) != "rattle" or "--crate-name" not in words[:-1]:
        return None
    name = words[words.index("--crate-name") + 1]
    return name, "edits" if "/rt-edit-" in folder else "tests" if "--test" in words else "proof"


def provers():
    """The provers that run on this machine now."""
    found = []
    for process in pathlib.Path("/proc").glob("[0-9]*"):
        try:
            words = process.joinpath("cmdline").read_bytes().decode(errors="replace").split("\0")
            part = part_of(words, os.readlink(process / "cwd"))
            if part:
                fields = process.joinpath("stat").read_text().rpartition(")")[2].split()
                found.append(Prover((process.name, fields[19]), part, int(fields[3]), int(fields[11]) + int(fields[12])))
        except OSError:
            continue
    return found
