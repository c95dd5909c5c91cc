"""What meshes.py makes of what a program writes in the place of `mesh_trials`."""
import pathlib
import tempfile

import reckoned
import recording
from reckoned import unless

# One of its first worlds goes wrong. Of those from seed 8000 on it says nothing, and at seed 9000 it fails.
STAND_IN = """#!/bin/sh
if [ "$2" = 8000 ]; then exit 0; fi
wrong=0
if [ "$2" = 0 ]; then echo "seed 7: a gap before 3: 4"; wrong=1; fi
echo "worlds: $1"
echo "the most beats: $((9 - $2 / 1000))"
echo "worlds that went wrong: $wrong"
if [ "$2" = 9000 ]; then exit 2; fi
exit $wrong
"""


def check(meshes):
    """Worlds in three shares of which one has a world that went wrong, worlds that are well, and a program that fails."""
    found, told = [], []
    with tempfile.TemporaryDirectory() as folder:
        program = pathlib.Path(folder) / "mesh_trials"
        program.write_text(STAND_IN)
        program.chmod(0o755)
        sums = meshes.play_all(program, 0, 2500, 1, told.append)
        found.append(unless("told of a world that went wrong", told, ["seed 7: a gap before 3: 4"]))
        found.append(unless("sums of three shares", sums, {"worlds": 2500, "the most beats": 9, "worlds that went wrong": 1}))
        found.append(unless("the status where a world went wrong", meshes.status(sums, 2500), 1))
        found.append(unless("figures", [row[:3] for row in meshes.figures(0, 2500, sums)][1:],
                            [("2,500 worlds from 0 on", "the most beats", 9), ("2,500 worlds from 0 on", "worlds that went wrong", 1)]))
        well = meshes.play_all(program, 1000, 1500, 2, told.append)
        found.append(unless("the status where all is well", meshes.status(well, 1500), 0))
        found.append(unless("the status where a world was not played", meshes.status(well, 1501), 1))
        found.append(unless("the status where nothing was counted", meshes.status({}, 0), 1))
        found += [fails(meshes, program, first) for first in (8000, 9000)]
    return found


def fails(meshes, program, first):
    """A line where a program that fails, or says nothing, is taken for one that played."""
    try:
        meshes.play_all(program, first, 1, 1, lambda _: None)
    except RuntimeError:
        return ""
    return f"the program from seed {first} on is taken for one that played"


# Each of these would leave worlds out, or pass some that went wrong.
BREACHES = [
    ("range(first, end, SHARE)]", "range(first, end - SHARE, SHARE)]"),
    ("if line.startswith(\"seed \"):", "if line.startswith(\"sow \"):"),
    ("max(sums.get(name, 0), int(number))", "int(number)"),
    ("sums.get(name, 0) + int(number)", "int(number)"),
    ("done.returncode not in (0, 1)", "done.returncode not in (0, 1, 2)"),
    (" or WRONG not in done.stdout", ""),
    ("sums.get(WRONG) == 0 and", "WRONG in sums and"),
    (" and sums.get(\"worlds\") == worlds", ""),
]


def faults():
    return reckoned.faults("meshes", check, BREACHES) + recording.faults()
