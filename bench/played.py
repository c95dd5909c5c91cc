"""A folder on a disk that is played (disk.py), and a site that keeps its log there, for tools/try-data and crash.py. Sites are on loopback;
their folders lie below that of a group (`group.data`)."""
import pathlib
import subprocess

import disk
import served

# The status of a site of which a device failed.
DEVICE = 4
# Seconds within which what is waited for has to come: sites are alike, a disk is found full or free, a site has ended.
ALIKE, SEEN, ENDING = 120, 10, 30


class Played:
    """A folder on a disk that is played: one that fails at a call, a name and a number from 1, and is otherwise as `values` say. Where
    it is late, that it is full shows at a sync alone."""

    def __init__(self, group, name, fails=None, is_late=False, **values):
        self.group, self.folder, self.fails, self.is_late = group, group.data / name, fails, is_late
        self.values, self.disk, self.most = values, None, 0
        self.folder.mkdir()

    def words(self):
        """The words before those of the program: each start has a disk of its own, and what is left of room stays."""
        most = self.disk.get("most") if self.disk else self.most
        values = {**self.values, "most": most, "is_late": self.is_late}
        self.disk = disk.Disk(self.group.library, self.group.folder, self.folder, **values)
        if self.fails:
            self.disk.fail(*self.fails)
        return self.disk.words()

    def fill(self, left=0):
        """Leaves so much room, also before the first start."""
        self.most = max(1, left)
        if self.disk:
            self.disk.fill(left)

    def free(self):
        self.disk.free()


def start(group, place, number=1, peers=(), **values):
    """A site whose folder this is, with an admin port."""
    admin = served.free_ports(1)[0]
    values = {"alone": 0, "drain": 1, "admin": f'"127.0.0.1:{admin}"', **values}
    return group.start(number, peers, place=1, data=f'"{place.folder}"', before=place.words(), **values)


def stopped(group, member):
    """`zqueue stop` has the site end: its status."""
    words = [str(group.program), "stop", str(member.settings)]
    subprocess.run(words, stdin=subprocess.DEVNULL, capture_output=True, timeout=2 * ENDING, check=False)
    return member.ends(ENDING)


def resident(member):
    """How many bytes of a site's process are resident."""
    return int(pathlib.Path(f"/proc/{member.process.pid}/statm").read_text().split()[1]) * disk.PAGE
