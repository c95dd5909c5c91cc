"""A stand-in for the disk of a site that keeps a log (disk.c): it is full, fails, is slow, or notes what is asked of it; and what a
loss of power may leave of the files by such notes. It needs a C compiler, and no rights."""
import contextlib
import errno
import mmap
import os
import pathlib
import shutil
import struct
import subprocess
from typing import NamedTuple

import served

# The kinds of calls by the names of the calls that a site makes, in the order of disk.c, from 1.
CALLS = ("open", "read", "pwrite", "fdatasync", "ftruncate", "rename", "unlink", "statx", "flock", "posix_fadvise")
# The words of its state.
WORDS = ("most", "is_late", "kind", "which", "error", "delay", "piece", "interrupts", "reads", "lies", "notes", "failed",
         "later", "noted", "begun", "done")
PAGE, WORD = 4096, 8
# The kinds of notes, from 1, and the names of files in the folder.
WRITE, ZEROS, SYNC, CUT, MADE, FOUND, RENAMED, REMOVED, FOLDER_SYNC = range(1, 10)
NAMES = ("log", "log.next")
# What a disk writes as a whole.
SECTOR = 512


def library(folder):
    """The compiled stand-in in this folder, or `None` where there is no C compiler."""
    found = shutil.which("cc") or shutil.which("clang")
    if found is None:
        with contextlib.suppress(OSError, subprocess.CalledProcessError):
            found = pathlib.Path(os.path.realpath(served.rt_command())).parent.parent / "toolchain" / "bin" / "clang"
    if found is None:
        return None
    made = pathlib.Path(folder) / "disk.so"
    lld = ["-fuse-ld=lld", f"-B{found.parent}"] if isinstance(found, pathlib.Path) else []
    words = [found, "-O2", "-shared", "-fPIC", "-ffreestanding", "-nostdlib", *lld, "-o", made, served.ROOT / "bench" / "disk.c"]
    subprocess.run(words, check=True)
    return made


class Disk:
    """The stand-in under one start of a site, whose folder this is. `room` has its files."""

    made = 0

    def __init__(self, lib, room, folder, **values):
        Disk.made += 1
        self.lib, self.folder = lib, folder
        self.state, self.notes = (pathlib.Path(room) / f"{name}.{Disk.made}" for name in ("disk", "notes"))
        self.state.write_bytes(bytes(PAGE))
        with open(self.state, "r+b") as file:
            self.memory = mmap.mmap(file.fileno(), PAGE)
        self.set(**values)

    def words(self):
        """The words before those of the site's program."""
        values = {"LD_PRELOAD": self.lib, "DISK_STATE": self.state, "DISK_FOLDER": self.folder, "DISK_NOTES": self.notes}
        return ["env", *(f"{name}={value}" for name, value in values.items())]

    def set(self, **values):
        for name, value in values.items():
            struct.pack_into("<Q", self.memory, WORD * WORDS.index(name), int(value))

    def get(self, name):
        return struct.unpack_from("<Q", self.memory, WORD * WORDS.index(name))[0]

    def count(self, call):
        """How many calls of this name were made."""
        return struct.unpack_from("<Q", self.memory, WORD * (len(WORDS) + 1 + CALLS.index(call)))[0]

    def fail(self, call, which, error=errno.EIO):
        """Has one of those calls fail, from 1."""
        self.set(error=error, which=which, kind=1 + CALLS.index(call))

    def used(self):
        """How many bytes the files have."""
        return sum(path.stat().st_size for path in (self.folder / name for name in NAMES) if path.exists())

    def fill(self, left=0):
        """Leaves so much room, and no more."""
        self.set(most=max(1, self.used() + left))

    def free(self):
        """There is room."""
        self.set(most=0)


class Note(NamedTuple):
    """A call that was made: of a file of this number, at a place, or with a name."""

    kind: int
    file: int
    place: int
    length: int
    data: bytes


def notes_of(path, most):
    """So many notes, or those that there are."""
    found, head = [], struct.Struct("<QQQQ")
    with open(path, "rb") as file:
        while len(found) < most and len(words := file.read(head.size)) == head.size:
            kind, number, place, length = head.unpack(words)
            found.append(Note(kind, number, place, length, file.read(length) if kind == WRITE else b""))
    return found


class File:
    """A file by notes: what is synced of it, and what was done since."""

    def __init__(self, data=b""):
        self.synced, self.pending = bytearray(data), []

    def sync(self):
        for note in self.pending:
            put(self.synced, note)
        self.pending = []

    def left(self, draw):
        """What power may leave: of each sector one of the states that it had since the last sync, and of the length too. In one of
        four cases nothing came, and in one of four everything."""
        style = draw.randrange(4)
        if style < 2:
            whole = bytearray(self.synced)
            for note in self.pending if style else []:
                put(whole, note)
            return bytes(whole)
        if any(note.kind == CUT for note in self.pending):
            return self.cut_short(draw)
        return self.torn(draw)

    def cut_short(self, draw):
        """The same where it was cut: some of the calls came, one after the other."""
        whole = bytearray(self.synced)
        for note in self.pending[:draw.randrange(len(self.pending) + 1)]:
            put(whole, note)
        return bytes(whole)

    def torn(self, draw):
        lengths, states, whole = [len(self.synced)], {}, bytearray(self.synced)
        for note in self.pending:
            lengths.append(max(lengths[-1], note.place + note.length))
            for sector in sectors(note) if note.kind == WRITE else ():
                states[sector] = states.get(sector, 0) + 1
        came = {sector: draw.randrange(count + 1) for sector, count in states.items()}
        whole.extend(bytes(lengths[-1] - len(whole)))
        for note in self.pending:
            for sector in sectors(note) if note.kind == WRITE else ():
                if came[sector] > 0:
                    came[sector] -= 1
                    begin, end = max(note.place, sector * SECTOR), min(note.place + note.length, (sector + 1) * SECTOR)
                    whole[begin:end] = note.data[begin - note.place:end - note.place]
        return bytes(whole[:draw.choice(lengths)])


def sectors(note):
    return range(note.place // SECTOR, (note.place + note.length - 1) // SECTOR + 1)


def put(whole, note):
    """Does to a file's bytes what a note says."""
    if note.kind == CUT:
        del whole[note.place:]
        whole.extend(bytes(note.place - len(whole)))
        return
    end = note.place + note.length
    whole.extend(bytes(max(0, end - len(whole))))
    whole[note.place:end] = note.data or bytes(note.length)


class Folder:
    """A folder by notes: its files, which of them have which names, what the names were as they were synced last, and what each was
    since then."""

    def __init__(self, before):
        """With these bytes under each name, all of them on the disk."""
        self.files = {-1 - place: File(before[name]) for place, name in enumerate(NAMES) if name in before}
        self.now = {name: -1 - place if name in before else None for place, name in enumerate(NAMES)}
        self.past = [self.now]

    def take(self, note):
        name = NAMES[note.place] if note.kind in (MADE, FOUND, RENAMED, REMOVED) else None
        if note.kind == MADE:
            self.files[note.file] = File()
            self.now = {**self.now, name: note.file}
            self.past.append(self.now)
        elif note.kind == FOUND:
            self.files[note.file] = self.files[self.now[name]]
            self.past = [{**names, name: note.file} for names in self.past]
            self.now = self.past[-1]
        elif note.kind == RENAMED:
            self.now = {**{old: None if file == note.file else file for old, file in self.now.items()}, name: note.file}
            self.past.append(self.now)
        elif note.kind == REMOVED:
            self.now = {**self.now, name: None}
            self.past.append(self.now)
        elif note.kind == FOLDER_SYNC:
            self.past = [self.now]
        elif note.kind == SYNC:
            self.files[note.file].sync()
        else:
            self.files[note.file].pending.append(note)

    def left(self, draw):
        """What power may leave, by name."""
        return {name: self.files[file].left(draw) for name, file in draw.choice(self.past).items() if file is not None}


def contents(folder):
    """The bytes under each name."""
    return {name: (folder / name).read_bytes() for name in NAMES if (folder / name).exists()}


def lay(folder, files):
    """Has these files in a folder, and no others."""
    for name in NAMES:
        (folder / name).unlink(missing_ok=True)
    for name, data in files.items():
        (folder / name).write_bytes(data)


def left_of(before, played, upto, draw):
    """What a loss of power may leave of a folder, by name, behind so many notes of a disk, where it had these bytes before them."""
    folder = Folder(before)
    for note in notes_of(played.notes, upto):
        folder.take(note)
    return folder.left(draw)
