"""A small file system of its own for the folder of a site, which becomes full by a file beside it. It takes the right to mount."""
import errno
import os
import shutil
import subprocess

# The least that is taken of the room that is left, at last.
BLOCK = 4096
KINDS = ("tmpfs", "ext4")


def needed():
    """Why none can be made here, or `None`."""
    if os.geteuid() != 0:
        return "there is no right to mount"
    lacks = [name for name in ("mount", "umount", "mkfs.ext4") if not shutil.which(name)]
    return f"{', '.join(lacks)} cannot be found" if lacks else None


def run(*words):
    subprocess.run([str(word) for word in words], stdin=subprocess.DEVNULL, stdout=subprocess.DEVNULL, check=True)


class Mounted:
    """A folder on a file system of this kind and of so many bytes. It goes with the group that it was made for."""

    def __init__(self, group, name, kind, size):
        place = group.data / name
        place.mkdir()
        if kind == "tmpfs":
            run("mount", "-t", "tmpfs", "-o", f"size={size}", "zqueue", place)
        else:
            image = group.data / f"{name}.image"
            with open(image, "wb") as file:
                file.truncate(size)
            run("mkfs.ext4", "-q", "-F", "-m", 0, image)
            run("mount", "-o", "loop", image, place)
        group.held.callback(run, "umount", place)
        self.place, self.folder, self.filler = place, place / "site", place / "filler"
        self.folder.mkdir()

    def words(self):
        return []

    def fill(self, left=0):
        """Takes the room but for so much."""
        with open(self.filler, "ab") as file:
            has, piece = os.fstat(file.fileno()).st_size, 1 << 30
            while piece >= BLOCK:
                found = os.statvfs(self.place)
                piece = min(piece, found.f_bavail * found.f_frsize - left)
                try:
                    if piece >= BLOCK:
                        os.posix_fallocate(file.fileno(), has, piece)
                        has += piece
                except OSError as error:
                    if error.errno != errno.ENOSPC:
                        raise
                    piece //= 2

    def free(self):
        self.filler.unlink(missing_ok=True)
