"""A lazy disk for the tests (lazy_disk.c), and what a power cut leaves of it."""
import functools
import os
import shutil
from pathlib import Path

from folders import fresh
from programs import preloaded


@functools.cache
def shim():
    """Returns the library of the disk, which is built once."""
    return preloaded("lazy_disk.c")


def slow(**how):
    """Returns the environment of a program on a disk whose power is never cut."""
    given = {name: str(value) for name, value in how.items()}
    return {**os.environ, "LD_PRELOAD": str(shim()), **given}


class Disk:
    """A disk at this path, or a new one with a folder of journals and a file of the least
    position."""

    def __init__(self, root=None):
        shim()
        self.root, self.kept, self.armed = Path(root or fresh()), None, fresh() / "armed"
        self.folder, self.least = self.root / "folder", self.root / "least"
        if root is None:
            self.folder.mkdir()

    def env(self, **how):
        """Returns the environment of a program that starts on the disk, whose present contents are
        kept."""
        self.kept = fresh()
        return slow(DISK=self.root, KEPT=self.kept, **how)

    def names(self):
        """Returns the kept paths, directories first, each with the number of its file or 0."""
        lines = (self.kept / "names").read_text().splitlines()
        found = [(path, int(number)) for number, _, path in (line.partition(" ") for line in lines)]
        return sorted(found, key=lambda name: (name[1] > 0, name[0]))

    def kept_bytes(self, path):
        """Returns the kept bytes of the file of a path."""
        number = dict(self.names())[str(Path(path).relative_to(self.root))]
        return (self.kept / str(number)).read_bytes()

    def cut(self, has_zeros=False):
        """Cuts the power after the program has ended: the disk has only what was kept. A file is
        lost with its directory. With zeros, journals keep their lengths: zeros follow the kept
        bytes."""
        names = self.names()
        paths = [self.root / path for path, _ in names if has_zeros and path.endswith(".tfj")]
        sizes = {path: path.stat().st_size for path in paths if path.exists()}
        shutil.rmtree(self.root)
        self.root.mkdir()
        for path, number in names:
            place = self.root / path
            if not place.parent.is_dir():
                continue
            if number:
                shutil.copyfile(self.kept / str(number), place)
                os.truncate(place, max(sizes.get(place, 0), place.stat().st_size))
            else:
                place.mkdir()
