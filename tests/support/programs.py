"""The built programs and the preloaded libraries of the tests, as paths that are found or built on
first use."""
import functools
import shutil
import subprocess
import tempfile
import threading
from pathlib import Path

from built import program
from repository import TOP

FOLDER = tempfile.TemporaryDirectory(prefix="tfstated-")


class Built:
    """A path that is found on first use: collecting tests builds nothing."""

    def __init__(self, name):
        self.name, self.path, self.guard = name, None, threading.Lock()

    def make(self):
        """Finds or builds the file. Returns its path."""
        raise NotImplementedError

    def __fspath__(self):
        with self.guard:
            self.path = self.path or self.make()
        return self.path

    __str__ = __fspath__


class Program(Built):
    """A program of the crate of this name."""

    def make(self):
        return program(self.name)


class Shim(Built):
    """A library that gcc builds from a file of tests/shims/, to be preloaded."""

    def make(self):
        if shutil.which("gcc") is None:
            raise AssertionError(f"gcc, which builds tests/shims/{self.name}, is missing")
        library = str(Path(FOLDER.name) / Path(self.name).with_suffix(".so"))
        source = str(TOP / "tests" / "shims" / self.name)
        options = ["-O1", "-Wall", "-shared", "-fPIC", "-o", library]
        subprocess.run(["gcc", *options, source, "-ldl"], check=True)
        return library


@functools.lru_cache(maxsize=None)
def preloaded(name):
    """Returns the library of a file of tests/shims/, which is built once."""
    return Shim(name)


TFSTATED, TFSTATECTL = Program("tfstated"), Program("tfstatectl")
TFS_PROBE, TFS_BENCH = Program("tfs_probe"), Program("tfs_bench")
