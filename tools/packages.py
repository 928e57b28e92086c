"""The Debian packages that `make test` needs, as the README and .ci/run name them, and how each of
them is recognised."""
import functools
import shutil
import subprocess
import sys
from pathlib import Path

# By package: a command, a file, or a module of Python.
COMMANDS = {
    "make": "make", "gcc": "gcc", "valgrind": "valgrind", "curl": "curl",
    "shellcheck": "shellcheck", "pyflakes3": "pyflakes3",
}
FILES = {"libc6-dev": "/usr/include/stdio.h"}
MODULES = {"python3-pytest": "pytest", "python3-hypothesis": "hypothesis"}
PYTHONS = (sys.executable, "/usr/bin/python3")


def has_module(python, name):
    """Returns true if an interpreter has a module."""
    command = [python, "-c", f"import {name}"]
    try:
        return subprocess.run(command, stderr=subprocess.DEVNULL, check=False).returncode == 0
    except OSError:
        return False


@functools.lru_cache(maxsize=None)
def python_with_pytest():
    """Returns the first interpreter that has all modules; the present one if none has."""
    def has_all(python):
        return all(has_module(python, name) for name in MODULES.values())
    return next(filter(has_all, PYTHONS), sys.executable)


def missing():
    """Returns the packages that are missing."""
    found = [name for name, command in COMMANDS.items() if not shutil.which(command)]
    found += [name for name, path in FILES.items() if not Path(path).exists()]
    python = python_with_pytest()
    return found + [name for name, module in MODULES.items() if not has_module(python, module)]


def say_missing():
    """Returns what to report if packages are missing; an empty text if none is."""
    names = missing()
    if not names:
        return ""
    return f"not installed: {', '.join(names)}. On Debian: apt-get install {' '.join(names)}"
