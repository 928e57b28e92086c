"""Finds the built programs, or proves and builds them."""
import os
import subprocess
import sys

from repository import TOP

NOTICE = """{name}: {why}, so it is now proved and built, with every crate below it. The first
time this takes about 25 minutes on 4 cores. To avoid it, let the variable {variable} name a built
program."""


def is_current(path):
    """Returns true if a program was built after the last change of what it is built from."""
    if not path.is_file():
        return False
    built = path.stat().st_mtime
    sources = [TOP / "crates.txt", *TOP.glob("crates/*/src/**/*.rt")]
    return all(source.stat().st_mtime <= built for source in sources)


def build(name):
    """Proves, builds and runs a program as `rt ci` does, with its stored arguments and input."""
    crate = TOP / "crates" / name
    args, given = crate / "args", crate / "stdin"
    words = args.read_text(encoding="utf-8").split("\n") if args.is_file() else []
    with open(given if given.is_file() else os.devnull, "rb") as text:
        command = ["rt", "run", "--", *filter(None, words)]
        how = {"cwd": crate, "stdin": text, "stdout": subprocess.DEVNULL}
        ran = subprocess.run(command, check=False, **how)
    if ran.returncode:
        sys.exit(f"the program can't be built: see `rt run` in crates/{name}")


def program(name):
    """Returns the path of a program. The variable of its name in capitals, such as TFSTATED, names
    another build. `rt ci` leaves it built. If it is missing or older than its sources, it is built
    now, after a notice."""
    if name.upper() in os.environ:
        return os.environ[name.upper()]
    path = TOP / "crates" / name / "out" / name
    if not is_current(path):
        why = "it is older than its sources" if path.is_file() else "it isn't built"
        notice = NOTICE.format(name=name, why=why, variable=name.upper())
        print(notice, file=sys.stderr, flush=True)
        build(name)
    return str(path)
