"""Builds the programs of a checkout of the repository without proofs, for tests that need an
earlier version: `rt try` compiles and starts each as a server, and the running program is copied.
Such a program has checks of memory in it, and needs far more address space than a proved one.

    python3 tools/unproved.py CHECKOUT TARGET    builds both programs into the folder TARGET"""
import os
import shutil
import subprocess
import sys
import tempfile
import time
from pathlib import Path

MINUTES = 30
# How each program is started so that it runs until it is stopped, over a path in a fresh folder.
STARTS = {
    "tfstatectl": ["serve", "{path}", "--first", "--listen", "127.0.0.1:0"],
    "tfstated": ["serve", "127.0.0.1:0", "1", "{path}"],
}


def running(path):
    """Returns the program of a process that has a path among its words, if any."""
    for entry in Path("/proc").glob("[0-9]*"):
        try:
            words = (entry / "cmdline").read_bytes().decode(errors="replace").split("\0")
        except OSError:
            continue
        if path in words:
            found = [
                word for word in words if word.endswith("/program") and os.access(word, os.X_OK)
            ]
            if found:
                return found[0]
    return None


def build(checkout, name, target):
    """Builds one program into a folder. Ends the script if `rt try` ends by itself."""
    with tempfile.TemporaryDirectory(prefix="tfstated-") as folder, open(
        f"{folder}/log", "w+b"
    ) as log:
        path = f"{folder}/journal"
        words = ["rt", "try", "--seconds", str(60 * MINUTES), "--"]
        words += [word.format(path=path) for word in STARTS[name]]
        how = {"stdin": subprocess.DEVNULL, "stdout": log, "stderr": log}
        tried = subprocess.Popen(words, cwd=Path(checkout) / "crates" / name, **how)
        try:
            while not (found := running(path)):
                if tried.poll() is not None:
                    log.seek(0)
                    sys.exit(f"{name} isn't built: {log.read().decode()[-2000:]}")
                time.sleep(0.5)
            shutil.copyfile(found, Path(target) / name)
        finally:
            tried.terminate()
            tried.wait()
    (Path(target) / name).chmod(0o755)


def main(checkout, target):
    Path(target).mkdir(parents=True, exist_ok=True)
    for name in STARTS:
        build(checkout, name, target)
    return 0


if __name__ == "__main__":
    sys.exit(main(*sys.argv[1:]))
