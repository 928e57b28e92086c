"""Runs built programs whose requests for memory a preloaded shim refuses."""
import os
import subprocess
import tempfile
from typing import NamedTuple

from programs import preloaded

SHIM = preloaded("refuse_memory.c")
FOREVER = 10**9
SECONDS = 60


class Counts(NamedTuple):
    """What a program requested: the numbers of its own requests and of others', the bytes of its
    longest one, and the peak of the memory given out."""

    own: int
    others: int
    longest: int
    most: int


def run_counted(words, first, last, data=b"", **how):
    """Runs a program whose requests from the first to the last are refused. Returns how it ended,
    and its counts."""
    reading, writing = os.pipe()
    given = {"LD_PRELOAD": str(SHIM), "REFUSE_FROM": str(first), "REFUSE_TO": str(last), "COUNTS": str(writing)}
    with tempfile.TemporaryFile() as text:
        # A read of a file fills all available room, so each run makes the same requests.
        text.write(data)
        text.seek(0)
        how = {"stdin": text, "stdout": subprocess.PIPE, "stderr": subprocess.PIPE, "timeout": SECONDS, "check": False, **how}
        ran = subprocess.run(words, env=given, pass_fds=[writing], **how)
    os.close(writing)
    with os.fdopen(reading) as counts:
        return ran, Counts(*map(int, counts.read().split()))


def run_refused(words, first, last, data=b"", **how):
    """Does the same. Returns the output, the status, standard error, and the counts of its own
    requests and of others'."""
    ran, counts = run_counted(words, first, last, data, **how)
    return ran.stdout, ran.returncode, ran.stderr, counts.own, counts.others


def fault_of(words, ample, first, last, data=b""):
    """Runs a program whose requests from the first to the last are refused. Returns its output, and
    its fault, which is empty if there is none. The program must write its ample output, or complete
    lines of it and end with status 1."""
    output, status, fault = run_refused(words, first, last, data)[:3]
    lines = ample.splitlines(keepends=True)
    is_cut = output in [b"".join(lines[:count]) for count in range(len(lines) + 1)]
    if (output, status, fault) != (ample, 0, b"") and not (is_cut and status == 1 and fault):
        raise AssertionError(f"requests {first} to {last}: {output[-200:]}, status {status}, {fault}")
    return output, fault


def count_of(words, ample, data=b""):
    """Returns how many requests a program makes with ample memory, when it must write this
    output."""
    output, status, fault, own, _ = run_refused(words, 0, 0, data)
    if (output, status, fault) != (ample, 0, b"") or not own:
        raise AssertionError(f"with ample memory: {output[-200:]}, status {status}, {fault}, {own} requests")
    return own


def most_of(words, data=b""):
    """Returns the peak memory of a program in bytes, if no request is refused."""
    return run_counted(words, 0, 0, data)[1].most
