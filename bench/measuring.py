"""Builds the program `tfs_bench`, and measures calls with it."""
import os
import shutil
import subprocess
import sys
from datetime import datetime, timezone
from pathlib import Path

sys.path += [str(Path(__file__).resolve().parent.parent / folder) for folder in ("tools", "tests/support", "tests/models")]

from journal_reader import base_text, push_content, record_text
from repository import TOP

CRATE = TOP / "crates" / "tfs_bench"
PROGRAM = Path(os.environ.get("TFS_BENCH", CRATE / "out" / "tfs_bench"))
CPUS = ("x86-64-v2", "x86-64-v3")
VALGRIND = shutil.which("valgrind")
CALLGRIND = [VALGRIND, "--tool=callgrind", "--callgrind-out-file=/dev/null"]


def say_where():
    """Prints what the measurements run on."""
    print(f"{os.cpu_count()} cores, {datetime.now(timezone.utc):%Y-%m-%d}, load {os.getloadavg()[0]:.1f}", flush=True)


def build(cpu=CPUS[0]):
    """Builds the program for a processor, and compares its output for its stored input. Ends the
    script if that fails."""
    with open(CRATE / "stdin", "rb") as stored:
        ran = subprocess.run(["rt", "run", "--cpu", cpu], cwd=CRATE, stdin=stored, capture_output=True, check=False)
    if ran.returncode or ran.stdout != (CRATE / "stdout").read_bytes():
        sys.exit(f"the program tfs_bench can't be built: {ran.stderr.decode()[-2000:]}")


def compile_c(source, target, *options):
    """Builds a program in C, by clang if it is installed. Ends the script if there is no
    compiler."""
    compiler = shutil.which("clang") or shutil.which("gcc")
    if not compiler:
        sys.exit("clang or gcc is missing")
    subprocess.run([compiler, "-O2", "-Wall", "-Wno-psabi", *options, "-o", str(target), str(source)], check=True)
    return str(target)


def ran(words, data, before=(), **how):
    """Runs the program over input. Returns its output, and what was written to standard error. Ends
    the script if it fails."""
    ended = subprocess.run([*before, str(PROGRAM), *map(str, words)], input=data, capture_output=True, check=False, **how)
    if ended.returncode:
        sys.exit(f"tfs_bench {words} ends with status {ended.returncode}: {ended.stderr[-200:]}")
    return ended.stdout.decode(), ended.stderr


def measured(subject, rounds, calls, data, *number, **how):
    """Returns the shortest times of calls, in nanoseconds, and the result of each, by their names.
    The calls take turns."""
    lines = ran([subject, rounds, *number, *calls], data, **how)[0].splitlines()
    return {name: (int(time), int(count)) for name, time, count in map(str.split, lines)}


def times(subject, rounds, calls, data, *number, **how):
    """Returns only the shortest times, in the order of the calls."""
    found = measured(subject, rounds, calls, data, *number, **how)
    return [found[call][0] for call in calls]


def collected(told):
    """Returns the instructions that callgrind reports on standard error."""
    return int(told.rpartition(b"Collected :")[2].split()[0])


def instructions(subject, call, data, *number):
    """Returns the instructions of a call that is made once, without those for making its input."""
    without, once = (collected(ran([subject, rounds, *number, call], data, CALLGRIND)[1]) for rounds in (0, 1))
    return once - without


def kept(subject, data, folder):
    """Returns the memory that the program holds once it has read its input, beyond what it held
    before, as the C library counts it; the bytes of the input; and what was counted in it."""
    shim = folder / "live_memory.so"
    compile_c(TOP / "bench" / "state" / "live_memory.c", shim, "-shared", "-fPIC")
    reading, writing = os.pipe()
    given = dict(os.environ, LD_PRELOAD=str(shim), LIVE=str(writing))
    lines = ran([subject, 1, "keep"], data, env=given, pass_fds=[writing])[0].splitlines()
    os.close(writing)
    with os.fdopen(reading) as live:
        before, after = map(int, live.read().split()[:2])
    size, count = (int(line.split()[1]) for line in lines[:2])
    return after - before, size, count


def journal_of(states):
    """Returns the bytes of a journal of pushes of states to one name."""
    return b"TFJ2\n" + base_text(0, []) + b"".join(record_text(3, b"a", push_content(b"", state)) for state in states)
