"""Runs everything that is tested: the lint, then the proof gate `rt ci`, then the black-box tests
of the built programs, two files at once.

Each line has the time since the start before it; lines that report no fault, as a proved function
or a passed test, are left out. out/gate.log has all of them, out/gate-times.json the time of each
part, and out/junit/ a report of each file of tests. Failures are shown once more at the end. The
last line is `N passed, M failed`, over all. The exit status is 1 if anything failed."""
import datetime
import json
import os
import resource
import subprocess
import sys

from built import program
from checks import files, jobs
from gate_times import Watch
from packages import say_missing
from repository import TOP
from screen import Screen, run, run_at_once, script

OUT = TOP / "out"
TIMES = OUT / "gate-times.json"
PROOFS = ["rt", "ci"]
# The programs that tests run.
PROGRAMS = ("tfstated", "tfstatectl", "tfs_probe", "tfs_bench")
AGAIN = 24  # the most lines of failures that are shown again
AT_ONCE = 2  # the files of tests that run at once


def processor_time():
    """Returns the seconds of processor time of all commands that have ended."""
    used = resource.getrusage(resource.RUSAGE_CHILDREN)
    return used.ru_utime + used.ru_stime


def kit():
    """Returns the line of the toolchain."""
    try:
        ran = subprocess.run(["rt", "version"], stdout=subprocess.PIPE, text=True, check=False)
        return ran.stdout.strip()
    except OSError:
        return "none"


def name_of(command):
    """Returns the name of a step: for a script or a file of tests its path."""
    return " ".join(command) if command == PROOFS else command[-1]


def write_times(screen, watch, steps, passed, failed):
    told = {
        "date": datetime.date.today().isoformat(), "cores": len(os.sched_getaffinity(0)),
        "kit": kit(), "passed": passed, "failed": failed,
        "wall": round(screen.elapsed(), 1), "processor": round(processor_time(), 1),
        "memory": watch.memory, "crates": watch.times(), "steps": steps,
    }
    TIMES.write_text(json.dumps(told, indent=1) + "\n")
    minutes = f"{told['processor'] / 60:.1f} minutes of processor time"
    screen.show(f"{minutes}; times: {TIMES.relative_to(TOP)}; all lines: out/gate.log")


def has_programs(screen):
    """Finds the programs for all tests. Returns false if one can't be built."""
    try:
        os.environ.update({name.upper(): program(name) for name in PROGRAMS})
    except SystemExit as why:
        screen.show(f"FAILED: {why}")
        return False
    return True


def run_tests(screen, are_proved):
    """Runs the black-box tests: one file after the other if a program is missing, which two
    files would both build."""
    at_once = AT_ONCE if are_proved and has_programs(screen) else 1
    return list(run_at_once(list(jobs(files())), screen, at_once))


def finish(screen, passed, failed):
    """Shows the failures once more, and the count over all as the last line. Returns the status."""
    for line in screen.wrong[:AGAIN]:
        screen.show(f"again: {line}")
    line = f"{passed} passed, {failed} failed"
    screen.keep(line)
    print(line, flush=True)
    return 1 if failed else 0


def main():
    OUT.mkdir(exist_ok=True)
    with open(OUT / "gate.log", "w", encoding="utf-8") as log:
        screen = Screen(log)
        if say_missing():
            screen.show(f"FAILED: {say_missing()}")
            return finish(screen, 0, 1)
        watch = Watch(screen)
        lint = script(TOP / "tools" / "lint.py")
        told = [(lint, run(lint, screen)), (PROOFS, run(PROOFS, screen, watch))]
        told += run_tests(screen, told[-1][1][0][1] == 0)
        passed, failed = (sum(count[it] for _, (count, _) in told) for it in (0, 1))
        steps = {name_of(command): times for command, (_, times) in told}
        write_times(screen, watch, steps, passed, failed)
        return finish(screen, passed, failed)


if __name__ == "__main__":
    sys.exit(main())
