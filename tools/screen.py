"""Runs commands, shows their lines with the time since the start, and counts what passed."""
import os
import re
import subprocess
import sys
import threading
import time
from concurrent.futures import ThreadPoolExecutor

from repository import TOP

COUNT = re.compile(r"^(\d+) passed, (\d+) failed$")
QUIET = re.compile(
    r"(.*: proved(, may \w+)*|(statements|library|crate) \w+: modules loaded=.*|empty contracts: 0 found;.*"
    r"|(logic|axioms|linked|by-macro:|==) .*|checked \S+, \d+ of \d+|so far: .*|test \S+ \.\.\. ok|tests: \d+|)"
)
WRONG = re.compile(r"\b(FAILED|ERROR|NOT REFUSED|NOT TRIED|BAD EDIT)\b")
SHOWN = 8  # the lines that are shown again, from a failure on


class Screen:
    """Shows lines with the time since the start, and writes them to a file, if it has one."""

    def __init__(self, log=None):
        self.began = time.monotonic()
        self.log = log
        self.lock = threading.Lock()
        self.wrong, self.more = [], 0

    def elapsed(self):
        return time.monotonic() - self.began

    def show(self, line):
        minutes, seconds = divmod(int(self.elapsed()), 60)
        line = f"[{minutes:2}:{seconds:02}] {line}"
        with self.lock:
            print(line, flush=True)
            self.keep(line)

    def hear(self, line):
        """Shows a line of a command, or only keeps it if it reports no fault, as a proved function
        or a passed test."""
        if WRONG.search(line):
            self.more = SHOWN
        if self.more:
            self.wrong.append(line)
            self.more -= 1
        if QUIET.fullmatch(line):
            self.keep(line)
        else:
            self.show(line)

    def keep(self, line):
        if self.log:
            print(line, file=self.log, flush=True)


def count_of(last, status, hear):
    """Returns the count in the last line of a command, (passed, failed). Without a count it
    failed."""
    found = COUNT.match(last)
    if found is None:
        hear("FAILED: the last line has no count")
        return 0, 1
    passed, failed = int(found.group(1)), int(found.group(2))
    return passed, max(failed, 1) if status else failed


def end_of(process, hear):
    """Hears each line of a command and waits for it. Returns its last line, its status, and its
    seconds of processor time."""
    last = ""
    for line in process.stdout:
        hear(line.rstrip("\n"))
        last = line.strip() or last
    _, status, used = os.wait4(process.pid, 0)
    process.returncode = os.waitstatus_to_exitcode(status)
    return last, process.returncode, used.ru_utime + used.ru_stime


def run_heard(command, hear, watch=None, count=count_of):
    """Runs a command, perhaps with a watch, and hears each line. Returns its count, (passed,
    failed), and its times."""
    began, counted, used = time.monotonic(), (0, 1), 0
    how = {"cwd": TOP, "stdout": subprocess.PIPE, "stderr": subprocess.STDOUT}
    how.update(encoding="utf-8", errors="replace")
    try:
        with subprocess.Popen(command, **how) as process:
            if watch:
                watch.begin(process.pid)
            last, status, used = end_of(process, hear)
            counted = count(last, status, hear)
            if watch:
                watch.end()
    except OSError as error:
        hear(f"FAILED: {command[0]} can't be run: {error.strerror}")
    return counted, {"wall": round(time.monotonic() - began, 1), "processor": round(used, 1)}


def run(command, screen, watch=None):
    """Runs a command, and shows it and each of its lines. Returns its count and its times."""
    screen.show("$ " + " ".join(command))
    return run_heard(command, watch.hear if watch else screen.hear, watch)


def run_apart(job):
    """Runs a command with a function of its own for its count, and keeps its lines. Returns
    the lines, and its count and times."""
    command, count = job
    lines = []
    return lines, run_heard(command, lines.append, count=count)


def run_at_once(jobs, screen, most):
    """Runs commands, at most this number at once, and shows each of them once it has ended, in
    their order. Yields the count and the times of each."""
    with ThreadPoolExecutor(most) as pool:
        for (command, _), (lines, counted) in zip(jobs, pool.map(run_apart, jobs)):
            screen.show("$ " + " ".join(command))
            for line in lines:
                screen.hear(line)
            yield command, counted


def script(path):
    """Returns the words that run a script of the repository."""
    return [sys.executable, str(path.relative_to(TOP))]
