"""Runs a command of `tfstatectl` that waits for its input: with a terminal on standard error it
prints how much it has read, and without one nothing."""
import os
import pty
import re
import select
import subprocess
import time

import pytest

from checking import SECONDS, expect
from folder_program import FOLDER_PROGRAM
from folders import fresh
from plan_texts import STATE, change, plan_of

pytestmark = pytest.mark.usefixtures("tfstatectl")
LINE = re.compile(rb"tfstatectl: (\d+)\.\d MB read so far\r\n")
LARGE = STATE[:-1] + b" " * 5_000_000 + STATE[-1:]
HALF = len(LARGE) // 2


def begun(errors):
    """Starts a command that reads a state from its standard input."""
    folder = fresh()
    (folder / "plan.json").write_bytes(plan_of(change("t.web", "update")))
    words = [FOLDER_PROGRAM, "impact", "--plan", str(folder / "plan.json"), "--state", "-", "--json"]
    return subprocess.Popen(words, stdin=subprocess.PIPE, stdout=subprocess.PIPE, stderr=errors)


def ended(process, rest):
    """Gives a command the rest of its input. Returns what it writes to standard error, if that is a
    pipe."""
    output, errors = process.communicate(rest, timeout=SECONDS)
    expect((process.returncode, b'"updated":1' in output), (0, True), output)
    return errors


def shown(terminal, megabytes):
    """Reads a terminal until a line shows this many megabytes. Returns what was read."""
    found, until = b"", time.monotonic() + SECONDS
    while time.monotonic() < until:
        if select.select([terminal], [], [], 1)[0]:
            found += os.read(terminal, 65536)
        if any(megabytes <= int(read) for read in LINE.findall(found)):
            return found
    raise AssertionError(found)


def all_of(terminal):
    """Returns all that was written to a terminal whose other side is closed."""
    found = b""
    while True:
        try:
            piece = os.read(terminal, 65536)
        except OSError:  # EIO: the end.
            piece = b""
        if not piece:
            os.close(terminal)
            return found
        found += piece


def test_a_terminal_shows_what_was_read():
    terminal, errors = pty.openpty()
    with begun(errors) as process:
        os.close(errors)
        process.stdin.write(LARGE[:HALF])
        process.stdin.flush()
        found = shown(terminal, 2)
        ended(process, LARGE[HALF:])
    expect(LINE.sub(b"", found + all_of(terminal)), b"", found)


def test_a_short_command_shows_nothing():
    terminal, errors = pty.openpty()
    with begun(errors) as process:
        os.close(errors)
        ended(process, STATE)
    expect(all_of(terminal), b"")


def test_a_pipe_shows_nothing():
    with begun(subprocess.PIPE) as process:
        process.stdin.write(LARGE[:HALF])
        process.stdin.flush()
        time.sleep(2.5)
        expect(ended(process, LARGE[HALF:]), b"")
