"""Starts of `tfstatectl` that are killed at each call, on full disks, and over journals with a
changed byte: the next start has all that was acknowledged, or ends with a named fault."""
import os
import resource
import shutil
import signal
import subprocess

import pytest

from checking import S2, expect
from folder_program import STATUSES, Serving, ended, limit_files, served
from folders import A, B, NEWEST, PUSH1, REBASED, S1, S3, all_of, at_once, fresh, identity_text, journals, named, owned
from journal_reader import read_journal
from programs import preloaded
from serve_program import Server

pytestmark = pytest.mark.usefixtures("tfstatectl")
SHIM = preloaded("kill_calls.c")
EMPTY = b"TFJ1\n"
LARGE = S3[:-1] + b',"x":"' + b"y" * 70000 + b'"}'


def expect_newest(server):
    """Checks that a server has all that the journal NEWEST has."""
    expect(server.listens().ask("GET", "/state/a"), (200, S2))
    expect(server.ask("LOCK", "/state/a", A), (423, B))


@pytest.mark.parametrize("size, make", [
    (0, fresh), (1, owned), (40, fresh), (len(REBASED) - 1, owned), (len(REBASED), owned), (len(identity_text(n1=NEWEST)), owned)])
def test_files_that_cant_grow_lose_nothing(size, make):
    """The journal can't be written, or the identity, which is longer."""
    folder = make(n1=NEWEST)
    before = all_of(folder)
    status, _, errors = ended(folder, preexec_fn=limit_files(size))
    expect((status, "CannotWrite" in errors), (STATUSES["CannotWrite"], True), f"files of {size} bytes: {errors}")
    expect(all_of(folder), before, f"files of {size} bytes")
    expect(served(folder)[0], (200, S2))


def test_a_journal_that_cant_grow_ends_the_server_or_stops_changes():
    folder = fresh(n1=NEWEST)
    server = Serving(folder, preexec_fn=limit_files(1000))
    expect_newest(server)
    expect(server.ask("POST", "/state/a?ID=B", LARGE), (500, b'{"error":"JournalFault"}'))
    status, errors = server.end()
    expect((status, f"{folder}: JournalFault" in errors), (STATUSES["JournalFault"], True), errors)
    reads = Serving(folder, "--serve-reads", preexec_fn=limit_files(1000)).listens()
    expect(reads.ask("POST", "/state/a?ID=B", LARGE), (500, b'{"error":"JournalFault"}'))
    expect(reads.ask("POST", "/state/a?ID=B", S3), (503, b'{"error":"JournalStopped"}'))
    expect(reads.ask("GET", "/state/a"), (200, S2))
    reads.kill()
    again = Serving(folder)
    expect_newest(again)
    again.kill()


def limit_stacks(size):
    """Returns a function that limits the size of each thread's stack."""
    return lambda: resource.setrlimit(resource.RLIMIT_STACK, (size, size))


def test_a_start_with_a_small_stack_is_refused():
    folder = fresh(n1=NEWEST)
    status, _, errors = ended(folder, preexec_fn=limit_stacks((1 << 19) - 4096))
    expect((status, "SmallStack: threads have a stack of 520192 bytes" in errors), (STATUSES["SmallStack"], True), errors)
    expect(all_of(folder), {f"{named(1)}.tfj": NEWEST}, "nothing is done")
    server = Serving(folder, preexec_fn=limit_stacks(1 << 19))
    expect_newest(server)
    server.kill()


def test_a_server_whose_listener_is_shut_reports_the_error():
    folder = fresh(n1=NEWEST)
    server = Serving(folder).listens()
    Server.shut(server)
    status, errors = server.end()
    told = f"{folder}: AcceptFault: no connection could be taken: invalid input parameter (os error 22). "
    expect((status, told in errors), (STATUSES["AcceptFault"], True), errors)


# Journals that failed starts have left after a journal with changes, and after one without any,
# which the next start replaces.
LEFT = ({"n2": EMPTY + PUSH1, "n3": NEWEST, "n5": REBASED[:50]}, {"n2": EMPTY + PUSH1, "n3": NEWEST, "n4": REBASED, "n5": REBASED[:50]})


def kill_at(case):
    """Kills a start before the call with this number, and starts again."""
    files, turn = case
    folder, about = fresh(**files), f"turn {turn} over {sorted(files)}"
    (folder / f"{named(6)}.tfj.part").write_bytes(REBASED[:50])
    server = Serving(folder, env={**os.environ, "LD_PRELOAD": SHIM, "TURN": str(turn)})
    expect(server.end()[0], -signal.SIGKILL, about)
    expect(served(folder)[0], (200, S2), about)
    expect((sorted(journals(folder / "old")), list(journals(folder).values())), ([2, 3], [REBASED]), about)


def test_a_kill_at_each_call_loses_nothing():
    cases = []
    for files in LEFT:
        folder, count = fresh(**files), fresh() / "count"
        Serving(folder, env={**os.environ, "LD_PRELOAD": SHIM, "TURN": "0", "COUNT": str(count)}).listens().kill()
        turns = len(count.read_bytes())
        expect(turns > 15, True, f"there are {turns} calls")
        cases += [(files, turn) for turn in range(1, turns + 1)]
    at_once(kill_at, cases)


def kill_first_at(turn):
    """Kills the first start of a folder before the call with this number, and makes it again."""
    folder = fresh()
    server = Serving(folder, "--first", env={**os.environ, "LD_PRELOAD": SHIM, "TURN": str(turn)})
    expect(server.end()[0], -signal.SIGKILL, f"turn {turn}")
    is_made = bool(journals(folder))
    expect(served(folder, *([] if is_made else ["--first"]))[0][0], 404, f"turn {turn}")


def test_a_first_start_that_is_killed_is_done_again():
    count = fresh() / "count"
    Serving(fresh(), "--first", env={**os.environ, "LD_PRELOAD": SHIM, "TURN": "0", "COUNT": str(count)}).listens().kill()
    turns = len(count.read_bytes())
    expect(turns > 3, True, f"there are {turns} calls")
    at_once(kill_first_at, range(1, turns + 1))


def start_over_a_changed_byte(place):
    """Flips a byte's lowest bit. The start ends or, if a length now reaches past the end, nothing
    before it is missing."""
    data = NEWEST[:place] + bytes([NEWEST[place] ^ 1]) + NEWEST[place + 1 :]
    folder, (_, _, _, entries, end) = fresh(n4=data), read_journal(data)
    if end.startswith("damaged") or end == "torn 5":
        status, _, errors = ended(folder)
        expect((status, named(4) in errors), (STATUSES["TornBase" if end == "torn 5" else "Damaged"], True), f"byte {place}: {errors}")
        expect(journals(folder), {4: data}, f"byte {place}")
        return
    kept = [fields[-1] for kind, _, fields in entries if kind == "push"]
    expect(served(folder)[0], (200, (kept or [S1])[-1]), f"byte {place}")
    expect(journals(folder / "old"), {4: data}, "the old file stays")


def test_changed_bytes_of_the_newest_journal():
    at_once(start_over_a_changed_byte, range(len(NEWEST)))


def fill(path, pages):
    """Fills a disk with a file, except for this many pages."""
    with open(path, "wb", buffering=0) as file:
        try:
            while file.write(bytes(4096)):
                pass
        except OSError:
            pass
        file.truncate(max(0, file.tell() - 4096 * pages))


def start_on_a_full_disk(folder, pages):
    """Returns true if a start fails on a disk with this many pages left. What is acknowledged on it
    must exist once the disk has room."""
    fill(folder / "filled", pages)
    server = Serving(folder)
    if server.line:
        expect_newest(server)
        expect(server.ask("POST", "/state/a?ID=B", LARGE)[0], 500, "a change with no room for it")
        server.kill()
    else:
        status, errors = server.end()
        expect((status, "CannotWrite" in errors), (STATUSES["CannotWrite"], True), errors)
    (folder / "filled").unlink()
    again = Serving(folder)
    expect_newest(again)
    again.kill()
    return not server.line


def why_not_mounted(folder):
    """Mounts a small file system in a folder. Returns why it couldn't; an empty text if it
    could."""
    if not shutil.which("mount"):
        return "the command mount is missing"
    made = subprocess.run(["mount", "-t", "tmpfs", "-o", "size=64k", "none", str(folder)], stderr=subprocess.PIPE, check=False)
    return made.returncode and (made.stderr.decode(errors="replace").strip() or f"mount ends with status {made.returncode}")


def test_a_full_disk_loses_nothing():
    """Skipped if a small file system can't be made; only the tests with files that can't grow
    remain then."""
    folder = fresh()
    why = why_not_mounted(folder)
    if why:
        pytest.skip(f"no small file system can be made here: {why}")
    try:
        (folder / f"{named(1)}.tfj").write_bytes(NEWEST)
        failed = [start_on_a_full_disk(folder, pages) for pages in (0, 0, 1, 1, 2)]
        expect(True in failed, True, "a start fails where nothing is left")
    finally:
        subprocess.run(["umount", "-l", str(folder)], check=False)
