"""What `tfstatectl serve` has acknowledged exists after a power cut, on a disk that loses bytes and
names that weren't synced (lazy_disk.c): at random moments of a server that compacts its journal
often; right before each call of a compaction and of a start; and after each sync and each rename of
them has failed. KILLS gives the number of random kills, SEED chooses them."""
import copy
import functools
import http.client
import json
import os
import random
import shutil
import signal
import subprocess
import sys

import pytest

from checking import SECONDS, expect
from folder_program import STATUSES, Serving
from folders import LOOPBACK, at_once, fresh, identity_text, journals, named
from lazy_disk import Disk
from pushers import has_come, newest, serving
from told import NAMES, Told, kill_beside

pytestmark = pytest.mark.usefixtures("tfstatectl")
KILLS, SEED = int(os.environ.get("KILLS", "20")), int(os.environ.get("SEED", "1"))
# A disk that keeps only what was synced; one that also keeps each change of a name; and one that
# keeps some of them, and some bytes.
DISKS = ({}, {"NAMES": 100}, {"NAMES": 40, "BYTES": 40})
# More than a start or a compaction makes: syncs and changes of names; syncs; renames.
CALLS, SYNCS, RENAMES = 22, 13, 6
PUSHED = NAMES[:2]
# The steps of a program that replaces a file by a rename, moves one, and removes one.
STEPS = """
import os, sys
def sync(path, flags=os.O_RDONLY, data=b""):
    descriptor = os.open(path, flags)
    os.write(descriptor, data) if data else None
    os.fsync(descriptor)
    return descriptor
root, steps = sys.argv[1], sys.argv[2:]
file = sync(f"{root}/part", os.O_WRONLY | os.O_CREAT, b"synced")
os.write(file, b", not synced")
os.rename(f"{root}/part", f"{root}/a")
os.mkdir(f"{root}/old")
if "sync" in steps:
    sync(root)
os.rename(f"{root}/b", f"{root}/old/b")
os.unlink(f"{root}/c")
for step in steps:
    sync(f"{root}/old") if step == "old" else sync(root) if step == "again" else None
assert (open(f"{root}/a").read(), os.listdir(f"{root}/old")) == ("synced, not synced", ["b"])
os.kill(os.getpid(), 9)
"""


def left_after(*steps, **how):
    """Returns what a power cut leaves of files after some steps of a program."""
    disk = Disk(fresh())
    for name in "abc":
        (disk.root / name).write_text(f"old {name}")
    words = [sys.executable, "-c", STEPS, disk.root, *steps]
    ran = subprocess.run(words, env=disk.env(**how), capture_output=True, check=False)
    expect(ran.returncode, -signal.SIGKILL, ran.stderr.decode())
    disk.cut()
    paths = (path for path in disk.root.rglob("*") if path.is_file())
    return {str(path.relative_to(disk.root)): path.read_text() for path in paths}


def test_the_disk_loses_what_was_not_synced():
    old_b, old_c = {"b": "old b"}, {"c": "old c"}
    expect(left_after(), {"a": "old a", **old_b, **old_c})
    expect(left_after("sync"), {"a": "synced", **old_b, **old_c})
    expect(left_after("sync", "old"), {"a": "synced", "old/b": "old b", **old_c})
    expect(left_after("sync", "again"), {"a": "synced"}, "the new directory isn't synced")
    expect(left_after("sync", "old", "again"), {"a": "synced", "old/b": "old b"})
    expect(left_after("old"), {"a": "old a", **old_b, **old_c}, "no name of the directory")
    expect(left_after(NAMES=100), {"a": "synced", "old/b": "old b"})
    expect(left_after(NAMES=100, BYTES=100)["a"].startswith("synced,"), True)


def push_all(server, told):
    """Pushes to each name and reads it. Returns false if the server doesn't answer."""
    connection = http.client.HTTPConnection(LOOPBACK, server.port, timeout=SECONDS)
    try:
        for name in PUSHED:
            told.push(connection, name)
            told.look(connection, name)
    except (OSError, http.client.HTTPException):
        return False
    finally:
        connection.close()
    return True


def started(disk, env=None):
    """Makes a start on a disk, which may fail."""
    first = () if journals(disk.folder) else ("--first",)
    words = ("--keep", "1000000", "--at-least-file", disk.least, *first)
    return Serving(disk.folder, *words, env=env)


def new():
    """Returns a disk with an empty folder, and what was reported about it."""
    disk = Disk()
    disk.least.write_text(f"{0:020}\n")
    return disk, Told()


def unset():
    """Returns a disk with an empty folder, without a file of the least position."""
    return Disk(), Told()


def served():
    """Returns a disk with a folder whose server acknowledged some changes, and what it reported."""
    disk, told = new()
    server = started(disk).listens()
    expect(push_all(server, told), True, "the first changes")
    server.kill()
    return disk, told


def idle():
    """Returns the same with a journal that has no changes since its base, which a start
    replaces."""
    disk, told = copy_of(served)
    started(disk).listens().kill()
    return disk, told


def left():
    """Returns the same with the beginning of a journal, as a failed start leaves it."""
    (disk, told), (other, _) = copy_of(served), made(idle)
    data = journals(other.folder)[newest(other.folder)]
    (disk.folder / f"{named(newest(disk.folder) + 1)}.tfj").write_bytes(data[: len(data) // 2])
    return disk, told


STARTS = (new, unset, served, idle, left)


@functools.cache
def made(make):
    """Returns what a function makes, made once."""
    return make()


def copy_of(make):
    """Returns a copy of the disk that a function makes, with a least position that lags, and a copy
    of what was reported about it."""
    (disk, told), copied = made(make), Disk()
    shutil.copytree(disk.root, copied.root, dirs_exist_ok=True)
    if disk.least.exists():
        copied.least.write_text(f"{0:020}\n")
    return copied, copy.deepcopy(told)


def expect_kept(disk, told, about, has_retired=True):
    """Checks that a server on what is left of a disk has all that was reported, and accepts further
    changes, and that the retired journals exist, unless that isn't promised."""
    server = started(disk).listens()
    for name in PUSHED:
        status, text = server.ask("GET", f"/state/{name}")
        serial = json.loads(text)["serial"] if status == 200 else 0
        last = told.acknowledged.get(name, 0)
        expect(serial in (last, last + 1), True, f"{about}: {name}: {serial}, {last} was told")
    expect(push_all(server, told), True, about)
    server.kill()
    if has_retired:
        told.expect_in(disk.folder, about)


def kill_often(rng, kills):
    """Kills a server that compacts often, after none to two compactions, and cuts the power most of
    the time."""
    disk, told = Disk(), Told()
    for kill in range(kills):
        how = {"DELAY": rng.choice((0, 300, 3000)), "SEED": rng.randrange(10**6)}
        words = ("--compact-entries", str(rng.randrange(3, 30)))
        env = disk.env(**how, **rng.choice(DISKS))
        server = serving(disk.folder, *words, workers="8", env=env)
        number = newest(disk.folder) + rng.choice((0, 1, 2))
        kill_beside(server, told, rng, lambda number=number: newest(disk.folder) >= number)
        if rng.random() < 0.9:
            disk.cut()
        told.expect_in(disk.folder, f"kill {kill}")
    expect((told.count > kills, len(told.read)), (True, 3), "there was something to lose")


def test_kills_lose_nothing_that_was_acknowledged():
    signal.alarm(2 * SECONDS + 3 * KILLS)
    rng = random.Random(SEED)
    for first in range(0, KILLS, 20):
        kill_often(rng, min(20, KILLS - first))


def events_in(trace):
    """Returns the letters of a trace."""
    return [line[0] for line in trace.read_text().splitlines()]


def failure_in(events):
    """Returns the place of the first failure, if there is one."""
    return next((place for place, letter in enumerate(events) if letter in "fonm"), None)


def has_failed(trace, directory):
    """Returns true if the sync of a directory of this name failed."""
    lines = trace.read_text().splitlines()
    return any(line.startswith("n ") and line.endswith(f" {directory}") for line in lines)


def is_idle(disk, trace):
    """Returns true if a server has marked all bytes of its journal durably, which is its last step
    after changes."""
    number = newest(disk.folder)
    data = (disk.folder / f"{named(number)}.tfj").read_bytes()
    mark = identity_text(**{f"n{number}": data}).splitlines()[1]
    is_marked = mark in (disk.folder / "identity").read_text()
    last = [line for line in trace.read_text().splitlines() if line[0] in "wsd"][-1]
    return is_marked and last.startswith("d ") and last.endswith(" folder")


def compacting(disk, told, trace, **how):
    """Starts a server that is asked to compact its journal, with nothing else left to do. Calls are
    counted from then on. Returns it with the number of events before."""
    server = started(disk, env=disk.env(ARMED=disk.armed, TRACE=trace, **how)).listens()
    expect(push_all(server, told), True, "the changes before a compaction")
    has_come(lambda: is_idle(disk, trace), "it is idle", SECONDS)
    disk.armed.touch()
    count = len(events_in(trace))
    (disk.folder / "compact").touch()
    return server, count


def wait_until_over(server, trace, count):
    """Waits until a server has ended, has reported a compaction with a failed call, or has made
    the last two syncs after its report, of a retired journal's directories."""
    def is_over():
        events = events_in(trace)[count:]
        reported = events.index("p") if "p" in events else len(events)
        is_failed = reported < len(events) and failure_in(events) is not None
        is_done = events[reported:].count("d") >= 2
        return server.process.poll() is not None or is_failed or is_done
    has_come(is_over, "the compaction is over", SECONDS)


def expect_each(work, count, *case):
    """Does the work of a case at each call, from number 1. The last number is no call's."""
    for make in STARTS:
        made(make)
    found = at_once(lambda turn: work(*case, turn), range(1, count + 1))
    wanted = (sorted(found, reverse=True), True, False)
    expect((found, found[1], found[-1]), wanted, f"{case}: which calls there are")


def cut_in_compaction(how, turn):
    """Cuts the power right before a call of a compaction. Returns true if there was the call."""
    (disk, told), trace = copy_of(served), fresh() / "trace"
    server, count = compacting(disk, told, trace, CUT=turn, SEED=turn, **how)
    number, about = newest(disk.folder), f"cut before call {turn}, {how}"
    wait_until_over(server, trace, count)
    is_cut = server.process.poll() is not None
    server.kill()
    disk.cut()
    if not is_cut:
        expect((newest(disk.folder), newest(disk.folder / "old")), (number + 1, number), about)
    expect_kept(disk, told, about)
    return is_cut


@pytest.mark.parametrize("how", DISKS, ids=str)
def test_a_power_cut_before_each_call_of_a_compaction_loses_nothing(how):
    expect_each(cut_in_compaction, CALLS, how)


def cut_in_start(make, how, turn):
    """Cuts the power right before a call of a start, or once it listens. Returns true if there was
    the call."""
    disk, told = copy_of(make)
    about = f"{make.__name__}, cut before call {turn}, {how}"
    server = started(disk, env=disk.env(CUT=turn, SEED=turn, **how))
    is_cut = not server.line and server.end()[0] == -signal.SIGKILL
    if not is_cut:
        server.listens().kill()
    disk.cut()
    if not is_cut:
        expect(int(disk.least.read_text()), told.count, f"{about}: the least position")
        expect((disk.folder / "served").exists(), True, f"{about}: the mark of a served folder")
    expect_kept(disk, told, about)
    return is_cut


@pytest.mark.parametrize("how", DISKS, ids=str)
@pytest.mark.parametrize("make", STARTS)
def test_a_power_cut_before_each_call_of_a_start_loses_nothing(make, how):
    expect_each(cut_in_start, CALLS, make, how)


def expect_reported(report, failed, place, about):
    """Checks what a server reports of a compaction: that it is done, unless a call failed before.
    Then the earlier journal continues, if the newest one still has its number, or the server
    ended."""
    status, text, is_same = report
    if failed is None or place < failed:
        expect((status, " bytes instead of " in text), (None, True), f"{about}: {text}")
    elif status is None:
        continues = ": CannotWrite: " in text and "keeps the present journal" in text
        expect((continues, is_same), (True, True), f"{about}: {text}")
    else:
        wanted = (STATUSES["CannotWrite"], True)
        expect((status, ": CannotWrite: " in text), wanted, f"{about}: {text}")


def fail_in_compaction(variable, is_cut, turn):
    """Has a call of a compaction fail: it isn't reported as done, and all that was reported is
    kept. Returns true if there was the call."""
    (disk, told), trace = copy_of(served), fresh() / "trace"
    about = f"{variable} {turn} fails in a compaction"
    server, count = compacting(disk, told, trace, **{variable: turn})
    number = newest(disk.folder)
    wait_until_over(server, trace, count)
    disk.armed.unlink()
    events, is_running = events_in(trace)[count:], push_all(server, told)
    status, errors = (None, server.kill()) if is_running else server.end()
    failed, reports = failure_in(events), errors.splitlines()[1:]
    is_same = newest(disk.folder) == number
    # A compaction is done even if the log of changes can't be synced, which is reported first.
    is_of_log = ".who: " in reports[0]
    expect_reported((status, reports[is_of_log], is_same), None if is_of_log else failed, events.index("p"), about)
    if is_cut:
        disk.cut()
    # It isn't known whether the names of retired journals are kept after their sync has failed.
    expect_kept(disk, told, about, not (is_cut and has_failed(trace, "old")))
    return failed is not None


@pytest.mark.parametrize("is_cut", [True, False])
@pytest.mark.parametrize("variable, count", [("FAIL", SYNCS), ("RENAME", RENAMES)])
def test_a_compaction_with_a_failed_sync_or_rename_is_not_reported_as_done(variable, count, is_cut):
    expect_each(fail_in_compaction, count, variable, is_cut)


def fail_in_start(make, variable, is_cut, turn):
    """Has a call of a start fail: it doesn't listen, and all that was reported before is kept.
    Returns true if there was the call."""
    (disk, told), trace = copy_of(make), fresh() / "trace"
    about = f"{make.__name__}, {variable} {turn} fails in a start"
    disk.armed.touch()
    server = started(disk, env=disk.env(ARMED=disk.armed, TRACE=trace, **{variable: turn}))
    disk.armed.unlink()
    events = events_in(trace)
    failed = failure_in(events)
    if server.line:
        expect(failed is None or "p" not in events[failed:], True, f"{about}: it listens")
        expect(push_all(server, told), True, about)
        server.kill()
    else:
        status, errors = server.end()
        # SyncFault is of the journal's first sync by the server itself.
        faults = [fault for fault in ("CannotWrite", "SyncFault") if f": {fault}: " in errors]
        expect((len(faults), status), (1, STATUSES["CannotWrite"]), errors)
    if is_cut:
        disk.cut()
    expect_kept(disk, told, about)
    return not server.line


@pytest.mark.parametrize("is_cut", [True, False])
@pytest.mark.parametrize("variable, count", [("FAIL", SYNCS), ("RENAME", RENAMES)])
@pytest.mark.parametrize("make", STARTS)
def test_a_start_with_a_failed_sync_or_rename_does_not_listen(make, variable, count, is_cut):
    expect_each(fail_in_start, count, make, variable, is_cut)
