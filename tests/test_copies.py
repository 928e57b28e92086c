"""Copies folders by `tfstatectl copy`, also in the middle of writes, kills the servers, and starts
others from the copies: they have all that was acknowledged before the last copy began, and
continue."""
import http.client
import json
import os
import random
import shutil
import signal
import threading
import time

import pytest

from checking import S1, S2, SECONDS, expect
from folder_program import STATUSES, Serving, run, served
from folders import (LOCK, LOOPBACK, NEWEST, PUSH1, PUSH2, REBASED, SHORT, all_of, ask_over,
                     at_once, fresh, identity_text, journals, named, owned)
from journal_reader import base_text, read_journal
from past_program import rows_in, told
from programs import preloaded
from pushers import Pusher, serials_of

pytestmark = pytest.mark.usefixtures("tfstatectl")
SHIM, MOVES = preloaded("kill_calls.c"), preloaded("moved_files.c")
EMPTY = b"TFJ1\n"
LATE = b"TFJ2\n" + base_text(9, [(b"a", b"", S2)])
COPIES = 60


def state_of(serial):
    return S1.replace(b"1 ", b"%d " % serial)[:-1] + b',"x":"' + b"y" * 500 + b'"}'


def copy(source, target, *words, **how):
    """Makes a copy. Returns its status, the journals of the target, and what it wrote to standard
    error."""
    status, _, errors = run("copy", source, target, *words, **how)
    return status, journals(target), errors


def refused(source, target, fault, *words):
    """Makes a copy that must end with a fault, and keep the journals and the identity of the
    target. Returns its text on standard error."""
    before = all_of(target)
    ended, _, errors = copy(source, target, *words)
    after = {name: data for name, data in all_of(target).items() if not name.endswith(".part")}
    expect((ended, after, f": {fault}: " in errors), (STATUSES[fault], before, True), errors)
    return errors


def test_a_copy_is_a_folder_that_is_served():
    source, target = fresh(n2=NEWEST), fresh()
    target.rmdir()
    expect(run("copy", source, target), (0, f"copied {named(2)}.tfj up to position 3\n", ""))
    expect((journals(target), (target / f"{named(2)}.tfj").stat().st_mode & 0o777), ({2: NEWEST}, 0o600))
    expect(all_of(source), {f"{named(2)}.tfj": NEWEST}, "the folder that is copied isn't changed")
    expect(served(target)[0], (200, S2))


@pytest.mark.parametrize("files, kept", [
    ({"n1": NEWEST, "n2": REBASED}, {2: REBASED}), ({"n2": NEWEST[:-3]}, {2: NEWEST[:-3]}), ({"n1": NEWEST, "n2": REBASED[:40]}, {1: NEWEST})])
def test_copies_are_read_before_they_are_kept(files, kept):
    ended, found, errors = copy(fresh(**files), fresh())
    expect((ended, found, errors), (0, kept, ""), files)


@pytest.mark.parametrize("files, fault", [
    ({"n2": NEWEST[:-1] + b"x"}, "Damaged"), ({"n2": NEWEST + PUSH1}, "Unlawful"), ({}, "NoJournal"), ({"n2": b""}, "TornBase"),
    ({"n1": NEWEST, "n2": SHORT}, "Diverged")])
def test_copies_that_a_start_would_refuse_are_not_kept(files, fault):
    refused(fresh(**files), fresh(), fault)


def test_copies_of_no_folder():
    refused(fresh() / "none", fresh(), "NoFolder")


@pytest.mark.parametrize("words", [("copy",), ("copy", "a"), ("copy", "a", "b", "c"), ("copy", "a", "b", "--keep", "x")])
def test_wrong_arguments_of_a_copy(words):
    expect(run(*words)[0], STATUSES["Arguments"], words)


def test_a_copy_grows():
    expect(copy(fresh(n2=NEWEST), fresh(n2=NEWEST[:-3]))[:2], (0, {2: NEWEST}))


@pytest.mark.parametrize("files", [
    {"n2": SHORT + PUSH2}, {"n2": SHORT + LOCK}, {"n2": REBASED}, {"n3": SHORT}, {"n1": NEWEST}, {"n1": NEWEST, "n3": LATE}])
def test_a_copy_only_grows(files):
    refused(fresh(**files), fresh(n2=NEWEST), "NotBeginning")


def test_copies_go_on_over_starts():
    """Journals that the source has retired since are copied completely before the next one, so that
    each follows its predecessor."""
    source, target = fresh(n1=EMPTY), fresh()
    for serial in range(1, 5):
        server = Serving(source).listens()
        expect(server.ask("POST", "/state/a", state_of(serial)), (200, b""))
        expect(copy(source, target)[0], 0)
        expect(server.ask("POST", "/state/b", state_of(serial)), (200, b""), "this one the next copy has")
        server.kill()
        expect(sorted(journals(target)), [serial + 1])
    expect(sorted(journals(target / "old")), [2, 3, 4])
    answer, line = served(target)
    expect((answer, " from position 7: " in line), ((200, state_of(4)), True), line)


def copies_of(source, target, wanted, moves):
    """Makes at least this many copies, until the server has retired journals a number of times
    meanwhile. Returns how each copy ended."""
    ends, seen, end = [], set(), time.monotonic() + SECONDS
    while len(ends) < wanted or len(seen) <= moves:
        expect(time.monotonic() < end, True, f"the server retires journals: {seen}")
        seen.add(len(journals(source / "old")))
        ends.append(copy(source, target)[::2])
    return ends


def test_copies_during_compactions_all_succeed():
    source = fresh(n1=EMPTY)
    server = Serving(source, "--compact-entries", "4").listens()
    pushers, targets = [Pusher(server, f"n{number}", b"y" * 2000) for number in range(2)], [fresh() for _ in range(4)]
    # A server that compacts all the time would retire more journals than are copied meanwhile.
    threads = [threading.Thread(target=pusher.push_until_gone, args=(0.05,)) for pusher in pushers]
    for thread in threads:
        thread.start()
    try:
        ends = at_once(lambda target: copies_of(source, target, COPIES // 4, 8), targets)
    finally:
        server.kill()
    for thread in threads:
        thread.join()
    expect({end for each in ends for end in each}, {(0, "")})
    serials, last = serials_of(source)
    for target in targets:
        expect(copy(source, target)[::2], (0, ""))
        found, position = serials_of(target)
        expect((position, {name: serials[name][-len(rows):] for name, rows in found.items()}), (last, found), "they have no gap")


@pytest.mark.parametrize("to, wanted", [("old", {1: NEWEST}), (None, {})])
def test_a_copy_reads_what_moves_away_meanwhile(to, wanted):
    """A journal is moved into `old/`, or removed, after the folder was listed and before the
    journal is read."""
    source, target = fresh(n1=NEWEST, n2=REBASED), fresh()
    (source / "old").mkdir()
    path = source / f"{named(1)}.tfj"
    variables = {"LD_PRELOAD": MOVES, "AWAY": str(path), **({"TO": str(source / to / path.name)} if to else {})}
    expect(copy(source, target, env={**os.environ, **variables}), (0, {2: REBASED}, ""))
    expect((path.exists(), journals(target / "old")), (False, wanted))


def chain_line(file, base, position):
    return f"{file}.tfj: base {base}, position {position}, 1 names, whole"


def test_a_new_chain_begins_if_the_source_has_lost_what_copies_need():
    source, target = owned(n2=NEWEST), fresh()
    expect(copy(source, target), (0, {2: NEWEST}, ""))
    (source / f"{named(2)}.tfj").unlink()
    (source / f"{named(7)}.tfj").write_bytes(LATE)
    (source / "identity").write_text(identity_text(n7=LATE))
    text = (f"tfstatectl: {source}: the source no longer has the journals between position 3 and 9: a new chain of copies begins; "
            f"the earlier one is in {target}/old\n")
    expect(copy(source, target), (0, {7: LATE}, text))
    expect(journals(target / "old"), {2: NEWEST}, "the earlier chain stays")
    expect((target / "identity").read_text(), identity_text(n2=NEWEST, n7=LATE))
    expect(copy(source, target), (0, {7: LATE}, ""), "it is said once")
    status, output, errors = run("check", target)
    lines = [chain_line(f"old/{named(2)}", 1, 3), chain_line(named(7), 9, 9), f"a start continues {named(7)}.tfj at position 9"]
    expect((status, output.splitlines(), errors), (0, lines, ""))
    (source / f"{named(7)}.tfj").write_bytes(LATE + LOCK)
    expect(copy(source, target), (0, {7: LATE + LOCK}, ""), "it only grows")
    status, output, errors = run("history", target, "a", "--json")
    rows = rows_in("history", output)
    expect((status, errors, [(row["position"], row["kept_from"]) for row in rows]), (0, "", [(10, 9), (3, 1), (2, 1)]))
    expect("versions between positions 3 and 9 are no longer kept" in run("history", target, "a")[2], True)
    expect(served(target)[0], (200, S2))


def test_a_new_chain_at_the_same_position_is_no_loss():
    target = fresh(n2=NEWEST)
    expect(copy(fresh(n3=REBASED), target), (0, {3: REBASED}, ""))
    expect(journals(target / "old"), {2: NEWEST})
    target = fresh(n2=b"TFJ3\n")
    status, found, errors = copy(fresh(n3=REBASED), target)
    expect((status, found, "the source no longer has the journals after the copies: a new chain of copies begins" in errors), (0, {3: REBASED}, True), errors)


def test_copies_go_on_over_compactions_of_a_source_that_keeps_little():
    """A new chain begins each time; all of them are read."""
    source, target, ends = fresh(n1=EMPTY), fresh(), []
    for serial in range(1, 8, 2):
        server = Serving(source, "--keep", "0").listens()
        expect(server.ask("POST", "/state/a", state_of(serial)), (200, b""))
        server.kill()
        server = Serving(source, "--keep", "0").listens()
        expect(server.ask("POST", "/state/a", state_of(serial + 1)), (200, b""))
        ends.append(copy(source, target))
        server.kill()
    expect([(status, sorted(found)) for status, found, _ in ends], [(0, [number]) for number in (3, 5, 7, 9)])
    expect([f"between position {at} and {at + 1}: a new chain" in errors for at, (_, _, errors) in zip((2, 4, 6), ends[1:])], [True] * 3, ends)
    rows = told(target, "history", "a")
    expect([(row["serial"], row["kept_from"]) for row in rows], [(serial, serial - 1) for serial in (8, 6, 4, 2)])
    expect(run("check", target)[1].count("old/"), 3)


def test_a_folder_that_was_served_takes_no_copies():
    source, target = fresh(n1=SHORT), fresh()
    expect(copy(source, target)[0], 0)
    second = Serving(target).listens()
    refused(source, target, "Locked")
    second.kill()
    refused(source, target, "Served")
    refused(target, target, "Served")


def kill_at(turn):
    """Kills a copy before the call with this number: the target can be served as it is, and the
    next copy continues."""
    source, target = owned(n2=NEWEST, n3=REBASED), owned(n2=NEWEST[:-3])
    (target / f"{named(2)}.tfj.part").write_bytes(b"left")
    ended = copy(source, target, env={**os.environ, "LD_PRELOAD": SHIM, "TURN": str(turn)})[0]
    expect(ended, -signal.SIGKILL, f"turn {turn}")
    twin = shutil.copytree(target, fresh(), dirs_exist_ok=True)
    expect(served(twin)[0], (200, S2), f"turn {turn}")
    expect((copy(source, target)[0], journals(target)), (0, {3: REBASED}), f"turn {turn}")
    text, (value, mark) = (target / "identity").read_text(), identity_text(n3=REBASED).splitlines()
    expect((text.splitlines()[0], mark in text), (value, True), f"turn {turn}: {text}")


def test_a_kill_at_each_call_leaves_a_folder_that_is_served():
    source, target, count = owned(n2=NEWEST, n3=REBASED), owned(n2=NEWEST[:-3]), fresh() / "count"
    expect(copy(source, target, env={**os.environ, "LD_PRELOAD": SHIM, "TURN": "0", "COUNT": str(count)})[0], 0)
    turns = len(count.read_bytes())
    expect(turns > 10, True, f"there are {turns} calls")
    at_once(kill_at, range(1, turns + 1))


def push_on(port, name, acknowledged, first=1):
    """Pushes rising serials to a name until the server is gone, and records the last acknowledged
    one."""
    connection, serial = http.client.HTTPConnection(LOOPBACK, port, timeout=SECONDS), first
    try:
        while ask_over(connection, "POST", f"/state/{name}", state_of(serial))[0] == 200:
            acknowledged[name] = serial
            serial += 1
            time.sleep(0.02)
    except (OSError, http.client.HTTPException):
        pass
    finally:
        connection.close()


class Writers:
    """Two clients that push to names of their own, of a server with two workers."""

    def __init__(self, server, acknowledged):
        self.acknowledged, self.names = acknowledged, ("n0", "n1")
        cases = [(server.port, name, acknowledged, acknowledged.get(name, 0) + 1) for name in self.names]
        self.threads = [threading.Thread(target=push_on, args=case) for case in cases]
        for thread in self.threads:
            thread.start()

    def wait_for(self, more):
        """Waits until each name has this many more acknowledged changes."""
        wanted = {name: self.acknowledged.get(name, 0) + more for name in self.names}
        end = time.monotonic() + SECONDS
        while any(self.acknowledged.get(name, 0) < count for name, count in wanted.items()):
            expect(time.monotonic() < end and all(thread.is_alive() for thread in self.threads), True, "they push")
            time.sleep(0.01)

    def join(self):
        for thread in self.threads:
            thread.join()


def serial_at(server, name):
    """Returns the serial of the state of a name."""
    status, body = server.ask("GET", f"/state/{name}")
    return json.loads(body)["serial"] if status == 200 else 0


def test_a_standby_takes_over_from_a_copy():
    for turn in range(2):
        source, target, acknowledged, before = fresh(n1=EMPTY), fresh(), {}, {}
        first = Serving(source).listens()
        writers = Writers(first, acknowledged)
        for _ in range(2):
            writers.wait_for(3)
            before = dict(acknowledged)
            expect(copy(source, target)[0], 0, f"turn {turn}")
        time.sleep(random.random() / 10)
        first.kill()
        writers.join()
        second = Serving(target).listens()
        found = {name: serial_at(second, name) for name in before}
        for name, serial in before.items():
            expect(found[name] >= serial, True, f"turn {turn}: {name} has {found[name]}; acknowledged before the copy: {serial}")
            expect(found[name] <= acknowledged[name] + 1, True, f"turn {turn}: {name} has no more than was asked for")
        again = Writers(second, found)
        again.wait_for(3)
        second.kill()
        again.join()


def test_a_copy_during_which_the_server_is_killed_is_good_or_not_kept():
    """The server is killed while its file is copied, at many moments."""
    source, target, acknowledged, before = fresh(n1=EMPTY), fresh(), {}, {}
    for turn in range(4):
        first = Serving(source).listens()
        writers = Writers(first, acknowledged)
        writers.wait_for(3)
        began = dict(acknowledged)
        thread = threading.Thread(target=copy, args=(source, target))
        thread.start()
        time.sleep(random.random() / 5)
        first.kill()
        thread.join()
        writers.join()
        newest = max(journals(target).items(), default=None)
        expect(newest is not None, True, f"turn {turn}: the copy is there")
        expect(read_journal(newest[1])[4].split()[0] in ("whole", "torn"), True, f"turn {turn}")
        before = began
    second = Serving(target).listens()
    for name, serial in before.items():
        expect(serial_at(second, name) >= serial, True, name)
    second.kill()


def test_a_backup_is_restored():
    source, backup = fresh(n1=EMPTY), fresh()
    server = Serving(source).listens()
    expect(server.ask("POST", "/state/a", state_of(1)), (200, b""))
    expect(copy(source, backup)[0], 0)
    server.kill()
    for files in (all_of(backup), {name: data for name, data in all_of(backup).items() if name.endswith(".tfj")}):
        restored = fresh()
        for name, data in files.items():
            (restored / name).write_bytes(data)
        status, _, errors = run("serve", restored, "--first", "--listen", f"{LOOPBACK}:0")
        expect((status, "NotFirst" in errors), (STATUSES["NotFirst"], True), "it has a journal")
        expect(served(restored)[0], (200, state_of(1)), sorted(files))
