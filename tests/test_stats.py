"""Runs `tfstatectl stats`: its numbers on folders by hand, ages, its reports of damaged journals
and of copies, and its numbers while a server writes. tests/test_versions.py compares it with a
plain model on random folders."""
import json
import os
import subprocess
import threading
import time

import pytest

from checking import SECONDS, expect
from folder_program import FOLDER_PROGRAM, STATUSES, Serving, run
from folders import NEWEST, PUSH1, PUSH2, REBASED, SHORT, fresh, named
from journal_reader import push_content, record_text
from metrics import read_metrics
from past_program import WHO, bytes_of, graph, refused, some_past, state

pytestmark = pytest.mark.usefixtures("tfstatectl")
LOCK_AGE, COPY_AGE = "tfstated_oldest_lock_age_seconds", "tfstated_newest_copy_age_seconds"


def numbers(folder, *words):
    """Returns the printed numbers, by their names without the common prefix."""
    return short(bytes_of("stats", folder, *words).decode())


def short(text):
    return {name.removeprefix("tfstated_"): value for name, (value, _) in read_metrics(text).items()}


def wanted(size, entries, position, workspaces, instances, locks):
    return {"journal_bytes": size, "journal_entries": entries, "changes_total": position, "workspaces": workspaces, "workspaces_limit": 1024,
            "instances": instances, "locks": locks}


def lock(name, created):
    return record_text(1, name, json.dumps({"ID": "x", "Created": created}).encode())


def stamp(seconds, form="%Y-%m-%dT%H:%M:%SZ"):
    """Returns the time this many seconds ago."""
    return time.strftime(form, time.gmtime(time.time() - seconds))


def is_age(value, seconds):
    return seconds <= value <= seconds + SECONDS


def test_numbers_by_hand():
    expect(numbers(fresh(n1=b"TFJ1\n")), wanted(5, 0, 0, 0, 0, 0))
    data, instances = graph()
    push = record_text(3, b"b", push_content(b"", data))
    gone = record_text(4, b"b", b"")
    folder = fresh(n2=b"TFJ1\n" + PUSH1, n3=SHORT + PUSH2 + push + lock(b"c", 7))
    expect(numbers(folder), wanted(len(SHORT + PUSH2 + push + lock(b"c", 7)), 3, 4, 3, len(instances), 1))
    expect(numbers(fresh(n3=SHORT + push + gone)), wanted(len(SHORT + push + gone), 2, 3, 2, 0, 0), "a name stays when its state goes")
    torn = NEWEST[:-5]
    expect(numbers(fresh(n3=torn)), wanted(len(torn), 1, 2, 1, 0, 0), "a record that is being written")
    expect(numbers(fresh(n3=NEWEST, n4=REBASED[:40])), wanted(len(NEWEST), 2, 3, 1, 0, 1), "what a failed start left is passed over")


def test_the_kinds_and_units():
    kinds = {name: kind for name, (_, kind) in read_metrics(bytes_of("stats", some_past()).decode()).items()}
    expect(kinds.pop("tfstated_changes_total"), "counter")
    expect(set(kinds.values()), {"gauge"})
    expect((LOCK_AGE in kinds, COPY_AGE in kinds, "tfstated_journal_bytes" in kinds), (True, False, True), kinds)


def test_the_age_of_the_oldest_lock_that_states_it():
    old = time.time() - 1_770_091_506
    expect(is_age(numbers(some_past())["oldest_lock_age_seconds"], old - SECONDS), True, "2026-02-03T04:05:06Z")
    expect("oldest_lock_age_seconds" in numbers(fresh(n1=b"TFJ1\n" + lock(b"a", "yesterday"))), False, "nobody tells it")


@pytest.mark.parametrize("times_of, age", [
    (lambda: [stamp(50), stamp(5000), stamp(500)], 5000), (lambda: ["yesterday", stamp(70), 3, None, "", stamp(0)[:10]], 70),
    (lambda: [stamp(80, "%Y-%m-%dT%H:%M:%S.25Z")], 79), (lambda: [stamp(3600 - 90, "%Y-%m-%dT%H:%M:%S+01:00")], 7200 - 90 - 1),
    (lambda: [stamp(-5000)], 0)], ids=["of three", "other words", "a fraction", "another zone", "to come"])
def test_the_age_of_the_oldest_of_some_locks(times_of, age):
    times = times_of()
    folder = fresh(n1=b"TFJ1\n" + b"".join(lock(b"n%d" % place, created) for place, created in enumerate(times)))
    found = numbers(folder)
    expect((found["locks"], is_age(found["oldest_lock_age_seconds"], age)), (len(times), True), f"{times}: {found}")


def test_the_age_of_the_newest_copy():
    folder, copies = some_past(), fresh(n2=b"TFJ1\n", n3=NEWEST)
    for number, age in ((2, 10), (3, 1000)):
        os.utime(copies / f"{named(number)}.tfj", (time.time() - age,) * 2)
    found = numbers(folder, "--copies", copies)
    expect(is_age(found["newest_copy_age_seconds"], 1000), True, found)
    expect(set(found) - set(numbers(folder)), {"newest_copy_age_seconds"})
    os.utime(copies / f"{named(3)}.tfj", (time.time() + 1000,) * 2)
    expect(numbers(folder, "--copies", copies)["newest_copy_age_seconds"], 0, "of a time to come")


def test_there_is_no_age_before_the_first_copy():
    folder = some_past()
    for copies in (fresh(), fresh() / "none"):
        found = numbers(folder, "--copies", copies)
        expect((found["changes_total"], "newest_copy_age_seconds" in found), (3, False), found)


def test_faults_of_copies_are_reported_after_the_numbers():
    folder, copies = some_past(), fresh() / "file"
    copies.write_bytes(NEWEST)
    status, output, errors = run("stats", folder, "--copies", copies)
    expect((status, f"tfstatectl: {copies}: NotFolder" in errors, len(errors.splitlines())), (STATUSES["NotFolder"], True, 1), errors)
    found = short(output)
    expect((found["changes_total"], "newest_copy_age_seconds" in found), (3, False), output)


@pytest.mark.parametrize("data, fault", [
    (NEWEST[:-1] + bytes([NEWEST[-1] ^ 1]), "Damaged"), (SHORT + PUSH2 + PUSH1 + PUSH2, "Unlawful")])
def test_what_is_whole_is_counted_before_a_fault(data, fault):
    status, output, errors = run("stats", fresh(n3=data))
    expect((status, short(output)), (STATUSES[fault], wanted(len(data), 1, 2, 1, 0, 0)), errors)
    expect(f"{named(3)}.tfj: {fault}" in errors, True, errors)


def test_nothing_is_counted_without_a_base():
    base = SHORT[:-1] + bytes([SHORT[-1] ^ 1])
    refused("Damaged", fresh(n3=base), "stats")
    refused("TornBase", fresh(n3=NEWEST[:40]), "stats")
    refused("NoJournal", fresh(), "stats")
    refused("NoFolder", fresh() / "none", "stats")
    for words in ((), (some_past(), "--copies"), (some_past(), "a"), (some_past(), "--json")):
        status, output, errors = run("stats", *words)
        expect((status, output, bool(errors)), (STATUSES["Arguments"], "", True), words)


def test_closed_output_is_reported():
    with open("/dev/full", "wb") as full:
        ran = subprocess.run([FOLDER_PROGRAM, "stats", some_past()], stdout=full, stderr=subprocess.PIPE, timeout=SECONDS, check=False)
    expect((ran.returncode, b": Write" in ran.stderr), (STATUSES["Write"], True), ran.stderr)


def test_numbers_during_writes_and_restarts_of_a_server():
    folder, done, faults = fresh(n1=b"TFJ1\n" + record_text(1, b"b", json.dumps(WHO).encode())), threading.Event(), []
    acknowledged = [1]

    def read():
        while not done.is_set():
            least = acknowledged[0]
            found = numbers(folder, "--copies", folder)
            if found["changes_total"] < least or found["locks"] != 1 or found["journal_entries"] > found["changes_total"]:
                faults.append((least, found))

    server = Serving(folder).listens()
    reader = threading.Thread(target=read)
    reader.start()
    for serial in range(1, 41):
        if serial % 20 == 0:
            server.kill()
            server = Serving(folder).listens()
        expect(server.ask("POST", "/state/a", state(serial)), (200, b""))
        acknowledged[0] = serial + 1
    done.set()
    reader.join()
    expect(faults, [])
    expect({name: numbers(folder)[name] for name in ("changes_total", "workspaces")}, {"changes_total": 41, "workspaces": 2})
