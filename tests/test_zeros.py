"""A journal that ends in zeros after a power cut: its length was recorded, and its last bytes were
not. A start cuts zeros from the end of the last whole record to the end of the file, unless more
bytes were synced by the record next to the journal. Everything else stays damaged. `check` agrees
with each start."""
import json
import random
import signal
import time

from hypothesis import given, settings, strategies as st
import pytest

from checking import S1, S2, SECONDS, expect
from folder_program import STATUSES, Serving, ended, run
from folders import A, B, LOCK, NEWEST, REBASED, S3, SHORT, all_of, at_once, fresh, journals, named
from journal_reader import read_journal, record_text
from lazy_disk import Disk
from pushers import has_come, newest, serving
from told import Told, kill_beside

pytestmark = pytest.mark.usefixtures("tfstatectl")
KEPT, LAST = len(NEWEST), len(NEWEST) - len(LOCK)
# The lines of `check` about the journal NEWEST, and about the same without its last record.
WHOLE, SHORTER = "base 1, position 3, 1 names, whole", "base 1, position 2, 1 names, whole"


def zeros(count):
    return bytes(count)


def synced_path(folder, number=1):
    """Returns the path of the record of a journal's synced bytes."""
    return folder / f"{named(number)}.synced"


def cut_line(folder, count, at, number=1):
    """Returns the line of a start that cuts zeros."""
    return f"tfstatectl: {folder}/{named(number)}.tfj ends in {count} bytes of zeros, which a power cut leaves: they are cut at byte {at}"


def checked(folder):
    """Returns the status, the lines and the errors of `check`, which changes nothing."""
    before = all_of(folder)
    status, output, errors = run("check", folder)
    expect(all_of(folder), before, "check changes nothing")
    return status, output.splitlines(), errors


def holder(server):
    """Returns who holds the lock of `a`."""
    status, text = server.ask("LOCK", "/state/a", A)
    expect(status in (200, 423), True, text)
    return text if status == 423 else b""


def expect_served(folder, lines, state, lock, *words):
    """Checks that a start serves a state and a lock, and reports these lines before its own."""
    server = Serving(folder, *words).listens()
    expect((server.ask("GET", "/state/a"), holder(server)), ((200, state), lock), folder)
    expect(server.kill().splitlines()[:-1], lines, "what the start reports")


def expect_refused(folder, fault, *lines, words=()):
    """Checks that a start ends with a fault, after these lines, and that `check` does. Nothing
    is changed."""
    before = all_of(folder)
    status, output, errors = ended(folder, *words)
    reports = errors.splitlines()
    expect((status, output, f": {fault}: " in reports[-1], reports[:-1]), (STATUSES[fault], "", True, list(lines)), errors)
    expect(all_of(folder), before, "nothing is changed")
    if not words:
        status, _, errors = checked(folder)
        expect((status, errors.splitlines()), (STATUSES[fault], reports), "check agrees")
    return reports[-1]


def expect_damaged(folder, at, *lines, number=1):
    """Checks that a start and `check` find a journal damaged at a byte."""
    report = expect_refused(folder, "Damaged", *lines)
    expect(f"/{named(number)}.tfj: Damaged: invalid at byte {at}. " in report, True, report)


@pytest.mark.parametrize("count", [1, 7, 4096, 1_000_000])
def test_zeros_after_the_last_record_are_cut(count):
    folder = fresh(n1=NEWEST + zeros(count))
    lines = [f"{named(1)}.tfj: {WHOLE} before {count} bytes of zeros", f"a start continues {named(1)}.tfj at position 3"]
    expect(checked(folder), (0, lines, ""))
    expect_served(folder, [cut_line(folder, count, KEPT)], S2, B)
    expect((journals(folder), journals(folder / "old")), ({2: REBASED}, {1: NEWEST + zeros(count)}), "the zeros are kept in old/")
    status, output, errors = checked(folder)
    expect((status, output[0], errors), (0, f"old/{lines[0]}", ""))
    expect_served(folder, [], S2, B)


def test_zeros_after_a_base_are_cut():
    folder = fresh(n1=SHORT + zeros(300))
    expect_served(folder, [cut_line(folder, 300, len(SHORT))], S1, b"")


def test_zeros_in_place_of_a_record_are_cut():
    folder = fresh(n1=NEWEST[:LAST] + zeros(len(LOCK)))
    expect(checked(folder)[1][0], f"{named(1)}.tfj: {SHORTER} before {len(LOCK)} bytes of zeros")
    expect_served(folder, [cut_line(folder, len(LOCK), LAST)], S2, b"")


def test_zeros_in_place_of_the_end_of_a_record_stay_damaged():
    def work(count):
        expect_damaged(fresh(n1=NEWEST[:-count] + zeros(count)), LAST)
        expect_damaged(fresh(n1=NEWEST[:-count] + zeros(count + 5000)), LAST)
    at_once(work, range(1, len(LOCK)))


OTHERS = {
    "a byte after zeros": (NEWEST + zeros(40) + b"\1", KEPT), "a byte after one zero": (NEWEST + b"\0\1", KEPT),
    "a byte among many zeros": (NEWEST + zeros(70_000) + b"\1" + zeros(5), KEPT), "no zero": (NEWEST + b"\5", KEPT),
    "a record after zeros": (NEWEST[:LAST] + zeros(20) + LOCK, LAST), "a torn record": (NEWEST[:LAST] + LOCK[:20] + zeros(4096), LAST),
    "a wrong byte": (NEWEST[:-1] + b"\0", LAST), "a torn base": (SHORT[:-1] + zeros(30), 5)}


@pytest.mark.parametrize("name", OTHERS)
def test_other_bytes_stay_damaged(name):
    text, at = OTHERS[name]
    expect_damaged(fresh(n1=text), at)


def test_few_zeros_after_a_torn_record_are_left_out_with_it():
    folder = fresh(n1=NEWEST[:-16] + zeros(3))
    expect_served(folder, [], S2, b"")


@pytest.mark.parametrize("header, at", [(b"TFJ1\n", 5), (b"TFJ2\n", 5), (b"", 0)])
@pytest.mark.parametrize("count", [30, 5000])
def test_zeros_after_a_header_alone_stay_damaged(header, at, count):
    expect_damaged(fresh(n1=header + zeros(count)), at)


def test_zeros_in_place_of_synced_bytes_stay_damaged():
    folder = fresh(n1=NEWEST[:LAST] + zeros(len(LOCK)))
    for synced in (LAST + 1, KEPT, 10**12):
        synced_path(folder).write_text(f"{synced:020}\n")
        why = f"has only zeros from byte {LAST} on, but {synced} bytes were synced by {named(1)}.synced"
        expect_damaged(folder, LAST, f"tfstatectl: {folder}/{named(1)}.tfj {why}")
        expect(checked(folder)[1][0], f"{named(1)}.tfj: the journal is damaged at byte {LAST}")
    synced_path(folder).write_text(f"{LAST:020}\n")
    expect_served(folder, [cut_line(folder, len(LOCK), LAST)], S2, b"")


INVALID = {
    "short": b"12\n", "no line end": b"%020d" % 1, "long": b"%021d\n" % 1, "two line ends": b"%020d\n\n" % 1, "sign": b"+%019d\n" % 1,
    "large": b"9" * 20 + b"\n", "a zero byte": b"%019d\0\n" % 1, "letter": b"x", "line end": zeros(20) + b"\n", "no text": b"\xff" * 21}


@pytest.mark.parametrize("name", INVALID)
def test_an_invalid_record_of_synced_bytes_forbids_a_cut(name):
    folder = fresh(n1=NEWEST + zeros(9))
    synced_path(folder).write_bytes(INVALID[name])
    why = f"has only zeros from byte {KEPT} on, but {named(1)}.synced can't be read"
    expect_damaged(folder, KEPT, f"tfstatectl: {folder}/{named(1)}.tfj {why}")


def test_an_unreadable_record_of_synced_bytes_forbids_a_cut():
    folder = fresh(n1=NEWEST + zeros(9))
    synced_path(folder).mkdir()
    why = f"has only zeros from byte {KEPT} on, but {named(1)}.synced can't be read"
    expect_damaged(folder, KEPT, f"tfstatectl: {folder}/{named(1)}.tfj {why}")


@pytest.mark.parametrize("record", ["", "\0" * 21, f"{KEPT:020}\n", f"{0:020}\n"], ids=["empty", "zeros", "same", "none"])
def test_a_record_that_forbids_no_cut(record):
    folder = fresh(n1=NEWEST + zeros(9))
    synced_path(folder).write_text(record)
    synced_path(folder, 2).write_text(f"{10**6:020}\n")
    expect_served(folder, [cut_line(folder, 9, KEPT)], S2, B)


def test_the_least_position_still_refuses():
    folder = fresh(n1=NEWEST[:LAST] + zeros(500))
    report = expect_refused(folder, "NotAtLeast", words=("--at-least", "3"))
    expect("its position is 2, below the required 3" in report, True, report)
    expect_served(folder, [cut_line(folder, 500, LAST)], S2, b"", "--at-least", "2")


def test_the_newest_of_several_journals():
    unlock = record_text(2, b"a", b"B")
    folder = fresh(n1=NEWEST, n2=REBASED + unlock + zeros(77))
    expect(checked(folder)[1][-1], f"a start continues {named(2)}.tfj at position 4")
    expect_served(folder, [cut_line(folder, 77, len(REBASED) + len(unlock), 2)], S2, b"")
    folder = fresh(n1=NEWEST, n2=REBASED + zeros(1))
    expect_served(folder, [cut_line(folder, 1, len(REBASED), 2)], S2, B)
    expect_damaged(fresh(n1=NEWEST, n2=REBASED[:20] + zeros(90)), 5, number=2)
    expect_damaged(fresh(n1=NEWEST, n2=SHORT + zeros(90)), len(SHORT), number=2)


def test_a_journal_with_zeros_that_the_next_one_continues():
    """A start was killed after it had made the next journal, or while it made it."""
    folder = fresh(n1=NEWEST + zeros(50), n2=REBASED)
    expect(checked(folder)[1][-1], f"a start continues {named(2)}.tfj at position 3")
    expect_served(folder, [cut_line(folder, 50, KEPT)], S2, B)
    folder = fresh(n1=NEWEST + zeros(50), n2=REBASED[:30])
    expect(checked(folder)[1][-2:], [f"{named(2)}.tfj was left by a start that failed", f"a start continues {named(1)}.tfj at position 3"])
    expect_served(folder, [cut_line(folder, 50, KEPT)], S2, B)
    expect_damaged(fresh(n1=NEWEST[:LAST] + zeros(50), n2=REBASED), LAST)
    expect_damaged(fresh(n1=NEWEST + zeros(50), n2=REBASED + zeros(4)), len(REBASED), number=2)


def test_reports_pass_over_zeros_in_old():
    folder = fresh(n1=NEWEST + zeros(50))
    server = Serving(folder).listens()
    expect(server.ask("POST", "/state/a?ID=B", S3), (200, b""))
    server.kill()
    status, output, errors = run("history", folder, "a", "--json")
    expect((status, [json.loads(line)["position"] for line in output.splitlines()], errors), (0, [4, 3, 2], ""))


def test_copies_follow_a_start():
    folder, copies = fresh(n1=NEWEST + zeros(50)), fresh()
    copy = ("copy", folder, copies)
    expect(run(*copy), (0, f"copied {named(1)}.tfj up to position 3\n", ""))
    Serving(folder).listens().kill()
    expect(run(*copy), (0, f"copied {named(2)}.tfj up to position 3\n", ""))
    expect(journals(copies), {2: REBASED})
    expect_served(copies, [], S2, B)


def test_copies_heed_the_record_of_the_folder():
    folder = fresh(n1=NEWEST + zeros(50))
    synced_path(folder).write_text(f"{KEPT + 1:020}\n")
    status, output, errors = run("copy", folder, fresh())
    expect((status, output, f"{KEPT + 1} bytes were synced" in errors), (STATUSES["Damaged"], "", True), errors)


def cut_of(data, synced):
    """Returns the bytes before zeros that are cut, or None, as docs/FOLDER.md says."""
    end = read_journal(data)[4].split()
    at = int(end[1]) if end[0] == "damaged" else 0
    return data[:at] if 5 < at and synced <= at and not any(data[at:]) else None


@settings(max_examples=60)
@given(st.integers(0, KEPT), st.sampled_from([0, 0, 1, 3, 300]), st.booleans(), st.integers(0, 2 * KEPT), st.integers(0, KEPT))
def test_zeros_at_random_places(place, more, is_filled, byte, synced):
    """A journal is cut at a place, or filled with zeros from there on, and grows by zeros. One of
    its bytes may be another one."""
    data = bytearray(NEWEST[:place] + zeros((KEPT - place if is_filled else 0) + more))
    if byte < len(data):
        data[byte] ^= 1
    data, folder = bytes(data), fresh(n1=bytes(data))
    synced_path(folder).write_text(f"{synced:020}\n")
    status, lines, _ = checked(folder)
    end, front = read_journal(data)[4], cut_of(data, synced)
    if front is not None:
        _, base, _, entries, _ = read_journal(front)
        expect((status, lines[-1]), (0, f"a start continues {named(1)}.tfj at position {base + len(entries)}"), data)
    elif end.startswith("damaged"):
        expect(status, STATUSES["Damaged"], data)
    else:
        expect(status in (0, STATUSES["TornBase"]), True, data)


def test_a_server_records_the_synced_bytes():
    folder = fresh(n1=NEWEST)
    server = Serving(folder).listens()
    expect(server.ask("POST", "/state/a?ID=B", S3), (200, b""))

    def is_recorded():
        path, data = synced_path(folder, 2), journals(folder)[2]
        return path.exists() and path.read_text() == f"{len(data):020}\n"
    has_come(is_recorded, "the first change is recorded", SECONDS)
    expect(oct(synced_path(folder, 2).stat().st_mode & 0o777), "0o600")
    expect(server.ask("UNLOCK", "/state/a", B), (200, b""))
    has_come(is_recorded, "the second change is recorded", SECONDS)
    server.kill()
    data, path = journals(folder)[2], folder / f"{named(2)}.tfj"
    unlock = record_text(2, b"a", b"B")
    expect(data.endswith(unlock), True)
    at = len(data) - len(unlock)
    path.write_bytes(data[:at] + zeros(len(unlock) + 100))
    why = f"has only zeros from byte {at} on, but {len(data)} bytes were synced by {named(2)}.synced"
    expect_damaged(folder, at, f"tfstatectl: {folder}/{named(2)}.tfj {why}", number=2)
    path.write_bytes(data + zeros(100))
    expect_served(folder, [cut_line(folder, 100, len(data), 2)], S3, b"")


def test_records_go_with_their_journals():
    folder = fresh(n1=NEWEST)
    for number in (1, 7):
        synced_path(folder, number).write_text(f"{0:020}\n")
    (folder / "journal-1.synced").write_text("another file")
    server = Serving(folder, "--keep", "0", "--compact-entries", "1").listens()
    expect(server.ask("POST", "/state/a?ID=B", S3), (200, b""))
    has_come(lambda: newest(folder) == 3, "it compacts", SECONDS)
    has_come(lambda: not any(synced_path(folder, number).exists() for number in (1, 2, 7)), "records of removed journals", SECONDS)
    expect((folder / "journal-1.synced").exists(), True, "a file with another name")
    server.kill()


def test_a_record_that_cant_be_written_stops_nothing():
    folder = fresh(n1=NEWEST)
    synced_path(folder, 2).mkdir()
    server = Serving(folder).listens()
    expect(server.ask("POST", "/state/a?ID=B", S3), (200, b""))
    time.sleep(1.5)
    expect(server.ask("UNLOCK", "/state/a", B), (200, b""))
    server.kill()
    expect_served(folder, [], S3, b"")


def test_power_cuts_that_leave_zeros_lose_nothing():
    """The disk loses all that was not synced, but keeps the lengths of the journals."""
    signal.alarm(3 * SECONDS)
    rng, disk, told, cuts = random.Random(1), Disk(), Told(), 0
    for _ in range(8):
        server = serving(disk.folder, workers="8", env=disk.env(DELAY=rng.choice((300, 3000)), NAMES=100))
        kill_beside(server, told, rng, lambda: True)
        disk.cut(has_zeros=True)
        number = newest(disk.folder)
        data = journals(disk.folder)[number]
        cuts += len(data) - len(data.rstrip(b"\0")) > 16
        server = Serving(disk.folder, "--keep", "1000000").listens()
        for name, serial in told.acknowledged.items():
            status, text = server.ask("GET", f"/state/{name}")
            expect((status, json.loads(text)["serial"] in (serial, serial + 1)), (200, True), f"{name}: {serial}: {text}")
        server.kill()
    expect(cuts > 0, True, "some cut left zeros")
