"""Runs `tfstatectl` on folders of journals: starts on valid and damaged ones, diverged histories,
interrupted starts, and random folders, which are compared with a plain model. No acknowledged
change may be missing afterwards, and nothing that a person has to look at is passed over."""
import os
import shutil
from pathlib import Path

from hypothesis import given, settings, strategies as st
import pytest

from checking import S1, S2, expect
from folder_model import Fault, chosen, number_of, started
from folder_program import STATUSES, Serving, ended, run, served
from folder_texts import folder_files
from folders import (A, B, LOCK, LOOPBACK, NEWEST, PUSH1, PUSH2, PUSH3, REBASED, S3, SHORT, all_of,
                     at_once, fresh, journals, named)
from journal_reader import base_text, push_content, record_text
from repository import TOP

pytestmark = pytest.mark.usefixtures("tfstatectl")
EMPTY = b"TFJ1\n"
# The memory limit of a start whose journals have 100 KB of current state.
MOST_MEMORY = 24_000_000


def refused(folder, fault, about, *words):
    """Makes a start that must end with a fault, and change nothing. Returns its report."""
    before = all_of(folder)
    status, output, errors = ended(folder, *words)
    expect((status, output, f": {fault}" in errors, len(errors.splitlines())), (STATUSES[fault], "", True, 1), f"{about}: {errors}")
    expect(all_of(folder), before, f"{about}: nothing is changed")
    return errors


def old_of(folder):
    """Returns the bytes of the retired journals, by their numbers."""
    return journals(folder / "old")


def test_help_and_version():
    version = (TOP / "VERSION").read_text().split("\n")
    expect(run("--version"), (0, f"tfstatectl {version[0]} ({version[1]})\n", ""))
    status, output, errors = run("--help")
    expect((status, errors), (0, ""))
    expect(all(word in output for word in ("init", "serve", "check", "Status: 0 success; 20 temporary fault")), True, output)
    status, output, _ = run("serve", "--help")
    options = ("--listen", "--workers", "--keep", "--keep-days", "--keep-bytes", "--first", "--at-least", "FOLDER")
    expect((status, [word for word in options if word not in output]), (0, []))


@pytest.mark.parametrize("words", [
    (), ("serve",), ("check",), ("serve", "F", "more"), ("serve", "F", "--workers", "0"), ("serve", "F", "--workers", "17"),
    ("serve", "F", "--workers", "x"), ("serve", "F", "--keep", "-1"), ("serve", "F", "--at-least", "x"),
    ("serve", "F", "--unknown"), ("other", "F"), ("serve", "F", "--listen"), ("init",), ("init", "F", "more"),
    *(("serve", "F", *words) for words in (("--keep-days", "x"), ("--keep-bytes", "-1"), ("--keep", "9", "--keep-days", "9")))])
def test_wrong_arguments(words):
    folder = fresh(n1=NEWEST)
    status, output, errors = run(*(folder if word == "F" else word for word in words))
    expect((status, output, bool(errors)), (STATUSES["Arguments"], "", True), words)


def test_addresses_that_cant_be_listened_at():
    folder, taken = fresh(n1=NEWEST), Serving(fresh(n1=SHORT)).listens()
    for address in ("nowhere", LOOPBACK, f"{LOOPBACK}:x", f"{LOOPBACK}:65536", f"{LOOPBACK}:{taken.port}"):
        errors = refused(folder, "CannotBind", address, "--listen", address)
        expect(address in errors, True, errors)


def test_the_first_start_is_asked_for():
    folder = fresh()
    shutil.rmtree(folder)
    status, _, errors = ended(folder)
    expect((status, "NoFolder" in errors, folder.exists()), (STATUSES["NoFolder"], True, False), errors)
    folder.mkdir()
    errors = refused(folder, "NoJournal", "an empty folder")
    expect("tfstatectl init" in errors, True, errors)
    answer, line = served(folder, "--first")
    expect((answer, " 0 names" in line), ((404, b'{"error":"NoState"}'), True), line)
    expect(journals(folder), {1: b"TFJ2\n" + started(0, EMPTY)[5:]})
    refused(folder, "NotFirst", "it has a journal", "--first")
    for inside in ("journal-0000000007.tfj", "old/journal-0000000007.tfj", "served"):
        had = fresh()
        (had / inside).parent.mkdir(exist_ok=True)
        (had / inside).write_bytes(EMPTY)
        errors = refused(had, "NotFirst", inside, "--first")
        expect(inside.startswith("served") or named(7) in errors, True, errors)


def test_init_creates_a_folder_that_is_served():
    for folder in (fresh(), fresh() / "not" / "there"):
        path = folder / f"{named(1)}.tfj"
        expect(run("init", folder), (0, f"created {path}\n", ""))
        expect((journals(folder), path.stat().st_mode & 0o777), ({1: started(0, EMPTY)}, 0o600))
        before = all_of(folder)
        expect(sorted(before), ["identity", path.name, "served"])
        status, output, errors = run("init", folder)
        expect((status, output, f"{path}: NotFirst: " in errors), (STATUSES["NotFirst"], "", True), errors)
        expect(all_of(folder), before, "nothing is changed")
        expect((served(folder)[0][0], sorted(journals(folder))), (404, [1]))
    server = Serving(folder).listens()
    expect(run("init", folder)[0], STATUSES["Locked"], "it is served")
    server.kill()
    for files in ({"n7": NEWEST}, {"n7": b""}):
        expect(run("init", fresh(**files))[0], STATUSES["NotFirst"], "it has a journal")
    file = fresh() / "file"
    file.write_bytes(b"")
    expect(run("init", file)[0], STATUSES["NotFolder"], "it is a file")


@pytest.mark.parametrize("data", [EMPTY + PUSH1 + PUSH2 + LOCK, NEWEST, NEWEST[:-1] + b"", REBASED])
def test_a_folder_begins_with_a_file(data):
    folder, given = fresh(), fresh() / "given"
    given.write_bytes(data)
    answer, _ = served(folder, "--first", given)
    expect(answer, (200, S2), data)
    expect((journals(folder), given.read_bytes()), ({1: started(0, data)}, data))


@pytest.mark.parametrize("data, fault", [(NEWEST[:40], "TornBase"), (b"TFJ3\n", "Damaged"), (SHORT + PUSH2 + PUSH1, "Unlawful")])
def test_a_folder_begins_with_no_broken_file(data, fault):
    folder, given = fresh(), fresh() / "given"
    given.write_bytes(data)
    refused(folder, fault, data, "--first", given)


def test_a_folder_begins_with_a_file_that_can_be_read():
    refused(fresh(), "CannotRead", "no file", "--first", fresh() / "none")


def test_each_start_continues_in_a_shorter_journal():
    folder = fresh(n1=EMPTY)
    for serial in range(1, 6):
        server, text = Serving(folder, "--keep", "2").listens(), S1.replace(b"1 ", b"%d " % serial)
        if serial > 1:
            expect(server.ask("GET", "/state/a"), (200, text.replace(b"%d " % serial, b"%d " % (serial - 1))))
        expect(server.ask("POST", "/state/a", text), (200, b""))
        line = server.kill()
        expect(f"{named(serial + 1)}.tfj from position {serial - 1}: " in line, True, line)
        expect((sorted(journals(folder)), sorted(old_of(folder))), ([serial + 1], [1, 2, 3, 4, 5][max(0, serial - 2) : serial]))
    expect((folder / f"{named(6)}.tfj").stat().st_mode & 0o777, 0o600, "nobody else reads it")


@pytest.mark.parametrize("files, numbers, new", [
    ({"n4": NEWEST}, [4], 5), ({"n3": NEWEST, "n4": REBASED}, [3], 4), ({"n1": EMPTY + PUSH1, "n3": NEWEST, "n4": REBASED}, [1, 3], 4)])
def test_journals_that_went_before_are_put_away(files, numbers, new):
    """A journal without changes keeps its number."""
    folder = fresh(**files)
    answer, line = served(folder)
    expect((answer, f"{named(new)}.tfj from position 3: 92 bytes, 1 names, " in line), ((200, S2), True), line)
    expect(old_of(folder), {number: files[f"n{number}"] for number in numbers})
    expect(journals(folder), {new: REBASED})


def large_state(serial):
    """Returns a state of 100 KB."""
    return S1.replace(b"1 ", b"%d " % serial) + b" " * 100_000


def large_pushes(first, last):
    """Returns records of pushes of such states."""
    return b"".join(record_text(3, b"a", push_content(b"", large_state(serial))) for serial in range(first, last + 1))


@pytest.mark.parametrize("is_left", [False, True])
def test_a_start_from_several_journals_takes_little_memory(is_left):
    """Two journals of 40 MB with 100 KB of current state, and perhaps one that a failed start left
    after them."""
    base, next_base = (b"TFJ2\n" + base_text(last, [(b"a", b"", large_state(last))]) for last in (400, 800))
    files = {"n3": EMPTY + large_pushes(1, 400), "n4": base + large_pushes(401, 800), **({"n5": next_base[:-1]} if is_left else {})}
    server = Serving(fresh(**files)).listens()
    expect(server.ask("GET", "/state/a"), (200, large_state(800)))
    expect(server.most_memory() < MOST_MEMORY, True, f"{server.most_memory():,} bytes at most")
    server.kill()


def test_names_of_others_are_left_alone():
    folder = fresh(n3=NEWEST)
    others = ("journal-1.tfj", "copy.tfj", "journal-0000000004 (1).tfj", "journal-0000000009.tfj.part", "Journal-0000000009.tfj",
              "journal-00000000009.tfj", "journal-000000000x.tfj", "journal-0000000009.tfk", b"journal-\xff00000009.tfj")
    for name in others:
        (folder / os.fsdecode(name)).write_bytes(SHORT)
    before = all_of(folder)
    expect(served(folder)[0], (200, S2))
    after = all_of(folder)
    expect([name for name in before if name != f"{named(3)}.tfj" and after.get(name) != before[name]], [])


def start_refused(case):
    """Makes a start over journals, in which number 4 can't be continued."""
    about, files, fault = case
    errors = refused(fresh(**files), fault, about)
    expect(named(4) in errors, True, f"{about}: {errors}")


def test_what_cant_be_gone_on_with_stops_the_start():
    changed = NEWEST[:60] + bytes([NEWEST[60] ^ 1]) + NEWEST[61:]
    late = NEWEST[:-1] + bytes([NEWEST[-1] ^ 1])
    table = [("a base", changed, "Damaged"), ("the last record", late, "Damaged"), ("a header", b"TFJ3\n", "Damaged"),
             ("a lower serial", SHORT + PUSH2 + PUSH1, "Unlawful"), ("a write without the lock", NEWEST + PUSH3, "Unlawful"),
             ("part of a base", NEWEST[:50], "TornBase"), ("no bytes", b"", "TornBase"), ("part of a header", b"TF", "TornBase")]
    others = [{}, {"n5": REBASED}, {"n5": REBASED, "n6": REBASED}]
    at_once(start_refused, [(about, {**other, "n4": data}, fault) for about, data, fault in table for other in others])


@pytest.mark.parametrize("make", [Path.mkdir, lambda path: path.symlink_to("nowhere")], ids=["folder", "link"])
@pytest.mark.parametrize("files", [{}, {"n3": NEWEST}, {"n5": REBASED}, {"n3": NEWEST, "n5": REBASED}])
def test_a_journal_that_cant_be_read_stops_the_start(files, make):
    """Number 4 is a folder, which can be opened, or a link to nothing."""
    folder = fresh(**files)
    make(folder / f"{named(4)}.tfj")
    errors = refused(folder, "CannotRead", f"beside {sorted(files)}")
    expect(named(4) in errors, True, errors)


@pytest.mark.parametrize("files, about", [
    ({"n3": SHORT + PUSH2, "n4": SHORT + LOCK}, "one was cut off, and lived on"), ({"n3": NEWEST, "n4": SHORT}, "an older copy"),
    ({"n3": SHORT, "n4": b"TFJ2\n" + started(0, SHORT + PUSH2)[5:]}, "a later one is missing between"),
    ({"n3": NEWEST, "n4": EMPTY}, "an empty one"), ({"n3": SHORT, "n4": EMPTY + PUSH1}, "the same in format 1"),
    ({"n3": NEWEST, "n4": NEWEST}, "the same bytes")])
def test_diverged_histories_stop_the_start(files, about):
    """A continued number 3 when B had already continued from it, or another history has the later
    number."""
    errors = refused(fresh(**files), "Diverged", about)
    expect(named(4) in errors, True, errors)


def test_changes_of_two_servers_from_one_journal_stop_the_start():
    folder = fresh(n3=SHORT)
    first = Serving(folder).listens()
    expect(first.ask("POST", "/state/a", S2), (200, b""))
    other = fresh(n3=journals(folder)[3])
    expect(first.ask("POST", "/state/a", S3), (200, b""), "A lives on")
    second = Serving(other).listens()
    expect(second.ask("LOCK", "/state/a", B), (200, b""), "B was started from a copy")
    first.kill()
    second.kill()
    shutil.copy(other / f"{named(4)}.tfj", folder)
    refused(folder, "Diverged", "A's change isn't B's")


def start_over_a_cut_base(count):
    """Makes a start after the previous start was cut off when it had written this many bytes of the
    new journal."""
    folder = fresh(n3=NEWEST, n4=REBASED[:count])
    expect(served(folder)[0], (200, S2), f"the first {count} bytes")
    is_cut = count < len(REBASED)
    expect((folder / "failed-start").exists(), is_cut, f"the first {count} bytes")
    expect((journals(folder), sorted(old_of(folder))), ({5 if is_cut else 4: REBASED}, [3]))


def test_a_start_that_was_cut_off_is_set_aside():
    at_once(start_over_a_cut_base, [*range(8), *range(8, len(REBASED), 7), len(REBASED) - 1, len(REBASED)])
    for cut in (REBASED[:30] + bytes([REBASED[30] ^ 1]), SHORT[:40], REBASED[:12] + b"\1"):
        start_refused(("no beginning of it", {"n3": NEWEST, "n4": cut}, "TornBase"))


def test_a_torn_end_is_left_out():
    for count in range(len(NEWEST) - len(LOCK) + 1, len(NEWEST), 8):
        folder = fresh(n3=NEWEST[:count])
        server = Serving(folder).listens()
        expect(server.ask("GET", "/state/a"), (200, S2), f"{count} bytes")
        expect(server.ask("LOCK", "/state/a", A), (200, b""), "the lock that was torn was never acknowledged")
        server.kill()


def test_two_of_one_name_stop_the_start():
    folder = fresh(n3=NEWEST)
    (folder / "old").mkdir()
    (folder / "old" / f"{named(3)}.tfj").write_bytes(SHORT)
    refused(folder, "TwoOfName", "old/ has it, too")
    expect((run("check", folder)[0], run("check", fresh(n3=NEWEST))[0]), (STATUSES["TwoOfName"], 0))


def test_the_lock_keeps_two_servers_off_one_folder():
    folder = fresh(n1=SHORT)
    first = Serving(folder).listens()
    refused(folder, "Locked", "the folder is served")
    expect(first.ask("POST", "/state/a", S2), (200, b""))
    first.kill()
    expect(served(folder)[0], (200, S2))


def expect_as_the_model(files):
    """Checks that a start on a folder of these files does what the model says, and so does `check`.
    Returns the name of the fault, or of none."""
    folder = fresh()
    for name, data in files.items():
        (folder / name).write_bytes(data)
    about = f"folder {files}"
    try:
        number, data, left = chosen(files)
    except Fault as fault:
        errors = refused(folder, fault.args[0], about)
        expect(fault.args[1] is None or named(fault.args[1]) in errors, True, f"{about}: {errors}")
        expect(run("check", folder)[0], STATUSES[fault.args[0]], about)
        return fault.args[0]
    expect(run("check", folder)[0], 0, about)
    server = Serving(folder).listens()
    server.kill()
    text, numbers = started(number, data), [number_of(name) for name in files if number_of(name) is not None]
    new = number if text == files[f"{named(number)}.tfj"] else max(numbers) + 1
    expect(journals(folder), {new: text}, about)
    put_away = {number_of(name): content for name, content in files.items() if number_of(name) not in (None, left, new)}
    expect(old_of(folder), put_away, about)
    return "left" if left else "replaced" if new == number else "served"


def test_random_folders_are_served_as_the_model_says():
    met = set()

    @settings(max_examples=60)
    @given(st.lists(folder_files(), min_size=6, max_size=10))
    def are_served(folders):
        met.update(at_once(expect_as_the_model, folders))

    are_served()
    expect(met, {"NoJournal", "Damaged", "Unlawful", "TornBase", "Diverged", "TooFar", "left", "replaced", "served"}, "each end is met")


def test_check_reports_each_journal():
    folder = fresh(n3=NEWEST, n4=REBASED[:40])
    wanted = (f"{named(3)}.tfj: base 1, position 3, 1 names, whole\n{named(4)}.tfj: the journal ends inside its base\n"
              f"{named(4)}.tfj was left by a start that failed\na start continues {named(3)}.tfj at position 3\n")
    before = all_of(folder)
    expect(run("check", folder), (0, wanted, ""))
    status, output, errors = run("check", fresh(n3=NEWEST, n4=SHORT))
    expect((status, output.count("\n"), "Diverged" in errors, named(4) in errors), (STATUSES["Diverged"], 2, True, True), errors)
    expect(all_of(folder), before)
    none, file = fresh() / "none", fresh() / "file"
    file.write_bytes(NEWEST)
    for path, fault in ((fresh(), "NoJournal"), (none, "NoFolder"), (file, "NotFolder"), (file / "more", "NotFolder")):
        status, output, errors = run("check", path)
        expect((status, output, f"{path}: {fault}" in errors), (STATUSES[fault], "", True), errors)


@pytest.mark.parametrize(("content", "line", "fault"), [
    (NEWEST, "base 1, position 3, 1 names, whole", None),
    (NEWEST + PUSH3[:9], f"base 1, position 3, 1 names, torn at byte {len(NEWEST)}", None),
    (b"TFJ", "base 0, position 0, 0 names, torn at byte 0", "TornBase"),
    (REBASED[:40], "the journal ends inside its base", "TornBase"),
    (b"TFJ9\n", "the journal is damaged at byte 0", "Damaged"),
    (EMPTY + PUSH2 + PUSH1, "record 2 of the journal breaks the rules", "Unlawful"),
    (b"TFJ2\n" + base_text(1 << 62, []) + PUSH1, "the position is too high for a base", "TooFar")])
def test_check_reports_a_single_journal(content, line, fault):
    folder = fresh(n3=content)
    wanted = f"{named(3)}.tfj: {line}\n"
    if fault is None:
        expect(run("check", folder), (0, f"{wanted}a start continues {named(3)}.tfj at position 3\n", ""))
    else:
        status, output, errors = run("check", folder)
        expect((status, output, f"{named(3)}.tfj: {fault}" in errors), (STATUSES[fault], wanted, True), errors)
    (folder / "old").mkdir()
    (folder / "old" / f"{named(3)}.tfj").write_bytes(NEWEST)
    wanted = f"old/{named(3)}.tfj: base 1, position 3, 1 names, whole\n{wanted}"
    status, output, errors = run("check", folder)
    expect((status, output), (STATUSES[fault or "TwoOfName"], wanted), errors)
