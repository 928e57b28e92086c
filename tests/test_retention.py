"""What a folder keeps over starts: a start without changes retires no journal, a failed start
leaves none, and the files of `old/` are removed by number, age and size. The commands report the
positions that are no longer kept."""
import os
import subprocess
import time
from pathlib import Path

import pytest

from checking import S1, S2, SECONDS, expect
from folder_program import FOLDER_PROGRAM, STATUSES, Serving, ended, run, served
from folders import (LOCK, LOOPBACK, NEWEST, PUSH1, PUSH2, REBASED, SHORT, all_of, fresh,
                     journals, named, owned)
from journal_reader import base_text, record_text
from past_program import bytes_of, put_away, refused, told
from pushers import has_come

pytestmark = pytest.mark.usefixtures("tfstatectl")
EMPTY, LATE = b"TFJ1\n", b"TFJ2\n" + base_text(9, [(b"a", b"", S2)])
UNLOCK = record_text(2, b"a", b"B")
STARTS = 50
DAY = 86_400


def kept(folder):
    """Returns the contents of a folder, and what is read of its past."""
    return all_of(folder), told(folder, "history", "a"), bytes_of("show", folder, "a", "--position", "1")


def test_fifty_starts_in_a_row_change_nothing():
    folder, copies = fresh(n1=EMPTY), fresh()
    for state in (S1, S2):
        server = Serving(folder).listens()
        expect(server.ask("POST", "/state/a", state), (200, b""))
        server.kill()
    expect(served(folder)[0], (200, S2))
    expect(run("copy", folder, copies)[0], 0)
    before, copied = kept(folder), all_of(copies)
    expect(([row["serial"] for row in before[1]], before[2], sorted(journals(folder / "old"))), ([2, 1], S1, [1, 2, 3]))
    for start in range(STARTS):
        expect(served(folder)[0], (200, S2))
        expect(kept(folder), before, f"start {start + 1}")
        status, _, errors = run("copy", folder, copies)
        expect((status, errors, all_of(copies)), (0, "", copied), f"the copy after start {start + 1}")


@pytest.mark.parametrize("data, retires", [
    (SHORT, False), (REBASED, False), (EMPTY, True), (NEWEST, True), (SHORT + PUSH2[:-1], True), (b"TFJ1\n" + PUSH1, True)])
def test_a_start_with_changes_or_over_other_bytes_retires_its_journal(data, retires):
    folder = fresh(n4=data)
    served(folder)
    expect((sorted(journals(folder)), journals(folder / "old")), ([5], {4: data}) if retires else ([4], {}), data)


@pytest.mark.parametrize("away, number", [({"n3": NEWEST}, 4), ({"n4": NEWEST}, 5), ({"n9": NEWEST}, 10)])
def test_no_number_of_a_journal_is_used_again(away, number):
    folder = put_away(fresh(n4=REBASED) if number != 5 else fresh(n3=REBASED), **away)
    expect(served(folder)[0], (200, S2), away)
    expect(list(journals(folder).values()), [REBASED], away)
    expect(list(journals(folder)), [number], "no number is used again")


def elsewhere():
    """Returns a folder of another file system, or None."""
    room = Path("/dev/shm")
    if not os.access(room, os.W_OK) or room.stat().st_dev == fresh().stat().st_dev:
        return None
    path = room / f"tfstated-{os.getpid()}"
    path.mkdir()
    return path


def fails_often(folder, fault, *words, **how):
    """Checks that starts that fail for the same cause leave the journals as they were."""
    before = {name: data for name, data in all_of(folder).items() if name != "identity"}
    for _ in range(3):
        status, _, errors = ended(folder, *words, **how)
        expect((status, f": {fault}: " in errors), (STATUSES[fault], True), errors)
        after = {name: data for name, data in all_of(folder).items() if name != "identity"}
        expect(after, before, f"{fault}: {errors}")


@pytest.mark.parametrize("make, fault", [(lambda old: old.symlink_to("nowhere"), "CannotWrite"), (Path.touch, "CannotRead")])
@pytest.mark.parametrize("files", [{"n1": NEWEST}, {"n1": NEWEST, "n2": REBASED, "n3": REBASED + PUSH2[:9]}])
def test_a_start_that_fails_leaves_no_journal(files, make, fault):
    """`old/` is a file or a link to nothing, so no journal can be retired."""
    folder = fresh(**files)
    make(folder / "old")
    fails_often(folder, fault)
    (folder / "old").unlink()
    expect(served(folder)[0], (200, S2), sorted(files))


def test_a_start_that_fails_sets_aside_what_one_before_left():
    folder = fresh(n1=NEWEST, n2=REBASED[:50])
    (folder / "old").symlink_to("nowhere")
    expect(ended(folder)[0], STATUSES["CannotWrite"])
    expect(journals(folder), {1: NEWEST}, "what a start before left is set aside")
    fails_often(folder, "CannotWrite")


def test_a_start_without_a_next_number_leaves_no_journal():
    fails_often(fresh(n9999999999=NEWEST), "TooFar")


def test_an_old_on_another_file_system_fails_the_start_alone():
    other = elsewhere()
    if not other:
        pytest.skip("/dev/shm is no other file system")
    try:
        folder = owned(n1=NEWEST)
        (folder / "old").symlink_to(other)
        fails_often(folder, "CannotWrite")
        expect(list(other.iterdir()), [])
    finally:
        for path in other.iterdir():
            path.unlink()
        other.rmdir()


def test_starts_whose_output_is_closed_leave_one_journal():
    folder = fresh(n1=NEWEST)
    for start in range(4):
        with open("/dev/full", "wb") as full:
            words = [FOLDER_PROGRAM, "serve", folder, "--listen", f"{LOOPBACK}:0"]
            ran = subprocess.run(words, stdin=subprocess.DEVNULL, stdout=full, stderr=subprocess.PIPE, timeout=SECONDS, check=False)
        expect((ran.returncode, b": Write: " in ran.stderr), (STATUSES["Write"], True), ran.stderr)
        expect((journals(folder), journals(folder / "old")), ({2: REBASED}, {1: NEWEST}), f"start {start}")


# Files of 1,000 bytes with the numbers from 1 to 15; number N was written 3 * (16 - N) - 0.5 days
# ago.
FILES = {f"n{number}": (b"%d" % number).ljust(1000) for number in range(1, 16)}
STAYING = [((), 1), (("--keep-days", "30"), 6), (("--keep-days=29",), 7), (("--keep-days", "45"), 1), (("--keep-days", "44"), 2), (("--keep-days", "0"), 7),
           (("--keep-bytes", "11500"), 5), (("--keep-bytes=11K",), 5), (("--keep-bytes", "1K"), 7), (("--keep-bytes", "0"), 7), (("--keep-bytes", "10G"), 1),
           (("--keep-days", "30", "--keep-bytes", "11500"), 6), (("--keep-days", "0", "--keep-bytes", "0"), 7), (("--keep", "3"), 14), (("--keep", "0"), 17),
           (("--keep", "12"), 5), (("--keep", "100"), 1)]


def aged(days=3, **files):
    """Returns a folder with these journals, and with the old files, each a number of days older
    than the next."""
    folder, now = put_away(fresh(**files), **FILES), time.time()
    for number in range(1, 16):
        os.utime(folder / "old" / f"{named(number)}.tfj", (now - (days * (16 - number) - 0.5) * DAY,) * 2)
    return folder


def old_numbers(folder):
    return sorted(journals(folder / "old"))


@pytest.mark.parametrize("words, first", STAYING, ids=lambda value: "".join(value) or "default" if isinstance(value, tuple) else None)
def test_files_of_old_stay_by_number_age_and_size(words, first):
    """After a start, and after a copy, the old files from this number on stay, and the journal of
    number 16, which is retired."""
    folder = aged(n16=NEWEST)
    served(folder, *words)
    expect(old_numbers(folder), [*range(first, 17)], f"a start with {words}")
    copies = aged(n16=NEWEST)
    status, _, errors = run("copy", fresh(n16=NEWEST, n17=REBASED), copies, *words)
    expect((status, errors, old_numbers(copies)), (0, "", [*range(first, 17)]), f"a copy with {words}")


@pytest.mark.parametrize("days, first", [(-3, 1), (30, 7), (6, 1), (6.1, 2)])
def test_files_of_a_time_to_come_stay_and_very_old_ones_go(days, first):
    folder = aged(days, n16=NEWEST)
    served(folder)
    expect(old_numbers(folder), [*range(first, 17)], f"{days} days between two")


def test_a_compaction_removes_what_need_not_stay():
    folder = aged(n16=NEWEST)
    server = Serving(folder, "--keep-days", "33").listens()
    expect(old_numbers(folder), [*range(5, 17)])
    os.utime(folder / "old" / f"{named(5)}.tfj", (time.time() - 34 * DAY,) * 2)
    (folder / "compact").touch()
    has_come(lambda: old_numbers(folder) == [*range(6, 18)], "the journal before is put away, and a file goes")
    server.kill()


def said_of(folder, *words):
    """Returns what a successful command prints, and its text about the folder on standard error."""
    status, output, errors = run(words[0], folder, *words[1:])
    expect(status, 0, errors)
    return output, errors.removeprefix(f"tfstatectl: {folder}: ").rstrip("\n")


def test_what_is_no_longer_kept_is_reported():
    first, rebased = fresh(n3=NEWEST), fresh(n4=REBASED)
    gone = "versions before position {} are no longer kept"
    for folder, position, acts in ((first, 1, 2), (rebased, 3, 0)):
        for words in (("history", "a"), ("list",)):
            expect(said_of(folder, *words)[1], gone.format(position), words)
        output, errors = said_of(folder, "history", "a", "--json")
        expect((output.count(f'"kept_from":{position}'), errors), (acts, "" if acts else gone.format(position)), output)
        output, errors = said_of(folder, "list", "--json")
        expect((output.count(f'"kept_from":{position}'), errors), (1, ""), output)
        errors = refused("BeforeOldest", folder, "show", "a", "--position", "0")
        expect(gone.format(position) in errors, True, errors)
    expect(said_of(fresh(n3=b"TFJ2\n" + base_text(7, [])), "list", "--json"), ("[]\n", gone.format(7)))
    between = put_away(fresh(n9=LATE + LOCK), n3=NEWEST, n5=REBASED)
    output, errors = said_of(between, "history", "a")
    expect((len(output.splitlines()), errors.splitlines()[0]), (4, gone.format(1)), errors)
    expect(errors.endswith("versions between positions 3 and 9 are no longer kept"), True, errors)
    expect([row["kept_from"] for row in told(between, "history", "a")], [9, 1, 1])
    expect(told(between, "list")[0]["kept_from"], 1)
    refused("NotKept", between, "show", "a", "--position", "5")


def test_nothing_is_reported_of_a_whole_past():
    for folder in (fresh(n1=EMPTY + PUSH1), put_away(fresh(n5=REBASED + UNLOCK), n1=EMPTY + PUSH1, n3=SHORT + PUSH2 + LOCK)):
        for words in (("history", "a"), ("list",), ("history", "a", "--json"), ("list", "--json")):
            output, errors = said_of(folder, *words)
            expect((errors, "kept_from" in output), ("", False), words)
