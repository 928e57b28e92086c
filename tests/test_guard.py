"""Only one server writes a folder. It ends before it acknowledges another change if its folder, its
journal or its lock file is removed, moved or replaced. A start refuses journals of another folder,
and a folder whose `old/` has a journal with changes that the newest one lacks."""
import http.client
import os
import re
import shutil
import signal
from pathlib import Path

import pytest

from checking import S1, S2, expect
from folder_program import STATUSES, Serving, ended, run, served
from folders import (LOCK, NEWEST, PUSH1, PUSH2, PUSH3, REBASED, S3, SHORT, VALUE, all_of, at_once,
                     fresh, identity_text, journals, named, owned)
from journal_reader import base_text
from past_program import put_away
from pushers import has_come

pytestmark = pytest.mark.usefixtures("tfstatectl")
EMPTY = b"TFJ1\n"
GONE = (OSError, http.client.HTTPException)
OTHER, LATE = VALUE[::-1], b"TFJ2\n" + base_text(9, [(b"a", b"", S2)])
IDENTITY = re.compile(r"[0-9a-f]{32}\n(journal-[0-9]{10}\.tfj [0-9]+ [0-9a-f]{32}\n)*")


def refused(folder, fault, about, *words):
    """Makes a start that must end with a fault, and change nothing. Returns its text on standard
    error."""
    before = all_of(folder)
    status, output, errors = ended(folder, *words)
    expect((status, output, f": {fault}: " in errors, len(errors.splitlines())), (STATUSES[fault], "", True, 1), f"{about}: {errors}")
    expect(all_of(folder), before, f"{about}: nothing is changed")
    return errors


def open_journal(folder):
    """Returns the path of the journal that a server has open."""
    return max(folder.glob("*.tfj"))


def swap(path):
    """Replaces a file or a folder by a copy."""
    moved = path.rename(path.parent / f"{path.name}-moved")
    (shutil.copytree if moved.is_dir() else shutil.copy2)(moved, path)


def link(path):
    """Gives a file a second name."""
    os.link(path, path.parent / f"{path.name}-link")


def lose(path):
    """Moves a file or a folder away."""
    path.rename(path.parent / f"{path.name}-lost")


# Changes to a folder that is served, each with the path that it changes.
DEEDS = [(place, deed) for place in (lambda folder: folder / "lock", open_journal) for deed in (Path.unlink, swap, link, lose)]
DEEDS += [(Path, deed) for deed in (shutil.rmtree, swap, lose)]


def expect_replaced(server, about):
    """Checks that a server ends by itself, and reports why."""
    status, errors = server.end()
    expect((status, f"{server.folder}: Replaced: " in errors), (STATUSES["Replaced"], True), f"{about}: {errors}")


def do_beside_a_change(case):
    """Changes a folder whose server had a change, and requests another change, which isn't
    acknowledged."""
    place, deed = case
    server = Serving(fresh(n1=EMPTY)).listens()
    expect(server.ask("POST", "/state/a", S1), (200, b""))
    path = place(server.folder)
    deed(path)
    try:
        answer = server.ask("POST", "/state/a", S2)
    except GONE:
        answer = None
    expect(answer, None, f"after {deed.__name__} of {path}")
    expect_replaced(server, f"after {deed.__name__} of {path}")


def test_no_change_is_acknowledged_once_something_was_replaced():
    at_once(do_beside_a_change, DEEDS)


def do_beside_an_idle_server(case):
    """Does the same to a folder whose server has no requests."""
    place, deed = case
    server = Serving(fresh(n1=NEWEST)).listens()
    path = place(server.folder)
    deed(path)
    expect_replaced(server, f"idle, after {deed.__name__} of {path}")


def test_an_idle_server_ends_once_something_was_replaced():
    at_once(do_beside_an_idle_server, DEEDS)


def test_a_later_journal_is_guarded_as_the_first_one():
    server = Serving(fresh(n1=EMPTY), "--compact-entries", "1").listens()
    expect(server.ask("POST", "/state/a", S1), (200, b""))
    has_come(lambda: list(journals(server.folder)) == [3], "a compaction")
    link(open_journal(server.folder))
    expect_replaced(server, "after a compaction")


def stopped(folder):
    """Returns a stopped server on a folder: it checks nothing."""
    server = Serving(folder).listens()
    server.process.send_signal(signal.SIGSTOP)
    return server


def go_on(server):
    """Has a stopped server continue; it must then end."""
    server.process.send_signal(signal.SIGCONT)
    expect_replaced(server, "it goes on")


def test_each_of_three_locks_keeps_a_second_server_off():
    """The locks of the folder itself, of its lock file, and of its journal."""
    folder = fresh(n1=NEWEST)
    server = stopped(folder)
    (folder / "lock").unlink()
    errors = refused(folder, "Locked", "the lock file is removed")
    expect((f"{folder}: Locked" in errors, (folder / "lock").exists()), (True, False), errors)
    go_on(server)
    expect(served(folder)[0], (200, S2))
    for name, place in (("lock", "{}"), (f"{named(2)}.tfj", f"{{}}/{named(2)}.tfj")):
        folder, other = fresh(n1=NEWEST), fresh(n2=REBASED)
        server = stopped(folder)
        (folder / name).rename(other / name)
        errors = refused(other, "Locked", f"{name} is in another folder")
        expect(f"{place.format(other)}: Locked" in errors, True, errors)
        go_on(server)
        expect(served(other)[0], (200, S2))


def test_a_server_continues_when_other_files_change():
    """Files of other names, copies, a folder below, and a request for a compaction."""
    server, copies = Serving(fresh(n1=EMPTY)).listens(), fresh()
    expect(server.ask("POST", "/state/a", S1), (200, b""))
    (server.folder / "notes").write_text("of somebody")
    (server.folder / "more").mkdir()
    expect(run("copy", server.folder, copies)[0], 0)
    (server.folder / "compact").touch()
    has_come(lambda: list(journals(server.folder)) == [3], "a compaction")
    expect(server.ask("POST", "/state/a", S2), (200, b""))
    server.kill()


@pytest.mark.parametrize("newest, away, ahead", [
    (SHORT, {"n3": NEWEST}, 3), (NEWEST, {"n3": b"TFJ1\n" + PUSH1 + PUSH2 + PUSH3 + LOCK}, 3), (SHORT, {"n1": SHORT, "n2": NEWEST[:-1]}, 2),
    (EMPTY, {"n2": REBASED}, 2), (SHORT, {"n9": NEWEST}, 9)])
def test_journals_of_old_beyond_the_newest_one_stop_a_start(newest, away, ahead):
    folder = put_away(fresh(n4=newest), **away)
    errors = refused(folder, "OldAhead", away)
    expect(f"{folder}/old/{named(ahead)}.tfj: OldAhead" in errors, True, errors)
    (folder / "old" / f"{named(ahead)}.tfj").unlink()
    expect(served(folder)[0][0], 404 if newest == EMPTY else 200, away)


@pytest.mark.parametrize("newest, data", [
    (NEWEST, NEWEST), (SHORT, SHORT + PUSH2[:-1]), (SHORT, SHORT + PUSH2[:-1] + b"x"), (NEWEST, REBASED), (SHORT, b"TF"), (SHORT, b"")])
def test_journals_of_old_without_further_changes_are_passed_over(newest, data):
    expect(served(put_away(fresh(n4=newest), n3=data))[0], (200, S1 if newest == SHORT else S2), data)


def test_a_link_of_old_to_nothing_is_passed_over():
    folder = put_away(fresh(n4=SHORT))
    (folder / "old" / f"{named(3)}.tfj").symlink_to("nowhere")
    expect(served(folder)[0], (200, S1), "a link to nothing has no changes")


def test_what_two_servers_acknowledged_stops_a_start():
    """Another server has retired a journal that the first one still writes."""
    folder = fresh(n1=EMPTY)
    server = Serving(folder).listens()
    expect(server.ask("POST", "/state/a", S1), (200, b""))
    server.kill()
    expect(served(folder)[0], (200, S1))
    with open(folder / "old" / f"{named(2)}.tfj", "ab") as late:
        late.write(PUSH2)
    errors = refused(folder, "OldAhead", "a change that no journal of the folder has")
    expect(f"old/{named(2)}.tfj" in errors, True, errors)


def of_another(folder, number, data):
    """Replaces the journals of a folder by another one."""
    for path in folder.glob("*.tfj"):
        path.unlink()
    (folder / f"{named(number)}.tfj").write_bytes(data)


def test_a_start_refuses_a_journal_of_another_folder():
    one, other = fresh(n1=EMPTY), fresh(n1=EMPTY)
    for folder, text in ((one, S1), (other, S2)):
        server = Serving(folder).listens()
        expect(server.ask("POST", "/state/a", text), (200, b""))
        server.kill()
        expect(served(folder)[0], (200, text))
    [(number, data)] = journals(other).items()
    for taken in (number, number + 1):
        of_another(one, taken, data)
        errors = refused(one, "OtherIdentity", f"as number {taken}")
        expect(f"{named(taken)}.tfj: OtherIdentity" in errors, True, errors)
    shutil.copy(one / "identity", other)
    refused(other, "OtherIdentity", "an identity of another folder")
    (one / "identity").write_bytes((one / "identity").read_bytes()[:33])
    expect(served(one)[0], (200, S2), "without marks it is the folder's")


def test_a_journal_that_has_grown_is_known_by_what_was_added():
    """Two folders have the same journal at first, as a folder and a copy of it do."""
    folder = owned(n2=SHORT)
    server = Serving(folder).listens()
    expect(server.ask("POST", "/state/a", S2), (200, b""))
    grown = SHORT + PUSH2
    has_come(lambda: identity_text(n2=grown).splitlines()[1] in (folder / "identity").read_text(), "the change is marked")
    server.kill()
    expect(journals(folder), {2: grown})
    for change in (PUSH3, LOCK):
        of_another(folder, 2, SHORT + change)
        refused(folder, "OtherIdentity", "the same base, and another change")
    of_another(folder, 2, grown + PUSH3)
    expect(served(folder)[0], (200, S3), "with more changes than are marked")


def test_copies_of_another_folder_are_refused():
    source, target = owned(n2=NEWEST), fresh(n2=NEWEST[:-3])
    (target / "identity").write_text(identity_text(OTHER, n2=NEWEST[:-3]))
    before = all_of(target)
    status, output, errors = run("copy", source, target)
    expect((status, output, f"{target}/identity: OtherIdentity: " in errors), (STATUSES["OtherIdentity"], "", True), errors)
    expect(all_of(target), before)
    (target / "identity").write_text(identity_text(n2=NEWEST[:-3]))
    expect((run("copy", source, target)[0], journals(target)), (0, {2: NEWEST}))


@pytest.mark.parametrize("has_copies", [False, True])
@pytest.mark.parametrize("taken", [2, 7])
def test_a_journal_of_another_folder_is_not_copied(taken, has_copies):
    """The journal has the number of the source's own, or another one; the copies are new, or have
    the source's journal."""
    source, target = owned(n2=NEWEST), owned(n2=NEWEST) if has_copies else fresh()
    before = all_of(target)
    of_another(source, taken, LATE)
    status, output, errors = run("copy", source, target)
    told = f"{target}/{named(2)}.tfj: NotBeginning: " if has_copies and taken == 2 else f"{source}/{named(taken)}.tfj: OtherIdentity: "
    expect((status, output, told in errors), (STATUSES["OtherIdentity"], "", True), errors)
    after = {name: data for name, data in all_of(target).items() if not name.endswith(".part")}
    expect(after, before, f"as number {taken}")


@pytest.mark.parametrize("text", [
    "", "\n", VALUE, VALUE[:-1] + "\n", VALUE + "0\n", VALUE.upper() + "\n", VALUE[:-1] + "g\n", f"{VALUE}\nmore\n", f"{VALUE}\n\n",
    identity_text(n2=NEWEST)[:-1], identity_text(n2=NEWEST).replace("journal", "Journal"), identity_text(n2=b"x" * 65537), VALUE[:-1] + "\xff\n"])
def test_a_broken_identity_is_refused(text):
    folder, copies = owned(n2=NEWEST), owned(n2=NEWEST)
    (folder / "identity").write_bytes(text.encode("latin-1"))
    errors = refused(folder, "BadIdentity", repr(text))
    expect(f"{folder}/identity: " in errors, True, errors)
    for words in ((folder, copies), (copies, folder)):
        before = all_of(words[1])
        status, output, errors = run("copy", *words)
        expect((status, output, f"{folder}/identity: BadIdentity: " in errors), (STATUSES["BadIdentity"], "", True), f"{text!r}: {errors}")
        expect(all_of(words[1]), before)


def value_of(folder):
    """Returns the value of a folder's identity, which must be valid."""
    text = (folder / "identity").read_text()
    expect(bool(IDENTITY.fullmatch(text)), True, text)
    return text[:32]


def test_a_folder_without_an_identity_gets_one_that_its_copies_have():
    values = set()
    for words, files in (((), {"n1": NEWEST}), ((), {"n2": REBASED}), (("--first",), {}), (("--first", fresh(n1=NEWEST) / f"{named(1)}.tfj"), {})):
        folder, copies = fresh(**files), fresh()
        served(folder, *words)
        value = value_of(folder)
        expect((folder / "identity").stat().st_mode & 0o777, 0o600, "nobody else reads it")
        expect(run("copy", folder, copies)[0], 0)
        expect(value_of(copies), value)
        for again in (folder, copies):
            served(again)
            expect(value_of(again), value, "it stays")
        values.add(value)
    expect(len(values), 4, "each folder has one of its own")
    source, target = fresh(n1=NEWEST), fresh()
    expect((run("copy", source, target)[0], (target / "identity").exists()), (0, False), "a folder without one has copies without one")
    served(source)
    expect(run("copy", source, target)[0], 0)
    expect(value_of(target), value_of(source), "the copies get it with the next one")
