"""Starts of `tfstatectl` below a least position, which is in a file that the server and copies
raise, and starts that discard a journal whose entries the newest one lacks."""
from concurrent.futures import ThreadPoolExecutor

import pytest

from checking import S1, S2, expect
from folder_program import STATUSES, Serving, ended, run, served
from journal_reader import base_text, record_text
from folders import B, NEWEST, PUSH1, PUSH2, REBASED, SHORT, all_of, fresh, journals, named

pytestmark = pytest.mark.usefixtures("tfstatectl")


def refused(folder, fault, *words):
    """Makes a start that must end with a fault, and change nothing. Returns its report."""
    before = all_of(folder)
    status, output, errors = ended(folder, *words)
    expect((status, output, f": {fault}" in errors), (STATUSES[fault], "", True), errors)
    expect(all_of(folder), before, fault)
    return errors


def position_in(path):
    """Returns the position in a file."""
    return int(path.read_text())


@pytest.mark.parametrize("beside", [{}, {"n2": SHORT}, {"n4": REBASED[:-1]}])
def test_an_older_past_is_refused(beside):
    folder = fresh(n3=NEWEST, **beside)
    errors = refused(folder, "NotAtLeast", "--at-least", "4")
    expect("its position is 3, below the required 4" in errors and named(3) in errors, True, errors)
    expect(served(folder, "--at-least", "3")[0], (200, S2))


@pytest.mark.parametrize("text, least", [("4\n", 4), ("00000000000000000005\n", 5), ("18446744073709551615", 2**64 - 1)])
def test_a_file_has_the_least_position(text, least):
    folder, file = fresh(n3=NEWEST), fresh() / "least"
    file.write_text(text)
    errors = refused(folder, "NotAtLeast", "--at-least-file", file)
    expect(f"its position is 3, below the required {least}" in errors, True, errors)


def test_the_greater_of_two_least_positions_counts():
    folder, file = fresh(n3=NEWEST), fresh() / "least"
    file.write_text("2\n")
    expect("below the required 9" in refused(folder, "NotAtLeast", "--at-least", "9", "--at-least-file", file), True, "the greater one counts")


@pytest.mark.parametrize("text", ["", "x\n", "-1\n", "1 2\n", "18446744073709551616\n", "0" * 30, "1.0"])
def test_a_file_without_a_position_is_refused(text):
    folder, file = fresh(n3=NEWEST), fresh() / "least"
    file.write_text(text)
    errors = refused(folder, "NoPosition", "--at-least-file", file)
    expect(str(file) in errors, True, errors)


def test_a_file_of_the_least_position_that_is_missing_is_refused():
    folder, file = fresh(n3=NEWEST), fresh() / "least"
    refused(folder, "NoPosition", "--at-least-file", file)
    refused(folder, "CannotRead", "--at-least-file", file.parent)


def push(server, name, serial):
    text = S1.replace(b"1 ", b"%d " % serial)
    expect(server.ask("POST", f"/state/{name}", text), (200, b""))


def test_the_server_raises_the_file_with_each_change():
    folder, file = fresh(n3=NEWEST), fresh() / "least"
    file.write_text("1\n")
    server = Serving(folder, "--at-least-file", file).listens()
    expect(position_in(file), 3)
    for serial in range(1, 4):
        push(server, "b", serial)
        expect(position_in(file), 3 + serial)
    expect(server.ask("POST", "/state/b", S1)[0], 409)
    with ThreadPoolExecutor(2) as pool:
        list(pool.map(lambda name: [push(server, name, serial) for serial in range(1, 9)], ("c", "d")))
    server.kill()
    expect(position_in(file), 22, "no worker lowers it")
    refused(fresh(n3=NEWEST), "NotAtLeast", "--at-least-file", file)
    expect(served(folder, "--at-least-file", file)[0], (200, S2))


def test_a_folder_that_begins_makes_the_file():
    folder, file = fresh(), fresh() / "least"
    expect(served(folder, "--first", "--at-least-file", file)[0][0], 404)
    expect(position_in(file), 0)
    expect(served(folder, "--at-least-file", file)[0][0], 404)


def test_a_copy_raises_the_file():
    source, target, file = fresh(n3=NEWEST), fresh(), fresh() / "least"
    expect(run("copy", source, target, "--at-least-file", file)[0], 0)
    expect(position_in(file), 3)
    older = fresh(n3=SHORT)
    status, _, errors = run("copy", older, fresh(), "--at-least-file", file)
    expect((status, "its position is 1, below the required 3" in errors, named(3) in errors), (STATUSES["NotAtLeast"], True, True), errors)
    expect(position_in(file), 3)


def base_of(position, lock, state):
    return b"TFJ2\n" + base_text(position, [(b"a", lock, state)])


def passed_over(folder, *words):
    """Serves a folder, discards its journal of number 3, and kills the server. Returns the answer
    for `a`, and the lines of the start."""
    server = Serving(folder, "--accept-past", *words).listens()
    answer = server.ask("GET", "/state/a")
    return answer, server.kill().splitlines()


OTHER = base_of(1, b"", S2)


@pytest.mark.parametrize("changes", [b"", record_text(1, b"z", B)])
@pytest.mark.parametrize("past, newest, state, lost", [
    (NEWEST, SHORT, S1, "2 of its entries are lost"), (NEWEST, base_of(2, b"", S2), S2, "1 of its entries are lost"),
    (NEWEST, REBASED, S2, "0 of its entries are lost"), (NEWEST, base_of(3, b"", S2), S2, "2 of its entries are lost"),
    (NEWEST, OTHER, S2, "2 of its entries are lost"), (NEWEST, base_of(9, b"", S1), S1, "2 of its entries are lost"),
    (b"TFJ1\n" + PUSH1 + PUSH2, SHORT, S1, "1 of its entries are lost"), (SHORT, OTHER, S2, "0 of its entries are lost"),
    (NEWEST[:-1] + b"x", OTHER, S2, "it can't be read, and its entries are lost")])
def test_a_journal_is_passed_over(past, newest, state, lost, changes):
    """The journal of number 4 continued at one of the positions of number 3, or at none. Checks how
    many entries are lost, and that no later start is refused because of number 3."""
    folder = fresh(n3=past, n4=newest + changes)
    answer, lines = passed_over(folder, folder / f"{named(3)}.tfj")
    expect((answer, len(lines), f"{named(3)}.tfj is discarded: {lost}" in lines[0]), ((200, state), 2, True), lines)
    put_away = {3: past, 4: newest + changes} if changes else {3: past}
    expect((sorted(journals(folder)), journals(folder / "old")), ([5 if changes else 4], put_away), lost)
    expect(served(folder)[0], (200, state), lost)


FILES = {"n2": SHORT, "n3": NEWEST, "n4": SHORT}


@pytest.mark.parametrize("name", [f"{named(3)}.tfj", f"./{named(3)}.tfj", f"/elsewhere/{named(3)}.tfj"])
def test_what_is_passed_over_is_named(name):
    refused(fresh(**FILES), "Diverged")
    refused(fresh(**FILES, n5=base_of(2, b"", S1)), "Diverged", "--accept-past", name)
    for folder in (fresh(n3=NEWEST, n4=SHORT), fresh(**FILES)):
        expect(passed_over(folder, name)[0], (200, S1))


@pytest.mark.parametrize("name", [f"{named(4)}.tfj", f"{named(1)}.tfj", named(3), "", "old", f"{named(3)}.tfj/"])
def test_what_is_no_earlier_journal_is_not_passed_over(name):
    errors = refused(fresh(**FILES), "NotPast", "--accept-past", name)
    expect(name in errors, True, errors)


def test_a_journal_of_two_contents_is_not_passed_over():
    folder = fresh(n3=NEWEST, n4=SHORT)
    (folder / "old").mkdir()
    (folder / "old" / f"{named(3)}.tfj").write_bytes(SHORT)
    refused(folder, "TwoOfName", "--accept-past", f"{named(3)}.tfj")
    expect(run("serve", folder, "--accept-past", "x", "--first")[0], STATUSES["Arguments"])
