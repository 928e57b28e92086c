"""Runs `tfstatectl history` on journals with acts of several people and workspaces: its rows, its
filters, and its options; and the times that other commands take instead of positions."""
import json
import subprocess
from resource import RLIMIT_AS, setrlimit

import pytest

from checking import S1, S2, SECONDS, expect
from folder_program import FOLDER_PROGRAM, STATUSES, run
from folders import fresh
from journal_reader import push_content, record_text
from past_program import bytes_of, refused, rows_in, some_past, state, told

pytestmark = pytest.mark.usefixtures("tfstatectl")
MEMORY = 40 << 20


def test_a_history_has_each_act_once_the_newest_first():
    rows = told(some_past(), "history", "a")
    wanted = [{"position": 3, "act": "lock", "id": "x", "who": "ann@build", "operation": "OperationTypeApply", "created": "2026-02-03T04:05:06Z"},
              {"position": 2, "act": "push", "serial": 2, "instances": 0, "bytes": 41, "id": None},
              {"position": 1, "act": "push", "serial": 1, "instances": 0, "bytes": 41, "id": None}]
    expect(rows, wanted)
    lines = bytes_of("history", some_past(), "a").decode().splitlines()
    expect([line.split()[:3] for line in lines], [["position", "act", "serial"], ["3", "lock", "-"], ["2", "push", "2"], ["1", "push", "1"]])
    expect("ann@build" in lines[1], True, lines)
    expect(len(bytes_of("history", some_past(), "a", "--json").splitlines()), 3, "a line for each act")


def limit_memory():
    """Limits the address space of a program before it starts."""
    setrlimit(RLIMIT_AS, (MEMORY, MEMORY))


def test_a_long_history_takes_little_memory():
    folder = fresh(n1=b"TFJ1\n" + b"".join(record_text(3, b"a", push_content(b"", state(serial) + b" " * 16384)) for serial in range(1, 4097)))
    ran = subprocess.run([FOLDER_PROGRAM, "history", folder, "a", "--json"], capture_output=True, timeout=SECONDS, check=False, preexec_fn=limit_memory)
    expect((ran.returncode, ran.stderr), (0, b""), "in less memory than the journal has bytes")
    expect([row["serial"] for row in rows_in("history", ran.stdout)], [*range(4096, 0, -1)])


def locked_at(number, who, created, name=b"a"):
    """Returns the record of a lock with its holder and its time."""
    return record_text(1, name, json.dumps({"ID": str(number), "Who": who, "Created": created}).encode())


def push_under(number, serial, name=b"a"):
    return record_text(3, name, push_content(b"%d" % number, state(serial)))


def a_week():
    """Returns a folder with acts of several days and people, at positions 1 to 12."""
    return fresh(n1=b"TFJ1\n" + b"".join([
        record_text(3, b"a", push_content(b"", state(1))), locked_at(1, "ann", "2026-02-01T10:00:00.5Z"), push_under(1, 2), record_text(2, b"a", b"1"),
        locked_at(2, "bob", "2026-02-02T10:00:00Z"), push_under(2, 3), record_text(2, b"a", b""), locked_at(3, "ann", "2026-02-03T11:30:00+01:30"),
        record_text(4, b"a", b"3"), record_text(2, b"a", b"3"), locked_at(4, "cyd", "no time"), push_under(4, 5)]))


@pytest.mark.parametrize("words, positions", [
    ((), range(12, 0, -1)), (("--last", 3), [12, 11, 10]), (("--last", 0), []), (("--last", 100), range(12, 0, -1)), (("--act", "push"), [12, 6, 3, 1]),
    (("--act", "lock"), [11, 8, 5, 2]), (("--act", "unlock"), [10, 4]), (("--act", "force-unlock"), [7]), (("--act", "delete"), [9]),
    (("--act", "push", "--last", 2), [12, 6]), (("--since", "2026-02-02T10:00:00Z"), [10, 9, 8, 6, 5]), (("--since", "2026-02-02T10:00:01Z"), [10, 9, 8]),
    (("--until", "2026-02-01T10:00:00Z"), [4, 3, 2]), (("--until", "2026-02-01T09:59:59Z"), []),
    (("--until", "2026-02-03T10:00:00Z"), [10, 9, 8, 6, 5, 4, 3, 2]),
    (("--since", "2026-02-02T00:00:00Z", "--until", "2026-02-03T00:00:00Z"), [6, 5]),
    (("--since", "2026-02-03T11:00:00+01:00"), [10, 9, 8]),
    (("--who", "ann"), [10, 9, 8, 4, 3, 2]), (("--who", "nobody"), []), (("--who", "cyd", "--act", "push"), [12]),
    (("--who", "ann", "--until", "2026-02-02T00:00:00Z", "--act", "push", "--last", 1), [3])])
def test_a_history_has_the_acts_that_are_asked_for(words, positions):
    expect([row["position"] for row in told(a_week(), "history", "a", *words)], [*positions], words)
    lines = bytes_of("history", a_week(), "a", *words).decode().splitlines()
    expect([line.split()[0] for line in lines], ["position", *map(str, positions)], words)


def two_workspaces():
    """Returns a journal with acts of the workspaces a and b in turn."""
    return b"TFJ1\n" + b"".join([
        record_text(3, b"a", push_content(b"", state(1))), locked_at(1, "ann", "2026-02-01T10:00:00Z"), locked_at(2, "bob", "2026-02-02T10:00:00Z", b"b"),
        push_under(1, 2), push_under(2, 1, b"b"), record_text(2, b"a", b"1"), push_under(2, 2, b"b"), record_text(2, b"b", b"")])


@pytest.mark.parametrize("words, positions", [
    ((), range(8, 0, -1)), (("--last", 2), [8, 7]), (("--act", "push"), [7, 5, 4, 1]), (("--who", "ann"), [6, 4, 2]), (("--who", "bob"), [7, 5, 3]),
    (("--since", "2026-02-02T00:00:00Z"), [7, 5, 3]), (("--until", "2026-02-02T00:00:00Z", "--act", "unlock"), [6]),
    (("--act", "force-unlock"), [8]), (("--who", "nobody"), [])])
def test_the_acts_of_all_workspaces_with_their_names(words, positions):
    folder, names = fresh(n1=two_workspaces()), dict(enumerate("aabab" + "abb", 1))
    rows = told(folder, "history", "--all", *words)
    expect([row["position"] for row in rows], [*positions], words)
    expect([row["name"] for row in rows], [names[at] for at in positions], words)
    lines = bytes_of("history", folder, "--all", *words).decode().splitlines()
    expect([line.split()[:2] for line in lines], [["position", "name"], *([str(at), names[at]] for at in positions)], words)


def test_all_workspaces_of_a_folder_without_any():
    folder = fresh(n1=b"TFJ1\n")
    expect((bytes_of("history", folder, "--all", "--json"), len(bytes_of("history", folder, "--all").splitlines())), (b"", 1))


@pytest.mark.parametrize("words", [(), ("a", "--all"), ("--all", "a")])
def test_a_history_is_of_a_workspace_or_of_all(words):
    status, output, errors = run("history", some_past(), *words)
    expect((status, output, bool(errors)), (STATUSES["Arguments"], "", True), words)


def test_a_forced_unlock_is_named_so():
    rows = told(a_week(), "history", "a")
    expect([(row["act"], row["id"]) for row in rows if "unlock" in row["act"]], [("unlock", "3"), ("force-unlock", None), ("unlock", "1")])
    expect("force-unlock" in bytes_of("history", a_week(), "a", "--act", "force-unlock").decode(), True)


@pytest.mark.parametrize("words", [("--act", "pull"), ("--last", "-1"), ("--last", "x"), ("--last",), ("--since",), ("--since", "x"), ("--until", "7"),
                                   ("--until", "2026-02-30T00:00:00Z"), ("--since", "")])
def test_wrong_filters(words):
    status, output, errors = run("history", a_week(), "a", *words)
    expect((status, output, bool(errors)), (STATUSES["Arguments"], "", True), words)


@pytest.mark.parametrize("time, serial", [("2026-02-01T10:00:00Z", 2), ("2026-02-02T09:59:59Z", 2), ("2026-02-02T10:00:00Z", 3), ("2026-02-03T09:00:00Z", 3)])
def test_a_time_in_place_of_a_position(time, serial):
    folder = a_week()
    expect(bytes_of("show", folder, "a", "--position", time), state(serial))
    expect(bytes_of("restore", folder, "a", "--position", time), state(6))
    expect(told(folder, "diff", "a", time, 12), [])


def test_times_that_are_refused():
    folder = a_week()
    for command in ("show", "restore"):
        refused("NoTime", folder, command, "a", "--position", "2026-02-01T09:59:59Z")
        refused("NoState", folder, command, "a", "--position", "2026-02-03T10:00:00Z")
        refused("BadTime", folder, command, "a", "--position", "2026-02-01")
        for name in ("b", "no name"):
            refused("NoName", folder, command, name, "--position", "2026-02-03T10:00:00Z")


def test_names_that_begin_with_a_hyphen():
    folder = fresh(n1=b"TFJ1\n" + record_text(3, b"-x", push_content(b"", S1)) + record_text(3, b"--json", push_content(b"", S2)))
    expect([row["name"] for row in told(folder, "list")], ["--json", "-x"])
    for name, text, position in (("-x", S1, 1), ("--json", S2, 2)):
        expect(bytes_of("show", "--", folder, name), text)
        expect(bytes_of("show", "--position", position, "--", folder, name), text)
        expect([row["position"] for row in rows_in("history", bytes_of("history", "--json", "--", folder, name))], [position])
