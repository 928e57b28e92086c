"""Runs `tfstatectl holder`, and `list` with lock ages and `--held`, on journals with locks."""
import json
import time

import pytest

from checking import S1, expect
from folder_program import STATUSES, Serving, run
from folders import NEWEST, REBASED, SHORT, fresh
from journal_reader import push_content, record_text
from past_program import WHO, bytes_of, refused, some_past, told

pytestmark = pytest.mark.usefixtures("tfstatectl")


def stamp(seconds):
    """Returns a time as Terraform writes it."""
    return time.strftime("%Y-%m-%dT%H:%M:%S.123456789Z", time.gmtime(seconds))


def lock(name, info):
    return record_text(1, name, info if isinstance(info, bytes) else json.dumps(info).encode())


def unlock(name, identifier=b""):
    return record_text(2, name, identifier)


def push(name, text, identifier=b""):
    return record_text(3, name, push_content(identifier, text))


def journal(*records):
    return fresh(n1=b"TFJ1\n" + b"".join(records))


def test_the_holder_is_printed_as_json_in_one_line():
    expect(bytes_of("holder", some_past(), "a"), json.dumps(WHO, separators=(",", ":")).encode() + b"\n")
    info = b'{ "ID" : "x",\n "Who":"\\u00e9" ,"Size": 1.50, "more":[null , {} ]}'
    expect(bytes_of("holder", journal(lock(b"a", info)), "a"), '{"ID":"x","Who":"é","Size":1.50,"more":[null,{}]}\n'.encode())
    expect(bytes_of("holder", fresh(n4=REBASED), "a"), b'{"ID":"B"}\n', "the lock of a base")


def test_what_a_terminal_does_not_print_is_escaped():
    text = bytes_of("holder", journal(lock(b"a", {"ID": "x", "Who": "\x1b[2J\u202e\u2028"})), "a").decode()
    expect(text, '{"ID":"x","Who":"\\u001b[2J\\u202e\\u2028"}\n')


def test_a_workspace_that_is_not_locked():
    refused("NotLocked", fresh(n3=SHORT), "holder", "a")
    refused("NotLocked", journal(lock(b"a", {"ID": "x"}), unlock(b"a", b"x")), "holder", "a")
    refused("NotLocked", journal(lock(b"a", {"ID": "x"}), unlock(b"a")), "holder", "a")
    for name in ("b", "no name", ""):
        refused("NoName", some_past(), "holder", name)


def test_a_holder_that_is_refused():
    refused("NoJournal", fresh(), "holder", "a")
    refused("NoFolder", fresh() / "none", "holder", "a")
    refused("Damaged", fresh(n3=NEWEST[:-1] + bytes([NEWEST[-1] ^ 1])), "holder", "a")
    for words in ((), ("a", "b"), ("a", "--json")):
        status, output, errors = run("holder", some_past(), *words)
        expect((status, output, bool(errors)), (STATUSES["Arguments"], "", True), words)


def test_a_name_may_begin_with_a_hyphen():
    folder = journal(lock(b"-a", {"ID": "x"}))
    expect(bytes_of("holder", "--", folder, "-a"), b'{"ID":"x"}\n')
    refused_words = run("holder", folder, "-a")
    expect(refused_words[0], STATUSES["Arguments"], refused_words)


def test_the_server_names_the_same_holder():
    folder = fresh(n1=b"TFJ1\n")
    server = Serving(folder).listens()
    expect(server.ask("LOCK", "/state/a", json.dumps(WHO).encode()), (200, b""))
    expect(json.loads(bytes_of("holder", folder, "a")), WHO)
    expect(server.ask("UNLOCK", "/state/a", json.dumps(WHO).encode()), (200, b""))
    refused("NotLocked", folder, "holder", "a")


NAMES = [b"b", b"a-", b"a", b"B", b"a.b", b"aa", b"_"]


def test_a_list_is_by_name():
    folder = journal(*(push(name, S1) for name in NAMES))
    rows = told(folder, "list")
    expect([row["name"] for row in rows], sorted(name.decode() for name in NAMES))
    expect([row["changed"] for row in rows], [NAMES.index(row["name"].encode()) + 1 for row in rows])
    lines = bytes_of("list", folder).decode().splitlines()
    expect([line.split()[0] for line in lines], ["name", *sorted(name.decode() for name in NAMES)])


def test_a_list_has_the_last_change_of_each_name():
    info = {"ID": "x"}
    folder = journal(push(b"a", S1), push(b"b", S1), lock(b"a", info), lock(b"b", info), unlock(b"a", b"x"), record_text(4, b"b", b"x"))
    expect([(row["name"], row["changed"]) for row in told(folder, "list")], [("a", 5), ("b", 6)])
    expect([(row["name"], row["changed"]) for row in told(fresh(n3=SHORT), "list")], [("a", None)], "it is in no journal that is read")


def test_a_list_may_have_only_held_names():
    folder = journal(push(b"c", S1), lock(b"b", {"ID": "y"}), lock(b"a", {"ID": "x"}), push(b"a", S1, b"x"), lock(b"d", {"ID": "z"}), unlock(b"d", b"z"))
    expect([(row["name"], row["holder"]) for row in told(folder, "list", "--held")], [("a", "x"), ("b", "y")])
    expect([line.split()[0] for line in bytes_of("list", folder, "--held").decode().splitlines()], ["name", "a", "b"])
    expect([row["name"] for row in told(folder, "list")], ["a", "b", "c", "d"])
    expect(bytes_of("list", journal(push(b"c", S1)), "--held", "--json"), b"[]\n")


@pytest.mark.parametrize("created, least", [(90061, 90061), (3725, 3725), (61, 61), (0, 0), (-3600, 0)])
def test_a_list_says_how_long_a_lock_is_held(created, least):
    now = int(time.time())
    folder = journal(lock(b"a", {"ID": "x", "Created": stamp(now - created)}))
    held = told(folder, "list")[0]["held"]
    expect(least <= held <= least + 60 if least else held <= 60, True, held)


@pytest.mark.parametrize("created, text", [(2 * 86400 + 3 * 3600 + 60, "2d 3h"), (5 * 3600 + 7 * 60 + 1, "5h 7m"), (-3600, "0m 0s")])
def test_a_table_has_the_time_in_its_two_largest_units(created, text):
    folder = journal(lock(b"a", {"ID": "x", "Created": stamp(int(time.time()) - created)}))
    line = bytes_of("list", folder, "--held").decode().splitlines()[1]
    expect(line.endswith(f"  {text}"), True, line)


@pytest.mark.parametrize("info", [{"ID": "x"}, {"ID": "x", "Created": "yesterday"}, {"ID": "x", "Created": 7}, {"ID": "x", "Created": ""}])
def test_a_lock_that_does_not_say_when_it_was_taken(info):
    folder = journal(lock(b"a", info))
    expect(told(folder, "list")[0]["held"], None)
    expect(bytes_of("list", folder).decode().splitlines()[1].split()[-1], "-")


def test_a_name_that_is_not_locked_is_not_held():
    row = told(journal(lock(b"a", {**WHO}), unlock(b"a", b"x")), "list")[0]
    expect((row["held"], row["holder"], row["created"]), (None, None, None))
