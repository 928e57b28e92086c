"""Runs `tfstated serve` with up to 16 concurrent sessions: each acknowledged change is an entry of
the journal, pushes of the same states are judged one after another, and the answers to concurrent
queries never go back."""
import json
import string
import threading
from pathlib import Path

import pytest

from checking import SECONDS, expect
from journal_reader import base_text
from serve_program import Server, asked, entries_of, fresh, run
from sessions import at_once, chain, round_of

pytestmark = pytest.mark.usefixtures("tfstated")
CHANGES, NAMES = 100, 1024
# A journal that begins at position 7, with one of the names.
LATER = b"TFJ2\n" + base_text(7, [(b"n0", b"", b"")])


def unlock_often(connection, number):
    """Makes 100 unlocks; the unlocks of 16 sessions are of all the 1,024 names. Returns how many
    are accepted."""
    replies = [asked(connection, "UNLOCK", f"/state/n{(CHANGES * number + turn) % NAMES}") for turn in range(CHANGES)]
    return replies.count((200, b""))


@pytest.mark.parametrize("old, base, count", [(b"TFJ1\n", "base 0 0", 4), (b"TFJ1\n", "base 0 0", 16), (LATER, "base 7 1", 16)])
def test_sessions_make_a_hundred_changes_each(old, base, count):
    server = Server(workers=count, old=fresh(old))
    expect(at_once(server, count, unlock_often), [CHANGES] * count, f"{count} sessions behind {base}")
    if count == 16:
        expect(server.ask("UNLOCK", "/state/z"), (507, b'{"error":"TableFull"}'), "no room for one more name")
    lines = run("check", fresh(server.kill()))[0].decode().splitlines()
    expect((lines[0], lines[-1], len(lines)), (base, "whole", CHANGES * count + 2))
    names = sorted(f"n{(CHANGES * number + turn) % NAMES}" for number in range(count) for turn in range(CHANGES))
    expect(sorted(line.split()[2] for line in lines[1:-1]), names, f"the entries of {count} sessions")


def unlock_one(connection, _number):
    """Makes 100 forced unlocks of one name. Returns how many are accepted."""
    return [asked(connection, "UNLOCK", "/state/a") for _ in range(CHANGES)].count((200, b""))


def test_four_sessions_change_one_name():
    server = Server(workers=4)
    expect(at_once(server, 4, unlock_one), [CHANGES] * 4)
    lines = run("check", fresh(server.kill()))[0].decode().splitlines()
    expect(lines, ["base 0 0", *(f"{entry} unlock a" for entry in range(1, 4 * CHANGES + 1)), "whole"])


def bare(serial):
    """Returns a state without resources."""
    return b'{"version":4,"serial":%d,"lineage":"L1"}' % serial


def push_all(connection, number):
    """Makes 100 pushes of rising serials. Returns how many are accepted; the others have a serial
    that is too low by then."""
    replies = [asked(connection, "POST", "/state/a", bare(serial)) for serial in range(1, CHANGES + 1)]
    expect(set(replies) <= {(200, b""), (409, b'{"error":"SerialTooLow"}')}, True, f"session {number}")
    return replies.count((200, b""))


@pytest.mark.parametrize("count", [4, 16])
def test_sessions_push_the_same_states(count):
    server = Server(workers=count)
    accepted = sum(at_once(server, count, push_all))
    expect(CHANGES <= accepted <= CHANGES * count, True, f"{accepted} pushes of {count} sessions are accepted")
    expect(server.ask("GET", "/state/a"), (200, bare(CHANGES)))
    journal = server.kill()
    expect(run("check", fresh(journal))[1], 0, "the journal is lawful")
    serials = [json.loads(parts[1])["serial"] for _, _, parts in entries_of(journal)]
    expect((len(serials), serials), (accepted, sorted(serials)), f"{count} sessions: an entry for each, and no serial falls")


def pair(serial):
    """Returns a state in which t.b depends on t.a, without blanks."""
    def one(name, needs):
        return f'{{"mode":"managed","type":"t","name":"{name}","instances":[{{"dependencies":[{needs}]}}]}}'

    both = ",".join([one("a", ""), one("b", '"t.a"')])
    return f'{{"version":4,"serial":{serial},"lineage":"L1","resources":[{both}]}}'.encode()


def impact(connection):
    """Returns the position and the serial of the answer to what a change of t.a reaches, which is
    t.b."""
    status, text = asked(connection, "GET", "/impact/a/any?of=t.a")
    answer = json.loads(text)
    expect((status, answer["instances"]), (200, ["t.b"]))
    return answer["position"], answer["serial"]


def push_or_ask(pushed):
    """Returns the work of two sessions: the first one pushes, and queries after each push; the
    other one makes 1,000 queries, and one more after all pushes."""
    def talk(connection, number):
        if number:
            told = [impact(connection) for _ in range(1000)]
            expect(pushed.wait(timeout=SECONDS), True, "all are pushed")
            return [*told, impact(connection)]
        told = []
        for serial in range(2, CHANGES + 1):
            expect(asked(connection, "POST", "/state/a", pair(serial)), (200, b""))
            told.append(impact(connection))
        pushed.set()
        return told
    return talk


def test_queries_continue_during_changes():
    server = Server()
    expect(server.ask("POST", "/state/a", pair(1)), (200, b""))
    own, others = at_once(server, 2, push_or_ask(threading.Event()))
    expect(own, [(serial, serial) for serial in range(2, CHANGES + 1)], "each push is seen by its session's next query")
    expect(others, sorted(others), "no answer goes back")
    expect(others[-1], (CHANGES, CHANGES), "once all were pushed the other session sees the last")
    expect(all(position == serial <= CHANGES for position, serial in others), True, "an answer is of one journal")
    expect(server.ask("GET", "/impact/a/any?of=t.a")[0], 200)
    expect(len(entries_of(Path(server.new).read_bytes())), CHANGES)


def test_each_push_is_seen_by_the_other_session_at_once():
    server = Server()
    with server.connect() as first, server.connect() as second:
        expect(asked(first, "POST", "/state/a", chain(1)), (200, b""))
        for serial in range(2, 10):
            expect(asked(first, "POST", "/state/a", chain(serial)), (200, b""))
            expect(asked(first, "POST", "/state/a", chain(1)), (409, b'{"error":"SerialTooLow"}'))
            for kind in ("any", "all"):
                told = f'{{"instances":["t.b","t.c"],"position":{serial},"serial":{serial}}}'
                expect(asked(second, "GET", f"/impact/a/{kind}?of=t.a"), (200, told.encode()))
            expect(asked(second, "GET", "/state/a"), (200, chain(serial)))


def test_each_letter_of_a_name_is_answered():
    server = Server(workers=1)
    with server.connect() as connection:
        for letter in string.ascii_letters + string.digits + "_-.":
            for name in (letter, f"{letter}x", f"x{letter}"):
                expect(asked(connection, "POST", f"/state/{name}", chain(1)), (200, b""), name)
                expect(asked(connection, "GET", f"/state/{name}"), (200, chain(1)), name)
                expect(asked(connection, "GET", f"/impact/{name}/any?of=t.b")[0], 200, name)


@pytest.mark.parametrize("count", [2, 16])
def test_each_reply_is_over_a_journal_that_the_last_one_begins_with(count):
    accepted = round_of(count, CHANGES)
    expect(count * CHANGES // 8 < accepted < count * CHANGES // 2, True, f"{accepted} changes of {count} sessions, some of which are refused")
