"""Rebases journals with `tfstated rebase`, and serves the results: states and holders are those of
the old journal, names still count, and positions continue after the last entry of the old one. The
expected results are written here by hand."""
import json
from pathlib import Path

import pytest

from checking import S1, S2, expect
from journal_reader import base_text, push_content, record_text
from serve_program import Server, fresh, run, state

pytestmark = pytest.mark.usefixtures("tfstated")
A, B = b'{"ID":"A" ,"Who":""}', b'{"ID":"B"}'
FIRST, SECOND = b"TFJ1\n", b"TFJ2\n"
PUSH, LOCK = record_text(3, b"a", push_content(b"", S1)), record_text(1, b"a", B)
OLD = FIRST + PUSH + LOCK
REBASED = SECOND + base_text(2, [(b"a", B, S1)])
DONE = (200, b"")
MAX_NAMES, MAX_ENTRIES, MAX_POSITION = 1024, 65536, 2**62


def refused(status, name):
    """Returns the status and the body of a refusal."""
    return status, b'{"error":"%s"}' % name.encode()


def rebase(content, numbers):
    """Rebases a journal of this content. Returns the path of the new one. The old one stays."""
    old, new = fresh(content), fresh()
    expect(run("rebase", old, new), (f"rebased {numbers}\n".encode(), 0, b""))
    expect(Path(old).read_bytes() == content, True, "the old journal stays")
    return new


def listed(path):
    """Returns the lines of `check` on a journal, and its status."""
    output, status, errors = run("check", path)
    expect(errors, b"")
    return output.decode().splitlines(), status


def expect_number(server, name, number):
    """Checks that the position of an impact of a state with the instance t.a, of serial 2, is the
    number of the last entry."""
    answer = {"instances": [], "position": number, "serial": 2}
    status, body = server.ask("GET", f"/impact/{name}/any?of=t.a")
    expect((status, json.loads(body)), (200, answer), "the number of the last entry")


def test_the_rebased_journal_is_the_one_of_the_document():
    expect((len(OLD), len(REBASED)), (104, 92))
    new = rebase(OLD, "2 1")
    expect(Path(new).read_bytes(), REBASED)
    expect(listed(new), (["base 2 1", "whole"], 0))


def test_a_rebased_journal_is_served():
    server = Server(old=rebase(OLD, "2 1"))
    expect(server.ask("GET", "/state/a"), (200, S1))
    expect(server.ask("POST", "/state/a", S2), (423, B), "without the lock")
    expect(server.ask("POST", "/state/a?ID=A", S2), (423, B), "with another identifier")
    expect(server.ask("LOCK", "/state/a", A), (423, B))
    expect(server.ask("POST", "/state/a?ID=B", S1 + b" "), refused(409, "SerialReused"))
    expect(server.ask("GET", "/state/a"), (200, S1), "refusals change nothing")
    expect(server.ask("POST", "/state/a?ID=B", S2), DONE)
    expect(server.ask("GET", "/state/a"), (200, S2))
    pushed = REBASED + record_text(3, b"a", push_content(b"B", S2))
    expect(server.kill(), pushed, "the new journal has the base and one record")
    expect(listed(server.new), (["base 2 1", "1 push a", "whole"], 0))
    again = rebase(pushed, "3 1")
    expect(Path(again).read_bytes(), SECOND + base_text(3, [(b"a", B, S2)]), "rebased once more")


def test_the_first_change_after_a_base_of_2_is_number_3():
    server = Server(old=rebase(OLD, "2 1"))
    expect(server.ask("GET", "/impact/a/any?of=t.a"), refused(404, "UnknownAddress"), "S1 has no instances")
    expect(server.ask("POST", "/state/a?ID=B", state(2, ("a",))), DONE)
    expect_number(server, "a", 3)
    expect(server.ask("UNLOCK", "/state/a", B), DONE)
    expect_number(server, "a", 4)
    expect(server.ask("POST", "/state/b", state(2, ("a",))), DONE, "a name that the base hasn't")
    expect_number(server, "b", 5)
    server.kill()
    expect(listed(server.new), (["base 2 1", "1 push a", "2 unlock a", "3 push b", "whole"], 0))


def test_an_impact_of_a_state_in_a_base_is_answered():
    text = state(2, ("a",), ("b", "t.a"), ("c", "t.b"))
    server = Server(old=rebase(OLD[: len(FIRST)] + record_text(3, b"a", push_content(b"", text)), "1 1"))
    answer = {"instances": ["t.b", "t.c"], "position": 1, "serial": 2}
    status, body = server.ask("GET", "/impact/a/any?of=t.a")
    expect((status, json.loads(body)), (200, answer))


def test_a_torn_record_is_left_out():
    server = Server(old=rebase(OLD[:90], "1 1"))
    expect(server.ask("POST", "/state/a?ID=B", S2), refused(409, "LockLost"), "the lock was torn")
    expect(server.ask("POST", "/state/a", state(2, ("a",))), DONE)
    expect_number(server, "a", 2)
    server.kill()
    expect(listed(server.new), (["base 1 1", "1 push a", "whole"], 0))


def test_a_name_with_neither_state_nor_holder_is_kept():
    act = record_text(4, b"a", b"")
    server = Server(old=rebase(FIRST + PUSH + act, "2 1"))
    expect(server.ask("GET", "/state/a"), refused(404, "NoState"))
    expect(server.ask("POST", "/state/a", state(0, ("a",))), DONE, "a lower serial after a deletion")
    expect(server.kill()[: len(SECOND) + 36], SECOND + base_text(2, [(b"a", b"", b"")]))


def test_names_of_a_base_count():
    names = [b"n%d" % number for number in range(MAX_NAMES)]
    acts = [record_text(3, name, push_content(b"", S1)) + record_text(4, name, b"") for name in names]
    new = rebase(FIRST + b"".join(acts), f"{2 * MAX_NAMES} {MAX_NAMES}")
    expect(listed(new), ([f"base {2 * MAX_NAMES} {MAX_NAMES}", "whole"], 0))
    server = Server(old=new)
    expect(server.ask("POST", f"/state/n{MAX_NAMES}", S1), refused(507, "TableFull"))
    expect(server.ask("LOCK", f"/state/n{MAX_NAMES}", B), refused(507, "TableFull"))
    for name in ("n0", "n512", f"n{MAX_NAMES - 1}"):
        expect(server.ask("POST", f"/state/{name}", state(2, ("a",))), DONE, name)
    expect_number(server, "n0", 2 * MAX_NAMES + 3)


def test_a_full_journal_continues_after_its_base():
    full = FIRST + LOCK * MAX_ENTRIES
    server = Server(old=fresh(full))
    expect(server.ask("UNLOCK", "/state/a", B), refused(507, "JournalFull"), "before it is rebased")
    server.kill()
    new, last = rebase(full, f"{MAX_ENTRIES} 1"), MAX_ENTRIES + 1
    server = Server(old=new)
    expect(server.ask("POST", "/state/a", S1), (423, B), "the lock is held still")
    expect(server.ask("POST", "/state/a?ID=B", state(2, ("a",))), DONE)
    expect_number(server, "a", last)
    server.kill()
    expect(listed(server.new), ([f"base {MAX_ENTRIES} 1", "1 push a", "whole"], 0))
    server = Server(old=new)
    expect(server.ask("UNLOCK", "/state/a", B), DONE)
    expect(server.ask("POST", "/state/z", state(2, ("a",))), DONE)
    expect_number(server, "z", last + 1)


def test_a_journal_with_an_entry_too_many_is_unlawful():
    path, new = fresh(FIRST + LOCK * (MAX_ENTRIES + 1)), fresh()
    lines, status = listed(path)
    expect((len(lines), lines[-2:], status), (MAX_ENTRIES + 2, [f"{MAX_ENTRIES + 1} lock a", f"unlawful {MAX_ENTRIES + 1}"], 5))
    expect(run("rebase", path, new), (b"", 5, b"tfstated: Unlawful\n"))
    expect(Path(new).read_bytes(), b"", "nothing is written")


def test_the_highest_position_of_a_base():
    base = SECOND + base_text(MAX_POSITION, [(b"a", b"", b"")])
    server = Server(old=rebase(base, f"{MAX_POSITION} 1"))
    expect(server.ask("POST", "/state/a", state(2, ("a",))), DONE)
    expect_number(server, "a", MAX_POSITION + 1)
    server.kill()
    expect(run("rebase", server.new, fresh()), (b"", 1, b"tfstated: TooFar\n"))


def test_what_is_as_long_as_it_may_be_is_taken_opened_and_rebased():
    name, by = b"n" * 64, b"i" * 256
    lock = b'{"ID":"%s","Who":"%s"}' % (by, b"w" * 65_262)
    text = b'{"version":4,"serial":1,"lineage":"L1","more":"%s"}' % (b"m" * 1_100_000)
    expect(len(lock), 65_536)
    server, target = Server(), f"/state/{name.decode()}"
    for method, query, body in [("LOCK", "", lock), ("POST", f"?ID={by.decode()}", text), ("UNLOCK", "", lock), ("LOCK", "", lock)]:
        expect(server.ask(method, target + query, body), DONE, method)
    held, push, free = record_text(1, name, lock), record_text(3, name, push_content(by, text)), record_text(2, name, by)
    old = SECOND + base_text(0, []) + held + push + free + held
    expect(server.kill() == old, True, "the journal of four changes")
    new = rebase(old, "4 1")
    expect(Path(new).read_bytes() == SECOND + base_text(4, [(name, lock, text)]), True, "the rebased journal")
    expect(listed(new), (["base 4 1", "whole"], 0))
