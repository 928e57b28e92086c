"""Runs `tfstatectl serve` with compactions that free the names without a state and a lock: many
names made and deleted, the limit of names, and starts over journals that such compactions began.
tests/test_compactions.py kills servers inside such compactions."""
import pytest

from checking import S1, S2, expect
from folder_model import compacted, started
from folder_program import STATUSES, ended, served
from folders import A, B, ask_over, at_once, fresh, goes_on_alone, journals, named
from journal_reader import base_text, push_content, read_journal, record_text
from metrics import read_metrics
from past_program import bytes_of
from pushers import GONE, TRIES, newest, serving

pytestmark = pytest.mark.usefixtures("tfstatectl")
MAX_NAMES = 1024
DONE, FULL = (200, b""), (507, b'{"error":"TableFull"}')


def ask(server, method, target, body=None):
    """Returns the status and the body of a reply. A compaction may end a connection before the
    request is read; it is sent again then, as Terraform does."""
    for _ in range(TRIES):
        try:
            return server.ask(method, target, body)
        except GONE:
            continue
    raise AssertionError(f"{TRIES} tries of {method} {target} failed")


def compact(server, folder):
    """Requests a compaction, and waits until it is done."""
    number = newest(folder)
    (folder / "compact").touch()
    goes_on_alone(folder, number)


def names_of(folder):
    """Returns the names in the base of a folder's newest journal."""
    _, _, rows, _, _ = read_journal(journals(folder)[newest(folder)])
    return [name for name, _, _ in rows]


def counts(folder):
    """Returns the number of names that `stats` prints, and the limit."""
    metrics = read_metrics(bytes_of("stats", folder).decode())
    return tuple(metrics[name][0] for name in ("tfstated_workspaces", "tfstated_workspaces_limit"))


class Client:
    """A client on a persistent connection, which retries if that ends, as Terraform does."""

    def __init__(self, server):
        self.connection = server.connect()

    def ask(self, method, target, body=None):
        """Returns the status and the body of a reply."""
        for _ in range(TRIES):
            try:
                return ask_over(self.connection, method, target, body)
            except GONE:
                self.connection.close()
        raise AssertionError(f"{TRIES} tries of {method} {target} failed")


def make_and_delete(client, names):
    """Makes and deletes names. Returns the different replies."""
    replies = {client.ask(*words) for name in names for words in (("POST", f"/state/{name}", S1), ("DELETE", f"/state/{name}"))}
    client.connection.close()
    return replies


def test_many_names_are_made_and_deleted():
    folder = fresh()
    server = serving(folder, "--compact-entries", "600", workers="8")
    expect((ask(server, "POST", "/state/kept", S1), ask(server, "LOCK", "/state/held", B)), (DONE, DONE))
    parts = [[f"pr-{number}" for number in range(first, 3_000, 8)] for first in range(8)]
    expect(at_once(lambda names: make_and_delete(Client(server), names), parts), [{DONE}] * 8, "no name is refused")
    compact(server, folder)
    expect((names_of(folder), counts(folder)), (["held", "kept"], (2, MAX_NAMES)))
    expect((ask(server, "GET", "/state/kept"), ask(server, "LOCK", "/state/held", A)), ((200, S1), (423, B)))
    lines = server.kill().splitlines()
    expect((len(lines) > 9, " 2 names, requests waited " in lines[-1]), (True, True), lines)
    expect(served(folder)[0][0], 404, "a start continues it")


def full_journal():
    """Returns a journal with as many names as fit, and a state for each."""
    return b"TFJ2\n" + base_text(0, [(b"n%04d" % number, b"", S1) for number in range(MAX_NAMES)])


def test_a_compaction_makes_room_for_as_many_names_as_it_frees():
    folder = fresh(n1=full_journal())
    server = serving(folder)

    def push(number):
        return ask(server, "POST", f"/state/n{number:04}", S1)

    expect((push(MAX_NAMES), ask(server, "LOCK", "/state/n0000", B)), (FULL, DONE))
    expect({ask(server, "DELETE", f"/state/n{number:04}") for number in range(1, 11)}, {DONE})
    expect(ask(server, "DELETE", "/state/n0000?ID=B"), DONE, "a lock without a state")
    expect((push(MAX_NAMES), counts(folder)), (FULL, (MAX_NAMES, MAX_NAMES)), "before the compaction")
    compact(server, folder)
    expect(counts(folder), (MAX_NAMES - 10, MAX_NAMES))
    expect([push(number) for number in range(MAX_NAMES, MAX_NAMES + 11)], [DONE] * 10 + [FULL])
    expect((ask(server, "LOCK", "/state/n0000", A), push(11), ask(server, "GET", "/state/n0001")[0]), ((423, B), DONE, 404))
    server.kill()


def test_a_freed_name_is_like_a_new_one():
    folder = fresh()
    server = serving(folder)
    expect((ask(server, "POST", "/state/a", S2), ask(server, "DELETE", "/state/a")), (DONE, DONE))
    compact(server, folder)
    expect(ask(server, "POST", "/state/a", S1.replace(b"L1", b"L2")), DONE, "another lineage, and a lower serial")
    server.kill()


EMPTY = b"TFJ1\n"
FIRST = EMPTY + record_text(3, b"a", push_content(b"", S1)) + record_text(3, b"b", push_content(b"", S1)) + record_text(4, b"b", b"")
MORE = record_text(3, b"a", push_content(b"", S2))
ALL, USED = started(1, FIRST), compacted(1, FIRST)


def based(*rows):
    """Returns a journal at the same position with other rows."""
    return b"TFJ2\n" + base_text(3, list(rows))


def test_the_texts_of_a_start_and_a_compaction():
    own, gone = (b"a", b"", S1), (b"b", b"", b"")
    expect((ALL, USED), (based(own, gone), based(own)))


@pytest.mark.parametrize("more, state", [(b"", S1), (MORE, S2), (MORE[:-1], S1)])
@pytest.mark.parametrize("text", [ALL, USED])
def test_a_start_continues_a_journal_that_either_began(text, more, state):
    folder = fresh(n1=FIRST, n2=text + more)
    expect(served(folder)[0], (200, state))
    new = 3 if more else 2
    expect(journals(folder), {new: started(2, text + more)})
    expect(sorted(journals(folder / "old")), [1, 2][: new - 1])


@pytest.mark.parametrize("text", [ALL, USED])
def test_a_beginning_of_either_text_is_set_aside(text):
    for count in (0, 4, 5, 17, len(text) - 1):
        folder = fresh(n1=FIRST, n2=text[:count])
        expect(served(folder)[0], (200, S1), f"the first {count} bytes")
        expect(((folder / "failed-start").exists(), journals(folder)), (True, {3: ALL}), f"the first {count} bytes")


@pytest.mark.parametrize("rows", [
    [], [(b"b", b"", b"")], [(b"a", b"", S2)], [(b"a", b"", S1), (b"c", b"", b"")], [(b"a", B, S1)], [(b"a", b"", b"")]])
def test_a_journal_with_another_base_has_diverged(rows):
    folder = fresh(n1=FIRST, n2=based(*rows))
    status, _, errors = ended(folder)
    expect((status, "Diverged" in errors, named(2) in errors), (STATUSES["Diverged"], True, True), errors)


def test_a_lock_alone_keeps_a_name():
    data = FIRST + record_text(1, b"b", B)
    own, held = (b"a", b"", S1), (b"b", B, b"")
    text = b"TFJ2\n" + base_text(4, [own, held])
    expect((started(1, data), compacted(1, data)), (text, text))
    status, _, errors = ended(fresh(n1=data, n2=b"TFJ2\n" + base_text(4, [own])))
    expect((status, "Diverged" in errors), (STATUSES["Diverged"], True), errors)
