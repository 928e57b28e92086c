"""What both programs acknowledge is on the disk: with a power cut that leaves only what was synced
(lazy_disk.c), with each sync failing once, and with slow syncs and writes."""
import http.client
import json
import re
import string
import threading
import time

import pytest

from checking import SECONDS, expect
from folder_program import STATUSES, Serving
from folders import LOOPBACK, ask_over, fresh, journals
from journal_reader import base_text, push_content, record_text
from lazy_disk import Disk, shim, slow
from programs import preloaded
from pushers import has_come, serving
from repository import TOP
import serve_program
from serve_program import Server, state
from sync_orders import orders
from told import Told, beside

pytestmark = pytest.mark.usefixtures("tfstated", "tfstatectl")
# The lengths of bodies, each with that of its chunks.
BODIES = ((5_000, 700), (100_000, 4_096), (5_000_000, 65_536))
# The orders of `crates/tfs_tests/src/orders.rt`.
ORDERS = re.compile(r'ORDERS: &str = "([^"]*)"')


def events_in(path):
    """Returns the letters of a trace, each with its thread."""
    return [tuple(line.split(" ")[:2]) for line in path.read_text().splitlines()]


def expect_synced(path, about):
    """Checks that before the first byte of a reply to a change, a sync was complete that began
    after the change was written. Returns the number of such replies."""
    events, begun, written, synced, replies = events_in(path), {}, {}, -1, 0
    for place, (letter, thread) in enumerate(events):
        if letter == "s":
            begun[thread] = place
        elif letter == "d":
            synced = max(synced, begun[thread])
        elif letter == "w":
            written[thread] = place
        elif letter == "r" and thread in written:
            expect(written.pop(thread) < synced, True, f"{about}: a reply before its sync, at line {place + 1}")
            replies += 1
    return replies


def test_no_reply_is_written_before_its_sync():
    folder, told, trace = fresh(), Told(), fresh() / "trace"
    server = serving(folder, workers="8", env=slow(DELAY=500, TRACE=trace))
    threads = beside(server, told, 2)
    while told.count < 500:
        time.sleep(0.01)
    server.kill()
    for thread in threads:
        thread.join()
    replies = expect_synced(trace, "under load")
    expect(replies >= told.count >= 500, True, f"{replies} replies, {told.count} were told")
    syncs = sum(letter == "s" for letter, _ in events_in(trace))
    expect(syncs < replies, True, f"{syncs} syncs for {replies} replies")


def has_failed_elsewhere(trace):
    """Returns true if a sync of another file than a journal has failed."""
    return any(letter in "no" for letter, _ in events_in(trace))


def fail_at(turn):
    """Has a sync fail. The server ends with a fault, which is SyncFault also before it listens, if
    the journal of its first run can't be synced; after a restart it has all that it acknowledged. If
    the sync is not of the journal but of the folder's identity, a running server continues. Returns
    true if the server was running."""
    disk, told, trace = Disk(), Told(), fresh() / "trace"
    words = (disk.folder, "--first", "--keep", "1000000")
    server = Serving(*words, workers="8", env=disk.env(DELAY=500, FAIL=turn, TRACE=trace))
    threads = beside(server, told, 2) if server.line else []
    has_come(lambda: server.process.poll() is not None or server.line and has_failed_elsewhere(trace), f"turn {turn}: it fails")
    if server.process.poll() is None:
        server.kill()
    else:
        faults, (status, errors) = ("SyncFault",) if server.line else ("CannotWrite", "SyncFault"), server.end()
        told_faults = [fault for fault in faults if f": {fault}: " in errors]
        expect((len(told_faults), status), (1, STATUSES[faults[0]]), f"turn {turn}: {errors}")
    for thread in threads:
        thread.join()
    expect_synced(trace, f"turn {turn}")
    disk.cut()
    if server.line:
        expect(list(journals(disk.folder)), [1], f"turn {turn}")
    serving(disk.folder).kill()
    told.expect_in(disk.folder, f"turn {turn}")
    return bool(server.line)


def test_after_a_failed_sync_nothing_is_acknowledged():
    began = [fail_at(turn) for turn in range(1, 25)]
    expect((began[0], began[-1], sum(began) > 10), (False, True, True), began)


def test_the_test_of_orders_has_all_orders_of_the_model():
    [table] = ORDERS.findall((TOP / "crates/tfs_tests/src/orders.rt").read_text())
    expect(table.splitlines(), list(orders()))


class FolderDisk:
    """`tfstatectl` on a new folder of a disk."""

    def __init__(self, **how):
        self.disk = Disk()
        self.server = serving(self.disk.folder, env=self.disk.env(**how))
        self.port = self.server.port

    def cut(self):
        """Kills the server and cuts the power. Returns the bytes of its journal."""
        self.server.kill()
        self.disk.cut()
        [data] = journals(self.disk.folder).values()
        return data


class FileDisk:
    """`tfstated` on a new journal of a disk that keeps each name at once, because this program
    syncs no names."""

    def __init__(self, **how):
        self.disk = Disk(serve_program.FOLDER.name)
        self.server = Server(env=self.disk.env(NAMES=100, **how))
        self.port = int(self.server.address.split(":")[1])

    def cut(self):
        """Kills the server. Returns the bytes of its journal that a power cut would leave."""
        self.server.kill()
        return self.disk.kept_bytes(self.server.new)


def journal_of(name, states):
    """Returns the bytes of a new journal after pushes to a name."""
    return b"TFJ2\n" + base_text(0, []) + b"".join(record_text(3, name, push_content(b"", text)) for text in states)


def expect_bodies(program, in_chunks):
    """Pushes bodies with Content-Length or in chunks, and checks that each is on the disk once it
    is acknowledged."""
    trace, texts = fresh() / "trace", []
    server = program(TRACE=trace)
    connection = http.client.HTTPConnection(LOOPBACK, server.port, timeout=SECONDS)
    for serial, (length, chunk) in enumerate(BODIES, 1):
        texts.append(state(serial, ("a",)).ljust(length))
        body = (texts[-1][at : at + chunk] for at in range(0, length, chunk)) if in_chunks else texts[-1]
        expect(ask_over(connection, "POST", "/state/a", body), (200, b""), f"{length} bytes")
    data = server.cut()
    connection.close()
    about = f"{program.__name__}, {'in chunks' if in_chunks else 'with Content-Length'}"
    expect(data == journal_of(b"a", texts), True, f"{about}: what a power cut leaves, {len(data)} bytes")
    expect(expect_synced(trace, about), len(BODIES), about)


@pytest.mark.parametrize("in_chunks", [False, True])
@pytest.mark.parametrize("program", [FolderDisk, FileDisk])
def test_bodies_of_each_length_are_synced_before_they_are_acknowledged(program, in_chunks):
    expect_bodies(program, in_chunks)


@pytest.mark.parametrize("program", [FolderDisk, FileDisk])
def test_a_write_or_a_sync_that_a_signal_interrupts_is_made_once(program):
    told, server = Told(), program(LD_PRELOAD=f"{preloaded('interrupted_calls.c')} {shim()}")
    for _ in range(9):
        connection = http.client.HTTPConnection(LOOPBACK, server.port, timeout=SECONDS)
        told.push(connection, "n0")
        told.look(connection, "n0")
        connection.close()
    expect((told.acknowledged, told.read), ({"n0": 9}, {"n0": 9}))
    expect(server.cut(), journal_of(b"n0", [state(serial, ("a",), ("b", "t.a")) for serial in range(1, 10)]), program.__name__)


def push_beside(server, told, names, number):
    """Pushes a number of states to each name, each name on a connection of its own."""
    def write(name):
        connection = http.client.HTTPConnection(LOOPBACK, server.port, timeout=SECONDS)
        for _ in range(number):
            told.push(connection, name)
        connection.close()
    threads = [threading.Thread(target=write, args=(name,)) for name in names]
    for thread in threads:
        thread.start()
    for thread in threads:
        thread.join()


# While a sync lasts, the next change of each other name comes.
def test_one_sync_serves_many():
    told, trace = Told(), fresh() / "trace"
    server = serving(fresh(), workers="16", env=slow(DELAY=50000, TRACE=trace))
    push_beside(server, told, [f"m{number}" for number in range(16)], 20)
    server.kill()
    replies, syncs = expect_synced(trace, "16 writers"), sum(letter == "s" for letter, _ in events_in(trace))
    expect((replies, replies >= 6 * syncs), (320, True), f"{syncs} syncs for {replies} changes")


def count(port, end, step, counts):
    """Takes steps over a connection until a moment, and appends their number."""
    connection, number = http.client.HTTPConnection(LOOPBACK, port, timeout=10), 0
    while time.monotonic() < end:
        step(connection)
        number += 1
    connection.close()
    counts.append(number)


def counted(env, *steps):
    """Returns how often each step is taken in two seconds, concurrently with the others, of a
    server with states of two names."""
    server, told = serving(fresh(), workers="4", env=env), Told()
    connection = http.client.HTTPConnection(LOOPBACK, server.port, timeout=10)
    for name in ("busy", "still"):
        told.push(connection, name)
    connection.close()
    end, counts = time.monotonic() + 2, [[] for _ in steps]
    threads = [threading.Thread(target=count, args=(server.port, end, lambda connection, step=step: step(connection, told), counts[number]))
               for number, step in enumerate(steps)]
    for thread in threads:
        thread.start()
    for thread in threads:
        thread.join()
    server.kill()
    return [found[0] for found in counts]


def pushing(name):
    return lambda connection, told: told.push(connection, name)


def reading(name):
    return lambda connection, told: ask_over(connection, "GET", f"/state/{name}")


def asking(name):
    return lambda connection, told: ask_over(connection, "GET", f"/impact/{name}/any?of=t.a")


def test_a_read_waits_only_while_its_name_is_changed():
    pushes, other, same = counted(slow(DELAY=50000), pushing("busy"), reading("still"), reading("busy"))
    expect(pushes <= 41 and other >= 4 * max(pushes, same) > 0, True, f"pushes {pushes}, reads {same}, of another name {other}")


def test_a_query_waits_only_while_its_name_is_changed():
    pushes, other, same = counted(slow(DELAY=50000), pushing("busy"), asking("still"), asking("busy"))
    expect(pushes <= 41 and other >= 4 * max(pushes, same) > 0, True, f"pushes {pushes}, queries {same}, of another name {other}")


# Both pushes of the start are acknowledged; each later one adds a position.
def test_a_query_has_the_position_of_each_change_that_was_acknowledged_before_it():
    positions = []

    def asked(connection, told):
        least = 1 + told.acknowledged["busy"]
        status, body = asking("still")(connection, told)
        positions.append((status, least, json.loads(body)["position"]))
    pushes, queries = counted(slow(DELAY=20000), pushing("busy"), asked)
    expect([found for found in positions if found[0] != 200 or found[2] < found[1]], [], f"pushes {pushes}, queries {queries}")
    expect(pushes > 10 and queries > pushes, True, f"pushes {pushes}, queries {queries}")


def test_a_read_waits_for_no_write_of_another_name():
    some, others, reads = counted(slow(HOLD=50000), pushing("busy"), pushing("third"), reading("still"))
    expect(some + others <= 42 and reads >= 10 * (some + others) > 0, True, f"pushes {some} and {others}, reads {reads}")


def test_no_read_or_query_waits_for_a_write_of_another_name():
    server, told, letters = serving(fresh(), workers="4", env=slow(HOLD=4_000_000)), Told(), string.ascii_letters + string.digits + "_-."
    connections = [http.client.HTTPConnection(LOOPBACK, server.port, timeout=SECONDS) for _ in range(2)]
    change = threading.Thread(target=told.push, args=(connections[0], "busy"))
    change.start()
    time.sleep(0.5)
    for target in (f"/{route}" for letter in letters for route in (f"state/{letter}", f"impact/{letter}/any?of=t.a")):
        expect(ask_over(connections[1], "GET", target)[0], 404, target)
    expect(change.is_alive(), True, "the write lasts longer than all reads and queries")
    change.join()
    for connection in connections:
        connection.close()
    server.kill()
    expect(told.count, 1, "the change")
