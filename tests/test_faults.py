"""Faults of `tfstated serve`. If a start has several, it reports the first one in the order of
docs/PROTOCOL.md (The program), and does nothing that comes after it. While it runs: no connection
can be accepted, and clients go away at any byte."""
import itertools
import os
import resource
import signal
import socket
import time
from pathlib import Path

import pytest

from checking import S1, S2, expect
from journal_reader import base_text, push_content, record_text
from programs import preloaded
from serve_program import LOOPBACK, Server, asked, entries_of, free_port, fresh, reply_of, run
from stdio_program import USAGE, request_text

pytestmark = pytest.mark.usefixtures("tfstated")
A, B = b'{"ID":"A" ,"Who":""}', b'{"ID":"B"}'
PUSH1, PUSH2 = (record_text(3, b"a", push_content(b"", text)) for text in (S1, S2))
EMPTY = b"TFJ2\n" + base_text(0, [])
WHOLE = EMPTY + PUSH1 + record_text(1, b"a", B)
DAMAGED, UNLAWFUL = WHOLE[:40] + bytes([WHOLE[40] ^ 1]) + WHOLE[41:], EMPTY + PUSH2 + PUSH1
ROOM = 10
# The faults of a start in their order, with their statuses, their causes, and the bytes of NEW
# after them, if it didn't exist before.
FAULTS = [
    ("CannotRead", 1, {"old": None}, None),
    ("CannotCreate", 1, {"new": b"kept"}, b"kept"),
    ("Damaged", 4, {"old": DAMAGED}, b""),
    ("TornBase", 3, {"old": WHOLE[:20]}, b""),
    ("Unlawful", 5, {"old": UNLAWFUL}, b""),
    ("SinkFault", 1, {"room": ROOM}, WHOLE[:ROOM]),
    ("CannotBind", 1, {"taken": True}, WHOLE),
    ("Write", 1, {"full": True}, WHOLE),
]
# The next write notices a client that goes away during a long reply; what waits for ten seconds
# waited for the client.
NOTICED = 8
LONG = S1.ljust(16 << 20)


def leave_no_room():
    """Lets no file grow over a few bytes, and ignores the signal for a longer write."""
    signal.signal(signal.SIGXFSZ, signal.SIG_IGN)
    resource.setrlimit(resource.RLIMIT_FSIZE, (ROOM, ROOM))


def files_in(folder):
    """Returns the bytes of a folder's files by their names."""
    return {path.name: path.read_bytes() for path in folder.iterdir()}


def start_with(given):
    """Starts the server with the causes of these faults. Returns its status, what it wrote to
    standard error, and the files of its folder then."""
    folder = Path(fresh())
    folder.mkdir()
    for name in ("old", "new"):
        if given.get(name) is not None:
            (folder / name).write_bytes(given[name])
    with socket.create_server((LOOPBACK, 0)) as taken, open("/dev/full", "wb", buffering=0) as full:
        port = taken.getsockname()[1] if "taken" in given else free_port()
        how = {"preexec_fn": leave_no_room} if "room" in given else {}
        how |= {"stdout": full} if "full" in given else {}
        output, *ended = run("serve", f"{LOOPBACK}:{port}", "1", str(folder / "new"), str(folder / "old"), **how)
    expect(output in (b"", None), True, f"nothing is written: {output}")
    return *ended, files_in(folder)


def expect_first(faults):
    """Checks that a start with some faults, which are in order, ends by the first, and changes only
    the files that that fault changes."""
    name, status, first, left = faults[0]
    given = {"old": WHOLE}
    for _, _, one, _ in reversed(faults):
        given |= one
    kept = {"old": given["old"], "new": given["new"] if "new" in given else left}
    files = {name: content for name, content in kept.items() if content is not None}
    expect(start_with(given), (status, f"tfstated: {name}\n".encode(), files), " before ".join(fault[0] for fault in faults))


def fit(faults):
    """Returns true if faults have different causes."""
    return all(not first[2].keys() & second[2].keys() for first, second in itertools.combinations(faults, 2))


WAITING = [faults for count in (1, 2, 3) for faults in itertools.combinations(FAULTS, count) if fit(faults)]


def test_many_faults_wait_at_a_start():
    expect(len(WAITING) > 50, True, f"{len(WAITING)} are tried")


@pytest.mark.parametrize("faults", WAITING, ids=lambda faults: "-".join(name for name, *_ in faults))
def test_a_start_reports_the_first_fault_and_does_nothing_after_it(faults):
    expect_first(faults)


def test_wrong_arguments_come_before_all_faults():
    old, new = fresh(), fresh(b"kept")
    expect(run("serve", "nowhere", "17", new, old), (b"", 2, USAGE))
    expect((Path(old).exists(), Path(new).read_bytes()), (False, b"kept"))


def test_a_journal_is_never_written_over():
    old = fresh(WHOLE)
    expect(run("serve", "nowhere", "1", old, old), (b"", 1, b"tfstated: CannotCreate\n"), "OLD is NEW")
    expect(Path(old).read_bytes(), WHOLE)
    link, target = fresh(), fresh()
    os.symlink(target, link)
    expect(run("serve", "nowhere", "1", link, old), (b"", 1, b"tfstated: CannotCreate\n"), "NEW is a link to no file")
    expect(Path(target).exists(), False)


def test_a_write_or_a_sync_that_a_signal_interrupts_is_made_once():
    old = fresh(WHOLE)
    server = Server(workers=1, old=old, env={"LD_PRELOAD": preloaded("interrupted_calls.c")})
    for name in ("b", "c"):
        expect(server.ask("POST", f"/state/{name}", S1), (200, b""), f"a push of {name}")
        expect(server.ask("GET", f"/state/{name}"), (200, S1), f"the state of {name}")
    expect(server.kill(), WHOLE + b"".join(record_text(3, name, push_content(b"", S1)) for name in (b"b", b"c")))


def test_a_worker_that_is_given_no_connection_ends_alone():
    server = Server(workers=3)
    held = [server.connect() for _ in range(3)]
    for connection in held:
        expect(asked(connection, "GET", "/state/a")[0], 404)
    server.shut()
    for number, connection in enumerate(held):
        expect(asked(connection, "POST", f"/state/n{number}", S1), (200, b""), f"after {number} have ended")
        connection.close()
        time.sleep(0.05)  # in which the program may end, which it must not before the last
    expect(server.end(), (b"", 1, b"tfstated: AcceptFault\n"), "all have ended")
    names = [name for _, name, _ in entries_of(Path(server.new).read_bytes())]
    expect(names, ["n0", "n1", "n2"], "what was acknowledged is there")


def seconds_of(server):
    """Returns the processor time that a server has taken, in seconds."""
    fields = Path(f"/proc/{server.process.pid}/stat").read_text().rpartition(")")[2].split()
    return sum(map(int, fields[11:13])) / os.sysconf("SC_CLK_TCK")


def test_workers_go_on_once_descriptors_are_there_again():
    server = Server(workers=4)
    server.leave_free(server.lowest_free())
    # A worker that waits has its descriptor already, and finds none from the next connection on.
    for _ in range(4):
        server.connect().close()
    time.sleep(0.5)
    held = [server.connect() for _ in range(4)]
    requests = [request_text("POST", f"/state/n{number}", S1) for number in range(4)]
    for connection, request in zip(held, requests):
        connection.sendall(request[:-1])
    began = seconds_of(server)
    time.sleep(0.5)  # in which they find no descriptor, more than once
    expect(seconds_of(server) - began < 0.25, True, "they pause in between")
    server.leave_free(256)
    # Each keeps a worker until its last byte, so all four must continue.
    for connection, request in reversed(list(zip(held, requests))):
        connection.sendall(request[-1:])
        with connection.makefile("rb") as file:
            expect(reply_of(file), (200, b""), "beside those that are not whole")
    for connection in held:
        connection.close()
    server.kill()


def go_away(server, data, count=0, reset=False):
    """Sends bytes on a connection, reads this many, and closes it, or resets it."""
    with server.connect() as connection:
        if reset:
            connection.setsockopt(socket.SOL_SOCKET, socket.SO_LINGER, b"\1\0\0\0\0\0\0\0")
        connection.sendall(data)
        while count > 0 and (piece := connection.recv(min(count, 65536))):
            count -= len(piece)


def test_a_client_may_go_away_at_any_byte():
    server = Server(workers=1)
    sized = request_text("POST", "/state/a", S1)
    chunked = request_text("POST", "/state/b", more="Transfer-Encoding: chunked\r\n") + b"29\r\n" + S1 + b"\r\n0\r\n\r\n"
    expect((len(sized), len(chunked)), (96, 115))
    for name, text in (("a", sized), ("b", chunked)):
        for count in range(len(text)):
            go_away(server, text[:count], reset=count % 2 == 1)
            expect(server.ask("GET", f"/state/{name}")[0], 404, f"after {count} bytes of {len(text)}")
            go_away(server, text[:count], reset=count % 2 == 0)
        go_away(server, text)
        expect(server.ask("GET", f"/state/{name}"), (200, S1), "after all of them")
    expect([name for _, name, _ in entries_of(server.kill())], ["a", "b"])


def test_clients_that_go_away_before_they_are_taken_end_nothing():
    server = Server(workers=1)
    with server.connect() as held:
        expect(asked(held, "GET", "/state/a")[0], 404)
        for number in range(60):
            go_away(server, request_text("GET", "/state/a")[: number % 40], reset=number % 3 > 0)
    expect(server.ask("POST", "/state/a", S1), (200, b""))


@pytest.mark.parametrize("reset", [False, True])
def test_a_client_may_go_away_amid_a_long_reply(reset):
    server = Server(workers=1)
    expect(server.ask("POST", "/state/a", LONG), (200, b""))
    for count in (0, 1, 70000, 8 << 20):
        go_away(server, request_text("GET", "/state/a"), count, reset)
        began = time.monotonic()
        expect(server.ask("GET", "/state/b")[0], 404, f"after {count} bytes of the reply")
        expect(time.monotonic() - began < NOTICED, True, "it doesn't wait for the client that is gone")
    expect(server.ask("GET", "/state/a"), (200, LONG))
