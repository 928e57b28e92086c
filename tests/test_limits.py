"""The limits of servers: how long a client may wait or make them wait, and how many connections
they serve at once. The tests that wait for time to pass work concurrently, each on a server of its
own."""
import concurrent.futures
import contextlib
import resource
import socket
import threading
import time
from pathlib import Path

import pytest

from checking import S1, SECONDS, expect
from folder_program import Serving
from folders import fresh, named
from serve_program import LOOPBACK, Server, asked, reply_of
from stdio_program import request_text

pytestmark = pytest.mark.usefixtures("tfstated", "tfstatectl")
STARTING = threading.Lock()
MAX_WORKERS, MAX_WAITING = 16, 1024
LONG = S1.ljust(16 << 20)
# Ten seconds in which nothing can be written, after those in which the system's buffers take
# something.
WRITE_SECONDS = (9, 30)
IDLE_SECONDS = (1.9, 6)
# Half a second, if no worker is free; two seconds for a client that is slow then.
CROWDED_SECONDS = (0.4, 1.8)
SLOW_SECONDS = (1.9, 8)
REQUEST_SECONDS = (59, 72)
# A minute, and a second for each 1,000,000 bytes of a long reply, then a check, and what was
# written before.
REPLY_SECONDS = (75, 90)
# Five seconds when a run ends for a compaction, which a server notices within a second.
ENDING_SECONDS = (4.9, 30)
# The work of the slow tests, by their names.
SLOW = {}


def slow(work):
    """Makes a test that waits for time to pass. All of them work concurrently, and each test fails
    as its own work did."""
    def test(slow_runs):
        slow_runs[work.__name__].result()
    SLOW[work.__name__] = work
    test.__name__, test.__doc__ = work.__name__, work.__doc__
    return test


@pytest.fixture(scope="module")
def slow_runs(request, tfstated, tfstatectl):
    """Does the work of the chosen slow tests concurrently. Returns how each of them ended."""
    chosen = {getattr(item, "originalname", item.name) for item in request.session.items} & set(SLOW)
    with concurrent.futures.ThreadPoolExecutor(len(chosen)) as pool:
        return {name: pool.submit(SLOW[name]) for name in chosen}


def started(workers):
    """Starts a server. No two look for a port at the same time."""
    with STARTING:
        return Server(workers=workers)


def small_connection(server):
    """Returns a connection whose client has little room for what it doesn't read."""
    connection = socket.socket()
    connection.setsockopt(socket.SOL_SOCKET, socket.SO_RCVBUF, 16384)
    connection.settimeout(SECONDS)
    connection.connect((LOOPBACK, int(server.address.split(":")[1])))
    return connection


def push_long(server):
    """Pushes the long state. Retries, because the server may leave a silent client before a busy
    machine has sent anything."""
    text = request_text("POST", "/state/a", LONG)
    for _ in range(3):
        with contextlib.suppress(ConnectionError), small_connection(server) as connection, connection.makefile("rb") as file:
            connection.sendall(text)
            return expect(reply_of(file), (200, b""))
    raise AssertionError("no try has a reply")


def expect_between(seconds, limits, about):
    """Fails if a duration is outside its limits."""
    expect(limits[0] < seconds < limits[1], True, f"{about}: {seconds:.1f} s")


def read_slowly(connection):
    """Asks for the long state, and reads 4 KB twice a second, until there is nothing more or the
    connection is closed."""
    with contextlib.suppress(OSError):
        connection.sendall(request_text("GET", "/state/a"))
        while connection.recv(4096):
            time.sleep(0.5)


def expect_next(server, began, limits, about):
    """Fails unless the only worker gets to the next client within these limits."""
    expect(server.ask("GET", "/state/b")[0], 404, about)
    expect_between(time.monotonic() - began, limits, about)


@slow
def test_a_client_that_reads_nothing_is_left_after_a_while():
    server = started(1)
    push_long(server)
    with small_connection(server) as connection:
        connection.sendall(request_text("GET", "/state/a"))
        expect_next(server, time.monotonic(), WRITE_SECONDS, "the client after one that reads nothing")
        with connection.makefile("rb") as file:
            expect(reply_of(file), None, "the reply isn't whole")


def read_in_pieces(server, size, pause):
    """Returns what a client gets of the long state if it reads this many bytes before each
    pause."""
    text = b""
    with small_connection(server) as connection, connection.makefile("rb", buffering=65536) as file, contextlib.suppress(ConnectionError):
        connection.sendall(request_text("GET", "/state/a", more="Connection: close\r\n"))
        while file.readline() not in (b"\r\n", b""):
            pass
        while piece := file.read(size):
            text += piece
            time.sleep(pause)
    return text


@slow
def test_a_client_that_reads_slowly_gets_all():
    server = started(1)
    push_long(server)
    expect(read_in_pieces(server, 5 << 20, 7), LONG)


@slow
def test_clients_that_read_3_mb_a_second_are_not_slow():
    server = started(4)
    push_long(server)
    with concurrent.futures.ThreadPoolExecutor(5) as pool:
        texts = [pool.submit(read_in_pieces, server, 1_500_000, 0.5) for _ in range(4)]
        time.sleep(1)  # in which each of them has a worker
        waiting = pool.submit(server.ask, "GET", "/state/e")
        expect([text.result() == LONG for text in texts], [True] * 4, "replies, while another client waits")
        expect(waiting.result()[0], 404)


@slow
def test_a_client_that_reads_too_slowly_is_left_at_the_limit_of_its_reply():
    server = started(1)
    push_long(server)
    with small_connection(server) as connection:
        began = time.monotonic()
        threading.Thread(target=read_slowly, args=(connection,), daemon=True).start()
        time.sleep(SECONDS)  # the next client waits no longer than that
        expect_next(server, began, REPLY_SECONDS, "the client after one that reads slowly")


@slow
def test_the_17th_client_is_served_once_a_silent_one_is_left():
    server, silent = started(MAX_WORKERS), []
    began = time.monotonic()
    for _ in range(MAX_WORKERS):
        silent.append(server.connect())
    expect_next(server, began, CROWDED_SECONDS, "the client after sixteen that are silent")
    for number, connection in enumerate(silent):
        with connection:
            expect(connection.recv(1), b"", f"silent client {number} is left")


@slow
def test_a_client_is_waited_for_two_seconds_while_a_worker_is_free():
    server, began = started(3), time.monotonic()
    with server.connect() as silent, server.connect() as idle:
        expect(asked(idle, "GET", "/state/a")[0], 404)
        for connection in (silent, idle):
            expect(connection.recv(1), b"", "it is left")
            expect_between(time.monotonic() - began, IDLE_SECONDS, "beside a free worker")


@slow
def test_a_quarter_of_the_workers_stays_with_slow_clients_while_others_wait():
    server, slow_ones = started(MAX_WORKERS), []
    began = time.monotonic()
    for _ in range(MAX_WORKERS):
        slow_ones.append(server.connect())
        slow_ones[-1].sendall(request_text("GET", "/state/a")[:20])
    expect_next(server, began, SLOW_SECONDS, "the client after sixteen that are slow")
    time.sleep(1)  # in which each worker has looked at its client
    left = sum(is_left(connection) for connection in slow_ones)
    expect(1 <= left <= MAX_WORKERS - MAX_WORKERS // 4, True, f"{left} are left")


@slow
def test_a_client_that_reads_nothing_is_slow():
    server, readers = started(MAX_WORKERS), []
    push_long(server)
    began = time.monotonic()
    for _ in range(MAX_WORKERS):
        readers.append(small_connection(server))
        readers[-1].sendall(request_text("GET", "/state/a"))
    expect_next(server, began, SLOW_SECONDS, "the client after sixteen that read nothing")


@slow
def test_slow_clients_stay_while_a_worker_is_free():
    server, slow_ones = started(4), []
    for _ in range(3):
        slow_ones.append(server.connect())
        slow_ones[-1].sendall(request_text("GET", "/state/a")[:20])
    time.sleep(SLOW_SECONDS[0] + 2)
    expect([is_left(connection) for connection in slow_ones], [False] * 3)


@slow
def test_slow_clients_that_are_gone_count_no_more():
    server, text = started(1), request_text("GET", "/state/a", more="Connection: close\r\n")
    for number in range(3):
        with server.connect() as connection, connection.makefile("rb") as file:
            connection.sendall(text[:20])
            time.sleep(SLOW_SECONDS[0] + 2)
            connection.sendall(text[20:])
            expect(reply_of(file), (404, b'{"error":"NoState"}'), f"slow client {number}, the only one")


@slow
def test_clients_that_send_100_kb_a_second_are_not_slow():
    server = started(4)
    with concurrent.futures.ThreadPoolExecutor(5) as pool:
        pushes = [pool.submit(pushed_in_pieces, server, name) for name in "abcd"]
        time.sleep(1)  # in which each of them has a worker
        waiting = pool.submit(server.ask, "GET", "/state/e")
        expect([push.result() for push in pushes], [(200, b"")] * 4, "pushes, while another client waits")
        expect(waiting.result()[0], 404)


def pushed_in_pieces(server, name):
    """Returns the reply to a push that takes five seconds."""
    text = request_text("POST", f"/state/{name}", S1.ljust(500000))
    with server.connect() as connection, connection.makefile("rb") as file:
        for place in range(0, len(text), 50000):
            connection.sendall(text[place : place + 50000])
            time.sleep(0.5)
        return reply_of(file)


def is_left(connection):
    """Returns true if a connection has been ended."""
    connection.setblocking(False)
    try:
        return connection.recv(1) == b""
    except BlockingIOError:
        return False


def expect_left(server, beginning, piece, pause):
    """Fails unless a client that begins a request, and then sends a piece of it after each pause,
    is left after a minute without a reply, and the only worker gets to the next client."""
    with server.connect() as connection, server.connect() as waiting:
        waiting.sendall(request_text("GET", "/state/b"))
        connection.settimeout(pause)
        connection.sendall(beginning)
        began, reply = time.monotonic(), None
        while reply is None and time.monotonic() - began < REQUEST_SECONDS[1]:
            reply = next_of(connection, piece)
        expect(reply, b"", "no reply")
        expect_between(time.monotonic() - began, REQUEST_SECONDS, f"after {beginning[-30:]}")
        with waiting.makefile("rb") as file:
            expect(reply_of(file), (404, b'{"error":"NoState"}'), "the next client")


def next_of(connection, piece):
    """Returns what a connection gives after a piece was sent: nothing if it ends, None if it gives
    nothing for a while."""
    try:
        connection.sendall(piece)
        return connection.recv(1)
    except socket.timeout:
        return None
    except ConnectionError:
        return b""


@slow
def test_a_body_that_trickles_is_left_after_a_minute():
    expect_left(started(1), request_text("POST", "/state/a", S1.ljust(1000))[:80], b" ", 3)


@slow
def test_a_body_in_chunks_that_trickles_is_left_after_a_minute():
    beginning = request_text("POST", "/state/a", more="Transfer-Encoding: chunked\r\n") + b"29\r\n" + S1 + b"\r\n"
    expect_left(started(1), beginning, b"1\r\n \r\n", 3)


@slow
def test_empty_lines_that_trickle_are_left_after_a_minute():
    expect_left(started(1), b"\r\n", b"\r\n", 4)


@slow
def test_each_request_of_a_connection_has_its_own_minute():
    server = started(1)
    with server.connect() as connection, connection.makefile("rb") as file:
        for serial in (1, 2):
            text = request_text("POST", "/state/a", S1.replace(b"1 ", b"%d " % serial))
            connection.sendall(text[:12])
            for place in range(12, len(text), 12):
                time.sleep(4.6)
                connection.sendall(text[place : place + 12])
            expect(reply_of(file), (200, b""), f"request {serial}, which took half a minute")


def send_slowly(connection):
    """Begins a push, and sends a byte of it twice a second, until the connection is closed."""
    with contextlib.suppress(OSError):
        connection.sendall(request_text("POST", "/state/b", S1.ljust(1000))[:80])
        while True:
            connection.sendall(b" ")
            time.sleep(0.5)


def next_run_beside(work):
    """Returns the seconds until a compaction that is requested while a client works slowly."""
    server = Serving(fresh(), "--first").listens()
    server.address, second = f"{LOOPBACK}:{server.port}", server.folder / f"{named(2)}.tfj"
    push_long(server)
    with small_connection(server) as connection:
        threading.Thread(target=work, args=(connection,), daemon=True).start()
        time.sleep(1)  # in which it has a worker
        (server.folder / "compact").touch()
        began = time.monotonic()
        while not second.exists() and time.monotonic() - began < ENDING_SECONDS[1]:
            time.sleep(0.05)
        seconds = time.monotonic() - began
        expect(server.ask("GET", "/state/b")[0], 404, "in the next run")
    return seconds


@slow
def test_a_reply_in_progress_has_five_seconds_when_its_run_ends():
    expect_between(next_run_beside(read_slowly), ENDING_SECONDS, "until the next run")


def test_a_request_in_progress_delays_no_compaction():
    expect_between(next_run_beside(send_slowly), (0, ENDING_SECONDS[0]), "until the next run")


def test_a_thousand_connections_wait_for_the_only_worker():
    server, text = started(1), request_text("GET", "/state/a")
    # The system may let fewer connections wait.
    most = min(MAX_WAITING, int(Path("/proc/sys/net/core/somaxconn").read_text()))
    now, limit = resource.getrlimit(resource.RLIMIT_NOFILE)
    resource.setrlimit(resource.RLIMIT_NOFILE, (max(now, most + 100), limit))
    with server.connect() as served, contextlib.ExitStack() as waiting:
        served.sendall(text[:20])
        for _ in range(most):
            # None is accepted meanwhile: the client that is served is left after ten seconds.
            waiting.enter_context(socket.create_connection(served.getpeername(), timeout=5))
        served.sendall(text[20:])
        with served.makefile("rb") as file:
            expect(reply_of(file), (404, b'{"error":"NoState"}'), "while others wait")
    expect(server.ask("GET", "/state/b")[0], 404, "after them")
