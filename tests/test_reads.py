"""What a connection of `tfstated serve` gets: replies are sent at once, the number of reads is
limited, and a body without an end is ended."""
import os
import threading

import pytest

from checking import S1, expect
from programs import preloaded
from serve_program import Server, asked, calls_in, reply_of, rest_of, send_all
from stdio_program import request_text

pytestmark = pytest.mark.usefixtures("tfstated")
MAX_READS = 1048576


def expect_at_once(connection, trace):
    """Fails unless the only new connection of a trace is set to send at once before its first
    reply."""
    expect(asked(connection, "GET", "/state/a")[0], 404)
    (word, near), *calls = calls_in(trace)
    expect((word, {descriptor for _, descriptor in calls}), ("nodelay", {near}), "before its first reply")
    expect(asked(connection, "GET", "/state/a")[0], 404)
    expect({descriptor for _, descriptor in calls_in(trace)}, {near}, "after it")


def test_what_is_written_to_each_connection_is_sent_at_once():
    reading, writing = os.pipe()
    server = Server(workers=2, env={"LD_PRELOAD": preloaded("trace_calls.c"), "TRACE": str(writing)}, pass_fds=[writing])
    expect("nodelay" in [name for name, _ in calls_in(reading)], False, "before the first connection")
    with server.connect() as first:
        expect_at_once(first, reading)
        with server.connect() as second:
            expect_at_once(second, reading)
    with server.connect() as third:
        expect_at_once(third, reading)
    os.close(reading)
    os.close(writing)


def push_of(size):
    """Returns a push whose head and body have this many bytes together."""
    head = request_text("POST", "/state/a", bytes(size - 80))
    rest = size - (len(head) - (size - 80))
    text = request_text("POST", "/state/a", S1.ljust(rest))
    expect(len(text), size)
    return text


@pytest.mark.parametrize("size, wanted", [(MAX_READS, (200, b"")), (MAX_READS + 1, None)])
def test_a_body_gets_as_many_reads_as_a_connection_has(size, wanted):
    server = Server(workers=1, env={"LD_PRELOAD": preloaded("short_reads.c")})
    with server.connect() as connection, connection.makefile("rb") as file:
        sender = threading.Thread(target=send_all, args=(connection, push_of(size)), daemon=True)
        sender.start()
        try:
            reply = reply_of(file)
        except ConnectionError:
            reply = None
        sender.join()
    expect(reply, wanted, f"a request of {size} bytes, one in each read")
    expect(server.ask("GET", "/state/b")[0], 404, "on another connection")


def expect_ended(server, beginning, piece, most):
    """Fails unless a connection ends before this many pieces are sent, and the only worker gets to
    the next client."""
    with server.connect() as connection:
        connection.sendall(beginning)
        ended = False
        for _ in range(most):
            try:
                connection.sendall(piece)
            except ConnectionError:
                ended = True
                break
        expect(ended, True, f"it ends before {most} pieces")
        with connection.makefile("rb") as file:
            reply = rest_of(file)
        expect(reply[:13] in (b"", b"HTTP/1.1 413 ", b"HTTP/1.1 400 "), True, reply[:100])
    expect(server.ask("GET", "/state/b")[0], 404, "the next client")


@pytest.mark.parametrize("beginning, piece, most", [
    (b"", b"10000\r\n" + bytes(1 << 16) + b"\r\n", 1000), (b"", b"1\r\n \r\n" * 1000, 10000), (b"1;", b" " * 500, 100000),
    (b"0\r\n", b"X: y\r\n" * 100, 100000)])
def test_a_body_without_end_ends_its_connection(beginning, piece, most):
    server = Server(workers=1)
    chunked = request_text("POST", "/state/a", more="Transfer-Encoding: chunked\r\n")
    expect_ended(server, chunked + beginning, piece, most)
    expect(server.ask("GET", "/state/a")[0], 404, "it is no push")
