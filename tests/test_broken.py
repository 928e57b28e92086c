"""Conversations that a fault breaks off: input, output or a journal's file that fails at any byte,
with sockets that are reset and files that may not grow. The output before the fault is written here
by hand. Also counts the writes of a reply."""
import os
import resource
import signal
import socket
import subprocess
from pathlib import Path

import pytest

from checking import S1, S2, SECONDS, expect
from journal_reader import base_text, push_content, record_text
from programs import preloaded
from serve_program import Server, asked, calls_in, entries_of, fresh, run, state
from stdio_model import CLEAN, CUT, DONE, reply_text
from stdio_program import PROGRAM, Talk, request_text, run as run_stdio, run_in_pieces

pytestmark = pytest.mark.usefixtures("tfstated")
GET = b"GET /state/a HTTP/1.1\r\nHost: h\r\n\r\n"
PUSH_AND_GET = b"POST /state/a HTTP/1.1\r\nHost: h\r\nContent-Length: 41\r\n\r\n" + S1 + GET
# The reply to the push is 38 bytes, and that to the read 112.
REPLIES = (
    b"HTTP/1.1 200 OK\r\nContent-Length: 0\r\n\r\n"
    b"HTTP/1.1 200 OK\r\nContent-Type: application/json\r\nContent-Length: 41\r\n\r\n"
    b'{"version":4, "serial":1 ,"lineage":"L1"}'
)
# The same push in chunks, after empty lines and with a trailer, and the same read; the end of the
# push's head, and of its body.
CHUNKS_AND_GET = (
    b"\r\n\n\r\nPOST /state/a HTTP/1.1\r\nHost: h\r\nTransfer-Encoding: chunked\r\n\r\n"
    b'0B;x=y\r\n{"version":\r\n1e\r\n4, "serial":1 ,"lineage":"L1"}\r\n000\r\nA: b\nB:\r\n\r\n' + GET
)
CHUNKS_HEAD_BYTES, CHUNKS_BYTES = 68, 141
A = b'{"ID":"A" ,"Who":""}'
# A journal with one push of S1 to a, and what `check` prints about it.
JOURNAL, LINES = b"TFJ2\n" + base_text(0, []) + record_text(3, b"a", push_content(b"", S1)), b"base 0 0\n1 push a\nwhole\n"


def limited(size):
    """Returns a function that limits the size of files before the program starts. A write past the
    limit is an error without a signal."""
    def limit():
        signal.signal(signal.SIGXFSZ, signal.SIG_IGN)
        resource.setrlimit(resource.RLIMIT_FSIZE, (size, size))
    return limit


def run_into(size, words, data=b""):
    """Runs the program with its output in a file of at most `size` bytes. Returns the file's bytes,
    the status, and standard error."""
    path = Path(fresh())
    with open(path, "wb") as output:
        ran = subprocess.run([PROGRAM, *words], input=data, stdout=output, stderr=subprocess.PIPE, timeout=SECONDS, check=False,
                             preexec_fn=limited(size))
    return path.read_bytes(), ran.returncode, ran.stderr


def run_and_reset(data):
    """Runs the program on an input that fails after these bytes."""
    near, far = socket.socketpair()
    far.sendall(b"unread")  # With bytes that it didn't read, a socket that is closed resets its peer.
    near.sendall(data)
    near.close()
    talk = Talk(stdin=far)
    far.close()
    return talk.end()


def test_a_reader_that_fails_leaves_all_replies_written():
    expect((len(PUSH_AND_GET), len(REPLIES)), (130, 150))
    for count in range(131):
        written = 0 if count < 96 else 38 if count < 130 else 150
        expect(run_and_reset(PUSH_AND_GET[:count]), (REPLIES[:written], 1, b"tfstated: Read\n"), f"after {count} bytes")


def test_a_reader_that_fails_amid_chunks_breaks_off():
    for count in range(CHUNKS_HEAD_BYTES, CHUNKS_BYTES + 1):
        written = 38 if count == CHUNKS_BYTES else 0
        expect(run_and_reset(CHUNKS_AND_GET[:count]), (REPLIES[:written], 1, b"tfstated: Read\n"), f"after {count} bytes")
    expect(run_stdio(CHUNKS_AND_GET), (REPLIES, CLEAN, b""), "all of them")


def test_a_push_in_chunks_that_is_cut_short_is_no_message():
    for count in range(CHUNKS_HEAD_BYTES, CHUNKS_BYTES):
        data = CHUNKS_AND_GET[:count]
        for size in (1, 20, count):
            pieces = [data[at : at + size] for at in range(0, count, size)]
            expect(run_in_pieces(pieces), (b"", CUT, b""), f"{count} bytes in pieces of {size}")


def test_a_writer_that_fails_has_a_front_of_the_replies():
    for size in range(len(REPLIES)):
        expect(run_into(size, ["stdio"], PUSH_AND_GET), (REPLIES[:size], 1, b"tfstated: Write\n"), f"{size} bytes")
    expect(run_into(len(REPLIES), ["stdio"], PUSH_AND_GET), (REPLIES, CLEAN, b""), "just enough")


def test_a_writer_that_fails_has_a_front_of_the_lines_of_a_check():
    journal = fresh(JOURNAL)
    for size in range(len(LINES)):
        expect(run_into(size, ["check", journal]), (LINES[:size], 1, b"tfstated: Write\n"), f"{size} bytes")
    expect(run_into(len(LINES), ["check", journal]), (LINES, 0, b""), "just enough")


def state_of(size):
    """Returns a state of this many bytes."""
    start, end = b'{"version":4,"serial":1,"lineage":"L1","filler":"', b'"}'
    return start + b"x" * (size - len(start) - len(end)) + end


def test_a_writer_that_fails_at_a_long_body_has_the_head():
    body = state_of(16_311)
    front = DONE + b"HTTP/1.1 200 OK\r\nContent-Type: application/json\r\nContent-Length: 16311\r\n\r\n"
    expect(run_into(len(front), ["stdio"], request_text("POST", "/state/a", body) + GET), (front, 1, b"tfstated: Write\n"))


@pytest.mark.parametrize("size, writes", [(100, 1), (16_310, 1), (16_311, 2), (100_000, 2)])
def test_a_reply_of_16384_bytes_is_one_write_and_a_longer_one_is_two(size, writes):
    body = state_of(size)
    expect(len(reply_text(200, body)) <= 16_384, writes == 1, f"{size} bytes")
    reading, writing = os.pipe()
    ran = run_stdio(request_text("POST", "/state/a", body) + GET, "stdio",
                    env={"LD_PRELOAD": preloaded("trace_calls.c"), "TRACE": str(writing)}, pass_fds=[writing])
    expect(ran, (DONE + reply_text(200, body), CLEAN, b""), f"{size} bytes")
    expect(calls_in(reading), [("write", 1)] * (1 + writes), f"{size} bytes: the reply to the push is one write")
    os.close(reading)
    os.close(writing)


def answers(server, *requests):
    """Returns the statuses and bodies of the replies to requests, each on a connection of its
    own."""
    return [server.ask(*request) for request in requests]


FAULT, STOPPED, NONE = (500, b'{"error":"JournalFault"}'), (503, b'{"error":"JournalStopped"}'), (404, b'{"error":"NoState"}')
FIRST, SECOND, CHANGED = (200, S1), (200, S2), (200, b"")


# The header and the base have 31 bytes, and the record of each push 66.
@pytest.mark.parametrize("size, first, second, read", [
    (31, FAULT, STOPPED, NONE), (81, FAULT, STOPPED, NONE), (97, CHANGED, FAULT, FIRST), (147, CHANGED, FAULT, FIRST),
    (163, CHANGED, CHANGED, SECOND)])
def test_each_byte_of_the_journal_may_be_the_last(size, first, second, read):
    server = Server(workers=1, preexec_fn=limited(size))
    found = answers(server, ("POST", "/state/a", S1), ("POST", "/state/a", S2), ("GET", "/state/a"))
    expect(found, [first, second, read], f"{size} bytes")
    expect(len(server.kill()), size)


def test_a_journal_without_room_for_its_base_fails_the_start():
    expect(run("serve", "127.0.0.1:0", "1", fresh(), preexec_fn=limited(30)), (b"", 1, b"tfstated: SinkFault\n"))


def test_a_journal_is_opened_if_its_file_holds_all_of_it():
    record = record_text(1, b"a", b'{"ID":"B"}')
    old = fresh(b"TFJ1\n" + record_text(3, b"a", push_content(b"", S1)) + record)
    expect((len(Path(old).read_bytes()), len(JOURNAL + record)), (104, 130))
    for size in (0, 50, 100, 129):
        ran = run("serve", "127.0.0.1:0", "1", fresh(), old, preexec_fn=limited(size))
        expect(ran, (b"", 1, b"tfstated: SinkFault\n"), f"{size} bytes")
    server = Server(workers=1, old=old, preexec_fn=limited(130))
    expect(server.ask("GET", "/state/a"), (200, S1))
    expect(server.kill(), JOURNAL + record, "the new journal has the text of format 2")


def test_a_stopped_table_reads_and_takes_no_change():
    server = Server(workers=1, preexec_fn=limited(147))
    table = [
        ("POST", "/state/a", S1, CHANGED), ("POST", "/state/a", S2, FAULT), ("GET", "/state/a", b"", FIRST),
        ("GET", "/impact/a/any?of=t.a", b"", (404, b'{"error":"UnknownAddress"}')), ("LOCK", "/state/a", A, STOPPED),
        ("POST", "/state/a", state(2, ("a",)), STOPPED), ("POST", "/state/a", b"abc", (400, b'{"error":"BadState"}')),
    ]
    for method, target, body, wanted in table:
        expect(server.ask(method, target, body), wanted, f"{method} {target} {body}")
    data = server.kill()
    expect((len(data), [entry[:2] for entry in entries_of(data)]), (147, [("push", "a")]))


def test_a_fault_is_shown_to_no_session():
    chain = [state(serial, ("a", "x.y"), ("b", "t.a"), ("c", "t.b")) for serial in (1, 2)]
    answer = (200, b'{"instances":["t.b","t.c"],"position":1,"serial":1}')
    server = Server(workers=2, preexec_fn=limited(600))
    with server.connect() as first, server.connect() as second:
        expect(asked(first, "POST", "/state/a", chain[0]), (200, b""))
        expect(asked(second, "GET", "/impact/a/any?of=t.a"), answer)
        expect(asked(first, "POST", "/state/a", chain[1]), (500, b'{"error":"JournalFault"}'))
        expect(asked(second, "POST", "/state/a", chain[1]), (503, b'{"error":"JournalStopped"}'))
        for session in (first, second):
            expect(asked(session, "GET", "/impact/a/any?of=t.a"), answer)
            expect(asked(session, "GET", "/state/a"), (200, chain[0]))
