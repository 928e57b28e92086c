"""What `tfstated serve` does if memory is refused at its start, by a preloaded shim, and how much
memory it needs for texts that are long or meant to take much."""
import contextlib
import itertools
import os
import re
import select
import statistics
import threading
import time
from pathlib import Path

import pytest

from checking import S1, expect
from journal_reader import base_text, push_content, record_text
from programs import preloaded
from refused_requests import FOREVER, run_refused
from sample_states import chain
from serve_program import LOOPBACK, Server, answer_of, asked, free_port, fresh, hostile, limited, push_large, reply_of, state
from stdio_program import PROGRAM, USAGE, request_text

pytestmark = pytest.mark.usefixtures("tfstated")
A, B = b'{"ID":"A" ,"Who":""}', b'{"ID":"B"}'
WHOLE = b"TFJ2\n" + base_text(0, []) + record_text(3, b"a", push_content(b"", S1)) + record_text(1, b"a", B)
# The limit for a small request while bodies are read for seconds, and the least number of answers
# meanwhile. A client that waits for one of these bodies each time gets far fewer answers. If memory
# runs out, some requests may be refused, at most a tenth.
SMALL_SECONDS, SMALL_ANSWERS = 5, 120
# The limit for 15 such bodies, which are read one after the other; reading one takes 0.4 GB.
IN_TURN_BYTES = 1_000_000_000
# A state of 8 MB and its results take a few times its bytes: the body, its document, the index and
# the journal's record.
TIMES_ITS_BYTES = 8
# The limit of memory for an answer of any length, and the variation of the median of 200 times from
# run to run.
ANSWER_BYTES, SPREAD_SECONDS = 10_000_000, 0.001
# The long blocks of four pushes: the body, the record and the index of each, and what is freed of
# them.
LONG_BLOCKS = 16


def refused_starts(requests, words, new):
    """Yields how a start ends if each of its requests for memory is refused, alone, and with all
    after it, and the bytes of NEW then."""
    with open("/dev/full", "wb", buffering=0) as full:
        for first in range(1, requests + 2):
            for last in (first, FOREVER):
                Path(new).unlink(missing_ok=True)
                _, status, errors, _, others = run_refused(words, first, last, stdout=full)
                expect(others, 0, f"requests {first} to {last}: those of others")
                yield first > requests, (status, errors, Path(new).read_bytes() if Path(new).exists() else None)


def test_a_start_that_is_refused_memory_reports_it():
    # The server would run without end. A full standard output makes it end by itself.
    new = fresh()
    words = [PROGRAM, "serve", f"{LOOPBACK}:{free_port()}", "2", new, fresh(WHOLE)]
    with open("/dev/full", "wb", buffering=0) as full:
        requests = run_refused(words, 0, 0, stdout=full)[3]
    runs = list(refused_starts(requests, words, new))
    ample, no_memory = (1, b"tfstated: Write\n", WHOLE), b"tfstated: NoMemory\n"
    expect({ran for is_ample, ran in runs if is_ample}, {ample}, "no further request")
    seen = {ran for _, ran in runs}
    faults = {(1, no_memory, left) for left in (None, b"", WHOLE)}
    usage, unbound = (2, USAGE, None), (1, b"tfstated: CannotBind\n", WHOLE)
    expect(seen <= {ample, usage, unbound} | faults, True, seen)
    expect(seen >= {usage} | faults, True, f"memory is refused at each place: {seen}")


def most_memory(server):
    """Returns the peak memory of a server in bytes."""
    lines = Path(f"/proc/{server.process.pid}/status").read_text().splitlines()
    return next(int(line.split()[1]) * 1024 for line in lines if line.startswith("VmHWM:"))


def long_module_path(length):
    """Returns a state of 4,096 instances; 4,095 have a module path of this many bytes and depend on
    the other one."""
    instances = ",".join('{"index_key":%d,"dependencies":["t.a"]}' % number for number in range(4095))
    own = '{"module":"module.%s","mode":"managed","type":"t","name":"n","instances":[%s]}' % ("m" * length, instances)
    return state(1, ("a",))[:-2] + b", " + own.encode() + b"]}"


def answer_texts(length, position):
    """Yields the texts that together are the body of the answer with these 4,095 instances."""
    yield b'{"instances":['
    for number in range(4095):
        yield b'%s"module.%s.t.n[%d]"' % (b"," * (number > 0), b"m" * length, number)
    yield b'],"position":%d,"serial":1}' % position


def answer_length(length, position):
    """Returns their length in bytes."""
    return sum(map(len, answer_texts(0, position))) + 4095 * length


def length_of_answer(file):
    """Reads the head of an answer, and returns the stated length of its body."""
    return int(re.search(rb"Content-Length: ([0-9]+)", b"".join(iter(file.readline, b"\r\n")))[1])


@contextlib.contextmanager
def asking(connection):
    """Asks for the state of b five times a second on a connection, and checks that each reply shows
    it. A worker must wait for a connection meanwhile: if none waits, a connection without a request
    is ended after half a second, and a busy machine may take that long."""
    ended, replies = threading.Event(), []

    def ask():
        while not ended.wait(0.2):
            replies.append(asked(connection, "GET", "/state/b"))

    thread = threading.Thread(target=ask)
    thread.start()
    try:
        yield
    finally:
        ended.set()
        thread.join()
    expect([reply for reply in replies if reply != (200, S1)], [], "replies beside that tell something else")


def test_a_long_module_path_takes_a_few_times_its_bytes():
    length = 8 << 20
    server, text = Server(workers=3, preexec_fn=limited(6 * 10**9)), long_module_path(length)
    with server.connect() as other:
        expect(asked(other, "POST", "/state/b", S1), (200, b""))
        before = most_memory(server)
        with asking(other):
            expect(server.ask("POST", "/state/a", text), (200, b""))
            with server.connect() as connection, connection.makefile("rb") as file:
                connection.sendall(request_text("GET", "/impact/a/any?of=t.a"))
                expect(length_of_answer(file), answer_length(length, 2), "the length of an answer of 34 GB")
                for told in itertools.islice(answer_texts(length, 2), 9):
                    expect(file.read(len(told)) == told, True, "its first 64 MiB, behind which its client leaves it")
            times = (most_memory(server) - before) / len(text)
            expect(times < TIMES_ITS_BYTES, True, f"it took {times:.1f} times its bytes")
        expect(asked(other, "GET", "/state/b"), (200, S1), "on a connection that was there before")
        expect(asked(other, "GET", "/impact/b/any?of=t.a"), (404, b'{"error":"UnknownAddress"}'))
    expect(server.ask("GET", "/state/a"), (200, text))


def test_an_answer_of_410_mb_takes_at_most_10_mb():
    server = Server(workers=1)
    with server.connect() as connection, connection.makefile("rb") as file:
        expect(asked(connection, "POST", "/state/a", long_module_path(100_000)), (200, b""))
        before = most_memory(server)
        connection.sendall(request_text("GET", "/impact/a/any?of=t.a"))
        expect(length_of_answer(file), answer_length(100_000, 1))
        for told in answer_texts(100_000, 1):
            expect(file.read(len(told)) == told, True, "the body")
        grown = most_memory(server) - before
        expect(grown < ANSWER_BYTES, True, f"it took {grown} bytes")
        expect(asked(connection, "GET", "/state/b")[0], 404, "the conversation goes on")


def small_seconds(server):
    """Returns the median of the times of 200 small requests on a connection."""
    with server.connect() as connection:
        times = []
        for _ in range(200):
            began = time.monotonic()
            expect(asked(connection, "GET", "/state/b"), (200, S1))
            times.append(time.monotonic() - began)
        return statistics.median(times)


def test_twelve_clients_that_leave_long_answers_unread_leave_others_served():
    server = Server(workers=16)
    expect(server.ask("POST", "/state/a", long_module_path(100_000)), (200, b""))
    expect(server.ask("POST", "/state/b", S1), (200, b""))
    alone = small_seconds(server)
    with contextlib.ExitStack() as stack:
        clients = [stack.enter_context(server.connect()) for _ in range(12)]
        for client in clients:
            client.sendall(request_text("GET", "/impact/a/any?of=t.a"))
        for client in clients:
            expect(select.select([client], [], [], SMALL_SECONDS)[0], [client], "each answer is begun")
        beside = small_seconds(server)
    expect(beside < 2 * alone + SPREAD_SECONDS, True, f"{beside * 1000:.2f} ms beside, {alone * 1000:.2f} ms alone")


def in_chunks(text, size):
    """Returns a push of the text in chunks of this size, each with an extension of 1,000 bytes on
    its line."""
    line = b"%x;%s\r\n" % (size, b"x" * 1000)
    chunks = b"".join(line + text[at : at + size] + b"\r\n" for at in range(0, len(text), size))
    return b"POST /state/a HTTP/1.1\r\nHost: h\r\nTransfer-Encoding: chunked\r\n\r\n" + chunks + b"0\r\n\r\n"


def test_chunks_take_the_memory_of_the_bytes_in_them():
    server, text = Server(workers=1), S1.ljust(1 << 20)
    push = in_chunks(text, 16)
    with server.connect() as connection:
        expect(asked(connection, "POST", "/state/b", S1), (200, b""))
        before = most_memory(server)
        connection.sendall(push)
        with connection.makefile("rb") as file:
            expect(reply_of(file), (200, b""))
        grown = most_memory(server) - before
        expect(grown < TIMES_ITS_BYTES * len(text), True, f"it took {grown} bytes for {len(push)} on the wire")
        expect(asked(connection, "GET", "/state/a"), (200, text))


def ask_small(server, serial):
    """Makes a push, a read and a query, each on a connection of its own. Returns the statuses, None
    if a connection ends without a reply, and the seconds of the longest request."""
    statuses, longest = [], 0
    for request in (("POST", "/state/a", state(serial, ("a",), ("b", "t.a"))), ("GET", "/state/a"), ("GET", "/impact/a/any?of=t.a")):
        began = time.monotonic()
        reply = answer_of(server, request)
        statuses.append(reply and reply[0])
        longest = max(longest, time.monotonic() - began)
    return statuses, longest


def test_small_clients_are_answered_during_fifteen_hostile_bodies():
    server, large, body = Server(workers=16, preexec_fn=limited(6 * 10**9)), [], hostile(16 << 20)
    expect(server.ask("POST", "/state/a", state(1, ("a",), ("b", "t.a"))), (200, b""))
    threads = [threading.Thread(target=push_large, args=(server, body, large)) for _ in range(15)]
    for thread in threads:
        thread.start()
    told, longest = [], 0
    while any(thread.is_alive() for thread in threads):
        statuses, seconds = ask_small(server, len(told) + 2)
        told, longest = told + statuses, max(longest, seconds)
        time.sleep(0.02)
    expect(longest < SMALL_SECONDS, True, f"a small request took {longest:.1f} s")
    expect(set(told) <= {200, 503, None}, True, set(told))
    expect(told.count(200) >= max(SMALL_ANSWERS, 0.9 * len(told)), True, f"{told.count(200)} of {len(told)} small requests are answered")
    expect(len(large) == 15 and set(large) <= {200, 400, 503}, True, large)
    expect(most_memory(server) < IN_TURN_BYTES, True, f"{most_memory(server)} bytes at once")
    expect(server.ask("GET", "/state/b")[0], 404, "nothing has ended")


def long_push(serial):
    """Returns a state of 600,000 bytes and 2,048 instances, whose index has 524,288 bytes."""
    return chain(2048, serial=serial).ljust(600_000)


def push_in_turn(server, count, replies):
    """Pushes this many states of one name, one after the other."""
    for serial in range(1, count + 1):
        replies.append(server.ask("POST", "/state/a", long_push(serial)))


def test_no_long_block_is_asked_for_or_freed_under_the_lock():
    # A thread that requests or frees a long block is held until a change of another workspace is
    # judged, which is refused and publishes nothing.
    (told, telling), (going_on, lets_go) = os.pipe(), os.pipe()
    given = {"LD_PRELOAD": preloaded("hold_blocks.c"), "LONG": "500000", "TOLD": str(telling), "GOES_ON": str(going_on)}
    server, replies, held = Server(workers=2, env=given, pass_fds=[telling, going_on]), [], 0
    expect(server.ask("LOCK", "/state/b", B), (200, b""))
    pushing = threading.Thread(target=push_in_turn, args=(server, 4, replies), daemon=True)
    pushing.start()
    while pushing.is_alive():
        if select.select([told], [], [], 0.1)[0]:
            os.read(told, 1)
            expect(server.ask("LOCK", "/state/b", A), (423, B), f"beside the long block {held}")
            held += 1
            os.write(lets_go, b"x")
    expect(replies, [(200, b"")] * 4, "the pushes")
    expect(held >= LONG_BLOCKS, True, f"{held} long blocks")
