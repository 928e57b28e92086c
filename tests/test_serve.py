"""Runs `tfstated serve` and talks to it over sockets: its faults, the effects of clients that go
away, continued journals, the order of syncing and replying, and bodies that are meant to use up all
memory."""
import concurrent.futures
import os
import resource
import signal
import socket
import threading
import time
from pathlib import Path

import pytest

from checking import S1, S2, expect
from programs import preloaded
from sample_states import chain
from serve_program import (LOOPBACK, Server, asked, calls_in, crowd, entries_of, free_port, fresh, hostile, limited, push_large,
                           reply_of, rest_of, run, send_all, state, zeros)
from stdio_program import USAGE, request_text

pytestmark = pytest.mark.usefixtures("tfstated")
A, B = b'{"ID":"A" ,"Who":""}', b'{"ID":"B"}'
MAX_READS = 1048576


def fault(name, status=1):
    """Returns how a run ends by a fault."""
    return b"", status, f"tfstated: {name}\n".encode()


def test_it_serves_changes_reads_and_impact():
    server = Server()
    with server.connect() as connection:
        expect(asked(connection, "GET", "/state/a"), (404, b'{"error":"NoState"}'))
        text = state(2, ("a", "x.y"), ("b", "t.a"), ("c", "t.b"))
        expect(asked(connection, "POST", "/state/a", text), (200, b""))
        expect(asked(connection, "GET", "/state/a"), (200, text))
        answer = b'{"instances":["t.b","t.c"],"position":1,"serial":2}'
        expect(asked(connection, "GET", "/impact/a/any?of=t.a"), (200, answer))
        expect(asked(connection, "LOCK", "/state/a", A), (200, b""))
        expect(server.ask("LOCK", "/state/a", B), (423, A))
        expect(server.ask("GET", "/state/a"), (200, text))
        expect(asked(connection, "UNLOCK", "/state/a", A), (200, b""))
    kinds = [(kind, name) for kind, name, _ in entries_of(server.kill())]
    expect(kinds, [("push", "a"), ("lock", "a"), ("unlock", "a")])


ADDRESS = f"{LOOPBACK}:1"


@pytest.mark.parametrize("words", [
    *[(ADDRESS, workers, "NEW") for workers in ("0", "17", "01", "+1", "", "1.0", "-1", "x", " 1")],
    (), (ADDRESS,), (ADDRESS, "1"), (ADDRESS, "1", "NEW", "a", "b")])
def test_wrong_arguments_show_the_usage(words):
    new = fresh()
    expect(run("serve", *(new if word == "NEW" else word for word in words)), (b"", 2, USAGE), words)
    expect(Path(new).exists(), False, "nothing was made")


def test_the_first_fault_ends_it():
    address = f"{LOOPBACK}:{free_port()}"
    expect(run("serve", address, "1", fresh(), fresh()), fault("CannotRead"))
    expect(run("serve", address, "1", fresh(b"")), fault("CannotCreate"))
    expect(run("serve", address, "1", fresh() + "/inside"), fault("CannotCreate"))
    with socket.create_server((LOOPBACK, 0)) as taken:
        expect(run("serve", f"{LOOPBACK}:{taken.getsockname()[1]}", "1", fresh()), fault("CannotBind"))
    expect(run("serve", "nowhere", "1", fresh()), fault("CannotBind"))
    with open("/dev/full", "wb", buffering=0) as full:
        ran = run("serve", address, "1", fresh(), stdout=full)
        expect(ran[1:], fault("Write")[1:])


def test_old_journals_are_gone_on_with_or_refused():
    first = Server()
    expect(first.ask("POST", "/state/a", S1), (200, b""))
    expect(first.ask("LOCK", "/state/a", B), (200, b""))
    whole = first.kill()
    expect((len(whole), [entry[:2] for entry in entries_of(whole)]), (130, [("push", "a"), ("lock", "a")]))
    address = f"{LOOPBACK}:{free_port()}"
    changed = whole[:40] + bytes([whole[40] ^ 1]) + whole[41:]
    expect(run("serve", address, "1", fresh(), fresh(changed)), fault("Damaged", 4))
    expect(run("serve", address, "1", fresh(), fresh(whole[:20])), fault("TornBase", 3))
    later = Server()
    expect(later.ask("POST", "/state/a", S2), (200, b""))
    unlawful = later.kill() + whole[31:]
    expect(run("serve", address, "1", fresh(), fresh(unlawful)), fault("Unlawful", 5))
    again = Server(old=fresh(whole))
    expect(again.ask("GET", "/state/a"), (200, S1))
    expect(again.ask("LOCK", "/state/a", A), (423, B))
    expect(again.kill(), whole, "the new file has the old text")
    torn = Server(old=fresh(whole[:-1]))
    expect(torn.ask("LOCK", "/state/a", A), (200, b""), "the torn lock is gone")


def test_a_client_that_goes_away_ends_its_connection_alone():
    server = Server(workers=1)
    for count in (0, 1, 20, 60, 96):
        with server.connect() as connection:
            connection.sendall(request_text("POST", "/state/a", S1)[:count])
        expect(server.ask("GET", "/state/b")[0], 404, f"after {count} bytes")
    with server.connect() as connection:
        connection.setsockopt(socket.SOL_SOCKET, socket.SO_LINGER, b"\1\0\0\0\0\0\0\0")
        connection.sendall(request_text("GET", "/state/a") * 100)
    expect(server.ask("GET", "/state/b")[0], 404, "after a reset")


def expect_left(text, least, most):
    """Fails unless a client that has sent this, and is then silent, is left within these limits,
    and the next one is served."""
    server = Server(workers=1)
    with server.connect() as silent, server.connect() as waiting:
        waiting.sendall(request_text("GET", "/state/a"))
        silent.sendall(text)
        began = time.monotonic()
        with silent.makefile("rb") as file:
            rest_of(file)
        expect(least < time.monotonic() - began < most, True, f"the client after {text}")
        with waiting.makefile("rb") as file:
            expect(reply_of(file)[0], 404)


@pytest.mark.parametrize("text", [b"", request_text("GET", "/state/b")])
def test_an_idle_connection_is_closed_after_half_a_second_if_another_waits(text):
    expect_left(text, 0.4, 1.8)


def test_a_client_that_is_silent_within_a_request_is_left_after_ten_seconds():
    expect_left(b"\r\n", 9, 20)


def test_a_slow_request_is_ended_after_a_minute():
    server = Server(workers=2)
    with server.connect() as slow:
        slow.settimeout(2)
        began = time.monotonic()
        slow.sendall(b"GET /state/a HTTP/1.1\r\nX: ")
        try:
            while time.monotonic() - began < 90:
                slow.sendall(b"x")
                try:
                    expect(slow.recv(1), b"", "no reply")
                    break
                except socket.timeout:
                    pass
        except ConnectionError:
            pass
        expect(55 < time.monotonic() - began < 75, True, "about a minute")
    expect(server.ask("GET", "/state/a")[0], 404)


def limit_file_size():
    """Lets files grow to 300 bytes, and ignores the signal for a longer write."""
    signal.signal(signal.SIGXFSZ, signal.SIG_IGN)
    resource.setrlimit(resource.RLIMIT_FSIZE, (300, 300))


def test_a_full_file_stops_changes_alone():
    server = Server(preexec_fn=limit_file_size)
    done = 0
    while (reply := server.ask("POST", "/state/a", S1))[0] == 200:
        done += 1
    expect(reply, (500, b'{"error":"JournalFault"}'))
    expect(server.ask("LOCK", "/state/a", A), (503, b'{"error":"JournalStopped"}'))
    expect(server.ask("GET", "/state/a"), (200, S1))
    expect(server.ask("GET", "/impact/a/any?of=t.a"), (404, b'{"error":"UnknownAddress"}'))
    data = server.kill()
    expect(len(data), 300)
    expect(len(entries_of(data)), done, "each acknowledged change")
    again = Server(old=fresh(data))
    expect(again.ask("GET", "/state/a"), (200, S1))


def test_an_accepted_change_is_synced_before_its_reply():
    reading, writing = os.pipe()
    server = Server(workers=1, env={"LD_PRELOAD": preloaded("trace_calls.c"), "TRACE": str(writing)}, pass_fds=[writing])
    synced = [call for call in calls_in(reading) if call[0] in ("fsync", "fdatasync")]
    file = synced[0][1]
    expect(set(synced), {("fdatasync", file)}, "the header is synced")
    with server.connect() as connection:
        expect(asked(connection, "GET", "/state/a")[0], 404)
        [(_, near)] = [call for call in calls_in(reading) if call[0] != "nodelay"]
        changes = [("POST", S1), ("LOCK", B), ("UNLOCK", B), ("POST", S2), ("DELETE", b"")]
        for method, body in changes:
            expect(asked(connection, method, "/state/a", body), (200, b""), method)
            calls = calls_in(reading)
            expect(calls[:2], [("write", file), ("fdatasync", file)], method)
            expect({descriptor for _, descriptor in calls[2:]}, {near}, f"the reply to {method} comes last")
        expect(asked(connection, "POST", "/state/a", b"abc")[0], 400)
        expect({descriptor for _, descriptor in calls_in(reading)}, {near}, "a refused change writes only its reply")
    os.close(reading)
    os.close(writing)


def test_a_connection_ends_after_1048576_reads():
    server = Server(workers=1, env={"LD_PRELOAD": preloaded("short_reads.c")})
    request = request_text("GET", "/state/a")
    count, rest = divmod(MAX_READS, len(request))
    with server.connect() as connection, connection.makefile("rb") as file:
        sender = threading.Thread(target=send_all, args=(connection, b"\n" * rest + request * count), daemon=True)
        sender.start()
        for number in range(count):
            expect(reply_of(file), (404, b'{"error":"NoState"}'), f"reply {number} of {count}")
        sender.join()
        send_all(connection, b"x\n\n")
        expect(rest_of(file), b"", "after as many reads as bytes of these requests")
    expect(server.ask("GET", "/state/a")[0], 404, "on another connection")


def pushed_by_sixteen(server, text):
    """Returns the statuses of 16 concurrent pushes of a text."""
    statuses = []
    threads = [threading.Thread(target=push_large, args=(server, text, statuses)) for _ in range(16)]
    for thread in threads:
        thread.start()
    for thread in threads:
        thread.join()
    return statuses


def test_sixteen_hostile_bodies_end_nothing():
    server = Server(workers=16, preexec_fn=limited(6 * 10**9))
    for text in (hostile(16 << 20), zeros(16 << 20), crowd(16 << 20)):
        statuses = pushed_by_sixteen(server, text)
        expect(set(statuses) <= {200, 400, 413, 503}, True, statuses)
    expect(server.ask("POST", "/state/a", S1), (200, b""))
    expect(server.process.poll(), None)


def test_bodies_of_more_than_4_mib_are_read_two_at_a_time():
    # One takes 75 MB. With one arena, the other threads can use a thread's freed memory.
    server = Server(workers=16, env={"MALLOC_ARENA_MAX": "1"}, preexec_fn=limited(6 * 10**8))
    expect(pushed_by_sixteen(server, zeros((4 << 20) + 1)), [400] * 16, "two at a time fit")
    refused = any(503 in pushed_by_sixteen(server, zeros(4 << 20)) for _ in range(10))
    expect(refused, True, "sixteen at a time, as bodies of 4 MiB are read, don't fit")


def limit_stack():
    """Limits each thread's stack to 512 KiB."""
    resource.setrlimit(resource.RLIMIT_STACK, (1 << 19, 1 << 19))


@pytest.mark.parametrize("depth, statuses", [(126, (200, 200)), (127, (400, 400)), (10**6, (400, 400))])
def test_the_deepest_requests_fit_into_a_stack_of_512_kib(depth, statuses):
    server, deep = Server(workers=4, preexec_fn=limit_stack), b"[" * depth + b"]" * depth
    push = server.ask("POST", f"/state/a{depth}", S1[:-1] + b',"outputs":' + deep + b"}")
    lock = server.ask("LOCK", f"/state/b{depth}", b'{"ID":"A","Info":' + deep + b"}")
    expect((push[0], lock[0]), statuses, f"{depth} lists in one another")
    expect(server.process.poll(), None)


def test_a_session_answers_each_call_at_the_limits_of_everything():
    name, identifier, most = "n" * 64, "i" * 256, 2**64 - 1
    lock, text = (b'{"ID":"%s"}' % identifier.encode()).ljust(1 << 16), chain(4096, serial=most).ljust(16 << 20)
    reached = ",".join(f'"t.r{number}"' for number in range(1, 4096))
    answer = f'{{"instances":[{reached}],"position":2,"serial":{most}}}'.encode()
    table = [
        ("LOCK", f"/state/{name}", lock, (200, b"")), ("POST", f"/state/{name}?ID={identifier}", text, (200, b"")),
        ("GET", f"/state/{name}", b"", (200, text)), ("LOCK", f"/state/{name}", B, (423, lock)),
        ("GET", f"/impact/{name}/any?" + "&".join(["of=t.r0"] * 64), b"", (200, answer)),
        ("DELETE", f"/state/{name}?ID={identifier}", b"", (200, b"")), ("GET", f"/state/{name}", b"", (404, b'{"error":"NoState"}')),
        ("UNLOCK", f"/state/{name}", lock, (200, b"")),
    ]
    server = Server(workers=1)
    with server.connect() as connection:
        for *request, reply in table:
            expect(asked(connection, *request) == reply, True, request[:2])


def test_each_push_of_more_than_4_mib_gives_its_turn_back():
    server, long = Server(workers=4), [text.ljust((4 << 20) + 1) for text in (S1, S2)]

    def push_two(number):
        with server.connect() as connection:
            return [asked(connection, "POST", f"/state/n{number}", text) for text in long]

    with concurrent.futures.ThreadPoolExecutor(4) as pool:
        expect(list(pool.map(push_two, range(4))), [[(200, b"")] * 2] * 4, "two on each of four connections")
    expect(server.ask("GET", "/state/n3"), (200, long[1]))


def stop_and_continue(server):
    """Stops and continues the program some times. A call that waits for a socket with a time limit
    then ends with EINTR (signal(7))."""
    for _ in range(5):
        for number in (signal.SIGSTOP, signal.SIGCONT):
            time.sleep(0.02)
            server.process.send_signal(number)


def test_a_signal_ends_no_connection():
    server, long = Server(workers=1), S1.ljust(4 << 20)
    with server.connect() as connection, connection.makefile("rb") as file:
        text = request_text("POST", "/state/a", long)
        connection.sendall(text[:10])
        stop_and_continue(server)
        connection.sendall(text[10:])
        expect(reply_of(file), (200, b""), "amid a request")
        connection.sendall(request_text("GET", "/state/a"))
        time.sleep(0.5)  # in which the system's buffers take what they can
        stop_and_continue(server)
        expect(reply_of(file) == (200, long), True, "amid a reply")


def test_two_sessions_work_at_once():
    server = Server(workers=2)
    with server.connect() as idle:
        idle.sendall(b"GET /state/a HTTP/1.1\r\n")
        expect(server.ask("GET", "/state/a")[0], 404, "beside an unfinished request")
        idle.sendall(b"Host: h\r\n\r\n")
        with idle.makefile("rb") as file:
            expect(reply_of(file)[0], 404)
