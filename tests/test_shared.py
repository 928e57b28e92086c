"""Refuses requests for memory of a server with one worker, by a preloaded shim: each request of a
talk, one in each run, and all from each one on. A refused request gets that reply, or its
connection ends, and it changes nothing. With ample memory, a call of a shared table requests memory
hardly more often than the same call of a table alone, however large the state is."""
import io
import os
from pathlib import Path

import pytest

from checking import S1, expect
from refused_requests import FOREVER, SHIM, run_refused
from sample_states import chain
from serve_program import LOOPBACK, Server, answer_of, answer_over, entries_of, free_port, fresh, reply_of
from stdio_model import Request, Table
from stdio_program import PROGRAM, request_text

pytestmark = pytest.mark.usefixtures("tfstated")
A, B = b'{"ID":"A" ,"Who":""}', b'{"ID":"B"}'
NO_MEMORY = (503, b'{"error":"OutOfMemory"}')
QUERY = ("GET", "/impact/a/any?of=t.r0", b"")
TALK = [("POST", "/state/a", S1), ("GET", "/state/a", b""), ("LOCK", "/state/a", B), ("LOCK", "/state/a", A),
        ("GET", "/impact/a/any?of=t.a", b""), ("UNLOCK", "/state/a", B)]
LONG_TALK = [("POST", "/state/a", chain(70)), QUERY, ("GET", "/state/a", b"")]
KINDS = {"POST": "push", "LOCK": "lock", "UNLOCK": "unlock"}
# A push of a shared table prepares the publication, and a list that grows requests memory again now
# and then.
MORE_OF_A_PUSH, MORE_IN_ALL = 5, 2


def end_between_connections(server):
    """Ends a server with one worker by shutting its listening socket. Memory may be refused to one
    connection before."""
    for _ in range(2):
        with server.connect() as held:
            reply = answer_over(held, ("GET", "/state/b"))
            if reply == (404, b'{"error":"NoState"}'):
                server.shut()
                break
            expect(reply in (None, NO_MEMORY), True, f"{reply}")
    return server.end()


class Refusing(Server):
    """A server with one worker, whose requests for memory from the first to the last are
    refused."""

    def __init__(self, first, last):
        reading, writing = os.pipe()
        given = {"LD_PRELOAD": str(SHIM), "REFUSE_FROM": str(first), "REFUSE_TO": str(last), "COUNTS": str(writing)}
        super().__init__(workers=1, env=given, pass_fds=[writing])
        os.close(writing)
        self.counts = reading

    def requests(self):
        """Ends the server. Returns how many requests for memory it has made."""
        expect(end_between_connections(self), (b"", 1, b"tfstated: AcceptFault\n"), "its end")
        with os.fdopen(self.counts) as counts:
            return int(counts.read().split()[0])


def changes_in(data):
    return [kind for kind, _, _ in entries_of(data)]


def talk_refused(talk, first, last):
    """Returns the replies to the requests of a talk, each on a connection of its own, if requests
    for memory from the first to the last are refused; also the changes in the journal, and how many
    requests the program made."""
    server = Refusing(first, last)
    replies = [answer_of(server, request) for request in talk]
    requests = server.requests()
    return replies, changes_in(Path(server.new).read_bytes()), requests


def told_without(talk, number):
    """Returns the replies to a talk, and the changes in the journal, if the request with this
    number changes nothing."""
    table, replies = Table(), []
    for each, request in enumerate(talk):
        replies.append(None if each == number else reply_of(io.BytesIO(table.reply(Request(*request)))))
    return replies, [KINDS[method] for (method, _, _), reply in zip(talk, replies) if method in KINDS and reply and reply[0] == 200]


def allowed_talks(talk):
    """Yields the outcomes of a talk if one request for memory is refused: all replies; or a request
    is OutOfMemory or its connection ends, and it has changed nothing; or it has succeeded, and only
    its reply is lost."""
    whole, kinds = told_without(talk, None)
    yield whole, kinds
    for number in range(len(talk)):
        replies, fewer = told_without(talk, number)
        yield replies, fewer
        yield [*replies[:number], NO_MEMORY, *replies[number + 1 :]], fewer
        yield [*whole[:number], None, *whole[number + 1 :]], kinds


def requests_at_the_start():
    """Returns how many requests for memory are made before the first connection."""
    with open("/dev/full", "wb", buffering=0) as full:
        return run_refused([PROGRAM, "serve", f"{LOOPBACK}:{free_port()}", "1", fresh()], 0, 0, stdout=full)[3]


def expect_refused_in_turn(talk):
    allowed, seen, before = list(allowed_talks(talk)), [set() for _ in talk], requests_at_the_start()
    *ample, requests = talk_refused(talk, 0, 0)
    expect(tuple(ample), allowed[0], "with ample memory")
    expect(before < requests, True, f"{before} of {requests} requests are made at the start")
    for request in range(before + 1, requests + 1):
        *told, _ = talk_refused(talk, request, request)
        expect(tuple(told) in allowed, True, f"request {request} of {requests}: {told}")
        for replies, reply in zip(seen, told[0]):
            replies.add(reply)
    expect([{NO_MEMORY, None} <= replies for replies in seen], [True] * len(talk), "each is told so once, and its connection ends once")


def test_a_connection_that_is_refused_memory_ends_alone():
    expect_refused_in_turn(TALK)


def test_a_push_and_a_query_of_70_instances_that_are_refused_change_nothing():
    expect_refused_in_turn(LONG_TALK)


@pytest.mark.parametrize("talk", [TALK, LONG_TALK])
def test_all_requests_from_each_one_on_are_refused(talk):
    (whole, kinds), before = told_without(talk, None), requests_at_the_start()
    for first in range(before + 1, talk_refused(talk, 0, 0)[-1] + 1):
        server = Refusing(first, FOREVER)
        replies = [answer_of(server, request) for request in talk]
        left, _ = changes_in(server.kill()), os.close(server.counts)
        told = next((number for number, reply in enumerate(replies) if reply in (NO_MEMORY, None)), len(talk))
        expect((replies[:told], set(replies[told:]) <= {NO_MEMORY, None}), (whole[:told], True), f"from request {first} on: {replies}")
        done = len([method for (method, _, _), reply in zip(talk, replies[:told]) if method in KINDS and reply[0] == 200])
        expect(left == kinds[: len(left)] and len(left) in (done, done + 1), True, f"from request {first} on: {left}")


def requests_of(state, request, times):
    """Returns how many requests for memory are made if a state is pushed and a request follows this
    many times on one connection: by a server, and by a table alone."""
    talk = [("POST", "/state/a", state)] + [request] * times
    server = Refusing(0, 0)
    with server.connect() as connection:
        expect({answer_over(connection, each)[0] for each in talk}, {200}, f"{request[:2]}")
    alone = run_refused([PROGRAM, "stdio"], 0, 0, b"".join(request_text(*each) for each in talk))
    expect(alone[1], 0, "alone")
    return server.requests(), alone[3]


@pytest.mark.parametrize("kind", ["read", "query", "push"])
@pytest.mark.parametrize("count", [1, 300, 4096])
def test_a_shared_table_asks_for_memory_hardly_more_often_than_one_alone(count, kind):
    state = chain(count)
    more, request = {"read": (0, ("GET", "/state/a", b"")), "query": (0, QUERY), "push": (MORE_OF_A_PUSH, ("POST", "/state/a", state))}[kind]
    shared, alone = (of_twenty - of_ten for of_twenty, of_ten in zip(requests_of(state, request, 20), requests_of(state, request, 10)))
    expect(shared - alone <= 10 * more + MORE_IN_ALL, True, f"{request[:2]} of {count}: {shared} and {alone} requests of ten")
